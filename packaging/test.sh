#!/usr/bin/env bash
# Fresh roots of Debian and Ubuntu. In each it installs dist/*.deb and the wheel, runs programs, builds the C example, looks for what the
# installed pages name, removes the packages, and sees that nothing stays. Where the release has rustc 1.85, it then builds and installs a
# clone by the two commands of README, and the source tarball, and plans by the crate for Rust in a new project: there is no kit and, while
# they build, no network. Needs root, debootstrap and the network, else it is skipped with a message. The last line is "N passed, M failed".
#
#   packaging/test.sh [ROOT..]     ROOT: a release, or RELEASE:ARCHITECTURE, or the folder of a root, which is copied. By default five
#                                  releases, of which bullseye has glibc 2.31, and arm64 if the kernel has an emulator. For an arm64
#                                  root that is named here, the script lends the kernel that of the package qemu-user-static
#
# QUICK, if set, leaves out `make test`, which takes most of the time.
set -u
cd "$(dirname "$0")/.." || exit 1
. tests/lib.sh
. tests/callers/room.sh
[ "$(id -u)" -eq 0 ] || skip_all 'the packages' 'that needs root'
require 'the packages' debootstrap git
version=$(cat VERSION)
here=$(dpkg --print-architecture)
handlers=/proc/sys/fs/binfmt_misc
handler=/usr/lib/binfmt.d/qemu-aarch64.conf
trap end EXIT
# a root has no such folder
unset TMPDIR

# lend_emulator: has the kernel run programs of arm64 by qemu until this script ends, unless it does so already.
lend_emulator() {
    ! grep -qs enabled "$handlers/qemu-aarch64" && [ -f "$handler" ] || return 0
    [ -e "$handlers/register" ] || mount -t binfmt_misc binfmt_misc "$handlers"
    cat "$handler" > "$handlers/register" && lent=yes
}

end() {
    [ -z "${lent-}" ] || echo -1 > "$handlers/qemu-aarch64"
    rm -rf --one-file-system "$scratch"
}

# no_mention COMMAND..: whether a command succeeds and prints nothing about this project.
no_mention() {
    "$@" > "$scratch/printed" && ! grep zigrunk "$scratch/printed"
}

# all_found COMMAND..: whether an ldd finds all libraries, versions and symbols.
all_found() {
    "$@" > "$scratch/printed" 2>&1 && ! grep -E 'not found|undefined' "$scratch/printed"
}

# bootstrap RELEASE ARCHITECTURE FOLDER: a fresh root. Debian doesn't have Ubuntu's keys, so nobody checks who signed Ubuntu's packages.
bootstrap() {
    local words=(--variant=minbase "--arch=$2")
    case $1 in
    jammy | noble) words+=("--components=main,universe" --no-check-gpg) ;;
    esac
    debootstrap "${words[@]}" "$1" "$3"
}

inside() {
    chroot "$root" env -C /root DEBIAN_FRONTEND=noninteractive LC_ALL=C "$@"
}

# offline COMMAND..: the same without a network. It has /proc and terminals, as a machine does: rustfmt 1.85 stops without the first.
offline() {
    # shellcheck disable=SC2016 # for sh
    unshare --net --mount sh -c 'mount -t proc proc "$0/proc" && mount -t devpts -o newinstance,ptmxmode=666 devpts "$0/dev/pts" && exec chroot "$0" "$@"' \
        "$root" env -C /root LC_ALL=C CARGO_HOME=/root/cargo "${profile[@]}" "$@"
}

# pages: the text of the installed pages.
pages() {
    gzip -dcf "$root"/usr/share/man/man[13]/*zigrunk* "$root"/usr/share/man/man1/cudaplan* "$root"/usr/share/doc/zigrunk/{,proof/}*.* | sed 's/\\-/-/g'
}

# named_files: what the installed pages name is installed too: this project's files, and its pages.
named_files() {
    pages | grep -oE '/usr/(share|lib|include|bin)/[A-Za-z0-9_./+-]*(zigrunk|cudaplan)[A-Za-z0-9_./+-]*[A-Za-z0-9]' > "$scratch/named"
    pages | sed -nE 's,^\.BR ((zigrunk|cudaplan)[a-z.-]*) \(([0-9])\).*,/usr/share/man/man\3/\1.\3.gz,p' >> "$scratch/named"
    [ -s "$scratch/named" ] && LC_ALL=C sort -u "$scratch/named" | while read -r name; do
        [ -e "$root$name" ] || echo "missing: $name"
    done > "$scratch/missing"
    cat "$scratch/missing"
    [ ! -s "$scratch/missing" ]
}

# nothing_stays: whether no file of this project is installed.
nothing_stays() {
    prints '' find "$root/usr" "$root/etc" "$root/var" -name '*zigrunk*' -o -name '*cudaplan*'
}

# prepare: the dry runs of a call, and stand-ins for the tools that they name.
prepare() {
    local tool
    cp tests/drivers/test_plans/data/dry_runs/one_target.dry* "$root/root"
    mkdir -p "$root/root/t" "$root/opt/cuda/bin" "$root/opt/cuda/nvvm/bin"
    for tool in bin/gcc bin/cudafe++ bin/ptxas bin/fatbinary nvvm/bin/cicc; do
        ln -s /bin/true "$root/opt/cuda/$tool"
    done
    moved_room "$root/root/room" /root/room
    cp "$root/bin/ls" "$root/root/room/bin/cudafe++"
}

# programs NAME: the programs on the path.
programs() {
    check "$1: the version" prints "zigrunk $version" inside zigrunk --version
    check "$1: a plan" inside cudaplan plan /w /t -c one_target.dry1 one_target.dry2
    check "$1: a plan as JSON" inside zigrunk plan --dry-runs one_target.dry1 one_target.dry2 --tmp /root/t json
}

# planned PREFIX PROGRAM: whether the example prints the programs of a call, for which nvcc and its tools are stand-ins.
planned() {
    prints "$(printf '/root/room/bin/%s\n' gcc cudafe++ gcc cicc ptxas fatbinary gcc)" \
        inside env "LD_LIBRARY_PATH=$1/lib" PATH=/root/room/bin:/usr/bin:/bin "$2" /root/room/w /root/room/t -c kernel.cu -o kernel.o
}

# in_c NAME PREFIX: the example in C with the installed library.
in_c() {
    # shellcheck disable=SC2016 # for sh
    check "$1: the example in C" inside env "PKG_CONFIG_PATH=$2/lib/pkgconfig" sh -c \
        'cc -o example "$1/share/zigrunk/c/plan.c" $(pkg-config --cflags --libs zigrunk)' _ "$2"
    check "$1: what it prints" planned "$2" ./example
    check "$1: the example with the archive" inside cc -pthread -o archived "-I$2/include" "$2/share/zigrunk/c/plan.c" "$2/lib/libzigrunk.a"
    check "$1: what that prints" planned /none ./archived
}

# debs ARCHITECTURE: the Debian packages, as apt-get in the root has them.
debs() {
    printf '/root/%s.deb\n' "zigrunk_${version}_$1" "libzigrunk2_${version}_$1" "libzigrunk-dev_${version}_$1" "python3-zigrunk_${version}_all"
}

# package NAME ARCHITECTURE: the Debian packages.
package() {
    local files
    cp dist/*.deb "$root/root"
    mapfile -t files < <(debs "$2")
    check "$1: the packages install" inside apt-get install -y --no-install-recommends "${files[@]}"
    programs "$1"
    check "$1: Ninja" inside apt-get install -y --no-install-recommends ninja-build
    check "$1: a plan that Ninja runs" inside sh -c 'zigrunk plan --dry-runs one_target.dry1 one_target.dry2 --tmp /root/t ninja > build.ninja && ninja'
    check "$1: zigrunk-nvcc, for a call that isn't split" prints '--preprocess k.cu' inside env ZIGRUNK_NVCC=echo zigrunk-nvcc --preprocess k.cu
    check "$1: what the library needs" all_found inside ldd -r /usr/lib/libzigrunk.so.2
    check "$1: the module for Python" prints "$version" inside python3 -c 'import zigrunk; print(zigrunk.version())'
    wheel "$1" "$2"
    check "$1: a compiler" inside apt-get install -y --no-install-recommends gcc libc6-dev pkg-config
    in_c "$1" /usr
    check "$1: what its pages name" named_files
    check "$1: removing them" inside apt-get purge -y zigrunk libzigrunk2 libzigrunk-dev python3-zigrunk
    check "$1: nothing stays" nothing_stays
    check "$1: the linker has forgotten it" no_mention inside ldconfig -p
}

# wheel NAME ARCHITECTURE: the wheel, unpacked into a folder as pip does it.
wheel() {
    local processor=x86_64
    [ "$2" = amd64 ] || processor=aarch64
    cp dist/*_"$processor".whl "$root/root"
    check "$1: the wheel" inside sh -c 'rm -rf wheel && python3 -m zipfile -e *_"$1".whl wheel' sh "$processor"
    check "$1: the library of the wheel" prints "$version" inside env PYTHONPATH=wheel python3 -c 'import zigrunk; print(zigrunk.version())'
}

# proved NAME: the tarball of the proved programs, which are for x86-64.
proved() {
    local tarball=dist/zigrunk-$version-x86_64-linux.tar.gz bin=/root/zigrunk-$version-x86_64-linux/bin
    [ -f "$tarball" ] || return 0
    tar -x -C "$root/root" -f "$tarball"
    check "$1: the proved tarball, from another folder" prints "zigrunk $version" inside env -C / "$bin/zigrunk" --version
    check "$1: its program on the path" prints "zigrunk $version" inside env -C / PATH="$bin:/usr/bin:/bin" zigrunk --version
}

# tests FOLDER: whether `make test` there ends well, by its status and last line.
tests() {
    offline make -s -C "$1" test > "$scratch/tests" 2>&1 || { tail -n 30 "$scratch/tests"; return 1; }
    tail -n 1 "$scratch/tests" | grep -E '^[1-9][0-9]* passed, 0 failed'
}

# new_project PREFIX: a program in Rust that plans, in a new project.
new_project() {
    offline cargo new --quiet --vcs none planner && offline env -C /root/planner cargo add --quiet --offline --path "$1/share/zigrunk/rust/zigrunk" || return 1
    cat > "$root/root/planner/src/main.rs" << 'END'
use zigrunk::{Call, NvccCall, variables};

fn main() {
    let environment: Vec<_> = std::env::vars_os().collect();
    let words = ["-c", "k.cu", "-o", "k.o"];
    let call = Call::new(&NvccCall::new("/none", &words).at("/w", "/t").variables(&variables(&environment)));
    println!("{}", call.is_ok_and(|call| call.plan().is_err()));
}
END
    prints true offline env -C /root/planner cargo run --quiet --offline
}

# demo: a line of cicc is in what the clone's demo prints.
demo() {
    offline make -s -C clone demo | grep 'cicc --c++17'
}

# crates_for NAME: the crates that a clone needs: Debian 13's packages, or what `make vendor` takes of them elsewhere.
crates_for() {
    if [[ $1 == trixie* ]]; then
        check "$1: the packages of crates" inside apt-get install -y --no-install-recommends "${crates[@]}"
    else
        check "$1: make vendor" inside make -s -C clone vendor
    fi
}

# clone NAME: a clone, by the commands of README.
clone() {
    local crates
    mkdir -p "$root/root/clone"
    git archive HEAD | tar -x -C "$root/root/clone"
    mapfile -t crates < <(grep -v '^#' packaging/debian.txt)
    crates_for "$1"
    check "$1: make rust" offline make -s -C clone rust
    check "$1: make install" offline make -s -C clone install PREFIX=/usr/local
    programs "$1, a clone"
    in_c "$1, a clone" /usr/local
    check "$1: make demo" demo
    [ "$architecture" != "$here" ] || [ -n "${QUICK-}" ] || check "$1: make test" tests clone
}

# crate NAME: the crate for Rust, and what a clone has of tests and examples in Rust.
crate() {
    check "$1: tests and examples compile" offline env -C /root/clone/out/rust cargo check --quiet --offline --workspace --all-targets
    check "$1: a new project in Rust" new_project /usr/local
}

# tarball NAME: the source tarball.
tarball() {
    check "$1: unpacking the source tarball" tar -x -C "$root/root" -f "dist/zigrunk-$version.tar.gz"
    check "$1: the source tarball" offline make -s -C "zigrunk-$version" install PREFIX=/usr/local
    programs "$1, the source tarball"
    [ -n "${QUICK-}" ] || check "$1: make test of the source tarball" tests "zigrunk-$version"
    check "$1: removing it" inside make -s -C "zigrunk-$version" uninstall PREFIX=/usr/local
    check "$1: nothing of the tarball stays" nothing_stays
}

# is_new_enough PACKAGE: whether the root can have rustc 1.85 by this package.
is_new_enough() {
    inside apt-cache policy "$1" | grep -qE 'Candidate: 1\.(8[5-9]|9)'
}

# sources NAME TOOL..: a clone and the source tarball, with the packages that have rustc and cargo.
sources() {
    local name=$1 profile=()
    check "$name: cargo" inside apt-get install -y --no-install-recommends make gcc libc6-dev pkg-config "${@:2}"
    [ "$architecture" = "$here" ] || profile=(CARGO_PROFILE_RELEASE_OPT_LEVEL=0 CARGO_PROFILE_RELEASE_LTO=off)
    clone "$name"
    if [ "$architecture" = "$here" ]; then
        crate "$name"
    else
        skip "$name, the crate and the source tarball" 'each would take the emulator as long as the clone, which it built without optimization'
    fi
    check "$name: make uninstall" inside make -s -C clone uninstall PREFIX=/usr/local
    check "$name: nothing of the clone stays" nothing_stays
    [ "$architecture" != "$here" ] || tarball "$name"
}

if [ $# -eq 0 ]; then
    set -- bullseye bookworm trixie jammy noble
    ! grep -qs enabled "$handlers/qemu-aarch64" || set -- "$@" bookworm:arm64
fi
[[ $* != *arm64* ]] || lend_emulator
for release in "$@"; do
    architecture=$here
    [[ $release != *:* ]] || architecture=${release#*:}
    root=$scratch/${release##*/}
    started=$SECONDS
    if [ -d "$release" ]; then
        cp -a --one-file-system "$release" "$root"
        architecture=$(inside dpkg --print-architecture)
    elif ! bootstrap "${release%:*}" "$architecture" "$root" > "$scratch/said" 2>&1; then
        skip "$release" "$(tail -n 1 "$scratch/said")"
        continue
    fi
    prepare
    check "$release: apt-get update" inside apt-get update
    if [ -f "dist/zigrunk_${version}_$architecture.deb" ]; then
        package "$release" "$architecture"
    elif [ "$architecture" = "$here" ]; then
        count "$release, the package" 'dist has none; make dist makes it'
    else
        skip "$release, the package" "dist has none for $architecture"
    fi
    [ "$architecture" != amd64 ] || proved "$release"
    if is_new_enough rustc; then
        sources "$release" rustc cargo
    elif is_new_enough rustc-web; then
        sources "$release" rustc-web cargo-web
    else
        skip "$release, the sources" 'it has no rustc 1.85'
    fi
    echo "$release took $((SECONDS - started)) s, with glibc $(inside ldd --version | sed -n '1s/.* //p')"
    rm -rf --one-file-system "$root"
done
summary
