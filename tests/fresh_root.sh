#!/usr/bin/env bash
# The first hour of somebody without the Rattle kit: in fresh roots of Debian, with the packages and the commands of README alone, it builds, installs,
# plans a call, runs the tests, those of the source tarball too, then each language's program of docs/EMBEDDING.md, and uninstalls. Outside the gate:
# it needs root, debootstrap, the network and vendor/, else it is skipped with a message. The last line is 'N passed, M failed'.
#
#   tests/fresh_root.sh [ROOT..]    ROOT: bookworm (Debian 12), trixie (13), trixie:arm64, or the folder of such a root, which stays; the three unless
#                                   given. arm64 runs by qemu-user-static, without optimization and `make test`, which would take it hours.
#                                   RT_JOBS is how many jobs cargo has, 2 unless it is set
set -u
cd "$(dirname "$0")/.." || exit 1
. tests/lib.sh
. tests/callers/room.sh
[ "$(id -u)" -eq 0 ] || skip_all 'fresh roots' 'that needs root'
require 'fresh roots' debootstrap git
trap end EXIT
handlers=/proc/sys/fs/binfmt_misc
# The emulator of the package qemu-user-static.
emulator=${EMULATOR:-/usr/bin/qemu-aarch64-static}

end() {
    [ -z "${root-}" ] || umount -q "$root/dev/pts" "$root/proc"
    [ -z "${lent-}" ] || echo -1 > "$handlers/qemu-aarch64"
    rm -rf --one-file-system "$scratch"
}

# lend_emulator: has the kernel run programs of arm64 by qemu until this script ends, unless it does so already.
lend_emulator() {
    ! grep -qs enabled "$handlers/qemu-aarch64" || return 0
    [ -x "$emulator" ] || return 1
    [ -e "$handlers/register" ] || mount -t binfmt_misc binfmt_misc "$handlers" || return 1
    # (F: the kernel opens the emulator now, so no root needs to have it)
    printf ':qemu-aarch64:M::\\x7fELF\\x02\\x01\\x01\\x00\\x00\\x00\\x00\\x00\\x00\\x00\\x00\\x00\\x02\\x00\\xb7\\x00:%s:%s:F\n' \
        '\xff\xff\xff\xff\xff\xff\xff\x00\xff\xff\xff\xff\xff\xff\xff\xff\xfe\xff\xff\xff' "$emulator" > "$handlers/register" && lent=yes
}

# inside COMMAND..: runs it at the top of the clone in the root, with an environment of its own.
inside() {
    chroot "$root" env -i -C /root/zigrunk PATH=/root/.local/bin:/usr/local/bin:/usr/sbin:/usr/bin:/sbin:/bin LC_ALL=C.UTF-8 HOME=/root \
        DEBIAN_FRONTEND=noninteractive CARGO_BUILD_JOBS="${RT_JOBS:-2}" "${profile[@]}" "$@"
}

# packages: Debian's packages that README names for this release, and for all tests.
packages() {
    sed -n "s/.*Debian $number: \`\\([^\`]*\\)\`.*/\\1/p; s/^| all tests | \`\\([^\`]*\\)\`.*/\\1/p" README.md | tr ' ' '\n'
}

# said_of TARGET: the line of README's first commands that has a target of make.
said_of() {
    sed -n "/^    make .*\\bmake $1\\b/{s/^ *//; s/   .*//; p; q}" README.md
}

# copy_clone: the files of this clone, in the root. What a run before has built there stays.
copy_clone() {
    mkdir -p "$root/root/zigrunk"
    find "$root/root/zigrunk" -mindepth 1 -maxdepth 1 ! -name out ! -name vendor -exec rm -rf {} +
    git ls-files -z | tar -c --null -T - | tar -x -C "$root/root/zigrunk"
}

# install_packages PACKAGE..: by apt-get in the root.
install_packages() { inside apt-get -o Dpkg::Options::=--force-unsafe-io install -y --no-install-recommends "$@"; }

# make_root RELEASE ARCHITECTURE: the root with README's packages and the clone.
make_root() {
    local names
    [ -d "$root/usr" ] || debootstrap --variant=minbase "--arch=$2" "$1" "$root" || return 1
    mkdir -p "$root/root/zigrunk"
    copy_clone || return 1
    mapfile -t names < <(packages)
    # a machine has both
    mountpoint -q "$root/proc" || mount -t proc proc "$root/proc" || return 1
    mountpoint -q "$root/dev/pts" || mount -t devpts -o newinstance,ptmxmode=666 devpts "$root/dev/pts" || return 1
    inside apt-get update && install_packages "${names[@]:?README names no packages}"
}

# counted WHAT COMMAND..: adds the counts of a script in the root, which has to run cases. (If it fails, make says so behind them.)
counted() {
    local status
    "${@:2}" > "$scratch/counted" 2>&1
    status=$?
    sed -i '/^make\(\[[0-9]*\]\)\?: /d' "$scratch/counted"
    echo "$1: $(tail -n 1 "$scratch/counted")"
    grep -E '^==|^All took' "$scratch/counted"
    [ "$status" -eq 0 ] || grep -vE '^==|: skipped, ' "$scratch/counted" | tail -n 60
    add "$status" "$scratch/counted" || echo "$1: its last line has no counts that fit"
}

# planned: the main job. `nvcc` is a stand-in that prints what nvcc has printed of a real call.
planned() {
    rm -rf "$root/root/room" && moved_room "$root/root/room" /root/room && cp "$root/bin/ls" "$root/root/room/bin/cudafe++" || return 1
    # shellcheck disable=SC2016 # for sh
    inside sh -c 'cd /root/room/w && PATH=/root/room/bin:$PATH && zigrunk plan text nvcc -c kernel.cu -o kernel.o > plan && zigrunk plan json nvcc -c kernel.cu -o kernel.o > json &&
        for tool in cudafe++ cicc ptxas fatbinary; do grep -q "/$tool" plan && grep -q "/$tool" json || exit 1; done'
}

# tarball: the source tarball's own tests, in the root.
tarball() {
    packaging/dist.sh --sources > "$scratch/packed" 2>&1 && tar -x -C "$root/root" -f "dist/zigrunk-$(cat VERSION).tar.gz" || { cat "$scratch/packed"; return 1; }
}

# nothing_stays: whether nothing of this project is left where it was installed.
nothing_stays() { prints '' find "$root/root/.local" ! -type d; }

# first_hour NAME: README's commands in the root, and what follows.
first_hour() {
    local name=$1
    # (a Debian before 13 has not these crates)
    [ "$number" != 12 ] || check "$name: make vendor" inside make vendor
    # shellcheck disable=SC2016 # for sh
    check "$name: $(said_of install)" inside sh -c "$(said_of install)"
    check "$name: zigrunk" prints "zigrunk $(cat VERSION)" inside zigrunk --version
    check "$name: a plan" planned
    check "$name: make demo" inside make demo
    if [ "${#profile[@]}" -eq 0 ]; then
        counted "$name: make test" inside make test
        check "$name: the tarball" tarball
        counted "$name: make test in the tarball" inside make -C "/root/zigrunk-$(cat VERSION)" test
    else
        skip "$name: make test" 'it would take the emulator hours'
    fi
    counted "$name: first programs" inside tests/callers.sh --first /root/.local
    # shellcheck disable=SC2016 # for sh
    check "$name: no language is left out" sh -c '! grep ": skipped, " "$1"' sh "$scratch/counted"
    # shellcheck disable=SC2016 # for sh
    check "$name: make uninstall" inside sh -c 'make uninstall PREFIX=$HOME/.local'
    check "$name: nothing stays" nothing_stays
}

# (the emulator runs what is checked, not what is fast)
slow=(CARGO_PROFILE_RELEASE_OPT_LEVEL=0 CARGO_PROFILE_RELEASE_LTO=off)
[ $# -gt 0 ] || set -- bookworm trixie trixie:arm64
for wanted in "$@"; do
    name=${wanted##*/} root=$scratch/${wanted##*/} release=${wanted%:*} architecture=$(dpkg --print-architecture) profile=()
    [[ $wanted != *:* ]] || architecture=${wanted#*:}
    if [ -d "$wanted" ]; then
        root=$(realpath "$wanted")
        release=$(sed -n 's/^VERSION_CODENAME=//p' "$root/etc/os-release") architecture=$(cat "$root/var/lib/dpkg/arch" 2> /dev/null || echo "$architecture")
    fi
    case $release in bookworm) number=12 ;; *) number=13 ;; esac
    if [ "$architecture" != "$(dpkg --print-architecture)" ]; then
        profile=("${slow[@]}")
        lend_emulator || { skip "$name" "there is no $emulator, or the kernel takes none"; continue; }
    fi
    check "$name: the root" make_root "$release" "$architecture"
    first_hour "$name"
    umount -q "$root/dev/pts" "$root/proc"
done
summary
