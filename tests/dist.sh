#!/usr/bin/env bash
# Packs twice, and sees that the packages have the same bytes, good checksums, what belongs into them, and nothing of which lintian
# warns; that the source tarball builds and installs by cargo alone; and the same of the proved tarball if `make build`
# or the gate left cudaplan. It proves nothing. The last line is "N passed, M failed".
set -u
cd "$(dirname "$0")/.." || exit 1
. tests/lib.sh
. tests/callers/room.sh
require 'the packages' cargo cc dpkg-deb readelf python3
version=$(cat VERSION)
folder=$PWD/dist
sources="$scratch/the sources"
mkdir "$sources"

# newest_glibc FILE: the newest version of glibc that a file's symbols ask for.
newest_glibc() {
    readelf -V "$1" | sed -n 's/.*Name: GLIBC_\([0-9.]*\) .*/\1/p' | sort -V | tail -n 1
}

# has_library PREFIX: whether an installation has the files of the library.
has_library() {
    local file
    for file in lib/libzigrunk.a lib/libzigrunk.so lib/libzigrunk.so.2 include/zigrunk.h share/zigrunk/c/plan.c \
        share/zigrunk/rust/zigrunk/src/lib.rs share/zigrunk/examples/cluster/slurm.sh share/doc/zigrunk/CLUSTER.md share/doc/zigrunk/plan.schema.json; do
        [ -f "$1/$file" ] || { echo "missing: $file" && return 1; }
    done
    compgen -G "$1/lib/pkgconfig/zigrunk.pc" > /dev/null || compgen -G "$1/lib/*-linux-gnu/pkgconfig/zigrunk.pc" > /dev/null || { echo 'missing: zigrunk.pc' && return 1; }
    [ -s "$1/share/man/man3/zigrunk.h.3" ] || [ -s "$1/share/man/man3/zigrunk.h.3.gz" ]
}

# needs_no_library PROGRAM
needs_no_library() {
    ! readelf -d "$1" | grep NEEDED
}

# example PREFIX: the example in C with an installation's shared object. It prints the programs of a call whose tools are stand-ins.
example() {
    cc -o "$scratch/example" "$1/share/zigrunk/c/plan.c" -I"$1/include" -L"$1/lib" -lzigrunk &&
        prints "$(printf "$room/bin/%s\n" gcc cudafe++ gcc cicc ptxas fatbinary gcc)" \
            env LD_LIBRARY_PATH="$1/lib" PATH="$room/bin:$PATH" "$scratch/example" "$room/w" "$room/t" -c kernel.cu -o kernel.o
}

# has_no_path ARCHIVE: whether the folders of this machine are in no file of an archive.
has_no_path() {
    ! tar -xOf "$1" | grep -aqF -e "$PWD" -e "$scratch"
}

# crates_of LOCK: the crates of others, each with its version.
crates_of() {
    packaging/locked.sh "$1" | sort
}

# of_sources: the source tarball, built without a network, and with cargo's folder empty.
of_sources() {
    check 'unpacking the sources' tar -x -C "$sources" --strip-components=1 -f "dist/zigrunk-$version.tar.gz"
    check 'no contract is left in them' sh -c '! grep -rnE "^ *(ensures|requires|ghost) " "$1/crates"' _ "$sources"
    check 'no path of this machine is in them' has_no_path "dist/zigrunk-$version.tar.gz"
    check 'the crates that they need are in vendor' prints '' comm -3 <(crates_of "$sources/Cargo.lock") <(find "$sources/vendor" -mindepth 1 -maxdepth 1 -printf '%f\n' | sort)
    check 'the links of their pages' tests/docs.py --links "$sources"
    # (without what takes most of the time)
    check 'their installation' env -u MAKEFLAGS CARGO_HOME="$scratch/cargo" CARGO_TARGET_DIR="$sources/target" CARGO_PROFILE_RELEASE_LTO=off \
        make -s -C "$sources" install PREFIX="$scratch/in here"
    check 'the version of their zigrunk' prints "zigrunk $version" "$scratch/in here/bin/zigrunk" --version
    check 'the library of the sources' has_library "$scratch/in here"
    check 'the example with it' example "$scratch/in here"
    check 'their demo' sh -c 'make -s -C "$1" demo | grep -q "cicc --c++17"' _ "$sources"
    check 'uninstalling them' make -s -C "$sources" uninstall PREFIX="$scratch/in here"
    check 'nothing stays' prints '' find "$scratch/in here" -type f
}

# names_of ARCHITECTURE: the packages of an architecture, and those of all.
names_of() {
    printf 'dist/%s.deb\n' "libzigrunk-dev_${version}_$1" "libzigrunk2_${version}_$1" "python3-zigrunk_${version}_all" "zigrunk_${version}_$1"
}

# of_packages ARCHITECTURE: its Debian packages, each by itself, and then all of them as they are installed.
of_packages() {
    local package name root=$scratch/root.$1 glibc program
    for package in $(names_of "$1"); do
        name=${package##*/}
        check "unpacking $name" dpkg-deb -x "$package" "$root"
        check "the version of $name" test "$(dpkg-deb -f "$package" Version)" = "$version"
        if command -v lintian > /dev/null; then
            check "lintian of $name" lintian --fail-on error,warning --allow-root "$package"
        else
            skip "lintian of $name" "it isn't installed"
        fi
    done
    check "the library for $1" has_library "$root/usr"
    check "the links of the pages for $1" tests/docs.py --links "$root/usr/share/doc/zigrunk"
    for program in cudaplan zigrunk zigrunk-nvcc; do
        check "$program for $1 needs no library" needs_no_library "$root/usr/bin/$program"
    done
    glibc=$(newest_glibc "$root/usr/lib/libzigrunk.so.2")
    same "the glibc that libzigrunk.so.2 for $1 asks for" "$glibc" 2.28
    same "Depends of libzigrunk2 for $1" "$(dpkg-deb -f "dist/libzigrunk2_${version}_$1.deb" Depends)" "libc6 (>= $glibc)"
}

# of_wheel PROCESSOR FILE: the wheel for Python with the library of a package.
of_wheel() {
    local architecture=amd64 at=$scratch/${2##*/}.files
    [ "$1" = x86_64 ] || architecture=arm64
    check "unpacking the wheel for $1" python3 -m zipfile -e "$2" "$at"
    check 'its library is that of the package' cmp "$at/zigrunk/libzigrunk.so.2" "$scratch/root.$architecture/usr/lib/libzigrunk.so.2"
    check 'it is for glibc 2.28' test "${2#*manylinux_2_28_}" != "$2"
    [ "$1" = "$(uname -m)" ] || return 0
    check 'the version of its library' prints "$version" env -C "$scratch" ZIGRUNK_LIBRARY='' PYTHONPATH="$at" PYTHONDONTWRITEBYTECODE=1 \
        python3 -c 'import zigrunk; print(zigrunk.version())'
}

# of_proved: the tarball of the proved programs.
of_proved() {
    local here="$scratch/un packed" program
    mkdir "$here"
    check 'unpacking the tarball' tar -x -C "$here" --strip-components=1 -f "dist/zigrunk-$version-x86_64-linux.tar.gz"
    check 'the lines of README' test "$(wc -l < "$here/README")" -le 20
    check 'its library' has_library "$here"
    for program in cudaplan zigrunk; do
        check "$program of the tarball needs no library" needs_no_library "$here/bin/$program"
    done
    check 'the version of its zigrunk' prints "zigrunk $version" "$here/bin/zigrunk" --version
    check 'README names the glibc of the library' grep -qF "glibc $(newest_glibc "$here/lib/libzigrunk.so.2")" <(tr '\n' ' ' < "$here/README")
    check 'the example with the library of the tarball' example "$here"
}

room=$scratch/room
make_room "$room"
check 'the packages' packaging/dist.sh
check 'their checksums' cp dist/SHA256SUMS "$scratch"
check 'the packages again' packaging/dist.sh
check 'the same bytes' cmp dist/SHA256SUMS "$scratch/SHA256SUMS"
check 'good checksums' env -C "$folder" sha256sum -c SHA256SUMS
of_sources
of_packages amd64
[ ! -f "dist/zigrunk_${version}_arm64.deb" ] || of_packages arm64
check 'a wheel for each architecture' test "$(find dist -name '*.whl' | wc -l)" = "$(find dist -name 'zigrunk_*.deb' | wc -l)"
for wheel in dist/*.whl; do
    processor=${wheel##*manylinux_2_??_}
    of_wheel "${processor%.whl}" "$wheel"
done
[ -f "dist/zigrunk_${version}_arm64.deb" ] || skip 'the package for arm64' 'rustc lacks its library, or there is no aarch64-linux-gnu-gcc'
if [ -f "dist/zigrunk-$version-x86_64-linux.tar.gz" ]; then
    of_proved
else
    skip 'the tarball of the proved programs' 'they are not built'
fi
summary
