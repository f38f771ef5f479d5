#!/usr/bin/env bash
# Builds the plain Rust (docs/proof/PLAIN_RUST.md) for arm64 by Debian's cross compilers, and runs the cases of the programs, of the test drivers and
# of the C library there by an emulator; and checks the workspace for ppc64el and i386, and the proved crates for WebAssembly. Outside the gate:
# it needs root, debootstrap and the network, else it is skipped with a message. The last line is "N passed, M failed".
#
#   tests/platforms.sh [ROOT]     ROOT: the folder of a root of Debian 13 to work in, made if it isn't there; by default one that
#                                 is removed at the end. RT_JOBS is how many jobs cargo has, 2 unless it is set
#   TARGETS='powerpc64le-unknown-linux-gnu ..'   only these platforms
set -u
cd "$(dirname "$0")/.." || exit 1
. tests/lib.sh
. tests/callers/room.sh
[ "$(id -u)" -eq 0 ] || skip_all 'other platforms' 'that needs root'
require 'other platforms' debootstrap cargo
trap 'rm -rf --one-file-system "$scratch"' EXIT
root=$(realpath -m "${1:-$scratch/root}")
work=$root/root/zigrunk
version=$(cat VERSION)
jobs=${RT_JOBS:-2}

inside() {
    chroot "$root" env -u TMPDIR -C /root/zigrunk LC_ALL=C DEBIAN_FRONTEND=noninteractive CARGO_HOME=/root/cargo "$@"
}

# A root with the compilers, and Rust's library for each platform. The packages of other architectures are unpacked alone: what they depend on is
# for compilers that run there.
make_root() {
    [ -d "$root/usr" ] || debootstrap --variant=minbase trixie "$root" || return 1
    mkdir -p "$work/debs"
    # some cases run as another user than root
    chmod a+x "$scratch" "$root/root"
    [ ! -d "$root/usr/lib/rustlib/powerpc64le-unknown-linux-gnu" ] || return 0
    inside dpkg --add-architecture arm64 && inside dpkg --add-architecture i386 && inside dpkg --add-architecture ppc64el && inside apt-get update &&
        inside apt-get install -y --no-install-recommends rustc cargo libc6-dev libstd-rust-dev-wasm32 qemu-user gcc-aarch64-linux-gnu libc6-dev-arm64-cross &&
        inside env -C /root/zigrunk/debs apt-get download libstd-rust-dev:arm64 libstd-rust-dev:i386 libstd-rust-dev:ppc64el &&
        for deb in "$work"/debs/*.deb; do
            dpkg -x "$deb" "$root" && rm "$deb" || return 1
        done
}

# copy_sources: the workspace with its test drivers, and what the tests in C need.
copy_sources() {
    [ -d vendor ] || packaging/vendor.sh || return 1
    rm -rf "$work/rust/vendor" && mkdir -p "$work/rust" && cp -r vendor "$work/rust/vendor" &&
        cargo run --quiet --manifest-path rust/Cargo.toml -p eraser -- --drivers --crates=vendor . "$work/rust" &&
        mkdir -p "$work/tests" && cp -r tests/c tests/callers "$work/tests" && cp -r bindings VERSION "$work" &&
        rm -rf "$work/room" && moved_room "$work/room" /root/zigrunk/room && cp "$root/bin/ls" "$work/room/bin/cudafe++"
}

# by_cargo COMMAND TARGET WORD..: runs cargo for a platform. ($flags has words for rustc.)
by_cargo() {
    inside env -C /root/zigrunk/rust "RUSTFLAGS=${flags-}" cargo "$1" --offline --quiet --jobs "$jobs" --target "$2" "${@:3}"
}

# built TARGET LINKER: all programs, static so that they need nothing of the platform, and the library. (Link-time optimization takes most
# of the time, and is what a package is for.)
built() {
    local linker flags='-C target-feature=+crt-static'
    linker=CARGO_TARGET_$(tr a-z- A-Z_ <<< "$1")_LINKER
    export "$linker=$2" CARGO_PROFILE_RELEASE_LTO=off
    by_cargo build "$1" --release --bins && flags='' by_cargo build "$1" --release -p capi
}

# runner PROGRAM EMULATOR: a script that runs a program of another platform.
runner() {
    local script
    script=$scratch/$(basename "$1")
    printf '#!/bin/sh\nexec %s %s "$@"\n' "$2" "$1" > "$script"
    chmod +x "$script"
    echo "$script"
}

# cases COMMAND..: whether a test script ends without a failure. Prints how many cases it ran.
cases() {
    local status
    "$@" > "$scratch/cases" 2>&1
    status=$?
    grep ': skipped, ' "$scratch/cases" >> "$scratch/counts"
    tail -n 1 "$scratch/cases" >> "$scratch/counts"
    tail -n 40 "$scratch/cases"
    return "$status"
}

# driven TARGET NAME EMULATOR: whether a test driver prints what it has to.
driven() {
    local words
    mapfile -t words < "tests/drivers/$2/args"
    rm -rf "$scratch/data" && cp -r "tests/drivers/$2/data" "$scratch/data" || return 1
    (cd "$scratch/data" && "$(runner "$work/rust/target/$1/release/$2" "$3")" "${words[@]}") > "$scratch/driven" || { cat "$scratch/driven" && return 1; }
    sed 's/^/  /' "$scratch/driven" >> "$scratch/counts"
    diff "tests/drivers/$2/stdout" "$scratch/driven"
}

# in_c TARGET PREFIX EMULATOR: the tests in C, with the library for a platform. nvcc and its tools are stand-ins, of the root's own platform.
in_c() {
    local name compiler=$2gcc wraps=-Wl,--wrap=malloc,--wrap=calloc,--wrap=realloc,--wrap=posix_memalign,--wrap=free
    inside env CC="$compiler" LD="$2ld" AR="$2ar" OBJCOPY="$2objcopy" bindings/c/library.sh "rust/target/$1/release/libzigrunk_c.a" "$1" || return 1
    for name in callers/answers c/threads c/failing_memory; do
        # shellcheck disable=SC2046 # a word or none
        inside "$compiler" -std=c99 -D_POSIX_C_SOURCE=200809L -O1 "-I$1/include" -static -pthread $([ "$name" != c/failing_memory ] || echo "$wraps") \
            "tests/$name.c" "$1/lib/libzigrunk.a" -o "$1/${name#*/}" || return 1
    done
    misuse_rows > "$scratch/rows"
    # shellcheck disable=SC2086 # an emulator, or none
    inside $3 "./$1/answers" /root/zigrunk/room < "$scratch/rows" > "$scratch/answers" && are_answered "$scratch/rows" "$scratch/answers" &&
        inside $3 "./$1/threads" /root/zigrunk/room 20 && inside $3 "./$1/failing_memory" /root/zigrunk/room 1 2000 || return 1
    echo "  $1: the tests in C" >> "$scratch/counts"
}

# platform TARGET PREFIX EMULATOR: all that can be run.
platform() {
    local bin=$work/rust/target/$1/release before=$failed
    is_wanted_target "$1" || return
    check "$1: programs and library" built "$1" "$2gcc"
    [ "$failed" -eq "$before" ] || return
    check "$1: the version" prints "zigrunk $version" "$(runner "$bin/zigrunk-driver" "$3")" --version
    check "$1: tests/program.sh" cases env EMULATED="$3" tests/program.sh "$(runner "$bin/cudaplan" "$3")" "$(runner "$bin/zigrunk-driver" "$3")"
    check "$1: test_lines" driven "$1" test_lines "$3"
    check "$1: test_plans" driven "$1" test_plans "$3"
    check "$1: the tests in C" in_c "$1" "$2" "${3:+${3##"$root"}}"
}

# is_wanted_target TARGET: whether the call asks for a platform.
is_wanted_target() {
    [[ " ${TARGETS-$1} " == *" $1 "* ]]
}

check 'a root of Debian 13' make_root
[ "$failed" -eq 0 ] || { summary && exit; }
check 'the sources' copy_sources
platform aarch64-unknown-linux-gnu aarch64-linux-gnu- "$root/usr/bin/qemu-aarch64"
for target in powerpc64le-unknown-linux-gnu i686-unknown-linux-gnu; do
    ! is_wanted_target "$target" || check "$target: the workspace is right" by_cargo check "$target" --workspace
done
# (nothing here runs it, and what runs nvcc is for Linux)
linux=(zigrunk-driver call zigrunk capi unix machine cache provenance runner batch report 'test_*')
! is_wanted_target wasm32-unknown-unknown ||
    check 'wasm32-unknown-unknown: the proved crates are right' by_cargo check wasm32-unknown-unknown --workspace "${linux[@]/#/--exclude=}"
[ ! -f "$scratch/counts" ] || cat "$scratch/counts"
summary
