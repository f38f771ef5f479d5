#!/usr/bin/env bash
# Tests the plain Rust that the eraser writes: its text beside the proved sources, and then what cargo builds of it, by the same cases as
# the proved programs and drivers. It needs neither the kit nor a network. The last line is 'N passed, M failed'.
# tests/stand_ins.sh tests what these crates have in place of the kit's std, tests/rust_crate.sh the crate for Rust, tests/c_library.sh libzigrunk.
#
#   tests/plain_rust.sh [FOLDER [PART..]]   FOLDER: where the workspace and what cargo builds stay; nothing stays unless it is given
#                                           PART: text workspace programs drivers; all of them unless given
#
# PROFILE=dev has cargo build the drivers alone, as it builds unit tests, so that .ci/plain compiles each crate once.
#
# No answer differs from the proved build's.
set -u
cd "$(dirname "$0")/.." || exit 1
. tests/lib.sh
folder=$(realpath -m "${1:-$scratch/rust}")
shift $(($# > 0 ? 1 : 0))
parts=("$@")
[ $# -gt 0 ] || parts=(text workspace programs drivers)
profile=${PROFILE:-release}
built=$folder/target/${profile/#dev/debug}
export CARGO_NET_OFFLINE=true

# script NAME COMMAND..: runs another script, shows what it says, and adds its counts.
script() {
    local status
    "${@:2}" > "$scratch/script" 2>&1
    status=$?
    head -n -1 "$scratch/script"
    add "$status" "$scratch/script" || echo "$1: its last line has no counts"
}

# write: the eraser writes the workspace, with the drivers that run cases, and cargo builds it.
write() {
    local packages=()
    [ "$profile" = release ] || packages=(-p test_lines -p test_plans)
    cargo run --quiet --locked --manifest-path rust/Cargo.toml -p eraser -- --drivers . "$folder" &&
        env -C "$folder" cargo build --quiet --profile "$profile" --target-dir "$folder/target" "${packages[@]}"
}

# no_debug_form: no crate prints a text by `{:?}`, which escapes other characters in Rust than in the kit (docs/proof/PLAIN_RUST.md).
no_debug_form() {
    ! grep -rnE --include='*.rs' --exclude-dir='test_*' '\{[a-z_0-9.]*:[^}]*\?\}' "$folder/crates"
}

# text: each token of the output is explained by its source, and edits drawn by lot aren't. The commit draws them.
text() {
    script 'the text' tests/erased.py "$folder"
    check 'no text by its debug form' no_debug_form
    script 'edits of the text' tests/erased.py --edits "${EDITS:-20}" --seed "$(git rev-parse HEAD 2> /dev/null)" "$folder"
}

# workspace: what rustfmt and cargo say of all crates, the stand-ins and the eraser among them. Each public item has a page.
workspace() {
    local words roots name without=()
    command -v rustfmt > /dev/null || { skip 'layout and clippy' 'rustfmt is not on the path' && return; }
    # test_.. are tests in the kit's form, which rustfmt and clippy would write otherwise; `make rust` leaves them out
    for name in "$folder"/crates/test_*; do
        without+=(--exclude "${name##*/}")
    done
    export CARGO_TARGET_DIR=$folder/target
    roots=("$folder"/{crates,stand}/*/src/{lib,main}.rs)
    mapfile -t roots < <(printf '%s\n' "${roots[@]}" | grep -v '\*\|/test_')
    check 'the layout by rustfmt' rustfmt --check --edition 2024 "${roots[@]}"
    for name in unix machine cache provenance runner report batch driver; do
        check "the layout of $name" rustfmt --check --edition 2024 --config-path "$name" "$name/src/lib.rs"
    done
    check 'clippy' env -C "$folder" cargo clippy --quiet --workspace "${without[@]}" --all-targets -- -D warnings -D missing_docs
    check 'the pages' env -C "$folder" RUSTDOCFLAGS='-D warnings' cargo doc --quiet --no-deps --workspace
    words=(--locked --manifest-path rust/Cargo.toml -p eraser)
    check "the eraser's layout" cargo fmt --check --manifest-path rust/Cargo.toml -p eraser
    check "the eraser's tests" cargo test --quiet "${words[@]}"
    check 'clippy on the eraser' cargo clippy --quiet --all-targets "${words[@]}" -- -D warnings
    unset CARGO_TARGET_DIR
}

programs() {
    script 'the programs' tests/program.sh "$built/cudaplan" "$built/zigrunk-driver"
}

# drive NAME: a driver's cases. It has to write what its `stdout` has, which counts them.
drive() {
    local words=() cases status problem='' source=tests/drivers/$1
    mkdir "$scratch/$1"
    cp -r "$source/data" "$scratch/$1/data"
    mapfile -t words < "$source/args"
    (cd "$scratch/$1/data" && "$built/$1" "${words[@]}") > "$scratch/$1/out" 2> "$scratch/$1/err" < /dev/null
    status=$?
    cases=$(sed -n 's/^[^:]*: \([0-9]*\) cases$/\1/p' "$scratch/$1/out" | awk '{ sum += $1 } END { print sum + 0 }')
    if [ "$status" != 0 ] || ! diff "$source/stdout" "$scratch/$1/out" > "$scratch/$1/diff" || [ "$cases" -eq 0 ]; then
        problem="status $status"$'\n'$(cat "$scratch/$1/diff")$'\n'$(tail -c 600 "$scratch/$1/err")
    else
        passed=$((passed + cases - 1))
    fi
    count "$1" "$problem"
}

drivers() {
    drive test_lines
    drive test_plans
}

require 'plain Rust' cargo
check 'the eraser and cargo' write
if [ "$failed" -eq 0 ]; then
    for part in "${parts[@]}"; do "$part"; done
fi
summary
