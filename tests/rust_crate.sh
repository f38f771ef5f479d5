#!/usr/bin/env bash
# Tests the crate for Rust, bindings/rust, and the library below it, call. Cargo takes nothing from a network here, and leaves nothing in the
# repository. Prints a line for each failure, and last 'N passed, M failed'.
#
# WORKSPACE=out/rust takes the workspace of `make rust` as it is, and TARGET=FOLDER keeps what cargo builds. PARTS="tests projects lints" runs these
# parts. Another cargo first on the path tests with that: Rust 1.85 is the oldest.
set -u
cd "$(dirname "$0")/.." || exit 1
. tests/lib.sh
. tests/callers/room.sh
top=$PWD
room=$scratch/room
make_room "$room"
require 'the crate for Rust' cargo rustc cc

export CARGO_TARGET_DIR=${TARGET:-$scratch/target} CARGO_NET_OFFLINE=true
version=$(cat VERSION)
data=$PWD/tests/drivers/test_plans/data/dry_runs
export ZIGRUNK_DRY_RUNS=$data
packages=(-p zigrunk -p call)

workspace=${WORKSPACE-}
if [ -z "$workspace" ]; then
    workspace=$scratch/rust
    check 'the workspace of plain Rust' cargo run --quiet --manifest-path rust/Cargo.toml -p eraser -- . "$workspace"
fi
if ! cd "$workspace"; then
    count 'the workspace' 'it is not there'
    summary
    exit
fi

# examples_write FOLDER: the examples plan the dry runs of real calls: one as a script that a shell can read, with a line for each command,
# and one as its groups.
examples_write() {
    local plan name words
    for plan in "$data"/*.flag; do
        name=${plan%.flag}
        words=(/w /t "$(cat "$plan")" "$name.dry1" "$name.dry2")
        "$1/shell" "${words[@]}" > "$scratch/script" && sh -n "$scratch/script" || return 1
        diff <(grep -cE '^(yes|no) cd ' "$name.plan") <(grep -c '^( cd ' "$scratch/script") || return 1
        "$1/groups" "${words[@]}" > "$scratch/groups" || return 1
        diff <(sed -E 's/^(group [0-9]+|no|yes|dropped).*/\1/' "$name.plan") \
            <(sed -E 's/^    cached.*/yes/; s/^    run.*/no/; s/^(group [0-9]+|dropped),.*/\1/' "$scratch/groups") || return 1
    done
}

# new_project NAME: a project that adds the crate, with a program of this name. Its source comes in.
new_project() {
    local crate=$PWD/zigrunk project=$scratch/$1
    mkdir -p "$project/src" && cat > "$project/src/main.rs"
    (cd "$project" && cargo init -q --vcs none --name "$1" . && cargo add -q --path "$crate" && cargo build -q)
}

# lines_of PAGE: the program that a page shows.
lines_of() {
    sed -n '/^```rust$/,/^```$/p' "$1" | grep -v '^```'
}

# names_tools NAME WORD..: whether such a program ends its lines with the programs of the call that it plans. nvcc and its tools are stand-ins,
# and the dry runs are those of a real call.
names_tools() {
    : > "$room/words"
    diff <(for tool in gcc cudafe++ gcc cicc ptxas fatbinary gcc; do echo "$room/bin/$tool"; done) \
        <(PATH=$room/bin:$PATH NVCC_APPEND_FLAGS='-DX=1 -DY=2' "$CARGO_TARGET_DIR/debug/$1" "${@:2}" | sed 's/.* //')
}

# ten_lines: by the lines of docs/EMBEDDING.md. nvcc has the words of the environment too.
ten_lines() {
    lines_of "$top/docs/EMBEDDING.md" | new_project ten_lines && names_tools ten_lines "$room/w" "$room/t" -c kernel.cu -o kernel.o &&
        [ "$(grep -c -- '-DX=1 -DY=2' "$room/words")" = 2 ]
}

# five_lines: by those of the package's page, of which the fifth plans.
five_lines() {
    lines_of zigrunk/README.md | sed "s,\"/w\",\"$room/w\",; s,\"/t\",\"$room/t\",; s,\"k\.,\"kernel.,g" > "$scratch/lines"
    [ "$(sed -n '/\.plan()/=' "$scratch/lines")" = 5 ] || return 1
    { echo 'fn main() -> Result<(), Box<dyn std::error::Error>> {' && cat "$scratch/lines" && printf '%s\n' 'Ok(())' '}'; } |
        new_project five_lines && names_tools five_lines
}

# tests: the crates' own, and what the examples write.
tests() {
    check 'the tests' cargo test -q "${packages[@]}"
    check 'programs are no tests' cargo test -q -p cudaplan
    check 'what the examples write' examples_write "$CARGO_TARGET_DIR/debug/examples"
}

# projects: new ones, for which cargo compiles all crates anew.
projects() {
    check 'the ten lines of the page in a new project' ten_lines
    check 'the five lines of the package in a new project' five_lines
}

# lints: what needs each crate read once more.
lints() {
    if cargo clippy --version > /dev/null 2>&1; then
        check 'clippy' cargo clippy -q --no-deps --all-targets "${packages[@]}" -- -D warnings
        check 'the pages' env RUSTDOCFLAGS='-D warnings' cargo doc -q --no-deps "${packages[@]}"
    else
        skip 'clippy' 'it is not installed'
    fi
    if cargo fmt --version > /dev/null 2>&1; then
        check 'the format' cargo fmt --check "${packages[@]}"
    else
        skip 'the format' 'rustfmt is not installed'
    fi
}

check 'the page of the package has these lines too' prints '' comm -13 <(sed -n 's/^\/\/! //p' zigrunk/src/lib.rs | sort) \
    <(sed -n '/^```rust/,/^```$/p' zigrunk/README.md | grep -v '^```' | sort)
check 'the versions' grep -qx "version = \"$version\"" Cargo.toml
for part in ${PARTS-tests projects lints}; do "$part"; done
summary
