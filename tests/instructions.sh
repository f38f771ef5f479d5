#!/usr/bin/env bash
# Counts the instructions of plans by libzigrunk and by the crate for Rust: of 21 calls less those of one, by 20. Records also as a share of a plan
# alone, by the crates below. docs/PERFORMANCE.md has what came out. Outside the gate; it fails if the records of a plan for two targets take more
# than 130 % of the plan's instructions. It needs valgrind, and what `make rust` leaves.
#
#   NAMES='one_target two_targets'     the dry runs, of those in tests/drivers/test_plans/data/dry_runs
#   WORKSPACE=out/rust                 where `make rust` left it
set -eu
cd "$(dirname "$0")/.."
workspace=$(realpath "${WORKSPACE:-out/rust}")
readonly MOST=130
data=tests/drivers/test_plans/data/dry_runs
read -ra names <<< "${NAMES:-one_target two_targets}"
scratch=$(mktemp -d)
trap 'rm -rf "$scratch"' EXIT

# instructions COMMAND..: how many it executes.
instructions() {
    valgrind --tool=callgrind --callgrind-out-file=/dev/null "$@" 2>&1 > /dev/null | sed -n 's/.*Collected : \([0-9]*\)$/\1/p'
}

# each COMMAND..: how many one call costs; the word @ of the command is the number of calls.
each() {
    echo $((($(instructions "${@/#@/21}") - $(instructions "${@/#@/1}")) / 20))
}

# build: a program in C that plans with the library.
build() {
    bindings/c/library.sh "$workspace/target/release/libzigrunk_c.a" "$scratch/library"
    cc -std=c99 -Wall -Wextra -Werror -O1 -I"$scratch/library/include" tests/c/work.c -o "$scratch/work" "$scratch/library/lib/libzigrunk.a"
}

# build_alone: the program that plans and writes nothing, by the crates of the library and as they are compiled.
build_alone() {
    mkdir -p "$scratch/alone/src"
    cp tests/c/plan_alone.rs "$scratch/alone/src/main.rs"
    {
        printf '[package]\nname = "plan_alone"\nedition = "2024"\n\n[workspace]\n\n[dependencies]\n'
        printf '%s = { path = "%s" }\n' rattle_std "$workspace/stand/std" cuda_plans "$workspace/crates/cuda_plans" compilers "$workspace/crates/compilers"
        echo
        sed -n '/^\[profile\.release\]/,/^$/p' "$workspace/Cargo.toml"
    } > "$scratch/alone/Cargo.toml"
    cargo build --quiet --offline --release --manifest-path "$scratch/alone/Cargo.toml"
}

# records NAME WHOSE COUNT: prints the count beside that of the plan alone. Of two targets it has to be small enough.
records() {
    echo "$1, records by $2: $3, $(($3 * 100 / planned)) % of a plan alone"
    [ "$1" != two_targets ] || [ $(($3 * 100)) -le $((planned * MOST)) ] || status=1
}

env -C "$workspace" cargo build --quiet --offline --release -p zigrunk --example times
build
build_alone
status=0
for name in "${names[@]}"; do
    words=(@ /w /t "$(cat "$data/$name.flag")" "$data/$name.dry1" "$data/$name.dry2")
    planned=$(each "$scratch/alone/target/release/plan_alone" "${words[@]}")
    echo "$name, a plan alone: $planned"
    records "$name" Rust "$(each "$workspace/target/release/examples/times" "${words[@]}")"
    records "$name" libzigrunk "$(each "$scratch/work" records "${words[@]}")"
    for form in text json; do
        echo "$name, $form by libzigrunk: $(each "$scratch/work" "$form" "${words[@]}")"
    done
done
exit "$status"
