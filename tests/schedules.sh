#!/usr/bin/env bash
# Compares the schedules of the plain Rust with their definition, written again in tests/schedules. It needs neither the kit nor a network. The
# last line is 'N passed, M failed'.
#
# - Every path: what can happen to all plans of up to four commands, with one slot and two. All needs on so few commands are tried. With four, the
#   next command starts and none is cancelled; with fewer, any that may start does.
# - Every state: what a schedule answers depends only on the states of its commands, so lists of events that lead to the same states are walked on
#   from one time. Each event that is accepted at a state is made once there: any command that may start starts, and any that runs succeeds, fails or
#   is cancelled. At each state it also gets every event that it has to refuse. Each setting after a failure is walked with each number of slots, up
#   to one more than the most commands that ever run at once, because further slots change nothing.
#   The plans: all partial orders of up to five commands in all numberings that agree with them, all kinds of partial orders of six (318) and SEVENS
#   drawn ones of seven, each kind in a drawn numbering. `all` takes six in all numberings and all 2045 kinds of seven. The priorities are drawn.
#   Why this is every plan, but for numberings and priorities: what commands need, directly or by others, is a partial order that agrees with their
#   numbers. Plans that differ in numbers alone have one kind. A need that other needs imply changes nothing, since a command that succeeded
#   started after all that it needs had. So each order is walked twice: as those right below each command, and with some of the rest drawn.
#   The plans of the dry runs in tests/drivers/test_plans/data/nvcc_versions.txt of up to nine commands are walked with the needs that these have.
# - Random long runs, of which a third of the events makes no sense. Half of them have files, and what is left in these and printed has to be that of the
#   plan's own order.
#
#   tests/schedules.sh [FOLDER [SEED [RUNS [all]]]]  FOLDER: what `make rust` wrote, out/rust unless given; 100000 runs of each kind unless given
#   tests/schedules.sh --cost FOLDER [COMMANDS..]    prints how many instructions an event costs, in plans of so many commands
set -u
cd "$(dirname "$0")/.." || exit 1
cost=''
if [ "${1:-}" = --cost ]; then
    cost=yes
    shift
fi
folder=$(realpath "${1:-out/rust}") || exit 1
scratch=$(mktemp -d)
trap 'rm -rf "$scratch"' EXIT

cat > "$scratch/Cargo.toml" <<TOML
[package]
name = "schedules-test"
version = "0.1.0"
edition = "2024"

[[bin]]
name = "schedules-test"
path = "$PWD/tests/schedules/src/main.rs"

[dependencies]
schedules = { path = "$folder/crates/schedules" }
rattle_std = { path = "$folder/stand/std" }

[workspace]
TOML
CARGO_NET_OFFLINE=true cargo build --quiet --release --manifest-path "$scratch/Cargo.toml" || exit 1
program=$scratch/target/release/schedules-test

# instructions WORD..: how many the program executes on these words.
instructions() {
    valgrind --tool=callgrind --callgrind-out-file=/dev/null "$program" "$@" 2>&1 | sed -n 's/.*Collected : \([0-9]*\)$/\1/p'
}

if [ -z "$cost" ]; then
    "$program" "${@:2}"
    exit
fi
for commands in "${@:2}"; do
    echo "$commands commands: $((($(instructions cost "$commands") - $(instructions cost "$commands" none)) / (2 * commands))) instructions an event"
done
