#!/usr/bin/env bash
# Tests zigrunk-nvcc by stand-ins, of which tests/driver.sh has more, by calls that nvcc makes
# too (tests/compare_calls.py), by the commands that nvcc starts for them (tests/own_commands.py), by the installed nvcc's list of options
# (tests/nvcc_options.sh), by commands that have only their own files (tests/isolated.py), by plans that run (tests/plans.sh), where the machine refuses something
# (tests/conditions.sh), by what calls leave (tests/leftovers.sh), by calls in two checkouts (tests/checkouts.py), by builds that differ (tests/why.py), by statements of products (tests/provenance.py), and by signals in the middle of a build. It tests too that such tests fail if they show nothing (tests/runners.sh).
# Prints a line for each failure, then for each part how long it took and how many seconds of processor, and last
# 'N passed, M failed'; the status is 1 if one failed. All parts start at once. The calls take what the others leave of the
# processors, so that none of these, each a chain of steps, is still running at the end.
#
#   tests/end_to_end.sh [--all] [PROGRAM]
#
# PROGRAM is the cudaplan that `make build` and the gate leave, unless given. zigrunk is that of DRIVER_BIN, or what `make rust` leaves. With
# --all it makes all calls, builds CMake projects (tests/cmake.sh, tests/builds.sh), and isolates the commands of five calls; the gate makes the
# quick calls and isolates the commands of one. Both build a fatbin twenty times (tests/needs.sh).
cd "$(dirname "$0")/.." || exit 1
all=''
[ "${1-}" != --all ] || { all=yes && shift; }
program=$(realpath -m "${1:-crates/cudaplan/out/cudaplan}")
. tests/lib.sh
trap 'kill $(jobs -p) 2> /dev/null; rm -rf "$scratch"' EXIT
declare -A parts
started=()

# start PART COMMAND..: runs a part in the background.
start() {
    timed "$@" &
    parts[$1]=$!
    started+=("$1")
}

# timed PART COMMAND..: runs a part, and notes how long it took, and its seconds of processor: the user's and the system's.
timed() {
    local part=$1 begun=$SECONDS status
    shift
    "$@" > "$scratch/$part.said" 2>&1 &
    # shellcheck disable=SC2064 # this process
    trap "kill $!" TERM
    wait "$!"
    status=$?
    times > "$scratch/$part.times"
    echo "$part: $((SECONDS - begun)) s, of processors $(sed -n 2p "$scratch/$part.times")" > "$scratch/$part.took"
    return "$status"
}

# finish PART: waits for a part, shows what it printed, and adds the counts of its last line.
finish() {
    local said=$scratch/$1.said status
    wait "${parts[$1]}"
    status=$?
    if add "$status" "$said"; then sed '$d' "$said"; else cat "$said"; fi
}

# interrupt SIGNAL STATUS: a signal to the script alone, while it compiles for several targets. Prints what is wrong, or 'slow' if
# that is only that the build, its processes included, takes more than a second to stop.
interrupt() {
    local folder process start problems='' ended
    folder=$(mktemp -d "$scratch/$1.XXXXXX") || { echo 'there is no folder for it' && return; }
    mkdir "$folder/work" "$folder/tmp"
    printf '%s\n' '#include <cstdio>' '__global__ void kernel(int* values) { values[0] = 1; }' > "$folder/work/k.cu"
    (cd "$folder/work" && exec env --default-signal=HUP,INT,TERM TMPDIR="$folder/tmp" "$wrapper" -arch=all-major -c k.cu -o k.o) &
    process=$!
    for _ in $(seq 600); do
        [ -z "$(find "$folder/tmp" -name '*.ii' 2> /dev/null)" ] || break
        kill -0 "$process" 2> /dev/null || break
        sleep 0.05
    done
    start=$EPOCHREALTIME
    kill -s "$1" "$process"
    { wait "$process"; } 2> /dev/null
    ended=$?
    for _ in $(seq 1000); do
        pgrep -f "$folder/tmp" > /dev/null || break
        sleep 0.01
    done
    start=$((${EPOCHREALTIME/./} - ${start/./}))
    [ "$ended" = "$2" ] || problems+=" status $ended, not $2;"
    # the user's folder stays
    rmdir "$folder/tmp/zigrunk-$(id -u)" 2> /dev/null
    [ -z "$(ls -A "$folder/tmp")" ] || problems+=" files left: $(cd "$folder/tmp" && echo ./*);"
    [ ! -e "$folder/work/k.o" ] || problems+=' there is an object;'
    ! pgrep -f "$folder/tmp" > /dev/null || problems+=' commands still run;'
    [ "$start" -lt 1000000 ] || problems=${problems:-slow}
    echo "$problems"
}

# interrupts SIGNAL..: each signal is one test. Other work may slow a build that stops, so one that stops slowly gets another try, and
# four of five may be slow. Nothing else may be wrong in any.
interrupts() {
    local signal problems
    for signal; do
        for _ in 1 2 3 4 5; do
            problems=$(interrupt "$signal" $((128 + $(kill -l "$signal"))))
            [ "$problems" = slow ] || break
        done
        count "the signal $signal" "${problems/#slow/it takes more than a second, five times}"
    done
    summary
}

# missing: the first program that calls of nvcc need and the path lacks.
missing() {
    local tool
    for tool in nvcc ninja objcopy nm python3; do
        command -v "$tool" > /dev/null || { echo "$tool" && return; }
    done
}

start options tests/nvcc_options.sh
start runners tests/runners.sh
lacking=$(missing)
if [ -n "$lacking" ]; then
    echo "calls of nvcc: skipped, $lacking is not on the path"
else
    [ -x "$program" ] || make build >&2 || exit 1
    wrapper=${DRIVER_BIN:-$PWD/out/rust/target/release}/zigrunk-nvcc
    [ -x "$wrapper" ] || make rust >&2 || exit 1
    calls=(tests/calls_quick.txt)
    alone=(--only=-dc)
    if [ -n "$all" ]; then
        calls+=(tests/calls.txt tests/calls_words.txt tests/calls_odd.txt tests/calls_files.txt)
        alone=(--leave-out)
        start cmake tests/cmake.sh
        start builds tests/builds.sh
    fi
    start plans tests/plans.sh
    start needs tests/needs.sh
    start leftovers tests/leftovers.sh
    start late tests/late.sh
    start early tests/early.sh
    start provenance tests/provenance.py --seed "$(git rev-parse HEAD 2> /dev/null)" "${wrapper%-nvcc}"
    start checkouts tests/checkouts.py --calls 12 --seed "$(git rev-parse HEAD 2> /dev/null)" "$wrapper"
    start why tests/why.py --causes 12 --misses 8 --share 90 --seed "$(git rev-parse HEAD 2> /dev/null)" "${wrapper%-nvcc}"
    start signals interrupts TERM INT HUP
    start isolated tests/isolated.py "${alone[@]}" "$wrapper"
    start conditions tests/conditions.sh "$program"
    start own_commands nice tests/own_commands.py "${calls[@]}"
    start calls nice tests/compare_calls.py --scratch "$scratch" --jobs "$(nproc)" "${calls[@]}" tests/calls_wrappers.txt
fi
for part in "${started[@]}"; do finish "$part"; done
for part in "${started[@]}"; do cat "$scratch/$part.took"; done
summary
