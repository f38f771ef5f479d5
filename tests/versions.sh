#!/usr/bin/env bash
# Tests zigrunk-nvcc with other versions of nvcc: 11.2, 11.8 and 12.4 of Debian's archive, each with a g++ that suits it. With each it makes
# the call lists beside that nvcc (tests/compare_calls.py), calls that only older versions get, calls with other host compilers, the commands
# that it starts itself (tests/own_commands.py), lines with each option (tests/nvcc_readings.py), a fatbin for several targets twenty times (tests/needs.sh), commands that have only their
# own files (tests/isolated.py) and CMake projects (tests/cmake.sh), and with 11.8 has clang's tools read compilation databases
# (tests/clang_tools.sh). Each version and part has a line of counts, and one that fails doesn't stop the others. The last line is
# 'N passed, M failed'.
#
#   tests/versions.sh      zigrunk is that of DRIVER_BIN, or what `make rust` leaves
#
#   CUDA_VERSIONS=FOLDER   the toolkits (tests/toolkits.sh), else out/versions. What it lacks is downloaded: up to 3 GB, 1 GB of which stay.
#   VERSIONS='11.8 ..'     only these
#   PARTS='calls ..'       only these of calls, older, hosts, own, options, needs, isolated, cmake, clang
#   CALLS='FILE ..'        other lists than tests/calls_quick.txt, calls.txt, calls_words.txt and calls_odd.txt, which nvcc 13.0 gets too
#   RECORDS=FOLDER         keep a record of the calls with each version there, as VERSION.json
#   JOBS=N                 so many calls at once, else as many as there are processors
cd "$(dirname "$0")/.." || exit 1
. tests/lib.sh
program=${DRIVER_BIN:-$PWD/out/rust/target/release}/zigrunk-nvcc
mkdir -p "${CUDA_VERSIONS:-out/versions}"
folder=$(realpath "${CUDA_VERSIONS:-out/versions}")
read -ra versions <<< "${VERSIONS:-11.2 11.8 12.4}"
read -ra lists <<< "${CALLS:-tests/calls_quick.txt tests/calls.txt tests/calls_words.txt tests/calls_odd.txt}"
parts=${PARTS:-calls older hosts own options needs isolated cmake clang}
# In per cent, of all calls in the lists, of those that nvcc compiles, and of those that the lists say are split.
readonly LEAST_SPLIT=65
require 'other versions of nvcc' ninja objcopy nm python3
[ -x "$program" ] || make rust >&2 || exit 1
unset NVCC_PREPEND_FLAGS NVCC_APPEND_FLAGS
ready=() lacking=()
# A host compiler that isn't there fails by both tools alike.
export GCC_10=$folder/11.2/usr/bin/g++-10 GCC_11=$folder/11.8/usr/bin/g++-11 GCC_12=$folder/12.4/usr/bin/g++-12

# targets VERSION: six architectures that this nvcc knows.
targets() {
    case $1 in
    11.2) echo 60 61 70 75 80 86 ;;
    *) echo 70 75 80 86 89 90 ;;
    esac
}

# part VERSION NAME COMMAND..: runs a part with that nvcc, prints what it found and its counts, and adds these.
part() {
    local before=("$passed" "$failed") what="nvcc $1, $2"
    [[ " $parts " == *" $2 "* ]] || return
    tests/toolkits.sh "$folder" run "$1" "${@:3}" > "$scratch/said" 2>&1
    add "$?" "$scratch/said" || echo "$what: its last line has no counts that fit"
    sed '$d' "$scratch/said"
    echo "$what: $((passed - before[0])) passed, $((failed - before[1])) failed"
}

for version in "${versions[@]}"; do
    tests/toolkits.sh "$folder" fetch "$version" > "$scratch/fetched" 2>&1
    case $? in
    0) ready+=("$version") ;;
    3) lacking+=("$version") ;;
    *) count "nvcc $version, its toolkit" "$(cat "$scratch/fetched")" ;;
    esac
done
[ ${#lacking[@]} -eq 0 ] || skip "nvcc ${lacking[*]}" "Debian's archive can't be reached"
for version in "${ready[@]}"; do
    compare=(tests/compare_calls.py --scratch "$scratch" --jobs "${JOBS:-$(nproc)}")
    part "$version" calls "${compare[@]}" --reasons --least-split "$LEAST_SPLIT" ${RECORDS:+--json "$RECORDS/$version.json"} "${lists[@]}"
    # (with --only, since an older nvcc refuses most of these)
    part "$version" older "${compare[@]}" --only @name= ${RECORDS:+--json "$RECORDS/$version.older.json"} tests/calls_older.txt
    part "$version" hosts "${compare[@]}" --only ccbin tests/calls_hosts.txt
    part "$version" own tests/own_commands.py --jobs "${JOBS:-$(nproc)}"
    part "$version" options tests/nvcc_readings.py
    part "$version" needs env TARGETS="$(targets "$version")" tests/needs.sh
    part "$version" isolated env TARGETS="$(targets "$version")" tests/isolated.py --leave-out --mount "$folder" "$program"
    [ "$version" != 11.2 ] || export BY_SYMBOLS=yes
    part "$version" cmake tests/cmake.sh
    unset BY_SYMBOLS
    # clang 14 knows no other of these
    [ "$version" != 11.8 ] || part "$version" clang tests/clang_tools.sh
done
summary
