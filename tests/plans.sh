#!/usr/bin/env bash
# Runs what zigrunk plan prints of a call of nvcc: a script by sh, a Ninja file by ninja, and JSON by the program of man zigrunk-plan. Each
# has to make nvcc's product, but for the names of files that an object has; and examples/picture.py has to draw each command.
# Prints a line for each failure, and last 'N passed, M failed'.
#
#   DRIVER_BIN=FOLDER   where zigrunk is, else where `make rust` leaves it
set -u
cd "$(dirname "$0")/.." || exit 1
. tests/lib.sh
require 'plans that run' nvcc ninja objcopy python3
zigrunk=${DRIVER_BIN:-$PWD/out/rust/target/release}/zigrunk header=$PWD/tests/small/cuda_runtime.h
unset NVCC_PREPEND_FLAGS NVCC_APPEND_FLAGS MAKEFLAGS "${!ZIGRUNK@}"
mkdir "$scratch/work" "$scratch/tmp"
cp examples/picture.py "$scratch"
# The program stands behind the sentence that says so, and the page writes a minus as \-.
sed -n '/^A program in Python/,/^\.fi/p' man/zigrunk-plan.1 | sed -n '/^import/,/^\.fi/p' | sed '$d; s/\\-/-/g' > "$scratch/run.py"
cd "$scratch/work" || exit 1
export TMPDIR=$scratch/tmp
cp "$header" .
printf '%s\n' '__global__ void kernel(int *x) { *x = 1; }' 'int start(int *x) { kernel<<<1, 1>>>(x); return 0; }' > k.cu

by_shell() { "$zigrunk" plan shell "$@" | sh; }
by_ninja() { "$zigrunk" plan ninja -- "$@" | ninja -f /dev/stdin > /dev/null; }
by_json() { "$zigrunk" plan json -- "$@" > plan.json && python3 "$scratch/run.py"; }

# digest FILE: an object without what names a temporary file; any other file whole.
digest() {
    case $1 in
    *.o) objcopy --strip-unneeded "$1" "$scratch/stripped" && sha256sum < "$scratch/stripped" ;;
    *) sha256sum < "$1" ;;
    esac
}

# runs PRODUCT WORD..: a call whose plan each runner runs.
runs() {
    local product=$1 want by
    shift
    nvcc "$@" -o "$product" && want=$(digest "$product") || return
    for by in by_shell by_ninja by_json; do
        rm -rf "$product" "$scratch"/tmp/*
        "$by" nvcc "$@" -o "$product" > "$scratch/said" 2>&1
        same "$by: nvcc $*" "$? $(digest "$product" 2>&1)" "0 $want"
    done
}

runs k.o -c k.cu
runs two.o -gencode=arch=compute_80,code=sm_80 -gencode=arch=compute_90,code=sm_90 -c k.cu
runs k.ptx -ptx k.cu
runs "it's a.o" -DA='x y' -c k.cu
count=$(python3 -c 'import json; print(len(json.load(open("plan.json"))["commands"]))')
same 'boxes of a picture' "$("$scratch/picture.py" plan.json | grep -c '^  subgraph')" "$count"
summary
