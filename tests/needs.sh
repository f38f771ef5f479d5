#!/usr/bin/env bash
# Tests that what commands need is enough: zigrunk-nvcc builds a fatbin for six targets twenty times with eight commands at once,
# and each product has to be nvcc's. A call has 19 commands. Each build but the first holds another one back for a second, in which all
# run that don't need it. The last line is 'N passed, M failed'; the status is 1 if one failed.
#
#   DRIVER_BIN=FOLDER      where zigrunk-nvcc is, else where `make rust` leaves it
#   TARGETS='70 75 ..'     other targets: six that nvcc knows
cd "$(dirname "$0")/.." || exit 1
. tests/lib.sh
require 'needs of commands' nvcc
wrapper=${DRIVER_BIN:-$PWD/out/rust/target/release}/zigrunk-nvcc
headers=$PWD/tests/small
export ZIGRUNK_EXPLAIN=1 ZIGRUNK_JOBS=8 ZIGRUNK_SLOTS=8
unset NVCC_PREPEND_FLAGS NVCC_APPEND_FLAGS MAKEFLAGS ZIGRUNK_RUNNER ZIGRUNK_LAUNCHER ZIGRUNK_TMP

cd "$scratch" || exit 1
mkdir tmp
cp "$headers/cuda_runtime.h" .
export TMPDIR=$scratch/tmp
cat > k.cu << 'END_OF_SOURCE'
template <int N> __global__ void scale(float* values) { values[threadIdx.x] *= N; }
__device__ int table[64];
__global__ void fill(int value) { table[threadIdx.x] = value; }
void run(float* values) { scale<2><<<1, 32>>>(values); scale<3><<<1, 32>>>(values); fill<<<1, 64>>>(4); }
END_OF_SOURCE
targets=()
for number in ${TARGETS:-75 80 86 89 90 100}; do
    targets+=(-gencode "arch=compute_$number,code=sm_$number")
done

# The runner. A command's key is a checksum of its words. In a build that holds nothing back it writes down the keys.
cat > runner << 'END_OF_RUNNER'
#!/bin/sh
key=$(printf '%s ' "$@" | cksum)
[ -n "$HELD" ] || echo "$key" >> "$KEYS"
[ "$key" != "$HELD" ] || { echo held > "$KEYS.held" && sleep 1; }
exec "$@"
END_OF_RUNNER
chmod +x runner
export ZIGRUNK_RUNNER=$scratch/runner KEYS=$scratch/keys

nvcc -fatbin "${targets[@]}" k.cu -o wanted.fatbin || exit 1
for run in {1..20}; do
    rm -f k.fatbin keys.held
    HELD=$(sed -n "$((run - 1))p" keys 2> /dev/null)
    export HELD
    problem=$("$wrapper" -fatbin "${targets[@]}" k.cu -o k.fatbin 2>&1) || problem+=" status $?"
    cmp -s k.fatbin wanted.fatbin || problem+=' the fatbin differs from that of nvcc'
    if [ "$run" = 1 ]; then
        [ "$(sort -u keys | wc -l)" = 19 ] || problem+=" $(sort -u keys | wc -l) commands, not 19"
    else
        [ -e keys.held ] || problem+=' no command is held back'
    fi
    count "a fatbin for six targets, build $run" "$problem"
done

summary
