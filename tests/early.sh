#!/usr/bin/env bash
# Tests that a call whose commands begin before others that they need have ended makes the same files and says the same as one whose
# commands wait (ZIGRUNK_EARLY=0), and which calls begin so. The last line is 'N passed, M failed'; the status is 1 if one failed.
#
#   DRIVER_BIN=FOLDER      where zigrunk-nvcc is, else where `make rust` leaves it
cd "$(dirname "$0")/.." || exit 1
. tests/lib.sh
require 'commands that begin early' nvcc python3
wrapper=${DRIVER_BIN:-$PWD/out/rust/target/release}/zigrunk-nvcc
unset NVCC_PREPEND_FLAGS NVCC_APPEND_FLAGS MAKEFLAGS ZIGRUNK_RUNNER ZIGRUNK_LAUNCHER ZIGRUNK_TMP ZIGRUNK_EARLY ZIGRUNK_LATE

cp tests/small/cuda_runtime.h "$scratch"
cd "$scratch" || exit 1
mkdir tmp
export TMPDIR=$scratch/tmp ZIGRUNK_LOG=$scratch/log ZIGRUNK_SLOTS=0 ZIGRUNK_LATE=0
cat > k.cu << 'END_OF_SOURCE'
#include <cstdio>
template <int N> __global__ void scale(float* values) { values[threadIdx.x] *= N; }
__device__ int table[64];
static __global__ void fill(int value) { table[threadIdx.x] = value; }
namespace { struct Counts { Counts(); ~Counts(); } counts; Counts::Counts() {} Counts::~Counts() {} }
void run(float* values) { scale<2><<<1, 32>>>(values); scale<3><<<1, 32>>>(values); fill<<<1, 64>>>(4); std::puts("x"); }
END_OF_SOURCE
printf '#warning odd\n#pragma message("odd too")\n__global__ void k(int* p) { int unused; *p = 1; }\n' > warns.cu
echo '__global__ void k(int* p) { *p = no_such; }' > fails.cu
# (a stub file of several hundred thousand bytes, for a pipe that holds one part)
for number in {1..500}; do echo "template <class T> __global__ void kernel_${number}_of_a_long_name(T* values, int count) {} template __global__ void kernel_${number}_of_a_long_name(float*, int);"; done > many.cu
printf '#ifdef __CUDA_ARCH__\n__device__ int f() { return no_such; }\n#else\nint f() { return 1; }\n#endif\n' > device.cu
printf '#ifndef __CUDA_ARCH__\nint f() { return no_such; }\n#endif\n__global__ void k() {}\n' > host.cu
echo '#include "no_such.h"' > header.cu
printf '#if __CUDA_ARCH__ == 800\n#include "no_such.h"\n#endif\n__global__ void k() {}\n' > header_80.cu

# begun_early: what of the logged call began before something that it needs, by the plan, had ended: -E for a device's preprocessor, cicc, or
# -S for the compiler's half of the last compile.
begun_early() {
    python3 - log << 'END_OF_PROGRAM'
import json, sys
with open(sys.argv[1]) as log:
    commands = [command for line in log for command in json.loads(line).get("commands", [])]
begun = set()
for command in commands:
    early = [need for need in command["needs"] if command["begin"] < commands[need]["end"]]
    kind = command["kind"].split()
    begun |= {kind[1] if kind[0] == "gcc" else kind[0]} if early else set()
front = [command for command in commands if command["kind"] == "gcc -E"]
if any(command["begin"] < front[0]["end"] for command in commands if front and command["kind"].startswith("gcc -E __CUDA")):
    begun.add("-E")
print(*sorted(begun))
END_OF_PROGRAM
}

# made EARLY WORDS..: makes a call. What it says and its status become $said, the sums of all files $files, and what began early $early.
made() {
    rm -rf work log
    mkdir work
    cp -p ./*.cu cuda_runtime.h work
    said=$(cd work && ZIGRUNK_EARLY=$1 "$wrapper" "${@:2}" 2>&1; echo "status $?")
    files=$(cd work && find . -type f -print0 | sort -z | xargs -0 cksum)
    early=$(begun_early)
}

# compare MAY WORDS..: a case. MAY says what may begin early, or is empty. What does depends on the load, so the last case looks at all.
compare() {
    local problem='' wanted_said wanted_files one
    made 0 "${@:2}"
    wanted_said=$said wanted_files=$files
    early=${early#-E}
    [ -z "$early" ] || problem="$early begins early though that is off; "
    made '' "${@:2}"
    for one in $early; do
        [[ " $1 " == *" $one "* ]] || problem+="$one begins early; "
        all_early[$one]=yes
    done
    [ "$said" = "$wanted_said" ] || problem+="it says '$said', not '$wanted_said'; "
    [ "$files" = "$wanted_files" ] || problem+='it makes other files; '
    [ -z "$(ls -A tmp/*)" ] || problem+="it leaves $(ls tmp/*)"
    count "${*:2}" "$problem"
}

declare -A all_early=()
two=(-gencode 'arch=compute_75,code=sm_75' -gencode 'arch=compute_80,code=[sm_80,compute_80]')
compare '-E cicc' -c k.cu -o k.o
compare '-E cicc' "${two[@]}" -c k.cu -o k.o
compare '-E cicc' "${two[@]}" -t 4 -dc k.cu -o k.o
compare '-E cicc' -rdc=true -c k.cu
compare '-E cicc' -std=c++20 -G -g -c k.cu -o k.o
compare '-E cicc' -lineinfo -c k.cu -o k.o
compare '-E cicc' -arch=sm_80 -dlto -c k.cu -o k.o
compare '-E cicc' -MD -MF k.d -c k.cu -o k.o
compare '' "${two[@]}" -fatbin k.cu
compare '-E cicc' "${two[@]}" -c warns.cu
compare -E "${two[@]}" -c fails.cu
compare '-E cicc' "${two[@]}" -c device.cu
compare '-E cicc' "${two[@]}" -c host.cu
compare '-E cicc' "${two[@]}" -c header_80.cu
export ZIGRUNK_LATE=''
compare '-E cicc -S' -c k.cu -o k.o
compare '-E cicc -S' "${two[@]}" -dc k.cu -o k.o
compare '-E cicc -S' -Xcompiler -Wshadow -G "${two[@]}" -c k.cu -o k.o
compare '-E cicc -S' "${two[@]}" -c warns.cu
compare '-E cicc -S' "${two[@]}" -c device.cu
# gcc shows lines of the stub file, which it reads again for that.
compare '-E cicc -S' -Xcompiler -Wold-style-cast,-Wredundant-decls,-Wunused -c k.cu -o k.o
compare '-E cicc -S' -Xcompiler -Wfatal-errors -c host.cu
compare '-E cicc -S' -MD -c many.cu
compare '-E cicc' "${two[@]}" -g -c k.cu -o k.o
ZIGRUNK_SLOTS=1 XDG_RUNTIME_DIR=$scratch compare '' "${two[@]}" -c k.cu -o k.o
export ZIGRUNK_LATE=0

# A header that is missing for host and device is missed once.
made '' "${two[@]}" -c header.cu
same 'a missing header' "$(grep -c 'no_such.h: No such file' <<< "$said") $(tail -n 1 <<< "$said")" '1 status 1'

compare '' --keep "${two[@]}" -c k.cu -o k.o
compare '' -t 1 -c k.cu -o k.o
ZIGRUNK_LAUNCHER='env' compare '' "${two[@]}" -c k.cu -o k.o
ZIGRUNK_RUNNER='env' compare '' "${two[@]}" -c k.cu -o k.o
ZIGRUNK_SLOTS=1 XDG_RUNTIME_DIR=$scratch compare '' "${two[@]}" -c k.cu -o k.o

# What is interrupted for ever ends.
if command -v strace > "$scratch/strace"; then
    for early in 0 1; do
        rm -f k.o
        ZIGRUNK_EARLY=$early ZIGRUNK_LATE='' timeout -s KILL 120 strace -b execve -o trace -e trace=read,pread64 -e inject=read,pread64:error=EINTR:when=7+ \
            "$wrapper" -MD -c k.cu -o k.o > said 2>&1
        same "status and product with ZIGRUNK_EARLY=$early, if reads are interrupted" "$? $(ls k.o) $(($(grep -c EINTR trace) > 0))" '0 k.o 1'
    done
else
    skip 'reads that are interrupted' 'there is no strace'
fi

same 'what begins early in some call' "$(printf '%s\n' "${!all_early[@]}" | sort | paste -sd ' ')" '-E -S cicc'

summary
