#!/usr/bin/env bash
# Tests that a call whose last host compile begins before its fatbin is there makes the same object and says the same as one whose
# compile waits, as with ZIGRUNK_LATE=0, and which calls begin it so. The last line is 'N passed, M failed'; the status is 1 if one failed.
#
#   DRIVER_BIN=FOLDER      where zigrunk-nvcc is, else where `make rust` leaves it
cd "$(dirname "$0")/.." || exit 1
. tests/lib.sh
require 'early host compiles' nvcc
wrapper=${DRIVER_BIN:-$PWD/out/rust/target/release}/zigrunk-nvcc
headers=$PWD/tests/small
unset NVCC_PREPEND_FLAGS NVCC_APPEND_FLAGS MAKEFLAGS ZIGRUNK_RUNNER ZIGRUNK_LAUNCHER ZIGRUNK_TMP ZIGRUNK_LATE
nvcc --version | grep -q 'release 13\.' || skip_all 'early host compiles' "this nvcc isn't 13"

cd "$scratch" || exit 1
mkdir tmp
cp "$headers/cuda_runtime.h" .
export TMPDIR=$scratch/tmp ZIGRUNK_LOG=$scratch/log
cat > k.cu << 'END_OF_SOURCE'
#include <cstdio>
template <int N> __global__ void scale(float* values) { values[threadIdx.x] *= N; }
__device__ int table[64];
static __global__ void fill(int value) { table[threadIdx.x] = value; }
namespace { struct Counts { Counts(); ~Counts(); } counts; Counts::Counts() {} Counts::~Counts() {} }
void run(float* values) { scale<2><<<1, 32>>>(values); scale<3><<<1, 32>>>(values); fill<<<1, 64>>>(4); std::puts("x"); }
END_OF_SOURCE
echo 'int host() { return 3; }' > host.cu
echo '__device__ int g(int x) { return x * 2; }' > device.cu
echo '__global__ void k(int* p) { *p = 1; } int f(int x) { { int x = 2; (void)x; } return x; }' > shadow.cu
echo '__global__ void k(int* p) { *p = 1; } void f() { asm("no such"); }' > assembly.cu
cat > data.cu << 'END_OF_SOURCE'
__global__ void k(int* p) { *p = 1; }
asm(".globl mine\nmine: .incbin \"data\"\n");
END_OF_SOURCE
mkdir inc
echo here > inc/data
cat > odd.cu << 'END_OF_SOURCE'
__global__ void k(int* p) { *p = 1; }
asm(".warning \"odd\"\n");
END_OF_SOURCE

# made LATE WORDS..: makes a call. What it says and its status become $said, the sums of all files $files, and $halves is set if a
# compile was begun early. Names of temporary files don't count.
made() {
    rm -rf work log
    mkdir work
    cp -p ./*.cu cuda_runtime.h work
    cp -pr inc work
    said=$({ cd work && ZIGRUNK_LATE=$1 "$wrapper" "${@:2}" 2>&1; echo "status $?"; } | sed 's|/[^ ]*/cc[A-Za-z0-9]*\.s:|x.s:|')
    files=$(cd work && find . -type f -print0 | sort -z | xargs -0 cksum)
    halves=$(grep -oE '"kind":"[^" ]*(gcc|g\+\+) -S' log)
}

# compare BEGINS WORDS..: a case. BEGINS says whether the compile begins 'early' or 'waits', or that it is made 'again' as a whole, since the
# assembler complains. nvcc doesn't make the call then, and one host compile more is all.
compare() {
    local problem='' wanted_said wanted_files
    made 0 "${@:2}"
    wanted_said=$said wanted_files=$files
    [ -z "$halves" ] || problem='its compile begins early though that is off; '
    made '' "${@:2}"
    case $1 in
        early) [ -n "$halves" ] || problem+='its compile waits; ' ;;
        waits) [ -z "$halves" ] || problem+='its compile begins early; ' ;;
        again) [ -n "$halves" ] && ! grep -q '"reason"' log || problem+='its halves are not made, or nvcc makes it; ' ;;
    esac
    [ "$1" = waits ] || [ "$said" = "$wanted_said" ] || problem+="it says '$said', not '$wanted_said'; "
    [ "$1" = waits ] || [ "$files" = "$wanted_files" ] || problem+='it makes other files'
    count "${*:2}" "$problem"
}

two=(-gencode 'arch=compute_75,code=sm_75' -gencode 'arch=compute_80,code=[sm_80,compute_80]')
compare early -c k.cu -o k.o
compare early "${two[@]}" -c k.cu -o k.o
compare early "${two[@]}" -t 4 -dc k.cu -o k.o
compare early -rdc=true -c k.cu
for level in 0 1 2 3; do
    compare early "-O$level" -c k.cu -o k.o
done
compare early -O3 -Xcompiler -fPIC,-fvisibility=hidden,-march=native,-fopenmp -c k.cu -o k.o
compare early -std=c++20 -G -c k.cu -o k.o
compare early -lineinfo -Xcompiler -w -c k.cu -o k.o
compare early --compress-mode=size -Xfatbin -compress-all -c k.cu -o k.o
compare early -static-global-template-stub=false -c k.cu -o k.o
compare early -arch=sm_80 -dlto -c k.cu -o k.o
compare early -MD -MF k.d -c k.cu -o k.o
compare early -c host.cu
compare early -c device.cu
compare early -Xcompiler -Wshadow -c shadow.cu
compare early -Xcompiler -Wshadow,-Werror -c shadow.cu
compare early -Iinc -c data.cu
compare again -c data.cu
compare again -c assembly.cu
compare again -c odd.cu
compare again "${two[@]}" -rdc=true -MD -MF k.d -c odd.cu -o k.o
ZIGRUNK_EARLY=0 compare again -c odd.cu
ZIGRUNK_CACHE=$scratch/cache compare again -c odd.cu
ZIGRUNK_CACHE=$scratch/cache compare again -c odd.cu
for word in -g -Xcompiler=-g -Xcompiler=-g1 -Xcompiler=-pipe -Xcompiler=-save-temps -Xcompiler=-flto -Xcompiler=-fstack-usage -Xcompiler=--coverage \
    -Xcompiler=-frecord-gcc-switches -Xcompiler=-MD -Xcompiler=-v -Xcompiler=-m32 -Xcompiler=-fno-ident --keep; do
    compare waits "$word" -c k.cu -o k.o
done
compare waits -ptx k.cu
compare waits -fatbin k.cu
if command -v clang++ > /dev/null; then
    compare waits -ccbin clang++ -allow-unsupported-compiler -c k.cu -o k.o
else
    skip 'another compiler' 'no clang++'
fi
mkdir hosts
ln -s "$(command -v g++)" hosts/g++
ln -s g++ hosts/gcc
printf '#!/bin/sh\nexec g++ "$@"\n' > hosts/x86_64-linux-gnu-g++
chmod +x hosts/x86_64-linux-gnu-g++
compare early -ccbin "$scratch/hosts" -c k.cu -o k.o
compare early -ccbin "$scratch/hosts/g++" -c k.cu -o k.o
compare waits -ccbin "$scratch/hosts/x86_64-linux-gnu-g++" -c k.cu -o k.o
PATH=$scratch/hosts:$PATH compare waits -ccbin x86_64-linux-gnu-g++ -c k.cu -o k.o
ZIGRUNK_LAUNCHER='env' compare waits -c k.cu -o k.o
ZIGRUNK_RUNNER='env' compare waits -c k.cu -o k.o
GCC_COMPARE_DEBUG='' compare waits -c k.cu -o k.o
mkdir 'odd"path'
TMPDIR=$scratch/odd\"path compare waits -c k.cu -o k.o

summary
