#!/usr/bin/env bash
# Has clangd and clang-tidy read the compilation databases that `zigrunk plan compdb` prints, with a CUDA toolkit that they know: clang 14
# knows those before 12.0, clang 19 those before 13.0. The last line is 'N passed, M failed'.
#
#   DRIVER_BIN=FOLDER   where zigrunk is, else where `make rust` leaves it. tests/versions.sh runs this.
cd "$(dirname "$0")/.." || exit 1
. tests/lib.sh
require 'clang'\''s tools' nvcc clangd clang-tidy python3
zigrunk=${DRIVER_BIN:-$PWD/out/rust/target/release}/zigrunk
unset NVCC_PREPEND_FLAGS NVCC_APPEND_FLAGS
mkdir "$scratch/project" "$scratch/project/a folder"
cd "$scratch/project" || exit 1

# A kernel that is called, a header and a macro that only the line's words give, and code for one architecture alone.
cat > 'a folder/settings.h' << 'END'
constexpr int most = LIMIT;
END
cat > kernel.cu << 'END'
#include <vector>
#include "settings.h"
__global__ void fill(int *values) { values[threadIdx.x] = most; }
#if defined(__CUDA_ARCH__) && __CUDA_ARCH__ == 860
__device__ int only_there() { return ONLY; }
#endif
void start(std::vector<int> &to) { int *values = nullptr; fill<<<1, 32>>>(values); cudaMemcpy(to.data(), values, 4, cudaMemcpyDeviceToHost); }
END
readonly LINE=(nvcc -std=c++17 -rdc=true -gencode 'arch=compute_80,code=sm_80' -gencode 'arch=compute_86,code=sm_86' '-Ia folder' -DLIMIT=4)

# database WORD..: writes the database of a call with these words more.
database() {
    "$zigrunk" plan compdb "${LINE[@]}" "$@" -c kernel.cu -o kernel.o > compile_commands.json
}

# halves: which halves of the source the records are for, in order.
halves() {
    python3 -c 'import json
for it in json.load(open("compile_commands.json")):
    print(*[word for word in it["arguments"] if word.startswith("--cuda-") or word == "-fgpu-rdc"])'
}

# errors COMMAND..: the errors that a tool finds, each once, without its place's folder.
errors() {
    "$@" 2>&1 | sed -n 's/^.*\(kernel\.cu:[0-9]*\):[0-9]*: error: \([^[]*[^[ ]\).*/\1 \2/p
        s/^E\[[^]]*\] \[[a-z_]*\] Line \([0-9]*\): /kernel.cu:\1 /p; s/.*All checks completed, \([0-9]*\) errors/\1/p' | sort -u
}

check 'a database' database -DONLY=1
same 'the halves of the source' "$(halves)" $'--cuda-host-only -fgpu-rdc\n--cuda-device-only --cuda-gpu-arch=sm_86 -fgpu-rdc\n--cuda-device-only --cuda-gpu-arch=sm_80 -fgpu-rdc'
same 'clang-tidy finds no error' "$(errors clang-tidy -p . --checks='-*,bugprone-*' kernel.cu)" ''
same 'clangd finds no error' "$(errors clangd --check=kernel.cu)" 0
database -UONLY
same 'clang-tidy finds an error in the code for one architecture' "$(errors clang-tidy -p . --checks='-*,bugprone-*' kernel.cu)" \
    "kernel.cu:5 use of undeclared identifier 'ONLY'"
sed -i 's/fill<<<1, 32>>>(values)/fill<<<1, 32>>>(nothing)/' kernel.cu
same 'clangd finds an error in the code for the host' "$(errors clangd --check=kernel.cu)" $'1\nkernel.cu:7 use of undeclared identifier '"'nothing'"
summary
