#!/usr/bin/env bash
# Writes a CMake project: twelve CUDA sources, a library and a program, two include directories, separable compilation. Each source has a
# kernel. The architectures are 75 and 80, unless CMAKE_CUDA_ARCHITECTURES names others. tests/builds.sh builds it, and tests/cache its sources.
#
#   tests/project.sh FOLDER
set -eu

# a source, its number, and what is before `run`
source_of() {
    cat << END
#include "device.h"
#include "size.h"

// Adds up each block: number $1.
template <typename T> __global__ void sum_$1(const T* values, T* sums, int count) {
    __shared__ T tile[SIZE];
    int at = blockIdx.x * SIZE + threadIdx.x;
    tile[threadIdx.x] = at < count ? scaled(values[at], $1) : T();
    for (int step = SIZE / 2; step > 0; step /= 2) {
        __syncthreads();
        if (threadIdx.x < step) tile[threadIdx.x] += tile[threadIdx.x + step];
    }
    if (threadIdx.x == 0) sums[blockIdx.x] = tile[0];
}

void run_$1(const float* values, float* sums, int count) {
    int blocks = (count + SIZE - 1) / SIZE;
    sum_$1<<<blocks, SIZE>>>(values, sums, count);
}
END
}

mkdir -p "$1/include" "$1/more headers"
cat > "$1/CMakeLists.txt" << 'END'
cmake_minimum_required(VERSION 3.18)
set(CMAKE_CUDA_ARCHITECTURES 75 80 CACHE STRING "the targets")
project(Twelve LANGUAGES CXX CUDA)
add_library(sums STATIC 1.cu 2.cu 3.cu 4.cu 5.cu 6.cu 7.cu 8.cu)
add_executable(program main.cu 9.cu 10.cu 11.cu)
target_link_libraries(program sums)
target_include_directories(sums PUBLIC include "more headers")
target_compile_definitions(sums PRIVATE "NAME=\"a name\"")
set_target_properties(sums program PROPERTIES CUDA_SEPARABLE_COMPILATION ON CUDA_STANDARD 17)
END
echo '__device__ float scaled(float value, int factor);' > "$1/include/device.h"
echo '#define SIZE 128' > "$1/more headers/size.h"
for number in 1 2 3 4 5 6 7 8 9 10 11; do source_of "$number" > "$1/$number.cu"; done
echo '__device__ float scaled(float value, int factor) { return factor * value; }' >> "$1/1.cu"
echo 'const char* name() { return NAME; }' >> "$1/2.cu"
{
    source_of 12
    for number in 1 2 3 4 5 6 7 8 9 10 11; do echo "void run_$number(const float* values, float* sums, int count);"; done
    echo 'int main() {'
    for number in 1 2 3 4 5 6 7 8 9 10 11 12; do echo "    run_$number(nullptr, nullptr, 0);"; done
    echo '}'
} > "$1/main.cu"
