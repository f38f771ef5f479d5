#!/usr/bin/env bash
# Builds a CMake project by nvcc, with zigrunk-nvcc as its CUDA compiler, and with zigrunk-nvcc as the launcher of nvcc, for Ninja and
# for make. The project has several sources, two architectures, separable compilation, include directories and dependency files. With make,
# CMake writes the include directories to options files. The objects have to be those of nvcc, every call that compiles has to be split,
# and touching a header has to rebuild the same files. The last line is 'N passed, M failed'.
#
#   DRIVER_BIN=FOLDER   where zigrunk-nvcc is, else where `make rust` leaves it
#   BY_SYMBOLS=yes      only the objects' symbols have to be those of nvcc: nvcc 11.2 names some after a process, so each of its objects differs
cd "$(dirname "$0")/.." || exit 1
. tests/lib.sh
require 'CMake projects' cmake nvcc ninja make objcopy
wrapper=${DRIVER_BIN:-$PWD/out/rust/target/release}/zigrunk-nvcc
headers=$PWD/tests/small
unset NVCC_PREPEND_FLAGS NVCC_APPEND_FLAGS MAKEFLAGS CUDAFLAGS CUDACXX
mkdir "$scratch/launchers"

# A launcher that logs which programs it runs.
cat > "$scratch/launchers/log" << 'END'
#!/bin/sh
echo "${1##*/}" >> "$LAUNCHED"
exec "$@"
END
chmod +x "$scratch/launchers/log"

# make_sources FOLDER: the project. A small cuda_runtime.h takes the toolkit's place where its sources are compiled.
make_sources() {
    mkdir -p "$1/build" "$1/include" "$1/more headers"
    cp "$headers/cuda_runtime.h" "$1/build"
    cat > "$1/CMakeLists.txt" << 'END'
cmake_minimum_required(VERSION 3.18)
project(Example LANGUAGES CXX CUDA)
add_library(kernels STATIC first.cu second.cu)
add_executable(program main.cu plain.cpp)
target_link_libraries(program kernels)
set_target_properties(kernels program PROPERTIES CUDA_SEPARABLE_COMPILATION ON CUDA_ARCHITECTURES "75;80" CUDA_STANDARD 17)
target_compile_definitions(kernels PRIVATE "NAME=\"a name\"")
target_include_directories(kernels PRIVATE include "more headers")
END
    echo '__device__ int twice(int value);' > "$1/include/device.h"
    echo '#define SIZE 32' > "$1/more headers/size.h"
    printf '%s\n' '#include "device.h"' '__device__ int twice(int value) { return 2 * value; }' > "$1/first.cu"
    printf '%s\n' '#include "device.h"' '#include "size.h"' 'const char* name() { return NAME; }' \
        '__global__ void kernel(int* values) { values[threadIdx.x] = twice(threadIdx.x); }' \
        'void run(int* values) { kernel<<<1, SIZE>>>(values); }' > "$1/second.cu"
    printf '%s\n' 'void run(int*);' 'int plain();' 'int main() { run(nullptr); return plain(); }' > "$1/main.cu"
    echo 'int plain() { return 0; }' > "$1/plain.cpp"
}

# build_by WAY GENERATOR FOLDER: builds the project at FOLDER/work, touches the header and builds again; leaves FOLDER/WAY.
build_by() {
    local way=$1 generator=$2 folder=$3 settings
    case $way in
    nvcc) settings=(-DCMAKE_CUDA_COMPILER="$(command -v nvcc)") ;;
    compiler) settings=(-DCMAKE_CUDA_COMPILER="$wrapper") ;;
    launcher) settings=(-DCMAKE_CUDA_COMPILER="$(command -v nvcc)" -DCMAKE_CUDA_COMPILER_LAUNCHER="$wrapper") ;;
    esac
    make_sources "$folder/work"
    (
        cd "$folder/work" || exit 1
        export LAUNCHED=$folder/$way.launched ZIGRUNK_LAUNCHER=$scratch/launchers/log ZIGRUNK_LOG=$folder/$way.calls
        cmake -G "$generator" -S . -B build "${settings[@]}" || exit 1
        rm -f "$LAUNCHED" "$ZIGRUNK_LOG"
        cmake --build build -j 2 || exit 1
        touch built
        sleep 0.1
        touch include/device.h
        cmake --build build -j 2 || exit 1
        cd build && find . \( -name '*.o' -o -name '*.a' -o -name program \) -newer ../built | sort > "$folder/$way.rebuilt"
    ) > "$folder/$way.log" 2>&1
    echo $? > "$folder/$way.status"
    mv "$folder/work" "$folder/$way"
}

# symbols OBJECT: prints an object's symbols, without the names of files in them.
symbols() {
    nm "$1" | cut -c 18- | sed 's/[0-9]*_\(tmpxft\|x_0\)_.*/NAME/' | sort
}

# differences FOLDER WAY: prints how a build differs from that of nvcc.
differences() {
    local folder=$1 way=$2 object cicc
    [ "$(cat "$folder/$way.status")" = 0 ] || tail -n 20 "$folder/$way.log"
    diff "$folder/nvcc.rebuilt" "$folder/$way.rebuilt"
    [ "$(grep -c '\.cu\.o$' "$folder/$way.rebuilt")" = 2 ] || echo 'two objects need the header'
    grep '"-c"' "$folder/$way.calls" | grep '"reason"'
    # three sources for two architectures, and two of them again
    cicc=$(grep -cx cicc "$folder/$way.launched")
    [ "$cicc" = 10 ] || echo "$cicc calls of cicc, not 10"
    while IFS= read -r object; do
        objcopy --strip-unneeded "$folder/nvcc/build/$object" "$folder/one"
        objcopy --strip-unneeded "$folder/$way/build/$object" "$folder/other"
        if [ -n "${BY_SYMBOLS-}" ]; then
            diff <(symbols "$folder/one") <(symbols "$folder/other") || echo "$object has other symbols"
        else
            cmp "$folder/one" "$folder/other" || echo "$object differs"
        fi
    done < <(cd "$folder/nvcc/build" && find . -name '*.cu.o')
}

# project GENERATOR: all three builds, one after the other, since their paths get into what they make.
project() {
    local folder="$scratch/$1" way
    mkdir "$folder"
    for way in nvcc compiler launcher; do
        build_by "$way" "$1" "$folder"
    done
    for way in compiler launcher; do
        differences "$folder" "$way" > "$folder/$way.differences" 2>&1
    done
}

# old_module WORD..: a project that takes CMake's old FindCUDA, configured with these words. Prints how many calls of zigrunk-nvcc were split.
old_module() {
    local folder=$scratch/old
    rm -rf "$folder" && mkdir -p "$folder/build" && cp "$headers/cuda_runtime.h" "$folder/build"
    printf '%s\n' 'cmake_minimum_required(VERSION 3.18)' 'project(Old CXX)' 'find_package(CUDA REQUIRED)' 'cuda_add_library(k STATIC k.cu)' > "$folder/CMakeLists.txt"
    printf '%s\n' '__global__ void kernel(int* values) { values[0] = 1; }' 'void run(int* values) { kernel<<<1, 1>>>(values); }' > "$folder/k.cu"
    (CMAKE_LIBRARY_PATH=$libraries cmake -S "$folder" -B "$folder/build" "$@" && ZIGRUNK_LOG=$folder/calls cmake --build "$folder/build") > "$folder/log" 2>&1 || tail -n 20 "$folder/log"
    : >> "$folder/calls"
    grep '"-c"' "$folder/calls" | grep -vc '"reason"'
}

project Ninja &
project 'Unix Makefiles' &
wait
if cmake --help-module FindCUDA > /dev/null 2>&1; then
    # The module doesn't look where Debian has the toolkit's libraries.
    libraries=$(cd "$scratch" && : > k.cu && nvcc --dryrun k.cu 2>&1 | sed -n 's/^#\$ LIBRARIES=.*-L\([^ "]*\).*/\1/p')
    same "FindCUDA's variable" "$(old_module -DCUDA_NVCC_EXECUTABLE="$wrapper")" 1
    same 'the variable that it ignores' "$(old_module -DCMAKE_CUDA_COMPILER="$wrapper")" 0
    toolkit=$(cd "$scratch" && : > k.cu && nvcc --dryrun -c k.cu 2>&1 | sed -n 's/^#\$ TOP=//p')
    toolkit=$(realpath "${toolkit:-$(dirname "$(command -v nvcc)")/..}")
    same 'its variable beside the toolkit, which drops it' "$(old_module -DCUDA_NVCC_EXECUTABLE="$wrapper" -DCUDA_TOOLKIT_ROOT_DIR="$toolkit")" 0
else
    skip "CMake's FindCUDA" 'this CMake lacks it'
fi
for generator in Ninja 'Unix Makefiles'; do
    for way in compiler launcher; do
        count "CMake, $generator, zigrunk-nvcc as $way" "$(cat "$scratch/$generator/$way.differences")"
    done
done
summary
