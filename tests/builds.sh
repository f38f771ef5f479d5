#!/usr/bin/env bash
# Builds the project of tests/project.sh, twelve sources for two targets, eight calls at once: by nvcc, with zigrunk-nvcc as CMake's CUDA
# compiler, and as the launcher of nvcc, by Ninja and by make. Of the calls that compile at least 95 % have to be split, the objects have
# to be nvcc's, and there may never be more compilers than processors and one. One build without that limit shows that the test
# would see more. The last line is 'N passed, M failed'.
#
#   DRIVER_BIN=FOLDER   where zigrunk-nvcc is, else where `make rust` leaves it
cd "$(dirname "$0")/.." || exit 1
. tests/lib.sh
require 'builds of twelve sources' cmake nvcc ninja make objcopy python3 taskset
trap 'kill $(jobs -p) 2> /dev/null; rm -rf "$scratch"' EXIT
wrapper=${DRIVER_BIN:-$PWD/out/rust/target/release}/zigrunk-nvcc
tests=$PWD/tests
unset NVCC_PREPEND_FLAGS NVCC_APPEND_FLAGS MAKEFLAGS CUDAFLAGS CUDACXX CUDAARCHS "${!ZIGRUNK_@}"
# tools that name other launchers, generators or flags
unset "${!CMAKE_@}" "${!CCACHE_@}"
mkdir "$scratch/run" "$scratch/tmp"
export XDG_RUNTIME_DIR=$scratch/run TMPDIR=$scratch/tmp
# At most four processors: eight calls have to be able to start more compilers than that.
four=$(taskset -cp $$ | sed 's/.*: //' | tr , '\n' | awk -F - '{ for (at = $1; at <= ($2 ? $2 : $1); at++) print at }' | head -n 4)
taskset -cp "$(paste -sd , <<< "$four")" $$ > /dev/null
limit=$(($(nproc) + 1))

# build WAY GENERATOR [NAME=VALUE]: builds the project at $scratch/work, since paths get into what is made, and leaves $scratch/WAY. Notes
# the most compilers at once.
build() {
    local settings sampler
    case $1 in
    nvcc) settings=(-DCMAKE_CUDA_COMPILER="$(command -v nvcc)") ;;
    launcher) settings=(-DCMAKE_CUDA_COMPILER="$(command -v nvcc)" -DCMAKE_CUDA_COMPILER_LAUNCHER="$wrapper") ;;
    *) settings=(-DCMAKE_CUDA_COMPILER="$wrapper") ;;
    esac
    rm -rf "${scratch:?}/work" "${scratch:?}/$1" "$scratch/$1.calls"
    "$tests/project.sh" "$scratch/work"
    if ! cmake -G "$2" -S "$scratch/work" -B "$scratch/work/build" "${settings[@]}" > "$scratch/$1.said" 2>&1; then
        count "CMake by $2, $1" "$(tail -n 20 "$scratch/$1.said")"
        return 1
    fi
    "$tests/running.py" "$scratch" > "$scratch/$1.compilers" &
    sampler=$!
    env ${3:+"$3"} ZIGRUNK_LOG="$scratch/$1.calls" cmake --build "$scratch/work/build" -j 8 > "$scratch/$1.said" 2>&1 ||
        echo 'the build fails' >> "$scratch/$1.said"
    kill "$sampler"
    wait "$sampler"
    mv "$scratch/work" "$scratch/$1"
}

# objects WAY: prints how the objects of a build differ from those of nvcc, but for the name of a temporary file.
objects() {
    local object number=0
    [ "$(tail -n 1 "$scratch/$1.said")" != 'the build fails' ] || tail -n 20 "$scratch/$1.said"
    while IFS= read -r object; do
        number=$((number + 1))
        objcopy --strip-unneeded "$scratch/nvcc/build/$object" "$scratch/one"
        objcopy --strip-unneeded "$scratch/$1/build/$object" "$scratch/other"
        cmp "$scratch/one" "$scratch/other" || echo "$object differs"
    done < <(cd "$scratch/nvcc/build" && find . -name '*.cu.o')
    [ "$number" = 12 ] || echo "nvcc makes $number objects"
}

# split WAY: prints what is wrong if fewer than 95 % of the calls that compile are split.
split() {
    local all whole
    all=$(grep -cE '"(-c|-dc)"' "$scratch/$1.calls")
    whole=$(grep -E '"(-c|-dc)"' "$scratch/$1.calls" | grep -c '"reason"')
    [ "$all" = 12 ] || echo "$all calls compile, not 12"
    [ $((100 * (all - whole))) -ge $((95 * all)) ] || echo "$whole of $all aren't split: $(grep -o '"reason":"[^"]*"' "$scratch/$1.calls" | sort -u)"
}

# compilers WAY: prints what is wrong if there were more compilers than the limit, or if nobody looked often enough.
compilers() {
    local most looks
    read -r most looks < "$scratch/$1.compilers"
    [ "$most" -le "$limit" ] || echo "$most compilers at once, not $limit"
    [ "$most" -ge 2 ] && [ "$looks" -ge 40 ] || echo "at most $most compilers, seen in $looks looks"
}

for generator in Ninja 'Unix Makefiles'; do
    build nvcc "$generator" || continue
    for way in compiler launcher; do
        build "$way" "$generator" || continue
        count "$generator, as $way: objects" "$(objects "$way" 2>&1)"
        count "$generator, as $way: calls that are split" "$(split "$way")"
        count "$generator, as $way: compilers at once" "$(compilers "$way")"
    done
done
build unlimited Ninja ZIGRUNK_SLOTS=0 && {
    read -r most _ < "$scratch/unlimited.compilers"
    count 'compilers at once without a limit' "$([ "$most" -gt "$limit" ] || echo "only $most are seen, and $limit are no proof of a limit then")"
}
summary
