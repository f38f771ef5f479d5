#!/usr/bin/env bash
# sccache itself on our planner. It builds Debian's sccache 0.10.0 as it is (theirs), and once more with a patch (ours) by which the crate
# zigrunk plans nvcc's calls and reads the lines of cicc, ptxas and cudafe++ (tests/peer). That crate is the proved sources as plain Rust, so
# it needs no kit and no C library. Then it compares the two: sccache's unit tests, its own tests with CUDA, what dry runs become and in what
# time, and calls of nvcc (tests/peer/calls.txt) beside nvcc's. Each part has a line of counts. The last line is 'N passed, M failed'.
#
#   ZIGRUNK_PEER=FOLDER      what it downloads and builds, else zigrunk/peer in your cache folder
#   PARTS='units ..'         only these of units, system, plans, calls
#   RUNS=N                   ours makes each call with N empty caches
#   JOBS=N                   so many processes at once, else as many as there are processors
cd "$(dirname "$0")/.." || exit 1
. tests/lib.sh
parts=${PARTS:-units system plans calls}
jobs=${JOBS:-$(nproc)}
folder=${ZIGRUNK_PEER:-${XDG_CACHE_HOME:-$HOME/.cache}/zigrunk/peer}
what='sccache on our planner'
require "$what" cargo nvcc cc pkg-config python3
version=$(cargo --version | cut -d ' ' -f 2)
[ "$(printf '%s\n' 1.85 "$version" | sort -V | head -n 1)" = 1.85 ] || skip_all "$what" "cargo is $version, and Debian's crates want 1.85"
[ -n "$(find -L /usr/lib /usr/local/lib ${LIBCLANG_PATH+"$LIBCLANG_PATH"} -maxdepth 3 -name 'libclang[-.]*so*' -print -quit 2> /dev/null)" ] ||
    skip_all "$what" "libclang isn't installed, which a crate reads a header with"
unset NVCC_PREPEND_FLAGS NVCC_APPEND_FLAGS "${!SCCACHE_@}"

tests/peer/fetch.sh "$folder" > "$scratch/fetched" 2>&1
case $? in
0) ;;
3) skip_all "$what" "Debian's archive can't be reached" ;;
*) count "sccache's sources" "$(cat "$scratch/fetched")" && summary && exit 1 ;;
esac
folder=$(realpath "$folder")
export CARGO_HOME=$folder/cargo CARGO_TARGET_DIR=$folder/target
export PKG_CONFIG_PATH=$folder/cargo/zstd

# workspace: the proved sources as plain Rust, in which the crate is. The eraser is built in a folder of its own: sccache's crates have another lock.
workspace() {
    CARGO_HOME=$folder/eraser CARGO_TARGET_DIR=$folder/eraser/target \
        cargo run --quiet --offline --manifest-path rust/Cargo.toml -p eraser -- . "$folder/rust"
}

# tree SIDE WORD..: a patched copy of the sources, unless there is one of this patch.
tree() {
    local side=$1 stamp
    shift
    stamp=$(cat tests/peer/patch.py tests/peer/*.rs | sha256sum)"$*"
    [ "$(cat "$folder/$side/stamp" 2> /dev/null)" != "$stamp" ] || return 0
    rm -rf "${folder:?}/$side"
    cp -a "$folder/source" "$folder/$side" && rm -f "$folder/$side/Cargo.lock" &&
        tests/peer/patch.py "$folder/$side" "$@" && echo "$stamp" > "$folder/$side/stamp"
}

# in_tree SIDE COMMAND..: runs cargo there. Its target folder is shared, since all crates but the last are the same. That one is compiled with
# fewer optimisations, to save minutes; what takes a planner's time is in the others.
in_tree() {
    local profile=(--config profile.release.codegen-units=16 --config profile.release.package.sccache.opt-level=1)
    (cd "$folder/$1" && cargo "$2" --release --offline -j "$jobs" "${profile[@]}" "${@:3}")
}

# build SIDE: the tests, and the program in a folder of its own: by another name, sccache takes itself for a compiler.
build() {
    in_tree "$1" test --no-run --lib --test system && mkdir -p "$folder/bin/$1" && cp "$CARGO_TARGET_DIR/release/sccache" "$folder/bin/$1/sccache"
}

# path_without NAME: PATH, with a folder of links in place of each folder that has such a program.
path_without() {
    local from links number=0 path=''
    while IFS= read -r -d : from; do
        number=$((number + 1)) links=$scratch/path/$number
        if [ -e "$from/$1" ]; then
            mkdir -p "$links"
            find -L "$from" -maxdepth 1 -type f -perm -u+x ! -name "$1*" -exec ln -s -t "$links" {} + 2> /dev/null
            from=$links
        fi
        path+=:$from
    done <<< "$PATH:"
    echo "${path#:}"
}

# tests_of SIDE WHAT WORD..: runs tests, and leaves the names of those that pass, one on each line.
tests_of() {
    in_tree "$1" test "${@:3}" > "$scratch/$1.$2.said" 2>&1
    sed -n 's/^test \(.*\) \.\.\. ok$/\1/p' "$scratch/$1.$2.said" | LC_ALL=C sort > "$scratch/$1.$2"
}

# of_both WHAT LEAST WORD..: a case: what passes of theirs, at least so many tests, has to pass of ours.
of_both() {
    local what=$1 least=$2 side problem=''
    shift 2
    for side in theirs ours; do
        tests_of "$side" "$what" "$@"
        echo "$side: $(wc -l < "$scratch/$side.$what") $what pass$(sed -n 's/^test \(.*\) \.\.\. FAILED$/, \1 fails/p' "$scratch/$side.$what.said")"
    done
    [ "$(wc -l < "$scratch/theirs.$what")" -ge "$least" ] || problem="too few of theirs pass"$'\n'$(tail -n 30 "$scratch/theirs.$what.said")
    count "$what" "$problem"
    count "$what of ours" "$(comm -23 "$scratch/theirs.$what" "$scratch/ours.$what")"
}

units() { of_both units 300 --lib; }

# The CUDA of clang 14 is older than that of nvcc 13, so its tests are left out.
system() {
    local path
    path=$(path_without clang++)
    PATH=$path of_both system 2 --test system -- cuda
}

# dry_runs NAME FLAG WORD..: what nvcc prints for a call.
dry_runs() {
    local name=$runs/$1
    echo "$2" > "$name.flag"
    nvcc --dryrun --keep "${@:2}" "$runs/k.cu" 2> "$name.dry1"
    nvcc --keep-dir /t --dryrun --keep "${@:2}" "$runs/k.cu" 2> "$name.dry2"
}

# plans: what dry runs become, command for command with its environment, and the time from their bytes to sccache's structs.
plans() {
    local runs=$scratch/runs side name two=(-gencode 'arch=compute_75,code=sm_75' -gencode 'arch=compute_80,code=sm_80')
    mkdir "$runs"
    echo '__global__ void k() {}' > "$runs/k.cu"
    dry_runs one -c -o k.o
    dry_runs two -c "${two[@]}" -o k.o
    dry_runs six -c -arch=all-major -o k.o
    dry_runs relocatable -dc "${two[@]}" -o k.o
    dry_runs ptx -ptx -o k.ptx
    dry_runs cubin -cubin -o k.cubin
    for side in theirs ours; do
        PEER_RUNS=$runs PEER_SIDE=$side in_tree "$side" test --lib -- --ignored --nocapture zigrunk_check > "$scratch/$side.plans" 2>&1
    done
    for name in one two six relocatable ptx cubin; do
        printf '%-12s %7d bytes of dry runs, %s\n' "$name" "$(cat "$runs/$name".dry? | wc -c)" \
            "microseconds: $(for side in theirs ours; do sed -n "s/^median $name /$side /p" "$scratch/$side.plans"; done | paste -sd ' ')"
        check "plan of $name" cmp "$runs/$name.theirs" "$runs/$name.ours"
    done
}

calls() {
    tests/peer/calls.py --scratch "$scratch" --jobs "$jobs" --runs "${RUNS:-1}" "$folder/bin/theirs/sccache" "$folder/bin/ours/sccache" \
        tests/peer/calls.txt > "$scratch/calls" 2>&1
    add "$?" "$scratch/calls" || echo 'calls: the last line has no counts that fit'
    sed '$d' "$scratch/calls"
}

check 'the crate' workspace
check 'the sources of theirs' tree theirs
check 'the sources of ours' tree ours "$folder/rust/zigrunk"
check 'the build of theirs' build theirs
check 'the build of ours' build ours
check 'ours has no crate for the C library' prints '' find "$CARGO_TARGET_DIR" -name '*zigrunk_sys*'
[ "$failed" -eq 0 ] || { summary && exit 1; }
for part in $parts; do
    before=("$passed" "$failed")
    "$part"
    echo "$part: $((passed - before[0])) passed, $((failed - before[1])) failed"
done
summary
