#!/usr/bin/env bash
# Tests the patches for sccache in contrib/sccache: each is what its command writes of Debian's sources of sccache 0.10.0, applies alone and beside
# the others in any order, is formatted, and passes sccache's own tests of nvcc and its own. Then each, alone, makes the calls of tests/peer/calls.txt
# that sccache gets wrong without it. No part of the gate: it builds sccache. The last line is 'N passed, M failed'.
#
#   ZIGRUNK_PEER=FOLDER   what tests/peer.sh downloads and builds there, else zigrunk/peer in your cache folder
#   JOBS=N                so many processes at once, else as many as there are processors
cd "$(dirname "$0")/.." || exit 1
. tests/lib.sh
what='the patches for sccache'
jobs=${JOBS:-$(nproc)}
folder=${ZIGRUNK_PEER:-${XDG_CACHE_HOME:-$HOME/.cache}/zigrunk/peer}
require "$what" cargo rustfmt nvcc cc git pkg-config python3
unset NVCC_PREPEND_FLAGS NVCC_APPEND_FLAGS "${!SCCACHE_@}"
tests/peer/fetch.sh "$folder" > "$scratch/fetched" 2>&1 || skip_all "$what" "Debian's archive can't be reached"
folder=$(realpath "$folder")
export CARGO_HOME=$folder/cargo CARGO_TARGET_DIR=$folder/patched/target PKG_CONFIG_PATH=$folder/cargo/zstd
patches=$PWD/contrib/sccache
tree=$folder/patched/source
names=(order ptxas needs)
declare -A calls=([order]="'a fatbin of two targets'" [ptxas]="'one PTX for two targets'" [needs]="'a fatbin of two targets")

# fresh: the sources, with no patch.
fresh() {
    mkdir -p "$tree"
    rm -rf "$tree/src" && cp -a "$folder/source/." "$tree" && rm -f "$tree/Cargo.lock" && touch "$tree/src/compiler/nvcc.rs"
}

# written: the patches are what their command writes.
written() {
    local name
    mkdir -p "$scratch/written" && "$patches/patches.py" "$folder/source" "$scratch/written" || return 1
    for name in "${names[@]}"; do
        diff "$patches/$name.patch" "$scratch/written/$name.patch" || return 1
    done
}

# applied NAME..: the sources with these patches.
applied() {
    local name
    fresh || return 1
    for name in "$@"; do
        patch -s -f -p1 -d "$tree" < "$patches/$name.patch" || return 1
    done
}

# formatted: rustfmt has nothing to say.
formatted() { rustfmt --edition 2021 --check "$tree/src/compiler/nvcc.rs"; }

in_tree() { (cd "$tree" && cargo "$1" --offline -j "$jobs" --config profile.dev.debug=0 "${@:2}"); }

# tested NAME..: sccache's tests of nvcc, and those of these patches.
tested() {
    local name
    in_tree test --lib -- compiler::nvcc > "$scratch/tested" 2>&1 || { tail -n 40 "$scratch/tested"; return 1; }
    for name in $(cat "${@/#/$patches/}" | sed -n 's/^+ *fn \(test_[a-z_]*\)() {$/\1/p'); do
        grep -qx "test compiler::nvcc::test::$name \.\.\. ok" "$scratch/tested" || { echo "$name did not run"; return 1; }
    done
}

# built NAME: the program, beside others. By another name, sccache takes itself for a compiler.
built() {
    in_tree build --bin sccache > "$scratch/built" 2>&1 || { tail -n 30 "$scratch/built"; return 1; }
    mkdir -p "$folder/patched/bin/$1" && cp "$CARGO_TARGET_DIR/debug/sccache" "$folder/patched/bin/$1/sccache"
}

# right NAME: the calls that sccache gets wrong, by sccache as it is and with the patch.
right() {
    grep -F "@name=${calls[$1]}" tests/peer/calls.txt > "$scratch/calls.$1"
    mkdir -p "$scratch/made" && tests/peer/calls.py --scratch "$scratch/made" --jobs "$jobs" --runs "${RUNS:-8}" --explain \
        "$folder/patched/bin/none/sccache" "$folder/patched/bin/$1/sccache" "$scratch/calls.$1" > "$scratch/right" 2>&1
    add "$?" "$scratch/right"
    sed '$d' "$scratch/right"
}

check 'the patches are what their command writes' written
for name in "${names[@]}"; do
    check "$name: it applies" applied "$name"
    check "$name: its format" formatted
    check "$name: clippy" in_tree clippy -q --lib --tests -- -D clippy::items_after_test_module
    check "$name: tests" tested "$name.patch"
    check "$name: the program" built "$name"
done
for order in 'order needs ptxas' 'ptxas order needs' 'ptxas needs order' 'needs order ptxas' 'needs ptxas order' 'order ptxas needs'; do
    read -ra all <<< "$order"
    check "they apply: $order" applied "${all[@]}"
done
check 'all: the format' formatted
check 'all: tests' tested "${names[@]/%/.patch}"
check 'the sources with no patch' fresh
check 'the program with no patch' built none
for name in "${names[@]}"; do
    right "$name"
done
summary
