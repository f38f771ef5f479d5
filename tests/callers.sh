#!/usr/bin/env bash
# Tests the layers in which a program makes a call of nvcc, for C, C++, Go and Python, over an installed library: the programs of
# docs/EMBEDDING.md as they are there, misuses, and the examples. tests/rust_crate.sh does so for Rust. nvcc and its tools are stand-ins, but the
# examples also make what nvcc makes if there is one. The last line is 'N passed, M failed'.
#
#   tests/callers.sh [FOLDER]         FOLDER: as `make install` or `make lib` leaves it, with lib and include; otherwise out, or what `make rust` built
#   tests/callers.sh --first FOLDER   the programs of the page alone, also that in Rust, with what `make install` left in FOLDER
#
# RENEW=yes writes tests/callers/data/digests.txt anew: look at what has changed before. SEED=N draws other pairs of dry runs and other calls than
# those of seed 1, PAIRS=N so many pairs in place of 100, CALLS=N so many real calls in place of 8, and of 12 whose keys are compared. PROFILE=dev has
# cargo build Rust's programs as it builds unit tests.
set -u
cd "$(dirname "$0")/.." || exit 1
. tests/lib.sh
. tests/callers/room.sh
require 'the call layers' cc c++ pkg-config python3
only_first=
if [ "${1-}" = --first ]; then
    only_first=yes
    shift
fi
installed=$(realpath -m "${1:-out}")
if ! [ -f "$installed/lib/libzigrunk.so.2" ] && [ -f out/rust/target/release/libzigrunk_c.a ]; then
    installed=$scratch/installed
    bindings/c/library.sh out/rust/target/release/libzigrunk_c.a "$installed"
fi
[ -f "$installed/lib/libzigrunk.so.2" ] || skip_all 'the call layers' "there is no library in $installed: make rust"
python=$PWD/bindings/python go=$PWD/bindings/go
[ ! -d "$installed/share/zigrunk/go" ] || python=$installed/share/zigrunk/python go=$installed/share/zigrunk/go
export PKG_CONFIG_PATH=$installed/lib/pkgconfig LD_LIBRARY_PATH=$installed/lib PYTHONPATH=$python
export ZIGRUNK_LIBRARY=$installed/lib/libzigrunk.so.2 PYTHONDONTWRITEBYTECODE=1
strict=(-Wall -Wextra -Wpedantic -Werror -O1 -g)
room=$scratch/room
make_room "$room"
# (pkg-config puts a backslash before a space)
flags=() static_flags=()
eval "flags=($(pkg-config --cflags --libs zigrunk)) static_flags=($(pkg-config --static --cflags --libs zigrunk))"

# block LANGUAGE: the program of this language in the page.
block() {
    sed -n "/^\`\`\`$1\$/,/^\`\`\`\$/p" docs/EMBEDDING.md | grep -v '^```' | sed '/^$/d'
}

# built_c, built_cpp: a program of C or C++ by the flags of pkg-config.
built_c() { cc -std=c99 -D_POSIX_C_SOURCE=200809L "${strict[@]}" "$1" -o "$2" "${@:3}"; }
built_cpp() { c++ -std=c++17 "${strict[@]}" "$1" -o "$2" "${@:3}"; }

# built_go FOLDER OUT: the program of a folder, with the installed module. Go 1.19 splits what pkg-config says of libraries at each blank, also at one
# behind a backslash, so the library has a name without blanks.
built_go() {
    ln -sfn "$installed" "$scratch/without_blanks"
    printf 'module test\n\ngo 1.19\n\nrequire zigrunk v0.0.0\n\nreplace zigrunk => "%s"\n' "$go" > "$1/go.mod"
    (cd "$1" && PKG_CONFIG_PATH=$scratch/without_blanks/lib/pkgconfig GOFLAGS=-mod=mod GOPROXY=off GOCACHE=$scratch/go go build -o "$2" .)
}

# plans COMMAND..: whether a program prints the program of each command.
plans() {
    diff <(for tool in gcc cudafe++ gcc cicc ptxas fatbinary gcc; do echo "$room/bin/$tool"; done) \
        <(PATH=$room/bin:$PATH NVCC_APPEND_FLAGS='-DX=1 -DY=2' "$@" "$room/w" "$room/t" -c kernel.cu -o kernel.o) &&
        [ "$(grep -c -- '-DX=1 -DY=2' "$room/words")" = 2 ] && rm "$room/words"
}

# of_rust: the program of the page in a project that adds the installed crate.
of_rust() {
    mkdir -p "$scratch/first_rust/src"
    block rust > "$scratch/first_rust/src/main.rs"
    printf '[package]\nname = "first"\nedition = "2024"\n[dependencies]\nzigrunk = { path = "%s" }\n' "$installed/share/zigrunk/rust/zigrunk" \
        > "$scratch/first_rust/Cargo.toml"
    cargo build --quiet --offline --manifest-path "$scratch/first_rust/Cargo.toml" --target-dir "${TARGET:-$scratch/first_rust/target}" &&
        plans "${TARGET:-$scratch/first_rust/target}/debug/first"
}

# first_plans: the programs of the page.
first_plans() {
    block c > "$scratch/first.c"
    block cpp > "$scratch/first.cpp"
    block python > "$scratch/first.py"
    check 'C: the program of the page' built_c "$scratch/first.c" "$scratch/first_c" "${flags[@]}"
    check 'C: its plan' plans "$scratch/first_c"
    check 'C++: the program of the page' built_cpp "$scratch/first.cpp" "$scratch/first_cpp" "${flags[@]}"
    check 'C++: its plan' plans "$scratch/first_cpp"
    check 'Python: its plan' plans python3 "$scratch/first.py"
    if command -v go > /dev/null; then
        mkdir -p "$scratch/first_go"
        block go > "$scratch/first_go/main.go"
        check 'Go: the program of the page' built_go "$scratch/first_go" "$scratch/first_go/first"
        check 'Go: its plan' plans "$scratch/first_go/first"
    else
        skip 'the module for Go' 'go is not on the path'
    fi
}

# has_ten_lines LANGUAGE: whether the program has at most ten.
has_ten_lines() { [ "$(block "$1" | grep -c '')" -le 10 ] && [ "$(block "$1" | grep -c '')" -gt 2 ]; }

# in_parts FUNCTION PROGRAM..: whether a function succeeds with each part of the rows, of the table and of pairs of dry runs by lot. As many parts run
# at once as there are processors.
in_parts() {
    local part started=0
    rm -f "$scratch/failed"
    for part in "$scratch"/rows/*; do
        [ "$((started++))" -lt "$(nproc)" ] || wait -n
        { "$1" "${part##*/}" "${@:2}" || touch "$scratch/failed"; } &
    done
    wait
    ! [ -e "$scratch/failed" ]
}

# answers PART PROGRAM..: what a program says of a part of the rows.
answers() {
    env -i "${environment[@]}" "${@:2}" "$room" < "$scratch/rows/$1"
    [ "$1" != aaaa ] || made_calls "$room" env -i "${environment[@]}" SEEN=yes "${@:2}"
}
note() { answers "$@" > "$scratch/answers/$1"; }
is_alike() { diff "$scratch/answers/$1" <(answers "$@"); }
alike() { in_parts is_alike "$@"; }

# told: what C says. Some of the pairs by lot are planned, and some aren't.
told() {
    in_parts note "$scratch/answers_c" &&
        cat "$scratch"/answers/* |
        awk '/^== lot/ { all++ } /^refused 1[02] / && !/ 0 0$/ { refused++ } /^start 0$/ { planned++ } END { exit !(all && refused > all / 4 && planned > 2) }'
}

# as_stored: whether C says of the table and of the stored calls what it said when the digests were written.
as_stored() {
    cat "$scratch"/answers/* | python3 tests/callers/digests.py "$room" "$installed" "$python" > "$scratch/digests"
    [ -z "${RENEW-}" ] || cp "$scratch/digests" tests/callers/data/digests.txt
    diff tests/callers/data/digests.txt "$scratch/digests"
}

# by_cmake: a project finds the library, as it is shared and as an archive.
by_cmake() {
    mkdir -p "$scratch/cmake"
    printf '%s\n' 'cmake_minimum_required(VERSION 3.13)' 'project(planner C)' 'find_package(zigrunk 0.1 REQUIRED)' 'add_executable(shared first.c)' \
        'target_link_libraries(shared zigrunk::zigrunk)' 'add_executable(archived first.c)' 'target_link_libraries(archived zigrunk::static)' \
        > "$scratch/cmake/CMakeLists.txt"
    cp "$scratch/first.c" "$scratch/cmake"
    cmake -S "$scratch/cmake" -B "$scratch/cmake/b" -DCMAKE_PREFIX_PATH="$installed" -DCMAKE_C_FLAGS=-D_POSIX_C_SOURCE=200809L > /dev/null &&
        cmake --build "$scratch/cmake/b" > /dev/null && plans "$scratch/cmake/b/shared" &&
        LD_LIBRARY_PATH='' plans "$scratch/cmake/b/archived"
}

# audits: the auditor says of a call what it runs, and of another why it isn't planned.
audits() (
    cd "$room/w" || exit 1
    printf '%s\n' '-c kernel.cu -o kernel.o' "-E 'kernel.cu'" | PATH=$room/bin:$PATH python3 "$python/examples/audit.py" "$scratch/audit.json" "$scratch/audit.html"
    [ $? = 1 ] && diff - <(python3 -c "
import json, sys
for call in json.load(open(sys.argv[1]))['calls']:
    print(' '.join(call['call']), call['error'] if 'error' in call else ' '.join(call['makes']))
    for it in call['commands']:
        print(it['number'], it['tool'], *it['targets'], *it['needs'], it['unknown'], it['cacheable'])
" "$scratch/audit.json") << 'END' || exit 1
-c kernel.cu -o kernel.o kernel.o
0 gcc headers False
1 cudafe++ 0 None True
2 gcc compute_75 0 headers False
3 cicc compute_75 1 2 None True
4 ptxas sm_75 3 None True
5 fatbinary sm_75 compute_75 0 1 2 3 4 None False
6 gcc 0 1 2 3 4 5 inputs True
-E kernel.cu goes to nvcc: its phase isn't split
END
    python3 -c "
import html.parser, sys
class Page(html.parser.HTMLParser):
    rows = 0
    def handle_starttag(self, tag, attributes):
        self.rows += tag == 'tr'
page = Page()
page.feed(open(sys.argv[1]).read())
sys.exit(page.rows != 8)" "$scratch/audit.html"
)

# in_wheel: a wheel has all that the package needs.
in_wheel() {
    mkdir -p "$scratch/wheel/all"
    python3 bindings/python/wheel.py "$installed/lib/libzigrunk.so.2" "$scratch/wheel" && (cd "$scratch/wheel" && python3 -m zipfile -e ./*.whl all) &&
        ZIGRUNK_LIBRARY='' LD_LIBRARY_PATH='' PYTHONPATH=$scratch/wheel/all plans python3 "$scratch/first.py"
}

# at_most LINES FILE..: whether each file has at most as many lines.
at_most() { ! wc -l "${@:2}" | awk -v most="$1" '$2 != "total" && $1 > most { print } ' | grep . ; }

for language in c cpp go python rust; do
    check "the page's program in $language has at most ten lines" has_ten_lines "$language"
done
first_plans
if [ -n "$only_first" ]; then
    if command -v cargo > /dev/null; then
        check 'Rust: the plan of the page' of_rust
    else
        skip 'the crate for Rust' 'cargo is not on the path'
    fi
    summary
    exit
fi
check 'C: the program with the archive' built_c "$scratch/first.c" "$scratch/first_static" -static "${static_flags[@]}"
check 'C: its plan with the archive' plans "$scratch/first_static"
pairs=${PAIRS:-100}
environment=(PATH=/usr/bin:/bin HOME=/ LD_LIBRARY_PATH="$LD_LIBRARY_PATH" ZIGRUNK_LIBRARY="$ZIGRUNK_LIBRARY" PYTHONPATH="$PYTHONPATH"
    PYTHONDONTWRITEBYTECODE=1 LC_CTYPE=C.UTF-8 EMPTY='' ODD=$'a\nb \\ "' LONG="$(printf %04096d 0)")
profile=${PROFILE:-release}
target=$(realpath -m "${CARGO_TARGET_DIR:-${WORKSPACE:-out/rust}/target}")
built=$target/release examples=$target/${profile/#dev/debug}/examples
mkdir "$scratch/rows" "$scratch/answers"
{ misuse_rows && real_rows "$room" && python3 tests/callers/mutated.py "$room" "${SEED:-1}" "$pairs"; } | split -a 4 -l 500 - "$scratch/rows/"
check 'C: answers.c' built_c tests/callers/answers.c "$scratch/answers_c" "${flags[@]}"
check "C: what it says of the table, of the stored calls and of $pairs pairs by lot" told
check 'C: the same as ever of the table and of the stored calls' as_stored
check 'C++: answers.cpp' built_cpp tests/callers/answers.cpp "$scratch/answers_cpp" "${flags[@]}"
check 'C++: the same' alike "$scratch/answers_cpp"
# (a python3 on the path may be a script that sets variables)
check 'Python: the same' alike "$(python3 -c 'import sys; print(sys.executable)')" "$PWD/tests/callers/answers.py"
check 'Python: what only it has' python3 tests/callers/alone.py "$room" bindings/c/zigrunk.h "$(cat VERSION)"
if command -v cargo > /dev/null && [ -d "${WORKSPACE:-out/rust}/zigrunk" ]; then
    check 'Rust: answers' env -C "${WORKSPACE:-out/rust}" cargo build --quiet --offline --profile "$profile" -p zigrunk --example answers --example keys
    check 'Rust: the same' alike "$examples/answers"
else
    skip 'Rust: answers' 'there is no cargo, or no workspace: make rust'
fi
check 'each rule of one call is in one place' tests/rules_once.py
check 'Python: a wheel' in_wheel
check 'Python: the auditor' audits
check 'the lines of the scheduler' at_most 150 bindings/cpp/examples/scheduler.cpp
check 'the lines of the auditor' at_most 100 bindings/python/examples/audit.py
check 'the lines of the key maker' at_most 60 bindings/rust/examples/keys.rs
check 'the lines of the cache server' at_most 200 bindings/go/examples/cacheserver/main.go
check 'C++: the scheduler' built_cpp bindings/cpp/examples/scheduler.cpp "$scratch/scheduler" "${flags[@]}"
if command -v go > /dev/null; then
    mkdir -p "$scratch/answers_go"
    cp tests/callers/go/answers.go "$scratch/answers_go"
    check 'Go: the format' prints '' gofmt -l bindings/go tests/callers/go
    mkdir -p "$scratch/server"
    cp bindings/go/examples/cacheserver/main.go "$scratch/server"
    check 'Go: the cache server' built_go "$scratch/server" "$scratch/server/cacheserver"
    check 'Go: answers.go' built_go "$scratch/answers_go" "$scratch/answers_go/answers"
    check 'Go: the same' alike "$scratch/answers_go/answers"
fi
# the programs that say the same, each behind a mark
say_the_same=(-- "$scratch/answers_c" -- "$scratch/answers_cpp" -- "$(python3 -c 'import sys; print(sys.executable)')" "$PWD/tests/callers/answers.py")
for program in "$examples/answers" "$scratch/answers_go/answers"; do
    [ ! -x "$program" ] || say_the_same+=(-- "$program")
done
if command -v nvcc > /dev/null && [ -x "$built/zigrunk-driver" ]; then
    check 'real calls of nvcc beside the driver' tests/callers/real_calls.py "$built/zigrunk-driver" "${SEED:-1}" "${CALLS:-8}" "${say_the_same[@]}"
    check 'their keys beside the driver' tests/callers/real_keys.py "$built/zigrunk-driver" "$examples/keys" "${SEED:-1}" "${CALLS:-12}"
else
    skip 'real calls of nvcc beside the driver' 'there is no nvcc, or no driver'
fi
if command -v cmake > /dev/null; then
    check 'a project of CMake' by_cmake
else
    skip 'a project of CMake' 'cmake is not on the path'
fi
summary
