#!/usr/bin/env bash
# Tests libzigrunk: its header, its symbols, and its calls from C under the compiler's checks and valgrind, by threads, and as allocations fail. Prints
# a line for each failure, and last 'N passed, M failed'; the status is 1 if one failed. tests/callers.sh compares what it says with the other languages.
#
#   tests/c_library.sh [ARCHIVE]    ARCHIVE is libzigrunk_c.a as cargo leaves it, beside its workspace's sources; by default that of `make rust`
#
# SEED=N draws other failing allocations than those of seed 1, REFUSED=N so many in place of 20,000.
set -u
cd "$(dirname "$0")/.." || exit 1
. tests/lib.sh
. tests/callers/room.sh
require 'libzigrunk' cc
archive=$(realpath -m "${1:-out/rust/target/release/libzigrunk_c.a}")
[ -f "$archive" ] || skip_all 'libzigrunk' "there is no $archive: make rust"
workspace=${archive%/target/*}
room=$scratch/room installed=$scratch/installed
make_room "$room"
misuse_rows > "$scratch/rows"
strict=(-std=c99 -D_POSIX_C_SOURCE=200809L -Wall -Wextra -Wpedantic -Werror -O1 -g "-I$installed/include")

exports() { grep -o '\bzigrunk_[a-z_0-9]*(' bindings/c/zigrunk.h | tr -d '(' | LC_ALL=C sort -u; }

# symbols: only the functions of the header are global.
symbols() {
    diff <(exports) <(nm -g --defined-only "$installed/lib/libzigrunk.a" | awk 'NF == 3 { print $3 }' | LC_ALL=C sort) &&
        diff <(exports | sed 's/$/@@ZIGRUNK_2/') <(nm -D --with-symbol-versions --defined-only "$installed/lib/libzigrunk.so.2" | awk '$2 == "T" { print $3 }' | LC_ALL=C sort)
}

few_functions() { [ "$(exports | wc -l)" -le 25 ]; }

# Of at most 110 characters each.
few_lines() { [ "$(cat "$workspace"/capi/src/*.rs | grep -vcE "^ *(//|$)")" -le 1050 ]; }

# as_written: the header is what cbindgen writes of the sources.
as_written() { (cd "$workspace/capi" && cbindgen -q --config cbindgen.toml --crate capi .) | diff bindings/c/zigrunk.h -; }

# header COMPILER WORD..: the header alone.
header() {
    printf '#include <zigrunk.h>\n' > "$scratch/header.c"
    "$@" -Wall -Wextra -Wpedantic -Werror "-I$installed/include" -fsyntax-only "$scratch/header.c"
}

# built SOURCE OUT WORD..: a program with the archive.
built() { cc "${strict[@]}" "$1" -o "$2" "${@:3}" "$installed/lib/libzigrunk.a"; }

# answers COMMAND..: what a program says of the table's rows. Its statuses are the table's.
answers() { "$@" "$room" < "$scratch/rows" > "$scratch/answers" && are_answered "$scratch/rows" "$scratch/answers"; }

check 'the library and its files' bindings/c/library.sh "$archive" "$installed"
check 'its symbols' symbols
check 'at most 25 functions' few_functions
check 'at most 1,050 lines of code' few_lines
if command -v cbindgen > /dev/null; then
    check 'the header is what cbindgen writes' as_written
else
    skip 'the header beside its sources' 'cbindgen is not on the path'
fi
# older: the library for glibc 2.28 names no newer version, and its functions answer as those of the other one.
older() {
    OLDER_GLIBC=yes bindings/c/library.sh "$archive" "$scratch/older" &&
        [ "$(readelf -V "$scratch/older/lib/libzigrunk.so.2" | sed -n 's/.*Name: GLIBC_\([0-9.]*\) .*/\1/p' | sort -V | tail -n 1)" = 2.28 ] &&
        cc "${strict[@]}" tests/callers/answers.c -o "$scratch/answers_older" "-L$scratch/older/lib" -lzigrunk &&
        LD_LIBRARY_PATH=$scratch/older/lib answers "$scratch/answers_older"
}

# unwinds: exceptions are caught by the unwinder of gcc's own library with what it needs of glibc 2.35.
unwinds() {
    cc -O2 -fPIC -c -o "$scratch/older_glibc.o" bindings/c/older_glibc.c &&
        c++ -O2 -static-libgcc -static-libstdc++ -o "$scratch/unwinding" tests/c/unwinding.cpp "$scratch/older_glibc.o" && "$scratch/unwinding"
}

check 'the library for glibc 2.28' older
if command -v c++ > /dev/null; then check 'unwinding with glibc 2.28' unwinds; fi
check 'the header as C99' header cc -std=c99
for compiler in c++ clang++; do
    if command -v "$compiler" > /dev/null; then
        check "the header by $compiler" header "$compiler" -x c++ -std=c++11
    else
        skip "the header by $compiler" 'it is not on the path'
    fi
done
check 'answers.c' built tests/callers/answers.c "$scratch/answers_c"
check 'its answers' answers "$scratch/answers_c"
check 'answers.c with the checks of the compiler' built tests/callers/answers.c "$scratch/answers_checked" -fsanitize=address,undefined -fno-sanitize-recover
check 'its answers then' answers "$scratch/answers_checked"
if command -v valgrind > /dev/null; then
    check 'its answers under valgrind' answers valgrind -q --error-exitcode=9 --leak-check=full --errors-for-leak-kinds=all "$scratch/answers_c"
else
    skip 'the answers under valgrind' 'it is not on the path'
fi
check 'failing_memory.c' built tests/c/failing_memory.c "$scratch/failing_memory" \
    -Wl,--wrap=malloc,--wrap=calloc,--wrap=realloc,--wrap=posix_memalign,--wrap=free
# keyed_room: cicc and ptxas are programs too, whose commands then have keys, and the PTX names a file.
keyed_room() {
    cp "$room/bin/cudafe++" "$room/bin/cicc" && cp "$room/bin/cudafe++" "$room/bin/ptxas" && printf '.file 1 "k.h"\n' > "$room/t/x_0.ptx"
}
check 'a room of programs' keyed_room
check 'allocations fail in turn, and by lot' "$scratch/failing_memory" "$room" "${SEED:-1}" "${REFUSED:-20000}"
check 'threads.c' built tests/c/threads.c "$scratch/threads" -pthread
check 'eight threads share a call and a plan' "$scratch/threads" "$room" 200
check 'threads.c with the checks of the compiler' built tests/c/threads.c "$scratch/threads_checked" -pthread -fsanitize=thread
check 'eight threads then' "$scratch/threads_checked" "$room" 20
summary
