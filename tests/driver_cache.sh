#!/usr/bin/env bash
# Tests of the driver's cache of commands (ZIGRUNK_CACHE): attacks with stand-ins for nvcc and its tools, which are programs here, and calls with
# real nvcc, if that is here, whose products have to be nvcc's. Prints a line for each case that fails, and last 'N passed, M failed'; the status
# is 1 if one failed.
#
#   tests/driver_cache.sh [DRIVER]    DRIVER is zigrunk-driver in a workspace's folder; else the one that `make rust` leaves
#
# ONLY=TEXT runs the cases whose names have this text. PARTS="stand_ins late nvcc whole" runs these parts.
# shellcheck disable=SC2016 # the stand-ins expand what cases give them
cd "$(dirname "$0")/.." || exit 1
. tests/lib.sh
driver=$(realpath "${1:-out/rust/target/release/zigrunk-driver}")
[ -x "$driver" ] || skip_all 'the cache' "there is no $driver; make rust builds it"
require 'the cache' gcc python3
unset NVCC_PREPEND_FLAGS NVCC_APPEND_FLAGS MAKEFLAGS MFLAGS "${!ZIGRUNK@}" DEPENDENCIES_OUTPUT CPATH
trap 'umount "$scratch/full" 2> /dev/null; rm -rf "$scratch"' EXIT
tests=$PWD/tests
shell=(cache)
mkdir "$scratch/bin"
export XDG_CACHE_HOME=$scratch/users
for name in nvcc batch cache report; do ln -s "$driver" "$scratch/bin/zigrunk-$name"; done

# case_of NAME: begins a case, if it is one of those to run.
case_of() {
    is_wanted "$1" || return 1
    room=$scratch/room
    begin "$1"
    mkdir -m 700 "$room/run"
    echo 'first' > k.cu
    export ZIGRUNK_CACHE=$room/cache ZIGRUNK_LOG=$room/calls
    settle
}

# settle: waits until nothing here or in the toolkit has only just been changed. What is newer may be changed again while it is read, and isn't kept.
settle() {
    while [ -n "$(find . "$room"/bin* "${CUDA:-.}" -newerct '0.2 seconds ago' -print -quit 2> /dev/null)" ]; do sleep 0.05; done
}

# call [NAME=VALUE..] WORD..: makes a call with these variables.
call() {
    local settings=()
    while [[ ${1-} == *=* && $1 != -* ]]; do settings+=("$1") && shift; done
    rm -f "$room"/log.* && : > "$room/log"
    env LOG="$room/log" TMPDIR="$room/tmp" XDG_RUNTIME_DIR="$room/run" "${settings[@]}" "$scratch/bin/zigrunk-nvcc" "$@" > "$room/out" 2> "$room/err"
    status=$?
    # (a tool that ran has a file of its own for its name)
    find "$room" -maxdepth 1 -name 'log.*' -exec cat {} + >> "$room/log"
}

# ran WHAT TOOL..: a problem, unless the last call ran these tools beside those that always run, and ended well.
ran() {
    same "tools that ran $1" "$(grep -v '^nvcc\|^gcc-E\|^fatbinary' "$room/log" | sort | tr '\n' ' ')" "$(printf '%s ' "${@:2}")"
    same "status $1" "$status" 0
}
all=(cicc.80 cicc.90 cudafe++ gcc-c ptxas.80 ptxas.90)
ran_all() { ran "$1" "${all[@]}"; }
ran_none() { same "tools that ran $1" "$(grep -v '^nvcc\|^gcc-E\|^fatbinary' "$room/log")" '' && same "status $1" "$status" 0; }

# end: counts the case. Nothing stays in the folder for temporary files.
end() {
    same 'files left' "$(find "$room/tmp" -mindepth 2)" ''
    end_case
}

# edit PATTERN COMMAND: gives all entries to a command of Python's, as `data`.
edit_entries() { python3 - "$room/cache" "$1" << 'END_OF_PROGRAM'
import pathlib, sys
for path in pathlib.Path(sys.argv[1]).glob("??/*"):
    data = bytearray(path.read_bytes())
    exec(sys.argv[2])
    path.write_bytes(data)
END_OF_PROGRAM
}

toolkit() {
    export CUDA=$scratch/cuda DATA=$tests/drivers/test_plans/data/dry_runs STAND_IN=$tests/driver_cache/tool FATBIN=$tests/driver/fatbin.c
    export STAND_IN_PARTS=yes
    mkdir -p "$CUDA/bin" "$CUDA/nvvm/bin"
    gcc -O1 -o "$CUDA/bin/gcc" "$tests/driver_cache/program.c" || exit 1
    for tool in bin/cudafe++ bin/ptxas bin/fatbinary bin/cc1plus bin/as nvvm/bin/cicc; do cp "$CUDA/bin/gcc" "$CUDA/$tool"; done
    ln -sf "$tests/driver/nvcc" "$CUDA/bin/nvcc"
    find "$CUDA" -type f -exec touch -d '2020-01-01' {} +
}

# fatbin [NAME=VALUE..] WORD..: makes a call whose dry runs are those of one for a fatbin.
fatbin() {
    [ -d "$room/data" ] || mkdir "$room/data"
    for run in dry1 dry2; do sed 's,/w/kernel.fatbin,kernel.o,' "$DATA/only_fatbin.$run" > "$room/data/two_targets.$run"; done
    call DATA="$room/data" "${@:1:$#-1}" -fatbin k.cu -o "${*: -1}"
    fatbinaries=$(grep -c '^fatbinary' "$room/log")
}

stand_ins() {
    local path=$PATH
    toolkit
    PATH=$CUDA/bin:$PATH
    if case_of 'an unchanged call'; then
        call -c k.cu -o k.o
        ran_all first
        cp k.o first.o
        call -c k.cu -o k.o
        ran_none again
        same product "$(cmp k.o first.o 2>&1)" ''
        rm k.o
        call -c k.cu -o k.o
        same 'product that was removed' "$(cmp k.o first.o 2>&1)" ''
        same messages "$(cat "$room/err" "$room/out")" ''
        call ZIGRUNK_CACHE= -c k.cu -o other.o
        ran_all 'without the cache'
        same 'product without the cache' "$(cmp other.o first.o 2>&1)" ''
        end
    fi
    if case_of 'what a change runs again'; then
        call -c k.cu -o k.o
        echo second > k.cu
        call -c k.cu -o k.o
        ran_all 'after an edit'
        cp k.o second.o
        echo first > k.cu
        call -c k.cu -o k.o
        ran_none 'after the edit is taken back'
        same 'another product' "$(cmp -s k.o second.o; echo $?)" 1
        end
    fi
    if case_of 'another product, folder and directory for temporary files'; then
        call -c k.cu -o k.o
        call -c k.cu -o other.o
        ran_none 'for another product'
        same 'another product' "$(cmp k.o other.o 2>&1)" ''
        mkdir "$room/tmp/other"
        call TMPDIR="$room/tmp/other" -c k.cu -o k.o
        rm -r "$room/tmp/other"
        ran_none 'for another TMPDIR'
        end
    fi
    if case_of 'messages come again, in order and once'; then
        local says='case $name in cicc.80 | ptxas.90) read -r line < k.cu; echo "k.cu:1: $name warns: $line" >&2; echo "$name says" ;; esac'
        call TOOL_DOES="$says" -c k.cu -o k.o
        cp "$room/err" "$room/err.first" && cp "$room/out" "$room/out.first"
        same lines "$(wc -l < "$room/err.first")" 2
        call -c k.cu -o k.o
        ran_none again
        same 'standard error' "$(cmp "$room/err" "$room/err.first" 2>&1)" ''
        same 'standard output' "$(cmp "$room/out" "$room/out.first" 2>&1)" ''
        printf '%s\n' '// a line that messages show' first > k.cu
        call TOOL_DOES="$says" -c k.cu -o k.o
        ran 'once a file of which messages show lines has changed' cicc.80 ptxas.90
        end
    fi
    if case_of 'a failing command is run each time'; then
        for try in 1 2; do
            call TOOL_DOES='[ "$name" != ptxas.80 ] || { echo "no $name" >&2; exit 3; }' -c k.cu -o k.o
            same "status, try $try" "$status $(cat "$room/err")" '3 no ptxas.80'
        done
        same 'it ran' "$(grep -c '^ptxas.80' "$room/log")" 1
        for try in 1 2; do
            call TOOL_DOES='case $name in gcc-[cS]) echo "no $name" >&2; exit 4 ;; esac' -c k.cu -o k.o
            same "status of the compiler, try $try" "$status $(cat "$room/err")" '4 no gcc-c'
        done
        call -c k.cu -o k.o
        ran 'at last' gcc-c
        end
    fi
    if case_of 'a tool of the same size and time'; then
        call -c k.cu -o k.o
        for tool in bin/ptxas nvvm/bin/cicc bin/as bin/cc1plus bin/gcc bin/cudafe++; do
            cp -p "$CUDA/$tool" "$room/kept"
            printf x | dd of="$CUDA/$tool" bs=1 seek=$(($(stat -c %s "$CUDA/$tool") - 1)) conv=notrunc 2> /dev/null
            touch -r "$room/kept" "$CUDA/$tool"
            call -c k.cu -o k.o
            case $tool in
            bin/ptxas) ran "with another $tool" ptxas.80 ptxas.90 ;;
            nvvm/bin/cicc) ran "with another $tool" cicc.80 cicc.90 ;;
            bin/cudafe++) ran "with another $tool" cudafe++ ;;
            *) ran "with another $tool" gcc-c ;;
            esac
            cp -p "$room/kept" "$CUDA/$tool"
            call -c k.cu -o k.o
            ran_none "with $tool as it was"
        done
        end
    fi
    if case_of 'a tool by a link that leads elsewhere'; then
        for tool in bin/ptxas bin/gcc; do
            mv "$CUDA/$tool" "$room/kept" && mkdir "$room/one" "$room/two"
            for folder in one two; do cp -p "$room/kept" "$room/$folder/${tool#bin/}" && cp -p "$CUDA/bin/cc1plus" "$room/$folder"; done
            printf x >> "$room/two/${tool#bin/}"
            for folder in one two one; do
                ln -sfn "$room/$folder/${tool#bin/}" "$CUDA/$tool"
                settle
                call -c k.cu -o k.o
                case $folder,$tool,$([ -e "$room/$folder/ran" ] && echo again) in
                *,again) ran_none "by $tool in $folder again" ;;
                two,bin/ptxas,) ran "by another $tool" ptxas.80 ptxas.90 ;;
                two,*) ran "by another $tool" gcc-c ;;
                esac
                touch "$room/$folder/ran"
            done
            rm -r "$room/one" "$room/two" "${CUDA:?}/$tool" && mv "$room/kept" "$CUDA/$tool"
        done
        end
    fi
    if case_of 'another assembler first on the path'; then
        call -c k.cu -o k.o
        mkdir "$room/bin" && cp "$CUDA/bin/as" "$room/bin" && echo >> "$room/bin/as"
        call OWN_FORM="s,^\(#. PATH=\),\1$room/bin:," KEPT_FORM="s,^\(#. PATH=\),\1$room/bin:," -c k.cu -o k.o
        ran 'with another' gcc-c
        end
    fi
    if case_of 'scripts as tools'; then
        mv "$CUDA/bin/ptxas" "$room/ptxas"
        printf '#!/bin/sh\nexec "$0.real" "$@"\n' > "$CUDA/bin/ptxas" && chmod +x "$CUDA/bin/ptxas"
        cp "$room/ptxas" "$CUDA/bin/ptxas.real"
        for _ in 1 2; do call -c k.cu -o k.o; done
        same 'a script runs each time' "$(grep -c '^ptxas' "$room/log") $status" '2 0'
        rm "$CUDA/bin/ptxas.real" && mv "$room/ptxas" "$CUDA/bin/ptxas"
        end
    fi
    if case_of 'modes'; then
        (umask 077 && call -c k.cu -o k.o)
        same 'with umask 077' "$(stat -c %a k.o)" 600
        rm k.o
        (umask 022 && call -c k.cu -o k.o && ran_none 'with another umask')
        same 'with umask 022' "$(stat -c %a k.o)" 644
        chmod 444 k.o
        call -c k.cu -o k.o
        same 'of a product that was read-only' "$(stat -c %a k.o)" 644
        end
    fi
    if case_of 'entries that are not whole'; then
        call -c k.cu -o k.o
        cp k.o first.o
        for change in 'del data[len(data) // 2:]' 'data.clear()' 'data[-1] ^= 1' 'data[len(data) // 2] ^= 1' 'data[0] ^= 1' 'data += b"x"'; do
            edit_entries "$change"
            rm k.o
            call -c k.cu -o k.o
            ran_all "after $change"
            same "product after $change" "$(cmp k.o first.o 2>&1)" ''
        done
        call -c k.cu -o k.o
        ran_none 'at last'
        end
    fi
    if case_of 'what killed writers leave'; then
        call -c k.cu -o k.o
        for folder in "$room"/cache/??; do printf part > "$folder/.new-1-2-3"; done
        call -c k.cu -o k.o
        ran_none 'beside that'
        same 'entries' "$("$scratch/bin/zigrunk-cache" stats | sed -n 's/entries: //p')" "$(find "$room/cache" -path '*/??/[0-9a-f]*' | wc -l)"
        end
    fi
    if case_of 'odd outputs'; then
        call -c k.cu -o k.o
        cp k.o first.o
        echo target > target && ln -sf target k.o
        call -c k.cu -o k.o
        ran 'for a link' gcc-c
        same 'the target of a link' "$(cat target)" target
        rm -f k.o && mkdir k.o
        call ZIGRUNK_EXPLAIN=1 -c k.cu -o k.o
        same 'for a folder' "$(head -n 1 "$room/err")" "zigrunk-nvcc: nvcc itself: its output can't be written"
        rmdir k.o && mkfifo k.o
        call -c k.cu -o k.o
        ran 'for a pipe' gcc-c
        rm -f k.o && ln first.o k.o && echo kept > first.o
        call -c k.cu -o k.o
        ran_none 'for a file with two names'
        same 'the other name' "$(cat first.o)" kept
        call ZIGRUNK_EXPLAIN=1 -c k.cu -o nofolder/k.o
        same 'without a folder' "$(head -n 1 "$room/err")" "zigrunk-nvcc: nvcc itself: its output can't be written"
        end
    fi
    if case_of 'folders that cannot be written'; then
        call ZIGRUNK_CACHE=/proc/cache -c k.cu -o k.o
        ran_all 'below /proc'
        same messages "$(sed 's/: [^:]*$//' "$room/err")" 'zigrunk-nvcc: cannot write to the cache /proc/cache'
        echo > "$room/file"
        call ZIGRUNK_CACHE="$room/file" -c k.cu -o k.o
        ran_all 'with a file'
        same 'messages with a file' "$(wc -l < "$room/err")" 1
        end
    fi
    if case_of 'a full disk'; then
        mkdir -p "$scratch/full"
        if mount -t tmpfs -o size=16k none "$scratch/full" 2> /dev/null; then
            head -c 200000 /dev/zero > "$scratch/full/filler" 2> /dev/null
            for try in 1 2; do
                call ZIGRUNK_CACHE="$scratch/full/cache" -c k.cu -o k.o
                ran_all "try $try"
                same "messages, try $try" "$(wc -l < "$room/err") $(find "$scratch/full" -name '.new-*' | wc -l)" '1 0'
            done
            umount "$scratch/full"
        else
            skip 'a full disk' 'nothing can be mounted'
        fi
        end
    fi
    if case_of 'equal calls at once'; then
        local number
        for number in 1 2 3 4; do
            (LOG=$room/log.$number TMPDIR=$room/tmp XDG_RUNTIME_DIR=$room/run "$scratch/bin/zigrunk-nvcc" -c k.cu -o $((number % 2)).o > /dev/null 2>> "$room/said") &
        done
        wait
        call -c k.cu -o k.o
        ran_none later
        same products "$(cmp k.o 0.o 2>&1; cmp k.o 1.o 2>&1; cat "$room/said")" ''
        end
    fi
    if case_of 'environments'; then
        call -c k.cu -o k.o
        call LANG=xx -c k.cu -o k.o
        ran 'with another language' gcc-c
        call DEPENDENCIES_OUTPUT="$room/deps" -c k.cu -o k.o
        ran_none 'with DEPENDENCIES_OUTPUT, since nvcc makes the call'
        call LD_PRELOAD="" -c k.cu -o k.o
        ran_all 'with LD_PRELOAD'
        end
    fi
    if case_of 'module ids of a process'; then
        for _ in 1 2; do call ID=_9f1b1dc8_4_s_cu_778e0101_7547 -c k.cu -o k.o; done
        ran 'each time' cudafe++
        end
    fi
    if case_of 'a fatbin'; then
        fatbin k.fatbin
        ran first cicc.80 cicc.90 ptxas.80 ptxas.90
        cp k.fatbin first.fatbin && rm k.fatbin
        for product in k.fatbin other; do
            fatbin $product
            ran_none "for $product"
            same "fatbinary ran for $product" "$fatbinaries $(cmp $product first.fatbin 2>&1)" '0 '
        done
        fatbin ZIGRUNK_CACHE= plain
        same 'product without the cache' "$(cmp plain first.fatbin 2>&1)" ''
        (umask 077 && fatbin private)
        same 'with umask 077' "$(stat -c %a private)" 600
        # fatbinary writes to what is there
        ln private another && echo > private && fatbin private
        same 'a file with two names' "$(stat -c %a another) $(cmp another first.fatbin 2>&1)" '600 '
        echo target > target && ln -s target link
        fatbin link
        same 'for a link' "$fatbinaries $(cmp target first.fatbin 2>&1)" '1 '
        cp -p "$CUDA/bin/fatbinary" "$room/kept" && printf x | dd of="$CUDA/bin/fatbinary" bs=1 seek=$(($(stat -c %s "$room/kept") - 1)) conv=notrunc 2> /dev/null
        touch -r "$room/kept" "$CUDA/bin/fatbinary"
        fatbin k.fatbin
        same 'with another fatbinary' "$fatbinaries $status" '1 0'
        cp -p "$room/kept" "$CUDA/bin/fatbinary"
        end
    fi
    if case_of 'a fatbin in whose place others write'; then
        fatbin ZIGRUNK_CACHE= first.fatbin
        # when fatbinary has ended, and before anything else can have read its product
        fatbin TOOL_DOES='[ "$name" != fatbinary ] || trap "echo theirs > k.fatbin" EXIT' k.fatbin
        for try in 1 2; do
            same "product of try $try" "$(cmp k.fatbin first.fatbin 2>&1)" ''
            rm k.fatbin
            fatbin k.fatbin
            same "fatbinary ran after try $try" "$fatbinaries" 0
        done
        echo second > k.cu
        fatbin ZIGRUNK_CACHE= first.fatbin
        local part='for word; do case $word in --create=*) echo part > "${word#*=}" ;; esac; done'
        fatbin TOOL_DOES="[ \$name != fatbinary ] || { $part; kill -9 \$\$; }" k.fatbin
        same 'a fatbinary that is killed' "$([ "$status" != 0 ] && echo told)" told
        fatbin TOOL_DOES="[ \$name != fatbinary ] || { $part; kill -9 \$PPID; sleep 1; }" k.fatbin 2> /dev/null
        same 'a call that is killed' "$status" 137
        while [ -n "$(find "$room/tmp" -mindepth 2)" ]; do sleep 0.1; done
        fatbin k.fatbin
        same 'the next call' "$fatbinaries $(cmp k.fatbin first.fatbin 2>&1)" '1 '
        echo third > k.cu
        part='for word; do case $word in --create=*) echo "${word#*=}" > "${word#*=}" && exit ;; esac; done'
        for _ in 1 2; do fatbin TOOL_DOES="[ \$name != fatbinary ] || $part" k.fatbin; done
        same 'a product with its own name in it' "$(basename "$(cat k.fatbin)")" k.fatbin
        end
    fi
    if case_of 'what is not asked for'; then
        for value in '' no OFF 0; do
            call ZIGRUNK_CACHE=$value -c k.cu -o k.o
            ran_all "with '$value'"
        done
        call ZIGRUNK_EXPLAIN=1 ZIGRUNK_LAUNCHER=env -c k.cu -o k.o
        ran_all 'with a launcher'
        same 'messages with a launcher' "$(cat "$room/err")" "zigrunk-nvcc: ZIGRUNK_CACHE doesn't count beside ZIGRUNK_LAUNCHER, ZIGRUNK_RUNNER or ZIGRUNK_REMOTE"
        same 'the folder' "$([ -e "$room/cache" ] || echo none)" none
        call ZIGRUNK_CACHE=yes XDG_CACHE_HOME="$room/users" -c k.cu -o k.o
        same "the user's folder" "$(ls "$room/users")" zigrunk
        call ZIGRUNK_CACHE=True XDG_CACHE_HOME="$room/users" -c k.cu -o k.o
        same 'commands with True' "$(grep -c '^+ ptxas' "$room/log")" 0
        call ZIGRUNK_CACHE=./relative -c k.cu -o k.o
        same 'a relative folder' "$(find relative -type f | wc -l)" "$(find "$room/users/zigrunk" -type f -not -path '*/programs/*' | wc -l)"
        end
    fi
    if case_of 'a dependency file'; then
        call -MD -MF k.d -c k.cu -o k.o
        rm k.d
        call -MD -MF k.d -c k.cu -o k.o
        ran_none again
        same 'the file' "$([ -s k.d ] && echo made)" made
        end
    fi
    if case_of 'the log and the program'; then
        for _ in 1 2; do call -c k.cu -o k.o; done
        same 'hits in the log' "$(grep -o '"hit":[a-z]*' "$room/calls" | sort | uniq -c | tr -s ' \n' ' ')" ' 6 "hit":false 6 "hit":true '
        same 'hits in the report' "$("$scratch/bin/zigrunk-report" "$room/calls" | grep -ci hit)" "$("$scratch/bin/zigrunk-report" "$room/calls" | grep -i hit | grep -c .)"
        same counts "$("$scratch/bin/zigrunk-cache" stats | sed -n '/^hits/p; /^misses/p; /^folder/p')" "folder: $room/cache"$'\nhits: 6 (50 %)\nmisses: 6'
        same verify "$("$scratch/bin/zigrunk-cache" verify) $?" "$(find "$room/cache" -path '*/??/[0-9a-f]*' | wc -l) entries, 0 damaged 0"
        local entry
        entry=$(find "$room/cache" -path '*/??/[0-9a-f]*' | sort | head -1)
        cp "$entry" "$room/kept" && echo >> "$entry"
        same 'verify with a damaged entry' "$("$scratch/bin/zigrunk-cache" verify 2> "$room/err" > "$room/out"; echo "$?") $(cat "$room/err")" "1 zigrunk cache: $entry is damaged"
        cp "$room/kept" "$entry"
        # the manual has the words of the help, as completions do
        for word in $("$scratch/bin/zigrunk-cache" --help | sed -n '1,/^$/d; s/^\([a-z]*\) .*/\1/p'); do
            same "$word in the manual" "$(sed -n '/^.SH SYNOPSIS/,/^.SH DESC/p' "$tests/../man/zigrunk-cache.1" | grep -c "^.B zigrunk cache $word$")" 1
        done
        "$scratch/bin/zigrunk-cache" limit 1G
        call -c k.cu -o k.o
        ran_none 'within the limit'
        "$scratch/bin/zigrunk-cache" limit 0
        call -c k.cu -o k.o
        ran_all 'after limit 0'
        "$scratch/bin/zigrunk-cache" clear
        same 'after clear' "$("$scratch/bin/zigrunk-cache" stats | grep -c '^\(entries\|hits\|misses\): 0$')" 3
        for words in '' odd 'limit odd' 'limit 1 2' 'stats x' show 'verify x'; do
            # shellcheck disable=SC2086 # several words, or none
            "$scratch/bin/zigrunk-cache" $words > "$room/out" 2> "$room/err"
            same "wrong usage with '$words'" "$? $(wc -l < "$room/err")" '2 2'
        done
        end
    fi
    if case_of 'a library that comes while a call runs, and is taken away behind it or before its end'; then
        local library takes='[ "$name" != gcc-c ] || rm "$PLACE/libc.so.6"'
        library=$(ldd "$CUDA/bin/gcc" | sed -n 's/.*libc.so.6 => \([^ ]*\).*/\1/p')
        mkdir "$CUDA/lib"
        # comes_and_goes FOLDER COMMAND: what is kept if a library comes there while gcc compiles, and what it does then.
        comes_and_goes() {
            rm -rf "$room/cache"
            settle
            call LIBRARY="$library" PLACE="$1" TOOL_DOES='[ "$name" != gcc-c ] || dd if="$LIBRARY" of="$PLACE/libc.so.6" status=none; '"$2" -c k.cu -o k.o
            ran_all "with one in $1 that $2"
            rm -f "$1/libc.so.6"
            settle
            call -c k.cu -o k.o
            ran "once it's gone from $1, $2" gcc-c
            call -c k.cu -o k.o
            ran_none "later, with $1, $2"
        }
        comes_and_goes "$CUDA/lib" ''
        comes_and_goes "$CUDA/lib" "$takes"
        # (in the working directory, where products come and go, it is only noticed if it's still there)
        comes_and_goes . ''
        rmdir "$CUDA/lib"
        end
    fi
    PATH=$path
}

# begun_early: the commands of the last call that began before one had ended that they need.
begun_early() {
    python3 - "$room/calls" << 'END_OF_PROGRAM'
import json, sys
commands = json.loads(open(sys.argv[1]).read().splitlines()[-1])["commands"]
early = {one["kind"] for one in commands if not one["kind"].startswith("gcc -E") and any(one["begin"] < commands[need]["end"] for need in one["needs"])}
print(*sorted(early))
END_OF_PROGRAM
}

# The same with a last host compile in two parts.
late() {
    local path=$PATH tool
    toolkit
    PATH=$CUDA/bin:$PATH
    all=(as cicc.80 cicc.90 cudafe++ gcc-S ptxas.80 ptxas.90)
    if case_of 'late: an unchanged call'; then
        call -c k.cu -o k.o
        ran_all first
        cp k.o first.o && rm k.o
        call -c k.cu -o k.o
        ran_none again
        same 'product, and messages' "$(cmp k.o first.o 2>&1)$(cat "$room/err" "$room/out")" ''
        call -c k.cu -o other.o
        ran_none 'for another product'
        mkdir "$room/tmp/other"
        call TMPDIR="$room/tmp/other" -c k.cu -o k.o
        rm -r "$room/tmp/other"
        ran_none 'for another TMPDIR'
        call ZIGRUNK_CACHE= -c k.cu -o k.o
        ran_all 'without the cache'
        same 'product without the cache' "$(cmp k.o first.o 2>&1)" ''
        call ZIGRUNK_LATE=0 -c k.cu -o k.o
        ran 'as one command' gcc-c
        end
    fi
    if case_of 'late: what a change runs again'; then
        printf '%s\n' first 'device one' > k.cu
        call -c k.cu -o k.o
        cp k.o first.o
        printf '%s\n' first 'device two' > k.cu
        call -c k.cu -o k.o
        ran 'after an edit of device code' as cicc.80 cicc.90 cudafe++ ptxas.80 ptxas.90
        same 'another product' "$(cmp -s k.o first.o; echo $?)" 1
        printf '%s\n' second 'device one' > k.cu
        call -c k.cu -o k.o
        ran_all 'after an edit of all'
        printf '%s\n' first 'device one' > k.cu
        call -c k.cu -o k.o
        ran_none 'after both are taken back'
        same 'the product of before' "$(cmp k.o first.o 2>&1)" ''
        end
    fi
    if case_of 'late: a tool of the same size and time'; then
        call -c k.cu -o k.o
        for tool in bin/ptxas bin/as bin/cc1plus bin/gcc; do
            cp -p "$CUDA/$tool" "$room/kept"
            printf x | dd of="$CUDA/$tool" bs=1 seek=$(($(stat -c %s "$CUDA/$tool") - 1)) conv=notrunc 2> /dev/null
            touch -r "$room/kept" "$CUDA/$tool"
            call -c k.cu -o k.o
            case $tool in
            bin/ptxas) ran "with another $tool" ptxas.80 ptxas.90 ;;
            bin/as) ran "with another $tool" as ;;
            # (what gcc compiles is the same text, which needs no assembler again)
            bin/cc1plus) ran "with another $tool" gcc-S ;;
            *) ran "with another $tool" as gcc-S ;;
            esac
            cp -p "$room/kept" "$CUDA/$tool"
        done
        end
    fi
    if case_of 'late: entries that are not whole'; then
        call -c k.cu -o k.o
        cp k.o first.o
        for change in 'del data[len(data) // 2:]' 'data[-1] ^= 1'; do
            edit_entries "$change"
            call -c k.cu -o k.o
            ran_all "after $change"
            same "product after $change" "$(cmp k.o first.o 2>&1)" ''
        done
        end
    fi
    if case_of 'late: modes and odd outputs'; then
        (umask 077 && call -c k.cu -o k.o)
        same 'with umask 077' "$(stat -c %a k.o)" 600
        (umask 022 && call -c k.cu -o k.o && ran_none 'with another umask')
        same 'with umask 022' "$(stat -c %a k.o)" 644
        cp k.o first.o && echo target > target && ln -sf target k.o
        call -c k.cu -o k.o
        ran 'for a link' as
        same 'the target of a link' "$(cat target)" target
        end
    fi
    if case_of 'late: an assembler that says something, or fails'; then
        for does in 'echo odd >&2' 'exit 3'; do
            call TOOL_DOES="[ \"\$name\" != as ] || { $does; }" -c k.cu -o k.o
            same "status and who makes it with $does" "$status $(grep -c 'made by nvcc' k.o)" '0 0'
        done
        call -c k.cu -o k.o
        ran 'at last' as
        end
    fi
    if case_of 'late: what the assembler reads beside'; then
        echo '.incbin "data"' > k.cu
        for text in one two one; do
            echo "$text" > data
            settle
            call -c k.cu -o k.o
            if [ -e "$room/$text" ]; then
                ran_none "with $text again"
            elif [ "$text" = one ]; then
                ran_all "with $text"
            else
                ran "with $text" as
            fi
            cp k.o "$room/$text"
        done
        same 'another product' "$(cmp -s "$room/one" "$room/two"; echo $?)" 1
        end
    fi
    if case_of 'cicc begins beside cudafe++ if the cache has nothing for it'; then
        local waits='case $name in cudafe++) sleep 0.5 ;; esac'
        call ZIGRUNK_SLOTS=8 TOOL_DOES="$waits" -c k.cu -o k.o
        ran_all first
        same 'what begins early' "$(begun_early)" 'cicc compute_80 cicc compute_90'
        cp k.o first.o
        call -c k.cu -o k.o
        ran_none again
        same 'product' "$(cmp k.o first.o 2>&1)" ''
        echo other > k.cu
        call ZIGRUNK_SLOTS=8 ZIGRUNK_EARLY=0 TOOL_DOES="$waits" -c k.cu -o k.o
        same 'what begins early with ZIGRUNK_EARLY=0' "$(begun_early)" ''
        echo third > k.cu
        for number in 7546 7547 7547; do
            call ZIGRUNK_SLOTS=8 ID=_9f1b1dc8_4_s_cu_778e0101_$number TOOL_DOES="$waits" -c k.cu -o k.o
        done
        ran 'with the id of a process' cudafe++
        same 'what begins early with what may be known' "$(begun_early)" ''
        end
    fi
    PATH=$path
}

# made [NAME=VALUE..] WORD..: makes the call with the cache and without, and by nvcc. A problem, unless all products in the folder are alike. $missed
# are the kinds of commands that the cache was asked for and hadn't, $served those that it had.
made() {
    local settings=() said=()
    while [[ ${1-} == *=* && $1 != -* ]]; do settings+=("$1") && shift; done
    local what="$*"
    : > "$room/calls"
    for by in nvcc plain cache; do
        find . -newer "$room/stamp" -type f ! -name '*.cu' ! -name '*.h' ! -name data -delete
        case $by in
        nvcc) env TMPDIR="$room/tmp" "${settings[@]}" nvcc "$@" > "$room/out" 2> "$room/err" ;;
        plain) call ZIGRUNK_CACHE= ZIGRUNK_LOG= "${settings[@]}" "$@" ;;
        cache) call "${settings[@]}" "$@" ;;
        esac
        [ "$by" = nvcc ] || same "status of $what by $by" "$status" 0
        rm -rf "$room/by.$by" && mkdir "$room/by.$by"
        find . -newer "$room/stamp" -type f ! -name '*.cu' ! -name '*.h' ! -name data -exec cp {} "$room/by.$by" \;
        said+=("$(sed 's/tmpxft_[0-9a-f_-]*[0-9]_/x_/g' "$room/err")")
    done
    same "names of files of $what" "$(ls "$room/by.cache")" "$(ls "$room/by.nvcc")"
    # what gcc writes beside an object names temporary files, and when it was made
    find "$room"/by.* -type f ! -name '*.o' ! -name '*.ptx' ! -name '*.cubin' ! -name '*.fatbin' -delete
    same "files of $what, with the cache and without" "$(diff -rq "$room/by.plain" "$room/by.cache")" ''
    for file in "$room"/by.{nvcc,cache}/*.o; do objcopy --strip-unneeded "$file" 2> /dev/null; done
    case $what in *' -g '*) ;; *) same "files of $what, and nvcc's" "$(diff -rq "$room/by.nvcc" "$room/by.cache")" '' ;; esac
    same "messages of $what" "${said[2]}" "${said[1]}"
    missed=$(commands false) served=$(commands true)
}

# commands HIT: the kinds of the last call's commands of which the log has this.
commands() {
    python3 - "$room/calls" "$1" << 'END_OF_PROGRAM'
import json, sys
call = json.loads(open(sys.argv[1]).read().splitlines()[-1])
print(" ".join(sorted(one["kind"].replace(" ", "-") for one in call["commands"] if str(one.get("hit")).lower() == sys.argv[2])))
END_OF_PROGRAM
}

# project: the sources of a case. What is newer than the stamp is made by calls.
project() {
    rm -f k.cu
    cp "$tests/small/cuda_runtime.h" .
    mkdir -p inc
    echo '#define SIZE 128' > inc/size.h
    cat > k.cu << 'END_OF_SOURCE'
#include "size.h"
template <int N> __global__ void scale(float* values) { values[threadIdx.x] *= N * SIZE; }
static __global__ void fill(int* values) { values[threadIdx.x] = 4; }
const char* file() { return __FILE__; }
int unused_host(int count) { return count; }
void run(float* values, int* numbers) { scale<2><<<1, 32>>>(values); fill<<<1, 64>>>(numbers); }
END_OF_SOURCE
    touch -d '2 seconds ago' "$room/stamp"
    touch -d '1 minute ago' k.cu inc/size.h cuda_runtime.h
}

two=(-gencode 'arch=compute_75,code=sm_75' -gencode 'arch=compute_80,code=sm_80')
# The compiler's part of the last host compile.
host=gcc--S-__CUDA_ARCH__=800
real_calls() {
    command -v nvcc > /dev/null || { skip 'calls of nvcc' 'nvcc is not on the path' && return; }
    if case_of 'nvcc: phases'; then
        project
        for words in '-std=c++20 -c' '-O3 -Xcompiler -fPIC,-O2 -dc' '-lineinfo -c' '-g -c' '-G -g -c' -ptx -cubin -fatbin '-lineinfo -ptx' '-lineinfo -cubin' \
            '-lineinfo -fatbin' '-G -ptx'; do
            # shellcheck disable=SC2086 # several words
            made -arch=sm_80 -Iinc $words k.cu
            # shellcheck disable=SC2086
            made -arch=sm_80 -Iinc $words k.cu
            case $words in
            *-G*) ;;
            *) same "misses of $words" "$missed" '' ;;
            esac
        done
        end
    fi
    if case_of 'nvcc: edits'; then
        project
        made "${two[@]}" -Iinc -c k.cu -o k.o
        same 'first' "$served" ''
        made "${two[@]}" -Iinc -c k.cu -o other.o
        same 'another product' "$missed" ''
        sed -i 's/return count/return count + 1/' k.cu
        made "${two[@]}" -Iinc -c k.cu -o k.o
        same 'a host function' "$served" 'ptxas-sm_75 ptxas-sm_80'
        sed -i 's/= 4/= 5/' k.cu
        made "${two[@]}" -Iinc -c k.cu -o k.o
        same 'a kernel' "$served" "$host"
        # what reads only what is as it was isn't run again: ptxas if the PTX is, the host compiler if the fatbin, the stub file and the source are
        for edit in 's/= 5/= 2 + 3/' 's/N \* SIZE/SIZE * N/'; do
            sed -i "$edit" k.cu
            made "${two[@]}" -Iinc -c k.cu -o k.o
            same "what runs after $edit, which reaches nothing" "$missed" 'cicc-compute_75 cicc-compute_80 cudafe++'
        done
        made "${two[@]}" -gencode arch=compute_90,code=sm_90 -Iinc -c k.cu -o k.o
        same 'a further target' "$served" "cicc-compute_75 cicc-compute_80 cudafe++ ${host/800/900} ptxas-sm_75 ptxas-sm_80"
        end
    fi
    if case_of 'nvcc: lines'; then
        project
        made "${two[@]}" -Iinc -c k.cu -o k.o
        sed -i '1i // a line' k.cu inc/size.h
        made "${two[@]}" -Iinc -c k.cu -o k.o
        same 'a line more in a source and a header' "$missed" ''
        sed -i 's/{/ {\n\n/; s/;/; \/* two\nlines *\//' k.cu
        made "${two[@]}" -Iinc -c k.cu -o k.o
        same 'blanks and comments' "$missed" ''
        for words in -lineinfo '-g -O0' '-G -g' -cuda; do
            for _ in 1 2; do
                sed -i '1i // a line' k.cu
                # shellcheck disable=SC2086 # several words
                made -arch=sm_80 -Iinc $words ${words:+$([ "$words" = -cuda ] || echo -c)} k.cu
            done
            case $words in
            -lineinfo) same 'what was served with -lineinfo' "$served" "cudafe++ $host" ;;
            -g*) same 'what was served with -g' "$served" ptxas-sm_80 ;;
            *) same "what was served with $words" "$served" '' ;;
            esac
        done
        for line in __LINE__ '__builtin_LINE()'; do
            echo "int line() { return $line; } __device__ int its_line = $line;" > l.cu
            made -arch=sm_80 -c l.cu -o l.o
            sed -i '1i // a line' l.cu
            made -arch=sm_80 -c l.cu -o l.o
            same "served with $line" "$(grep -o 'cudafe++\|cicc\|gcc--S' <<< "$served")" ''
        done
        end
    fi
    if case_of 'nvcc: lines in messages'; then
        project
        echo 'int narrow(double value) { return value; } __device__ int device_narrow(double value) { int never; return value; }' >> k.cu
        for words in '' '-Xcompiler -Wconversion' '-Xcompiler -Wconversion,-Werror'; do
            for _ in 1 2; do
                sed -i '1i // a line' k.cu
                # shellcheck disable=SC2086 # several words, or none
                call ZIGRUNK_CACHE= -arch=sm_80 -Iinc $words -c k.cu -o k.o
                cp "$room/err" "$room/plain" && plain=$status
                # shellcheck disable=SC2086
                call -arch=sm_80 -Iinc $words -c k.cu -o k.o
                same "messages and status with '$words'" "$(cat "$room/err") $status" "$(cat "$room/plain") $plain"
            done
        done
        sed -i 's/int never;//' k.cu
        call -arch=sm_80 -Iinc -Xcompiler -Wconversion -c k.cu -o k.o
        sed -i '1i // a line' k.cu
        call ZIGRUNK_CACHE= -arch=sm_80 -Iinc -Xcompiler -Wconversion -c k.cu -o k.o
        cp "$room/err" "$room/plain"
        call ZIGRUNK_EXPLAIN=1 -arch=sm_80 -Iinc -Xcompiler -Wconversion -c k.cu -o k.o
        same 'a warning of a text with other lines' "$(grep -v '^zigrunk' "$room/err")" "$(cat "$room/plain")"
        same 'who made the call' "$(grep -c '^zigrunk-nvcc: nvcc itself: a message may name lines of an earlier text' "$room/err")" 1
        end
    fi
    if case_of 'nvcc: headers'; then
        project
        made -arch=sm_80 -I early -Iinc -c k.cu -o k.o
        touch -r inc/size.h "$room/time"
        echo '#define SIZE 256' > inc/size.h && touch -r "$room/time" inc/size.h
        made -arch=sm_80 -I early -Iinc -c k.cu -o k.o
        same 'another one of the same size and time' "$served" "$host"
        mkdir early && echo '#define SIZE 512' > early/size.h && touch -r "$room/time" early/size.h early
        made -arch=sm_80 -I early -Iinc -c k.cu -o k.o
        same 'one that appears earlier' "$served" "$host"
        end
    fi
    if case_of 'nvcc: the time of a source in line information'; then
        project
        made -arch=sm_80 -Iinc -lineinfo -c k.cu -o k.o
        touch -d '2021-01-01' k.cu
        made -arch=sm_80 -Iinc -lineinfo -c k.cu -o k.o
        same 'what is served' "$served" "cicc-compute_80 cudafe++ $host"
        end
    fi
    if case_of 'nvcc: files that no record names'; then
        project
        echo one > data
        for form in '.incbin \"data\"' '.INCBIN \"data\"' 'nop; .inc/**/bin \"data\"' '\n.macro m x\n.inc\\x \"data\"\n.endm\nm bin'; do
            printf '%s\n' "asm(\".globl mine\\nmine: $form\\n\");" >> k.cu
            for late in 0 1; do
                for text in one two one; do
                    echo "$text" > data
                    settle
                    made ZIGRUNK_LATE=$late -arch=sm_80 -Iinc -c k.cu -o k.o
                    same "assembler with $form, ZIGRUNK_LATE=$late" "$([ -e "$room/$late.$text" ] || grep -o gcc--c <<< "$served")" ''
                    touch "$room/$late.$text"
                done
                same "what was served with $form again" "$missed" ''
            done
            rm "$room"/[01].{one,two}
            sed -i '$d' k.cu
        done
        for word in -fstack-usage -save-temps -fcallgraph-info -fsave-optimization-record; do
            made -arch=sm_80 -Iinc -Xcompiler $word -c k.cu -o k.o
            made -arch=sm_80 -Iinc -Xcompiler $word -c k.cu -o k.o
            same "$word" "$(grep -c 'gcc--c' <<< "$served")" 0
        done
        end
    fi
    if case_of 'nvcc: sources of C++'; then
        project
        # warns WORDS FROM TO: a source is compiled, and once more with an edit that no token has
        warns() {
            for edit in '' "$2"; do
                sed -i "$edit" k.cpp a.h && touch -d '1 minute ago' k.cpp
                # shellcheck disable=SC2086 # several words
                made $1 -c k.cpp -o k.o
            done
            same "what was said after $2" "$(grep -c 'warning: ' "$room/err")" 1
        }
        echo 'inline int g(int a) { return a; }' > a.h
        printf '%s\n' '#include "a.h"' 'int f(int a) {' '  if (a)' '    a++;' '  a++;' '  return g(a);' '}' > k.cpp
        warns '-Xcompiler -Wall' 's/^  a++/    a++/'
        printf '%s\n' '#include "a.h"' 'int f(int a) { return g(a); }' > k.cpp
        printf '%s\n' 'inline int g(int a) {' '  switch (a) {' '  case 1: a++; // fall through' '  case 2: a++; }' '  return a;' '}' > a.h
        warns '-Xcompiler -Wextra' 's,// fall.*,// nothing,'
        echo 'inline int g(int a) { return a; }' > a.h
        touch -d '1 minute ago' k.cpp
        for _ in 1 2; do made -Xcompiler -Winvalid-pch -c k.cpp -o k.o; done
        same 'served again' "$served" gcc--c
        echo none > a.h.gch && touch -d '1 minute ago' a.h.gch
        made -Xcompiler -Winvalid-pch -c k.cpp -o k.o
        same 'what was said of a precompiled header' "$(grep -c 'warning: ' "$room/err")" 1
        rm a.h.gch
        for name in symver weakref; do
            printf '%s\n' "static int one() __attribute__(($name(\"${name/symver/g@}\\n.pushsection .data\\n.inc\\142in \\\"data\\\"\\n.popsection\")));" 'int two() { return one(); }' > k.cpp
            [ $name = weakref ] || sed -i 's/static int one() \(.*\);/extern "C" \1 int one() { return 1; }/' k.cpp
            touch -d '1 minute ago' k.cpp
            for text in one two; do
                echo "$text" > data
                settle
                made -c k.cpp -o k.o
                same "served with $name and $text" "$served" ''
            done
        done
        echo 'struct S { void f() {}; };' > k.cpp && touch -d '1 minute ago' k.cpp
        for form in '' fixits-v1; do made GCC_EXTRA_DIAGNOSTIC_OUTPUT=$form -Xcompiler -Wextra-semi -c k.cpp -o k.o; done
        same 'lines that say how to mend it' "$(grep -c ^fix-it "$room/err")" 1
        end
    fi
    if case_of 'nvcc: folders'; then
        project
        made -arch=sm_80 -I"$PWD/inc" -c "$PWD/k.cu" -o k.o
        source=$PWD
        mkdir "$room/build" && cd "$room/build" && cp "$source/cuda_runtime.h" . && touch -d '1 minute ago' cuda_runtime.h
        made -arch=sm_80 -I"$source/inc" -c "$source/k.cu" -o k.o
        same 'another build folder' "$missed" ''
        made -arch=sm_80 -g -I"$source/inc" -c "$source/k.cu" -o k.o
        cd "$source" || return
        made -arch=sm_80 -g -I"$source/inc" -c "$source/k.cu" -o k.o
        same 'the host compile with -g in another one' "$(grep -c gcc--c <<< "$missed")" 1
        mkdir "$room/other" && cp -rp . "$room/other" && cd "$room/other" && rm -f k.o
        made -arch=sm_80 -I"$PWD/inc" -c "$PWD/k.cu" -o k.o
        echo "another checkout by whole paths: hits of $served; misses of $missed"
        made -arch=sm_80 -Iinc -c k.cu -o k.o
        cd "$source" || return
        made -arch=sm_80 -Iinc -c k.cu -o k.o
        echo "another checkout by relative paths: hits of $served; misses of $missed"
        same 'ptxas in another checkout' "$(grep -c ptxas <<< "$served")" 1
        end
    fi
    if case_of 'nvcc: specs of gcc'; then
        project
        mkdir "$room/lib"
        echo 'inline int sum(int a) { int s = 0; for (int i = 0; i < a; i++) s += i * i; return s; } int sums(int a) { return sum(a) + sum(a + 1); }' >> k.cu
        for level in 1 3; do
            for _ in 1 2; do
                printf '%s\n' '*cc1plus:' "+ -O$level" '' > "$room/lib/specs"
                made LIBRARY_PATH="$room/lib" -arch=sm_80 -Iinc -c k.cu -o k.o
            done
            same "misses with specs for -O$level" "$missed" ''
        done
        printf '%s\n' '*cc1plus:' '+ %:getenv(LEVEL 2)' '' > "$room/lib/specs"
        for level in -O -finline-limit=; do
            made LIBRARY_PATH="$room/lib" LEVEL="$level" -arch=sm_80 -Iinc -c k.cu -o k.o
            same "host compile by specs that use variables" "$(grep -o gcc--S <<< "$served")" ''
        done
        end
    fi
    if case_of 'nvcc: warnings'; then
        project
        echo 'int warns() { int never; return 0; } // a comment' >> k.cu
        touch -d '1 minute ago' k.cu
        made -arch=sm_80 -Iinc -c k.cu -o k.o
        same 'it warns' "$(grep -q never "$room/err" && echo told)" told
        made -arch=sm_80 -Iinc -c k.cu -o k.o
        same 'misses' "$missed" ''
        sed -i 's/a comment/another comment/' k.cu
        made -arch=sm_80 -Iinc -c k.cu -o k.o
        end
    fi
    if case_of 'nvcc: sources without an external name'; then
        project
        echo 'static __global__ void k(int* p) { *p = 1; } namespace { struct A { A() { k<<<1, 1>>>(0); } } a; }' > s.cu
        touch -d '1 minute ago' s.cu
        for name in a b; do call -arch=sm_80 -dc s.cu -o $name.o; done
        same 'module ids' "$(nm a.o b.o | grep -c 'fatbinwrap_.*_s_cu')" 2
        same 'their symbols' "$(nm a.o b.o | grep -o '__fatbinwrap_.*_s_cu.*' | sort -u | wc -l)" 2
        end
    fi
}

# whole WANTED WORD..: makes a call with the cache, once and without. A problem, unless the cache has served the whole call ('whole') or not (''),
# and all that the call makes and says is the same.
whole() {
    local wanted=$1 settings=()
    shift
    while [[ ${1-} == *=* && $1 != -* ]]; do settings+=("$1") && shift; done
    call "${settings[@]}" ZIGRUNK_CACHE= ZIGRUNK_LOG= "$@"
    rm -rf "$room/plain" && mkdir "$room/plain" && cp "$room/err" "$room/plain.err"
    for product in k.o k.d; do [ ! -f $product ] || mv $product "$room/plain"; done
    settle
    : > "$room/calls"
    call "${settings[@]}" "$@"
    same "what served $*" "$([ "$(commands true)" = nvcc ] && echo whole)" "$wanted"
    for product in k.o k.d; do [ ! -f "$room/plain/$product" ] || same "$product of $*" "$(cmp $product "$room/plain/$product" 2>&1)" ''; done
    same "status and messages of $*" "$status $(cat "$room/err")" "0 $(cat "$room/plain.err")"
}

# batch [NAME=VALUE..]: makes the calls of a list as a batch.
batch() {
    settle
    : > "$room/calls"
    env "$@" LOG="$room/log" TMPDIR="$room/tmp" XDG_RUNTIME_DIR="$room/run" "$scratch/bin/zigrunk-batch" list > "$room/out" 2> "$room/err"
    same 'status of the batch' "$?" 0
}

# served_whole: the sources of the logged calls that the cache had as a whole.
served_whole() {
    python3 - "$room/calls" << 'END_OF_PROGRAM'
import json, sys
calls = [json.loads(line) for line in open(sys.argv[1])]
whole = [call for call in calls if [(one["kind"], one.get("hit")) for one in call["commands"]] == [("nvcc", True)]]
print(*sorted(word for call in whole for word in call["words"] if word.endswith(".cu")))
END_OF_PROGRAM
}

# twice WORD..: makes a call that is kept, and again.
twice() { whole '' "$@" && whole whole "$@"; }

whole_calls() {
    command -v nvcc > /dev/null || { skip 'whole calls' 'nvcc is not on the path' && return; }
    local usual=(-arch=sm_80 -Iearly -Iinc -c k.cu -o k.o)
    if case_of 'whole: an unchanged call'; then
        project
        twice -MD -MF k.d "${usual[@]}"
        same 'calls in the statistics' "$("$scratch/bin/zigrunk-cache" stats | grep ' calls: ')" $'whole calls: 1\nother calls: 1'
        # what the cache says of the call, by its words and by its key
        env LOG="$room/log" "$scratch/bin/zigrunk-cache" show nvcc -MD -MF k.d "${usual[@]}" > "$room/shown"
        same 'what the call depends on' "$(grep -c '^file [0-9a-f]* \(k.cu\|inc/size.h\|.*/cicc\)$' "$room/shown") $(grep -c '^lacking early' "$room/shown")" '3 1'
        "$scratch/bin/zigrunk-cache" show "$(sed -n 's/^key //p' "$room/shown")" > "$room/out"
        same 'what its key has' "$(cmp "$room/out" "$room/shown" 2>&1)" ''
        env LOG="$room/log" "$scratch/bin/zigrunk-cache" show nvcc -c none.cu 2> "$room/err"
        same 'of an unknown call' "$? $(cat "$room/err")" '1 zigrunk cache: the cache has nothing for that'
        whole '' ZIGRUNK_CALLS=0 -MD -MF k.d "${usual[@]}"
        (umask 077 && rm k.o && call -MD -MF k.d "${usual[@]}")
        same 'modes with umask 077' "$(stat -c %a k.o)" 600
        touch k.cu inc/size.h
        whole whole -MD -MF k.d "${usual[@]}"
        edit_entries 'del data[len(data) // 2:]'
        twice -MD -MF k.d "${usual[@]}"
        twice -MMD -MP -MF k.d "${usual[@]}"
        rm k.d
        twice -DNAME='"a name"' -UOTHER -forward-unknown-to-host-compiler -std=c++17 -x cu -rdc=true -isystem inc "${usual[@]}"
        end
    fi
    if case_of "whole: the toolkit's headers, thrust and cub"; then
        project
        rm cuda_runtime.h
        for headers in 'cuda_fp16.h vector' 'cub/block/block_reduce.cuh thrust/detail/raw_pointer_cast.h'; do
            # shellcheck disable=SC2086 # several words
            { printf '#include <%s>\n' $headers && cat k.cu; } > l.cu
            touch -d '1 minute ago' l.cu
            twice "${usual[@]/k.cu/l.cu}"
        done
        end
    fi
    if case_of 'whole: words that builds have'; then
        project
        # nvcc gives a preprocessor the words of a macro one by one
        local common=(-DNDEBUG -D SIZE_OF=8 -UOTHER -isystem early -O3 -use_fast_math -restrict --extended-lambda --expt-relaxed-constexpr)
        common+=(-maxrregcount=64 -Xptxas -warn-spills -diag-suppress 177 -Xcompiler "-fPIC,-Wall" -Wno-deprecated-gpu-targets -lineinfo)
        twice "${common[@]}" "${usual[@]}"
        whole '' -DNDEBUG=2 "${common[@]:1}" "${usual[@]}"
        end
    fi
    if case_of 'whole: phases'; then
        project
        for words in -ptx -cubin -fatbin "-fatbin ${two[*]}" '-fatbin -Xfatbin -compress-all' -dc -dw '-rdc=true -c' '-lineinfo -ptx' '-lineinfo -cubin' '-lineinfo -fatbin'; do
            for edit in 's/= 4;/= 5;/' 's/= 5;/= 6;/'; do
                # shellcheck disable=SC2086 # several words
                twice -Iinc $words k.cu -o k.o
                sed -i "$edit" k.cu
            done
            sed -i 's/= 6;/= 4;/' k.cu
            # shellcheck disable=SC2086
            [[ $words == '-lineinfo -'[cf]* ]] || whole whole -Iinc $words k.cu -o k.o
        done
        end
    fi
    if case_of 'whole: times of files in line information'; then
        project
        # ptxas writes when a file that it hears of was last changed
        local day=1
        for words in -c -cubin -fatbin; do
            twice -lineinfo "${usual[@]/-c/$words}"
            for file in k.cu inc/size.h; do
                touch -d "2021-01-$((day += 1))" $file
                whole "$([ $file = k.cu ] || echo whole)" -lineinfo "${usual[@]/-c/$words}"
            done
        done
        twice "${usual[@]}"
        touch -d '2021-01-02' k.cu
        whole whole "${usual[@]}"
        sed -i '/fill/i #line 7 "named.cu"' k.cu
        twice -lineinfo "${usual[@]}"
        echo 'any text' > named.cu && touch -d '2021-01-01' named.cu
        whole '' -lineinfo "${usual[@]}"
        end
    fi
    if case_of 'whole: files that only tools read'; then
        project
        for number in 5 6; do
            echo "__global__ void more(int* values) { values[0] = $number; }" > more.cu
            nvcc -cubin -arch=sm_90 more.cu -o $number.cubin
        done
        rm more.cu
        for words in '"-image3=kind=elf,sm=90,file=more.cubin"' '--image3,"kind=elf,sm=90,file=more.cubin"' '"--image3=file=more.cubin,kind=elf,sm=90"'; do
            for number in 5 6 6; do
                cp $number.cubin more.cubin
                whole '' -Xfatbin "$words" "${usual[@]/-c/-fatbin}"
                cp k.o $number.o
            done
            same "that $words count" "$(cmp -s 5.o 6.o; echo $?)" 1
        done
        printf '%s\n' 'asm(".globl m\nm: .incbin \"data\"\n");' >> k.cu
        echo one > data
        twice "${usual[@]}"
        echo two > data
        twice "${usual[@]}"
        echo one > data
        whole whole "${usual[@]}"
        end
    fi
    if case_of 'whole: messages and failures'; then
        project
        echo 'int warns() { int never; return 0; }' >> k.cu
        twice "${usual[@]}"
        same 'it warns' "$(grep -q never "$room/err" && echo told)" told
        echo 'error' >> k.cu
        for _ in 1 2; do
            call "${usual[@]}"
            same 'a failing call' "$status $(grep -q error "$room/err" && echo told)" '2 told'
        done
        end
    fi
    if case_of 'whole: contents'; then
        project
        ln -s inc link
        mkdir other && echo '#define SIZE 99' > other/size.h
        local words=(-arch=sm_80 -Ilink -c k.cu -o k.o)
        twice "${words[@]}"
        for file in k.cu inc/size.h; do
            touch -r $file "$room/time"
            sed -i 's/128/256/; s/= 4/= 5/' $file && touch -r "$room/time" $file
            twice "${words[@]}"
        done
        ln -sfn other link
        twice "${words[@]}"
        ln -sfn inc link
        whole whole "${words[@]}"
        sed -i 's/256/128/; s/= 5/= 4/' k.cu inc/size.h
        call "${words[@]}"
        rm inc/size.h
        call "${words[@]}"
        same 'without a header' "$([ "$status" != 0 ] && grep -q size.h "$room/err" && echo told)" told
        end
    fi
    if case_of 'whole: host compiles without a preprocessor'; then
        # how often a host compile was found at once: then its line of the log has no time
        at_once() { same "compiles found at once $1" "$(tail -1 "$room/calls" | grep -c '"gcc -S[^}]*"begin":\([0-9.]*\),"end":\1,[^}]*"hit":true')" "$2"; }
        project
        twice "${usual[@]}"
        sed -i 's/= 4/= 5/' k.cu
        whole '' "${usual[@]}"
        at_once 'after an edit of a kernel' 1
        whole whole "${usual[@]}"
        mkdir -p early/crt
        { printf '%s\n' '#ifndef MORE' '#define MORE' 'int more() { return 7; }' '#endif' && echo "#include \"$(dirname "$(find -L /usr/local/cuda/targets -name host_runtime.h | head -1)")/host_runtime.h\""; } > early/crt/host_runtime.h
        sed -i 's/= 5/= 6/' k.cu
        whole '' "${usual[@]}"
        at_once 'once a header appears' 0
        sed -i 's/return 7/return 8/' early/crt/host_runtime.h
        sed -i 's/= 6/= 7/' k.cu
        whole '' "${usual[@]}"
        at_once 'once a header changes' 0
        sed -i 's/= 7/= 8/' k.cu
        whole '' -Xcompiler -DOTHER "${usual[@]}"
        at_once 'with other words' 0
        whole '' "${usual[@]}"
        sed -i 's/= 8/= 9/' k.cu
        whole '' "${usual[@]}"
        at_once 'at last' 1
        # cudafe++ leaves out a part within another, and writes comments at the end
        echo '__global__ void nested(int* p) { union U { int value; __device__ U() {} }; U u; *p = u.value + 1; }' >> k.cu
        twice -rdc=true "${usual[@]}"
        sed -i 's/value + 1/value + 2/' k.cu
        whole '' -rdc=true "${usual[@]}"
        at_once 'with parts within others' 1
        end
    fi
    if case_of 'whole: files that are read once'; then
        project
        mkdir a b && printf '%s\n' '#pragma once' 'inline int more() { return 5; }' > a/more.h
        printf '%s\n' '#include "a/more.h"' '#include "b/more.h"' >> k.cu
        ln -s ../a/more.h b/more.h
        twice "${usual[@]}"
        rm b/more.h && echo 'inline int further() { return 6; }' > b/more.h
        twice "${usual[@]}"
        # a copy is left out if it was last changed in the same second
        printf '%s\n' '#pragma once' '#ifdef MORE' 'int more_than_once = 1;' '#endif' '#define MORE' > a/more.h
        cp a/more.h b/more.h && touch -d '1 minute ago' a/more.h b/more.h
        twice "${usual[@]}"
        touch -d '2 minutes ago' b/more.h
        twice "${usual[@]}"
        touch -r b/more.h a/more.h
        twice "${usual[@]}"
        echo 'inline int further() { return 7; } int here = further();' > b/more.h
        whole '' "${usual[@]}"
        # two names of a file, of which one becomes a copy
        ln -f a/more.h b/more.h && touch -d '1 minute ago' a/more.h
        twice "${usual[@]}"
        cp a/more.h copy && mv copy b/more.h && touch -d '2 minutes ago' b/more.h
        whole '' "${usual[@]}"
        end
    fi
    if case_of 'whole: sources of the same layout'; then
        project
        printf '%s\n' '#define HERE __LINE__' '#define JOIN(a, b) a##b' '#define TEXT(x) #x' >> inc/size.h
        sed -i 's/float\* values/float* values \/\/ comment\n/; s/^const/\/\/ it\x27s one\n\nconst/' k.cu
        twice -MD -MF k.d "${usual[@]}"
        cp k.cu "$room/first.cu" && cp inc/size.h "$room/first.h"
        for edit in 's,// comment,/* other // words */,' '1i // line' 's,// it.*,/* some\nlines */ // "more,' '$G' 's/ = / =   /' 's,int unused,  &,'; do
            sed -i "$edit" k.cu
            whole whole -MD -MF k.d "${usual[@]}"
            sed -i "${edit//const/define}" inc/size.h
            whole whole -MD -MF k.d "${usual[@]}"
        done
        for edit in 's,// comment,// \\\\\n comment,' 's,// comment,/* /* */,' '1i const char* r = R"(//)";' 's/file()/file ()/' '1i #line 5'; do
            cp "$room/first.cu" k.cu
            sed -i "$edit" k.cu
            whole '' -MD -MF k.d "${usual[@]}"
        done
        rm k.d
        # A `/` in front of a comment is no part of it.
        for pair in '/// ä|/ // ä' '//* ä */|/ /* ä */'; do
            { cat "$room/first.cu" && printf 'int part(int y, int z) { return y%s\n-z; }\n' "${pair%|*}"; } > k.cu
            twice "${usual[@]}"
            { cat "$room/first.cu" && printf 'int part(int y, int z) { return y%s\n-z; }\n' "${pair#*|}"; } > k.cu
            whole '' "${usual[@]}"
        done
        for line in __LINE__ HERE 'JOIN(HE, RE)' 'JOIN(__LI, NE__)' 'WORD(1)' '__builtin_LINE()'; do
            cp "$room/first.cu" k.cu
            echo "int here = $line;" >> k.cu
            twice '-DWORD(x)=x+__LINE__' "${usual[@]}"
            sed -i '1i // line' k.cu
            whole '' '-DWORD(x)=x+__LINE__' "${usual[@]}"
            sed -i '1s/line/other/' k.cu
            whole "$([[ $line == *builtin* ]] || echo whole)" '-DWORD(x)=x+__LINE__' "${usual[@]}"
        done
        for words in -lineinfo -g '-Xcompiler -g'; do
            cp "$room/first.cu" k.cu
            # shellcheck disable=SC2086 # several words
            { twice $words "${usual[@]}" && sed -i 's/comment/other/' k.cu && whole '' $words "${usual[@]}"; }
        done
        cp "$room/first.cu" k.cu
        echo 'int warns() { int never; return 0; } // comment' >> k.cu
        twice "${usual[@]}"
        sed -i '$s/comment/other/' k.cu
        whole '' "${usual[@]}"
        end
    fi
    if case_of 'whole: a file that appears'; then
        project
        printf '%s\n' '#if __has_include("asked.h")' '#include "asked.h"' '#endif' '#define NAME "inc.h"' '#include NAME' >> k.cu
        echo '// nothing' > inc/inc.h
        twice "${usual[@]}"
        for file in early/size.h size.h asked.h early/inc.h inc.h; do
            [[ $file != early/* ]] || mkdir early
            printf '%s\n' '#undef SIZE' '#define SIZE 512' > $file
            whole '' "${usual[@]}"
            rm $file && rm -rf early
        done
        mkdir early
        whole '' "${usual[@]}"
        whole whole "${usual[@]}"
        echo > early/other.h
        whole whole "${usual[@]}"
        echo '#define SIZE 512' > early/size.h
        whole '' "${usual[@]}"
        end
    fi
    if case_of 'whole: links to what is not there yet'; then
        project
        mkdir early far far/folder.h sub
        ln -s ../far/size.h early/size.h
        ln -s ../far/folder.h early/folder.h
        ln -s ../nowhere sub/link
        printf '%s\n' '#include "folder.h"' >> k.cu
        echo '#define FOLDER 1' > inc/folder.h
        # a folder that was last changed some time ago isn't looked into again
        sleep 2.1
        for what in 'far/size.h' 'nowhere/size.h' 'far/folder.h'; do
            twice -Isub/link "${usual[@]}"
            [ $what != far/folder.h ] || rmdir far/folder.h
            mkdir -p "${what%/*}" && echo '#define SIZE 512' > $what
            whole '' -Isub/link "${usual[@]}"
            rm $what && rm -rf nowhere
            sleep 2.1
        done
        end
    fi
    if case_of 'whole: a file for which a text asks'; then
        project
        mkdir src
        # asked.h isn't read, and may be beside the source alone
        printf '%s\n' '#define NAME "asked.h"' '#define HAS(x) __has_include(x)' '#define HAS_ANGLED(x) __has_include(<x>)' '#define HAS_ONE HAS("asked.h")' \
            '#define CAT(a, b) a##b' '#define EMPTY' > inc/names.h
        local words=('-DWORD="asked.h"' -arch=sm_80 -Iinc -c src/k.cu -o k.o)
        # asks FOLDER LINE WORD..: a file appears in a folder for which a line asks
        asks() {
            local folder=$1 line=$2
            shift 2
            { printf '%s\n' '#include "names.h"' "#if $line" 'int more = 7;' '#endif' | tr '|' '\n' && cat k.cu; } > src/k.cu
            touch -d '1 minute ago' src/k.cu
            for _ in 1 2; do call "$@" "${words[@]}" && settle; done
            echo '// nothing' > "$folder/asked.h"
            whole '' "$@" "${words[@]}"
        }
        for line in '__has_include("asked.h")' '__has_inc\|lude(NAME)' 'HAS("asked.h")' 'HAS(NAME)' 'HAS(WORD)' HAS_ONE '__has_include EMPTY (NAME)' 'CAT(__has_, include)(NAME)'; do
            asks src "$line"
            rm src/asked.h
        done
        asks src WHOLE '-DWHOLE=__has_include("asked.h")'
        rm src/asked.h
        for line in '__has_include(<asked.h>)' 'HAS(<asked.h>)' 'HAS_ANGLED(asked.h)'; do
            asks inc "$line"
            rm inc/asked.h
            whole '' "${words[@]}"
            settle
        done
        mkdir early && printf '%s\n' '#if __has_include_next("size.h")' '#define SIZE 5' '#else' '#define SIZE 6' '#endif' > early/size.h
        twice "${usual[@]}"
        rm inc/size.h
        whole '' "${usual[@]}"
        end
    fi
    if case_of 'whole: questions that are put together'; then
        project
        mkdir src
        printf '%s\n' '#define NAME "asked.h"' '#define CAT(a, b, c) a##b##c' '#define SECOND(a, b) __has_include(b)' \
            '#define BOTH(a) (__has_include(a) || __has_include(NAME))' '#define HAS_ODD (1 && __has_include(<a b.h>))' '#define ODD "a b.h"' \
            '#define \u00e4(a) __has_include(a)' > inc/names.h
        local file words=(-arch=sm_80 -Iinc -c src/k.cu -o k.o)
        for line in 'CAT(__has, _inc, lude)(NAME)' 'SECOND("x.h", NAME)' 'BOTH("x.h")' $'\u00e4(NAME)' '__has_include("a b.h")' '__has_include(<a@2.h>)' \
            $'__has_include("\u00e4.h")' HAS_ODD; do
            { printf '%s\n' '#include "names.h"' "#if $line" 'int more = 7;' '#endif' && cat k.cu; } > src/k.cu
            touch -d '1 minute ago' src/k.cu inc/names.h
            for _ in 1 2; do call "${words[@]}" && settle; done
            case $line in *'a b.h'*) file='src/a b.h' ;; HAS_ODD) file='inc/a b.h' ;; *@*) file=inc/a@2.h ;; *'.h")') file=$'src/\u00e4.h' ;; *) file=src/asked.h ;; esac
            [ "$line" != 'BOTH("x.h")' ] || file=src/asked.h
            echo > "$file"
            whole '' "${words[@]}"
            rm "$file"
        done
        end
    fi
    if case_of 'whole: where folders and links lead'; then
        project
        mkdir -p v1/inc v2/inc a b c a_long_name_of_a_folder_with_a_link
        for folder in v1 v2; do echo 'static const char* here = __FILE__;' > $folder/inc/here.h; done
        ln -s "$PWD/v1" a_long_name_of_a_link_to_a_folder
        ln -s "$PWD/v1/inc/here.h" a_long_name_of_a_folder_with_a_link/there.h
        printf '%s\n' '#include <here.h>' '#ifdef THERE' '#include <there.h>' '#endif' '#ifdef TWO' '#include <x.h>' 'int two = TWO;' '#endif' \
            'const char* its_name() { return here; }' >> k.cu
        touch -d '1 minute ago' k.cu v?/inc/here.h
        local folder=$PWD/a_long_name_of_a_link_to_a_folder/inc
        twice -MD -isystem "$folder" "${usual[@]}"
        ln -sfn "$PWD/v2" a_long_name_of_a_link_to_a_folder
        whole '' -MD -isystem "$folder" "${usual[@]}"
        rm a_long_name_of_a_link_to_a_folder && sed -i '/<here.h>/d' k.cu
        twice -MD -DTHERE -isystem "$PWD/a_long_name_of_a_folder_with_a_link" "${usual[@]}"
        ln -sfn "$PWD/v2/inc/here.h" a_long_name_of_a_folder_with_a_link/there.h
        whole '' -MD -DTHERE -isystem "$PWD/a_long_name_of_a_folder_with_a_link" "${usual[@]}"
        # a folder that becomes another one of the list is left out
        sed -i '/its_name/d' k.cu && printf '%s\n' '#undef TWO' '#ifndef ONE' '#define ONE' '#include_next <x.h>' '#else' '#define TWO 2' '#endif' > a/x.h
        cp a/x.h b && printf '%s\n' '#undef TWO' '#define TWO 3' > c/x.h
        rm -f k.d && touch -d '1 minute ago' k.cu ./?/x.h
        twice -DTWO -Ia -Ib -Ic "${usual[@]}"
        rm -r b && ln -s a b
        whole '' -DTWO -Ia -Ib -Ic "${usual[@]}"
        rm b && cp -rp a b
        whole '' -DTWO -Ia -Ib -Ic "${usual[@]}"
        end
    fi
    if case_of 'whole: what nvcc and the loader look for'; then
        project
        twice "${usual[@]}"
        call TMPDIR=/nonexistent "${usual[@]}"
        same 'without a folder for temporary files' "$([ "$status" != 0 ] && echo told)" told
        echo none > libm.so.6
        call "${usual[@]}"
        same 'with a libm that is none' "$([ "$status" != 0 ] && echo told)" told
        rm libm.so.6
        echo 'int one;' | gcc -shared -o first.so -x c -
        twice LD_PRELOAD="$PWD/first.so" "${usual[@]}"
        echo 'int one, two;' | gcc -shared -o first.so -x c -
        whole '' LD_PRELOAD="$PWD/first.so" "${usual[@]}"
        local kit
        kit=$(dirname "$(dirname "$(nvcc --dryrun -c -x cu /dev/null 2>&1 | sed -n 's,^#\$ _HERE_=\(.*\),\1/nvcc,p')")")
        [ -d "$kit/targets/x86_64-linux/include" ] || { end && return; }
        mkdir -p "$room"/kit/{bin,include}
        for file in "$kit"/nvvm "$kit"/lib* "$kit"/bin/*; do ln -s "$file" "$room/kit/${file#"$kit"}"; done
        ln -s "$kit"/targets/x86_64-linux/include/* "$room/kit/include"
        rm "$room"/kit/bin/nvcc{,.profile} && cp "$kit"/bin/nvcc{,.profile} "$room/kit/bin"
        echo '#define MORE 1' > "$room/kit/include/more.h" && printf '%s\n' '#include <more.h>' 'int more = MORE;' >> k.cu
        touch -d '1 minute ago' k.cu "$room/kit/include/more.h" "$room"/kit/bin/nvcc{,.profile}
        twice PATH="$room/kit/bin:$PATH" "${usual[@]}"
        mkdir -p "$room/kit/targets/x86_64-linux" && cp -a "$room/kit/include" "$room/kit/targets/x86_64-linux"
        echo '#define MORE 2' > "$room/kit/targets/x86_64-linux/include/more.h"
        whole '' PATH="$room/kit/bin:$PATH" "${usual[@]}"
        end
    fi
    if case_of 'whole: specs of all compilers'; then
        project
        local count
        printf '%s\n' '#ifdef MORE' 'int more = MORE;' '#endif' >> k.cu
        # a script gives the call a mount of its own
        cat > "$room/specs.sh" << 'END_OF_SCRIPT'
folder=$(dirname "$(dirname "$(gcc -print-prog-name=cc1plus)")")
mount -t tmpfs none "$1/layers" && mkdir "$1/layers/up" "$1/layers/work" || exit 99
mount -t overlay none -o "lowerdir=$folder,upperdir=$1/layers/up,workdir=$1/layers/work" "$folder" || exit 99
shift
for _ in 1 2 3; do "$@" && sleep 0.3; done
printf '%s\n' '*cpp_unique_options:' '+ -DMORE=1' '' > "$folder/specs"
"$@" && nm k.o | grep -c ' more$'
END_OF_SCRIPT
        mkdir "$room/layers"
        if [ "$(id -u)" = 0 ] && unshare -m true 2> /dev/null; then
            count=$(TMPDIR=$room/tmp XDG_RUNTIME_DIR=$room/run unshare -m bash "$room/specs.sh" "$room" "$scratch/bin/zigrunk-nvcc" "${usual[@]}" 2> /dev/null)
            case $? in 99) skip 'specs of all compilers' 'nothing can be mounted' ;; *) same 'symbols with specs' "$count" 1 ;; esac
        else
            skip 'specs of all compilers' 'it takes root'
        fi
        end
    fi
    if case_of "whole: what another user can't read or write"; then
        project
        if [ "$(id -u)" != 0 ] || ! command -v setpriv > /dev/null; then
            skip 'another user' 'it takes root and setpriv'
        else
            chmod 711 "$scratch" && chmod 777 "$room" "$PWD" && mkdir "$room/theirs" "$PWD/early" && chmod 777 "$room/theirs"
            local path=/usr/local/bin:/usr/bin:/bin words=(-Iearly "${usual[@]}") driver_copy=$room/zigrunk-nvcc
            cp "$driver" "$driver_copy"
            # theirs WORD..: makes a call as another user, whose messages and status are shown
            theirs() {
                chmod -R a+rX "$room/cache"
                (umask 022 && env -u ZIGRUNK_LOG LOG="$room/log" TMPDIR="$room/theirs" XDG_RUNTIME_DIR=/nonexistent PATH=$path ZIGRUNK_SLOTS=0 \
                    setpriv --reuid=65534 --regid=65534 --clear-groups "$driver_copy" "$@" 2>&1)
                echo "status $?"
            }
            for _ in 1 2; do call XDG_RUNTIME_DIR=/nonexistent PATH=$path "${words[@]}" && settle; done
            rm -f k.o
            same 'that may be read' "$(theirs "${words[@]}")" 'status 0'
            for file in inc/size.h early; do
                chmod go= $file && sleep 2.1
                for _ in 1 2; do call XDG_RUNTIME_DIR=/nonexistent PATH=$path "${words[@]}" && settle; done
                rm -f k.o
                same "with $file" "$(theirs "${words[@]}" | grep -c 'Permission denied')" 1
                chmod go=rX $file
            done
            for product in k.ptx k.cubin; do
                for _ in 1 2; do call XDG_RUNTIME_DIR=/nonexistent PATH=$path -arch=sm_80 -Iinc -${product#k.} k.cu -o $product && settle; done
                rm -f $product && echo kept > $product && chmod 444 $product
                theirs -arch=sm_80 -Iinc -${product#k.} k.cu -o $product > "$room/said"
                same "$product that can't be written" "$(head -c 4 $product | tr -d '\0') $(stat -c %a $product)" 'kept 444'
                rm -f $product
            done
        fi
        end
    fi
    if case_of 'whole: an empty file where the product goes'; then
        project
        twice "${usual[@]}"
        rm k.o && : > k.o && chmod 600 k.o && ln k.o other
        call "${usual[@]}"
        same 'its modes and names' "$(stat -c '%a %h' k.o) $(cmp k.o other)" '600 2 '
        rm k.o other
        end
    fi
    if case_of 'whole: colours and forms of messages'; then
        project
        echo 'int narrow(double value) { return value; }' >> k.cu
        local words=(-Xcompiler '-Wconversion,-fdiagnostics-color=always' "${usual[@]}")
        twice "${words[@]}"
        for calls in 1 0; do
            whole '' ZIGRUNK_CALLS=$calls GCC_COLORS='warning=01;36' "${words[@]}"
            whole '' ZIGRUNK_CALLS=$calls GCC_COLORS='warning=01;35' "${words[@]}"
        done
        end
    fi
    if case_of 'whole: names in odd directives'; then
        project
        for line in '#include "si\|ze.h"' '#inc\|lude "size.h"' '#/* x */include "size.h"' '# /*|*/ include "size.h"' '%:include "size.h"' '??=include "size.h"'; do
            { tr '|' '\n' <<< "$line" && sed 1d k.cu; } > odd.cu
            touch -d '1 minute ago' odd.cu
            for _ in 1 2; do call -std=c++14 "${usual[@]/k.cu/odd.cu}" && settle; done
            echo '#define SIZE 512' > size.h
            whole '' -std=c++14 "${usual[@]/k.cu/odd.cu}"
            rm size.h
        done
        end
    fi
    if case_of 'whole: products by their whole paths'; then
        project
        mv cuda_runtime.h inc
        local words=(-arch=sm_80 -I"$PWD/inc" -MD -MF "$PWD/k.d" -c "$PWD/k.cu" -o "$PWD/k.o")
        twice "${words[@]}"
        mkdir "$room/other" && cp k.o k.d "$room/other" && rm k.o k.d
        (cd "$room/other" && rm k.o k.d && call "${words[@]}")
        same 'files there and in their place' "$(ls "$room/other") $(find k.o k.d 2>&1 | tr '\n' ' ')" ' k.o k.d '
        end
    fi
    if case_of 'whole: what gcc consists of'; then
        project
        printf '%s\n' '#ifdef MORE' 'int more = MORE;' '#endif' >> k.cu
        mkdir lib tools "$room/bin.1"
        local variables=(LIBRARY_PATH="$PWD/lib" COMPILER_PATH="$PWD/tools" PATH="$room/bin.1:$PATH")
        twice "${variables[@]}" "${usual[@]}"
        printf '%s\n' '*cpp_unique_options:' '+ -DMORE=1' '' > lib/specs
        whole '' "${variables[@]}" "${usual[@]}"
        printf '%s\n' '*cpp_unique_options:' '+ -DMORE=2' '' > lib/specs
        whole '' "${variables[@]}" "${usual[@]}"
        rm lib/specs
        twice "${variables[@]}" "${usual[@]}"
        printf '#!/bin/sh\nexec %s -DMORE=3 "$@"\n' "$(gcc -print-prog-name=cc1plus)" > tools/cc1plus && chmod +x tools/cc1plus
        whole '' "${variables[@]}" "${usual[@]}"
        rm tools/cc1plus
        whole whole "${variables[@]}" "${usual[@]}"
        # a file of the name that isn't a program, and becomes one
        printf '#!/bin/sh\nexec %s -DMORE=4 "$@"\n' "$(command -v gcc)" > "$room/bin.1/gcc"
        for _ in 1 2; do settle && call "${variables[@]}" "${usual[@]}"; done
        chmod +x "$room/bin.1/gcc"
        whole '' "${variables[@]}" "${usual[@]}"
        rm "$room/bin.1/gcc"
        whole whole "${variables[@]}" "${usual[@]}"
        end
    fi
    if case_of 'whole: a gcc of the same bytes elsewhere'; then
        project
        local own machine
        own=$(dirname "$(gcc -print-prog-name=cc1plus)") machine=${own#*/lib/gcc/}
        for number in 1 2; do
            mkdir -p "$room/gcc.$number/bin" "$room/gcc.$number/lib/gcc/$machine/include"
            ln -s "$own"/* "$room/gcc.$number/lib/gcc/$machine" 2> /dev/null
            ln -s "$own"/include/* "$room/gcc.$number/lib/gcc/$machine/include"
            cp "$(realpath "$(command -v gcc)")" "$room/gcc.$number/bin/gcc"
            echo "int more = $number;" > "$room/gcc.$number/lib/gcc/$machine/include/more.h"
        done
        echo '#include <more.h>' >> k.cu
        touch -d '1 minute ago' k.cu "$room"/gcc.?/lib/gcc/"$machine"/include/more.h
        ln -s gcc.1 "$room/gcc"
        twice -ccbin "$room/gcc/bin/gcc" "${usual[@]}"
        ln -sfn gcc.2 "$room/gcc"
        whole '' -ccbin "$room/gcc/bin/gcc" "${usual[@]}"
        end
    fi
    if case_of 'whole: folders that are swapped while a call runs'; then
        project
        local words=(-arch=sm_80 -Ilink/inc -c k.cu -o k.o) begun
        mkdir one two && cp -r inc one && cp -r inc two && echo '#define SIZE 512' > two/inc/size.h
        for how in link link folder folder; do
            rm -rf link "$room/cache"
            if [ $how = link ]; then ln -s one link; else cp -r one link; fi
            settle
            call "${words[@]}" &
            begun=$!
            while kill -0 $begun 2> /dev/null && [ -z "$(find "$room/tmp" -name '*.cudafe1.cpp' -size +0)" ]; do :; done
            if [ $how = link ]; then ln -sfn two link; else mv link old && mv two link && cp -r link two && rm -r old; fi
            wait $begun
            settle
            call ZIGRUNK_CACHE= "${words[@]}"
            mv k.o plain.o
            call "${words[@]}"
            same "product after a swap of a $how" "$(cmp k.o plain.o 2>&1)" ''
        done
        end
    fi
    if case_of 'whole: what is never kept'; then
        project
        echo data > data
        for line in 'const char* d = __DATE__;' 'const char* t = __TIME__;' 'const char* s = __TIMESTAMP__;' \
            '#pragma GCC dependency "data"' '_Pragma("GCC dependency \"data\"")' 'const char* d = OF(__DATE__);' 'PRAGMA(GCC CAT(depend, ency) "data")' \
            'PRAGMA(GCC_NAME dependency "data")'; do
            printf '%s\n' 'int one() { return 1; }' '#define TEXT(x) #x' '#define OF(x) TEXT(x)' '#define CAT(a, b) a##b' '#define PRAGMA_OF(x) _Pragma(#x)' \
                '#define PRAGMA(x) PRAGMA_OF(x)' '#define GCC_NAME GCC' "$line" > k.cu
            for _ in 1 2; do settle && call "${usual[@]}"; done
            same "served with $line" "$status $([ "$(commands true)" = nvcc ] && echo whole)" '0 '
        done
        echo 'int one() { return 1; }' > k.cu
        twice "${usual[@]}"
        for words in '-Xcompiler -MD' '-Xcompiler -imacros,k.h' '-Xcompiler -H'; do
            echo > k.h
            # shellcheck disable=SC2086 # several words
            { call "${usual[@]}" $words && settle && call "${usual[@]}" $words; }
            same "served with $words" "$status $([ "$(commands true)" = nvcc ] && echo whole)" '0 '
        done
        rm -f k.d
        # nvcc takes the targets of the GPUs that it finds
        whole '' -arch=native -c k.cu -o k.o
        whole '' -arch=native -c k.cu -o k.o
        end
    fi
    if case_of 'whole: what cannot be observed'; then
        project
        mkdir "$room/bin.1"
        gcc -static -x c -o "$room/bin.1/nvcc" - <<< "#include <unistd.h>
int main(int n, char** words) { return execv(\"$(command -v nvcc)\", words); }"
        for _ in 1 2; do whole '' PATH="$room/bin.1:$PATH" "${usual[@]}"; done
        call ZIGRUNK_EXPLAIN=1 PATH="$room/bin.1:$PATH" "${usual[@]}"
        same 'the reason' "$(sed 's/: [^:]* into .*//' "$room/err")" 'zigrunk-nvcc: the call is not kept as a whole'
        end
    fi
    if case_of 'whole: lists of words'; then
        project
        printf '%s\n' '#ifdef MORE' 'int more = MORE;' '#endif' >> k.cu
        echo -DMORE=1 > words
        twice --options-file words "${usual[@]}"
        twice NVCC_APPEND_FLAGS='-optf words' "${usual[@]}"
        echo -DMORE=2 > words
        whole '' --options-file words "${usual[@]}"
        whole '' NVCC_APPEND_FLAGS='-optf words' "${usual[@]}"
        end
    fi
    if case_of 'whole: tools and variables'; then
        project
        mkdir "$room/bin.1" "$room/bin.2" "$room/more" && echo '#define MORE' > "$room/more/more.h"
        printf '#!/bin/sh\nexec %s "$@"\n' "$(command -v nvcc)" > "$room/bin.1/nvcc" && chmod +x "$room/bin.1/nvcc"
        local path=$room/bin.2:$room/bin.1:$PATH
        printf '%s\n' '#if __has_include(<more.h>)' '#include <more.h>' '#endif' >> k.cu
        twice PATH="$path" "${usual[@]}"
        whole whole PATH="$path" TERM=other HOME=/ "${usual[@]}"
        twice PATH="$path" CPATH="$room/more" "${usual[@]}"
        whole '' PATH="$path" ANY=value "${usual[@]}"
        printf '#!/bin/sh\nexec %s "$@"\n' "$(command -v as)" > "$room/bin.2/as" && chmod +x "$room/bin.2/as"
        whole '' PATH="$path" "${usual[@]}"
        rm "$room/bin.2/as"
        whole whole PATH="$path" "${usual[@]}"
        printf '#!/bin/sh\nexec %s -DOTHER "$@"\n' "$(command -v gcc)" > "$room/bin.2/gcc" && chmod +x "$room/bin.2/gcc"
        whole '' PATH="$path" "${usual[@]}"
        rm "$room/bin.2/gcc"
        printf '#!/bin/sh\nexec %s -DX "$@"\n' "$(command -v nvcc)" > "$room/bin.1/nvcc"
        twice PATH="$path" "${usual[@]}"
        # what a script reads may use any variable, which it doesn't ask for by its name
        printf '#!/bin/sh\nexec %s -DMORE_THAN="$USER" "$@"\n' "$(command -v nvcc)" > "$room/bin.1/nvcc"
        whole '' PATH="$path" USER=1 "${usual[@]}"
        whole '' PATH="$path" USER=2 "${usual[@]}"
        end
    fi
    if case_of 'whole: variables that may count after all'; then
        project
        printf '%s\n' '#ifdef MORE' '__device__ int more = MORE;' '#endif' '#if __has_include(<more.h>)' '#include <more.h>' '#endif' >> k.cu
        # a gcc that is another cache runs any compiler
        mkdir "$room/bin.3"
        gcc -x c -o "$room/bin.3/ccache" - <<< $'#include <stdlib.h>\n#include <unistd.h>\nint main(int n, char** words) { return execv(words[0] = getenv("CCACHE_COMPILER"), words); }'
        ln -s ccache "$room/bin.3/gcc"
        printf '#!/bin/sh\nexec %s -DMORE=1 "$@"\n' "$(command -v gcc)" > "$room/bin.3/other" && chmod +x "$room/bin.3/other"
        for compiler in "$(command -v gcc)" "$room/bin.3/other"; do
            whole '' PATH="$room/bin.3:$PATH" CCACHE_COMPILER="$compiler" "${usual[@]}"
            whole '' PATH="$room/bin.3:$PATH" CCACHE_COMPILER="$compiler" "${usual[@]/-c/-cubin}"
        done
        # a profile of nvcc may use any variable
        local kit
        kit=$(dirname "$(dirname "$(nvcc --dryrun -c -x cu /dev/null 2>&1 | sed -n 's,^#\$ _HERE_=\(.*\),\1/nvcc,p')")")
        mkdir -p "$room/kit/bin" one two
        for file in "$kit"/* "$kit"/bin/*; do [ -e "$room/kit/${file#"$kit"}" ] || ln -s "$file" "$room/kit/${file#"$kit"}"; done
        rm "$room"/kit/bin/nvcc{,.profile} && cp "$kit/bin/nvcc" "$room/kit/bin"
        sed 's,^INCLUDES.*,& "-I$(HOME)",' "$kit/bin/nvcc.profile" > "$room/kit/bin/nvcc.profile"
        for folder in one two; do echo "const char* here = \"$folder\";" > $folder/more.h; done
        touch -d '1 minute ago' k.cu {one,two}/more.h "$room"/kit/bin/nvcc{,.profile}
        for folder in one two; do whole '' PATH="$room/kit/bin:$PATH" HOME="$PWD/$folder" "${usual[@]}"; done
        cp "$kit/bin/nvcc.profile" "$room/kit/bin/nvcc.profile" && touch -d '1 minute ago' "$room/kit/bin/nvcc.profile"
        whole '' PATH="$room/kit/bin:$PATH" HOME="$PWD/one" "${usual[@]}"
        whole whole PATH="$room/kit/bin:$PATH" HOME="$PWD/two" "${usual[@]}"
        end
    fi
    if case_of 'whole: folders'; then
        project
        source=$PWD
        local words=(-arch=sm_80 -I"$source/inc" -c "$source/k.cu" -o k.o)
        twice "${words[@]}"
        mkdir "$room/build" && cp cuda_runtime.h "$room/build" && cd "$room/build" || return
        whole '' "${words[@]}"
        rm cuda_runtime.h
        cd "$source" && rm cuda_runtime.h && twice "${words[@]}"
        cd "$room/build" || return
        whole whole "${words[@]}"
        whole '' "${words[@]}" -g
        cd "$source" && whole '' "${words[@]}" -g
        cp -r . "$room/other" && cd "$room/other" || return
        for words in '-Iinc -c k.cu' "-I$PWD/inc -c $PWD/k.cu"; do
            # shellcheck disable=SC2086 # several words
            whole '' -arch=sm_80 $words -o k.o
        done
        cd "$source" || return
        end
    fi
    if case_of 'whole: checkouts under a root'; then
        project
        mkdir -p "$room/one/sub" "$room/one/early" && cp -r . "$room/one/src" && ln -s ../src/inc "$room/one/sub/inc"
        for name in two 'a b'; do cp -r "$room/one" "$room/$name"; done
        ln -s two "$room/link"
        # under NAME WANTED [SETTING..] WORD..: makes a call in a checkout. @ is the checkout.
        under() {
            cd "$room/${1%%/*}/src" && rm -f k.d || return
            whole "$2" ZIGRUNK_ROOT="$room/$1" "${@:3}"
        }
        # called NAME WANTED WORD..: the usual call with whole paths and these words.
        called() { under "$1" "$2" -MD -MF k.d -arch=sm_80 "${@:3}" "-I$room/$1/early" "-I$room/$1/sub/inc" -c "$room/$1/src/k.cu" -o k.o; }
        called one '' && called one whole && called two whole
        called 'a b' '' && called link whole
        for name in one two; do under $name "$([ $name = one ] || echo whole)" -lineinfo -arch=sm_80 -I../sub/inc -c k.cu -o k.o; done
        under one/sub/.. whole -lineinfo -arch=sm_80 -I../sub/inc -c k.cu -o k.o
        under two/ whole -lineinfo -arch=sm_80 -I../sub/inc -c k.cu -o k.o
        called one '' -lineinfo && under two '' ZIGRUNK_ROOT="$room" -arch=sm_80 -I../sub/inc -c k.cu -o k.o
        # a header that differs in the other checkout, one that is only there, a link that leads elsewhere
        echo '#define SIZE 64' > "$room/two/src/inc/size.h" && called two '' && called one whole
        cp "$room/one/src/inc/size.h" "$room/two/src/inc" && called two whole
        cp "$room/one/src/inc/size.h" "$room/two/early" && called two '' && rm "$room/two/early/size.h" && called one '' && called two whole
        ln -sfn "$room/one/src/inc" "$room/two/sub/inc" && called two ''
        # a message names the lines of this text, and the product is rooted
        echo 'int narrow(double value) { return value; }' >> "$room/one/src/k.cu" && called one '' -Xcompiler -Wconversion
        sed -i '1i // a line' "$room/one/src/k.cu" && called one '' -Xcompiler -Wconversion
        same 'a message' "$(grep -c 'one/src/k.cu:8:' "$room/err")" 1
        cp "$room/two/src/k.cu" "$room/one/src"
        # words and files that name a checkout reach products
        called one '' "-DTOP=$room/one" && called two '' "-DTOP=$room/one" && called two '' "-DTOP=$room/two"
        for name in one two; do sed -i "1i #include \"$room/one/src/inc/size.h\"" "$room/$name/src/k.cu"; done
        called one '' && called two ''
        for name in one two; do sed -i "1s,.*,#line 7 \"$room/two/src/named.cu\"," "$room/$name/src/k.cu"; done
        called one '' && called two ''
        cd "$room/work" || return
        end
    fi
    if case_of 'whole: a batch'; then
        project
        sed 's/return count/int never; return count/' k.cu > l.cu
        sed 's/= 4/= 5/' k.cu > m.cu
        printf 'nvcc -arch=sm_80 -Iinc %s\n' '-MD -MF k.d -c k.cu -o k.o' '-c l.cu -o l.o' '-c m.cu -o m.o' > list
        touch -d '1 minute ago' list ./*.cu
        batch
        same 'whole calls at first' "$(served_whole)" ''
        mkdir first && mv ./*.o k.d first && mv "$room/err" "$room/first.err"
        batch
        same 'whole calls' "$(served_whole)" 'k.cu l.cu m.cu'
        for product in k.o k.d l.o m.o; do same "$product" "$(cmp $product first/$product 2>&1)" ''; done
        same messages "$(grep -q never "$room/err" && echo told)$(cmp "$room/err" "$room/first.err" 2>&1)" told
        sed -i 's/= 5/= 6/' m.cu
        batch
        same 'whole calls after an edit' "$(served_whole)" 'k.cu l.cu'
        same 'another product' "$(cmp -s m.o first/m.o; echo $?)" 1
        batch ZIGRUNK_CALLS=0
        same 'whole calls with ZIGRUNK_CALLS=0' "$(served_whole)" ''
        call -arch=sm_80 -Iinc -c l.cu -o l.o
        same 'a call by itself' "$(commands true)" nvcc
        end
    fi
    if case_of 'whole: odd products'; then
        project
        twice "${usual[@]}"
        cp k.o first.o
        echo target > target && ln -sf target k.o
        call "${usual[@]}"
        same 'the target of a link' "$(cat target)" target
        rm k.o && ln first.o k.o && cp first.o copy.o
        call "${usual[@]}"
        same 'a file with two names' "$(stat -c %h first.o) $(cmp first.o copy.o 2>&1)" '1 '
        rm k.o && mkdir k.o
        call "${usual[@]}"
        same 'a folder' "$([ "$status" != 0 ] && [ -d k.o ] && echo kept)" kept
        end
    fi
}

toolkit_path=$PATH
for part in ${PARTS:-stand_ins late nvcc whole}; do
    case $part in
    stand_ins) export ZIGRUNK_LATE=0 ZIGRUNK_CALLS=0 && stand_ins ;;
    late) unset ZIGRUNK_LATE && export ZIGRUNK_CALLS=0 && PATH=$toolkit_path && late ;;
    nvcc) unset ZIGRUNK_LATE && export ZIGRUNK_CALLS=0 && PATH=$toolkit_path && real_calls ;;
    whole) unset ZIGRUNK_LATE ZIGRUNK_CALLS && PATH=$toolkit_path && whole_calls ;;
    esac
done
summary
