#!/usr/bin/env bash
# Tests of the compiled driver: its unit tests, and calls with stand-ins for nvcc and its tools (tests/driver/), with real nvcc if that is here.
# Prints a line for each case that fails, and last 'N passed, M failed'; the status is 1 if one failed.
#
#   tests/driver.sh [DRIVER]    DRIVER is zigrunk-driver in the folder target/release of a workspace; else this builds it in the one of `make rust`
#
# ONLY=TEXT runs the cases whose names have this text. PARTS="signals slots" runs these parts, of those in the last line but one. STOP_EARLY, if
# set, ends the run at the first failure.
# shellcheck disable=SC2016,SC2010,SC2012,SC2030,SC2031 # the stand-ins expand what cases give them, and cases in subshells note their problems
cd "$(dirname "$0")/.." || exit 1
. tests/lib.sh
trap 'kill $(jobs -p) 2> /dev/null; rm -rf "$scratch"' EXIT
require 'the driver' pgrep
unset NVCC_PREPEND_FLAGS NVCC_APPEND_FLAGS CDPATH MAKEFLAGS MFLAGS "${!ZIGRUNK@}"
# The stand-in for fatbinary writes no file for an assembler.
export ZIGRUNK_LATE=0
user=$(id -u)
shell=(driver)

# The crates that the program is made of by hand.
crates=(unix machine cache provenance runner report batch zigrunk-driver)

# unit: their unit tests, each as a case.
unit() {
    (cd "$workspace" && PATH=$usual_path cargo test --offline --no-fail-fast "${crates[@]/#/-p}" -- ${ONLY:+"$ONLY"}) > "$scratch/unit" 2>&1
    local good bad
    good=$(grep -c '^test .* \.\.\. ok$' "$scratch/unit") bad=$(grep -c '^test .* \.\.\. FAILED$' "$scratch/unit")
    [ $((good + bad)) -gt 0 ] || grep -q '; [1-9][0-9]* filtered out' "$scratch/unit" || { bad=1 && tail -n 20 "$scratch/unit"; }
    grep '^test .* FAILED$' "$scratch/unit"
    passed=$((passed + good)) failed=$((failed + bad))
}

# build: the driver, in the workspace of plain Rust.
build() {
    make -s rust-sources > "$scratch/built" 2>&1 || { tail -n 20 "$scratch/built"; count 'the workspace' failed; summary; exit 1; }
    check 'the driver builds' env -C out/rust cargo build --quiet --release --offline -p zigrunk-driver
    driver=$PWD/out/rust/target/release/zigrunk-driver
    [ -x "$driver" ] || { summary; exit 1; }
}

workspace=out/rust
if [ -n "${1-}" ]; then driver=$(realpath "$1") workspace=${driver%/target/*}; else require 'the driver' cargo; build; fi
data=$PWD/tests/drivers/test_plans/data/dry_runs manual=$PWD/man
stand_ins=$PWD/tests/driver

# The toolkit of the stand-ins.
export CUDA=$scratch/cuda DATA=$data
mkdir -p "$CUDA/bin" "$CUDA/nvvm/bin" "$scratch/bin"
# (only gcc itself compiles in two halves, so this one is a program)
export STAND_IN=$stand_ins/tool
cc -O1 -o "$CUDA/bin/gcc" tests/driver_cache/program.c || exit 1
for tool in cudafe++ ptxas fatbinary; do ln -s "$stand_ins/tool" "$CUDA/bin/$tool"; done
ln -s "$stand_ins/tool" "$CUDA/nvvm/bin/cicc"
ln -s "$stand_ins/nvcc" "$CUDA/bin/nvcc"
cp "$driver" "$scratch/bin/zigrunk-nvcc"
ln -s zigrunk-nvcc "$scratch/bin/zigrunk"
nvcc_driver=$scratch/bin/zigrunk-nvcc
usual_path=$PATH
export PATH=$CUDA/bin:$PATH
plain=(ZIGRUNK_EXPLAIN=1 NVCC_STATUS=5)
# By how much a busy machine may be slower than an idle one: a limit of so many seconds on an idle one is so many times longer.
patience=${PATIENCE:-6}
# What a tool does that waits until the test lets it go on.
waits='[ "$name" != cudafe++ ] || until [ -e "$LOG.go" ]; do sleep 0.05; done'

# case_of NAME: begins a case, if it is one of those to run.
case_of() {
    is_wanted "$1" || return 1
    room=$scratch/room
    begin "$1"
    mkdir "$room/run" && chmod 700 "$room/run"
    : > k.cu
}

# call [NAME=VALUE..] WORD..: runs the driver with these variables and words.
call() {
    local settings=()
    while [[ ${1-} == *=* ]]; do settings+=("$1") && shift; done
    : > "$room/log"
    timeout $((60 * patience)) env LOG="$room/log" TMPDIR="$room/tmp" XDG_RUNTIME_DIR="$room/run" "${settings[@]}" "${as:-$nvcc_driver}" "$@" > "$room/out" 2> "$room/err"
    status=$?
}

# start [NAME=VALUE..] WORD..: the same in the background, with the signals as a user's shell leaves them.
start() {
    local settings=()
    while [[ ${1-} == *=* ]]; do settings+=("$1") && shift; done
    : > "$room/log"
    env --default-signal=HUP,INT,TERM LOG="$room/log" TMPDIR="$room/tmp" XDG_RUNTIME_DIR="$room/run" "${settings[@]}" ${before+"${before[@]}"} "$nvcc_driver" "$@" > "$room/out" 2> "$room/err" &
    process=$!
}

# within SECONDS COMMAND..: waits until the command succeeds, and fails if it takes longer than so many seconds of an idle machine.
within() {
    local last=$((SECONDS + $1 * patience))
    until "${@:2}"; do
        [ "$SECONDS" -le "$last" ] || return
        sleep 0.02
    done
}
has_begun() { grep -q "^+ $1" "$room/log"; }
# waits_for_cudafe: whether cudafe++ alone still runs of a call that $waits holds up.
waits_for_cudafe() { has_begun cudafe++ && [ "$(grep -c '^- ptxas' "$room/log")" = 2 ]; }
none_run() { [ -z "$(running "$room")" ]; }
# has_guard: whether the call has its guard, which is $guard then.
has_guard() { guard=$(pgrep -P "$process" -f zigrunk-nvcc | head -n 1) && [ -n "$guard" ]; }

has_ended() { [[ $(cut -d ' ' -f 3 "/proc/$process/stat" 2> /dev/null) != [A-Ya-y] ]]; }

# ended STATUS: a problem, unless the driver ends within eight seconds of an idle machine, with this status.
ended() {
    # (the shell would say by which signal it ended)
    { within 8 has_ended || { problems+='  it ends late'$'\n'; kill -KILL "$process"; }; wait "$process"; } 2> /dev/null
    local ended=$?
    same status "$ended" "$1"
    [ "$ended" = "$1" ] || problems+="  it says: $(head -c 500 "$room/err")"$'\n'
    within 5 none_run || problems+="  processes: $(shown "$room")"$'\n'
}

# end: counts the case. Nothing stays but the user's folder and the slots.
end() {
    same 'files left' "$(cd "$room/tmp" && find . -mindepth 2; cd "$room/tmp" && ls -A | grep -vx "zigrunk-$user")" ''
    same 'calls that wait' "$(find "$room/run" -name 'wait-*')" ''
    end_case
}

# by_nvcc REASON: a problem, unless nvcc itself made the call, with the status 5, for this reason.
by_nvcc() {
    same status "$status" 5
    same output "$(cat "$room/out")" 'nvcc sees: '
    same messages "$(cat "$room/err")" "zigrunk-nvcc: nvcc itself: $1"$'\nnvcc says'
}

# with_few_files N [NAME=VALUE..]: a call that may have N open files. Prints its status.
with_few_files() (
    limit_files "$1"
    call "${@:2}" -c k.cu -o k.o
    echo "$status"
)

# stamps: when the slots in use and those who wait for one were last touched, in seconds.
stamps() { find "$slot_folder" \( -type f -o -name 'wait-*' \) -printf '%f %Ts\n' | sort; }

# splits [WHAT]: a problem, unless the last call was split and said nothing.
splits() {
    same "status and messages${1:+ $1}" "$status$(cat "$room/out" "$room/err")" 0
    same "commands${1:+ $1}" "$(grep -c '^+' "$room/log")" 10
}

# A tool notes where it runs, and the directory of the file that its last word names: the call's, if the file is generated.
notes='pwd > "$LOG.in.$name"; eval "last=\${$#}"; case $last in /*) echo "${last%/*}" ;; *) pwd ;; esac > "$LOG.$name"; echo "$TMPDIR" > "$LOG.tmp"'

end_to_end() {
    if case_of 'a call that is split'; then
        call -c k.cu -o k.o
        splits
        same 'dry runs' "$(grep -c '^nvcc \[--dryrun\] \[-c\] \[k.cu\] \[-o\] \[k.o\]$' "$room/log") $(grep -c '^nvcc \[-x\] \[cu\].*\[--keep-dir\].*\[--dryrun\]' "$room/log") $(grep -c '^nvcc' "$room/log")" '1 1 2'
        same product "$(cat k.o)" made
        end
    fi
    if case_of 'the program by its own name'; then
        as=$driver call nvcc -c k.cu -o k.o
        splits
        for words in odd '' 'odd nvcc'; do
            # shellcheck disable=SC2086 # several words, or none
            as=$driver call $words
            same "status and usage with '$words'" "$status $(tail -n 1 "$room/err")" '2 usage: zigrunk nvcc|plan|batch|report|why|cache|audit|check-node|help WORD..'
        done
        end
    fi
    if case_of 'no guard is left when a call ends'; then
        for _ in 1 2 3; do
            call -c k.cu -o k.o
            same processes "$(pgrep -f "^$nvcc_driver")" ''
        done
        end
    fi
    if case_of 'where commands run'; then
        call TOOL_DOES="$notes" -c k.cu -o k.o
        same 'all of them' "$(cat "$room"/log.in.* | sort -u)" "$room/work"
        same 'generated files' "$(sed 's/[0-9a-f]\{64\}$/NAME/' "$room/log.cicc.80")" "$room/tmp/zigrunk-$user/zigrunk-NAME"
        same 'TMPDIR of commands' "$(cat "$room/log.tmp")" "$(cat "$room/log.cicc.80")/zigrunk.tmp"
        same 'mode' "$(stat -c %a "$room/tmp/zigrunk-$user")" 700
        call ZIGRUNK_LAUNCHER=env TOOL_DOES="$notes" -c k.cu -o k.o
        same 'with a launcher' "$(cat "$room/log.in.gcc-c" "$room/log.in.cicc.80")" "$room/work"$'\n'"$(cat "$room/log.cicc.80")"
        same 'its generated files' "$(grep -c "^$room/tmp/zigrunk-$user/" "$room/log.cicc.80")" 1
        end
    fi
    if case_of 'the working directory has its name in PWD'; then
        ln -s "$room/work" "$room/link" && cd "$room/link" || return
        call TOOL_DOES='[ "$name" != gcc-c ] || echo "$PWD" > "$LOG.pwd"' -c k.cu -o k.o
        same PWD "$(cat "$room/log.pwd")" "$room/link"
        end
    fi
    if case_of 'ZIGRUNK_TMP, and launchers with a server'; then
        mkdir "$room/shared"
        call ZIGRUNK_TMP="$room/shared" TOOL_DOES="$notes" -c k.cu -o k.o
        same 'TMPDIR' "$(grep -c "^$room/shared/zigrunk-$user/.*/zigrunk.tmp$" "$room/log.tmp") $(grep -c "^$room/shared/zigrunk-$user/" "$room/log.cicc.80")" '1 1'
        printf '%s\n' '#!/bin/sh' 'exec "$@"' > "$room/runner" && chmod +x "$room/runner"
        call ZIGRUNK_TMP="$room/shared" ZIGRUNK_RUNNER="$room/runner" TMPDIR= TOOL_DOES="$notes" -c k.cu -o k.o
        same 'TMPDIR of a runner, without one' "$(cat "$room/log.tmp")" /tmp
        printf '%s\n' '#!/bin/sh' 'echo "launcher ${1##*/}" >> "$LOG"; exec "$@"' > "$room/sccache" && chmod +x "$room/sccache"
        call ZIGRUNK_LAUNCHER="$room/sccache" TOOL_DOES="$notes" -c k.cu -o k.o
        same 'with sccache' "$(cat "$room/log.tmp") $(grep -c '^launcher' "$room/log")" "$room/tmp 6"
        cp "$room/sccache" "$room/cache"
        call ZIGRUNK_LAUNCHER="$room/cache" TOOL_DOES="$notes" -c k.cu -o k.o
        same 'with another one' "$(grep -c 'zigrunk.tmp$' "$room/log.tmp")" 1
        end
    fi
    if case_of 'which commands the launcher runs'; then
        printf '%s\n' '#!/bin/sh' 'echo "launcher ${1##*/}" >> "$LOG"; exec "$@"' > "$room/cache" && chmod +x "$room/cache"
        while IFS=: read -r kinds wanted; do
            call ZIGRUNK_LAUNCHER="$room/cache" ZIGRUNK_LAUNCHED="$kinds" -c k.cu -o k.o
            same "with '$kinds'" "$(sed -n 's/^launcher //p' "$room/log" | sort | uniq -c | tr -s ' \n' ' ')" "$wanted"
        done << 'ROWS'
: 2 cicc 1 cudafe++ 1 gcc 2 ptxas 
-E cudafe++ cicc ptxas -c: 2 cicc 1 cudafe++ 4 gcc 2 ptxas 
cicc: 2 cicc 
fatbinary: 1 fatbinary 
none:
ROWS
        end
    fi
    if case_of 'a launcher that refuses'; then
        printf '%s\n' '#!/bin/sh' 'case $1 in */cicc | */cudafe++) echo "sccache: error: Compiler not supported: odd" >&2; exit 2 ;; esac' 'exec "$@"' > "$room/cache" && chmod +x "$room/cache"
        call ZIGRUNK_LAUNCHER="$room/cache" -c k.cu -o k.o
        same 'status and product' "$status $(cat k.o)" '0 made'
        same 'what is said' "$(sort "$room/err" | sed "s,$room,ROOM,")" "$(printf "zigrunk-nvcc: ROOM/cache doesn't take %s, which runs without it\n" 'cicc' 'cudafe++')"
        end
    fi
    if case_of 'what a cache had'; then
        printf '%s\n' '#!/bin/sh' 'case $1 in *cicc) echo direct_cache_hit ;; *ptxas) echo cache_miss ;; esac >> "$CCACHE_STATSLOG"' 'exec "$@"' > "$room/cache" && chmod +x "$room/cache"
        call ZIGRUNK_LAUNCHER="$room/cache" ZIGRUNK_LOG="$room/calls" -c k.cu -o k.o
        same 'hits' "$status $(tr '{' '\n' < "$room/calls" | sed -n 's/.*kind":"\([a-z+]*\).*hit":\([a-z]*\).*/\1 \2/p' | sort | uniq -c | tr -s ' \n' ' ')" '0  2 cicc true 2 ptxas false '
        same 'the report' "$("${nvcc_driver%-nvcc}" report "$room/calls" | grep hits)" 'hits: 2 of 4 (50 %)'
        printf '%s\n' '#!/bin/sh' 'if [ "$1" = --show-stats ]; then' 'echo "{\"stats\":{\"cache_hits\":{\"counts\":{\"CUDA\":4}},\"cache_misses\":{\"counts\":{\"PTX\":$(wc -l < "$LOG.asked")}}}}"' \
            exit 'fi' 'echo >> "$LOG.asked"' 'exec "$@"' > "$room/sccache" && chmod +x "$room/sccache"
        : > "$room/log.asked"
        call ZIGRUNK_LAUNCHER="$room/sccache" ZIGRUNK_LOG="$room/counted" -c k.cu -o k.o
        same 'what sccache counted' "$status $(grep -o '"counted":[^]]*' "$room/counted")" '0 "counted":[4,0,4,6'
        same 'its report' "$("${nvcc_driver%-nvcc}" report "$room/counted" | grep hits)" 'hits: 0 of 6 (0 %)'
        end
    fi
    if case_of 'a runner'; then
        call ZIGRUNK_RUNNER='env RAN=yes' TOOL_DOES='echo "$RAN" >> "$LOG.ran"' -c k.cu -o k.o
        same 'commands that it ran' "$status$(sort "$room/log.ran" | uniq -c | tr -s ' ')" '0 10 yes'
        call "${plain[@]}" ZIGRUNK_RUNNER='env RAN=yes' NVCC_DOES='echo "$RAN"' k.cu
        same 'nvcc too' "$(tail -n 1 "$room/out")" yes
        end
    fi
}

folders() {
    if case_of 'no TMPDIR, and odd forms of one'; then
        mkdir tmp
        while IFS=: read -r form where; do
            call TMPDIR="${form//ROOM/$room}" TOOL_DOES="$notes" -c k.cu -o k.o
            splits "with $form"
            same "where with $form" "$(sed 's,/zigrunk-[0-9]*/.*,,' "$room/log.cicc.80")" "${where//ROOM/$room}"
        done << 'ROWS'
:/tmp
tmp:ROOM/work/tmp
ROOM/tmp/:ROOM/tmp
ROOM//tmp:ROOM/tmp
ROOM/./tmp:ROOM/tmp
ROOM/work/../tmp:ROOM/tmp
./../tmp:ROOM/tmp
ROWS
        end
    fi
    if case_of 'a TMPDIR by a link and back'; then
        mkdir -p a "$room/other/below" "$room/other/t"
        ln -s "$room/other/below" a/link
        for form in a/link/../t "$room/work/a/link/../t"; do
            call TMPDIR="$form" TOOL_DOES="$notes" -c k.cu -o k.o
            splits "with $form"
            same "where with $form" "$(sed 's,/zigrunk-[0-9]*/.*,,' "$room/log.cicc.80")" "$room/other/t"
            # the same again, beside a directory that the text alone would mean
            mkdir -p a/t
        done
        same 'files in the other' "$(ls -A a/t)" ''
        end
    fi
    if case_of 'zigrunk cache without a folder'; then
        for word in stats clear limit; do
            status=$(env -u HOME -u XDG_CACHE_HOME "$scratch/bin/zigrunk" cache $word > "$room/out" 2>&1; echo $?)
            same "status and messages of $word" "$status $(cat "$room/out")" '1 zigrunk cache: there is no folder: set ZIGRUNK_CACHE'
        done
        end
    fi
    if case_of 'a TMPDIR that is missing'; then
        call "${plain[@]}" TMPDIR="$room/missing" -c k.cu -o k.o
        same 'status and reason' "$status $(head -n 1 "$room/err")" '5 zigrunk-nvcc: nvcc itself: no temporary directory'
        end
    fi
    if case_of 'the user'"'"'s folder is not the user'"'"'s alone'; then
        base=$room/tmp/zigrunk-$user
        for way in 'chmod 755 $base' 'chmod 770 $base' 'rmdir $base; mkdir -m 700 $base.x; ln -s $base.x $base' 'rmdir $base; : > $base' 'chown 12345 $base'; do
            [[ $way != chown* || $user == 0 ]] || continue
            rm -rf "$base" "$base.x" && mkdir -m 700 "$base" && eval "$way"
            call TOOL_DOES="$notes" -c k.cu -o k.o
            cat "$room/err" >> "$room/errs"
            : > "$room/err"
            splits "with $way"
            same "where with $way" "$(grep -c "^$room/tmp/zigrunk\.......\$" "$room/log.cicc.80")" 1
        done
        same 'messages of one day' "$(sed "s,$base,BASE," "$room/errs")" 'zigrunk-nvcc: cannot use BASE, so temporary directories have random names: its mode is 755, not 700'
        touch -d '2 days ago' "$room/run/zigrunk-$user/said-folder"
        rm -rf "$base" && : > "$base"
        for _ in 1 2; do call -c k.cu -o k.o; cat "$room/err"; done > "$room/errs"
        same 'messages of another day' "$(sed "s,$base,BASE," "$room/errs")" 'zigrunk-nvcc: cannot use BASE, so temporary directories have random names: it is no folder'
        rm -rf "$base" "$base.x"
        end
    fi
    if case_of 'two equal calls at once, and the next one'; then
        start TOOL_DOES="$notes; $waits" -c k.cu -o k.o
        within 20 waits_for_cudafe
        cp "$room/log" "$room/log.first"
        call TOOL_DOES="$notes" -c k.cu -o k.o
        splits
        same 'where' "$(sed 's/.*-//' "$room/log.cicc.80")" 2
        : > "$room/log.go"
        ended 0
        call TOOL_DOES="$notes" -c k.cu -o k.o
        same 'where' "$(sed 's/.*zigrunk-[0-9a-f]*//' "$room/log.cicc.80")" ''
        end
    fi
    if case_of 'many equal calls at once'; then
        call TOOL_DOES="$notes" -c k.cu -o k.o
        base=$(cat "$room/log.cicc.80") locks=()
        for number in $(seq 64); do
            [ "$number" != 1 ] || number=''
            exec {lock}> "$base${number:+-$number}.lock" && flock "$lock" && locks+=("$lock")
            case $number in 63 | 64) call ZIGRUNK_LOG="$room/calls" TOOL_DOES="$notes" -c k.cu -o k.o; splits "$number"; sed "s,^$base,," "$room/log.cicc.80" >> "$room/places" ;; esac
        done
        same 'where' "$(sed 's,/zigrunk\.[0-9a-f]\{6\}$,/RANDOM,; s,^.*/RANDOM,RANDOM,' "$room/places" | paste -sd ' ')" '-64 RANDOM'
        same 'the hint' "$(grep '^{"hint"' "$room/calls")" '{"hint":"make zigrunk-UID below TMPDIR yours alone, with mode 700: the same call then always has the same directory"}'
        for lock in "${locks[@]}"; do exec {lock}>&-; done
        rm -f "$base"*.lock
        end
    fi
    if case_of 'what killed calls left long ago goes, and nothing else'; then
        base=$room/tmp/zigrunk-$user
        mkdir -m 700 "$base"
        for name in old young held; do mkdir "$base/zigrunk-$name" && : > "$base/zigrunk-$name/file" && : > "$base/zigrunk-$name.lock"; done
        mkdir "$base/unlocked"
        touch -d '11 minutes ago' "$base"/*
        touch -d '9 minutes ago' "$base/zigrunk-young.lock"
        exec 5< "$base/zigrunk-held.lock" && flock 5
        call -c k.cu -o k.o
        splits
        same 'what stays' "$(ls "$base" | paste -sd ' ')" 'unlocked zigrunk-held zigrunk-held.lock zigrunk-young zigrunk-young.lock'
        exec 5<&-
        rm -rf "${base:?}"/*
        end
    fi
    if case_of 'the call is killed'; then
        start TOOL_DOES='[ "$name" != cudafe++ ] || sleep 300' -c k.cu -o k.o
        within 20 has_begun cudafe++
        kill -KILL "$process"
        ended 137
        same 'directories' "$(within 5 eval '[ -z "$(ls "$room/tmp/zigrunk-$user")" ]'; ls "$room/tmp/zigrunk-$user")" ''
        call -c k.cu -o k.o
        splits
        end
    fi
    if case_of 'the call and its guard are killed'; then
        start CHILDLESS=1 TOOL_DOES='[ "$name" != cudafe++ ] || exec sleep 300' -c k.cu -o k.o
        within 20 has_begun cudafe++
        within 20 has_guard
        kill -KILL "$guard" "$process"
        ended 137
        call TOOL_DOES="$notes" -c k.cu -o k.o
        splits
        same 'where' "$(sed 's/.*zigrunk-[0-9a-f]*//' "$room/log.cicc.80")" ''
        end
    fi
    if case_of 'its directory vanishes'; then
        # Another command may write into the directory while it goes, so its path has to hold without a part of it.
        does='all=$(cd "$TMPDIR/../../.." && pwd); until rm -rf "$all"/zigrunk-* 2> /dev/null && [ ! -e "$TMPDIR" ]; do :; done'
        start "${plain[@]}" TOOL_DOES="[ \"\$name\" != cudafe++ ] || { $does; }" -c k.cu -o k.o
        within 20 has_begun cudafe++
        { wait "$process"; } 2> /dev/null
        status=$?
        same 'status and reason' "$status $(grep '^zigrunk' "$room/err")" '5 zigrunk-nvcc: nvcc itself: its temporary directory is gone'
        end
    fi
    if case_of 'few open files'; then
        status=$(inherit 40 with_few_files 16 "${plain[@]}")
        by_nvcc 'it may open too few files'
        status=$(inherit 40 with_few_files 40)
        splits
        end
    fi
}

# A tool that notes the file that it reads late: what cicc has of cudafe++, or the last host compile of cicc. A tool of $EARLY begins beside the one
# that it waits for, which waits for it here.
reads='for word; do
    case $name,$last,$word in
    cicc.*,--module_id_file_name,*) echo "$word" | sed "s,.*/,,; s,[0-9]*$,," > "$LOG.name.$name" && cat "$word" > "$LOG.read.$name" ;;
    gcc-S,*,*.cudafe1.cpp) cat "${word%.cpp}.stub.c" > "$LOG.read.$name" ;;
    esac
    last=$word
done; last=""'
begins='tries=0; until grep -q "^+ $EARLY" "$LOG"; do tries=$((tries + 1)); [ "$tries" -lt 600 ] || exit 9; sleep 0.05; done'

early_starts() {
    if case_of 'cicc begins beside cudafe++'; then
        call ZIGRUNK_SLOTS=8 EARLY=cicc.80 TOOL_DOES="[ \"\$name\" != cudafe++ ] || { $begins; }; $reads" -c k.cu -o k.o
        splits
        same 'what it reads, of which name' "$(cat "$room"/log.read.* "$room/log.name.cicc.80" | paste -sd ' ')" 'made made module_id.'
        same 'the command as it begins late' "$(grep -c '^+ cicc' "$room/log")" 2
        call ZIGRUNK_SLOTS=8 ZIGRUNK_CACHE="$room/entries" EARLY=cicc.80 TOOL_DOES="[ \"\$name\" != cudafe++ ] || { $begins; }; $reads" -c k.cu -o k.o
        same 'status and messages with the cache' "$status$(cat "$room/err")" 0
        for settings in ZIGRUNK_EARLY=0 ZIGRUNK_SLOTS=1 ZIGRUNK_LAUNCHER=env ZIGRUNK_RUNNER=env; do
            call ZIGRUNK_SLOTS=8 "$settings" TOOL_DOES="[ \"\$name\" != cudafe++ ] || sleep 0.3; $reads" -c k.cu -o k.o
            same "status and messages with $settings" "$status$(cat "$room/err")" 0
            same "what begins early with $settings" "$(sed '/^- cudafe/,$d' "$room/log" | grep -c '^+ cicc')" 0
        done
        end
    fi
    if case_of 'cudafe++ fails, and cicc has begun'; then
        call ZIGRUNK_SLOTS=8 EARLY=cicc.80 TOOL_DOES="[ \"\$name\" != cudafe++ ] || { $begins; exit 5; }; $reads" -c k.cu -o k.o
        same 'status and what ended' "$status $(grep -c '^- cicc' "$room/log")" '5 0'
        within 5 none_run || problems+="  processes: $(shown "$room")"$'\n'
        end
    fi
    if case_of 'cicc has begun, and cudafe++ writes nothing for it'; then
        call ZIGRUNK_SLOTS=8 EARLY=cicc.80 TOOL_DOES="case \$name in cudafe++) $begins; echo '- cudafe++' >> \"\$LOG\"; exit ;; esac" -c k.cu -o k.o
        same 'status, and the command as it begins late' "$status $(sed '1,/^- cudafe/d' "$room/log" | grep -c '^+ cicc.80')" '0 1'
        end
    fi
}

late_starts() {
    unset ZIGRUNK_LATE
    late=(ZIGRUNK_SLOTS=8 FATBIN="$stand_ins/fatbin.c")
    if case_of 'the last compile begins beside fatbinary'; then
        call "${late[@]}" EARLY=gcc-S TOOL_DOES="case \$name in fatbinary) $begins ;; gcc-c) cat \"\$TMPDIR/fatbin.s\" > \"\$LOG.assembled\" ;; esac; $reads" -c k.cu -o k.o
        same 'status, messages and product' "$status$(cat "$room/err" k.o)" 0made
        same 'commands' "$(grep '^+ gcc-[cS]' "$room/log" | paste -sd ' ') $(grep -c '^+' "$room/log")" '+ gcc-S + gcc-c 11'
        same 'what the assembler gets' "$(cat "$room/log.assembled")" $'.section .nv_fatbin, "a"\n.align 8\nfatbinData:\n.quad 0x0\n.text'
        same 'what the compiler includes' "$(sed "s,$room/tmp/.*/,TMP/," "$room/log.read.gcc-S")" $'made\n# 1 "TMP/kernel.compute_90.cudafe1.stub.c"'
        end
    fi
    if case_of 'the last compile begins beside cicc'; then
        call "${late[@]}" EARLY=gcc-S TOOL_DOES="case \$name in cicc.90) $begins ;; esac; $reads" -c k.cu -o k.o
        same 'status, messages and product' "$status$(cat "$room/err" k.o)" 0made
        same 'what the compiler includes' "$(sed "s,$room/tmp/.*/,TMP/," "$room/log.read.gcc-S")" $'made\n# 1 "TMP/kernel.compute_90.cudafe1.stub.c"'
        end
    fi
    if case_of 'the last compile waits for no alone'; then
        for value in '' 1 yes; do
            call "${late[@]}" ZIGRUNK_LATE="$value" TOOL_DOES="$reads" -c k.cu -o k.o
            same "status, messages and product with '$value'" "$status$(cat "$room/err" k.o)" 0made
            same "what begins with '$value'" "$(grep -c '^+ gcc-S' "$room/log") $(grep -c '^+ gcc-c' "$room/log")" '1 1'
        done
        end
    fi
    if case_of 'the last compile waits'; then
        for settings in ZIGRUNK_LATE=0 GCC_COMPARE_DEBUG= ZIGRUNK_LAUNCHER=env ZIGRUNK_RUNNER=env; do
            call "${late[@]}" "$settings" TOOL_DOES="$reads" -c k.cu -o k.o
            same "status, messages and product with $settings" "$status$(cat "$room/err" k.o)" 0made
            same "what begins with $settings" "$(grep -c '^+ gcc-S' "$room/log") $(grep -c '^+ gcc-c' "$room/log")" '0 1'
        done
        call "${late[@]}" ZIGRUNK_CACHE="$room/entries" TOOL_DOES="$reads" -c k.cu -o k.o
        same 'what begins with the cache' "$(grep -c '^+ gcc-S' "$room/log") $(grep -c '^+ gcc-c' "$room/log")" '1 1'
        call "${late[@]}" TOOL_DOES="$reads" --keep -c k.cu -o k.o
        splits 'with --keep'
        rm -f kernel.*
        end
    fi
    if case_of 'an assembler that says something'; then
        call "${late[@]}" "${plain[@]}" TOOL_DOES="[ \$name != gcc-c ] || echo odd >&2; $reads" -c k.cu -o k.o
        same 'status, messages and product' "$status$(cat "$room/err" k.o)" $'0odd\nmade'
        same 'commands' "$(grep '^+ gcc-[cS]' "$room/log" | paste -sd ' ')" '+ gcc-S + gcc-c + gcc-c'
        call "${late[@]}" "${plain[@]}" FATBIN=/dev/null -c k.cu -o k.o
        by_nvcc "fatbinary's file has another form"
        end
    fi
    export ZIGRUNK_LATE=0
}

# with_name NAME [BODY]: an nvcc in the folder NAME of the case: a link to the driver, or a script.
with_name() {
    mkdir -p "$room/$1"
    if [ -n "${2-}" ]; then
        printf '%s\n' '#!/bin/sh' "$2" > "$room/$1/nvcc" && chmod +x "$room/$1/nvcc"
    else
        ln -s "$nvcc_driver" "$room/$1/nvcc"
    fi
}

compilers() {
    if case_of 'the first word'; then
        for compiler in my-compiler cross-nvcc nvcc-13.0; do cp "$stand_ins/nvcc" "$room/$compiler"; done
        while IFS=: read -r first wanted; do
            call "${plain[@]}" ZIGRUNK_NVCC="$room/my-compiler" "${first/ROOM/$room}" -E k.cu
            same "words with $first" "$(cat "$room/log")" "$wanted"
        done << 'ROWS'
ROOM/my-compiler:nvcc [-E] [k.cu]
ROOM/cross-nvcc:nvcc [-E] [k.cu]
ROOM/nvcc-13.0:nvcc [-E] [k.cu]
-Invcc:nvcc [-Invcc] [-E] [k.cu]
k.cu:nvcc [k.cu] [-E] [k.cu]
ROWS
        end
    fi
    if case_of 'installed as nvcc'; then
        with_name bin
        as=$room/bin/nvcc call PATH="$room/bin:$PATH" -c k.cu -o k.o
        splits 'by a link'
        as=$room/bin/nvcc call PATH="$room/bin:$PATH" "${plain[@]}" k.cu
        by_nvcc 'it links'
        call PATH="$room/bin:$PATH" -c k.cu -o k.o
        splits 'by its own name'
        call PATH="$room/bin:$PATH" "$room/bin/nvcc" -c k.cu -o k.o
        splits 'as a launcher'
        rm "$room/bin/nvcc" && cp "$nvcc_driver" "$room/bin/nvcc"
        as=nvcc call PATH="$room/bin:$PATH" -c k.cu -o k.o
        splits 'by a copy'
        end
    fi
    if case_of 'wrappers of it'; then
        with_name one "exec $nvcc_driver \"\$@\"" && with_name two "exec $nvcc_driver \"\$@\""
        for settings in "PATH=$room/one:$room/two:$PATH" "ZIGRUNK_NVCC=$room/one/nvcc"; do
            call "$settings" -c k.cu -o k.o
            splits "with $settings"
            call "$settings" "${plain[@]}" k.cu
            by_nvcc 'it links'
        done
        end
    fi
    if case_of 'an nvcc by a path from the working directory'; then
        mkdir sub && printf '%s\n' '#!/bin/sh' 'echo sub >> "$LOG"' "exec $stand_ins/nvcc \"\$@\"" > sub/nvcc && chmod +x sub/nvcc
        call ZIGRUNK_NVCC=sub/nvcc -c k.cu -o k.o
        splits
        same 'dry runs by it' "$(grep -c '^sub' "$room/log")" 2
        call "${plain[@]}" ZIGRUNK_NVCC=sub/nvcc k.cu
        by_nvcc 'it links'
        same 'calls by it' "$(grep -c '^sub' "$room/log")" 1
        call ZIGRUNK_NVCC=sub/missing -V
        same 'one that is missing' "$status $(cat "$room/err")" '127 zigrunk-nvcc: cannot run sub/missing: No such file or directory'
        end
    fi
    if case_of 'which nvcc is the next'; then
        with_name bin && with_name before 'echo before; exit 7' && with_name behind 'echo behind; exit 8'
        as=$room/bin/nvcc call PATH="$room/before:$room/bin:$room/behind:/usr/bin:/bin" -V
        same 'behind its own place' "$status $(cat "$room/out")" '8 behind'
        as=$room/bin/nvcc call PATH="$room/before:$room/bin:$room/bin" -V
        same 'before it, if none is behind' "$status $(cat "$room/out")" '7 before'
        as=$room/bin/nvcc call PATH="$room/bin" -V
        same 'none' "$status $(cat "$room/err")" '127 zigrunk-nvcc: nvcc is zigrunk-nvcc itself, and PATH has no other nvcc'
        call ZIGRUNK_NVCC="$room/missing" -V
        same 'no nvcc' "$status $(cat "$room/err")" "127 zigrunk-nvcc: cannot run $room/missing: No such file or directory"
        as=$scratch/bin/zigrunk call ZIGRUNK_NVCC="$room/missing" nvcc -V
        same 'for the other name' "$status $(cat "$room/err")" "127 zigrunk nvcc: cannot run $room/missing: No such file or directory"
        call ZIGRUNK_NVCC="$room/missing" ZIGRUNK_RUNNER='echo by' -V
        same 'by the runner' "$status $(cat "$room/out" "$room/err")" "0 by $room/missing -V"
        end
    fi
}

to_nvcc() {
    while IFS=: read -r words reason; do
        case_of "nvcc makes a call with $words" || continue
        # shellcheck disable=SC2086 # several words
        call "${plain[@]}" $words
        by_nvcc "$reason"
        same 'no dry run' "$(grep -c dryrun "$room/log")" 0
        end
    done << 'ROWS'
-E k.cu -o k.ii:its phase isn't split
k.cu --preprocess:its phase isn't split
-V:it prints something
-c k.cu --version:it prints something
k.cu:it links
-c a.cu b.cu:it names several inputs
-c -Wall k.cu:an option is unknown
--keep --keep-dir missing -c k.cu -o k.o:the keep directory is missing
--keep --keep-dir k.cu -c k.cu -o k.o:the keep directory is missing
-MD -MF /dev/stderr -c k.cu -o k.o:its dependency file is standard error
-MD -MF /proc/self/fd/2 -c k.cu -o k.o:its dependency file is standard error
-x cu -c /dev/stdin -o k.o:it uses an open file
-Xcompiler -include,/dev/fd/0 -c k.cu -o k.o:it uses an open file
ROWS
    if case_of 'no explanation'; then
        call NVCC_STATUS=5 k.cu
        same 'status and messages' "$status $(cat "$room/err")" '5 nvcc says'
        end
    fi
    if case_of 'a word that is not UTF-8'; then
        call "${plain[@]}" -c k.cu -o $'k\xff.o'
        by_nvcc "a word isn't UTF-8"
        end
    fi
    for variable in DEPENDENCIES_OUTPUT SUNPRO_DEPENDENCIES; do
        case_of "nvcc makes a call with $variable" || continue
        call "${plain[@]}" "$variable=d.txt" -c k.cu -o k.o
        by_nvcc 'a variable has gcc write dependencies'
        end
    done
    if case_of 'the words of variables, which nvcc gets once'; then
        call NVCC_PREPEND_FLAGS='-DA  -DB' NVCC_APPEND_FLAGS=' -DC' OWN_DOES='echo "${NVCC_PREPEND_FLAGS-none} ${NVCC_APPEND_FLAGS-none}" > "$LOG.flags"' -c k.cu -o k.o
        splits
        same words "$(grep -c '^nvcc \[--dryrun\] \[-DA\] \[-DB\] \[-c\] \[k.cu\] \[-o\] \[k.o\] \[-DC\]$' "$room/log") $(cat "$room/log.flags")" '1 none none'
        end
    fi
    if case_of 'no working directory'; then
        mkdir gone && cd gone && rmdir "$room/work/gone"
        call "${plain[@]}" -c k.cu -o k.o
        same reason "$(head -n 1 "$room/err")" 'zigrunk-nvcc: nvcc itself: there is no working directory'
        as=$scratch/bin/zigrunk call plan json nvcc -c k.cu -o k.o
        same 'of a plan' "$status $(cat "$room/err")" '1 zigrunk plan: there is no working directory'
        cd "$room/work" || return
        end
    fi
    if case_of 'a temporary directory that is not UTF-8'; then
        odd=$room/tmp/$'t\xff'
        mkdir "$odd"
        call "${plain[@]}" TMPDIR="$odd" -c k.cu -o k.o
        same reason "$(head -n 1 "$room/err")" "zigrunk-nvcc: nvcc itself: the temporary directory isn't UTF-8"
        as=$scratch/bin/zigrunk call TMPDIR="$odd" plan json nvcc -c k.cu -o k.o
        same 'of a plan' "$status $(cat "$room/err")" "1 zigrunk plan: the temporary directory isn't UTF-8"
        rmdir "$odd/zigrunk-$user" "$odd"
        end
    fi
    while IFS='|' read -r refused reason; do
        case_of "the kernel refuses $refused" || continue
        if command -v strace > /dev/null; then
            # (how often a call reads before depends on the machine's control groups)
            if [[ $refused = *when=SAID* ]]; then
                (before=(strace -D -o "$room/trace" -e trace=pread64); start DRY_RUN_DOES='sleep 0.2' -c k.cu -o k.o; ended 0)
                said_at=$(grep -n '^pread64([0-9]*, "#\$ ' "$room/trace" | head -n 1 | cut -d : -f 1)
                refused=${refused/SAID..1006/${said_at:-1}..$((${said_at:-1} + 1000))}
                refused=${refused/SAID/${said_at:-1}}
            fi
            (before=(strace -D -o "$room/trace" -e "trace=${refused%%:*}" -e "inject=$refused"); start "${plain[@]}" DRY_RUN_DOES='sleep 0.2' -c k.cu -o k.o; ended 5; echo "$problems" > "$room/problems")
            same 'in the case' "$(cat "$room/problems")" ''
            same reason "$(grep zigrunk-nvcc "$room/err")" "zigrunk-nvcc: $reason"
        fi
        end
    done << 'ROWS'
signalfd4:error=EMFILE|nvcc itself: no signals for the call
clone:error=EAGAIN:when=1|nvcc itself: no process for a dry run
clone:error=EAGAIN:when=3|nvcc itself: no process for the call
mkdir:error=ENOSPC|nvcc itself: no room for temporary files
pread64:error=EINTR:when=SAID..1006|nvcc itself: what a command said is lost: Interrupted system call (os error 4)
pread64:error=EIO:when=SAID|nvcc itself: what a command said is lost: Input/output error (os error 5)
wait4:error=EINVAL:when=1|nvcc itself: the end of a command is unknown: Invalid argument (os error 22)
ROWS
    while IFS='|' read -r what reason settings; do
        case_of "dry runs: $what" || continue
        eval "call \"\${plain[@]}\" $settings -c k.cu -o k.o"
        by_nvcc "$reason"
        end
    done << 'ROWS'
the own one fails|a dry run fails|OWN_STATUS=1 WARNING=said
the kept one fails|a dry run fails|KEPT_STATUS=1
other commands|nvcc reads the line otherwise|OWN_FORM='s,-arch=sm_80,-arch=sm_86,'
another command|nvcc reads the line otherwise|OWN_DOES='echo "#\$ ptxas k.ptx" >&2'
a preprocessor more|nvcc reads the line otherwise|OWN_DOES='echo "#\$ gcc -E k.cu -o \"k.cpp4.ii\" " >&2'
the host compiler writes a dependency file|several preprocessors may write one file|OWN_FORM='s,-D__CUDACC__,-MD -MF x.d &,' KEPT_FORM='s,-D__CUDACC__,-MD -MF x.d &,'
it fails for several threads, and for one|a dry run fails|OWN_STATUS=1 WARNING='Could not open input file /tmp/tmpxft_00a1-10_8ed_stdout'
ROWS
    while IFS='|' read -r what dry_runs settings; do
        case_of "dry runs: $what" || continue
        eval "call $settings -c k.cu -o k.o"
        splits
        same 'dry runs' "$(grep -c dryrun "$room/log")" "$dry_runs"
        end
    done << 'ROWS'
names of temporary files|2|OWN_FORM='s,"kernel\.,"/tmp/tmpxft_00a1_0000-13_kernel.,g'
another order and blanks|2|OWN_FORM='1!G; h; $!d; s/$/  /'
files that are removed|2|OWN_DOES='echo "#\$ rm /tmp/tmpxft_00a1_0000-3_k.fatbin" >&2'
the kept one has another word|3|KEPT_FORM='/ptxas/s, -m64 , -m64 --kept ,'
ROWS
    if case_of 'dry runs: several threads, with an old nvcc'; then
        call WARNING=$'a warning\nnvcc fatal   : Could not open input file /tmp/tmpxft_00a1-10_8ed_stdout' \
            OWN_DOES='case $* in *" --threads 1") WARNING="" ;; *) OWN_STATUS=1 ;; esac' -t2 -c k.cu -o k.o
        same 'status and messages' "$status$(cat "$room/err")" '0a warning'
        same words "$(grep -c '^nvcc \[--dryrun\] \[-t2\] \[-c\] \[k.cu\] \[-o\] \[k.o\] \[--threads\] \[1\]$' "$room/log")" 1
        end
    fi
}

outputs() {
    if case_of 'a call that waits takes no time of a processor'; then
        TIMEFORMAT='%U %S'
        { time call TOOL_DOES='[ "$name" != cudafe++ ] || sleep 3' -c k.cu -o k.o; } 2> "$room/times"
        splits
        same 'less than 1.5 s' "$(awk '{ print ($1 + $2 < 1.5) }' "$room/times")" 1
        end
    fi
    if case_of 'a call that cannot wait takes little time of a processor'; then
        if command -v strace > /dev/null; then
            (before=(strace -D -o "$room/trace" -e trace=poll -e inject=poll:error=ENOMEM); start TOOL_DOES='[ "$name" != cudafe++ ] || sleep 2' -c k.cu -o k.o
            ended 0; echo "$problems" > "$room/problems")
            same 'in the case' "$(cat "$room/problems") $(cat k.o)" ' made'
            tries=$(grep -c ENOMEM "$room/trace")
            [ "$tries" -gt 20 ] && [ "$tries" -lt 9000 ] || problems+="  it looks $tries times"$'\n'
        fi
        end
    fi
    if case_of "nvcc's warnings, and what commands say, in order"; then
        call WARNING='nvcc warns' TOOL_DOES='echo "out $name"; echo "err $name" >&2; case $name in *.80) sleep 0.3 ;; esac' -c k.cu -o k.o
        same status "$status" 0
        order='gcc-E cudafe++ gcc-E.80 cicc.80 ptxas.80 gcc-E.90 cicc.90 ptxas.90 fatbinary gcc-c'
        same output "$(cut -d ' ' -f 2 "$room/out" | paste -sd ' ')" "$order"
        same messages "$(head -n 1 "$room/err") $(sed 1d "$room/err" | cut -d ' ' -f 2 | paste -sd ' ')" "nvcc warns $order"
        end
    fi
    if case_of 'what nvcc would have said by now is said at once'; then
        until_said='tries=0; until grep -q early "${LOG%/*}/err"; do tries=$((tries + 1)); [ "$tries" -lt 600 ] || exit 9; sleep 0.05; done'
        for does in "[ \"\$name\" != gcc-E ] || { echo early >&2; $until_said; }" "case \$name in gcc-E) echo early >&2 ;; cudafe++) $until_said ;; esac"; do
            call TOOL_DOES="$does" -c k.cu -o k.o
            same 'status and messages' "$status $(cat "$room/err")" '0 early'
        done
        call TOOL_DOES='case $name in gcc-E.80) echo later >&2 ;; gcc-E) until grep -q "^- gcc-E.80" "$LOG"; do sleep 0.05; done; sleep 0.5; cat "${LOG%/*}/err" > "$LOG.seen" ;; esac' -c k.cu -o k.o
        same 'what nvcc would say later' "$status $(cat "$room/err" "$room/log.seen")" '0 later'
        end
    fi
    if case_of 'a command fails, and nvcc has several threads'; then
        prints='/^#\$ [a-z]/ s,$, > /t/1_stdout 2>/t/1_stderr,'
        call OWN_FORM="$prints" TOOL_DOES='case $name in cicc.80) until grep -q "^- gcc-E.90" "$LOG"; do sleep 0.05; done; echo "bad $name" >&2; exit 6 ;; gcc-E.90) echo "says $name" >&2 ;; esac' -t2 -c k.cu -o k.o
        same 'status and messages' "$status $(cat "$room/err")" $'255 says gcc-E.90\nbad cicc.80'
        call OWN_FORM="$prints" -t2 -c k.cu -o k.o
        splits
        end
    fi
    while IFS='|' read -r what wanted does; do
        case_of "a command fails: $what" || continue
        call CHILDLESS=1 TOOL_DOES="$does" -c k.cu -o k.o
        same 'status and messages' "$status $(cat "$room/err")" "$wanted"
        end
    done << 'ROWS'
its status and message|7 bad cicc.90|[ $name != cicc.90 ] || { echo "bad $name" >&2; exit 7; }
the first of two|6 bad cicc.80|case $name in cicc.90) echo "bad $name" >&2; exit 7 ;; cicc.80) sleep 0.5; echo "bad $name" >&2; exit 6 ;; esac
the first of two, though the other ends first|6 bad ptxas.80|case $name in cicc.90) echo "bad $name" >&2; exit 7 ;; gcc-E.80) sleep 0.5 ;; ptxas.80) echo "bad $name" >&2; exit 6 ;; esac
without a message|7 zigrunk-nvcc: a command failed with status 7 and without a message|[ $name != cudafe++ ] || exit 7
by a signal|139 Segmentation fault|[ $name != cudafe++ ] || { ulimit -c 0; kill -SEGV $$; }
ROWS
    if case_of 'a command fails: each signal that a shell names'; then
        for signal in '132 ILL Illegal instruction' '134 ABRT Aborted' '135 BUS Bus error' '136 FPE Floating point exception' '137 KILL Killed' '143 TERM Terminated'; do
            read -r wanted number text <<< "$signal"
            call CHILDLESS=1 TOOL_DOES="[ \$name != cudafe++ ] || { ulimit -c 0; kill -$number \$\$; }" -c k.cu -o k.o
            same "status and messages, $number" "$status $(cat "$room/err")" "$wanted $text"
        done
        end
    fi
    if case_of 'programs that the kernel cannot run'; then
        printf '%s\n' '#!/missing/interpreter' > "$room/odd" && chmod +x "$room/odd"
        call ZIGRUNK_NVCC="$room/odd" -V
        same 'nvcc' "$status $(cat "$room/err")" "127 zigrunk-nvcc: cannot run $room/odd: No such file or directory"
        call ZIGRUNK_LAUNCHER="$room/odd" -c k.cu -o k.o
        same 'a launcher' "$status $(cat "$room/err")" "127 zigrunk-nvcc: cannot run $room/odd"
        end
    fi
    if case_of 'a launcher that is missing'; then
        call ZIGRUNK_LAUNCHER=/missing/launcher -c k.cu -o k.o
        same 'status and messages' "$status $(cat "$room/err")" '127 zigrunk-nvcc: cannot run /missing/launcher: No such file or directory'
        end
    fi
    if case_of 'what nvcc does before version 12'; then
        form='s,^#\$ cudafe++ .*,,; /^#\$ fatbinary/i #$ cudafe++ --gen_c_file_name "kernel.compute_90.cudafe1.cpp" --stub_file_name "kernel.compute_90.cudafe1.stub.c" --module_id_file_name "kernel.module_id" "kernel.cpp4.ii"'
        forms=(OWN_FORM="$form" KEPT_FORM="$(printf '%s\n' "$form" | sed 's,"kernel\.compute_90\.cudafe1\.cpp","/t/&,; s,/t/",/t/,; s,"kernel\.module,"/t/kernel.module,; s,"kernel\.cpp4,"/t/kernel.cpp4,'); s,/t/,'\"\$keep\"/',g")
        call "${plain[@]}" "${forms[@]}" TOOL_DOES='[ "$name" != ptxas.80 ] || exit 6' -c k.cu -o k.o
        case $(head -n 1 "$room/err") in
        *'a command fails, and nvcc has them in another order' | *'nvcc reads the line otherwise' | *'dropped'*) ;;
        *) problems+="  $(cat "$room/err")"$'\n' ;;
        esac
        end
    fi
    if case_of 'a signal of nvcc itself'; then
        { call NVCC_DOES='kill -TERM $$' k.cu; } 2> /dev/null
        same status "$status" 143
        end
    fi
}

products() {
    if case_of 'files that are kept'; then
        mkdir "$room/a dir" && echo old > "$room/a dir/k.ptx" && chmod 400 "$room/a dir/k.ptx"
        call --keep --keep-dir "$room/a dir" -c k.cu -o k.o
        splits
        same 'dry runs' "$(grep -c dryrun "$room/log")" 3
        same 'its own name in a stub file' "$(sed -n 2p "$room/a dir/kernel.compute_90.cudafe1.stub.c")" "# 1 \"$room/a dir/kernel.compute_90.cudafe1.stub.c\""
        same 'kept files' "$(cd "$room/a dir" && ls | grep -c 'kernel\..*ptx$')$(ls -A "$room/a dir" | grep -c 'zigrunk')" 20
        end
    fi
    if case_of 'kept files of a call that fails'; then
        mkdir kept
        call TOOL_DOES='[ "$name" != ptxas.80 ] || exit 6' --keep --keep-dir kept -c k.cu -o k.o
        same 'status and files' "$status $(ls kept | grep -c 'compute_80.ptx')$(ls kept | grep -c 'compute_80.cubin')" '6 10'
        end
    fi
    if case_of 'a dependency file'; then
        call -MD -c k.cu -o k.o
        splits
        same 'the file' "$(cat k.d)" $'k.o : k.cu \\\n    a.h'
        call -MMD -MP -MF x.d -c k.cu -o k.o
        same 'its file is a target too' "$(cat x.d)" $'k.o : k.cu \\\n    a.h\n\na.h:'
        call -MD -MT a,b -MF x.d -c k.cu -o k.o
        same 'by nvcc' "$status$(cat x.d "$room/err")" '0by nvcc'
        call SOURCE=j.cu -MD -c k.cu -o k.o
        same 'by nvcc, for another form' "$status$(cat k.d)" '0by nvcc'
        end
    fi
    if case_of 'with a dependency file, preprocessors speak first'; then
        call TOOL_DOES='echo "err $name" >&2' -MD -c k.cu -o k.o
        same messages "$status $(cut -d ' ' -f 2 "$room/err" | paste -sd ' ')" '0 gcc-E.80 gcc-E.90 gcc-E cudafe++ cicc.80 ptxas.80 cicc.90 ptxas.90 fatbinary gcc-c'
        rm k.d
        call TOOL_DOES='[ "$name" != gcc-E.80 ] || { echo "bad $name" >&2; exit 6; }' -MD -c k.cu -o k.o
        same 'one that fails' "$status $(cat "$room/err") $(find . -name k.d)" '6 bad gcc-E.80 '
        end
    fi
    if case_of 'names of generated files'; then
        call TOOL_DOES='[ "$name" != gcc-c ] || echo "$*" > "$LOG.words"' -c k.cu -o k.o
        same "nvcc's" "$(grep -o '[^/ ]*\.cudafe1\.cpp' "$room/log.words")" kernel.compute_90.cudafe1.cpp
        call ZIGRUNK_LAUNCHER=env TOOL_DOES='[ "$name" != gcc-c ] || echo "$*" > "$LOG.words"' -c k.cu -o k.o
        same 'with a launcher' "$(grep -o '[^/ ]*\.cudafe1\.cpp' "$room/log.words")" x_0.cudafe1.cpp
        end
    fi
    if case_of 'a dependency file that nvcc cannot make'; then
        call "${plain[@]}" RULE_STATUS=4 SOURCE=j.cu -MD -c k.cu -o k.o
        same 'status and reason' "$status $(head -n 1 "$room/err")" '5 zigrunk-nvcc: nvcc itself: its dependency file fails'
        end
    fi
    if case_of 'a command fails, and the dependency file is made'; then
        call TOOL_DOES='[ "$name" != ptxas.80 ] || { sleep 1; echo bad >&2; exit 6; }' -MD -c k.cu -o k.o
        same 'status, messages and file' "$status $(cat "$room/err") $(grep -c a.h k.d)" '6 bad 1'
        end
    fi
}

# A program for Python that starts a command, and notes its process, and how it ended, in a file.
reports_end='
import subprocess, sys
with open(sys.argv[1], "w", buffering=1) as noted:
    with subprocess.Popen(sys.argv[2:]) as process:
        print(process.pid, file=noted)
        print(process.wait(), file=noted)
'

signals() {
    for signal in HUP:129 INT:130 TERM:143; do
        case_of "the signal ${signal%:*}" || continue
        start TOOL_DOES='if [ "$name" = cudafe++ ]; then trap "sleep 0.3; echo stopped >> $LOG.stopped; exit 2" HUP INT TERM; echo "+ trap" >> "$LOG"; (trap "" HUP INT TERM; exec sleep 300) & env --default-signal=INT sleep 300 & wait; fi' -c k.cu -o k.o
        within 20 has_begun trap
        kill -s "${signal%:*}" "$process"
        ended "${signal#*:}"
        same 'the command' "$(cat "$room/log.stopped")" stopped
        end
    done
    if case_of 'a call ends by the signal that ends it'; then
        for signal in HUP:1 INT:2 TERM:15; do
            command -v python3 > /dev/null || break
            : > "$room/log"
            env --default-signal=HUP,INT,TERM LOG="$room/log" TMPDIR="$room/tmp" XDG_RUNTIME_DIR="$room/run" TOOL_DOES="$waits" \
                python3 -c "$reports_end" "$room/ended" "$nvcc_driver" -c k.cu -o k.o > "$room/out" 2> "$room/err" &
            process=$!
            within 20 has_begun cudafe++
            kill -s "${signal%:*}" "$(head -n 1 "$room/ended")"
            wait "$process"
            same "end by ${signal%:*}" "$(tail -n 1 "$room/ended")$(cat "$room/err")" "-${signal#*:}"
        done
        end
    fi
    if case_of 'INT ends the loop of a shell, too'; then
        : > "$room/log"
        set -m
        (exec 5>&-; exec env --default-signal=HUP,INT,TERM LOG="$room/log" TMPDIR="$room/tmp" XDG_RUNTIME_DIR="$room/run" TOOL_DOES="$waits" \
            bash -c 'for _ in 1 2; do "$0" -c k.cu -o k.o; echo "$?" >> statuses; done' "$nvcc_driver") > "$room/out" 2> "$room/err" &
        process=$!
        set +m
        within 20 has_begun cudafe++
        kill -INT -- "-$process"
        ended 130
        same 'calls after which the loop went on' "$(cat statuses 2> /dev/null)" ''
        end
    fi
    if case_of 'a command that ignores TERM'; then
        start TOOL_DOES='if [ "$name" = cudafe++ ]; then trap "" TERM; echo "+ trap" >> "$LOG"; sleep 300; sleep 300; fi' -c k.cu -o k.o
        within 20 has_begun trap
        kill "$process"
        ended 143
        end
    fi
    if case_of 'a signal while a dry run runs'; then
        start OWN_DOES='echo "+ dry" >> "$LOG"; sleep 300' -c k.cu -o k.o
        within 20 has_begun dry
        kill "$process"
        ended 143
        end
    fi
    if case_of 'a signal while the call waits for a slot'; then
        mkdir -m 700 "$room/run/zigrunk-slots-$user"
        exec 5> "$room/run/zigrunk-slots-$user/1" && flock 5
        (exec 5>&-
        start ZIGRUNK_SLOTS=1 -c k.cu -o k.o
        within 20 eval 'ls "$room/run/zigrunk-slots-$user" | grep -q ^wait' || problems+='  it does not wait'$'\n'
        kill "$process"
        ended 143
        echo "$problems" > "$room/problems")
        same 'in the case' "$(cat "$room/problems") $(grep -c . "$room/log")" ' 0'
        exec 5>&-
        end
    fi
    if case_of 'a signal while nvcc itself runs'; then
        start NVCC_DOES='echo "+ nvcc $$" >> "$LOG"; exec sleep 300' k.cu
        within 20 has_begun nvcc
        same process "$(sed -n 's/^+ nvcc //p' "$room/log")" "$process"
        kill "$process"
        ended 143
        end
    fi
    if case_of 'signals that the caller ignores'; then
        # as nohup does, and a shell that isn't interactive in the background
        for signal in HUP INT TERM; do
            rm -f "$room/log" "$room/log.go" && : > "$room/log"
            (trap '' "$signal"; exec env LOG="$room/log" TMPDIR="$room/tmp" XDG_RUNTIME_DIR="$room/run" TOOL_DOES="$waits" "$nvcc_driver" -c k.cu -o k.o) > "$room/out" 2> "$room/err" &
            process=$!
            within 20 has_begun cudafe++
            kill -s "$signal" "$process"
            : > "$room/log.go"
            wait "$process"
            same "status with $signal" "$?$(cat "$room/err")" 0
        done
        end
    fi
    if case_of 'commands ignore what the caller ignores'; then
        for signals in '' 'HUP INT TERM CONT TSTP'; do
            printf '%s\n' '#!/bin/sh' "[ -z '$signals' ] || trap '' $signals" "exec $nvcc_driver \"\$@\"" > "$room/caller" && chmod +x "$room/caller"
            as=$room/caller call TOOL_DOES='sed -n "s/^SigIgn:[[:blank:]]*//p" /proc/$$/status >> "$LOG.ignored"' -c k.cu -o k.o
            splits "with '$signals'"
        done
        same 'signals' "$(while read -r set; do echo $((0x$set & 0xa4003)); done < "$room/log.ignored" | uniq -c | tr -s ' ' | paste -sd ,)" " 10 0, 10 $((0xa4003))"
        end
    fi
    if case_of 'TSTP and CONT, twice'; then
        # As a job of its own: in a group whose shell is gone, as this script's is if something starts it in the background, TSTP stops nobody.
        set -m
        start TOOL_DOES="$waits" -c k.cu -o k.o
        set +m
        within 20 has_begun cudafe++
        for _ in 1 2; do
            kill -TSTP "$process"
            within 5 eval '[ "$(cut -d " " -f 3 "/proc/$process/stat")" = T ]' || problems+='  it does not stop'$'\n'
            # D, if it was stopped while its shell waited for a child to begin; on a busy machine the signal comes a little later
            within 5 eval '[ "$(pgrep -f "$CUDA/bin/cudafe" | head -n 1 | xargs -I{} cut -d " " -f 3 /proc/{}/stat | tr D T)" = T ]' ||
                problems+='  a command does not stop'$'\n'
            same 'slots that are free' "$(for slot in "$room/run"/*/[0-9]*; do flock -n "$slot" true || echo "$slot"; done)" ''
            kill -CONT "$process"
            # Its commands go on last.
            within 5 eval '[ "$(pgrep -f "$CUDA/bin/cudafe" | head -n 1 | xargs -I{} cut -d " " -f 3 /proc/{}/stat)" = S ]' || problems+='  it does not go on'$'\n'
        done
        : > "$room/log.go"
        ended 0
        end
    fi
    if case_of 'TSTP while the call waits for a slot'; then
        mkdir -m 700 "$room/run/zigrunk-slots-$user"
        exec 5> "$room/run/zigrunk-slots-$user/1" && flock 5
        set -m
        (exec 5>&-; exec env --default-signal=HUP,INT,TERM LOG="$room/log" TMPDIR="$room/tmp" XDG_RUNTIME_DIR="$room/run" ZIGRUNK_SLOTS=1 "$nvcc_driver" -c k.cu -o k.o) > "$room/out" 2> "$room/err" &
        process=$!
        set +m
        waiting() { ls "$room/run/zigrunk-slots-$user" | grep -q ^wait; }
        within 20 waiting || problems+='  it does not wait'$'\n'
        kill -TSTP "$process"
        within 5 eval '[ "$(cut -d " " -f 3 "/proc/$process/stat")" = T ]' || problems+='  it does not stop'$'\n'
        ! waiting || problems+='  others wait for it'$'\n'
        kill -CONT "$process"
        within 20 waiting || problems+='  it does not wait again'$'\n'
        exec 5>&-
        ended 0
        same product "$(cat k.o)" made
        end
    fi
    if case_of 'CONT while the call is about to stop'; then
        if command -v strace > /dev/null; then
            # It sends STOP to a command first, and that takes a while here.
            (before=(strace -D -o "$room/trace" -e trace=kill -e inject=kill:delay_exit=400000:when=1); start TOOL_DOES="$waits" -c k.cu -o k.o
            within 20 has_begun cudafe++
            kill -TSTP "$process"
            within 5 grep -q kill "$room/trace" || problems+='  it sends nothing'$'\n'
            kill -CONT "$process"
            : > "$room/log.go"
            ended 0
            echo "$problems" > "$room/problems")
            same 'in the case' "$(cat "$room/problems")" ''
        fi
        end
    fi
    if case_of 'KILL to a call that nvcc makes, with a log'; then
        start ZIGRUNK_LOG="$room/calls" NVCC_DOES='trap "echo ended > $LOG.ended; kill -KILL \$!; exit 3" TERM; echo "+ nvcc" >> "$LOG"; sleep 300 & wait' k.cu
        within 20 has_begun nvcc
        kill -KILL "$process"
        wait "$process" 2> /dev/null
        within 10 eval '[ -s "$room/log.ended" ]' || problems+='  nvcc does not end'$'\n'
        end
    fi
    if case_of 'TSTP and CONT to a call that nvcc makes, with a log'; then
        set -m
        start ZIGRUNK_LOG="$room/calls" NVCC_DOES='echo "+ nvcc" >> "$LOG"; until [ -e "$LOG.go" ]; do sleep 0.05; done; exit 4' k.cu
        set +m
        within 20 has_begun nvcc
        kill -TSTP "$process"
        within 5 eval '[ "$(cut -d " " -f 3 "/proc/$process/stat")" = T ]' || problems+='  it does not stop'$'\n'
        kill -CONT "$process"
        within 5 eval '[ "$(cut -d " " -f 3 "/proc/$process/stat")" != T ]' || problems+='  it does not go on'$'\n'
        : > "$room/log.go"
        ended 4
        end
    fi
    if case_of 'TERM to a call that nvcc makes, with a log'; then
        start ZIGRUNK_LOG="$room/calls" NVCC_DOES='trap "echo ended > $LOG.ended; kill -KILL \$!; exit 3" TERM; echo "+ nvcc" >> "$LOG"; sleep 300 & wait' k.cu
        within 20 has_begun nvcc
        kill "$process"
        ended 3
        same 'what nvcc did' "$(cat "$room/log.ended") $(grep -o '"status":[0-9]*' "$room/calls")" 'ended "status":3'
        end
    fi
}

# graph COUNT [PREFIX]: a Ninja file and a Makefile of so many calls, whose recipes begin with the prefix.
graph() {
    printf '%s\n' 'rule call' "  command = $nvcc_driver -c \$in -o \$out" > build.ninja
    printf 'all: %s\n' "$(seq -f '%g.o' -s ' ' "$1")" > Makefile
    for number in $(seq "$1"); do
        : > "$number.cu"
        echo "build $number.o: call $number.cu" >> build.ninja
        printf '%s\n' "$number.o: $number.cu" $'\t'"${2-}$nvcc_driver -c \$< -o \$@" >> Makefile
    done
}

# many [NAME=VALUE..] WORD..: runs a program that makes many calls.
many() {
    : > "$room/log"
    env LOG="$room/log" TMPDIR="$room/tmp" XDG_RUNTIME_DIR="$room/run" TOOL_DOES='sleep 0.02' timeout $((120 * patience)) env "$@" > "$room/out" 2> "$room/err" < /dev/null
    status=$?
    : > "$room/said"
    grep -i 'failed\|token\|jobserver' "$room/out" "$room/err" > "$room/said"
}

# ran COMMANDS MOST [LEAST]: a problem, unless the calls succeeded with so many commands, of which never more than MOST ran at once, and once as
# many as LEAST.
ran() {
    local most
    most=$(awk '/^[+]/ { if (++now > most) most = now } /^-/ { now-- } END { print most + 0 }' "$room/log")
    same 'status and messages' "$status$(cat "$room/said")" 0
    same commands "$(grep -c '^+' "$room/log")" "$1"
    [ "$most" -le "$2" ] || problems+="  $most commands at once, not $2"$'\n'
    [ "$most" -ge "${3-1}" ] || problems+="  only $most commands at once, not $3"$'\n'
}

# tokens PIPE: the jobs that a jobserver has.
tokens() {
    dd bs=99 count=1 iflag=nonblock if="$1" 2> /dev/null
}

# notes_stalls: notes once a call didn't touch its files for so long that others soon take it for a stopped one, or this shell had no turn to look.
notes_stalls() {
    local last=$EPOCHSECONDS
    while sleep 0.2; do
        if [ $((EPOCHSECONDS - last)) -gt 1 ] || [ -n "$(find "$slot_folder" -type p ! -newermt '3 seconds ago' 2> /dev/null)" ]; then
            : > "$room/stalled"
        fi
        last=$EPOCHSECONDS
    done
}

# five_calls: five calls that share one slot, each begun once the others wait for it. The order of their last commands is in $room/log.ends: that in
# which this shell sees the calls end says less on a busy machine.
five_calls() {
    rm -f "$room/log.go" "$room/log.ends" "$room/stalled"
    local number calls=() watcher
    notes_stalls &
    watcher=$!
    export LOG=$room/log TMPDIR=$room/tmp XDG_RUNTIME_DIR=$room/run ZIGRUNK_SLOTS=1
    export TOOL_DOES="$waits"'; [ "$name" != gcc-c ] || for word; do [ "${word%.o}" = "$word" ] || echo "${word%.o}" >> "$LOG.ends"; done'
    : > "$room/log"
    for number in 1 2 3 4 5; do
        : > $number.cu
        "$nvcc_driver" -c $number.cu -o $number.o &
        calls+=($!)
        within 20 eval '[ "$(ls "$slot_folder" 2> /dev/null | grep -c ^wait)" -ge '"$number"' ]' ||
            problems+="  $(ls "$slot_folder" | grep -c ^wait) calls wait, not $number"$'\n'
    done
    : > "$room/log.go"
    wait "${calls[@]}"
    unset LOG XDG_RUNTIME_DIR ZIGRUNK_SLOTS TOOL_DOES
    export TMPDIR=/tmp
    kill "$watcher"
    { wait "$watcher"; } 2> /dev/null
}

slots() {
    command -v ninja > /dev/null || { skip 'slots' 'ninja is not on the path' && return; }
    room=$scratch/room
    slot_folder=$room/run/zigrunk-slots-$user
    if case_of 'slots: a call alone'; then
        graph 1
        many ZIGRUNK_SLOTS=2 ninja
        ran 10 2 2
        end
    fi
    if case_of 'slots: twelve calls'; then
        graph 12
        many ZIGRUNK_SLOTS=2 ninja -j16
        ran 120 2 2
        end
    fi
    if case_of 'slots: the processors are the limit'; then
        graph 4
        many taskset -c "$(taskset -cp $$ | sed 's/.*[:,-] *//')" ninja -j4
        ran 40 1
        end
    fi
    if case_of 'slots: a quota of processor time is the limit'; then
        group=/sys/fs/cgroup/cpu/zigrunk-$$
        if mkdir "$group" 2> /dev/null && echo 100000 > "$group/cpu.cfs_period_us" && echo 100000 > "$group/cpu.cfs_quota_us"; then
            before_group=/sys/fs/cgroup/cpu$(sed -n 's/^[0-9]*:cpu\(,cpuacct\)\?://p' /proc/self/cgroup)
            graph 4
            echo $$ > "$group/tasks"
            many ninja -j4
            echo $$ > "$before_group/tasks"
            ran 40 1
        fi
        rmdir "$group" 2> /dev/null
        end
    fi
    if case_of 'slots: no limit'; then
        graph 4
        for number in 0 00; do
            many ZIGRUNK_SLOTS=$number ninja -j4
            ran 40 12 5
            rm ./*.o
        done
        end
    fi
    if case_of 'slots: a folder that is not the user'"'"'s alone, or missing'; then
        graph 6
        mkdir -m 755 "$slot_folder"
        many ZIGRUNK_SLOTS=1 ninja -j6
        ran 60 1
        same 'files in it' "$(ls -A "$slot_folder")" ''
        rm ./*.o
        many XDG_RUNTIME_DIR="$room/missing" ZIGRUNK_SLOTS=1 ninja -j6
        ran 60 1
        end
    fi
    if case_of 'slots: a disk that stops to take locks'; then
        if command -v strace > /dev/null; then
            (before=(strace -D -o "$room/trace" -e trace=flock -e inject=flock:error=ENOLCK:when=3+); start -c k.cu -o k.o; ended 0; echo "$problems" > "$room/problems")
            same 'in the case' "$(cat "$room/problems") $(cat k.o)" ' made'
        fi
        end
    fi
    if case_of 'slots: no disk takes locks'; then
        if command -v strace > /dev/null; then
            (before=(strace -D -o "$room/trace" -e trace=flock -e inject=flock:error=ENOLCK); start ZIGRUNK_EXPLAIN=1 -c k.cu -o k.o; ended 0; echo "$problems" > "$room/problems")
            same 'in the case' "$(cat "$room/problems") $(cat k.o)" ' made'
            same 'messages' "$(cat "$room/err")" 'zigrunk-nvcc: no folder for slots takes locks, so nothing limits how many commands run at once'
            rm -f "$room/tmp/zigrunk-$user"/*.lock
        fi
        end
    fi
    if case_of 'slots: calls with more leave the first ones to others'; then
        call ZIGRUNK_SLOTS=4 ZIGRUNK_JOBS=1 TOOL_DOES='flock -n "$XDG_RUNTIME_DIR/zigrunk-slots-$(id -u)/1" true || echo taken >&2' -c k.cu -o k.o
        splits
        end
    fi
    if case_of 'slots: calls with fewer hold up no others'; then
        mkdir -m 700 "$slot_folder"
        exec 5> "$slot_folder/1" && flock 5
        (exec 5>&-; start ZIGRUNK_SLOTS=1 -c k.cu -o one.o; wait "$process"; echo $? > "$room/first")&
        first=$!
        within 20 eval 'ls "$slot_folder" | grep -q ^wait' || problems+='  nobody waits'$'\n'
        touch "$slot_folder/1"
        (exec 5>&-; call ZIGRUNK_SLOTS=2 -c k.cu -o two.o; echo "$status" > "$room/second")
        same 'the other' "$(cat "$room/second" two.o)" $'0\nmade'
        exec 5>&-
        wait "$first"
        same 'the first' "$(cat "$room/first" one.o)" $'0\nmade'
        end
    fi
    if case_of 'slots: older calls come first'; then
        for _ in 1 2 3; do five_calls; [ -e "$room/stalled" ] || break; done
        same 'the order of their last commands' "$(paste -sd ' ' "$room/log.ends")" '1 2 3 4 5'
        end
    fi
    if case_of 'slots: calls that hold one, or wait, say so each second'; then
        start ZIGRUNK_SLOTS=1 TOOL_DOES="$waits" -c k.cu -o one.o
        within 20 has_begun cudafe++
        first=$process
        start ZIGRUNK_SLOTS=1 -c k.cu -o two.o
        within 20 eval '[ "$(find "$slot_folder" -name "wait-*" | wc -l)" = 2 ]' || problems+='  nobody waits'$'\n'
        touched=$(stamps)
        within 5 eval '[ "$(comm -13 <(echo "$touched") <(stamps) | wc -l)" = 3 ]' || problems+="  newer than"$'\n'"$touched"$'\n'"  are only"$'\n'"$(stamps)"$'\n'
        : > "$room/log.go"
        ended 0
        process=$first
        ended 0
        same products "$(cat one.o two.o)" $'made\nmade'
        end
    fi
    if case_of 'slots: a call that is stopped holds up no others for ever'; then
        start ZIGRUNK_SLOTS=1 TOOL_DOES="$waits" -c k.cu -o one.o
        within 20 has_begun cudafe++
        kill -STOP "$process"
        stopped=$process began=$SECONDS
        call ZIGRUNK_SLOTS=1 -c k.cu -o two.o
        splits
        took=$((SECONDS - began))
        [ "$took" -le $((15 * patience)) ] || problems+="  the other takes $took s"$'\n'
        kill -CONT "$stopped"
        : > "$room/log.go"
        process=$stopped
        ended 0
        end
    fi
    if case_of 'slots: calls that are killed'; then
        graph 8
        export LOG=$room/log TMPDIR=$room/tmp XDG_RUNTIME_DIR=$room/run ZIGRUNK_SLOTS=2
        RANDOM=20261127
        for _ in 1 2 3; do
            for number in $(seq 8); do CHILDLESS=1 TOOL_DOES='sleep 0.05' "$nvcc_driver" -c "$number.cu" -o "$number.o" > said 2>&1 & done
            for _ in $(seq 20); do
                mapfile -t victims < <(jobs -pr; pgrep -f "$room")
                [ "${#victims[@]}" -eq 0 ] || kill -KILL "${victims[RANDOM % ${#victims[@]}]}" 2> /dev/null
                sleep 0.02
            done
            mapfile -t victims < <(jobs -pr)
            [ "${#victims[@]}" -eq 0 ] || kill -KILL "${victims[@]}"
            wait
        done 2> /dev/null
        unset LOG XDG_RUNTIME_DIR ZIGRUNK_SLOTS
        export TMPDIR=/tmp
        within 20 none_run || problems+='  commands go on'$'\n'
        many ZIGRUNK_SLOTS=2 ninja -j4 1.o 2.o
        ran 20 2 2
        call ZIGRUNK_SLOTS=2 -c 1.cu -o 1.o
        rm -rf "$room/tmp/zigrunk-$user"/*
        end
    fi
}

jobservers() {
    command -v ninja > /dev/null || { skip 'jobs of make' 'ninja is not on the path' && return; }
    require_make=$(make --version 2> /dev/null | head -n 1)
    [ -n "$require_make" ] || { skip 'the jobserver of make' 'make is not on the path' && return; }
    if case_of 'make: without its jobserver'; then
        graph 6
        many make -j3
        ran 60 3 2
        end
    fi
    if case_of 'make: with its jobserver'; then
        graph 8 +
        many ZIGRUNK_SLOTS=0 make -j3
        ran 80 3 2
        end
    fi
    if case_of 'make: a call alone with its jobserver'; then
        graph 1 +
        many ZIGRUNK_SLOTS=0 make -j2
        ran 10 2 2
        end
    fi
    if case_of 'make: a jobserver that is a named pipe'; then
        graph 3
        mkfifo "$room/jobs"
        exec 5<> "$room/jobs"
        printf '++' >&5
        many MAKEFLAGS=" -j3 --jobserver-auth=fifo:$room/jobs -- A=b" ZIGRUNK_SLOTS=0 ninja -j2
        ran 30 4 2
        same tokens "$(tokens "$room/jobs")" '++'
        end
        exec 5>&-
    fi
    if case_of 'make: a jobserver by the name of older makes'; then
        graph 2
        mkfifo "$room/jobs"
        exec 5<> "$room/jobs" 7>&5
        printf '+' >&5
        many MAKEFLAGS=' -j --jobserver-fds=5,7' ZIGRUNK_SLOTS=0 ninja -j2
        ran 20 3 2
        same tokens "$(tokens "$room/jobs")" '+'
        end
        exec 5>&- 7>&-
    fi
    if case_of 'make: jobservers that are not there'; then
        graph 2
        mkfifo "$room/jobs" "$room/other"
        exec 5<> "$room/jobs" 6<> "$room/other"
        for server in fifo:"$room/missing" 5,6 5,77; do
            many MAKEFLAGS=" -j2 --jobserver-auth=$server" ninja -j2
            ran 20 2
            rm -f ./*.o
        done
        end
        exec 5>&- 6>&-
    fi
    if case_of 'make: a job that the call cannot give back'; then
        if command -v strace > /dev/null; then
            mkfifo "$room/jobs"
            exec 5<> "$room/jobs"
            printf 'abc' >&5
            (before=(strace -D -o "$room/trace" -e trace=write -e inject=write:error=EIO:when=1+)
            start MAKEFLAGS=" -j4 --jobserver-auth=fifo:$room/jobs" ZIGRUNK_SLOTS=0 -c k.cu -o k.o; ended 0; echo "$problems" > "$room/problems")
            same 'in the case' "$(cat "$room/problems")" ''
            same tokens "$(tokens "$room/jobs" | fold -w 1 | sort | paste -sd '')" abc
            exec 5>&-
        fi
        end
    fi
    if case_of 'make: calls that are killed give their jobs back'; then
        mkfifo "$room/jobs"
        exec 5<> "$room/jobs"
        printf 'abc' >&5
        RANDOM=20261128
        for _ in 1 2 3 4; do
            start MAKEFLAGS=" -j4 --jobserver-auth=fifo:$room/jobs" ZIGRUNK_SLOTS=0 TOOL_DOES='sleep 0.3' -c k.cu -o k.o
            within 20 has_begun gcc-E.80
            sleep "0.$((RANDOM % 9))"
            kill -KILL "$process"
            { wait "$process"; } 2> /dev/null
            within 20 none_run || problems+='  commands go on'$'\n'
            held=''
            within 5 eval 'held+=$(tokens "$room/jobs"); [ "${#held}" -ge 3 ]'
            same tokens "$(fold -w 1 <<< "$held" | sort | paste -sd '')" abc
            printf '%s' abc >&5
        done
        rm -rf "$room/tmp/zigrunk-$user"/*
        end
        exec 5>&-
    fi
}

# refused [NAME=VALUE..] WORD..: a problem, unless the program refuses its settings, before anything is made.
refused() {
    call "$@"
    same "status of $1" "$status$(cat "$room/log" "$room/out")" 2
    same "what is made with $1" "$(ls -A "$room/tmp" "$room/run" | grep -v :)" ''
}

settings() {
    case_of 'a setting that cannot be' || return
    local program=$scratch/bin/zigrunk name
    while IFS='|' read -r setting allowed; do
        refused "$setting" -c k.cu -o k.o
        same "messages of nvcc with $setting" "$(cat "$room/err")" "zigrunk-nvcc: $setting: expected $allowed"
        for words in 'plan json nvcc -c k.cu' 'batch /dev/null' 'cache stats'; do
            name="zigrunk ${words%% *}"
            # shellcheck disable=SC2086 # several words
            as=$program refused "$setting" $words
            same "messages of $name with $setting" "$(cat "$room/err")" "$name: $setting: expected $allowed"
        done
    done << 'ROWS'
ZIGRUNK_CACHE=cache|yes, no, or a folder's path with a slash, such as ./cache
ZIGRUNK_CACHE_SIZE=5x|a number of bytes, or one with K, M, G or T, such as 5G
ZIGRUNK_JOBS=abc|a number of commands, such as 8
ZIGRUNK_SLOTS=-1|a number of commands, such as 8, or 0 for no limit
ZIGRUNK_EXPLAIN=please|yes or no (or 1, 0, true, false, on, off)
ZIGRUNK_EARLY=never|yes or no (or 1, 0, true, false, on, off)
ZIGRUNK_LATE=never|yes or no (or 1, 0, true, false, on, off)
ZIGRUNK_CALLS=never|yes or no (or 1, 0, true, false, on, off)
ZIGRUNK_PROVENANCE=s|a folder's absolute path, such as /home/me/statements
ROWS
    refused ZIGRUNK_JOBS=abc ZIGRUNK_SLOTS=x -c k.cu
    as=$program refused ZIGRUNK_JOBS=abc ZIGRUNK_SLOTS=x batch /dev/null
    for word in batch cache plan; do
        as=$program call ZIGRUNK_JOBS=abc "$word" --help
        same "status of $word --help" "$status$(cat "$room/err")" 0
    done
    call ZIGRUNK_EXPLAIN=off NVCC_STATUS=5 k.cu
    same 'messages with ZIGRUNK_EXPLAIN=off' "$status $(cat "$room/err")" '5 nvcc says'
    end
}

logs() {
    if case_of 'the log'; then
        call ZIGRUNK_LOG="$room/calls" -c k.cu -o k.o
        call ZIGRUNK_LOG="$room/calls" NVCC_DOES='exit 7' k.cu 'a "b'
        same status "$status" 7
        call ZIGRUNK_LOG="$room/calls" TOOL_DOES='[ "$name" != cudafe++ ] || exit 6' -c k.cu -o k.o
        for _ in 1 2; do call ZIGRUNK_LOG="$room/calls" --keep --keep-dir missing -c k.cu -o k.o; done
        same 'lines, split, hints' "$(wc -l < "$room/calls") $(grep -vc 'reason\|hint' "$room/calls") $(grep -c hint "$room/calls")" '6 2 1'
        same 'kinds' "$(head -n 1 "$room/calls" | grep -o '"kind":"[^"]*"' | cut -d '"' -f 4 | paste -sd ,)" \
            'gcc -E,cudafe++,gcc -E __CUDA_ARCH__=800,cicc compute_80,ptxas sm_80,gcc -E __CUDA_ARCH__=900,cicc compute_90,ptxas sm_90,fatbinary,gcc -c __CUDA_ARCH__=900'
        same 'statuses' "$(sed 's/.*\("status":[0-9]*\),"reason".*/\1/; s/.*"end":[0-9.]*,\("status":[0-9]*\),"commands".*/\1/' "$room/calls" | grep '^"st' | paste -sd ' ')" \
            '"status":0 "status":7 "status":6 "status":0 "status":0'
        same 'times in order' "$(head -n 1 "$room/calls" | tr '{' '\n' | sed 's/"[a-z]*":\([0-9.]*\),/\1 /g; s/"kind":"[^"]*",//' |
            awk 'NF && !call { call = $1; end = $2 } NF && call != $1 && (call > $1 || $1 > $2 || $2 > $3 || $3 > end) { print "odd" } END { print NR }')" 12
        same 'needs' "$(head -n 1 "$room/calls" | grep -o '"needs":[^]]*' | cut -d '[' -f 2 | paste -sd ' ')" ' 0  1,2 3  1,5 6 0,1,2,3,4,5,6,7 0,1,2,3,4,5,6,7,8'
        "$scratch/bin/zigrunk" report "$room/calls" > "$room/report" 2>&1
        same 'the report' "$(sed -n 1,4p "$room/report")" $'calls: 5, failed: 2\n  status 7: nvcc k.cu a "b\n  status 6: nvcc -c k.cu -o k.o\nsplit: 2 of 4 (50 %); no compilation: 1'
        { call ZIGRUNK_LOG="$room/calls" NVCC_DOES='kill -TERM $$' k.cu; } 2> /dev/null
        same 'a signal of nvcc' "$status $(tail -n 1 "$room/calls" | grep -o '"status":[0-9]*')" '143 "status":143'
        end
    fi
    if case_of 'records, and why two calls differ'; then
        # what the last command adds to its product: a variable, and how often it has run
        adds='[ "$name" != gcc-c ] || trap "printf \"%s\\n\" \"$CPATH\" \"$(wc -l < "$LOG.count")\" >> k.o" EXIT'
        : > "$room/log.count"
        for salt in 1 1 2; do
            call CHILDLESS=1 CPATH="$salt" TOOL_DOES="$adds" ZIGRUNK_RECORDS="$room/records.$salt" ZIGRUNK_LOG="$room/calls" -c k.cu -o k.o
            splits "$salt"
        done
        why() { "$scratch/bin/zigrunk" why "$@" 2>&1 && echo same; }
        same 'equal calls' "$(why "$room/calls:1" "$room/calls:2")" $'0 of 1 calls differ\nsame'
        differ=$'1 of 1 calls differ\nk.o: variable CPATH\n  command: gcc for k.o (10 of 10)\n  A: 1\n  B: 2'
        for pair in "$room/records.1 $room/records.2" "$room/calls:1 $room/calls:3"; do
            # shellcheck disable=SC2086 # two paths
            same "another variable, $pair" "$(why $pair)" "$differ"
        done
        same 'for programs' "$(why --json "$room/records.1" "$room/records.2" | grep '"kind"\|"name"' | tr -d ' \n')" '"kind":"variable","name":"CPATH",'
        echo >> "$room/log.count"
        call CHILDLESS=1 CPATH=1 TOOL_DOES="$adds" ZIGRUNK_RECORDS="$room/later" -c k.cu -o k.o
        differ=$'1 of 1 calls differ\nk.o: unknown k.o\n  command: gcc for k.o (10 of 10)\n  first difference: line 3\n    A: 0\n    B: 1'
        same 'not deterministic' "$(why "$room/records.1" "$room/later")" "$differ"
        same 'no record' "$(why "$room/log.count" "$room/later")" "zigrunk why: cannot read $room/log.count: it is no record of ZIGRUNK_RECORDS"
        end
    fi
    if case_of 'calls that are made twice'; then
        as=$driver call nvcc --check-twice -c k.cu -o k.o
        same 'the same' "$status $(cat "$room/out" "$room/err")" '0 0 of 10 commands are not deterministic'
        as=$driver call CHILDLESS=1 TOOL_DOES='[ "$name" != gcc-c ] || trap "echo $$ >> k.o" EXIT' nvcc --check-twice -c k.cu -o k.o
        same 'another' "$status $(sed -n '1,2p; $p' "$room/out" | paste -sd ,)" '1 k.o: folder where temporary files were,  command: gcc for k.o (10 of 10),1 of 10 commands are not deterministic'
        as=$driver call TOOL_DOES='[ "$name" != cudafe++ ] || exit 6' nvcc --check-twice -c k.cu -o k.o
        same 'a failure' "$status $(grep -c '^+ cudafe++' "$room/log")" '6 1'
        as=$driver call nvcc --check-twice --root relative -c k.cu
        same 'a root that is none' "$status $(cut -d : -f 1,2 "$room/err")" '2 zigrunk nvcc: ZIGRUNK_ROOT=relative'
        end
    fi
    while IFS='|' read -r settings words text; do
        case_of "a hint: $text" || continue
        : > odd.rsp
        chmod 000 odd.rsp
        # A limit on files is one of this shell too.
        ([ "$settings" != files ] || { limit_files 16 && settings=A=b; }
        # shellcheck disable=SC2086 # several words
        call ZIGRUNK_LOG="$room/calls" ${settings//ROOM/$room} $words)
        same 'the hint' "$(grep '^{"hint"' "$room/calls")" "{\"hint\":\"$text\"}"
        end
    done << 'ROWS'
TMPDIR=ROOM/missing|-c k.cu -o k.o|make room for temporary files, or set TMPDIR
A=b|--keep --keep-dir missing -c k.cu -o k.o|make the directory that --keep-dir names
files|-c k.cu -o k.o|raise the number of open files, with ulimit -n
NVCC_APPEND_FLAGS="-DA"|-c k.cu -o k.o|take quotes out of NVCC_PREPEND_FLAGS and NVCC_APPEND_FLAGS
A=b|--options-file missing.rsp -c k.cu -o k.o|set CMAKE_CUDA_USE_RESPONSE_FILE_FOR_INCLUDES to 0, if CMake writes the file
ROWS
    if case_of 'a log that cannot be written'; then
        call ZIGRUNK_LOG="$room/missing/calls" -c k.cu -o k.o
        same 'status and messages' "$status $(sed "s,$room,ROOM," "$room/err")" '0 zigrunk-nvcc: cannot write ROOM/missing/calls: No such file or directory'
        end
    fi
    if case_of 'a terminal'; then
        if command -v script > /dev/null; then
            export LOG=$room/log TMPDIR=$room/tmp XDG_RUNTIME_DIR=$room/run TOOL_DOES='[ ! -t 2 ] || echo colours >&2; printf "%s\n" "a line" >&2'
            script -qec "'$nvcc_driver' -c k.cu -o k.o" said > /dev/null < /dev/null
            unset LOG XDG_RUNTIME_DIR TOOL_DOES
            export TMPDIR=/tmp
            same 'messages' "$(tr -d '\r' < said | grep -c '^colours$') $(tr -d '\r' < said | grep -c '^a line$') $(grep -c $'\r\r' said)" '10 10 0'
        fi
        call TOOL_DOES='[ ! -t 2 ] || echo colours >&2' -c k.cu -o k.o
        splits 'without one'
        end
    fi
    if case_of 'a library that cannot be loaded'; then
        call LD_PRELOAD=/missing.so -c k.cu -o k.o
        same 'status and product' "$status $(cat k.o)" '0 made'
        end
    fi
}

# prints NAME OUTPUT WORD..: a call of the program that prints this.
prints() {
    as=$zigrunk call "${@:3}"
    same "$1" "$status $(cat "$room/out" "$room/err")" "0 $2"
}

# refuses NAME MESSAGE WORD..: a call that is wrong usage.
refuses() {
    as=$zigrunk call "${@:3}"
    same "$1" "$status $(head -n 1 "$room/err") $(grep -c ^usage "$room/err")" "2 $2 1"
}

# listed_in PAGE: the formats that a page of the manual lists.
listed_in() {
    sed -n '/^\.SH FORMATS/,/^\.SH [^F]/p' "$1" | sed -n '/^\.TP/{ n; s/^\.B //p }'
}

plans() {
    local zigrunk=$scratch/bin/zigrunk format
    if case_of 'zigrunk plan'; then
        as=$zigrunk call plan text -- nvcc -c k.cu -o k.o
        same 'status and messages' "$status$(cat "$room/err")" 0
        same 'calls of nvcc' "$(grep -c '^nvcc' "$room/log") $(grep -c dryrun "$room/log") $(grep -c '^+' "$room/log")" '2 2 0'
        same 'the plan' "$(grep -c "$room/tmp/zigrunk-$user/zigrunk-" "$room/out") $(stat -c '%n %a' "$room/tmp"/*)" \
            "$(grep -c "$room/tmp" "$room/out") $room/tmp/zigrunk-$user 700"
        as=$zigrunk call plan ninja nvcc -c k.cu -o k.o
        same 'descriptions' "$(sed -n 's/^  description = //p' "$room/out" | paste -sd ,)" \
            'gcc,cudafe++,gcc 800,cicc compute_80,ptxas sm_80,gcc 900,cicc compute_90,ptxas sm_90,fatbinary,gcc 900'
        for format in $("$zigrunk" plan --formats); do
            as=$zigrunk call plan "$format" nvcc -c k.cu -o k.o
            same "status, messages and product in $format" "$status$(cat "$room/err") $(grep -c 'k\.o\|k\.cu' "$room/out" | sed 's/[1-9][0-9]*/some/')" '0 some'
        done
        as=$zigrunk call NVCC_APPEND_FLAGS=-DAPPENDED plan json nvcc -c k.cu -o k.o
        same 'words of a variable' "$(grep -c '^nvcc .*--dryrun.*\[-DAPPENDED\]\|^nvcc .*\[-DAPPENDED\].*--dryrun' "$room/log")" 2
        as=$zigrunk call NVCC_PREPEND_FLAGS=-DPREPENDED plan json nvcc -c k.cu -o k.o
        same 'words of the other variable' "$(grep -c '^nvcc .*\[-DPREPENDED\]' "$room/log")" 2
        as=$zigrunk call plan json nvcc -c $'k\xff.cu'
        same 'a word that is no text' "$status $(cat "$room/err")" "2 zigrunk plan: a word isn't UTF-8"
        as=$zigrunk call plan json nvcc k.cu
        same 'a line that goes to nvcc' "$status $(cat "$room/out" "$room/err")" '3 zigrunk plan: goes to nvcc: it links'
        as=$zigrunk call KEPT_STATUS=1 DRY_RUN_DOES='echo bad >&2' plan json nvcc -c k.cu
        same 'a dry run that fails' "$status$(cat "$room/out") $(cat "$room/err")" $'1 bad\nzigrunk plan: a dry run fails'
        end
    fi
    if case_of 'words of zigrunk'; then
        refuses 'no word' 'zigrunk: a word is missing'
        refuses 'a mistyped word' 'zigrunk: unknown word pln; did you mean plan?' pln
        refuses 'another word' 'zigrunk: unknown word compile' compile
        refuses 'no format' 'zigrunk plan: a format is missing' plan
        refuses 'a mistyped format' 'zigrunk plan: unknown format jsn; did you mean json?' plan jsn nvcc
        refuses 'an option in place of a format' 'zigrunk plan: unexpected option --json' plan --json nvcc
        refuses 'no nvcc' 'zigrunk plan: nvcc and its words are missing' plan json --
        prints 'a version' "zigrunk $(cat "$manual/../VERSION")" --version
        prints 'the same help' "$("$zigrunk" help)" --help
        prints 'the help of a word' "$("$zigrunk" plan --help)" help plan
        same 'lines and columns of the help' "$("$zigrunk" help | awk 'length > 80 || NR > 24' | wc -l)" 0
        same 'formats in the manual' "$(listed_in "$manual/zigrunk-plan.1")" "$("$zigrunk" plan --formats)"
        same 'formats in the help' "$("$zigrunk" help plan | sed -n 's/^  \([a-z][a-z]*\)  .*/\1/p')" "$("$zigrunk" plan --formats)"
        end
    fi
}

# stated FILE: what a statement has: its product, how many commands, and which of these files of the call's folder.
stated() {
    sed -n 's/^      "name": "\(.*\)",$/\1/p' "$1"
    grep -c '^            "tool": {' "$1"
    sed -n "s,^ *\"uri\": \"file://$PWD/\(.*\)\"\,\$,\1,p" "$1" | sort -u | paste -sd ' '
}

# audits WHAT STATUS FINDING.. -- WORD..: what zigrunk audit says, without names of statements.
audits() {
    local what=$1 wanted=$2 findings=()
    shift 2
    while [ "$1" != -- ]; do findings+=("$1") && shift; done
    as=$zigrunk call "${settings[@]}" audit "${@:2}"
    same "$what" "$status $(sed "s,^[^:]*: ,,; s,$PWD/,,g; s,$room/,," "$room/out" "$room/err")" "$wanted $(printf '%s\n' "${findings[@]}")"
}

statements() {
    local zigrunk=$scratch/bin/zigrunk settings
    if case_of 'a statement of a product'; then
        settings=(LOG=/dev/null ZIGRUNK_PROVENANCE="$room/s/t")
        call "${settings[@]}" -c k.cu -o k.o
        same 'status and messages' "$status$(cat "$room/out" "$room/err")" 0
        same 'statements' "$(ls "$room/s/t" | sed 's/-[0-9a-f]*\.json/ in JSON/')" 'k.o in JSON'
        same 'product, commands and files' "$(stated "$room"/s/t/*.json)" $'k.o\n10\nk.o'
        same 'what is not known' "$(grep -c '"unknown": \[\]' "$room"/s/t/*.json)" 1
        audits 'an untouched build' 0 '1 checked, 0 findings' -- "$room"/s/t/*.json
        echo other > k.o
        audits 'another product' 1 'the product k.o has changed' '1 checked, 1 findings' -- "$room"/s/t/*.json
        rm k.o
        audits 'no product' 1 'the product k.o is missing' '1 checked, 1 findings' -- "$room"/s/t/*.json
        end
    fi
    if case_of 'a statement of what is not known'; then
        settings=(ZIGRUNK_PROVENANCE="$room/s")
        call "${settings[@]}" -c k.cu -o k.o
        splits
        same 'product, commands and files' "$(stated "$room"/s/*.json)" $'k.o\n10\nk.cu k.o'
        as=$zigrunk call audit "$room"/s/*.json
        same 'status and findings' "$status $(grep -c "maybe more was read: .* the command changed $room/log, which was there before" "$room/out")" '1 12'
        end
    fi
    if case_of 'a statement of a call that goes to nvcc'; then
        settings=(LOG=/dev/null ZIGRUNK_PROVENANCE="$room/s")
        call "${settings[@]}" k.cu -o "a b"
        same status "$status" 0
        same 'product, commands and files' "$(stated "$room"/s/*.json)" $'a b\n1\na%20b'
        call "${settings[@]}" NVCC_STATUS=7 k.cu -o failed
        same 'status of one that fails' "$status" 7
        call "${settings[@]}" ZIGRUNK_LOG="$room/calls" k.cu -o other
        same 'lines of the log' "$(grep -c . "$room/calls")" 1
        same 'statements' "$(ls "$room/s" | sed 's/-[0-9a-f]*\.json//' | paste -sd ,)" 'a b,other'
        end
    fi
    if case_of 'a list of calls with statements'; then
        settings=(LOG=/dev/null ZIGRUNK_PROVENANCE="$room/s")
        printf '[{"directory": "%s", "file": "k.cu", "command": "nvcc -c k.cu -o %s.o"},
            {"directory": ".", "file": "l.cu", "command": "nvcc -c k.cu -o l.o"}]' "$PWD" k > list.json
        call "${settings[@]}" -c k.cu -o k.o
        audits 'one that is missing' 1 'no statement is about the product l.o' '2 checked, 1 findings' -- --compile-commands list.json "$room/s"
        as=$zigrunk call "${settings[@]}" batch list.json
        same 'status of the batch' "$status$(cat "$room/err")" 0
        audits 'all' 0 '2 checked, 0 findings' -- --compile-commands list.json "$room/s"
        echo other > l.o
        audits 'one of another product' 1 'no statement is about the product l.o' '2 checked, 1 findings' -- --compile-commands list.json "$room/s"
        audits 'no list' 1 'k.cu is no list of calls: it is no compile_commands.json' -- --compile-commands k.cu "$room/s"
        end
    fi
    if command -v strace > /dev/null && case_of 'a traced statement'; then
        settings=(LOG=/dev/null ZIGRUNK_PROVENANCE="$room/s")
        call "${settings[@]}" TOOL_DOES='[ ! -e read.h ] || . ./read.h' CHILDLESS=1 -c k.cu -o k.o
        audits 'nothing beside it' 0 '1 checked, 0 findings' -- --trace "$room"/s/*.json
        : > read.h
        settings+=(TOOL_DOES='. ./read.h' CHILDLESS=1)
        audits 'a file beside it' 1 'a command reads read.h, which is not in the statement' '1 checked, 1 findings' -- --trace "$room"/s/*.json
        same product "$(cat k.o)" made
        settings+=(TOOL_DOES='exit 3')
        as=$zigrunk call "${settings[@]}" audit --trace "$room"/s/*.json
        same 'one that fails' "$status $(grep -c 'the commands cannot be traced: .*gcc under strace: exit status: 3$' "$room/out")" '1 1'
        call "${settings[@]}" TOOL_DOES= k.cu
        end
    fi
    if case_of 'statements that cannot be'; then
        for other in CACHE=yes LAUNCHER=ccache RUNNER=run REMOTE=grpc://a:1; do
            call ZIGRUNK_PROVENANCE="$room/s" "ZIGRUNK_$other" -c k.cu -o k.o
            same "status and message with $other" "$status $(cat "$room/err")" \
                "2 zigrunk-nvcc: ZIGRUNK_PROVENANCE and ZIGRUNK_${other%%=*} cannot both be set: a statement says what commands read here"
        done
        call ZIGRUNK_PROVENANCE=/dev/null/s -c k.cu -o k.o
        same 'status and message without a folder' "$status $(cat "$room/err")" '2 zigrunk-nvcc: cannot make the folder /dev/null/s: Not a directory'
        call ZIGRUNK_PROVENANCE="$room/s" TOOL_DOES="rm -rf '$room/s'" CHILDLESS=1 -c k.cu -o k.o
        same 'status and message of one that is gone' "$status $(cat "$room/err")" \
            "1 zigrunk-nvcc: cannot write a statement to $room/s: No such file or directory"
        refuses 'no statement' 'zigrunk audit: a statement is missing' audit
        echo '{}' > other.json
        as=$zigrunk call audit other.json
        same 'no statement in a file' "$status $(cat "$room/err")" '1 zigrunk audit: other.json is no statement: missing field `_type` at line 1 column 2'
        as=$zigrunk call audit missing.json
        same 'a file that is missing' "$status $(cat "$room/err")" '1 zigrunk audit: cannot read missing.json: No such file or directory'
        end
    fi
}

for part in ${PARTS-unit end_to_end folders early_starts late_starts compilers to_nvcc outputs products signals settings logs plans statements slots jobservers}; do "$part"; done
summary
