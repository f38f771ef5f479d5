#!/usr/bin/env bash
# Tests of zigrunk batch and zigrunk report as parts of the compiled driver, with stand-ins for nvcc and its tools (tests/driver/).
# Prints a line for each case that fails, and last 'N passed, M failed'; the status is 1 if one failed.
#
#   tests/driver_batch.sh [DRIVER]    DRIVER is a built zigrunk-driver; else the one that tests/driver.sh builds
#
# ONLY=TEXT runs the cases whose names have this text. PARTS="lists reports" runs these parts, of those in the last line but one. STOP_EARLY, if
# set, ends the run at the first failure.
# shellcheck disable=SC2016,SC2010,SC2012,SC2089,SC2090 # the stand-ins expand what cases give them
cd "$(dirname "$0")/.." || exit 1
. tests/lib.sh
trap 'kill $(jobs -p) 2> /dev/null; rm -rf "$scratch"' EXIT
require 'the batch' pgrep
unset NVCC_PREPEND_FLAGS NVCC_APPEND_FLAGS CDPATH MAKEFLAGS MFLAGS "${!ZIGRUNK@}"
# The stand-in for fatbinary writes no file for an assembler.
export ZIGRUNK_LATE=0
user=$(id -u)
shell=(driver)
driver=$(realpath "${1:-out/rust/target/release/zigrunk-driver}")
[ -x "$driver" ] || skip_all 'the batch' "there is no $driver: tests/driver.sh builds it"
stand_ins=$PWD/tests/driver examples=$PWD/examples/cluster

# The toolkit of the stand-ins. The lines of a source are what three preprocessors do: for the host, for 80 and for 90. With a file
# SOURCE.ii they write that. nvcc itself makes a source whose name begins with 'whole', and does all of its lines.
export CUDA=$scratch/cuda DATA=$PWD/tests/drivers/test_plans/data/dry_runs
mkdir -p "$CUDA/bin" "$CUDA/nvvm/bin" "$scratch/bin" "$scratch/opt"
for tool in gcc g++ gcc-12 clang++-14 cc cudafe++ ptxas fatbinary; do ln -s "$stand_ins/tool" "$CUDA/bin/$tool"; done
ln -s "$stand_ins/tool" "$CUDA/nvvm/bin/cicc"
ln -s "$stand_ins/nvcc" "$CUDA/bin/nvcc"
ln -s "$stand_ins/nvcc" "$scratch/opt/nvcc"
cp "$driver" "$scratch/bin/zigrunk-batch"
ln -s zigrunk-batch "$scratch/bin/zigrunk-report"
printf '%s\n' '#!/bin/sh' 'printf "%s\n" "runner $*" >> "$LOG"' 'exec "$@"' > "$scratch/bin/runner"
chmod +x "$scratch/bin/runner"
export PATH=$CUDA/bin:$scratch/bin:$PATH
TOOL_DOES='case $name in gcc-E) part=1 ;; gcc-E.80) part=2 ;; gcc-E.90) part=3 ;; *) part="" ;; esac
case $name in cc | g* | clang*) [ -z "${LOSE-}" ] || [ -n "$part" ] || exit 0 ;; esac
[ -z "$part" ] || for word; do
    case $word in *.cu) source=$word && eval "$(sed -n "${part}p" "$word")" ;; esac
    [ "$last" != -o ] || out=$word
    last=$word
done
[ -z "$part" ] || [ ! -e "$source.ii" ] || { cp "$source.ii" "$out" && exit; }'
OWN_DOES='case $source in whole*) exit 4 ;; esac'
NVCC_DOES='for word; do case $word in *.cu) . "./$word" ;; esac; done'
export TOOL_DOES OWN_DOES NVCC_DOES

# case_of NAME: begins a case, if it is one of those to run.
case_of() {
    is_wanted "$1" || return 1
    room=$scratch/room list=''
    begin "$1"
    mkdir "$room/run" && chmod 700 "$room/run"
}

# write NAME LINE..: a source with these lines.
write() {
    printf '%s\n' "${@:2}" > "$1"
}

# batch [NAME=VALUE..] WORD..: runs the batch with these variables and words. The list is $list, if no word names one.
batch() {
    local settings=()
    while [[ ${1-} == *=* ]]; do settings+=("$1") && shift; done
    : > "$room/log"
    timeout 600 env LOG="$room/log" TMPDIR="$room/tmp" XDG_RUNTIME_DIR="$room/run" "${settings[@]}" "$scratch/bin/zigrunk-batch" "$@" > "$room/out" 2> "$room/err" <<< "${list-}"
    status=$?
}

# with_few_files N [NAME=VALUE..] [WORD..]: a batch that may have N open files.
with_few_files() (
    limit_files "$1"
    batch "${@:2}"
    exit "$status"
)

# said TEXT: what standard output has, without what the stand-in for nvcc says.
said() { grep -v '^nvcc sees' "$room/out"; }
complained() { grep -v '^nvcc says' "$room/err"; }
logged() { grep -c -e "$1" "$room/log"; }

# most: how many of the commands ran at once that note their begin and end in `ends`.
most() { awk '{ now += $1 == "+" ? 1 : -1; if (now > most) most = now } END { print most }' ends && rm ends; }

# end: counts the case. Nothing stays but the user's folder and the slots.
end() {
    same 'files left' "$(cd "$room/tmp" && find . -mindepth 2; cd "$room/tmp" && ls -A | grep -vx "zigrunk-$user")" ''
    same 'calls that wait' "$(find "$room/run" -name 'wait-*')" ''
    same 'processes' "$(pgrep -f "^$scratch/bin/zigrunk-batch")" ''
    end_case
}

# within SECONDS COMMAND..: waits until the command succeeds, and fails if it takes longer than so many seconds of an idle machine. A busy one
# may take six times as long.
within() {
    local last=$((SECONDS + $1 * 6))
    until "${@:2}"; do
        [ "$SECONDS" -le "$last" ] || return
        sleep 0.02
    done
}
none_run() { [ -z "$(running "$room")" ]; }

lists() {
    if case_of 'calls that are split, and one that is not'; then
        write a.cu 'echo a >> made' 'echo a >> made'
        write b.cu 'echo b >> made' 'echo b >> made' 'echo b >> made'
        write whole.cu 'echo whole >> made'
        list=$'nvcc -c a.cu -o a.o\nnvcc -c b.cu -o b.o\nnvcc -c whole.cu -o w.o'
        batch
        same 'status, output and products' "$status$(said; complained)$(cat a.o b.o w.o | tr '\n' ,)" '0made,made,made by nvcc,'
        same made "$(sort made | uniq -c | tr -s ' \n' ' ')" ' 2 a 3 b 1 whole '
        same 'calls of nvcc' "$(grep '^nvcc ' "$room/log" | grep -v dryrun)" 'nvcc [-c] [whole.cu] [-o] [w.o]'
        end
    fi
    if case_of 'words of a line'; then
        write 'a b.cu' ':'
        list=$'# nvcc -c no.cu\n\n   \n-c \'a b.cu\' "-DX=$HOME y" -o a.o # nvcc -c no.cu\n  zigrunk-nvcc -c a\\ b.cu -o b.o\n/opt/nvcc -c "a b.cu" -o c.o\nzigrunk-nvcc /opt/nvcc -c "a b.cu" -o d.o\nnvcc -c "a b.cu" -DN=v -o $OUT.o -DL=\'it\'"\'"\'s;\''
        list=${list//\/opt/$scratch/opt}
        batch OUT=5
        same 'status and messages' "$status$(said; complained)" 0
        same 'own dry runs' "$(grep '^nvcc \[--dryrun\] \[-c\]' "$room/log" | sort)" \
            "$(printf '%s\n' "nvcc [--dryrun] [-c] [a b.cu] [-DX=$HOME y] [-o] [a.o]" 'nvcc [--dryrun] [-c] [a b.cu] [-o] [b.o]' 'nvcc [--dryrun] [-c] [a b.cu] [-o] [c.o]' 'nvcc [--dryrun] [-c] [a b.cu] [-o] [d.o]' \
                "nvcc [--dryrun] [-c] [a b.cu] [-DN=v] [-o] [5.o] [-DL=it's;]" | sort)"
        end
    fi
    if case_of 'a list as a file, whose last line has no end'; then
        write a.cu 'echo a'
        write b.cu 'echo b'
        printf '%s\n%s' '-c a.cu -o a.o' '-c b.cu -o b.o' > 'a list'
        batch 'a list'
        same 'status and output' "$status $(said; complained)" $'0 a\nb'
        end
    fi
    if case_of 'an empty list'; then
        list=$'\n# nothing'
        batch
        same 'status and output' "$status$(said; complained)" 0
        end
    fi
    if case_of 'two calls that make one file'; then
        mkdir sub && ln -s sub near
        write a.cu 'echo a >> made'
        list=$'\n-c a.cu -o sub/a.o\n# no call\n-c whole.cu -o b.o\n-c a.cu -o ./near/../near/a.o'
        batch
        same 'status and messages' "$status $(complained)" "1 zigrunk batch: lines 2 and 5 make one file: $room/work/sub/a.o"
        list="[{\"directory\": \"$room/work\", \"file\": \"a.cu\", \"command\": \"nvcc -c a.cu\"}, {\"directory\": \"sub\", \"file\": \"a.cu\", \"command\": \"gcc -c a.c -o ../a.o\"}]"
        batch
        same 'status and messages, entries' "$status $(complained)" "1 zigrunk batch: entries 1 and 2 make one file: $room/work/a.o"
        [ ! -e made ] || problems+='  a command runs'$'\n'
        end
    fi
    if case_of 'lines that a shell runs whole'; then
        mkdir sub
        write sub/a.cu 'echo sub >> ../made'
        write a.cu 'echo "$NAME" >> made'
        list=$'cd sub && nvcc -c a.cu -o a.o\nNAME=value nvcc -c a.cu -o b.o\nnvcc -c a.cu -o "$(echo run >> ran; echo c.o)"\nnvcc -c a.cu -o `echo d.o`\necho text > text; exit 4\nif true; then echo if; fi\n! true\necho \'in quotes\' > quoted\necho end;\necho *.txt $((1 + 1)) ${NAME:-x}'
        touch 1.txt 2.txt
        batch NAME=before ZIGRUNK_RUNNER=runner
        same status "$status" 4
        same made "$(sort made | tr '\n' ,) $(cat ran text quoted | tr '\n' ' ')$(said)" $'before,before,sub,value, run text in quotes if\nend\n1.txt 2.txt 2 before'
        same 'by the runner' "$(logged '^runner sh -c ')" 10
        same messages "$(complained)" "zigrunk batch: line 5: exit status 4: echo text > text; exit 4"$'\n''zigrunk batch: line 7: exit status 1: ! true'
        same 'calls of nvcc, none of them split' "$(logged '^nvcc ') $(logged '^+')" '4 0'
        end
    fi
    if case_of 'many calls'; then
        for number in $(seq 16); do
            write "$number.cu" "echo $number" "echo $number >> made"
            list+="-c $number.cu -o $number.o"$'\n'
        done
        batch
        same 'status and output' "$status $(said; complained)" "0 $(seq 16)"
        same made "$(sort -n made)" "$(seq 16)"
        end
    fi
    if case_of 'calls of other programs'; then
        list=$'sh -c "echo out; echo err >&2; exit 4"\ntrue'
        batch ZIGRUNK_RUNNER=runner
        same 'status and output' "$status $(said)" '4 out'
        same messages "$(complained)" $'err\nzigrunk batch: line 1: exit status 4: sh -c "echo out; echo err >&2; exit 4"'
        same 'by the runner' "$(logged '^runner')" 2
        end
    fi
}

# lost WHAT PRODUCT: a list of one call whose product isn't made, though all that runs ends with 0.
lost() {
    same "status, $1" "$status" 1
    same "messages, $1" "$(complained)" "zigrunk batch: no new $PWD/$2, though the call ended with 0"$'\n'"zigrunk batch: line 1: exit status 1: $list"
}

products() {
    for line in 'nvcc -c a.cu -o p,p' 'gcc -c a.c -o p,p' 'gcc -c a.c,a.o' 'cc -c a.c -o p,p' 'clang++-14 -c a.c -o p,p' 'nvcc -c sub/a.cu,a.o'; do
        if case_of "a product that nobody makes: $line"; then
            mkdir sub
            write a.cu ':' && write sub/a.cu ':'
            list=${line%,*}
            batch LOSE=1
            lost 'none is there' "${line#*,}"
            echo old > "${line#*,}"
            batch LOSE=1
            lost 'an old one is there' "${line#*,}"
            # The stand-ins know no product without -o.
            if [[ $line == *' -o '* ]]; then
                batch
                same 'status, messages and product' "$status$(complained; cat "${line#*,}")" 0made
                batch
                same 'the same product again' "$status$(complained; cat "${line#*,}")" 0made
            fi
            end
        fi
    done
    if case_of 'calls without a product'; then
        touch a.cu
        for list in 'gcc -fsyntax-only -c a.c -o p' 'nvcc --version -o p' 'nvcc -c a.cu -o /dev/null'; do
            batch ZIGRUNK_RUNNER=true OWN_DOES='exit 4'
            same "status and messages, $list" "$status$(complained)" 0
        done
        end
    fi
    if case_of 'a product that a shared disk shows late'; then
        mkdir "$room/bin"
        printf '%s\n' '#!/bin/sh' 'echo "sleep $1" >> "$LOG"' '[ "$1" != 2 ] || echo made > p' > "$room/bin/sleep"
        chmod +x "$room/bin/sleep"
        list='gcc -c a.c -o p'
        batch CHILDLESS=1 PATH="$room/bin:$PATH" LOSE=1 ZIGRUNK_RUNNER=runner
        same 'status, messages and pauses' "$status$(complained) $(grep sleep "$room/log" | paste -sd ' ')" '0 sleep 1 sleep 2'
        rm -f p
        same 'files left beside it' "$(ls -A)" ''
        end
    fi
}

failures() {
    if case_of 'statuses and messages in the order of the list'; then
        write one.cu 'echo "one says" >&2' 'sleep 0.3; echo "one also"'
        write two.cu ':' 'echo "two fails" >&2; exit 7' 'echo never'
        write three.cu 'echo "three fails"; exit 5' 'echo never'
        write whole.cu 'echo "nvcc fails" >&2; exit 9'
        write four.cu 'echo four'
        for at in one two three whole four; do list+="nvcc -c $at.cu -o $at.o"$'\n'; done
        batch
        same 'status and output' "$status $(said)" $'7 one also\nthree fails\nfour'
        same messages "$(complained)" "$(printf '%s\n' 'one says' 'two fails' 'zigrunk batch: line 2: exit status 7: nvcc -c two.cu -o two.o' \
            'zigrunk batch: line 3: exit status 5: nvcc -c three.cu -o three.o' 'nvcc fails' 'zigrunk batch: line 4: exit status 9: nvcc -c whole.cu -o whole.o')"
        end
    fi
    if case_of 'a command that a signal ends'; then
        write a.cu 'kill -KILL $$'
        list='-c a.cu -o a.o'
        for settings in ZIGRUNK_RUNNER= ZIGRUNK_RUNNER=env "ZIGRUNK_LOG=$room/calls"; do
            batch CHILDLESS=1 "$settings"
            same "status and messages, $settings" "$status $(complained)" $'137 Killed\nzigrunk batch: line 1: exit status 137: -c a.cu -o a.o'
        done
        same 'commands in the log' "$(grep -o '"status":137' "$room/calls" | wc -l)" 2
        end
    fi
    if case_of 'lines that no shell can read, and programs that are missing'; then
        write a.cu 'echo a'
        list=$'-c \'a.cu -o a.o\n-c a.cu -o a.o\nmissing-program -c'
        batch
        same 'status and output' "$status $(said)" '2 a'
        same messages "$(grep '^zigrunk batch' "$room/err" | cut -c 1-40)" $'zigrunk batch: line 1: exit status 2: -c\nzigrunk batch: cannot find missing-progr\nzigrunk batch: line 3: exit status 127: '
        end
    fi
    if case_of 'closed streams'; then
        write a.cu 'echo a'
        write whole.cu 'exit 3'
        printf '%s\n' '-c a.cu -o a.o' '-c whole.cu -o w.o' > list
        export LOG=$room/log TMPDIR=$room/tmp XDG_RUNTIME_DIR=$room/run
        "$scratch/bin/zigrunk-batch" list 2> "$room/err" >&-
        same 'status and messages, standard output' "$? $(complained)" '3 zigrunk batch: line 2: exit status 3: -c whole.cu -o w.o'
        "$scratch/bin/zigrunk-batch" list > "$room/out" 2>&-
        same 'status and output, standard error' "$? $(said)" '3 a'
        "$scratch/bin/zigrunk-batch" list > /dev/full 2> "$room/err"
        same 'status and messages, a full disk' "$? $(complained | tail -n 1)" '3 zigrunk batch: line 2: exit status 3: -c whole.cu -o w.o'
        unset LOG TMPDIR XDG_RUNTIME_DIR
        end
    fi
    if case_of 'wrong usage'; then
        for words in 'one two:one list at a time, not two too' '-x:unexpected option -x' '-j:-j needs a number' '-j 0:-j needs a number from 1, not 0' '-k 01:-k needs a number, not 01' '--part 3/2 a:--part needs two numbers from 1, such as 3/8' '--missing:--part and --missing need a list in a file'; do
            # shellcheck disable=SC2086 # several words
            batch ${words%:*}
            same "status and messages, $words" "$status $(cat "$room/err")" "2 zigrunk batch: ${words##*:}"$'\n''usage: zigrunk batch [-j N] [-k N] [--progress] [--incremental] [--part I/N] [--missing] [FILE]'
        done
        batch --help
        same 'status and help' "$status $(cat "$room/out")" "0 $(cat << 'HELP'
usage: zigrunk batch [-j N] [-k N] [--progress] [--incremental] [--part I/N] [--missing] [FILE]

Makes the calls of a list, split into their commands, side by side.

FILE          a call on each line, as you would type it, or a compile_commands.json; standard input if it is - or missing
-j N          run N commands at once; ZIGRUNK_JOBS says the same
-k N          start nothing more once N calls have failed; 0, as without it, makes all other calls
--progress    say how far it is, also if standard error is no terminal
--incremental  leave out the calls whose words, products and files are as they were when --incremental made them last
--part I/N    make the calls I, I+N, I+2N .. of FILE, as with --incremental: a task of a scheduler
--missing     make none; print each call of FILE, or of the part, that --incremental hasn't made, and why
--unless-made NVCC WORD..    make one call, unless a batch with --incremental has made it in this directory: a launcher for CMake
--version     print the version
-h, --help    print this text

Right behind the word batch may stand --root FOLDER and --check-twice, as for zigrunk nvcc.
The status is that of the first call in the list that failed. man zigrunk-batch has the rest.
HELP
)"
        batch --version
        same 'status and version' "$status $(grep -c '^zigrunk batch [0-9.]*$' "$room/out")" '0 1'
        mkdir directory
        for name in 'directory: Is a directory' 'missing: No such file or directory'; do
            batch "${name%%:*}"
            same "status and messages, $name" "$status $(cat "$room/err")" "1 zigrunk batch: cannot read $name"
        done
        write a.cu :
        list='-c a.cu'
        batch TMPDIR="$room/missing"
        same 'status without a TMPDIR' "$status$(complained | grep -c '^zigrunk batch: no temporary directory')" 11
        end
    fi
    if case_of 'options'; then
        for number in 1 2 3 4; do write "$number.cu" "echo $number >> made"; done
        write 2.cu 'exit 6'
        list=$'-c 1.cu -o 1.o\n-c 2.cu -o 2.o\n-c 3.cu -o 3.o\n-c 4.cu -o 4.o\n-c whole.cu -o 5.o'
        write whole.cu 'echo 5 >> made'
        batch -j 1 -k1 -- -
        same 'status, -k' "$status $(sort made | tr '\n' ' ')" '6 1 '
        same 'messages, -k' "$(complained)" $'zigrunk batch: a command failed with status 6 and without a message\nzigrunk batch: line 2: exit status 6: -c 2.cu -o 2.o\nzigrunk batch: stopped, 3 of the calls not made'
        rm -f made
        list=${list%$'\n-c 4.cu'*}
        batch -j 1 -k1
        same 'messages, -k, of one call' "$status $(complained | tail -n 1)" '6 zigrunk batch: stopped, 1 of the calls not made'
        list+=$'\n-c 4.cu -o 4.o\n-c whole.cu -o 5.o'
        rm -f made
        batch -j2 -k 0
        same 'status and calls, -k 0' "$status $(sort made | tr '\n' ' ')" '6 1 3 4 5 '
        end
    fi
    if case_of 'how many commands run at once'; then
        for number in 1 2 3; do write "$number.cu" 'echo + >> ends; sleep 1; echo - >> ends' 'echo + >> ends; sleep 1; echo - >> ends' 'echo + >> ends; sleep 1; echo - >> ends' && list+="-c $number.cu -o $number.o"$'\n'; done
        batch -j 1
        same 'with -j 1' "$status$(most)" 01
        batch ZIGRUNK_JOBS=2 ZIGRUNK_SLOTS=9
        same 'with ZIGRUNK_JOBS=2' "$status$(most)" 02
        batch ZIGRUNK_SLOTS=3 -j 9
        same 'with ZIGRUNK_SLOTS=3' "$status$(most)" 03
        batch ZIGRUNK_RUNNER=env -j 5
        same 'with a runner' "$status$(($(most) <= 5))" 01
        end
    fi
    if case_of 'jobs of make'; then
        for number in 1 2 3; do write "$number.cu" 'echo + >> ends; sleep 1; echo - >> ends' 'echo + >> ends; sleep 1; echo - >> ends' && list+="-c $number.cu -o $number.o"$'\n'; done
        mkfifo "$room/jobs" && exec 5<> "$room/jobs" && printf a >&5
        batch MAKEFLAGS=" -j2 --jobserver-auth=fifo:$room/jobs" ZIGRUNK_SLOTS=9 -j 9
        same 'status, and how many commands ran at once' "$status$(most)" 02
        IFS= read -r -N 1 -t 5 token <&5
        same 'the job that make gets back' "$token" a
        exec 5>&-
        end
    fi
    if case_of progress; then
        write a.cu ':' 'sleep 1.2'
        write whole.cu 'exit 3'
        list=$'-c a.cu -o a.o\n-c whole.cu -o w.o'
        batch --progress
        same 'status and its last line' "$status $(grep ' of ' "$room/err" | tail -n 1 | sed 's/[0-9.]* a second/N a second/')" '3 zigrunk batch: 2 of 2 calls, 1 failed, 11 commands, N a second: -c a.cu -o a.o'
        same 'a failure while others run' "$(grep -n '1 of 2 calls, 1 failed' "$room/err" | head -n 1 | wc -l)" 1
        if command -v script > /dev/null; then
            printf '%s\n' '-c a.cu -o a.o' > list
            LOG=$room/log TMPDIR=$room/tmp XDG_RUNTIME_DIR=$room/run script -qec "$scratch/bin/zigrunk-batch list" /dev/null > "$room/out" < /dev/null
            same 'lines of a terminal' "$(tr '\r' '\n' < "$room/out" | grep -c 'of 1 calls') $(grep -c . "$room/out")" "$(tr '\r' '\n' < "$room/out" | grep -c 'zigrunk batch') 1"
        fi
        end
    fi
    if case_of 'a call that nvcc makes, with a reason'; then
        write whole.cu ':'
        list='-c whole.cu -o w.o'
        batch ZIGRUNK_EXPLAIN=1 ZIGRUNK_LOG="$room/calls"
        same 'status and messages' "$status $(complained)" '0 zigrunk batch: nvcc itself: a dry run fails'
        same 'the log' "$(grep -c '"reason":"a dry run fails","commands":\[\],"words":\["nvcc","-c","whole.cu","-o","w.o"\]' "$room/calls")" 1
        end
    fi
    if case_of 'a launcher that refuses'; then
        write a.cu ':' && write b.cu ':'
        printf '%s\n' '#!/bin/sh' 'case $1 in */cicc) echo "sccache: error: Compiler not supported: odd" >&2; echo asked >> "$LOG.asked"; exit 2 ;; esac' \
            'exec "$@"' > "$room/cache" && chmod +x "$room/cache"
        list=$'-c a.cu -o a.o\n-c b.cu -o b.o'
        batch ZIGRUNK_LAUNCHER="$room/cache" -j 1
        same 'status, and what is said once' "$status $(complained)" "0 zigrunk batch: $room/cache doesn't take cicc, which runs without it"
        same 'how often it was asked' "$(cat "$room"/*.asked)" asked
        end
    fi
    if case_of 'few files may be open'; then
        for number in 1 2 3; do write "$number.cu" ':' && list+="-c $number.cu -o $number.o"$'\n'; done
        inherit 40 with_few_files 40 ZIGRUNK_SLOTS=0 -j 30
        same 'status and products' "$? $(cat ./*.o | sort -u)" '0 made'
        end
    fi
    if case_of 'several calls with still fewer files'; then
        for number in 1 2 3; do write "$number.cu" ':' && list+="-c $number.cu -o $number.o"$'\n'; done
        for number in $(seq 10 39); do
            with_few_files "$number" ZIGRUNK_SLOTS=0 -j 30
            # (a stand-in for nvcc is a script, which dash can't open with ten files)
            case $?,$(cat "$room/err") in
            0,* | 2,'/bin/sh: 0: '*'Invalid argument'* | 1,*'zigrunk batch: no process for '* | 1,*'zigrunk batch: no temporary directory: '* | 1,*'Too many open files'*) ;;
            *) problems+="  with $number files: $(head -c 300 "$room/err")"$'\n' ;;
            esac
            within 5 none_run || problems+="  processes with $number files: $(shown "$room")"$'\n'
        done
        find "$room/tmp/zigrunk-$user" -mindepth 1 -maxdepth 1 -exec touch -d '11 minutes ago' {} +
        batch
        end
    fi
    if case_of 'too few files may be open, anywhere'; then
        write a.cu ':' && list='-c a.cu -o a.o'
        for files in $(seq 8 28); do
            rm -f a.o
            with_few_files "$files"
            same "status and product with $files" "$(case $?$(cat a.o 2> /dev/null) in 0made* | [12] | [12]made* | 12[67]*) ;; *) head -c 300 "$room/err" ;; esac)" ''
        done
        # Without a file to look into it, a directory can't be removed. It has its lock then, by which a later call removes it.
        same 'directories, or locks, alone' "$(ls "$room/tmp/zigrunk-$user" | sed 's/\.lock$//' | sort | uniq -u)" ''
        find "$room/tmp/zigrunk-$user" -mindepth 1 -maxdepth 1 -exec touch -d '11 minutes ago' {} +
        batch
        end
    fi
}

# made_by WHAT NAMES [NAME=VALUE]: which calls a batch with --incremental makes.
made_by() {
    rm -f made
    batch "${@:3}" --incremental
    same "status and messages, $1" "$status$(complained)" 0
    same "calls, $1" "$(sort made 2> /dev/null | tr '\n' ' ')" "$2"
}

# reading NAME HEADER..: a source whose preprocessors read these, and whose call adds NAME to made.
reading() {
    write "$1.cu" "echo $1 >> made"
    { printf '# 0 "%s.cu"\n# 0 "<built-in>"\n' "$1" && printf '# 1 "%s" 1\n' "${@:2}"; } > "$1.cu.ii"
}

incremental() {
    if case_of 'only what is out of date'; then
        mkdir 'in c'
        touch a.h 'in c/b.h' 'in c/q"\h' other.rsp
        reading a a.h 'in c/b.h'
        reading b 'in c/q\"\\h' '<command line>'
        list=$'-c a.cu -o a.o\n-c b.cu -o b.o -DN=other.rsp'
        made_by 'the first time' 'a b '
        made_by 'nothing has changed' ''
        same 'dry runs, nothing has changed' "$(logged '^nvcc')" 0
        echo x > a.h
        made_by 'a header has changed' 'a '
        sleep 0.02 && touch 'in c/b.h'
        made_by 'a header is newer' 'a '
        echo x > 'in c/q"\h'
        made_by 'a header with an odd name has changed' 'b '
        echo ': x' >> b.cu
        made_by 'a source has changed' 'b '
        echo x >> other.rsp
        made_by 'a file that a word names has changed' 'b '
        rm a.o
        made_by 'a product is gone' 'a '
        echo x > b.o
        made_by 'a product has changed' 'b '
        rm a.h && batch --incremental
        touch a.h
        made_by 'a header was missing' 'a '
        made_by 'words of a variable' 'a b ' NVCC_APPEND_FLAGS=-DX
        made_by 'the words are as before' 'a b '
        batch
        same 'without the option' "$(sort made | tr '\n' ' ')" 'a a b b '
        end
    fi
    if case_of 'what is made again each time'; then
        write a.cu 'echo a >> made' && echo 'no markers' > a.cu.ii
        reading b b.h && touch b.h && echo 'sleep 0.1; echo >> b.h' >> b.cu
        list=$'-c a.cu -o a.o\n-c b.cu -o b.o\necho d >> made'
        made_by 'the first time' 'a b d '
        made_by 'nobody knows what they read, or it changed meanwhile' 'a b d '
        reading a a.h && touch a.h && echo 'exit 3' > a.cu
        list='-c a.cu -o a.o'
        batch --incremental && batch --incremental
        batch --incremental
        same 'the status of a call that fails' "$status" 3
        end
    fi
    if case_of 'dependency files'; then
        for line in '-MD -MF o.d:o.d' '-MMD -MF=o.d:o.d' '-MD:sub/k.d'; do
            rm -rf ./* .zigrunk-batch && mkdir sub && touch k.c 'a b.h' 'c#$.h'
            printf 'sub/k.o : k.c a\\ b.h \\\n  c\\#$$.h\na.h:\n' > "${line#*:}"
            list="gcc ${line%:*} -c k.c -o sub/k.o"
            batch ZIGRUNK_RUNNER=runner --incremental
            same "status and calls, $line" "$status $(logged '^runner')" '0 1'
            batch ZIGRUNK_RUNNER=runner --incremental
            same "calls, $line, nothing has changed" "$status $(logged '^runner')" '0 0'
            for file in k.c 'a b.h' 'c#$.h'; do
                echo x >> "$file"
                batch ZIGRUNK_RUNNER=runner --incremental
                same "calls, $line, $file has changed" "$status $(logged '^runner')" '0 1'
            done
        done
        end
    fi
    if case_of 'where the records are'; then
        mkdir far && touch far/a.h
        (cd far && reading a a.h)
        echo '[{"directory": ".", "file": "a.cu", "command": "nvcc -c a.cu -o a.o"}]' > far/compile_commands.json
        batch --incremental far/compile_commands.json
        batch --incremental far/compile_commands.json
        same 'status, calls and records' "$status $(logged '^nvcc') $(find . -name .zigrunk-batch)" '0 0 ./far/.zigrunk-batch'
        touch .zigrunk-batch
        list='-c a.cu -o a.o'
        batch --incremental
        same 'status and messages' "$status $(complained)" "1 zigrunk batch: cannot make $PWD/.zigrunk-batch"
        end
    fi
    if case_of 'calls that a batch has made'; then
        touch a.h 'b #$.h'
        reading a a.h 'b #$.h'
        write b.cu ':'
        list=$'-c a.cu -o a.o "-DA=\'"'
        batch --incremental
        batch --unless-made nvcc -MD -MT a.o -MF a.d -c a.cu -o a.o "-DA='"
        same 'status, output and calls of nvcc' "$status$(said; complained) $(logged '^nvcc')" '0 0'
        # shellcheck disable=SC1003 # a backslash
        same 'its dependency file' "$(grep -v /nvcc a.d)" $'a.o: \\\n a.cu \\\n a.h \\\n b\\ \\#$$.h'
        rm a.d
        batch --unless-made zigrunk-nvcc -c a.cu -o a.o "-DA='"
        same 'status, calls of nvcc and files' "$status $(logged '^nvcc') $(ls a.d 2> /dev/null)" '0 0 '
        echo x > a.h
        batch --unless-made nvcc -MD -MT a.o -MF a.d -c a.cu -o a.o "-DA='"
        same 'calls of nvcc, a header has changed' "$status $(logged '^nvcc \[-MD\] ')" '0 1'
        batch --unless-made nvcc -c b.cu -o b.o
        same 'calls of nvcc, no record' "$status $(logged '^nvcc \[-c\] \[b.cu\]')" '0 1'
        batch --unless-made sh -c 'exit 5'
        same 'status of another program' "$status" 5
        end
    fi
}

databases() {
    if case_of 'a compile_commands.json'; then
        mkdir sub 'o dd'
        write 'o dd/a b.cu' 'echo "a in $(pwd)"'
        write sub/b.cu 'echo "b in $(pwd)"; exit 6'
        cat > compile_commands.json << END
[ {"directory": "o dd", "file": "a b.cu", "command": "$scratch/opt/nvcc -c \\"a b.cu\\" '-DQ=*;x' -o a.o", "output": "a.o"},
  {"directory": "$room/work/sub", "file": "b.cu", "arguments": ["nvcc", "-c", "b.cu", "-DT=two\\nlines", "-o", "b.o"]},
  {"directory": ".", "file": "m.c", "arguments": ["echo", "other", "*"]} ]
END
        batch compile_commands.json
        same 'status and output' "$status $(said)" "6 a in $room/work/o dd"$'\n'"b in $room/work/sub"$'\nother *'
        same messages "$(complained)" 'zigrunk batch: entry 2: exit status 6: b.cu'
        same words "$(logged '^nvcc \[--dryrun\] \[-c\] \[a b.cu\] \[-DQ=\*;x\] \[-o\]')$(logged '^nvcc \[-c\] \[b.cu\] \[-DT=two$')" 11
        end
    fi
    if case_of 'a compile_commands.json with bytes that are no text'; then
        write a.cu 'echo a'
        printf '[{"directory": ".", "file": "a\377", "command": "nvcc -c a.cu -DA=\377 -o a.o"}]' > compile_commands.json
        batch compile_commands.json
        same 'status, output and words' "$status $(said; complained) $(LC_ALL=C grep -c $'^nvcc.*\[-DA=\377\]' "$room/log")" '0 a 1'
        end
    fi
    if case_of 'a compile_commands.json on standard input, and elsewhere'; then
        write a.cu 'echo a'
        for list in '[{"directory": "'$room/work'", "file": "a.cu", "command": "nvcc -c a.cu -o a.o"}]' $'\t\r\n [{"directory": ".", "file": "a.cu", "command": "nvcc -c a.cu -o a.o"}]'; do
            batch
            same 'status and output' "$status $(said; complained)" '0 a'
        done
        mkdir -p far/sub
        write far/sub/a.cu 'echo "a in $(pwd)"'
        echo '[{"directory": "sub", "file": "a.cu", "command": "nvcc -c a.cu -o a.o"}]' > far/compile_commands.json
        batch far/compile_commands.json
        same 'status and output, elsewhere' "$status $(said; complained)" "0 a in $room/work/far/sub"
        end
    fi
    if case_of 'no compile_commands.json'; then
        for list in '{"directory": "/"}' ' { "file": 1}' '{}'; do
            batch
            same "status and messages, $list" "$status $(complained)" '1 zigrunk batch: standard input is no compile_commands.json: it is a JSON object, not an array'
        done
        for list in '[' '[1]' '[{}]' '[{"directory": "/", "file": "x"}]' '[{"directory": "/", "file": "x", "command": "nvcc '\''"}]' '[{"directory": "/", "file": "x", "arguments": []}]'; do
            batch
            same "status and lines of messages, $list" "$status $(grep -c '^zigrunk batch: standard input is no compile_commands.json: ' "$room/err") $(wc -l < "$room/err")" '1 1 1'
        done
        list='[{"directory": "missing", "file": "x", "command": "true"}]'
        batch
        same 'a folder that is missing' "$status $(complained | head -n 1)" "2 zigrunk batch: no folder $PWD/missing"
        : > file
        list='[{"directory": "file", "file": "x", "command": "true"}]'
        batch
        same 'a file in place of a folder' "$status $(complained | head -n 1)" "2 zigrunk batch: no folder $PWD/file"
        end
    fi
}

places() {
    if case_of 'temporary files'; then
        write a.cu 'echo "$TMPDIR"; echo x > "$TMPDIR/x"'
        write whole.cu 'echo "$TMPDIR"; echo y > "$TMPDIR/y"'
        list=$'-c a.cu -o a.o\n-c whole.cu -o w.o'
        batch
        same 'status and folders' "$status $(said | sed "s,$room/tmp/zigrunk-$user/,," | sed 's/zigrunk-[0-9a-f]*/CALL/' | tr '\n' ' ')" '0 CALL/zigrunk.tmp batch/tmp '
        mkdir shared
        batch ZIGRUNK_TMP=shared
        same 'with ZIGRUNK_TMP' "$status $(said | sed "s,.*/shared/zigrunk-$user/zigrunk-[0-9a-f]*/,CALL/," | tr '\n' ' ')" "0 CALL/zigrunk.tmp $room/tmp "
        rm -f "$room/tmp/x" "$room/tmp/y"
        same 'files left in it' "$(find shared -mindepth 2)" ''
        end
    fi
    if case_of 'the runner, and the directory that it sees'; then
        write a.cu ':'
        write whole.cu ':'
        printf '%s\n' '#!/bin/sh' 'ls -d "$ZIGRUNK_BATCH" >> "$LOG.batch"' 'exec "$@"' > "$room/runner" && chmod +x "$room/runner"
        list=$'-c a.cu -o a.o\n-c whole.cu -o w.o'
        batch ZIGRUNK_RUNNER="$room/runner"
        same 'status, and what the runner saw' "$status $(sort "$room/log.batch" | uniq -c | tr -s ' ')" "0  11 $room/tmp/zigrunk-$user/batch"
        end
    fi
    if case_of 'no directory, and no nvcc'; then
        write a.cu ':' && list='-c a.cu -o a.o'
        batch TMPDIR="$room/missing"
        same 'no temporary directory' "$status $(cat "$room/err")" "1 zigrunk batch: no temporary directory in $room/missing: No such file or directory"
        "$scratch/bin/zigrunk-batch" --unless-made missing-nvcc -c a.cu > said 2>&1
        same 'no nvcc' "$? $(cat said)" "127 zigrunk batch: cannot find missing-nvcc in PATH; add nvcc's folder to PATH, or set ZIGRUNK_NVCC to its path"
        "$scratch/bin/zigrunk-batch" --unless-made > said 2>&1
        same 'no words' "$? $(head -n 1 said)" '2 zigrunk batch: --unless-made needs nvcc and its words'
        mkdir "$room/own" && ln -s "$scratch/bin/zigrunk-batch" "$room/own/nvcc"
        batch PATH="$room/own:/usr/bin:/bin"
        same 'no other nvcc' "$status $(head -n 1 "$room/err")" '127 zigrunk batch: nvcc is zigrunk-nvcc itself, and PATH has no other nvcc'
        mkdir gone && cd gone && rmdir "$room/work/gone"
        batch PWD="$room/work/gone"
        same 'no working directory' "$status $(grep zigrunk "$room/err")" '1 zigrunk batch: there is no working directory'
        cd "$room/work" || return
        end
    fi
    if case_of 'few calls are under way at once'; then
        for number in 1 2 3 4 5 6; do write "$number.cu" 'ls "$TMPDIR/../.." | grep -c "^zigrunk-[0-9a-f]*$" >> many' && list+="-c $number.cu -o $number.o"$'\n'; done
        batch -j 1
        same 'directories of calls' "$status $(sort -u many)" '0 1'
        end
    fi
    if case_of 'kept files'; then
        write a.cu ':'
        list='-c a.cu --keep -o a.o'
        batch
        same 'status and files kept' "$status $(find . -name '*.ptx' | wc -l)" '0 2'
        end
    fi
}

# started FILE COUNT: whether so many commands have started.
started() { [ "$(wc -l < "$1")" -ge "$2" ]; }

# stops SIGNAL STATUS [RUNNER [plans]]: a signal to the batch, once its commands run, or nvcc's dry runs.
stops() {
    case_of "the signal $1, runner '${3-}'${4:+ while it plans}" || return
    local does=''
    [ -z "${4-}" ] || does='echo >> started; sleep 300'
    write a.cu 'echo >> started; sleep 300; echo a >> made'
    write whole.cu 'echo >> started; sleep 300; echo whole >> made'
    printf '%s\n' '-c a.cu -o a.o' '-c whole.cu -o w.o' > list
    : > started
    env --default-signal=HUP,INT,TERM LOG="$room/log" TMPDIR="$room/tmp" XDG_RUNTIME_DIR="$room/run" ZIGRUNK_SLOTS=9 DRY_RUN_DOES="$does" ZIGRUNK_RUNNER="${3-}" "$scratch/bin/zigrunk-batch" -j 9 list > "$room/out" 2>&1 &
    local process=$! begun
    within 20 started started 2 || problems+="  $(wc -l < started) commands start"$'\n'
    begun=$EPOCHREALTIME
    kill -s "$1" "$process"
    { wait "$process"; } 2> /dev/null
    same status "$?" "$2"
    [ $((${EPOCHREALTIME/./} - ${begun/./})) -lt 18000000 ] || problems+='  it takes longer than three seconds of an idle machine'$'\n'
    within 5 none_run || problems+="  processes: $(shown "$room")"$'\n'
    [ ! -e made ] || problems+='  a command goes on'$'\n'
    end
}

killed() {
    case_of 'the batch is killed' || return
    write a.cu 'echo >> started; sleep 300; echo a >> made'
    printf '%s\n' '-c a.cu -o a.o' > list
    : > started
    LOG="$room/log" TMPDIR="$room/tmp" XDG_RUNTIME_DIR="$room/run" "$scratch/bin/zigrunk-batch" list > "$room/out" 2>&1 &
    within 20 started started 1 || problems+='  no command starts'$'\n'
    kill -KILL $!
    { wait $!; } 2> /dev/null
    within 10 none_run || problems+="  processes: $(shown "$room")"$'\n'
    [ ! -e made ] || problems+='  a command goes on'$'\n'
    within 10 eval '[ ! -e "$room/tmp/zigrunk-$user/batch" ]' || problems+='  its directory stays'$'\n'
    # What the call left goes with the next equal one.
    write a.cu ':'
    batch list
    same 'status and product of the next one' "$status $(cat a.o)" '0 made'
    end
}

reports() {
    if case_of 'the report of a batch'; then
        write a.cu ':' && write b.cu 'exit 3' && write whole.cu ':'
        list=$'-c a.cu -o a.o\n-c b.cu -o b.o\n-c whole.cu -o "w<.o"'
        batch ZIGRUNK_LOG="$room/calls"
        "$scratch/bin/zigrunk-report" --trace "$room/trace" --html "$room/page" "$room/calls" > "$room/report" 2>&1
        same 'status and first lines' "$? $(sed -n '1p; 3,4p' "$room/report")" $'0 calls: 3, failed: 1\nsplit: 2 of 3 (67 %)\n       1  to nvcc: a dry run fails'
        same 'calls that failed' "$(sed -n 2p "$room/report" | grep -c '^  status 3: [^ ]*nvcc -c b.cu -o b.o$')" 1
        same 'the page' "$(grep -c '<h2>' "$room/page") $(grep -c 'Longest chain' "$room/page") $(tail -n 1 "$room/page") $(grep -c '<script\|http' "$room/page")" '8 1 </html> 0'
        if command -v python3 > /dev/null; then
            same 'the trace' "$(python3 -c 'import json, sys; print(len(json.load(open(sys.argv[1]))["traceEvents"]))' "$room/trace")" "$(($(grep -o '"kind"' "$room/calls" | wc -l) + 1))"
        fi
        end
    fi
    if case_of 'the log of a batch has a hint once'; then
        write a.cu ':'
        list=$'--keep --keep-dir missing -c a.cu -o a.o\n--keep --keep-dir missing -c a.cu -o b.o\n-c a.cu -o c.o'
        batch ZIGRUNK_LOG="$room/calls"
        same 'status, lines and hints' "$status $(wc -l < "$room/calls") $(grep '^{"hint"' "$room/calls")" '0 4 {"hint":"make the directory that --keep-dir names"}'
        same 'the report' "$("$scratch/bin/zigrunk-report" "$room/calls" | sed -n 2,4p)" $'split: 1 of 3 (33 %)\n       2  to nvcc: the keep directory is missing\n  hint: make the directory that --keep-dir names'
        end
    fi
    if case_of 'a log without commands'; then
        write whole.cu ':'
        list='-c whole.cu -o w.o'
        batch ZIGRUNK_LOG="$room/calls"
        "$scratch/bin/zigrunk-report" --trace "$room/trace" --html "$room/page" "$room/calls" > "$room/report" 2>&1
        same 'status and first lines' "$? $(sed -n 1,3p "$room/report")" $'0 calls: 1, failed: 0\nsplit: 0 of 1 (0 %)\n       1  to nvcc: a dry run fails'
        same 'lines on commands' "$(grep -c '^commands:\|^the slowest:' "$room/report")" 0
        same 'the page' "$(grep -c '<h2>Why nvcc' "$room/page") $(grep -c 'NaN\|inf' "$room/page") $(tail -n 1 "$room/page")" '1 0 </html>'
        end
    fi
    if case_of 'logs that are cut, missing or no logs'; then
        head -c 300 < /dev/urandom > junk
        printf '{"begin":1,"end":2,"status":0,"commands":[],"words":["nvcc"]}\n{"begin":1,"en' > short
        { cat short; echo; cat junk; } > mixed
        "$scratch/bin/zigrunk-report" mixed --html page > report 2>&1
        same 'a cut log and junk' "$? $(head -n 1 report) $(tail -n 1 report | grep -c 'lines are no entries of such a log') $(tail -n 1 page)" '0 calls: 1, failed: 0 1 </html>'
        "$scratch/bin/zigrunk-report" short junk > report 2>&1
        same 'junk alone' "$? $(cat report)" '1 zigrunk report: junk is no log of ZIGRUNK_LOG: none of its lines is an entry'
        : > empty
        "$scratch/bin/zigrunk-report" empty > report 2>&1
        same 'an empty log' "$? $(cat report)" $'0 calls: 0, failed: 0\nsplit: 0 of 0'
        "$scratch/bin/zigrunk-report" missing > report 2>&1
        same 'no log' "$? $(cat report)" '1 zigrunk report: cannot read missing: No such file or directory'
        "$scratch/bin/zigrunk-report" --html missing/page short > report 2>&1
        same 'a page that cannot be written' "$? $(cat report)" '1 zigrunk report: cannot write missing/page: No such file or directory'
        "$scratch/bin/zigrunk-report" - > report 2>&1
        same 'a log of the name -' "$? $(cat report)" '1 zigrunk report: cannot read -: No such file or directory'
        "$scratch/bin/zigrunk-report" --odd short > report 2>&1
        same 'wrong usage' "$? $(cat report)" $'2 zigrunk report: unexpected option --odd\nusage: zigrunk report [--trace OUT] [--html OUT] FILE..'
        "$scratch/bin/zigrunk-report" --help > report 2>&1
        same 'help' "$? $(head -n 3 report; grep -c '^--trace OUT .*\|^--html OUT .*' report)" $'0 usage: zigrunk report [--trace OUT] [--html OUT] FILE..\n\nSummarises logs of ZIGRUNK_LOG.\n2'
        "$scratch/bin/zigrunk-report" short 2> report > /dev/full
        same 'a full disk' "$? $(cat report)" '1 zigrunk report: cannot write: No space left on device'
        end
    fi
}

stopped() {
    if case_of 'a batch ends by the signal that ends it' && command -v python3 > /dev/null; then
        write a.cu 'echo >> started; sleep 300'
        echo '-c a.cu -o a.o' > list
        for signal in HUP:1 INT:2 TERM:15; do
            : > started
            env --default-signal=HUP,INT,TERM LOG="$room/log" TMPDIR="$room/tmp" XDG_RUNTIME_DIR="$room/run" python3 -c '
import subprocess, sys
with subprocess.Popen(sys.argv[1:]) as process:
    print(process.pid, flush=True)
    print(process.wait())' "$scratch/bin/zigrunk-batch" list > "$room/ended" 2> "$room/err" &
            within 20 started started 1 || problems+='  no command starts'$'\n'
            kill -s "${signal%:*}" "$(head -n 1 "$room/ended")"
            wait $!
            same "end by ${signal%:*}" "$(tail -n 1 "$room/ended")$(cat "$room/err")" "-${signal#*:}"
        done
        end
    fi
    stops TERM 143
    stops INT 130
    stops HUP 129 env
    stops TERM 143 '' plans
}

# missing_are WHAT STATUS TEXT [WORD..]: what is missing of the list, by line and reason.
missing_are() {
    batch --missing "${@:4}" list
    same "status and calls that are missing, $1" "$status$(sed -E "s,$PWD/,,g; s/^(line [0-9]+: [^:]*): .*/ \\1/" "$room/out" | tr -d '\n')" "$2$3"
}

# part_makes WHAT STATUS SOURCES PART [NAME=VALUE..]: a part of the list, which makes these sources.
part_makes() {
    rm -f made
    batch "${@:5}" --part "$4" list
    same "status and calls, $1" "$status $(sort made 2> /dev/null | tr '\n' ' ')" "$2 $3"
}

parts() {
    if case_of 'parts of a list'; then
        for name in a b c d; do touch $name.h && reading $name $name.h; done
        printf '%s\n' '-c a.cu -o a.o' '# no call' '-c b.cu -o b.o' '-c c.cu -o c.o' '' 'echo d >> made' > list
        missing_are 'at first' 1 ' line 1: no a.o line 3: no b.o line 4: no c.o line 6: not made'
        part_makes 'the first of two' 0 'a c ' 1/2
        missing_are 'behind one part' 1 ' line 3: no b.o line 6: not made'
        missing_are 'of the made part' 0 '' --part 1/2
        part_makes 'the second of two' 0 'b d ' 2/2
        missing_are 'behind all parts' 0 ''
        for part in 1/2 2/2 1/1; do part_makes "part $part, nothing has changed" 0 '' "$part"; done
        echo x > b.h && rm c.o
        missing_are 'after two changes' 1 " line 3: b.o isn't up to date line 4: no c.o"
        part_makes 'all, after two changes' 0 'b c ' 1/1
        part_makes 'more parts than calls' 0 '' 9/9
        printf '%s\n' '-c a.cu -o a.o' '-c b.cu -o a.o' > list
        batch --missing list
        same 'two calls that make one file' "$status $(cat "$room/err")" "1 zigrunk batch: lines 1 and 2 make one file: $PWD/a.o"
        end
    fi
    if case_of 'calls of a part that fail'; then
        touch a.h b.h && reading a a.h && reading b b.h
        echo 'exit 3' >> a.cu
        printf '%s\n' '-c a.cu -o a.o' '-c b.cu -o b.o' 'exit 7; :' > list
        part_makes 'on one machine' 3 'a b ' 1/1 ZIGRUNK_NODE=n2
        missing_are 'that failed' 3 ' line 1: exit status 3 on n2 line 3: exit status 7 on n2'
        part_makes 'on another' 3 'a ' 1/1 SLURMD_NODENAME=n1
        missing_are 'that failed twice' 3 ' line 1: exit status 3 on n1 and n2 line 3: exit status 7 on n1 and n2'
        missing_are 'that failed, of a part' 7 ' line 3: exit status 7 on n1 and n2' --part 3/3
        reading a a.h
        part_makes 'mended' 7 'a ' 1/1 ZIGRUNK_NODE=n0
        missing_are 'but for the last' 7 ' line 3: exit status 7 on n0 and n1 and n2'
        rm b.o && touch b.o
        missing_are 'with a product that is empty' 1 " line 2: b.o isn't up to date" --part 2/3
        end
    fi
    if case_of 'a part that a signal ends leaves no mark'; then
        for name in a b; do touch $name.h && reading $name $name.h; done
        echo 'until [ -e go ]; do sleep 0.02; done' >> b.cu
        printf '%s\n' '-c a.cu -o a.o' '-c b.cu -o b.o' > list
        env LOG="$room/log" TMPDIR="$room/tmp" XDG_RUNTIME_DIR="$room/run" "$scratch/bin/zigrunk-batch" -j1 --part 1/1 list > "$room/out" 2>&1 &
        within 10 grep -qs b made
        kill -TERM $! && wait $!
        same 'status of a part that is ended' $? 143
        within 10 none_run
        missing_are 'behind a signal' 1 ' line 2: no b.o'
        touch go && part_makes 'the rest' 0 'b ' 1/1
        end
    fi
}

# checks WHAT STATUS TEXT [NAME=VALUE..]: what check-node says, without the machine's name.
checks() {
    env LOG="$room/log" TMPDIR="$room/tmp" ZIGRUNK_NODE=n1 "${@:4}" "$driver" check-node share/node > "$room/out" 2> "$room/err"
    same "status and findings, $1" "$? $(sed "s/^zigrunk check-node: n1: //; s,$PWD/,,g; s,$scratch/,,g" "$room/err")" "$2 $3"
}

nodes() {
    if case_of 'a machine is compared with another one'; then
        mkdir share more && echo header > more/h.h
        env LOG="$room/log" "$driver" check-node --write share/node more 2> "$room/err"
        same 'status and messages when it is written' "$? $(cat "$room/err")" '0 '
        checks 'the same machine' 0 ''
        checks 'another variable' 1 "CPATH is '/x', and wasn't set: unset it in the job" CPATH=/x
        checks 'no nvcc' 1 'PATH has no nvcc: install cuda/bin/nvcc, or export PATH in the job' PATH="$scratch/bin:/usr/bin:/bin"
        checks 'another nvcc' 1 'PATH has opt/nvcc, not cuda/bin/nvcc: export PATH in the job' PATH="$scratch/opt:$PATH"
        checks 'no room' 1 "missing has room for 0 MB: clear it, or set TMPDIR to a folder with 256 MB" TMPDIR="$PWD/missing"
        echo other > more/h.h
        checks 'another header' 1 'more differs: install the same version'
        rm -r more
        checks 'no header' 1 'no more: install the package that has it, or mount it'
        mkdir more && echo header > more/h.h
        mv "$CUDA/bin/ptxas" "$CUDA/bin/ptxas.real" && echo other > "$CUDA/bin/ptxas"
        checks 'another toolkit' 1 'cuda/bin/ptxas differs: install the same version'
        mv "$CUDA/bin/ptxas.real" "$CUDA/bin/ptxas"
        sed -i 's/"ahead": .*/"ahead": 60.0/' share/node
        checks 'another clock' 1 'the clock is 60 seconds behind: have it set, by chrony or ntpd'
        sed -i 's/"version": .*/"version": "none",/; s/"ahead": .*/"ahead": 0.0/' share/node
        checks 'another version' 1 "zigrunk is $("$driver" --version | cut -d' ' -f2), not none: install the same version"
        echo '{}' > share/node
        checks 'a file of something else' 1 "share/node isn't of zigrunk check-node --write: missing field \`version\` at line 1 column 2"
        rm -r share
        checks 'no share' 1 'cannot read share/node (No such file or directory): mount the disk that all machines share'
        end
    fi
    if case_of 'what check-node cannot write'; then
        for words in 'missing/node:cannot write missing/node: No such file or directory (os error 2)' 'node missing:no missing'; do
            # shellcheck disable=SC2086 # several words
            said=$(LOG=$room/log ZIGRUNK_NODE=n1 "$driver" check-node --write ${words%%:*} 2>&1)
            same "status and message, $words" "$? $said" "1 zigrunk check-node: n1: ${words#*:}"
        done
        said=$(PATH=/usr/bin:/bin LOG=$room/log ZIGRUNK_NODE=n1 ZIGRUNK_NVCC=no-nvcc "$driver" check-node --write node 2>&1)
        same 'status and message, no nvcc' "$? $said" "1 zigrunk check-node: n1: no-nvcc isn't on PATH, or its dry run names no host compiler"
        said=$("$driver" check-node 2>&1)
        same 'wrong usage' "$? $said" $'2 zigrunk check-node: a file is missing\nusage: zigrunk check-node [--write] FILE [PATH]..'
        end
    fi
}

# schedulers: stand-ins that run each task at once, on the first of $NODES that isn't left out. n0 has another CPATH.
schedulers() {
    mkdir -p "$room/bin"
    ln -sf "$driver" "$room/bin/zigrunk"
    cat > "$room/bin/on_node" << 'END'
#!/bin/sh
# on_node OUT STATUS WORD..: runs a task, and notes its end.
out=$1 node=''
for name in $NODES; do case ",$out," in *",$name,"*) ;; *) node=${node:-$name} ;; esac; done
[ -n "$node" ] || exit 1
shift
[ "$node" != n0 ] || export CPATH=/x
echo "$node" >> "$ROOM/nodes"
if ZIGRUNK_NODE=$node "$@"; then echo "COMPLETED $node"; else echo "FAILED $node"; fi >> "$ROOM/states"
END
    cat > "$room/bin/sbatch" << 'END'
#!/bin/sh
out=''
for word; do case $word in --array=*) tasks=${word#*=} ;; --exclude=*) out=${word#*=} ;; esac; done
while [ ! -f "$1" ]; do shift; done
for task in $(echo "$tasks" | tr , ' '); do SLURM_ARRAY_TASK_ID=$task on_node "$out" bash "$@" || exit; done
END
    printf '%s\n' '#!/bin/sh' 'case $* in *" all "*) cat "$ROOM/states" ;; esac' > "$room/bin/squeue"
    cat > "$room/bin/condor_submit" << 'END'
#!/bin/sh
# A job that ends with 100 goes to another machine.
of() { sed -n "s/^$1 = //p" "$2"; }
for task in $(sed -n 's/^queue part in (\(.*\))/\1/p' "$2"); do
    out=''
    while
        eval "on_node '$out' '$(of executable "$2")' $(of arguments "$2" | sed "s/^\"//; s/\"\$//; s/\$(part)/$task/")" || exit
        tail -n 1 "$ROOM/states" | grep -q '^FAILED n0'
    do out=n0; done
done
echo '7.0 - 7.2'
END
    printf '%s\n' '#!/bin/sh' > "$room/bin/condor_wait"
    chmod +x "$room"/bin/*
}

# script_makes WHAT STATUS NODES SCRIPT: makes the list in three parts by a script for clusters; the tasks run on these nodes.
script_makes() {
    : > "$room/nodes"
    : > "$room/states"
    env PATH="$room/bin:$PATH" ROOM="$room" LOG="$room/log" TMPDIR="$room/tmp" XDG_RUNTIME_DIR="$room/run" "${@:5}" "$examples/$4.sh" list 3 > "$room/out" 2> "$room/err"
    same "status and nodes, $4, $1" "$? $(tr '\n' ' ' < "$room/nodes")" "$2 $3"
}

scripts() {
    local script
    for script in slurm htcondor; do
        if case_of "the script for $script"; then
            schedulers
            for name in a b c; do touch $name.h && reading $name $name.h; done
            printf '%s\n' '-c a.cu -o a.o' '-c b.cu -o b.o' '-c c.cu -o c.o' > list
            script_makes 'all is well' 0 'n1 n1 n1 ' $script NODES='n1 n2'
            script_makes 'nothing is missing' 0 '' $script NODES='n1 n2'
            rm a.o c.o
            script_makes 'two parts' 0 'n1 n1 ' $script NODES='n1 n2'
            rm a.o
            script_makes 'a node that is not fit' 0 'n0 n1 ' $script NODES='n0 n1'
            echo '[ "$ZIGRUNK_NODE" != n1 ] || exit 3' >> b.cu
            [ $script = htcondor ] || script_makes 'a call that fails on one node' 0 'n1 n2 ' $script NODES='n1 n2'
            echo 'exit 3' >> b.cu
            script_makes 'a call that fails everywhere' 3 "$([ $script = slurm ] && echo 'n1 n2 ' || echo 'n1 n1 n1 ')" $script NODES='n1 n2'
            same "what is missing, $script" "$(tail -n 1 "$room/err")" \
                "line 2: exit status 3 on $([ $script = slurm ] && echo 'n1 and n2' || echo n1): -c b.cu -o b.o"
            end
        fi
    done
}

for part in ${PARTS-lists products failures incremental parts nodes scripts databases places stopped killed reports}; do "$part"; done
summary
