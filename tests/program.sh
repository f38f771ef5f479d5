#!/usr/bin/env bash
# Runs cudaplan for each form of its calls, and zigrunk plan on stored dry runs, and checks the exit status and both streams.
# Prints a line for each case that fails, and last 'N passed, M failed'; the status is 1 if one failed.
#
# The calls of cudaplan stand for must-fail edits of that program. A program that takes every verb for a plan is shown by 'unknown verb'
# alone.
#
#   tests/program.sh [CUDAPLAN [ZIGRUNK [FUNCTION..]]]     the programs are those that `make build` and `make rust` leave, unless given;
#                                                          only these functions of this script are called, if there are some
#
# EMULATED, if set, says that an emulator runs them: what takes a program seconds or memory is left out then. EVERY=N tries every Nth byte alone in
# messages, from one on that is drawn.
set -u
cd "$(dirname "$0")/.." || exit 1
program=$(realpath "${1:-crates/cudaplan/out/cudaplan}") speaker=cudaplan
zigrunk=$(realpath "${2:-out/rust/target/release/zigrunk-driver}")
wanted=("${@:3}")
data=tests/drivers/test_plans/data/dry_runs
. tests/lib.sh

readonly USAGE=$'usage: cudaplan line TOOL CWD WORD.. | plan CWD TMP FLAG DRY1 DRY2 SUFFIX..\n'
readonly NO_COMPILATION=$'cudaplan: not a compilation\n'
readonly CANNOT_WRITE=$'cudaplan: cannot write\n'

# judge NAME STATUS OUT ERR: compares a status with that of the last run, and two texts with what it wrote. It shows where a text differs.
judge() {
    printf '%s' "$3" > "$scratch/want_out"
    printf '%s' "$4" > "$scratch/want_err"
    local got problem=''
    got=$(cat "$scratch/status")
    if [ "$got" != "$2" ]; then
        problem="status $got, not $2"
    elif ! cmp -s "$scratch/out" "$scratch/want_out"; then
        problem="standard output differs"$'\n'$(difference out)
    elif ! cmp -s "$scratch/err" "$scratch/want_err"; then
        problem="standard error differs"$'\n'$(difference err)
    fi
    count "$1" "$problem"
}

# difference NAME: the first lines that differ between what a stream should have and what it has, each up to 200 bytes.
difference() {
    diff -a -U 1 --label wanted --label printed "$scratch/want_$1" "$scratch/$1" | head -n 20 | cut -b -200
}

# check NAME STATUS OUT ERR WORD..: a call with these words. Here it takes the place of the check of tests/lib.sh.
check() {
    local name=$1 status=$2 out=$3 err=$4
    is_wanted "$name" || return 0
    shift 4
    noted "$speaker" "$@" > "$scratch/out" 2> "$scratch/err"
    judge "$name" "$status" "$out" "$err"
}

# cudaplan WORD..: a call of cudaplan.
cudaplan() {
    "$program" "$@"
}

# fails NAME MESSAGE WORD..: a call that fails with this message of the program's.
fails() {
    check "$1" 1 '' "${speaker/_/ }: $2"$'\n' "${@:3}"
}

# noted COMMAND..: runs a command, and notes its status for `judge`.
noted() {
    "$@"
    echo $? > "$scratch/status"
}

# gives NAME LINE.. -- WORD..: a call that prints these lines, which stay in $given.
gives() {
    local name=$1
    given=''
    while shift && [ "$1" != -- ]; do given+=$1$'\n'; done
    check "$name" 0 "$given" '' "${@:2}"
}

# gives_file NAME FILE WORD..: a call that prints what a file has.
gives_file() {
    given=$(cat "$2"; printf .)
    check "$1" 0 "${given%.}" '' "${@:3}"
}

# a call of each tool that is written back
good_lines() {
    gives 'cicc line' --device-c -arch compute_80 --module_id_file_name kernel.module_id --simt-only kernel.cpp1.ii -o /w/kernel.ptx -- \
        line cicc /w --device-c -arch compute_80 --module_id_file_name kernel.module_id kernel.cpp1.ii --simt-only -o kernel.ptx
    gives 'ptxas line' -arch=sm_80 k.ptx -o /w/k.cubin -- line ptxas /w -arch=sm_80 k.ptx -o k.cubin
    gives 'cudafe++ line' --simt-only --module_id_file_name /t/k.id x_0.cpp4.ii -- line cudafe++ /t --simt-only --module_id_file_name k.id x_0.cpp4.ii
    gives 'words with newlines, quotes and backslashes' $'-a\nb' $'\'"\\' k.cpp1.ii -o $'/w/\t' -- line cicc /w $'-a\nb' $'\'"\\' k.cpp1.ii -o $'\t'
    gives 'words of two bytes a character' -Dé k.cpp1.ii -o /é/k.ptx -- line cicc /é -Dé k.cpp1.ii -o k.ptx
}

# lines that are refused: what compiles nothing, and what names no output
refused_lines() {
    check 'cicc without words' 1 '' "$NO_COMPILATION" line cicc /w
    check 'cudafe++ without words' 1 '' "$NO_COMPILATION" line cudafe++ /t
    local none=$'cudaplan: Missing "ptx" file output\n'
    check 'cicc without an output' 1 '' "$none" line cicc /w k.cpp1.ii
    fails 'cudafe++ without an output' 'Missing "cuda" file output' line cudafe++ /t x.cpp4.ii
}

# what the dry runs of real calls plan, each with its compilation flag
good_plans() {
    local file name
    for file in "$data"/*.flag "$data"/*/*.flag; do
        name=${file%.flag}
        gives_file "the plan of ${name#"$data/"}" "$name.plan" plan /w /t "$(cat "$file")" "$name.dry1" "$name.dry2"
    done
    : > "$scratch/none"
    check 'empty dry runs' 0 $'group 0\ngroup 1\n' '' plan /w /t -c "$scratch/none" "$scratch/none"
    lines_of steps '#$ PATH=/b' '#$ gcc -D__NVCC__ -E k.cu -o k.cpp1.ii' '#$ cicc --gen_device_file_name k.cudafe1.gpu k.cpp1.ii -o k.ptx'
    gives 'no further suffix' 'group 0' 'group 1' 'no cd /w && /b/gcc -D__NVCC__ -E k.cu -o x_0.cpp1.ii' \
        'yes cd /t && /b/cicc --gen_device_file_name k.cudafe1.gpu x_0.cpp1.ii -o k.ptx' 'group 2' -- plan /w /t -c "$scratch/steps" "$scratch/steps"
    gives 'a further suffix' 'group 0' 'group 1' 'no cd /w && /b/gcc -D__NVCC__ -E k.cu -o x_0.cpp1.ii' \
        'yes cd /t && /b/cicc --gen_device_file_name x_0.cudafe1.gpu x_0.cpp1.ii -o k.ptx' 'group 2' -- plan /w /t -c "$scratch/steps" "$scratch/steps" .cudafe1.gpu
}

# lines_of FILE LINE..: writes lines to a file of the scratch folder.
lines_of() {
    local file=$1
    shift
    printf '%s\n' "$@" > "$scratch/$file"
}

# files that can't be read, suffixes that aren't taken, and dry runs that are bad; the files are read first, then the
# suffixes are judged, and the first run's refusal comes before that of the second
refused_plans() {
    local good=$data/one_target.dry1 unread=$'cudaplan: cannot read input\n' suffix
    : > "$scratch/none"
    check 'no first file' 1 '' "$unread" plan /w /t -c "$scratch/missing" "$good"
    check 'no second file' 1 '' "$unread" plan /w /t -c "$good" "$scratch/missing"
    check 'a folder as first file' 1 '' "$unread" plan /w /t -c "$scratch" "$good"
    check 'a folder as second file' 1 '' "$unread" plan /w /t -c "$good" "$scratch"
    check 'a file without a name' 1 '' "$unread" plan /w /t -c '' "$good"
    check 'standard input, which has no name here' 1 '' "$unread" plan /w /t -c - "$good" < "$data/one_kernel.dry1"
    for suffix in .ii .cpp1.ii '' .a/b gpu .x.; do
        fails "suffix '$suffix'" 'bad generated suffixes' plan /w /t -c "$good" "$good" "$suffix"
    done
    fails 'two suffixes that overlap' 'bad generated suffixes' plan /w /t -c "$good" "$good" .gpu .cudafe1.gpu
    lines_of pathless '#$ gcc'
    check 'a missing file before a bad suffix' 1 '' "$unread" plan /w /t -c "$scratch/pathless" "$scratch/missing" .ii
    fails 'a bad suffix before a bad run' 'bad generated suffixes' plan /w /t -c "$scratch/pathless" "$scratch/none" .ii
}

# refuses NAME MESSAGE FIRST SECOND: two dry runs that are refused with this message. In them a backslash begins an
# escape, as \n and \xff.
refuses() {
    printf '%b' "$3" > "$scratch/first"
    printf '%b' "$4" > "$scratch/second"
    fails "$1" "$2" plan /w /t -c "$scratch/first" "$scratch/second"
}

# both NAME MESSAGE RUN: the same of one dry run, as both.
both() {
    refuses "$1" "$2" "$3" "$3"
}

# dry runs with a line that can't be read: what is told is the first such line of the first run, or of the second one if
# the first can be read, and nothing is printed
unreadable_runs() {
    local kernel rest
    kernel=$(cat "$data/one_kernel.dry1")
    rest=$(tail -n +2 "$data/one_kernel.dry1")
    both    'no PATH in both runs'                 'run 1 line 0: no PATH'           '#$ gcc'
    refuses 'a byte in the last line of the second' 'run 2 line 8: not UTF-8'        "$kernel"        "$kernel\n#\$ x\xff"
    refuses 'an open quote in the second run'      'Could not parse shell line'      "$kernel"        "$kernel\n#\$ gcc \"a"
    both    'a comment'                            'Could not split shell line'      "#\$ # note\n$rest"
    both    'a program that is not found'          'gcc: not found'                  '#$ PATH=\n#$ gcc'
}

# words that are no call
other_calls() {
    check 'no words' 2 '' "$USAGE"
    check 'an empty word' 2 '' "$USAGE" ''
    check 'unknown verb' 2 '' "$USAGE" lines cicc /w k.cpp1.ii -o k.ptx
    check 'line alone' 2 '' "$USAGE" line
    check 'line without a directory' 2 '' "$USAGE" line cicc
    check 'unknown tool' 2 '' "$USAGE" line gcc /w x
    check 'plan with one file' 2 '' "$USAGE" plan /w /t -c "$data/one_target.dry1"
    check 'plan alone' 2 '' "$USAGE" plan
    check 'a tool in capitals' 2 '' "$USAGE" line Cicc /w k.cpp1.ii -o k.ptx
    check 'a word that is not UTF-8' 2 '' "$USAGE" line cicc /w k.cpp1.ii $'\xff' -o k.ptx
    check 'a last word that is not UTF-8' 2 '' "$USAGE" line cicc /w k.cpp1.ii -o k.ptx $'\xc3'
    check 'a verb that is not UTF-8' 2 '' "$USAGE" $'\xff'
}

# lines that are long: many words, and a megabyte of them
long_lines() {
    local many out
    mapfile -t many < <(seq 1 100000 | sed 's/^/-/')
    gives '100000 words' "${many[@]}" k.cpp1.ii -o /k.ptx -- line cicc / "${many[@]}" k.cpp1.ii -o k.ptx
    local word
    word=-$(head -c 100000 /dev/zero | tr '\0' x)
    many=("$word" "$word" "$word" "$word" "$word" "$word" "$word" "$word" "$word" "$word" "$word")
    gives 'a megabyte of words' "${many[@]}" k.cpp1.ii -o /k.ptx -- line cicc / "${many[@]}" k.cpp1.ii -o k.ptx
}

# byte_by_byte FILE: writes a file one byte at a time.
byte_by_byte() {
    local byte
    while IFS= read -r -N 1 byte; do
        printf '%s' "$byte"
    done < "$1"
}

# dry runs that come in pieces, and some that don't come at all
slow_streams() {
    local run=$data/one_kernel.dry1
    gives_file 'dry runs that come a byte at a time' "$data/one_kernel.plan" plan /w /t -c <(byte_by_byte "$run") <(byte_by_byte "$run")
    check 'pipes that end at once' 0 $'group 0\ngroup 1\n' '' plan /w /t -c <(true) <(true)
    fails 'a second run that is bad, byte by byte' 'run 2 line 8: not UTF-8' \
        plan /w /t -c <(byte_by_byte "$run") <(LC_ALL=C byte_by_byte "$data/bad_last_line.dry1")
}

# limited KIB FILE: plans a run into a file that may grow to so many KiB.
limited() {
    (
        trap '' XFSZ
        ulimit -f "$1"
        noted "$program" plan /w /t -c "$2" "$2" > "$scratch/limited" 2> "$scratch/err"
    )
}

# streams that take a beginning: a file that may not grow further, and a pipe whose reader ends. How much was written by
# then is open.
short_streams() {
    local most run=$data/thousand_sources.dry1 word
    : > "$scratch/out"
    for most in 1 2 16 32; do
        limited "$most" "$run"
        judge "a file of $most KiB" 1 '' "$CANNOT_WRITE"
    done
    limited 1000 "$run"
    mv "$scratch/limited" "$scratch/out"
    judge 'a file that may grow' 0 "$(cat "$data/thousand_sources.plan")"$'\n' ''

    word=-$(head -c 100000 /dev/zero | tr '\0' x)
    {
        noted "$program" line cicc /w {"$word","$word","$word"}{1,2,3,4,5} k.cpp1.ii -o k.ptx 2> "$scratch/err"
    } | head -c 100 > /dev/null
    : > "$scratch/out"
    judge 'a pipe whose reader ends' 1 '' "$CANNOT_WRITE"
}

# to_full NAME STATUS ERR WORD..: a call whose standard output is on a full disk.
to_full() {
    : > "$scratch/out"
    noted "$speaker" "${@:4}" > /dev/full 2> "$scratch/err"
    judge "$1" "$2" '' "$3"
}

# streams that take nothing: a full disk, a pipe that nobody reads, and streams that are closed
closed_streams() {
    local call=(line cicc /w k.cpp1.ii -o k.ptx)
    to_full 'a full disk' 1 "$CANNOT_WRITE" "${call[@]}"
    mkfifo "$scratch/pipe"
    exec 4<> "$scratch/pipe"
    exec 5> "$scratch/pipe"
    exec 4>&-
    noted "$program" "${call[@]}" >&5 2> "$scratch/err"
    exec 5>&-
    judge 'a pipe that nobody reads' 1 '' "$CANNOT_WRITE"

    noted "$program" "${call[@]}" >&- 2> "$scratch/err"
    judge 'a closed standard output' 1 '' "$CANNOT_WRITE"

    noted "$program" "${call[@]}" > /dev/full 2> /dev/full
    : > "$scratch/err"
    judge 'two full disks' 1 '' ''

    noted "$program" > "$scratch/out" 2> /dev/full
    judge 'usage to a full disk' 2 '' ''

    to_full 'a plan to a full disk' 1 "$CANNOT_WRITE" plan /w /t -c "$data/one_target.dry1" "$data/one_target.dry2"
    to_full 'a refusal writes nothing to a full disk' 1 "$NO_COMPILATION" line cicc /w
    to_full 'a refused plan writes nothing to a full disk' 1 $'cudaplan: run 2 line 8: not UTF-8\n' \
        plan /w /t -c "$data/one_kernel.dry1" "$data/bad_last_line.dry1"
    noted "$program" plan /w /t -c "$data/bad_last_line.dry1" "$data/one_kernel.dry1" >&- 2> "$scratch/err"
    judge 'a refused plan needs no standard output' 1 '' $'cudaplan: run 1 line 8: not UTF-8\n'
}

# calls whose allocations fail: as the program starts, and where it reads files and writes
no_memory() {
    is_wanted 'calls without memory' || return 0
    if [[ $(head -c 2 "$program") == *'#!'* ]]; then
        skip 'calls without memory' 'a script starts the program, and its shell would be refused the memory'
    elif ! cc -shared -fPIC -o "$scratch/refuse_nth.so" tests/refuse_nth.c -ldl 2> "$scratch/said"; then
        skip 'calls without memory' "cc can't compile tests/refuse_nth.c"
    else
        tests/refused_memory.sh --few "$program" > "$scratch/said" 2>&1
        add "$?" "$scratch/said" || echo 'calls without memory: the last line has no counts that fit'
        head -n -3 "$scratch/said"
    fi
}

# ---- zigrunk plan

# zigrunk_plan FORMAT OPTION.. CWD TMP FLAG DRY1 DRY2 SUFFIX..: a plan of stored dry runs.
zigrunk_plan() {
    local words=(plan "$1") suffix
    shift
    while [[ ${1-} == --* ]]; do
        words+=("$1")
        [ "$1" != --limit ] || { words+=("$2") && shift; }
        shift
    done
    words+=(--cwd "$1" --tmp "$2" --flag "$3" --dry-runs "$4" "$5")
    for suffix in "${@:6}"; do words+=(--suffix "$suffix"); done
    "${user[@]}" "$program" "${words[@]}"
}

# plan_as_nobody WORD..: the same, by a user that isn't root.
plan_as_nobody() {
    local user=(as_nobody)
    zigrunk_plan "$@"
}

# run_of FILE LINE..: a dry run with these lines behind one that sets PATH, where the programs of a kernel's run are, in two files:
# FILE and FILE.2.
run_of() {
    local file=$1
    shift
    lines_of "$file" "#\$ PATH=$scratch/none:$scratch/bin" "$@"
    cp "$scratch/$file" "$scratch/$file.2"
}

readonly KERNEL=('#$ gcc -D__CUDACC__ -E k.cu -o k.cpp4.ii' '#$ cudafe++ --module_id_file_name k.id k.cpp4.ii'
    '#$ gcc -D__NVCC__ -E k.cu -o k.cpp1.ii' '#$ cicc k.cpp1.ii -o k.ptx' "#\$ ptxas k.ptx -o \"k \\\$x.cubin\"" '#$ fatbinary k.cubin'
    "#\$ gcc -D__NVCC__ \"-DA=it's\" k.cudafe1.cpp -o k.o" '#$ g++ k.o')

# the programs of a kernel's run, on disk
kernel_programs() {
    local name
    mkdir -p "$scratch/bin"
    for name in gcc g++ cudafe++ cicc ptxas fatbinary; do
        : > "$scratch/bin/$name"
        chmod +x "$scratch/bin/$name"
    done
    run_of kernel "${KERNEL[@]}"
}

# plans as scripts
plan_scripts() {
    local bin=$scratch/bin env last
    env="env 'PATH=$scratch/none:$bin'"
    last="$env '__SCCACHE_THIS_IS_A_CUDA_COMPILATION__='"
    gives 'a plan as a script' 'set -e' 'mkdir -p /t' "( cd /w && $env $bin/gcc -D__CUDACC__ -E k.cu -o x_0.cpp4.ii )" \
        "( cd /t && $env $bin/cudafe++ --gen_module_id_file --module_id_file_name k.id x_0.cpp4.ii )" \
        "( cd /w && $env $bin/gcc -D__NVCC__ -E k.cu -o x_0.cpp1.ii )" "( cd /t && $env $bin/cicc x_0.cpp1.ii -o k.ptx )" \
        "( cd /t && $env $bin/ptxas k.ptx -o 'k \$x.cubin' )" "( cd /t && $env $bin/fatbinary k.cubin )" \
        "( cd /w && $last $bin/gcc -D__NVCC__ '-DA=it'\\''s' x_0.cudafe1.cpp -o k.o )" -- shell /w /t -c "$scratch/kernel" "$scratch/kernel.2"
    check 'a plan as a script, with names kept' 0 "${given//x_0/k}" '' shell --keep /w /t -c "$scratch/kernel" "$scratch/kernel.2"
    run_of newline '#$ gcc -D__NVCC__ -E k.cu -o k.cpp1.ii'
    gives 'a folder with a newline as a script' 'set -e' 'mkdir -p /t' "( cd '/a" "b' && $env $bin/gcc -D__NVCC__ -E k.cu -o x_0.cpp1.ii )" -- \
        shell $'/a\nb' /t -c "$scratch/newline" "$scratch/newline.2"
    run_of suffixed '#$ gcc -D__NVCC__ -E k.cu -o k.odd'
    gives 'a further suffix' 'set -e' 'mkdir -p /t' "( cd /w && $env $bin/gcc -D__NVCC__ -E k.cu -o x_0.odd )" -- shell /w /t -c "$scratch/suffixed" "$scratch/suffixed.2" .odd
}

# edge GROUP.PLACE DESCRIPTION NEEDS COMMAND: an edge of a file for Ninja.
edge() {
    echo "build \${tmp}/zigrunk.$1: run$3"
    echo "  line = ( cd $4 ) && touch /t/zigrunk.$1"
    echo "  description = $2"
}

# Ninja runs a plan, in a directory whose name needs quotes in Ninja and in a shell: each command once, and both preprocessors and all
# device tools before the last one
run_by_ninja() {
    local tmp="$scratch/it's \$x" tool
    if ! command -v ninja > /dev/null; then
        skip 'a plan run by Ninja' 'ninja is not on the path'
        return
    fi
    mkdir -p "$tmp"
    for tool in gcc cudafe++ cicc ptxas fatbinary; do
        printf '#!/bin/sh\necho "${0##*/} $*" >> "%s/order"\n' "$scratch" > "$scratch/bin/$tool"
    done
    rm -f "$scratch/order"
    zigrunk_plan ninja "$scratch" "$tmp" -c "$scratch/kernel" "$scratch/kernel.2" > "$scratch/graph"
    (cd "$scratch" && PATH=/usr/bin:/bin ninja -j 1 -f graph) > "$scratch/said" 2>&1
    echo $? > "$scratch/status"
    (cd "$tmp" && ls -d zigrunk.*) > "$scratch/out"
    : > "$scratch/err"
    judge 'a plan run by Ninja' 0 "$(printf '%s\n' zigrunk.{0.{0,1},1.{0,1,2},2.{0,1}})"$'\n' ''
    sed 's/ .*//' "$scratch/order" | sort | uniq -c | tr -s ' ' > "$scratch/out"
    tail -n 1 "$scratch/order" | grep -c 'k\.o$' >> "$scratch/out"
    judge 'each command once, and the last one last' 0 "$(printf ' %s\n' '1 cicc' '1 cudafe++' '1 fatbinary' '3 gcc' '1 ptxas')"$'\n1\n' ''
    # a command that fails leaves its status
    printf '#!/bin/sh\nexit 7\n' > "$scratch/bin/ptxas"
    rm -f "$tmp"/zigrunk.*
    (cd "$scratch" && PATH=/usr/bin:/bin ninja -j 1 -f graph) > "$scratch/said" 2>&1
    echo $? > "$scratch/status"
    cat "$tmp"/zigrunk.*.status > "$scratch/out"
    judge 'a command that fails in Ninja' 1 $'7\n' ''
}

# plans for Ninja and as JSON
plan_files() {
    local bin=$scratch/bin text env run cached before
    env="env 'PATH=$scratch/none:$bin'"
    run="$env \$\${ZIGRUNK_RUNNER-} $bin"
    cached="$env \$\${ZIGRUNK_RUNNER-} \$\${ZIGRUNK_LAUNCHER-} $bin"
    before=$(printf " \${tmp}/zigrunk.%s" 0.0 0.1 1.0 1.1 1.2)
    text=$(
        printf '%s\n' 'tmp = /t' "builddir = \${tmp}" 'rule run' '  command = ${line} || { code=$$?; echo $$code > ${out}.status; exit $$code; }'
        edge 0.0 gcc '' "/t && $run/gcc -D__CUDACC__ -E k.cu -o x_0.cpp4.ii"
        edge 0.1 cudafe++ " \${tmp}/zigrunk.0.0" "/t && $cached/cudafe++ --gen_module_id_file --module_id_file_name k.id x_0.cpp4.ii"
        edge 1.0 gcc " \${tmp}/zigrunk.0.0" "/t && $run/gcc -D__NVCC__ -E k.cu -o x_0.cpp1.ii"
        edge 1.1 cicc " \${tmp}/zigrunk.1.0" "/t && $cached/cicc x_0.cpp1.ii -o k.ptx"
        edge 1.2 ptxas " \${tmp}/zigrunk.1.1" "/t && $cached/ptxas k.ptx -o 'k \$\$x.cubin'"
        edge 2.0 fatbinary "$before" "/t && $run/fatbinary k.cubin"
        edge 2.1 gcc "$before \${tmp}/zigrunk.2.0" "/t && ${cached/ \$/ \'__SCCACHE_THIS_IS_A_CUDA_COMPILATION__=\' \$}/gcc -D__NVCC__ '-DA=it'\\''s' x_0.cudafe1.cpp -o k.o"
    )$'\n'"# dropped line 8 run 2 NotCuda $bin/g++ k.o"$'\n'
    check 'a plan for Ninja' 0 "$text" '' ninja /t /t -c "$scratch/kernel" "$scratch/kernel.2"
    run_of short '#$ gcc -D__NVCC__ -E k.cu -o k.cpp1.ii' '' '#$ cicc k.cpp1.ii -o k.ptx' '#$ g++ "a b"'
    env="[[\"PATH\",\"$scratch/none:$bin\"]]"
    text="{\"commands\":[{\"args\":[\"-D__NVCC__\",\"-E\",\"k.cu\",\"-o\",\"x_0.cpp1.ii\"],\"cacheable\":false,\"complete\":false,\"cwd\":\"/w\""
    text+=",\"env\":$env,\"exe\":\"$bin/gcc\",\"group\":1,\"id\":0,\"line\":2,\"may_write\":[],\"needs\":[],\"reads\":[\"/w/k.cu\"],\"run\":2"
    text+=",\"writes\":[\"/w/x_0.cpp1.ii\"]},{\"args\":[\"x_0.cpp1.ii\",\"-o\",\"k.ptx\"],\"cacheable\":true,\"complete\":true,\"cwd\":\"/t\",\"env\":$env"
    text+=",\"exe\":\"$bin/cicc\",\"group\":1,\"id\":1,\"line\":4,\"may_write\":[],\"needs\":[],\"reads\":[\"/t/x_0.cpp1.ii\"],\"run\":1"
    text+=",\"writes\":[\"/t/k.ptx\"]}],\"cwd\":\"/w\",\"dropped\":[{\"args\":[\"a b\"],\"exe\":\"$bin/g++\",\"line\":5,\"reason\":\"NotCuda\",\"run\":2}]"
    text+=",\"flag\":\"-c\",\"groups\":3,\"tmp\":\"/t\",\"version\":1}"$'\n'
    check 'a plan as JSON' 0 "$text" '' json /w /t -c "$scratch/short" "$scratch/short.2"
    gives 'a plan as text' 'group 0' 'group 1' "no cd /w && $bin/gcc -D__NVCC__ -E k.cu -o x_0.cpp1.ii" "yes cd /t && $bin/cicc x_0.cpp1.ii -o k.ptx" 'group 2' \
        "dropped 4 run 2 NotCuda $bin/g++ a b" -- text /w /t -c "$scratch/short" "$scratch/short.2"
    check 'a plan as text, with names kept' 0 "${given//x_0/k}" '' text --keep /w /t -c "$scratch/short" "$scratch/short.2"
}

# plans as compilation databases
compilation_databases() {
    local bin=$scratch/bin text
    run_of views '#$ gcc -D__CUDACC__ -E k.cu -o k.cpp4.ii' '#$ cudafe++ --gen_c_file_name k.cudafe1.cpp --module_id_file_name k.id k.cpp4.ii' \
        '#$ gcc -D__NVCC__ -E k.cu -o k.cpp1.ii' '#$ cicc --gen_module_id_file --module_id_file_name k.id k.cpp1.ii -o "a&\"k.ptx"' \
        '#$ gcc -D__NVCC__ k.cudafe1.cpp -o k.o' '#$ g++ "a b"'
    sed -i 's# k\.\(cpp[14]\.ii\|cudafe1\.cpp\)# /t/k.\1#' "$scratch/views.2"
    text="[{\"arguments\":[\"clang++\",\"--cuda-host-only\",\"-fsyntax-only\",\"k.cu\",\"-o\",\"/t/x_0.cpp4.ii\"],\"directory\":\"/w\",\"file\":\"/w/k.cu\"}"
    text+=",{\"arguments\":[\"$bin/gcc\",\"-D__NVCC__\",\"-E\",\"k.cu\",\"-o\",\"/t/x_0.cpp1.ii\"],\"directory\":\"/w\",\"file\":\"/w/k.cu\"}]"$'\n'
    check 'a plan as a compilation database' 0 "$text" '' compdb /w /t -c "$scratch/views" "$scratch/views.2"
    run_of cuda '#$ gcc -D__CUDA_ARCH__=1030 -D__CUDA_ARCH_LIST__=1030 -E -x c++ -D__CUDACC__ -D__NVCC__ -D__CUDACC_RDC__ -I c++ -D __CUDA_OURS=1 k.cu -o k.cpp1.ii'
    text="[{\"arguments\":[\"clang++\",\"--cuda-device-only\",\"--cuda-gpu-arch=sm_103\",\"-fsyntax-only\",\"-x\",\"cuda\",\"-fgpu-rdc\",\"-I\",\"c++\""
    text+=",\"-D\",\"__CUDA_OURS=1\",\"k.cu\",\"-o\",\"x_0.cpp1.ii\"],\"directory\":\"/w\",\"file\":\"/w/k.cu\"}]"$'\n'
    check 'a step for an architecture in a compilation database' 0 "$text" '' compdb /w /t -c "$scratch/cuda" "$scratch/cuda.2"
}

# a script makes the temporary directory, whose name needs quotes, and runs each command once, in order
run_as_script() {
    local tmp="$scratch/made/it's \$x" tool
    for tool in gcc cudafe++ cicc ptxas fatbinary; do
        printf '#!/bin/sh\n/bin/echo "${0##*/} $PWD" >> "%s/order"\n' "$scratch" > "$scratch/bin/$tool"
    done
    rm -f "$scratch/order"
    zigrunk_plan shell "$scratch" "$tmp" -c "$scratch/kernel" "$scratch/kernel.2" > "$scratch/script"
    noted sh "$scratch/script" > "$scratch/said" 2> "$scratch/err"
    cp "$scratch/order" "$scratch/out"
    judge 'a plan run by a shell' 0 "gcc $scratch
cudafe++ $tmp
gcc $scratch
cicc $tmp
ptxas $tmp
fatbinary $tmp
gcc $scratch
" ''
}

# the JSON of real plans, by its schema
plan_schema() {
    local said
    said=$(tests/schema.py "$program") || said+=$'\n'"status $?"
    case $said in
    *' skipped'*) echo "$said" ;;
    *[1-9]' passed, 0 failed' | *[1-9]0' passed, 0 failed') count 'the JSON of real plans' '' ;;
    *) count 'the JSON of real plans' "$said" ;;
    esac
}

# plans that have to be whole
whole_plans() {
    run_of whole "${KERNEL[@]:0:7}"
    zigrunk_plan ninja /w /t -c "$scratch/whole" "$scratch/whole.2" > "$scratch/want"
    gives_file 'a whole plan' "$scratch/want" ninja --whole /w /t -c "$scratch/whole" "$scratch/whole.2"
    zigrunk_plan ninja --keep /w /t -c "$scratch/whole" "$scratch/whole.2" > "$scratch/want"
    gives_file 'a whole plan with names kept' "$scratch/want" ninja --keep --whole /w /t -c "$scratch/whole" "$scratch/whole.2"
    fails 'a plan that dropped a command' 'the plan dropped a command' ninja --whole /w /t -c "$scratch/kernel" "$scratch/kernel.2"
    run_of nothing
    run_of dropped '#$ g++ k.o'
    fails 'a plan without commands, of those that have to be whole' 'the plan has no command' \
        ninja --whole /w /t -c "$scratch/nothing" "$scratch/nothing.2"
}

# counts NAME NUMBER PATTERN WORD..: a call that succeeds with a large limit, and prints text that matches the pattern so many times.
counts() {
    local name=$1 number=$2 pattern=$3
    shift 3
    noted zigrunk_plan "$1" --limit 100000000 "${@:2}" > "$scratch/text" 2> "$scratch/err"
    grep -o -e "$pattern" "$scratch/text" | wc -l > "$scratch/out"
    judge "$name" 0 "$number"$'\n' ''
}

# found NAME PROGRAM LOOKED: the gcc of a command, found with PATH as a folder and behind it that of a kernel's programs. LOOKED is the
# folder's name; the plan has the program at PROGRAM.
found() {
    lines_of looked "#\$ PATH=$scratch/$3:$scratch/bin" "${KERNEL[0]}"
    cp "$scratch/looked" "$scratch/looked.2"
    counts "$1" 1 "\"exe\":\"$2\"" json /w /t -c "$scratch/looked" "$scratch/looked.2"
}

# what is a program on the disk: a plain file that its owner, its group or others may execute, also behind links
programs_on_disk() {
    local folder=$scratch/on_disk mode program_at
    mkdir -p "$folder"/{plain,folder,dangling,loop,to_plain,to_folder,to_program,file}
    : > "$folder/plain/gcc"
    mkdir "$folder/folder/gcc"
    ln -s nowhere "$folder/dangling/gcc"
    ln -s gcc "$folder/loop/gcc"
    ln -s ../plain/gcc "$folder/to_plain/gcc"
    ln -s ../folder/gcc "$folder/to_folder/gcc"
    ln -s "$scratch/bin/gcc" "$folder/to_program/gcc"
    : > "$folder/file/gcc"
    chmod 644 "$folder/plain/gcc"
    found 'a plain file that nobody may execute' "$scratch/bin/gcc" on_disk/plain
    found 'a folder with the name of a program' "$scratch/bin/gcc" on_disk/folder
    found 'a link to nothing' "$scratch/bin/gcc" on_disk/dangling
    found 'a link to itself' "$scratch/bin/gcc" on_disk/loop
    found 'a link to a plain file' "$scratch/bin/gcc" on_disk/to_plain
    found 'a link to a folder' "$scratch/bin/gcc" on_disk/to_folder
    found 'a link to a program' "$folder/to_program/gcc" on_disk/to_program
    found 'a folder of PATH that is a file' "$scratch/bin/gcc" on_disk/plain/gcc
    for mode in 0 600 444 666 100 010 001 755; do
        chmod "$mode" "$folder/file/gcc"
        [[ $mode == *[15]* ]] && program_at=$folder/file/gcc || program_at=$scratch/bin/gcc
        found "a file of mode $mode" "$program_at" on_disk/file
    done
    mkdir "$folder/pipe"
    mkfifo -m 755 "$folder/pipe/gcc"
    found 'a pipe that may be executed' "$scratch/bin/gcc" on_disk/pipe
}

# as_nobody WORD..: runs a command as a user that isn't root.
as_nobody() {
    if [ "$(id -u)" = 0 ]; then
        setpriv --reuid 65534 --regid 65534 --clear-groups "$@"
    else
        "$@"
    fi
}

# in_folder FOLDER COMMAND..: runs a command in a folder, for `judge`.
in_folder() {
    (cd "$1" && noted "${@:2}") > "$scratch/out" 2> "$scratch/err" < /dev/null
}

# denied NAME DRY1 DRY2: a call by another user than root, in a folder with a file that this user may not read.
denied() {
    program=./zigrunk in_folder "$scratch/unread" plan_as_nobody json /w /t -c "$2" "$3"
    judge "$1" 1 '' $'zigrunk plan: cannot read secret: Permission denied\n'
}

# files that can't be read, each for another reason of the system; and files whose names begin with a dash
unread_files() {
    local folder=$scratch/unread
    mkdir -p "$folder"
    ln -s loop "$folder/loop"
    fails 'a file whose links go round' "cannot read $folder/loop: Too many levels of symbolic links" json /w /t -c "$folder/loop" "$scratch/kernel"
    fails 'a file that the system refuses to read' 'cannot read /proc/self/mem: Input/output error' \
        json /w /t -c "$scratch/kernel" /proc/self/mem
    cp "$scratch/kernel" "$folder/-x"
    cp "$scratch/kernel.2" "$folder/--"
    zigrunk_plan json /w /t -c "$scratch/kernel" "$scratch/kernel.2" > "$scratch/want"
    in_folder "$folder" zigrunk_plan json /w /t -c -x --
    judge 'files whose names begin with a dash' 0 "$(cat "$scratch/want")"$'\n' ''
    if ! as_nobody true 2> /dev/null; then
        skip 'a file without permission' 'setpriv cannot become another user'
        return
    fi
    # the program, the other file and all folders above are open to this user
    chmod 755 "$scratch" "$folder"
    cp "$program" "$folder/zigrunk"
    cp "$scratch/kernel" "$folder/open"
    cp "$scratch/kernel" "$folder/secret"
    chmod 0 "$folder/secret"
    denied 'a first file without permission' secret open
    denied 'a second file without permission' open secret
    closed_folder "$folder"
}

# closed_folder FOLDER: a folder of PATH that has a program and that the user may not search. The user finds the next one.
closed_folder() {
    mkdir "$1/closed" "$1/beside"
    install -m 755 /dev/null "$1/closed/gcc"
    install -m 755 /dev/null "$1/beside/gcc"
    chmod 0 "$1/closed"
    lines_of unread/run "#\$ PATH=$1/closed:$1/beside" "${KERNEL[0]}"
    cp "$1/run" "$1/run.2"
    program=./zigrunk in_folder "$1" plan_as_nobody json /w /t -c run run.2
    chmod 700 "$1/closed"
    sed -i 's/.*\("exe":"[^"]*"\).*/\1/' "$scratch/out"
    judge 'a folder of PATH that may not be searched' 0 "\"exe\":\"$1/beside/gcc\""$'\n' ''
}

# files that aren't the dry runs of a call, and plans without commands, in every format
unfit_files() {
    local format folder behind=$'no line begins with "#$ "\n' plain='the path has to be absolute, without an empty part, . or ..'
    : > "$scratch/empty"
    printf '#$\n #$ gcc\n$# gcc\n' > "$scratch/prose"
    for format in "${formats[@]}"; do
        fails "one file twice as $format" "$scratch/kernel: both dry runs are the same file" "$format" /w /t -c "$scratch/kernel" "$scratch/kernel"
        check "a first file that is no dry run as $format" 1 '' "zigrunk plan: $scratch/prose: no dry run: $behind" \
            "$format" /w /t -c "$scratch/prose" "$scratch/kernel"
        check "a second file that is no dry run as $format" 1 '' "zigrunk plan: $scratch/empty: no dry run: $behind" \
            "$format" /w /t -c "$scratch/kernel" "$scratch/empty"
        fails "a plan without commands as $format" 'the plan has no command' "$format" /w /t -c "$scratch/nothing" "$scratch/nothing.2"
    done
    for format in "${formats[@]}"; do
        for folder in w . ../w //w /w/ /w//x /w/./x /w/../w /w/. /w/..; do
            check "the directory $folder for temporary files as $format" 1 '' \
                "zigrunk plan: --tmp $folder: $plain"$'\n' \
                "$format" /w "$folder" -c "$scratch/kernel" "$scratch/kernel.2"
            fails "the working directory $folder as $format" "--cwd $folder: $plain" \
                "$format" "$folder" /t -c "$scratch/kernel" "$scratch/kernel.2"
        done
    done
    fails 'one file twice that is no dry run' "$scratch/empty: both dry runs are the same file" json /w /t -c "$scratch/empty" "$scratch/empty"
    check 'no dry run, and a bad suffix' 1 '' "zigrunk plan: $scratch/empty: no dry run: $behind" \
        json /w /t -c "$scratch/empty" "$scratch/kernel" .ii
    fails 'a plan of commands that are all dropped' 'the plan has no command' json /w /t -c "$scratch/dropped" "$scratch/dropped.2"
}

# bad NAME LINE CAUSE [SHOWN]: a second dry run with this line behind the one that sets PATH. The message says what CAUSE does and
# shows the line, or SHOWN.
bad() {
    run_of bad "$2"
    check "$1" 1 '' "zigrunk plan: $scratch/bad:2: $3"$'\n'"    ${4-$2}"$'\n' json /w /t -c "$scratch/kernel" "$scratch/bad"
}

# suffixes NAME SHOWN SUFFIX..: further suffixes that are refused, as the message shows them.
suffixes() {
    local name=$1 shown=$2 rule='a suffix begins with ., ends in a letter or digit and has no /, and none is the end of another'
    shift 2
    fails "$name" "--suffix $shown: $rule" json /w /t -c "$scratch/kernel" "$scratch/kernel.2" "$@"
}

# messages: which file, which line, why, and what to do
messages() {
    local nowhere="in PATH ($scratch/none:$scratch/bin)" long folder=$scratch
    lines_of pathless '#$ gcc'
    fails 'no PATH in the second run' "$scratch/pathless:1: no line before this one sets PATH"$'\n    #$ gcc' \
        json /w /t -c "$scratch/kernel" "$scratch/pathless"
    fails 'a folder in place of a file' "cannot read $folder: Is a directory" json /w /t -c "$scratch/kernel" "$folder"
    fails 'a file in place of a folder' "cannot read $scratch/kernel/x: Not a directory" json /w /t -c "$scratch/kernel/x" x
    check 'a file with a newline' 1 '' 'zigrunk plan: cannot read a\nb: No such file or directory'$'\n' json /w /t -c $'a\nb' x
    bad 'an open quote' "#\$ gcc 'x" 'the command has an open quote or ends in a backslash'
    # shellcheck disable=SC1003 # a backslash
    bad 'a backslash at the end' '#$ gcc \' 'the command has an open quote or ends in a backslash'
    bad 'a command without words' '#$  ' 'the command has no words'
    bad 'a line that is not UTF-8' $'#$ gcc \xff\x80\x9b\x1b' "the line isn't UTF-8" '#$ gcc \xff\x80\x9b\u{1b}'
    bad 'a line for dependencies' "#\$ -- Filter Dependencies -- > 'k.d" \
        'this line filters dependencies: make the dry runs without dependency options, such as -MD'
    run_of bad '#$ nowhere -c'
    check 'a program that only the second run misses' 1 '' "zigrunk plan: $scratch/bad.2:2: cannot find nowhere $nowhere"$'\n    #$ nowhere -c\n' \
        json /w /t -c "$scratch/kernel" "$scratch/bad.2"
    run_of bad '#$ ./nowhere/gcc -c'
    check 'a program by its path' 1 '' "zigrunk plan: $scratch/bad:2: cannot find ./nowhere/gcc: no such program"$'\n    #$ ./nowhere/gcc -c\n' \
        json /w /t -c "$scratch/bad" "$scratch/kernel"
    lines_of bad '#$ PATH=' '#$ gcc'
    fails 'a program with an empty PATH' "$scratch/bad:2: cannot find gcc in PATH ()"$'\n    #$ gcc' \
        text /w /t -c "$scratch/bad" "$scratch/kernel"
    long=$(printf 'é%.0s' {1..116})
    bad 'a line of 120 characters' "#\$ '$long" 'the command has an open quote or ends in a backslash'
    bad 'a line of 121 characters' "#\$ '${long}x" 'the command has an open quote or ends in a backslash' "#\$ '$long.."
    suffixes 'a bad suffix behind a good one' '.ptx .ii' .ptx .ii
    suffixes 'a suffix that ends in a standard one' .x.cudafe1.c .x.cudafe1.c
    suffixes 'two further suffixes that overlap' '.gpu .x .cudafe1.gpu' .gpu .x .cudafe1.gpu
    suffixes 'two that overlap, in the other order' '.cudafe1.gpu .gpu' .cudafe1.gpu .gpu
    suffixes 'a standard suffix' .cpp1.ii .cpp1.ii
    suffixes 'a suffix twice' '.x .x' .x .x
    suffixes 'a suffix without a dot' gpu gpu
    suffixes 'a suffix with a slash' .a/b .a/b
    suffixes 'an empty suffix' '' ''
    suffixes 'a suffix with control characters' '.\n\u{1b}\u{9b}' $'.\n\x1b\xc2\x9b'
}

# messages about long input: a line of a megabyte, the last of a thousand suffixes, and a file with a long name
long_messages() {
    local long suffixes=() number shown
    long=$(head -c 1000000 /dev/zero | tr '\0' x)
    bad 'a line of a megabyte' "#\$ '$long" 'the command has an open quote or ends in a backslash' "#\$ '${long:0:116}.."
    for number in {1..1000}; do
        suffixes+=(".a$number")
    done
    shown="${suffixes[*]}"
    suffixes 'a bad suffix behind a thousand' "${shown:0:1000}.." "${suffixes[@]}" .ii
    run_of bad "${suffixes[@]/#./#$ A=}" "#\$ '"
    check 'a bad line behind a thousand variables' 1 '' \
        "zigrunk plan: $scratch/bad:$(wc -l < "$scratch/bad"): the command has an open quote or ends in a backslash"$'\n'"    #\$ '"$'\n' \
        json --limit 100000000 /w /t -c "$scratch/kernel" "$scratch/bad"
    lines_of bad "#\$ PATH=/$long" '#$ nowhere'
    check 'a program that is not in a path of a megabyte' 1 '' \
        "zigrunk plan: $scratch/bad:2: cannot find nowhere in PATH (/${long:0:970}.."$'\n    #$ nowhere\n' json /w /t -c "$scratch/kernel" "$scratch/bad"
    long=${long:0:100000}
    fails 'a file with a name of 100,000 bytes' "cannot read ${long:0:1000}..: File name too long" json /w /t -c "$long" x
}

# No byte of the input reaches the terminal if it isn't printable ASCII, in any message that quotes input: all 256 bytes, and each
# control character of two bytes, in a line, a program and PATH, a path that can't be read, one of a file with a bad line, one
# that is there twice, and a suffix. A word of a call can't have a null byte, and a line can't have a newline.
escapes() {
    local code bytes every=${EVERY:-1} drawn=$RANDOM
    for code in {0..255} {384..415}; do
        [ $(((code + drawn) % every)) -eq 0 ] || continue
        printf -v bytes '\\x%x' "$((code % 256))"
        [ "$code" -lt 256 ] || bytes="\\xc2$bytes"
        : > "$scratch/err"
        : > "$scratch/out"
        wrong=ok
        lines_told=0
        # shellcheck disable=SC2059 # escapes
        printf "#\$ 'x$bytes\n" > "$scratch/byte"
        escaped 2 "$scratch/byte" "$scratch/kernel"
        # shellcheck disable=SC2059 # escapes
        printf "#\$ PATH=/x${bytes}y\n#\$ x1${bytes}y\n" > "$scratch/byte"
        escaped 2 "$scratch/byte" "$scratch/kernel"
        [ "$code" -eq 0 ] || escaped_words "$bytes"
        [ "$(wc -l < "$scratch/err")" -eq "$lines_told" ] || wrong='other lines'
        [ "$(LC_ALL=C tr -d '\n -~' < "$scratch/err" | wc -c)" -eq 0 ] || wrong='a byte that does not print'
        echo 1 > "$scratch/status"
        printf '%s' "$wrong" > "$scratch/err"
        judge "messages with the byte $bytes" 1 '' ok
    done
}

# the same for words of calls with these bytes, in which a slash ends a folder's name
escaped_words() {
    local text
    # shellcheck disable=SC2059 # escapes
    printf -v text "x$1."
    text=${text%.}
    escaped 1 "$scratch/$text/x" "$scratch/kernel"
    escaped 1 "$scratch/kernel" "$scratch/kernel.2" ".$text/"
    [ "$1" != '\x2f' ] || return 0
    cp "$scratch/pathless" "$scratch/$text"
    escaped 2 "$scratch/$text" "$scratch/kernel"
    escaped 1 "$scratch/$text" "$scratch/$text"
}

# escaped LINES DRY1 DRY2 SUFFIX..: a call that fails with so many lines on standard error, or with one if a word isn't UTF-8.
escaped() {
    local lines=$1
    shift
    zigrunk_plan json /w /t -c "$@" >> "$scratch/out" 2>> "$scratch/err"
    case $? in
        1) lines_told=$((lines_told + lines)) ;;
        2) lines_told=$((lines_told + 1)) ;;
        *) wrong='another status' ;;
    esac
}

# standard input in place of a file
standard_input() {
    local plan
    plan=$(zigrunk_plan json /w /t -c "$scratch/kernel" "$scratch/kernel.2"; printf .)
    check 'the first run from standard input' 0 "${plan%.}" '' json /w /t -c - "$scratch/kernel.2" < "$scratch/kernel"
    check 'the second run from standard input' 0 "${plan%.}" '' json /w /t -c "$scratch/kernel" - < <(cat "$scratch/kernel.2")
    fails 'both runs from standard input' '-: both dry runs are the same file' json /w /t -c - - < "$scratch/kernel"
    fails 'a closed standard input' '-: no dry run: no line begins with "#$ "' json /w /t -c "$scratch/kernel" - <&-
    fails 'a folder as standard input' 'cannot read -: Is a directory' json /w /t -c - "$scratch/kernel.2" < "$scratch"
    fails 'a first run without a name' 'cannot read : No such file or directory' json /w /t -c '' "$scratch/kernel.2" < "$scratch/kernel"
    fails 'a second run without a name' 'cannot read : No such file or directory' json /w /t -c "$scratch/kernel" '' < "$scratch/kernel.2"
    mkdir -p "$scratch/dashes"
    cp "$scratch/kernel" "$scratch/dashes/-"
    in_folder "$scratch/dashes" zigrunk_plan json /w /t -c ./- ../kernel.2
    judge 'a file that has the name of standard input' 0 "${plan%.}" ''
}

# plans that aren't written
refused_exports() {
    local unread="zigrunk plan: cannot read $scratch/missing: No such file or directory"$'\n' unheld=$'zigrunk plan: a text of the plan holds a byte that the form can\'t\n' format
    for format in "${formats[@]}"; do
        check "no first file for $format" 1 '' "$unread" "$format" /w /t -c "$scratch/missing" "$scratch/kernel"
        check "no second file for $format" 1 '' "$unread" "$format" /w /t -c "$scratch/kernel" "$scratch/missing"
    done
    suffixes 'a bad suffix' .ii .ii
    lines_of pathless '#$ gcc'
    check 'no first file, and its name twice' 1 '' "$unread" json /w /t -c "$scratch/missing" "$scratch/missing"
    fails 'no PATH' "$scratch/pathless:1: no line before this one sets PATH"$'\n    #$ gcc' json /w /t -c "$scratch/pathless" "$scratch/kernel"
    run_of lost '#$ nowhere'
    check 'a program that is not on disk' 1 '' "zigrunk plan: $scratch/lost:2: cannot find nowhere in PATH ($scratch/none:$scratch/bin)"$'\n    #$ nowhere\n' \
        json /w /t -c "$scratch/lost" "$scratch/kernel"
    check 'a folder with a newline for Ninja' 1 '' "$unheld" ninja /w $'/t\n' -c "$scratch/kernel" "$scratch/kernel.2"
    mkdir -p "$scratch/h=re"
    : > "$scratch/h=re/gcc"
    chmod +x "$scratch/h=re/gcc"
    run_of equals '#$ ./gcc -D__NVCC__ x.cpp'
    fails 'a program whose path has an equals sign' 'a program of the plan has a path that env takes for something else' \
        shell "$scratch/h=re" /t -c "$scratch/equals" "$scratch/equals.2"
    to_full 'a plan as JSON to a full disk' 1 $'zigrunk plan: cannot write\n' json /w /t -c "$scratch/kernel" "$scratch/kernel.2"
}

# doubling N: a dry run of N variables, each of which is twice the next, and a command that refers to the first.
doubling() {
    local number
    echo '#$ PATH=/b'
    for ((number = 0; number < $1; number++)); do
        echo "#\$ ${letters:number:1}=\$${letters:number + 1:1}.\$${letters:number + 1:1}."
    done
    echo '#$ $A.'
}

# dry runs of a megabyte of each kind that takes work: answered or refused within three seconds of the processor and 300 MB
hostile_input() {
    local said
    if [ -n "${EMULATED-}" ]; then
        skip 'hostile input' 'an emulator takes time and memory of its own'
        return
    fi
    said=$(tests/hostile_input.py "$program" 2>&1) && said=''
    count 'hostile input' "$said"
}

# fastest RUN: the seconds of processor that the plan of a run takes as text: the fewest of ten calls, since other work may share a core.
fastest() {
    local TIMEFORMAT='%3U + %3S'
    for _ in {1..10}; do
        { time zigrunk_plan text /w /t -c "$scratch/$1" "$scratch/$1.2" > /dev/null 2>&1; } 2>&1
    done | awk '{ took = $1 + $3 } NR == 1 || took < least { least = took } END { print least }'
}

# the limit for what reading a dry run makes: exactly, in both runs and in each form, and for one that explodes
limits() {
    local letters=ABCDEFGHIJKLMNOPQRSTUVWXYZ form out
    lines_of small '#$ PATH=/b'
    run_of within '#$ gcc -D__NVCC__ x.i'
    local room within=$'\n    #$ gcc -D__NVCC__ x.i\n'
    # PATH and its value, the path of gcc, -D__NVCC__ and x.i: each counts one byte more, and each line 4,096
    room=$(($(sed -n 's/^#\$ PATH=//p' "$scratch/within" | tr -d '\n' | wc -c) + $(printf %s "$scratch/bin/gcc" | wc -c) + 22 + 2 * 4096))
    local exceeded=":2: with this line, the dry run makes over $((room - 1)) bytes: --limit allows more$within"
    out=$(zigrunk_plan json /w /t -c "$scratch/within" "$scratch/within.2"; printf .)
    check 'dry runs that just fit' 0 "${out%.}" '' json --limit "$room" /w /t -c "$scratch/within" "$scratch/within.2"
    for form in "${formats[@]}"; do
        check "$form: the first run exceeds the limit" 1 '' "zigrunk plan: $scratch/within$exceeded" \
            "$form" --limit $((room - 1)) /w /t -c "$scratch/within" "$scratch/within.2"
        check "$form: the second run exceeds the limit" 1 '' "zigrunk plan: $scratch/within.2$exceeded" \
            "$form" --limit $((room - 1)) /w /t -c "$scratch/small" "$scratch/within.2"
    done
    check 'no room at all' 1 '' "zigrunk plan: $scratch/within:1: with this line, the dry run makes over 1 bytes: --limit allows more"$'\n    '"$(head -n 1 "$scratch/within")"$'\n' \
        json --limit 1 /w /t -c "$scratch/within" "$scratch/within.2"
    doubling 25 > "$scratch/doubling"
    cp "$scratch/doubling" "$scratch/doubling.2"
    for form in json text; do
        # in 300 MB
        ulimit -S -v 307200
        check "$form: $(wc -c < "$scratch/doubling") bytes that explode" 1 '' \
            "zigrunk plan: $scratch/doubling:27: with this line, the dry run makes over 2097152 bytes: --limit allows more"$'\n    #$ $A.\n' \
            "$form" /w /t -c "$scratch/doubling" "$scratch/doubling.2"
        ulimit -S -v unlimited
    done
    # the refusal takes at most three times as long as the plan of a megabyte without variables
    lines_of plain '#$ PATH=/b' "#\$ gcc -D__NVCC__ -D$(head -c 1000000 /dev/zero | tr '\0' x) x.i"
    cp "$scratch/plain" "$scratch/plain.2"
    awk "BEGIN { print ($(fastest doubling) < 3 * $(fastest plain)) }" > "$scratch/out" 2> "$scratch/err"
    echo 0 > "$scratch/status"
    judge 'the time of a refusal' 0 $'1\n' ''
}

# Options before a format and behind it mean the same, and of two limits the last counts. The directories and the flag have values of their
# own.
orders_of_options() {
    local small kept files=(--dry-runs "$scratch/kernel" "$scratch/kernel.2") places=(--cwd /w --tmp /t --flag -c)
    kept=$("$program" plan "${files[@]}" "${places[@]}" --keep shell; printf .)
    check 'a plan with names kept' 0 "${kept%.}" '' shell --keep /w /t -c "$scratch/kernel" "$scratch/kernel.2"
    noted "$program" plan shell --keep "${places[@]}" "${files[@]}" > "$scratch/out" 2> "$scratch/err"
    judge 'options behind a format' 0 "${kept%.}" ''
    noted "$program" plan --limit 7 --keep "${files[@]}" shell --limit 90000 "${places[@]}" > "$scratch/out" 2> "$scratch/err"
    judge 'options on both sides' 0 "${kept%.}" ''
    small="zigrunk plan: $scratch/kernel:1: with this line, the dry run makes over 7 bytes: --limit allows more"$'\n    '$(head -n 1 "$scratch/kernel")$'\n'
    check 'two limits' 1 '' "$small" json --limit 90000 --limit 7 /w /t -c "$scratch/kernel" "$scratch/kernel.2"
    kept=$("$program" plan json "${files[@]}" --cwd /w --tmp /w --flag -c; printf .)
    in_folder "$scratch" "$program" plan json "${files[@]}" --cwd /w
    judge 'a directory and a flag that nobody says' 0 "${kept%.}" ''
    if (cd "$scratch" && kept=$("$program" plan text --cwd "$(pwd)" "${files[@]}") && [ "$kept" = "$("$program" plan text "${files[@]}")" ]); then
        count 'a working directory that nobody says' ''
    else
        count 'a working directory that nobody says' 'another plan'
    fi
}

# passes NAME REASON WORD..: a line that goes to nvcc, which is never run.
passes() {
    noted "$program" plan text -- "$scratch/nvcc" "${@:3}" > "$scratch/out" 2> "$scratch/err"
    judge "$1" 3 '' "zigrunk plan: goes to nvcc: $2"$'\n'
}

# nvcc lines that no plan is made of: tests/callers has one for each reason
calls_for_nvcc() {
    printf '#!/bin/sh\nexit 9\n' > "$scratch/nvcc" && chmod +x "$scratch/nvcc"
    passes 'no words of nvcc' 'it links'
    NVCC_APPEND_FLAGS=--dryrun passes 'a dry run' 'it prints something' -c k.cu
}

# run FUNCTION..: calls these functions, or those of them that the script's call names.
run() {
    local name
    for name in "$@"; do
        [[ ${#wanted[@]} -gt 0 && " ${wanted[*]} " != *" $name "* ]] || "$name"
    done
}

run good_lines refused_lines good_plans refused_plans unreadable_runs other_calls long_lines slow_streams short_streams closed_streams no_memory
program=$zigrunk speaker=zigrunk_plan user=()
mapfile -t formats < <("$program" plan --formats)
run \
    kernel_programs plan_scripts plan_files compilation_databases plan_schema whole_plans unfit_files programs_on_disk unread_files \
    run_by_ninja run_as_script refused_exports limits hostile_input messages long_messages escapes standard_input orders_of_options calls_for_nvcc
summary
