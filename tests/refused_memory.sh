#!/usr/bin/env bash
# Makes allocations fail, one at a time: in each test case, and in calls of cudaplan that succeed and that fail.
# Every run with a failed allocation has to end in "out of memory", never in another answer. Its calls run a
# second time for each allocation, with all later allocations failing too: the reason must still be printed. (A list of the
# library may ask again for less room than the first time. A run that gets it gives the same as with memory, and is counted
# apart.)
#
# Usage: tests/refused_memory.sh [FILE..]     files of tests/drivers/test_lines/data or tests/drivers/test_plans/data; all files, and
#                                             cudaplan's calls, unless named
#        tests/refused_memory.sh --calls      cudaplan's calls alone
#        tests/refused_memory.sh --few CUDAPLAN    few calls of another cudaplan, each allocation failing alone (tests/program.sh)
#
# The last line is 'N passed, M failed': each failed allocation is a case.
#
# Cases with more than MOST allocations (3000, if that isn't set) are left out, since they would take minutes.
# `make refused-memory` builds the programs, those that run cases unproved, and leaves them in out/ of their crates. Each run is a process of its own, into
# which refuse_nth.c is preloaded.
set -u
cd "$(dirname "$0")/.." || exit 2
root=$PWD
test_lines=$root/tests/drivers/test_lines/out/test_lines
test_plans=$root/tests/drivers/test_plans/out/test_plans
cudaplan=$root/crates/cudaplan/out/cudaplan
[ "${1-}" != --few ] || cudaplan=$2
needed=("$cudaplan")
[[ ${1-} == --* ]] || needed+=("$test_lines" "$test_plans")
for built in "${needed[@]}"; do
    if [ ! -x "$built" ]; then
        echo "not built: $built"
        exit 2
    fi
done
. tests/lib.sh
work=$scratch
cp -r tests/drivers/test_lines/data/. tests/drivers/test_plans/data/. "$work"
cd "$work" || exit 2
cc -shared -fPIC -O2 -o hook.so "$root/tests/refuse_nth.c" -ldl || exit 2

counted=0
refused=0
answered=0
same=0
left_out=0
most=${MOST:-3000}

# wrong TEXT: counts a failure.
wrong() {
    count failed "$1"
}

# judged JUDGE NAME N: a case, a run with this failed allocation.
judged() {
    local before=$failed
    refused=$((refused + 1))
    "$@"
    passed=$((passed + (failed == before)))
}

# run_refused N CMD..: runs a command whose Nth allocation fails, or from the Nth on all, if N ends in a minus. Leaves what it
# writes, as OUTPUT|MESSAGES, its status, and whether an allocation failed.
run_refused() {
    local number=$1
    shift
    printed=$(REFUSED=$number LD_PRELOAD=$work/hook.so "$@" 9> told 2> messages)
    status=$?
    printed+="|$(< messages)"
    read -r met growths < told
}

# judge_case NAME N: judges a run of a case. If the allocation is in the call, its answer is 'out of memory'. If it is around
# the call, the program ends with status 2 and no answer is judged wrong.
judge_case() {
    if [ "$status" -eq 1 ] && [[ $printed == *"but got fault out of memory"* ]]; then
        answered=$((answered + 1))
    elif [ "$status" -eq 2 ] && [[ $printed != *"but got"* ]]; then
        :
    else
        judge_same "$1" "$2"
    fi
}

# judge_same NAME N: judges a run that ended as if no allocation had failed.
judge_same() {
    if [ "$status" -eq "$expected_status" ] && [ "$printed" = "$expected" ]; then
        same=$((same + 1))
    else
        wrong "$1, allocation $2: status $status: $printed"
    fi
}

# judge_call NAME N: judges a run of cudaplan. It says on standard error that it is out of memory, or why the call fails anyway, and
# nothing on standard output.
judge_call() {
    if [ "$status" -eq 1 ] && [ "$printed" = '|cudaplan: out of memory' ]; then
        answered=$((answered + 1))
    else
        judge_same "$1" "$2"
    fi
}

# count_up JUDGE NAME STATUS CMD..: runs a command with memory, which has to end with this status, and then with each
# allocation failing in turn, until none fails.
count_up() {
    local judge=$1 name=$2 number=1 before=$answered
    expected_status=$3
    shift 3
    run_refused 1000000000 "$@"
    expected=$printed
    if [ "$met" != whole ] || [ "$status" -ne "$expected_status" ]; then
        wrong "$name, with memory: status $status: $printed"
        return
    fi
    if [ "$growths" -gt "$most" ]; then
        left_out=$((left_out + 1))
        return
    fi
    counted=$((counted + 1))
    while run_refused "$number" "$@"; [ "$met" = refused ]; do
        judged "$judge" "$name" "$number"
        number=$((number + 1))
    done
    if [ "$met" != whole ]; then
        wrong "$name, allocation $number: status $status: it didn't end"
    elif [ "$judge" = judge_call ] && [ "$answered" = "$before" ]; then
        wrong "$name: no run says that it is out of memory"
    fi
}

# call NAME STATUS CMD..: a call of a program: each allocation fails in turn, first alone, then with all after it, unless $few is set.
call() {
    local name=$1 number=1
    count_up judge_call "$@"
    [ -z "$few" ] || return 0
    shift 2
    while run_refused "$number-" "$@"; [ "$met" = refused ]; do
        judged judge_call "$name" "$number and all after it"
        number=$((number + 1))
    done
}

# run_file FILE: runs the cases of a file, each alone, with the program whose file it is.
run_file() {
    local before=$refused file=$1 case cases=$test_lines
    if [ -e "$root/tests/drivers/test_plans/data/$file" ]; then
        cases=$test_plans
    fi
    rm -rf parts
    mkdir parts
    awk '/^[^ #]/ { n = sprintf("parts/%05d", NR) } /^[^#]/ && n { print > n }' "$file"
    for case in parts/*; do
        cp "$case" case.txt
        count_up judge_case "$file:$((10#${case#parts/}))" 0 "$cases" case.txt
    done
    echo "$file: failed allocations $((refused - before)), after $SECONDS s"
}

# full_disk CMD..: runs a command with its standard output on a full disk.
full_disk() {
    "$@" > /dev/full
}

# calls where cudaplan starts, reads files and writes
few_calls() {
    call 'a short cicc line' 0 "$cudaplan" line cicc /w k.cpp1.ii -o k.ptx
    call 'a short plan' 0 "$cudaplan" plan /w /t -c short short2
}

# calls of cudaplan that succeed
good_cudaplan_calls() {
    call 'a cicc line' 0 "$cudaplan" line cicc /w --device-c -arch compute_80 --module_id_file_name \
        kernel.module_id kernel.cpp1.ii --simt-only -o kernel.ptx
    call 'a ptxas line' 0 "$cudaplan" line ptxas /w -arch=sm_80 -m64 kernel.ptx -o kernel.cubin
    call 'a cudafe++ line' 0 "$cudaplan" line cudafe++ /t --gen_c_file_name x_0.cudafe1.cpp --stub_file_name \
        x_0.cudafe1.stub.c --gen_module_id_file --module_id_file_name kernel.module_id --simt-only x_0.cpp4.ii
    call 'a plan' 0 "$cudaplan" plan /w /t -c dry_runs/one_kernel.dry1 dry_runs/one_kernel.dry2
    call 'a plan with a further suffix' 0 "$cudaplan" plan /w /t -c dry_runs/one_kernel.dry1 \
        dry_runs/one_kernel.dry2 .cudafe1.gpu
}

# calls of cudaplan that fail, each for another reason
bad_cudaplan_calls() {
    local good=dry_runs/one_kernel.dry1
    call 'no compilation' 1 "$cudaplan" line cicc /w a b
    call 'no output' 1 "$cudaplan" line cicc /w --device-c -arch compute_80 kernel.cpp1.ii
    call 'a line to a full disk' 1 full_disk "$cudaplan" line cicc /w kernel.cpp1.ii -o kernel.ptx
    call 'no file' 1 "$cudaplan" plan /w /t -c dry_runs/none "$good"
    call 'bad suffixes' 1 "$cudaplan" plan /w /t -c "$good" "$good" .ii
    call 'no UTF-8' 1 "$cudaplan" plan /w /t -c "$good" dry_runs/bad_last_line.dry1
    call 'no PATH' 1 "$cudaplan" plan /w /t -c pathless "$good"
    call 'no shell words' 1 "$cudaplan" plan /w /t -c "$good" quoted
    call 'no command' 1 "$cudaplan" plan /w /t -c "$good" empty
    call 'no program' 1 "$cudaplan" plan /w /t -c lost lost
    call 'a plan to a full disk' 1 full_disk "$cudaplan" plan /w /t -c "$good" "$good"
    call 'no call' 2 "$cudaplan" line
}

# calls of the programs
program_calls() {
    local before=$refused
    printf '%s\n' "#\$ PATH=$work/bin" '#$ gcc -D__NVCC__ -c x.cpp' > short
    cp short short2
    printf '%s\n' '#$ PATH=' '#$ gcc -D__NVCC__ -E k.cu -o k.cpp1.ii' > lost
    cp lost lost2
    printf '%s\n' '#$ gcc' > pathless
    printf '%s\n' '#$ gcc "a' > quoted
    printf '%s\n' '#$ # note' > empty
    few_calls
    if [ -z "$few" ]; then
        good_cudaplan_calls
        bad_cudaplan_calls
    fi
    echo "calls of the programs: failed allocations $((refused - before)), after $SECONDS s"
}

few=''
if [[ ${1-} == --* ]]; then
    [ "$1" = --calls ] || few=yes
    program_calls
    set --
elif [ $# -eq 0 ]; then
    program_calls
    for file in *.txt; do
        case $file in
            wrong_cases.txt | case.txt) ;;
            *) set -- "$@" "$file" ;;
        esac
    done
fi
for file in "$@"; do
    run_file "$file"
done
echo "cases and calls: $counted, left out: $left_out, failed allocations: $refused, answered 'out of memory': $answered, asked again: $same"
summary
