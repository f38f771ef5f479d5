#!/usr/bin/env bash
# Tests that the tests can't pass without showing something: what tests/lib.sh and tests/runner.py count, and tests/compare_calls.py with
# stand-ins for nvcc and zigrunk-nvcc. Prints a line for each case that fails, and last 'N passed, M failed'.
set -u
cd "$(dirname "$0")/.." || exit 1
. tests/lib.sh

# ends NAME STATUS TEXT COMMAND..: a case: how a command ends, and the end of what it prints.
ends() {
    local said status
    said=$("${@:4}" 2>&1)
    status=$?
    [[ $status == "$2" && $said == *"$3" ]] && said='' || said="status $status, not $2, and '$said' doesn't end in '$3'"
    count "$1" "$said"
}

# by_library COMMANDS: runs commands of tests/lib.sh. They find a file with a last line, written by `last STATUS LINE`.
by_library() {
    # shellcheck disable=SC2016 # for bash
    env -u ONLY -u STOP_EARLY bash -c '. tests/lib.sh; last() { echo "$2" > "$scratch/it"; add "$1" "$scratch/it"; }; '"$1"
}

ends 'a script without a case' 1 $'no case ran\n0 passed, 1 failed' by_library summary
ends 'a script with cases' 1 $'second: wrong\n1 passed, 1 failed' by_library 'count first ""; count second wrong; summary'
ends 'cases that all pass' 0 '2 passed, 0 failed' by_library 'check one true; same two x x; summary'
ends 'a command that fails' 1 $'one: failed\nwhy\n0 passed, 1 failed' by_library 'check one sh -c "echo why; exit 3"; summary'
ends 'texts that differ' 1 $'one: \'x\', not \'y\'\n0 passed, 1 failed' by_library 'same one x y; summary'
ends 'a script that is skipped' 0 '0 passed, 0 failed, 1 skipped' by_library 'require it no-such-tool; echo on'
# shellcheck disable=SC2016 # for bash
ends 'a case of several texts' 1 $'sh: it: one: \'x\', not \'y\'\n  two: \'x\', not \'z\'\n0 passed, 1 failed' \
    by_library 'shell=(sh); room=$scratch/room; begin it; same one x y; same two x z; same three x x; end_case; summary'
# Each of two cases fails. What isn't of `by_shells` prints the last line, wherever it ends.
# shellcheck disable=SC2016 # for bash
fails_twice='shell=(x) room=$scratch/room; two() { begin one; same text 1 2; end_case; begin two; same text 3 4; end_case; }'
ends 'a script that goes on after a failure' 1 $'\'1\', not \'2\'\nx: two: text: \'3\', not \'4\'\n0 passed, 2 failed' by_library "$fails_twice; two; summary"
ends 'a script that stops early' 1 $'\'1\', not \'2\'\n0 passed, 1 failed' by_library "STOP_EARLY=yes; $fails_twice; two; summary"
ends 'shells that stop early' 1 $'\n0 passed, 2 failed' by_library "STOP_EARLY=yes SHELLS='bash sh'; $fails_twice; by_shells two; summary"
ends 'a lane that stops early' 1 $'\'1\', not \'2\'\n0 passed, 1 failed' by_library "STOP_EARLY=yes; $fails_twice; lane it two; join_lanes; summary"
ends 'scripts with an end of their own' 0 tests/lib.sh grep -l '^ *end_shell()' tests/*.sh
ends 'counts of another script' 1 '4 passed, 2 failed' by_library 'last 1 "4 passed, 2 failed"; summary'
ends 'another script that is skipped' 0 '1 passed, 0 failed' by_library 'count it ""; last 0 "0 passed, 0 failed, 1 skipped"; summary'
ends 'another script without a case' 1 '0 passed, 1 failed' by_library 'last 0 "0 passed, 0 failed"; summary'
ends 'another script without a last line' 1 '0 passed, 1 failed' by_library 'last 0 "all is well"; summary'
ends 'a status of 1 without a failure' 1 '0 passed, 1 failed' by_library 'last 1 "4 passed, 0 failed"; summary'
ends 'a status of 0 with a failure' 1 '0 passed, 1 failed' by_library 'last 0 "4 passed, 2 failed"; summary'

# by_module CODE: runs code of Python that uses tests/runner.py.
by_module() {
    PYTHONPATH=tests PYTHONDONTWRITEBYTECODE=1 python3 -c "import runner, sys; counts = runner.Counts(); $1; sys.exit(counts.summary())"
}

# The stand-ins: what is compiled is copied, through TMPDIR.
cat > "$scratch/nvcc" << 'END_OF_NVCC'
#!/bin/sh
set -e
[ "$1" != --version ] || { echo "$RELEASE" && exit 0; }
cp "$2" "$TMPDIR/it"
mv "$TMPDIR/it" "$4"
END_OF_NVCC
{
    # shellcheck disable=SC2016 # for sh
    printf '%s\n' '#!/bin/sh' '[ -z "$WHOLE" ] || echo "zigrunk-nvcc: nvcc itself: $WHOLE" >&2'
    sed 1d "$scratch/nvcc"
    # shellcheck disable=SC2016 # for sh
    echo '[ -z "$WORSE" ] || echo more >> "$4"'
} > "$scratch/ours"
chmod +x "$scratch/nvcc" "$scratch/ours"
compile='-c kernel.cu -o k.o'
fail='-c missing.cu -o k.o'

# compares [NAME=VALUE..] OPTIONS.. LINE LINE LINE: compares three calls.
compares() {
    printf '%s\n' "${@: -3}" > "$scratch/calls"
    env WORSE= WHOLE= PYTHONDONTWRITEBYTECODE=1 tests/compare_calls.py --nvcc "$scratch/nvcc" --ours "$scratch/ours" "${@:1:$# - 3}" "$scratch/calls"
}

# compares_older OPTIONS.. LINE LINE LINE: the same with a stand-in for an older nvcc.
compares_older() {
    RELEASE='release 12.4' compares "$@"
}

# in_scratch COMMAND..: runs a command of tests/compare_calls.py where a relative scratch folder is.
in_scratch() {
    local tests=$PWD/tests
    mkdir "$scratch/here" "$scratch/here/room"
    printf '%s\n' "$compile" "$compile" "$compile" > "$scratch/here/calls"
    (cd "$scratch/here" && env WORSE= WHOLE= PYTHONDONTWRITEBYTECODE=1 "$tests/compare_calls.py" --nvcc ../nvcc --ours ../ours --scratch room calls)
}

# suits VALUES LINE TEXT: a case: what a line becomes for an nvcc that lists these values of its options.
suits() {
    ends "$2 for nvcc with $1" 0 "becomes $3" env PYTHONPATH=tests PYTHONDONTWRITEBYTECODE=1 \
        python3 -c 'import sys; from compare_calls import suited; print("becomes", suited(sys.argv[2], set(sys.argv[1].split())))' "$1" "$2"
}

# suited_lines: an older nvcc gets targets and a standard that it knows, as many as the line names, unless the line says otherwise.
suited_lines() {
    local known='sm_52 sm_60 sm_75 sm_80 compute_80 c++14 c++17' two='-gencode arch=compute_52,code=sm_52 -gencode arch=compute_60,code=sm_60'
    suits "$known" '-arch=sm_80 -std=c++14 -c' '-arch=sm_80 -std=c++14 -c'
    suits "$known" '-arch=sm_90 -std c++20' '-arch=sm_80 -std c++17'
    suits "$known" '-arch=sm_35 -arch=sm_53' '-arch=sm_35 -arch=sm_53'
    suits "$known" 'compute_80,sm_80 compute_90,sm_90 compute_100,lto_100' 'compute_80,sm_80 compute_60,sm_60 compute_75,lto_75'
    suits "$known" '-arch=sm_100a' '-arch=sm_80'
    suits "$known sm_90 sm_90a c++20" '-arch=sm_100a -std=c++20' '-arch=sm_90a -std=c++20'
    suits "$known all-major" '-arch=all-major -c' '-arch=all-major -c'
    suits "$known" '-t2 -arch=all-major -c' "-t2 $two -gencode arch=compute_80,code=sm_80 -gencode arch=compute_80,code=compute_80 -c"
    suits 'sm_70 sm_75 c++17' '-arch=all' \
        '-gencode arch=compute_70,code=sm_70 -gencode arch=compute_75,code=sm_75 -gencode arch=compute_70,code=compute_70'
    suits "$known" '@targets=given -arch=sm_90' '@targets=given -arch=sm_90'
    suits '' '-arch=sm_90' '-arch=sm_90'
}

# draws OURS STATUS TEXT: a case of tests/random_calls.py: nine calls, with stand-ins that make a file, whatever their words are.
draws() {
    ends "random calls, $1" "$2" "$3" env PYTHONDONTWRITEBYTECODE=1 tests/random_calls.py --seed 7 --count 9 --nvcc "$scratch/makes" --ours "$scratch/$1"
}

# random_calls: the same seed draws the same calls, each of which is that of its number, and another seed draws others. None of the calls
# below has an option that lets bytes differ.
random_calls() {
    local first
    printf '%s\n' '#!/bin/sh' '[ "$1" = --version ] || echo made > made' > "$scratch/makes"
    printf '%s\n' '#!/bin/sh' 'echo worse > made' > "$scratch/worse"
    printf '%s\n' '#!/bin/sh' 'echo made > made; echo "zigrunk-nvcc: nvcc itself: why" >&2' > "$scratch/whole"
    printf '%s\n' '#!/bin/sh' 'exit 1' > "$scratch/fails"
    chmod +x "$scratch"/{makes,worse,whole,fails}
    first=$(tests/random_calls.py --list --seed 7 --count 9)
    same 'the calls of a seed' "$(tests/random_calls.py --list --seed 7 --count 9)" "$first"
    same 'one call of a seed' "$(tests/random_calls.py --list --seed 7 --first 7 --count 1)" "$(sed -n 7p <<< "$first")"
    same 'another seed' "$(tests/random_calls.py --list --seed 6 --count 9 | sed 's/random-6/random-7/' | grep -cxF "$first")" 0
    draws makes 0 $'wrong products with status 0: 0\n9 passed, 0 failed'
    draws worse 1 $'wrong products with status 0: 9\n0 passed, 9 failed'
    draws whole 1 $'no call is split\n9 passed, 1 failed'
    draws fails 1 $'wrong products with status 0: 0\n0 passed, 9 failed'
}

# versions: a case of tests/versions.sh, with stand-ins for two versions of nvcc. The older one makes something else if zigrunk-nvcc calls
# it, which the other one's pass may not hide. Nothing is split, which is a failure with either.
versions() {
    local version folder=$scratch/toolkits
    for version in 11.8 12.4; do
        mkdir -p "$folder/$version/usr/bin"
        touch "$folder/$version/done"
        cp "$scratch/nvcc" "$folder/$version/usr/bin/nvcc"
    done
    echo '[ -z "$ZIGRUNK_INSIDE" ] || echo more >> "$4"' >> "$folder/11.8/usr/bin/nvcc"
    printf '%s\n' '#!/bin/sh' 'echo because && exit 3' > "$scratch/zigrunk"
    chmod +x "$scratch/zigrunk"
    echo "$compile" > "$scratch/calls"
    ends 'a fault with one version of nvcc' 1 $'nvcc 12.4, calls: 1 passed, 1 failed\n1 passed, 3 failed' \
        env VERSIONS='11.8 12.4' PARTS=calls CALLS="$scratch/calls" CUDA_VERSIONS="$folder" \
        PYTHONDONTWRITEBYTECODE=1 tests/versions.sh "$scratch/zigrunk"
}

if command -v python3 > /dev/null; then
    random_calls
    suited_lines
    if command -v objcopy > /dev/null && command -v nm > /dev/null; then
        versions
    else
        skip 'versions of nvcc' "objcopy and nm aren't on the path"
    fi
    ends 'a module without a case' 1 $'no case ran\n0 passed, 1 failed' by_module pass
    ends 'a module with cases' 1 $'second: wrong\n1 passed, 1 failed' by_module 'counts.case("first", []); counts.case("second", ["wrong"])'
    ends 'calls that compile' 0 $'3 of 3 calls were split, 2 of the 2 that nvcc compiles: 100 %\n3 passed, 0 failed' \
        compares "$compile" "$fail" "$compile"
    ends 'enough calls are split' 0 $'2 of 3 calls were split, 2 of the 3 that nvcc compiles: 66 %\n3 passed, 0 failed' \
        compares --least-split 65 "$compile" "@env=WHOLE=why $compile" "$compile"
    otherwise="@how=split @env=WHOLE='nvcc reads the line otherwise' $compile"
    ends 'calls that an older nvcc reads otherwise' 0 \
        $'1 of the 2 calls that the lists say are split: 50 %\n2 of 3 calls were split, 2 of the 3 that nvcc compiles: 66 %\n3 passed, 0 failed' \
        compares_older --least-split 50 "@how=split $compile" "$otherwise" "$compile"
    ends 'too few of the calls are split that the lists say are' 1 \
        $'1 of the 2 calls that the lists say are split were split, less than 51 %\n3 passed, 1 failed' \
        compares_older --least-split 51 "@how=split $compile" "$otherwise" "$compile"
    ends 'a call that is not split, though nvcc could run it' 1 '2 passed, 1 failed' \
        compares_older "@how=split @env=WHOLE='a dry run fails' $compile" "$compile" "$compile"
    ends 'a call that an older nvcc refuses' 0 '3 passed, 0 failed' \
        compares_older "@how=split @env=WHOLE='a dry run fails' $fail" "$compile" "$compile"
    ends 'too few calls are split' 1 $'2 of the 3 calls that nvcc compiles were split, less than 67 %\n3 passed, 1 failed' \
        compares --least-split 67 "$compile" "@env=WHOLE=why $compile" "$compile"
    ends 'a call that differs' 1 '2 passed, 1 failed' compares "$compile" "@env=WORSE=yes $compile" "$compile"
    ends 'most calls fail by both tools' 1 $'2 of 3 calls fail by both tools\n3 passed, 1 failed' compares "$compile" "$fail" "$fail"
    ends 'no call compiles' 1 $'no call compiles anything\n3 passed, 1 failed' compares --version --version --version
    ends 'no call is split' 1 $'no call is split\n3 passed, 1 failed' \
        compares "@env=WHOLE=why $compile" "@env=WHOLE=why $compile" "@env=WHOLE=why $compile"
    ends 'a chosen call that fails' 0 '1 passed, 0 failed' compares --only missing "$compile" "$fail" "$compile"
    ends 'no chosen call' 1 $'no case ran\n0 passed, 1 failed' compares --only nothing "$compile" "$fail" "$compile"
    ends 'a list without a call' 1 $'no case ran\n0 passed, 1 failed' compares '' '# nothing' ''
    ends 'a nvcc that is missing' 2 "there is no program $scratch/none" compares --nvcc "$scratch/none" "$compile" "$compile" "$compile"
    ends 'relative paths' 0 '3 passed, 0 failed' in_scratch
else
    skip 'tests in Python' 'python3 is not on the path'
fi
summary
