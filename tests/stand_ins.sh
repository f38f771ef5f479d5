#!/usr/bin/env bash
# Compares the stand-ins for std and for the kit's crates (rust/stand), on which the plain Rust build rests, with the kit's own: the driver
# test_std is compiled by the kit and, erased, by rustc over the stand-ins. Both get the same lines, most of them drawn by a seed, and have
# to answer the same. Then one allocation of each call is refused. No call may lose a block of memory, refused or not. The last line is
# 'N passed, M failed'; a line is a case.
#
#   tests/stand_ins.sh                    SEED=1 COUNT=100000: how many lines are drawn
#   tests/stand_ins.sh --line 'LINE'      what both answer to one line
#   tests/stand_ins.sh --with KIT PLAIN   the two programs are built already
set -u
[ "${1-}" != --with ] || set -- --with "$(realpath "$2")" "$(realpath "$3")"
cd "$(dirname "$0")/.." || exit 2
. tests/lib.sh
driver=$PWD/tests/drivers/test_std
seed=${SEED:-1} count=${COUNT:-100000}

# build_plain: leaves the erased driver, built over the stand-ins, in $scratch/plain.
build_plain() {
    local target=$PWD/out/stand_ins
    cargo run --quiet --offline --target-dir "$target" --manifest-path rust/Cargo.toml -p eraser -- \
        --drivers --unformatted . "$scratch/rust" &&
        env -C "$scratch/rust" cargo build --quiet --release --offline --target-dir "$target" -p test_std &&
        cp "$target/release/test_std" "$scratch/plain/test_std"
}

# build_kit: leaves the driver that the kit compiled in $scratch/kit.
build_kit() {
    tests/drivers.sh --build test_std && cp "$driver/out/test_std" "$scratch/kit/test_std"
}

# build: leaves both programs.
build() {
    require stand-ins cargo rt
    check 'the plain driver is built' build_plain
    check "the kit's driver is built" build_kit
    [ "$failed" -eq 0 ] || { summary; exit 1; }
}

# make_files: the files that lines name.
make_files() {
    mkdir -p "$scratch/files/folder/inner"
    cd "$scratch/files" || exit 2
    : > empty
    echo small > small
    echo 'é' > 'é'
    head -c 20000 /dev/zero | tr '\0' x > large
    printf 'a\xe9b' > latin
    printf 'no' > closed && chmod 0 closed
    printf 'ran' > run && chmod 755 run
    ln -s loop loop
    ln -s nothing dangling
    ln -s small link
    cd - > /dev/null || exit 2
}

# start PROGRAM WORD..: runs one of the two, under the same name and in the same environment.
start() {
    local program=$1
    shift
    (
        cd "$scratch/$program" && exec env -i HOME=/home/x EMPTY= EQUALS=a=b LATIN=$'a\xe9' LONG="$(printf '%01000d' 7)" "${preloaded[@]}" \
            ./test_std "$@"
    )
}
preloaded=()

# answer_lines: both programs answer the lines.
answer_lines() {
    local program
    for program in kit plain; do
        start "$program" < "$scratch/lines" > "$scratch/$program.said" 2> "$scratch/$program.err" 9> "$scratch/$program.blocks"
        echo $? > "$scratch/$program.status"
    done
}

# compare_lines: each line is a case. A difference is shown with its line.
compare_lines() {
    local number wrong=0
    same 'the status at the end' "$(cat "$scratch/plain.status")" 7
    same "the kit's status at the end" "$(cat "$scratch/kit.status")" 7
    same 'standard error' "$(cat "$scratch/plain.err")" "$(cat "$scratch/kit.err")"
    mapfile -t numbers < <(diff --unchanged-line-format= --old-line-format=$'%dn\n' --new-line-format= "$scratch/kit.said" "$scratch/plain.said")
    for number in "${numbers[@]:0:10}"; do
        wrong=$((wrong + 1))
        printf 'line: %s\n  kit: %s\nplain: %s\n' "$(sed -n "${number}p" "$scratch/lines")" "$(sed -n "${number}p" "$scratch/kit.said" | cut -c 1-600)" \
            "$(sed -n "${number}p" "$scratch/plain.said" | cut -c 1-600)"
    done
    cmp -s "$scratch/kit.said" "$scratch/plain.said" || failed=$((failed + (wrong > 0 ? ${#numbers[@]} : 1)))
    passed=$((passed + $(wc -l < "$scratch/kit.said") - ${#numbers[@]}))
}

# no_block_lost WHEN: a case for each program: at no answer it held more or fewer blocks than at the one before.
no_block_lost() {
    local program
    for program in kit plain; do
        check "blocks lost by $program, $1" prints "0 of $(wc -l < "$scratch/whole") answers" cat "$scratch/$program.blocks"
    done
}

# refuse_allocations: each call once more while its blocks are counted, and again while one of its allocations fails.
refuse_allocations() {
    cc -shared -fPIC -O2 -Wall -Werror "$driver/refuse.c" -o "$scratch/refuse.so" || { count refused 'refuse.c does not compile'; return; }
    cp "$scratch/kit.said" "$scratch/whole"
    preloaded=(LD_PRELOAD="$scratch/refuse.so")
    answer_lines
    no_block_lost 'with all memory'
    preloaded+=(SEED="$seed")
    answer_lines
    preloaded=()
    no_block_lost 'without some'
    for program in kit plain; do
        check "refused allocations, $program" python3 "$driver/judge.py" "$scratch/lines" "$scratch/whole" "$scratch/$program.said"
        tail -n 1 "$scratch/said"
    done
}

# start_and_end: the start and the end of a process: its arguments, closed streams, and a reader that has gone.
start_and_end() {
    local program
    printf 'args\nsha256_of : abc\nvar : HOME\nstatus 3\n' > "$scratch/few"
    for program in kit plain; do
        {
            start "$program" --lines a '' 'ä' < "$scratch/few"; echo "arguments $?"
            start "$program" --lines $'\xe9' < "$scratch/few"; echo "no UTF-8 $?"
            start "$program" <&-; echo "no input $?"
            start "$program" < "$scratch/files"; echo "a folder as input $?"
            start "$program" < "$scratch/few" >&-; echo "no output $?"
            start "$program" < "$scratch/few" 2>&-; echo "no error output $?"
            start "$program" < "$scratch/few" > /dev/full; echo "a full device $?"
            start "$program" < "$scratch/few" <&- >&- 2>&-; echo "no streams $?"
            start "$program" < "$scratch/lines" | head -c 1 > /dev/null; echo "no reader ${PIPESTATUS[0]}"
            start "$program" none; echo "no such file $?"
        } > "$scratch/$program.start" 2> /dev/null
    done
    check 'arguments, streams and statuses' diff "$scratch/kit.start" "$scratch/plain.start"
}

# refuse_at_start: the first allocations of a process fail, one at a time. Neither may crash, and each tells the same as with memory or ends with status 2.
refuse_at_start() {
    local program number status problem=''
    cc -shared -fPIC -O2 tests/refuse_nth.c -o "$scratch/nth.so" -ldl || { count refused 'refuse_nth.c does not compile'; return; }
    for program in kit plain; do
        start "$program" < "$scratch/few" > "$scratch/few.said"
        for number in {1..60}; do
            preloaded=(LD_PRELOAD="$scratch/nth.so" REFUSED="$number")
            start "$program" < "$scratch/few" > "$scratch/few.refused" 2> "$scratch/few.err" 9> /dev/null
            status=$?
            preloaded=()
            [ "$status" -eq 2 ] || [ "$status" -eq 3 ] || problem+="$program, $number: status $status"$'\n'
            [ ! -s "$scratch/few.err" ] || problem+="$program, $number: $(cat "$scratch/few.err")"$'\n'
        done
    done
    count 'allocations refused at the start' "$problem"
}

mkdir "$scratch/kit" "$scratch/plain"
case ${1-} in
--with)
    cp "$2" "$scratch/kit/test_std" && cp "$3" "$scratch/plain/test_std" || exit 2
    ;;
*) build ;;
esac
if [ "${1-}" = --line ]; then
    for program in kit plain; do
        echo "$program: $(start "$program" <<< "$2")"
    done
    exit
fi
make_files
python3 "$driver/draw.py" "$seed" "$count" "$scratch/files" > "$scratch/lines" || exit 2
answer_lines
compare_lines
start_and_end
refuse_allocations
refuse_at_start
if [ -d /opt/rattle ]; then check "the table of words is the kit's" rust/stand/unicode/generate.py --check; fi
summary
