#!/usr/bin/env bash
# Tests how the gate starts rt ci (.ci/prove), with stand-ins for the rt of each kind of kit, what is said without a kit, and what
# tests/mutants_by_lot.py takes for a success. The last line is 'N passed, M failed'.
set -u
cd "$(dirname "$0")/.." || exit 1
. tests/lib.sh

# kit NAME HELP CI: a stand-in for rt. HELP: what `rt --help` says of rt ci; CI: the shell commands of `rt ci WORDS..`.
kit() {
    mkdir -p "$scratch/$1"
    cat > "$scratch/$1/rt" << END
#!/bin/sh
case \$1 in
ci) shift; $3 ;;
*) printf '%s\n' '$2' ;;
esac
END
    chmod +x "$scratch/$1/rt"
}

# ends NAME STATUS LAST KIT [VARIABLE=VALUE]: with this kit, .ci/prove ends with this status and this last line.
ends() {
    local said status problem=''
    said=$(env -u ANEW "${@:5}" PATH="$scratch/$4:$PATH" .ci/prove 2>&1)
    status=$?
    [ "$status" = "$2" ] && [ "$(tail -n 1 <<< "$said")" = "$3" ] || problem="status $status"$'\n'$said
    count "$1" "$problem"
}

# what rt ci is given, and where it runs
told='echo "$# words, $*, $(test -f crates.txt && echo at the top)"'
kit older 'rt ci   the merge gate' "[ \$# = 0 ] || { echo usage: rt ci; exit 2; }; $told"
kit newer 'rt ci   the merge gate. --anew proves all' "$told"
kit fails 'rt ci   the merge gate' 'echo 30 passed, 1 failed; exit 1'
ends 'a kit whose rt ci takes no word' 0 '0 words, , at the top' older
ends 'the same with ANEW=1' 0 '0 words, , at the top' older ANEW=1
ends 'a kit that keeps proofs' 0 '0 words, , at the top' newer
ends 'one that is told not to' 0 '1 words, --anew, at the top' newer ANEW=1
ends 'a proof that fails' 1 '30 passed, 1 failed' fails

# without_kit WHAT STATUS INSTEAD COMMAND..: without rt, and cargo, a command ends with this status and one line, which names the kit, and says what
# to run in its place or needs, too.
without_kit() {
    local said status problem=''
    said=$(env -i PATH="$scratch/tools" HOME="$scratch" "${@:4}" 2>&1)
    status=$?
    [ "$status" = "$2" ] && [ "$(wc -l <<< "$said")" = 1 ] && [[ $said == *"the Rattle kit"* && $said == *"$3"* ]] || problem="status $status, $said"
    count "$1, without the kit" "$problem"
}

mkdir "$scratch/tools"
for tool in sh bash env make dirname mktemp rm; do ln -s "$(command -v $tool)" "$scratch/tools/$tool"; done
# (a python3 on the path may be a script that needs more)
ln -s "$(python3 -c 'import sys; print(sys.executable)')" "$scratch/tools/python3"
for target in check build; do without_kit "make $target" 2 'run: make rust' make "$target"; done
without_kit 'make test-install' 2 'run: make rust-install' make test-install
for gate in .ci/gate .ci/plain; do without_kit "$gate" 2 'needs cargo' "$gate"; done
without_kit 'tests/quick' 1 'make rust' tests/quick dry_runs

# of_gate: whether each part of the gate has a time that the gate knows, each part a command whose script is there, and no two parts a name.
of_gate() {
    local known name when command script
    known=$(grep -o 'run_all [a-z]*' .ci/gate | cut -d ' ' -f 2; echo first; echo plain; echo proof; echo nightly)
    while read -r name when _ command; do
        grep -qx "$when" <<< "$known" || echo "$name runs $when, which is no time"
        grep -oE '(tests|packaging)/[a-z_/]*\.(sh|py)' <<< "$command" | while read -r script; do [ -e "$script" ] || echo "$name: no $script"; done
    done < <(grep -v '^#' tests/parts.txt)
    grep -v '^#' tests/parts.txt | cut -d ' ' -f 1 | sort | uniq -d
}
same 'the parts of all tests' "$(of_gate)" ''

# noted NAME FILE COUNT: what tests/run does with a part in a clone of its own, which has no other.
clone=$scratch/clone
mkdir -p "$clone/tests" && cp tests/run tests/lib.sh "$clone/tests" && git init -q "$clone"
printf '%s\n' 'good nightly - echo 2 passed, 0 failed' 'bad nightly - echo 1 passed, 1 failed && false' 'odd built nothing_here true' > "$clone/tests/parts.txt"
git -C "$clone" add . && git -C "$clone" -c user.name=n -c user.email=e commit -qm c
same 'a run of all parts outside the gate' "$("$clone/tests/run" --nightly | tail -n 1)" '3 passed, 1 failed'
same 'what is noted' "$(tr -s ' ' < "$clone/tests/passed.txt" | cut -d ' ' -f 1,3,5-)" "good $(git -C "$clone" rev-parse --short=12 HEAD) 2 passed, 0 failed"
same 'a part that lacks a tool' "$("$clone/tests/run" odd | tr '\n' ' ')" 'odd: skipped, it needs nothing_here 0 passed, 0 failed, 1 skipped '
same 'the parts of the gate' "$("$clone/tests/run" --of)" odd

check 'what edits by lot take for a success' python3 - << 'END_OF_PROGRAM'
import sys
sys.path.insert(0, "tests")
from mutants_by_lot import tried_any
for said, wanted in [("", False), ("0 passed, 0 failed\n", False), ("3 passed, 0 failed\n", True), ("3 passed, 0 failed\nmore\n", False),
                     ("0 passed, 0 failed, 1 skipped\n", True), ("3 passed, 1 failed\n", False), ("13 passed, 0 failed", True), ("x3 passed, 0 failed", False),
                     ("test result: ok. 0 passed; 0 failed; 0 ignored\n", False), ("test result: ok. 9 passed; 0 failed; 0 ignored\n", True)]:
    assert tried_any(said) == wanted, said
END_OF_PROGRAM

check 'how many edits by lot have to be caught' python3 - << 'END_OF_PROGRAM'
import sys
sys.path.insert(0, "tests")
from mutants_by_lot import least, verdict
for count, share, wanted in [(20, 0.6, 6), (100, 0.95, 88), (1, 0.95, 0), (20, 1.0, 20), (0, 0.6, 0)]:
    assert least(count, share) == wanted, (count, share, least(count, share))
for caught, survived, wanted, said in [(3, 2, 3, "1 passed, 0 failed"), (2, 3, 3, "0 passed, 1 failed"), (0, 0, 0, "1 passed, 0 failed")]:
    lines, is_enough = verdict(caught, survived, wanted)
    assert lines.splitlines()[1] == said and is_enough == (said[0] == "1"), lines
    assert lines.startswith(f"{caught} of {caught + survived} edits caught, {survived} survived; "), lines
END_OF_PROGRAM

summary
