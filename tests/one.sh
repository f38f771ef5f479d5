#!/usr/bin/env bash
# Runs the cases whose names have a text: those of the test scripts that have it, and the driver's unit tests. A name that a script puts
# together is found by a part of it that stands in the script. The last line is 'N passed, M failed'.
#
#   tests/one.sh TEXT    as tests/one.sh 'a file that nobody may read', or tests/one.sh slots::tests
set -u
cd "$(dirname "$0")/.." || exit 2
. tests/lib.sh
text=${1:-}
[ -n "$text" ] || { sed -n 's/^# \{0,1\}//; 2,5p' "$0" >&2; exit 2; }

# by_script SCRIPT: the cases of a script, which says what fails. The programs are the proved ones if they are built, else those of `make rust`.
by_script() {
    local programs=()
    echo "$1"
    [[ $1 != */program.sh || -x crates/cudaplan/out/cudaplan ]] || programs=(out/rust/target/release/cudaplan)
    ONLY=$text "$1" "${programs[@]}" > "$scratch/said" 2>&1
    add $? "$scratch/said" || echo 'it has no counts'
    sed '$d' "$scratch/said"
}

while read -r script; do
    by_script "$script"
done < <(grep -lF -e "$text" tests/*.sh | xargs grep -lF '. tests/lib.sh' | grep -v 'tests/one.sh')
! grep -rqE "(fn|mod) ${text##*::}\b" {unix,machine,cache,runner,report,batch,driver}/src || PARTS=unit by_script tests/driver.sh
summary
