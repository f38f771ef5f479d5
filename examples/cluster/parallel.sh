#!/bin/bash
# Makes the calls of a list by GNU parallel over ssh: parallel.sh LIST PARTS MACHINES
#
# MACHINES has a line for each machine, as parallel's --sshloginfile: [SLOTS/]HOST. LIST, on a disk that they share, is cut into PARTS, and a machine makes
# a part by `zigrunk batch` if it passes `zigrunk check-node`. parallel tries a part that fails on another machine, twice. What is missing behind a round
# is made again by the machines that pass then: until nothing is, or each call that is has failed on two machines, or for three rounds. The status is
# that of the first call in the list that failed.
set -u
[ $# = 3 ] || { echo 'usage: parallel.sh LIST PARTS MACHINES' >&2 && exit 2; }
list=$(realpath "$1") parts=$2 machines=$(realpath "$3")
folder=$(dirname "$list")/.zigrunk-batch
mkdir -p "$folder" && rm -f "$folder"/*.ended "$folder"/*.said && zigrunk check-node --write "$folder/node" || exit 1
# A machine that is silent for ten seconds is lost. ssh passes no variables on.
export PARALLEL_SSH='ssh -o BatchMode=yes -o ConnectTimeout=10 -o ServerAliveInterval=5 -o ServerAliveCountMax=2'
variables=$(for name in PATH TMPDIR NVCC_PREPEND_FLAGS NVCC_APPEND_FLAGS CPATH LIBRARY_PATH LD_LIBRARY_PATH "${!ZIGRUNK_@}"; do
    [ -z "${!name+set}" ] || printf 'export %s=%q; ' "$name" "${!name}"
done)
check=$(printf 'zigrunk check-node %q' "$folder/node")
# shellcheck disable=SC2016 # the machine expands it
task=$(printf 'cd %q && zigrunk batch --part "$1/%q" %q > %q/"$1.said" 2>&1' "$PWD" "$parts" "$list" "$folder")

# fit: the machines that pass, with a message for each that doesn't.
fit() {
    local line
    while read -r line; do
        # shellcheck disable=SC2029,SC2086 # all of this is for the machine; the command has several words
        { timeout 120 $PARALLEL_SSH "${line#*/}" "bash -c $(printf %q "$variables$check")" < /dev/null && echo "$line"; } &
    done < <(grep -v -e '^#' -e '^$' "$machines")
    wait
}

for round in 1 2 3; do
    missing=$(for part in $(seq "$parts"); do
        zigrunk batch --missing --part "$part/$parts" "$list" > /dev/null || echo "$part"
    done)
    [ -n "$missing" ] || break
    fit > "$folder/fit"
    [ -s "$folder/fit" ] || { echo 'parallel.sh: no machine passes' >&2 && break; }
    # shellcheck disable=SC2086 # several parts
    parallel --will-cite --plain --sshloginfile "$folder/fit" --retries 3 "bash -c $(printf %q "$variables$task") bash {}" ::: $missing
    zigrunk batch --missing "$list" > "$folder/missing" && break
    grep -qvE ': exit status [0-9]+ on [^:]* and ' "$folder/missing" || break
    echo "parallel.sh: $(wc -l < "$folder/missing") calls are missing behind round $round" >&2
done
cat "$folder"/*.said 2> /dev/null
zigrunk batch --missing "$list" >&2
