#!/bin/bash
# Makes the calls of a list as tasks of a Slurm array: slurm.sh LIST PARTS [WORD OF SBATCH..]
#
# LIST, on a disk that the nodes share, is cut into PARTS. Each is a task: its node has to pass `zigrunk check-node`, then `zigrunk batch` makes the
# part. A node that doesn't pass holds its task as long as others wait, so that it takes no more. What is missing behind a round is made again, without
# nodes on which a task failed if there are others: until nothing is, or each call that is has failed on two nodes, or for three rounds. The status is
# that of the first call in the list that failed.
set -u
[ $# -ge 2 ] || { echo 'usage: slurm.sh LIST PARTS [WORD OF SBATCH..]' >&2 && exit 2; }
list=$(realpath "$1") parts=$2 name=zigrunk.$$
shift 2
folder=$(dirname "$list")/.zigrunk-batch
mkdir -p "$folder" && rm -f "$folder"/*.ended "$folder"/*.said && zigrunk check-node --write "$folder/node" || exit 1
: > "$folder/bad"
trap 'scancel -n "$name"; exit 130' HUP INT TERM

# The node keeps the script, but may lack the disk. So Slurm writes no output there.
cat > "$folder/task" << 'END'
#!/bin/bash
if ! said=$(cd "$5" && zigrunk check-node "$3/node" 2>&1); then
    echo "$said" >> "$3/unfit.said"
    while squeue -h -n "$4" -t PD -o %i | grep -q .; do sleep 2; done
    exit 3
fi
cd "$5" && exec zigrunk batch --part "$SLURM_ARRAY_TASK_ID/$2" "$1" > "$3/$SLURM_ARRAY_TASK_ID.said" 2>&1
END

# submit WORD..: hands out the parts that are missing.
submit() {
    sbatch -Q --job-name="$name" --array="$missing" --output=/dev/null --requeue "$@" "$folder/task" "$list" "$parts" "$folder" "$name" "$PWD"
}

# ended: whether no task waits or runs any more. It notes the nodes of tasks that failed.
ended() {
    squeue -h -n "$name" -t all -o '%T %N' > "$folder/tasks" || return
    awk '/^(FAILED|NODE_FAIL|BOOT_FAIL|OUT_OF_MEMORY) ./ { print $2 }' "$folder/tasks" >> "$folder/bad"
    ! grep -qvE '^(COMPLETED|FAILED|CANCELLED|TIMEOUT|NODE_FAIL|BOOT_FAIL|OUT_OF_MEMORY|DEADLINE) ' "$folder/tasks"
}

for round in 1 2 3; do
    missing=$(for part in $(seq "$parts"); do
        zigrunk batch --missing --part "$part/$parts" "$list" > /dev/null || printf '%s,' "$part"
    done)
    missing=${missing%,} bad=$(sort -u "$folder/bad" | paste -sd,)
    [ -n "$missing" ] || break
    submit ${bad:+"--exclude=$bad"} "$@" || submit "$@" || exit 1
    until ended; do sleep 2; done
    zigrunk batch --missing "$list" > "$folder/missing" && break
    grep -qvE ': exit status [0-9]+ on [^:]* and ' "$folder/missing" || break
    echo "slurm.sh: $(wc -l < "$folder/missing") calls are missing behind round $round" >&2
done
cat "$folder"/*.said 2> /dev/null
zigrunk batch --missing "$list" >&2
