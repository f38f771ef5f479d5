#!/bin/bash
# Makes the calls of a list as jobs of HTCondor: htcondor.sh LIST PARTS [LINE OF THE SUBMIT FILE..]
#
# LIST, on a disk that the machines share, is cut into PARTS. Each is a job: its machine has to pass `zigrunk check-node`, then `zigrunk batch` makes the
# part. A job whose machine doesn't pass goes to one on which it hasn't been. What is missing behind a round is made again: until nothing is, or each call
# that is has failed on two machines, or for three rounds. The status is that of the first call in the list that failed.
set -u
[ $# -ge 2 ] || { echo 'usage: htcondor.sh LIST PARTS [LINE OF THE SUBMIT FILE..]' >&2 && exit 2; }
list=$(realpath "$1") parts=$2
shift 2
folder=$(dirname "$list")/.zigrunk-batch
mkdir -p "$folder" && rm -f "$folder"/*.ended "$folder"/*.said && zigrunk check-node --write "$folder/node" || exit 1
trap 'condor_rm "$(cat "$folder/cluster")"; exit 130' HUP INT TERM

cat > "$folder/task" << 'END'
#!/bin/bash
# Status 100: this machine can't make it.
zigrunk check-node "$4/node" || exit 100
cd "$5" && exec zigrunk batch --part "$1/$2" "$3" > "$4/$1.said" 2>&1
END
chmod +x "$folder/task"

# submit: hands out the parts that are missing.
submit() {
    rm -f "$folder/log"
    {
        printf '%s\n' "$@"
        cat << END
executable = $folder/task
arguments = "\$(part) $parts '$list' '$folder' '$PWD'"
transfer_executable = true
should_transfer_files = IF_NEEDED
getenv = true
log = $folder/log
job_machine_attrs = Machine
job_machine_attrs_history_length = 4
requirements = $(for before in 0 1 2 3; do printf 'TARGET.Machine =!= MachineAttrMachine%s && ' "$before"; done)true
on_exit_remove = ExitBySignal == false && (ExitCode =!= 100 || NumJobStarts >= 4)
periodic_remove = NumJobStarts > 4
queue part in ($missing)
END
    } > "$folder/submit"
    condor_submit -terse "$folder/submit" | cut -d. -f1 | head -n 1 > "$folder/cluster" && condor_wait "$folder/log"
}

for round in 1 2 3; do
    missing=$(for part in $(seq "$parts"); do
        zigrunk batch --missing --part "$part/$parts" "$list" > /dev/null || printf '%s ' "$part"
    done)
    [ -n "$missing" ] || break
    submit "$@" || exit 1
    zigrunk batch --missing "$list" > "$folder/missing" && break
    grep -qvE ': exit status [0-9]+ on [^:]* and ' "$folder/missing" || break
    echo "htcondor.sh: $(wc -l < "$folder/missing") calls are missing behind round $round" >&2
done
cat "$folder"/*.said 2> /dev/null
zigrunk batch --missing "$list" >&2
