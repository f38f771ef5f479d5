# Starts and stops a Slurm whose nodes are some of nodes.bash, without systemd. Sourced by tests/cluster.sh, which sets $run, its own directory, and
# $partitions: each has a partition of three nodes.

# start_node NUMBER: a slurmd. PREPARE as for on_node.
start_node() {
    mkdir -p "$run/spool.n$1"
    rm -f "$run/slurmd.n$1.pid"
    link "$1" up
    HWLOC_COMPONENTS=-x86 on_node "$1" slurmd -N "n$1" -f "$SLURM_CONF" -c
}

start_slurm() {
    local number port=$((20000 + $$ % 5000 * 2))
    mkdir -p "$run/state"
    chmod 755 "$run"
    munge=$run/munge
    mkdir "$munge"
    chmod 755 "$munge"
    head -c 1024 /dev/urandom > "$munge/key"
    chmod 400 "$munge/key"
    munged --force --key-file="$munge/key" --socket="$munge/socket" --pid-file="$munge/pid" --log-file="$munge/log" --seed-file="$munge/seed" || return
    export SLURM_CONF=$run/slurm.conf
    cat > "$SLURM_CONF" << END
SlurmdTimeout=${SLURMD_TIMEOUT:-10}
KillWait=3
ReturnToService=2
SelectType=select/cons_tres
SelectTypeParameters=CR_CPU
SchedulerParameters=batch_sched_delay=0,sched_interval=2
AuthInfo=socket=$munge/socket,cred_expire=10
ClusterName=zigrunk
SlurmctldHost=$(hostname -s)($address)
SlurmctldPort=$port
SlurmdPort=$((port + 1))
SlurmUser=root
StateSaveLocation=$run/state
SlurmctldPidFile=$run/slurmctld.pid
SlurmctldLogFile=$run/slurmctld.log
SlurmdSpoolDir=$run/spool.%n
SlurmdPidFile=$run/slurmd.%n.pid
SlurmdLogFile=$run/slurmd.%n.log
ProctrackType=proctrack/linuxproc
SlurmdParameters=config_overrides
END
    for number in $(seq $((3 * partitions))); do echo "NodeName=n$number NodeAddr=$net.$number CPUs=1 RealMemory=2000 State=UNKNOWN"; done >> "$SLURM_CONF"
    for number in $(seq "$partitions"); do
        echo "PartitionName=lane$number Nodes=n[$((3 * number - 2))-$((3 * number))] Default=$([ "$number" = 1 ] && echo YES || echo NO) MaxTime=INFINITE State=UP"
    done >> "$SLURM_CONF"
    slurmctld -c -f "$SLURM_CONF" && sleep 1 && kill -0 "$(cat "$run/slurmctld.pid")" || return
    for number in $(seq $((3 * partitions))); do start_node "$number" || return; done
    for number in $(seq "$partitions"); do lane=$number wait_idle || return; done
}

# wait_idle: until all nodes of the lane take jobs.
wait_idle() {
    local all
    for _ in $(seq 600); do
        all=$(timeout 5 sinfo -h -p "lane$lane" -N -o %N 2> /dev/null) && [ -n "$all" ] &&
            [ "$(timeout 5 sinfo -h -p "lane$lane" -N -t idle -o %N 2> /dev/null)" = "$all" ] && return
        sleep 0.2
    done
    timeout 5 sinfo -N
    return 1
}

stop_slurm() {
    local file
    for file in "$run/slurmctld.pid" "$run/munge/pid"; do
        [ ! -s "$file" ] || kill -9 "$(cat "$file")" 2> /dev/null
    done
}
