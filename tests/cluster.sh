#!/usr/bin/env bash
# Makes lists by examples/cluster: by a Slurm whose nodes are network namespaces of this machine, of which some die, and by GNU parallel over ssh. The
# script for Kubernetes only has its manifest parsed, if kubectl is there; HTCondor isn't tried: Debian 12 hasn't got it. Prints a line for each check
# that fails, and last 'N passed, M failed'; the status is 1 if one failed.
#
#   tests/cluster.sh    zigrunk is that of DRIVER_BIN, or what `make rust` leaves
#
# PARTS names the parts to run: real many ssh kubernetes deaths. SEED draws the deaths, a new one unless set; DEATHS is how many, 60 unless set, on LANES
# of three nodes each, 3 unless set; CALLS is how many calls `many` makes, 2000 unless set.
cd "$(dirname "$0")/.." || exit 1
. tests/lib.sh
for tool in slurmctld:slurm-wlm slurmd:slurm-wlm munged:munge sbatch:slurm-wlm ip:iproute2 nsenter:util-linux objcopy:binutils python3:python3 nvcc:nvcc; do
    command -v "${tool%:*}" > /dev/null || skip_all cluster "${tool%:*} is not on the path (package ${tool#*:})"
done
[ "$(id -u)" = 0 ] || skip_all cluster 'network namespaces and a Slurm of its own take root'
built=$(realpath "${DRIVER_BIN:-out/rust/target/release}")
[ -x "$built/zigrunk-driver" ] || skip_all cluster 'make rust makes zigrunk first'
unset NVCC_PREPEND_FLAGS NVCC_APPEND_FLAGS MAKEFLAGS "${!SLURM@}" "${!SBATCH@}" "${!ZIGRUNK@}"
examples=$PWD/examples/cluster here=$PWD/tests
chmod 755 "$scratch"
run=$scratch/run local=$scratch/local partitions=${LANES:-3} SEED=${SEED:-$RANDOM}
mkdir "$run" "$local" "$scratch/links" "$scratch/tools"
for name in zigrunk zigrunk-nvcc; do ln -s "$built/zigrunk-driver" "$scratch/links/$name"; done
cp "$here"/cluster/tools/* "$scratch/tools"
for tool in gcc g++ cicc cudafe++ ptxas fatbinary; do ln -s tool.py "$scratch/tools/$tool"; done
# All nodes have their slots in one folder here. The stand-ins read their files at once.
export NVCC TMPDIR=$local ZIGRUNK_SLOTS=0 ZIGRUNK_JOBS=2 PATH=$scratch/links:/usr/bin:$PATH
NVCC=$(command -v nvcc)
. tests/cluster/nodes.bash
. tests/cluster/slurm.bash

parts=''
stop() {
    trap '' HUP INT TERM
    [ -z "$parts" ] || kill -9 -- "-$parts" 2> /dev/null
    stop_nodes
    stop_slurm
    rm -rf "$scratch"
}
trap stop EXIT
trap 'exit 129' HUP
trap 'exit 130' INT
trap 'exit 143' TERM

targets='-gencode=arch=compute_80,code=sm_80 -gencode=arch=compute_90,code=sm_90'

# list COUNT: a list of calls for two targets, and their sources, in this folder.
list() {
    local number
    for number in $(seq "$1"); do
        echo "__global__ void kernel$number(int *x) { *x = $number; }" > "k$number.cu"
        echo "nvcc $targets -c k$number.cu -o k$number.o"
    done > list
}

# alike OBJECT NVCCS: whether an object is nvcc's. Symbols that strip removes hold nvcc's random file names.
alike() { objcopy --strip-unneeded "$1" one && objcopy --strip-unneeded "$2" two && cmp one two; }

# by_slurm PARTS WORD..: makes the list of this folder on the lane's nodes.
by_slurm() {
    timeout 900 "$examples/slurm.sh" list "$1" -p "lane$lane" "${@:2}" > out 2>&1
}

# field: puts the sources of darknet here, as Debian has them and tests/field names their file.
field() {
    local sum path file folder=${ZIGRUNK_FIELD:-${XDG_CACHE_HOME:-$HOME/.cache}/zigrunk/field}/files
    read -r _ sum path < <(grep '^archive' "$here/field/darknet.sh")
    file=$folder/${path##*/}
    mkdir -p "$folder"
    [ -e "$file" ] || { curl -fsSL --connect-timeout 20 -o "$file.$$" "https://deb.debian.org/debian/pool/$path" && mv "$file.$$" "$file"; } || return
    sha256sum --status -c <<< "$sum  $file" && tar -x -f "$file" --strip-components=1
}

# Twenty sources of two projects: ten of darknet, by the lines of its own makefile, and ten of tests/project.sh.
real() {
    mkdir "$scratch/real" "$scratch/nvcc" && cd "$scratch/real" || return
    field || { skip 'real sources on Slurm' 'the sources of darknet are not there' && return; }
    mkdir obj
    "$here/project.sh" twelve
    {
        (cd src && printf 'obj/%s\n' *.cu) | sed 's/cu$/o/' | xargs make -n GPU=1 ARCH="$targets"
        for number in {1..10}; do echo "nvcc $targets -rdc=true -DNAME='\"a name\"' -Itwelve/include '-Itwelve/more headers' -c twelve/$number.cu -o obj/$number.o"; done
    } > list
    xargs -P 4 -d '\n' -n 1 sh -c < list > "$scratch/nvcc/said" 2>&1
    mv obj/*.o "$scratch/nvcc"
    lane=1 by_slurm 6
    same 'status of twenty calls of nvcc' "$?$(grep -v '^$' out)" 0
    same 'objects of twenty real sources' "$(for object in obj/*.o; do alike "$object" "$scratch/nvcc/${object##*/}" && echo alike; done 2>&1 | sort | uniq -c | xargs)" '20 alike'
    lane=1 by_slurm 6
    same 'tasks if nothing is missing' "$?$(cat out)$(grep -c . .zigrunk-batch/tasks)" "0$(grep -c . .zigrunk-batch/tasks)"
    echo 'not a kernel' > src/im2col_kernels.cu
    lane=1 by_slurm 6
    same 'status of a call that fails' $? 2
    same 'a call that fails, on two nodes' "$(grep -cE '^line 9: exit status 2 on n[0-9]+ and n[0-9]+' out)" 1
    same 'other calls that are missing' "$(zigrunk batch --missing list | grep -vc '^line 9:')" 0
}

# The stand-ins of the driver's tests: no work but that of zigrunk, Slurm and the shell. Both cicc of a call sleep as long as real ones take, so the
# ideal is their sleep by all jobs of all nodes.
many() {
    local count=${CALLS:-2000} jobs=8 seconds=2 begun took ideal
    mkdir -p "$scratch/many" "$scratch/cuda/bin" "$scratch/cuda/nvvm/bin" && cd "$scratch/many" || return
    for tool in gcc g++ cudafe++ ptxas fatbinary; do ln -s "$here/driver/tool" "$scratch/cuda/bin/$tool"; done
    ln -s "$here/driver/tool" "$scratch/cuda/nvvm/bin/cicc"
    ln -s "$here/driver/nvcc" "$scratch/cuda/bin/nvcc"
    for number in $(seq "$count"); do
        : > "k$number.cu"
        printf '# 0 "k%s.cu"\n# 1 "k%s.cu" 1\n' "$number" "$number" > "k$number.cu.ii"
        echo "nvcc -c k$number.cu -o k$number.o"
    done > list
    # shellcheck disable=SC2016 # the stand-ins expand it
    export TOOL_DOES='case $name in gcc-E*) for word; do [ "$last" != -o ] || out=$word; case $word in *.cu) source=$word ;; esac; last=$word; done; cp "$source.ii" "$out"; exit ;; cicc*) sleep 2 ;; esac'
    export CHILDLESS=1 CUDA=$scratch/cuda DATA=$here/drivers/test_plans/data/dry_runs LOG=/dev/null ZIGRUNK_LATE=0 ZIGRUNK_JOBS=$jobs PATH=$scratch/cuda/bin:$PATH
    begun=$EPOCHREALTIME
    lane=1 by_slurm 6
    same 'status of many calls' "$?$(tail -n 3 out)" 0
    took=$(awk "BEGIN { print $EPOCHREALTIME - $begun }") ideal=$(awk "BEGIN { print $count * $seconds * 2 / (3 * $jobs) }")
    times > "$scratch/times"
    awk -F '[ms ]+' -v commands=$((count * 11)) 'NR == 2 { print 1000 * (60 * ($1 + $3) + $2 + $4) / commands }' "$scratch/times" > "$scratch/each"
    echo "processor of the submitting machine: $(cat "$scratch/each") ms for each of $((count * 11)) commands"
    echo "$count calls on three nodes: $took s, ideal $ideal s, $(awk "BEGIN { printf \"%.3f\", $took / $ideal }") of it; load $(cut -d' ' -f1 /proc/loadavg)"
    same 'many calls take at most 1.05 of the ideal time, and 0.1 ms of processor a command' "$(awk "{ print ($took <= 1.05 * $ideal && \$1 <= 0.1) }" "$scratch/each")" 1
    same 'products of many calls' "$(find . -name 'k*.o' | wc -l)" "$count"
    begun=$EPOCHREALTIME
    zigrunk batch --missing list > missing
    same 'status and calls that are missing of many' "$?$(wc -l < missing)" 00
    echo "what is missing of $count calls: $(awk "BEGIN { print $EPOCHREALTIME - $begun }") s"
}

ssh() {
    local keys=$scratch/keys port=$((23000 + $$ % 5000)) lane=1
    for tool in parallel sshd ssh-keygen; do
        [ -n "$(PATH=$PATH:/usr/sbin type -P "$tool")" ] || { skip 'GNU parallel over ssh' "$tool is not on the path" && return; }
    done
    mkdir -p "$scratch/ssh" "$keys" /run/sshd && cd "$scratch/ssh" || return
    ssh-keygen -q -t ed25519 -N '' -f "$keys/host" && ssh-keygen -q -t ed25519 -N '' -f "$keys/user"
    printf '%s\n' '#!/bin/sh' "exec /usr/bin/ssh -F $keys/config \"\$@\"" > "$scratch/links/ssh"
    chmod +x "$scratch/links/ssh"
    printf '%s\n' 'Host one two' "Port $port" 'Host gone' 'Port 1' 'Host *' 'HostName 127.0.0.1' 'User root' "IdentityFile $keys/user" \
        'UserKnownHostsFile /dev/null' 'StrictHostKeyChecking no' 'LogLevel ERROR' > "$keys/config"
    "$(PATH=$PATH:/usr/sbin type -P sshd)" -f /dev/null -h "$keys/host" -p "$port" -o ListenAddress=127.0.0.1 -o "AuthorizedKeysFile=$keys/user.pub" \
        -o StrictModes=no -o UsePAM=no -o PermitRootLogin=yes -o "PidFile=$keys/pid" || { skip 'GNU parallel over ssh' 'sshd does not start' && return; }
    list 6
    printf '%s\n' '# machines' 1/one 2/two gone > machines
    timeout 300 "$examples/parallel.sh" list 3 machines > out 2>&1
    same 'status by GNU parallel' $? 0
    same 'objects by GNU parallel' "$(for number in {1..6}; do sh -c "$(sed -n "${number}s/k[0-9]*.o$/right.o/p" list)" && alike "k$number.o" right.o; done 2>&1)" ''
    same 'machines by GNU parallel' "$(sort .zigrunk-batch/fit | tr '\n' ' ')" '1/one 2/two '
    echo 'not a kernel' > k3.cu
    timeout 300 "$examples/parallel.sh" list 3 machines > out 2>&1
    same 'status of a call that fails by GNU parallel' "$? $(grep -c '^line 3: exit status 2' out)" '2 1'
    kill "$(cat "$keys/pid")"
}

kubernetes() {
    mkdir -p "$scratch/share" "$scratch/kube" && cd "$scratch/share" || return
    list 4
    printf '%s\n' '#!/bin/sh' 'case $* in' "'create -f -') cat > '$scratch/kube/manifest' ;;" "'get job '*) echo Complete ;;" \
        "'get pods '*) echo 'node1 node2' ;;" 'esac' > "$scratch/kube/kubectl"
    chmod +x "$scratch/kube/kubectl"
    PATH=$scratch/kube:$PATH SHARE=$scratch/share timeout 120 "$examples/kubernetes.sh" list 3 image claim > out 2>&1
    same 'status by Kubernetes, whose pods make nothing' $? 1
    python3 -c 'import yaml' 2> /dev/null || { skip 'the manifest of a job' 'python3 has no yaml' && return; }
    check 'the manifest of a job' python3 "$here/cluster/manifest.py" "$scratch/kube/manifest" "$scratch/share/list"
}

# Deaths. What PREPARED kinds change of a node is there before its slurmd starts.
PREPARED='no_disk no_share no_toolkit other_toolkit other_header clock'
KINDS="power slurmd slurmstepd task tool network_3 network_15 network_60 full_disk $PREPARED"

# prepare KIND: the command that changes a node so.
prepare() {
    case $1 in
    no_disk) echo "mount -t tmpfs -o size=1M none '$local'" ;;
    no_share) echo "mount -t tmpfs none '$folder'" ;;
    no_toolkit) echo "mount -t tmpfs none '$top/tools'" ;;
    other_toolkit) echo "mount --bind '$top/other.py' '$top/tools/tool.py'" ;;
    other_header) echo "mount --bind '$top/other.py' '$header'" ;;
    clock) echo "mount --bind '$top/later' '$top/links'" ;;
    esac
}

# strikes KIND NODE: a node that works dies so.
strikes() {
    case $1 in
    power) power_off "$2" ;;
    slurmd) kill -9 "$(daemon "$2")" ;;
    slurmstepd) end_of "$2" slurmstepd ;;
    task) end_of "$2" 'zigrunk batch' ;;
    tool) end_of "$2" tools/ ;;
    network_*) link "$2" down && sleep "${1#*_}" && link "$2" up ;;
    full_disk) inside "$2" dd if=/dev/zero of="$local/full" bs=1M count=500 2> /dev/null ;;
    esac
}

# back NODE: the node is as it was, and takes jobs.
back() {
    link "$1" up
    end_processes "$1"
    start_node "$1"
    wait_idle
}

# dies NUMBER: a list of twelve calls, of whose three nodes one dies in a way and at a moment that SEED and the number draw.
dies() {
    local kind node count folder=$scratch
    RANDOM=$((SEED + $1))
    read -ra all <<< "$KINDS"
    kind=${all[RANDOM % ${#all[@]}]} node=$((3 * lane - RANDOM % 3)) count=$((RANDOM % 12 + 1))
    rm -rf "${folder:?}"/{*,.z*}
    cp "$top"/right/{list,k*.cu} "$folder" && cd "$folder" || return
    if [[ " $PREPARED " == *" $kind "* ]]; then
        end_processes "$node"
        PREPARE=$(prepare "$kind") start_node "$node"
        wait_idle
    fi
    export TOOL_LOG=$folder/log TOOL_SECONDS=0.2
    : > log
    by_slurm 6 &
    job=$!
    if [[ " $PREPARED " != *" $kind "* ]]; then
        until [ "$(grep -cs "^start n$node " log)" -ge "$count" ] || ! kill -0 "$job" 2> /dev/null; do sleep 0.05; done
        strikes "$kind" "$node"
    fi
    wait "$job"
    same "$1: status and missing calls, $kind on n$node" "$?$(zigrunk batch --missing list)$(grep -v '^slurm.sh: ' out | grep -c 'is missing')" 00
    same "$1: objects, $kind on n$node" "$(for number in $(seq 12); do cmp "$top/right/k$number.o" "k$number.o"; done 2>&1)" ''
    [[ $kind =~ ^(no_|other_|clock) ]] && same "$1: commands on n$node, $kind" "$(grep -cs "^start n$node cicc " log)" 0
    echo "$kind" >> "$run/kinds"
    back "$node"
    same "$1: processes left, $kind" "$(for number in 2 1 0; do processes_of $((3 * lane - number)); done | xargs -r ps -o args= -p | grep -c tools/)" 0
}

deaths() {
    local lane top=$scratch
    header=$(nvcc --dryrun -c x.cu 2>&1 | sed -n 's/^#\$ INCLUDES="-I\([^"]*\)".*/\1/p')/cuda.h
    { cat "$scratch/tools/tool.py" && echo '# another version'; } > "$scratch/other.py"
    chmod +x "$scratch/other.py"
    mkdir -p "$scratch/right" "$scratch/later"
    printf '%s\n' '#!/bin/sh' "exec faketime -f +60s '$built/zigrunk-driver' \"\$@\"" > "$scratch/later/zigrunk"
    chmod +x "$scratch/later/zigrunk"
    command -v faketime > /dev/null || { PREPARED=${PREPARED% clock} KINDS=${KINDS% clock} && skip 'clocks' 'faketime is not on the path'; }
    export ZIGRUNK_EARLY=0 ZIGRUNK_LATE=0 PATH=$scratch/links:$scratch/tools:${PATH#"$scratch/links:"}
    cd "$scratch/right" || return
    list 12
    zigrunk batch list > out 2>&1
    same 'status on this machine alone' "$?$(cat out)" 0
    for lane in $(seq "$partitions"); do lane "$lane" deaths_of_lane "$partitions"; done
    join_lanes
    echo "deaths with SEED=$SEED: $(counted kinds)"
}

set -m
{
    if ! { start_nodes $((3 * partitions)) && start_slurm; }; then
        same 'the start of Slurm' no starts
        summary
        exit 1
    fi
    # shellcheck disable=SC2086 # several parts
    run_parts ${PARTS:-real many ssh kubernetes deaths}
    summary
} &
parts=$!
wait "$parts"
