# Nodes in network namespaces on this machine, whose links can go down: what runs there goes on, but no packet leaves or arrives.
# Sourced by tests/cluster.sh, which sets $run and $scratch.

# One byte of the addresses is the test's own, so two tests can run at once.
net=10.77.$(($$ % 250 + 1)) bridge=zgb$$ address=''

# start_nodes COUNT: makes the nodes n1, n2 and so on, and a bridge that joins them with this machine, whose address is $address.
start_nodes() {
    local number
    address=$net.254 hosts=$scratch/hosts
    { cat /etc/hosts && seq "$1" | sed "s/.*/$net.& n&/"; } > "$hosts"
    ip link add "$bridge" type bridge && ip addr add "$address/24" dev "$bridge" && ip link set "$bridge" up || return
    for number in $(seq "$1"); do
        ip netns add "zigrunk-$$-$number" && ip link add "zg$$v$number" type veth peer name eth0 netns "zigrunk-$$-$number" &&
            ip link set "zg$$v$number" master "$bridge" up && ip -n "zigrunk-$$-$number" addr add "$net.$number/24" dev eth0 &&
            ip -n "zigrunk-$$-$number" link set eth0 up && ip -n "zigrunk-$$-$number" link set lo up || return
    done
}

# on_node NUMBER COMMAND WORD..: runs a command there, with the node's name as that of the machine, and mounts of its own: its disk for temporary
# files is $local. It finds all nodes by their names. PREPARE, if set, is a command for a shell that runs first.
on_node() {
    nsenter --net="/run/netns/zigrunk-$$-$1" unshare --mount --uts \
        sh -c 'mount --bind "$1" /etc/hosts && mount -t tmpfs -o size=400M none "$2" && hostname "n$3" && shift 3 && eval "${PREPARE-}" && exec "$@"' \
        sh "$hosts" "$local" "$@"
}

# inside NUMBER COMMAND WORD..: runs a command with the mounts of a node, as long as its slurmd lives.
inside() {
    nsenter --mount --target "$(daemon "$1")" "${@:2}"
}

# end_of NUMBER PROGRAM: kills what runs there of a program.
end_of() {
    # shellcheck disable=SC2046 # several ids
    kill -9 $(processes_of "$1" | xargs -r ps -o pid=,args= -p | awk -v name="$2" 'index($0, name) { print $1 }') 2> /dev/null
}

# daemon NUMBER: the slurmd of a node.
daemon() {
    processes_of "$1" | xargs -r ps -o pid=,args= -p | awk '$2 ~ /slurmd$/ { print $1; exit }'
}

# processes_of NUMBER
processes_of() {
    ip netns pids "zigrunk-$$-$1" 2> /dev/null
}

# link NUMBER up|down: other machines hear nothing of a node whose link is down, not even that its connections end.
link() {
    ip link set "zg$$v$1" "$2"
}

# power_off NUMBER: the link first, so that no process can say goodbye.
power_off() {
    link "$1" down
    end_processes "$1"
}

end_processes() {
    local ids
    for _ in $(seq 20); do
        ids=$(processes_of "$1")
        [ -n "$ids" ] || return 0
        # shellcheck disable=SC2086 # several ids
        kill -9 $ids 2> /dev/null
        sleep 0.1
    done
}

# stop_nodes: ends all that runs on the nodes, and removes them.
stop_nodes() {
    local place
    for place in /run/netns/"zigrunk-$$"-*; do
        [ -e "$place" ] || continue
        end_processes "${place##*-}"
        ip netns del "${place##*/}"
    done
    ! ip link show "$bridge" > /dev/null 2>&1 || ip link del "$bridge"
}

# deaths_of_lane LANES: of all deaths, 60 unless DEATHS says how many, those of this lane, each by a function `dies`.
deaths_of_lane() {
    local number
    for number in $(seq "$lane" "$1" "${DEATHS:-60}"); do dies "$number"; done
}

# counted FILE: the lines of a file that lanes have written, each with how often it is there.
counted() {
    sort "$run/$1" | uniq -c | awk '{ printf "%s%s %s", sep, $2, $1; sep = ", " }'
}
