# Deaths by lot of servers, runners, networks, storage and clients. Sourced by tests/remote.sh, behind machines.bash. The tools are stand-ins, whose
# products are digests of all that they read, so what is missing, old or wrong shows in the object.

KINDS=${KINDS:-server server_stop runner tool network_1 network_8 network_40 full evicted results client program}

# strike KIND MACHINE: what befalls a machine, or the one with the call.
strike() {
    local storage=$run/disk.$2/storage server
    server=$(server_of "$2")
    case $1 in
    server) kill -KILL "$server" ;;
    server_stop) kill -STOP "$server" && sleep 3 && kill -CONT "$server" ;;
    runner) end_of "$2" buildbox-run-hosttools ;;
    tool) end_of "$2" /scripts/ ;;
    network_*) link "$2" down && sleep "${1#*_}" && link "$2" up ;;
    full) dd if=/dev/zero of="$run/disk.$2/full" bs=1M count=500 ;;
    evicted) find "$storage/cas/objects" -type f -delete ;;
    results) find "$storage/actioncache/objects" -type f -delete ;;
    client) end_processes $((5 * lane - 1)) ;;
    program) end_of $((5 * lane - 1)) /zigrunk-remote ;;
    esac
} > /dev/null 2>&1

# recover MACHINE: it is as it was.
recover() {
    link "$1" up
    rm -f "$run/disk.$1/full"
    [ -n "$(server_of "$1")" ] || serve "$1"
}

# call_there OUTPUT NAME=VALUE..: a call on the machine of the lane for builds.
call_there() {
    on_node $((5 * lane - 1)) env "ZIGRUNK_REMOTE=$(servers_of "$lane")" "ZIGRUNK_LOG=log.$1" "${@:2}" "$bin/zigrunk-nvcc" "${targets[@]}" -c k.cu -o "$1" > "out.$1" 2>&1
}

# dies NUMBER: a call, while a machine of three dies in a way and at a moment that SEED and the number draw.
dies() {
    local kind machine use tenths problem=''
    RANDOM=$((SEED + $1))
    read -ra all <<< "$KINDS"
    kind=${all[RANDOM % ${#all[@]}]} machine=$((5 * lane - 2 - RANDOM % 3)) tenths=$((RANDOM % 30)) use=$([ $((RANDOM % 3)) = 0 ] && echo cache || echo run)
    mkdir "$scratch/$1" && cd "$scratch/$1" || return
    echo "__global__ void kernel$1(int *x) { *x = $1; }" > k.cu
    "$bin/zigrunk-nvcc" "${targets[@]}" -c k.cu -o right.o > out.right.o 2>&1
    call_there dead.o "ZIGRUNK_REMOTE_USE=$use" &
    call=$!
    sleep "$((tenths / 10)).$((tenths % 10))"
    strike "$kind" "$machine"
    wait "$call"
    status=$?
    case $kind in
    # (a call that is killed has no object, or the right one)
    client | program) [ "$status" = 0 ] || [ ! -e dead.o ] || cmp -s right.o dead.o || problem+=' a wrong object;' ;;
    *) [ "$status" = 0 ] || problem+=" status $status: $(tail -n 3 out.dead.o);" ;;
    esac
    [ "$status" != 0 ] || cmp right.o dead.o || problem+=' a wrong object at status 0;'
    recover "$machine" || problem+=' no server any more;'
    call_there again.o ZIGRUNK_REMOTE_FALLBACK=no || problem+=" afterwards: $(tail -n 3 out.again.o);"
    cmp -s right.o again.o || problem+=' a wrong object afterwards;'
    [ "$(grep -oE '"way":"(found|kept)"' log.again.o | wc -l)" = 6 ] || problem+=' not all by servers afterwards;'
    grep -ohE '"way":"[a-z]*"' log.dead.o >> "$run/ways"
    count "death $1, $kind of machine $machine after $tenths tenths, $use" "$problem"
    echo "$kind" >> "$run/kinds"
} 2> /dev/null

deaths() {
    local lane number
    SEED=${SEED:-$RANDOM}
    stand_in_tools 0.3
    export TMPDIR=$local ZIGRUNK_SLOTS=0
    for lane in $(seq "${LANES:-3}"); do
        for number in 4 3 2; do serve $((5 * lane - number)) || { count 'servers of a lane' 'they do not start' && return; }; done
        lane "$lane" deaths_of_lane "${LANES:-3}"
    done
    join_lanes
    echo "deaths with SEED=$SEED: $(counted kinds); what became of commands then: $(counted ways)"
}
