# What builds on several machines get from three servers, and what the client costs. Sourced by tests/remote.sh.

# build_there MACHINE FOLDER NAME=VALUE..: makes the list of a folder there.
build_there() {
    (cd "$2" && rm -f log && on_node "$1" env "ZIGRUNK_REMOTE=$(servers_of 1)" "TMPDIR=$local" "ZIGRUNK_LOG=log" "${@:3}" "$bin/zigrunk" batch list) > "$scratch/said" 2>&1 || {
        problems+="  the build fails: $(tail -n 3 "$scratch/said")"$'\n'
        return 1
    }
}

# project FOLDER FIRST COUNT: sources with these numbers, which include a header, and a list of their calls.
project() {
    local one
    mkdir -p "$1/src"
    echo '__device__ inline int twice(int a) { return 2 * a; }' > "$1/src/twice.cuh"
    for one in $(seq "$2" $(($2 + $3 - 1))); do
        { echo '#include "twice.cuh"' && source_of "$one" && echo "static __device__ int count; __global__ void c$one(int *p) { *p = twice(count) + $one; }"; } > "$1/src/k$one.cu"
        echo "nvcc ${targets[*]} -c src/k$one.cu -o k$one.o"
    done > "$1/list"
}

objects_alike() {
    local object
    for object in "$1"/*.o; do cmp -s "$object" "$2/${object##*/}" || problems+="  $object and that in $2 differ"$'\n'; done
}

machines() {
    local folder=$scratch/project number
    for number in 1 2 3; do serve "$number" || { count 'three servers' 'they do not start' && return; }; done
    project "$folder" 1001 6
    if case_of 'a second machine sends digests alone, and finds all commands'; then
        (cd "$folder" && mkdir alone && "$bin/zigrunk" batch list > "$scratch/said" 2>&1 && mv ./*.o alone) || problems+='  no build alone'
        build_there 4 "$folder" && same first "$(ways "$folder/log" machine | much)" 'kept n4 36 sent much to 3'
        objects_alike "$folder/alone" "$folder"
        rm -f "$folder"/*.o
        build_there 5 "$folder" && same second "$(ways "$folder/log" machine)" 'found n4 36 sent 0 to 3'
        objects_alike "$folder/alone" "$folder"
        end_case
    fi
    if case_of 'so does one with another checkout, under ZIGRUNK_ROOT'; then
        project "$scratch/one" 2001 4
        mkdir -p "$scratch/another/place" && cp -r "$scratch/one/." "$scratch/another/place"
        build_there 4 "$scratch/one" "ZIGRUNK_ROOT=$scratch/one" && same first "$(ways "$scratch/one/log" machine | much)" 'kept n4 24 sent much to 3'
        build_there 5 "$scratch/another/place" "ZIGRUNK_ROOT=$scratch/another/place" && same second "$(ways "$scratch/another/place/log" machine)" 'found n4 24 sent 0 to 3'
        objects_alike "$scratch/one" "$scratch/another/place"
        end_case
    fi
}

# Each tool sleeps at a server, and none here, so the ideal is the sleep of all commands that may go, by all jobs of all servers.
run() {
    local folder=$scratch/timed begun took ideal number
    for number in 1 2 3; do serve "$number" || { count 'three servers' 'they do not start' && return; }; done
    if case_of 'servers run real commands'; then
        project "$scratch/real" 3001 6
        (cd "$scratch/real" && mkdir alone && "$bin/zigrunk" batch list > "$scratch/said" 2>&1 && mv ./*.o alone) || problems+='  no build alone'
        build_there 4 "$scratch/real" ZIGRUNK_REMOTE_USE=run && same ways "$(ways "$scratch/real/log" machine | much)" 'ran - 36 sent much to 3'
        objects_alike "$scratch/real/alone" "$scratch/real"
        end_case
    fi
    if case_of 'servers run what may go in at most 1.4 of the ideal time'; then
        stand_in_tools 4
        # (they wait within each file that they write, too)
        sed -i 's,time.sleep(seconds / 6),pass,' "$scratch/tools.4/scripts/tool.py"
        export TOOL_SECONDS=0 ZIGRUNK_SLOTS=24 ZIGRUNK_JOBS=24
        project "$folder" 4001 "${CALLS:-32}"
        begun=$EPOCHREALTIME
        build_there 4 "$folder" ZIGRUNK_REMOTE_USE=run
        took=$(awk "BEGIN { print $EPOCHREALTIME - $begun }") ideal=$((${CALLS:-32} * 6 * 4 / 12))
        echo "${CALLS:-32} calls by three servers of four jobs: $took s, ideal $ideal s; $(ways "$folder/log" machine); load $(cut -d ' ' -f 1 /proc/loadavg)"
        same 'within 1.4 of it' "$(awk "BEGIN { print $took <= 1.4 * $ideal }")" 1
        end_case
    fi
}

costs() {
    local said
    if case_of 'the client costs little'; then
        said=$(python3 "$here/remote/costs.py" "$bin/zigrunk-remote" "$address" "${ACTIONS:-10000}" 2>&1) || problems+='  it costs more, or fails'$'\n'
        echo "$said; load $(cut -d ' ' -f 1 /proc/loadavg)"
        end_case
    fi
}

others() {
    local said number=100
    if case_of "buildbox's own programs read what ours wrote"; then
        nvcc -arch=sm_80 -cubin k.cu -o right.cubin
        call run.o "ZIGRUNK_REMOTE=$address" ZIGRUNK_REMOTE_USE=run
        same ways "$(ways "$room/log" | much)" 'ran 6 sent much to 1'
        said=$(python3 "$here/remote/others.py" "$boxes" "$address" "$bin/examples/actions" "$scratch/storage" right.cubin 2>&1)
        same 'what casdownload and trexe do' "$said" '6 results, 6 made alike, 1 with the file'
        call kept.o "ZIGRUNK_REMOTE=$address"
        end_case
    fi
}
