# Servers of the Remote Execution API on machines of their own, three for each lane, and two more for builds: network namespaces of this machine. Each
# server is behind a link of 100 Mbit/s and 5 ms. Sourced by tests/remote.sh, which sets $boxes and $bin, and stops them at its end.

local=$scratch/local run=$scratch/run
mkdir "$local" "$run"
. tests/cluster/nodes.bash

# start_machines LANES
start_machines() {
    local number
    machines=$((5 * $1))
    start_nodes "$machines" || return
    for number in $(seq "$machines"); do
        # Its disk is small, so that it can be full.
        mkdir "$run/disk.$number" && mount -t tmpfs -o size=200M none "$run/disk.$number" || return
    done
}

stop_machines() {
    local disk
    stop_nodes
    for disk in "$run"/disk.*; do ! mountpoint -q "$disk" || umount "$disk"; done
}

# serve NUMBER: starts a server there, on what it has on its disk, and waits until it answers.
serve() {
    local server=grpc://$net.$1:8980
    on_node "$1" "$boxes/buildbox-casd" --buildbox-run="$boxes/buildbox-run-hosttools" --jobs=4 --reserved=0 --bind=127.0.0.1:8981 "$run/disk.$1/storage" \
        >> "$run/casd.$1" 2>&1 &
    disown
    if ! processes_of "$1" | xargs -r ps -o args= -p | grep -q link.py; then
        on_node "$1" python3 "$here/remote/link.py" "$net.$1" 8980 8981 >> "$run/link.$1" 2>&1 &
        disown
    fi
    answers "$server"
}

# server_of NUMBER: the process of a machine's server.
server_of() {
    processes_of "$1" | xargs -r ps -o pid=,comm= -p | awk '$2 == "buildbox-casd" { print $1; exit }'
}

# servers_of LANE: the addresses of a lane's servers.
servers_of() {
    echo "grpc://$net.$((5 * $1 - 4)):8980 grpc://$net.$((5 * $1 - 3)):8980 grpc://$net.$((5 * $1 - 2)):8980"
}

# stand_in_tools SECONDS: puts stand-ins on the path, which take so long each where no TOOL_SECONDS says otherwise: at a server, tools see no such
# variable. Their products are digests of all that they read. Each is a program that starts a script, since a tool of which a script is all has no digest
# with its libraries, and goes to no server.
stand_in_tools() {
    local tool folder=$scratch/tools.$1
    mkdir -p "$folder/scripts"
    cp "$here/cluster/tools/nvcc" "$folder"
    sed "s/\"TOOL_SECONDS\", \"0\"/\"TOOL_SECONDS\", \"$1\"/" "$here/cluster/tools/tool.py" > "$folder/scripts/tool.py"
    chmod +x "$folder/scripts/tool.py"
    for tool in gcc g++ cicc cudafe++ ptxas fatbinary; do
        ln -s tool.py "$folder/scripts/$tool"
        echo "#include <unistd.h>
            int main(int n, char **words) { return execv(\"$folder/scripts/$tool\", words) + 2; }" | gcc -x c -o "$folder/$tool" - || return
    done
    NVCC=$(command -v nvcc)
    export NVCC ZIGRUNK_EARLY=0 ZIGRUNK_LATE=0 PATH=$folder:$PATH
}
