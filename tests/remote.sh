#!/usr/bin/env bash
# Tests of commands by servers of the Remote Execution API: the tests of the crate, with a server in their own process, and calls with real nvcc, if
# that is here. Their objects have to be those that the driver makes alone. Prints a line for each case that fails, and last
# 'N passed, M failed'; the status is 1 if one failed.
#
#   tests/remote.sh               by the server of the crate's tests
#   tests/remote.sh --buildbox    by Debian sid's buildbox, which it downloads (120 MB): here, and on machines in network namespaces, which takes root.
#                                 DEATHS of them, 60 unless set, are drawn by SEED, on LANES of three servers each, 3 unless set
#
# ONLY=TEXT runs the cases whose names have this text, and PARTS names the parts: others calls costs machines run deaths. BIN=FOLDER has the programs,
# so that none is built. It is skipped if the crates of others aren't there: make vendor REMOTE=yes fetches them.
cd "$(dirname "$0")/.." || exit 1
. tests/lib.sh
require 'remote execution' cargo gcc openssl python3
unset "${!ZIGRUNK@}"
crates=${XDG_CACHE_HOME:-$HOME/.cache}/zigrunk/crates/registry
[ -n "${BIN-}" ] || { compgen -G "$crates/tonic-*" && compgen -G "$crates/zstd-[0-9]*"; } > /dev/null ||
    skip_all 'remote execution' 'there are no crates for it; make vendor REMOTE=yes fetches them'
server='' boxes='' here=$PWD/tests
workspace=$PWD/out/remote
# (what the client costs is measured with what users have)
release=$([ "${1-}" != --buildbox ] || echo --release)
bin=${BIN:-$workspace/target/$([ -n "$release" ] && echo release || echo debug)}
stop() {
    [ -z "$server" ] || kill -KILL "$server" 2> /dev/null
    [ -z "${machines-}" ] || stop_machines
    rm -rf "$scratch"
}
trap stop EXIT
trap 'exit 130' HUP INT TERM

features=zigrunk-remote/server
! pkg-config --exists 'libzstd >= 1.5.6' 2> /dev/null || features+=,zigrunk-remote/zstd

# build: driver, client and the tests' programs, in a workspace of their own.
build() {
    cargo run --quiet --manifest-path rust/Cargo.toml -p eraser -- --unformatted --remote "--crates=$crates" . "$workspace" &&
        (cd "$workspace" && cargo build --quiet ${release:+"$release"} -p zigrunk-driver -p zigrunk-remote --features "$features" --bins --examples) &&
        ln -sf zigrunk-driver "$bin/zigrunk-nvcc" && ln -sf zigrunk-driver "$bin/zigrunk"
}

# (what it prints would hide the last line)
own_tests() { (cd "$workspace" && cargo test --quiet -p zigrunk-remote --features "$features"); }

[ "${1-}" != --buildbox ] || boxes=$(tests/remote/buildbox.sh out/buildbox) || exit 1
[ -n "${BIN-}" ] || build > "$scratch/built" 2>&1 || { tail -n 30 "$scratch/built"; count build 'it failed'; summary; exit 1; }
[ -n "$boxes${BIN-}" ] || check 'tests of the crate' own_tests
command -v nvcc > /dev/null || { skip 'calls by a server' 'nvcc is not on the path'; summary; exit; }

# answers ADDRESS: waits until a server there answers.
answers() {
    for _ in {1..100}; do
        ZIGRUNK_REMOTE=$1 "$bin/zigrunk-remote" --check > "$scratch/checked.${1##*/}" 2>&1 && return
        sleep 0.1
    done
    cat "$scratch/checked.${1##*/}"
    return 1
}

# start: a server here, whose address is $address.
start() {
    if [ -n "$boxes" ]; then
        address=grpc://127.0.0.1:50571
        "$boxes/buildbox-casd" --buildbox-run="$boxes/buildbox-run-hosttools" --jobs=2 --bind=127.0.0.1:50571 "$scratch/storage" > "$scratch/casd" 2>&1 &
        server=$!
        disown
        answers "$address"
        return
    fi
    rm -f "$scratch/held" && mkfifo "$scratch/held"
    "$bin/examples/server" < "$scratch/held" > "$scratch/address" &
    server=$!
    disown
    exec 3> "$scratch/held"
    until [ -s "$scratch/address" ]; do sleep 0.05; done
    address=$(cat "$scratch/address")
}

# source NUMBER: a source of its own.
source_of() {
    cat << END_OF_SOURCE
__global__ void k$1(float *a, const float *b, int n) { int i = blockIdx.x * blockDim.x + threadIdx.x; if (i < n) a[i] += b[i] * $1; }
int main() { k$1<<<1, 32>>>(nullptr, nullptr, 0); return 0; }
END_OF_SOURCE
}

targets=(-gencode 'arch=compute_80,code=sm_80' -gencode 'arch=compute_90,code=sm_90')

shell=(remote)
# case_of NAME: begins a case, in a folder with a source that no other case has.
case_of() {
    is_wanted "$1" || return 1
    number=$((${number-0} + 1)) room=$scratch/room
    begin "$1"
    source_of "$number" > k.cu
}

# call OUTPUT [NAME=VALUE..] WORD..: a call by the driver, to an object.
call() {
    local output=$1 settings=()
    shift
    while [[ ${1-} == *=* && $1 != -* ]]; do settings+=("$1") && shift; done
    rm -f "$room/log" "$output"
    env TMPDIR="$room/tmp" ZIGRUNK_LOG="$room/log" "${settings[@]}" "$bin/zigrunk-nvcc" "${targets[@]}" "$@" -c k.cu -o "$output" > out 2> err
    status=$?
}

# ways LOG [NAME]..: how commands by servers came to their ends, and how often, by what their notes have under these names; the bytes that were sent,
# and to how many servers.
ways() {
    python3 - "$@" << 'END_OF_PROGRAM'
import collections, json, sys
notes = [command["remote"] for line in open(sys.argv[1]) for command in json.loads(line).get("commands", []) if "remote" in command]
found = collections.Counter(" ".join(note[name] for name in ["way", *sys.argv[2:]]) for note in notes)
print(*(f"{way} {count}" for way, count in sorted(found.items())), "sent", sum(note["sent"] for note in notes), "to", len({note["server"] for note in notes}))
END_OF_PROGRAM
}
much() { sed 's/sent [1-9][0-9]*/sent much/'; }

alike() { cmp -s "$1" "$2" || problems+="  $1 and $2 differ"$'\n'; }
device_code() { objcopy -O binary -j .nv_fatbin "$1" "$1.device"; }

calls() {
    if case_of 'what one machine made another finds'; then
        call alone.o
        nvcc "${targets[@]}" -c k.cu -o nvcc.o
        call first.o "ZIGRUNK_REMOTE=$address"
        same 'status and words' "$status $(cat err)" '0 '
        same 'first ways' "$(ways "$room/log" | much)" 'kept 6 sent much to 1'
        mkdir "$room/elsewhere"
        call second.o "ZIGRUNK_REMOTE=$address" "TMPDIR=$room/elsewhere" HOME=/nowhere
        same 'second ways' "$(ways "$room/log")" 'found 6 sent 0 to 1'
        alike alone.o first.o && alike alone.o second.o
        for object in nvcc second; do device_code "$object.o"; done
        alike nvcc.o.device second.o.device
        end_case
    fi

    if case_of 'a server runs commands'; then
        call alone.o
        call run.o "ZIGRUNK_REMOTE=$address" ZIGRUNK_REMOTE_USE=run
        same 'status and words' "$status $(cat err)" '0 '
        same ways "$(ways "$room/log" | much)" 'ran 6 sent much to 1'
        alike alone.o run.o
        call again.o "ZIGRUNK_REMOTE=$address"
        same 'ways of the cache' "$(ways "$room/log")" 'found 6 sent 0 to 1'
        alike alone.o again.o
        end_case
    fi

    if case_of 'where names reach the code nothing is sent'; then
        call alone.o -lineinfo
        call lines.o "ZIGRUNK_REMOTE=$address" -lineinfo
        same 'status and words' "$status $(cat err)" '0 '
        same ways "$(ways "$room/log" | grep -o 'own [0-9]*')" 'own 4'
        alike alone.o lines.o
        end_case
    fi

    if case_of 'errors are those of here'; then
        echo '__global__ void k() { unknown(); }' > k.cu
        call alone.o
        wanted="$status $(cat err)"
        for use in cache run; do
            call broken.o "ZIGRUNK_REMOTE=$address" "ZIGRUNK_REMOTE_USE=$use"
            same "status and words with $use" "$status $(grep -v '^zigrunk-nvcc: a command ran here: .* it failed there' err)" "$wanted"
        done
        end_case
    fi

    if case_of 'without a server commands run here'; then
        call alone.o
        call lone.o ZIGRUNK_REMOTE=grpc://127.0.0.1:1
        same status "$status" 0
        same 'words' "$(grep -c 'a command ran here: .*cannot be reached' err) $(wc -l < err)" '1 1'
        alike alone.o lone.o
        call none.o ZIGRUNK_REMOTE=grpc://127.0.0.1:1 ZIGRUNK_REMOTE_FALLBACK=no
        same 'status without falling back' "$status $(ls none.o 2> /dev/null)" '125 '
        call bad.o ZIGRUNK_REMOTE=http://a
        same 'status with a bad address' "$status $(grep -c 'expected grpc://HOST:PORT' err)" '2 1'
        end_case
    fi
}

. tests/remote/builds.bash
parts=${PARTS:-calls}
[ -z "$boxes" ] || parts=${PARTS:-others calls costs machines run deaths}
if [[ $parts =~ machines|run|deaths ]]; then
    [ "$(id -u)" = 0 ] || skip_all 'machines for servers' 'network namespaces take root'
    . tests/remote/machines.bash
    . tests/remote/deaths.bash
    start_machines "${LANES:-3}" || { count machines 'they do not start'; summary; exit 1; }
fi
if [[ $parts =~ calls|costs|others ]]; then start || { count 'a server' 'it did not start'; summary; exit 1; }; fi
# shellcheck disable=SC2086 # several parts
run_parts $parts
summary
