#!/usr/bin/env bash
# What calls of zigrunk-nvcc leave in TMPDIR, /tmp and XDG_RUNTIME_DIR: nothing but the user's folders zigrunk-UID and zigrunk-slots-UID, which
# driver/README.md names, the first of them empty. The calls succeed, fail at each tool, and are killed. They have a /tmp of their own,
# so that no other process's files count. Needs root. The last line is 'N passed, M failed'.
#
#   DRIVER_BIN=FOLDER   where zigrunk-nvcc is, else where `make rust` leaves it
cd "$(dirname "$0")/.." || exit 1
top=$PWD
if [ "${1-}" != inside ]; then
    . tests/lib.sh
    require 'What calls leave' nvcc unshare
    unshare -m true 2> /dev/null || skip_all 'What calls leave' 'this user may mount nothing'
    # What it needs is seen at /mnt, since all of it may be below /tmp.
    mkdir -p "$scratch/tmp" "$scratch/tools/bin" "$scratch/tools/tests"
    cp -L "${DRIVER_BIN:-$top/out/rust/target/release}/zigrunk-nvcc" "$scratch/tools/bin/"
    cp -r tests/leftovers.sh tests/lib.sh tests/small "$scratch/tools/tests/"
    # shellcheck disable=SC2016 # the inner shell's
    unshare -m sh -c 'mount --make-rprivate / && mount --bind "$1" /mnt && mount --bind "$2" /var/tmp && mount --bind /var/tmp /tmp && shift 2 && exec "$@"' sh \
        "$scratch/tools" "$scratch/tmp" env DRIVER_BIN=/mnt/bin /mnt/tests/leftovers.sh inside > "$scratch/said"
    add "$?" "$scratch/said" || echo 'its last line has no counts'
    sed '$d' "$scratch/said"
    summary
    exit
fi
. tests/lib.sh
wrapper=$DRIVER_BIN/zigrunk-nvcc work=/tmp/work
unset "${!ZIGRUNK_@}" "${!NVCC_@}"
mkdir -p "$work" /tmp/own /tmp/run /tmp/shared && chmod 700 /tmp/run
cp tests/small/cuda_runtime.h "$work" && cd "$work" || exit 1
echo '__global__ void kernel(int* values) { values[0] = 1; }' > good.cu
printf '%s\n' '__global__ void kernel(int* values) {' '#ifdef __CUDA_ARCH__' 'missing();' '#endif' '}' > cicc.cu
echo '__global__ void kernel() { asm("no such instruction;"); }' > ptxas.cu
echo 'int value = missing;' > host.cu
echo 'int value = ;' > plain.cpp

# listed: what is in the folders for temporary files, without what pages name.
listed() { find /tmp -mindepth 1 \( -path "$work" -o -path "$scratch" -o -name "zigrunk-slots-$(id -u)" \) -prune -o -print | grep -v "/zigrunk-$(id -u)\$" | sort; }

# leaves NAME STATUS VARIABLE.. WORD..: a call with these variables and words has this status, and the folders have after it what they had before.
leaves() {
    local before status problem=''
    before=$(listed)
    env "${@:3}" > "$scratch/call" 2>&1
    status=$?
    [ "$status" = "$2" ] || problem="status $status, not $2: $(cat "$scratch/call")"
    count "what is left: $1" "$problem$(diff <(echo "$before") <(listed))"
}

# killed SIGNAL: such a call, which a signal ends while cicc runs.
killed() {
    local process before
    before=$(listed)
    TMPDIR=/tmp/own XDG_RUNTIME_DIR=/tmp/run "$wrapper" -arch=all-major -c good.cu -o k.o > "$scratch/call" 2>&1 &
    process=$!
    until [ -n "$(find /tmp/own -name '*.ii')" ] || ! kill -0 "$process" 2> /dev/null; do sleep 0.02; done
    kill -s "$1" "$process"
    { wait "$process"; } 2> /dev/null
    count "what is left: a call that $1 ends" "$(diff <(echo "$before") <(listed))"
}

here=(TMPDIR=/tmp/own XDG_RUNTIME_DIR=/tmp/run)
for source in good.cu:0 cicc.cu:1 ptxas.cu:255 host.cu:2 missing.cu:1 plain.cpp:1; do
    leaves "${source%:*}" "${source#*:}" "${here[@]}" "$wrapper" -arch=sm_80 -c "${source%:*}" -o k.o
done
two=(-gencode 'arch=compute_75,code=sm_75' -gencode 'arch=compute_80,code=sm_80')
leaves 'with -MD' 1 "${here[@]}" "$wrapper" -MD -c cicc.cu -o k.o
leaves 'with --keep' 1 "${here[@]}" "$wrapper" --keep -c cicc.cu -o k.o
leaves 'as PTX' 1 "${here[@]}" "$wrapper" -ptx cicc.cu -o k.ptx
leaves 'in threads' 255 "${here[@]}" "$wrapper" -t2 "${two[@]}" -c cicc.cu -o k.o
leaves 'no TMPDIR, no XDG_RUNTIME_DIR' 1 -u TMPDIR -u XDG_RUNTIME_DIR "$wrapper" -c cicc.cu -o k.o
leaves 'ZIGRUNK_TMP' 1 "${here[@]}" ZIGRUNK_TMP=/tmp/shared "$wrapper" -c cicc.cu -o k.o
leaves 'a launcher' 1 "${here[@]}" ZIGRUNK_LAUNCHER=/usr/bin/env "$wrapper" -c cicc.cu -o k.o
leaves 'nvcc makes it' 2 "${here[@]}" "$wrapper" -c good.cu host.cu
for signal in TERM INT HUP; do killed "$signal"; done
summary
