#!/usr/bin/env bash
# What the driver does if the kernel lets a waiting reader go on. These tests change fs.lease-break-time, a setting of the whole machine, which
# each call that begins a command early reads: so nothing else may run beside them. The last line is 'N passed, M failed'.
#
#   tests/patience.sh FOLDER DRIVER     FOLDER: the workspace that `make rust` writes, with its target/
cd "$(dirname "$0")/.." || exit 1
. tests/lib.sh
require 'a kernel that loses its patience' cargo python3
export CARGO_NET_OFFLINE=true
check 'a reader that had to go on' env -C "$1" CARGO_TARGET_DIR="$(realpath "$1")/target" cargo test --quiet -p machine -- --ignored
tests/faults/patience.py --trials "${PATIENCE_TRIALS:-4}" "$2" > "$scratch/said"
status=$?
head -n -1 "$scratch/said"
add "$status" "$scratch/said" || echo 'tests/faults/patience.py: its last line has no counts'
summary
