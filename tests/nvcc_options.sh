#!/usr/bin/env bash
# Prints each option that `nvcc --help` of the installed nvcc lists and that the table of crates/nvcc_calls lacks. It fails if there is
# one, or if the help lists fewer than a hundred. The last line is 'N passed, M failed'.
#
#   tests/nvcc_options.sh [NVCC]
set -u
cd "$(dirname "$0")/.." || exit 1
. tests/lib.sh
nvcc=${1:-nvcc}
table=crates/nvcc_calls/src/options.rt
require "the table of nvcc's options" "$nvcc"
listed=0 lacks=''
for name in $("$nvcc" --help | sed -n 's/^\(--[^ ]*\).*(\(-[^ ()]*\)) *$/\1 \2/p; s/^\(--[^ ]*\)  *--[^ ]* *$/\1/p'); do
    listed=$((listed + 1))
    grep -q -- "\"$name\"" "$table" || lacks+=" $name"
done
[ "$listed" -ge 100 ] || lacks+=" all but $listed options of nvcc --help"
count "the table of nvcc's options" "${lacks:+it lacks$lacks}"
summary
