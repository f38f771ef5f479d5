#!/usr/bin/env bash
# Compares what the examples of docs/EMBEDDING.md make with what nvcc makes: the scheduler in C++, whose workers see none of the call's files (that needs
# root), the cache server in Go, twice and in another folder, and the key maker in Rust if cargo built it. Needs nvcc, and a library as
# tests/callers.sh does. The last line is 'N passed, M failed'.
#
#   tests/callers_products.sh [FOLDER]      KEYS=FILE: the key maker, as `cargo build --example keys` leaves it
set -u
cd "$(dirname "$0")/.." || exit 1
. tests/lib.sh
require 'products of the examples' nvcc c++ go pkg-config objcopy
installed=$(realpath -m "${1:-out}")
export PKG_CONFIG_PATH=$installed/lib/pkgconfig LD_LIBRARY_PATH=$installed/lib GOFLAGS=-mod=mod GOPROXY=off GOCACHE=$scratch/go
read -ra flags <<< "$(pkg-config --cflags --libs zigrunk)"
mkdir -p "$scratch/server" "$scratch/entries" "$scratch/w" "$scratch/tmp"
cp bindings/go/examples/cacheserver/main.go "$scratch/server"
printf 'module test\n\ngo 1.19\n\nrequire zigrunk v0.0.0\n\nreplace zigrunk => %s\n' "$PWD/bindings/go" > "$scratch/server/go.mod"
check 'the scheduler' c++ -std=c++17 -O1 bindings/cpp/examples/scheduler.cpp -o "$scratch/scheduler" "${flags[@]}"
check 'the cache server' env -C "$scratch/server" go build -o "$scratch/cacheserver" .
cd "$scratch/w" || exit 1
printf '%s\n' '#include "a.h"' '__global__ void inc(int *a) { *a += A; }' 'void run(int *a) { inc<<<1, 1>>>(a); }' > k.cu
echo '#define A 2' > a.h
printf '%s\n' '__global__ void w(int *a) { int unused; *a = 1; }' 'int f() { return 1; int never; }' > warn.cu
printf '%s\n' '__global__ void s(int *a) { *a = ; }' > bad.cu
"$scratch/cacheserver" serve "$scratch/socket" "$scratch/entries" &
server=$!
trap 'kill "$server"; wait "$server" 2> /dev/null; rm -rf "$scratch"' EXIT
until [ -S "$scratch/socket" ]; do sleep 0.05; done
# A call, and how many of its commands the server can have.
calls=('3 -c k.cu -o k.o' '7 -c k.cu -o k.o -gencode arch=compute_80,code=sm_80 -gencode arch=compute_86,code=sm_86 -gencode arch=compute_90,code=[sm_90,compute_90]'
    '3 -dc k.cu -o k.o' '2 -fatbin k.cu -o k.fatbin' '1 -ptx k.cu -o k.ptx' '3 -MD -c k.cu -o k.o' '3 -c warn.cu -o k.o' '0 -c bad.cu -o k.o')

# A worker that shares no disk: each command finds the folders of the call and of temporary files empty.
printf '%s\n' '#!/bin/sh' "exec unshare -m sh -c 'mount -t tmpfs none \"\$0/w\" && mount -t tmpfs none \"\$0/tmp\" && eval \"\$1\"' '$scratch' \"\$1\"" > "$scratch/worker"
chmod +x "$scratch/worker"
worker=$scratch/worker
"$worker" true || worker=''
[ -n "$worker" ] || skip 'the scheduler' 'no folder can be mounted here'

# made NAME COMMAND..: what a command makes, prints and returns, in $scratch/NAME.
made() {
    rm -rf k.o k.fatbin k.ptx k.d "${scratch:?}/$1"
    mkdir "$scratch/$1"
    "${@:2}" > "$scratch/$1/output" 2> "$scratch/$1/errors"
    echo $? > "$scratch/$1/status"
    [ ! -f k.o ] || objcopy --strip-unneeded k.o
    for file in k.o k.fatbin k.ptx k.d; do [ ! -f "$file" ] || cp "$file" "$scratch/$1"; done
}

# like_nvcc NAME: whether that is what nvcc makes. (A listing for people names the temporary files in comments.)
like_nvcc() { diff -r "$scratch/nvcc" "$scratch/$1"; }

for call in "${calls[@]}"; do
    read -r hits call <<< "$call"
    read -ra words <<< "$call"
    made nvcc nvcc "${words[@]}"
    if [ -n "$worker" ]; then
        made scheduled env TMPDIR="$scratch/tmp" "$scratch/scheduler" "$worker" "$worker" "$worker" -- "${words[@]}"
        check "the scheduler: $call" like_nvcc scheduled
    fi
    export CACHESERVER_LOG=$scratch/log
    rm -f "$scratch/log"
    made first "$scratch/cacheserver" make "$scratch/socket" "${words[@]}"
    check "the cache server, first: $call" like_nvcc first
    made second "$scratch/cacheserver" make "$scratch/socket" "${words[@]}"
    check "the cache server, second: $call" like_nvcc second
    [ "$hits" = 0 ] || check "its hits: $call" grep -q "^$hits of" "$scratch/log"
    if [ -n "${KEYS-}" ]; then
        rm -rf "$scratch/tmp"
        mkdir "$scratch/tmp"
        made keyed "$KEYS" "$PWD" "$scratch/tmp" nvcc "${words[@]}"
        grep -E $'^([0-9a-f]{16}|-)\t' "$scratch/keyed/output" > "$scratch/keys.1"
        made keyed_again "$KEYS" "$PWD" "$scratch/tmp" nvcc "${words[@]}"
        grep -E $'^([0-9a-f]{16}|-)\t' "$scratch/keyed_again/output" > "$scratch/keys.2"
        check "the key maker: $call" cmp "$scratch/keys.1" "$scratch/keys.2"
    fi
done
# Elsewhere the source has another path, which cudafe++ and cicc get. The PTX is the same.
cp -r "$scratch/w" "$scratch/other" && cd "$scratch/other" || exit 1
made nvcc nvcc -c k.cu -o k.o
made elsewhere "$scratch/cacheserver" make "$scratch/socket" -c k.cu -o k.o
check 'the cache server, in another folder' like_nvcc elsewhere
check 'its hits in another folder' grep -q '^1 of' "$scratch/log"
summary
