#!/usr/bin/env bash
# Runs cudaplan, zigrunk-nvcc and zigrunk batch where the machine refuses something: as another user than root, with closed
# streams, on a full disk, in a folder that takes no file, with little memory, and with few open files. A call may fail there, but it
# says why, and no call ends with status 0 without the product that nvcc makes elsewhere. Nothing stays in TMPDIR.
# Prints a line for each case that fails, and last 'N passed, M failed'. What this machine can't do is skipped.
#
#   tests/conditions.sh [CUDAPLAN]    the one that `make build` and the gate leave, unless given
#
# zigrunk-nvcc is that of DRIVER_BIN, or what `make rust` leaves. It leaves the user's folder in TMPDIR, empty.
set -u
cd "$(dirname "$0")/.." || exit 1
built=$(realpath "${1:-crates/cudaplan/out/cudaplan}")
runs=$PWD/tests/drivers/test_plans/data/dry_runs/one_kernel header=$PWD/tests/small/cuda_runtime.h
. tests/lib.sh
trap 'umount "$scratch"/disk.* 2> /dev/null; rm -rf "$scratch"' EXIT
require 'the conditions of a machine' nvcc objcopy
driver=${DRIVER_BIN:-$PWD/out/rust/target/release}/zigrunk-nvcc
unset NVCC_PREPEND_FLAGS NVCC_APPEND_FLAGS MAKEFLAGS "${!ZIGRUNK@}"

# Another user reads all of this.
chmod 755 "$scratch"
mkdir "$scratch/bin"
cp "$built" "$scratch/bin/cudaplan"
cp "$driver" "$scratch/bin/zigrunk-nvcc"
ln -s zigrunk-nvcc "$scratch/bin/zigrunk"
export PATH=$scratch/bin:$PATH ZIGRUNK_EXPLAIN=yes

# begin_in FOLDER: an own folder for the sources of a case, with its products.
begin_in() {
    room=$1
    mkdir -p "$room"
    cp "$header" "$room"
    echo '__device__ int g(int x) { return x * 2; }' > "$room/k.cu"
    echo 'int x = ;' > "$room/bad.cu"
    chmod -R a+rwX "$room"
}

# digest FILE: tells a product from others: an object without what names a temporary file.
digest() {
    case $1 in
    *.o) objcopy --strip-unneeded "$1" "$scratch/stripped" 2> /dev/null && sha256sum < "$scratch/stripped" ;;
    *) sha256sum < "$1" ;;
    esac 2> /dev/null
}

# makes NAME PRODUCT STATUSES COMMAND..: a case: the command, whose status has to be one of these. With 0 the product is nvcc's; with
# another there is none, or a whole one, and standard error says something. `$quiet` is set if it can't.
makes() {
    local name=$1 product=$2 statuses=$3 status problem='' left
    shift 3
    rm -f "$product"
    mkdir -p "$scratch/tmp" && chmod 1777 "$scratch/tmp"
    TMPDIR=${tmp-$scratch/tmp} "$@" > "$scratch/out" 2> "$scratch/err"
    status=$?
    [[ " $statuses " == *" $status "* ]] || problem="status $status, not $statuses"
    if [ "$status" = 0 ] || [ -s "$product" ]; then
        [ "$(digest "$product")" = "$(digest "$scratch/want${product##*k}")" ] || problem+=" with status $status, ${product##*/} isn't nvcc's;"
    else
        [ -n "${quiet-}" ] || [ -s "$scratch/err" ] || problem+=" status $status without a message;"
    fi
    [ -n "${planted-}" ] || rmdir "${tmp-$scratch/tmp}"/zigrunk-[0-9]* 2> /dev/null
    left=$(find "${tmp-$scratch/tmp}" -mindepth 1 ! -name "${planted:-none}" 2> /dev/null)
    [ -z "$left" ] || problem+=" left in TMPDIR: $left;"
    count "$name" "${problem:+$problem $(head -n 3 "$scratch/err")}"
}

# split: whether the last call was split.
split() {
    count "$1, split" "$(grep 'nvcc itself' "$scratch/err")"
}

# in_room COMMAND..: runs a command in the room.
in_room() {
    (cd "$room" && "$@")
}

# the products that nvcc makes
wanted() {
    begin_in "$scratch/work"
    in_room nvcc -c k.cu -o "$scratch/want.o" && in_room nvcc -ptx k.cu -o "$scratch/want.ptx" || skip_all 'the conditions of a machine' "nvcc doesn't compile here"
    printf '%s\n' 'nvcc -ptx k.cu -o k.ptx' 'nvcc -c k.cu -o k.o' > "$scratch/work/list"
}

# as_nobody COMMAND..: runs a command as a user that isn't root.
as_nobody() {
    if [ "$user" = 0 ]; then
        setpriv --reuid 65534 --regid 65534 --clear-groups env -u HOME -u USER "$@"
    else
        "$@"
    fi
}

another_user() {
    local plan
    if ! as_nobody nvcc --version > /dev/null 2>&1; then
        skip 'another user than root' 'no other user can run nvcc here'
        return
    fi
    plan=$(cudaplan plan /w /t -c "$runs.dry1" "$runs.dry2")
    cp "$runs".dry[12] "$room" && chmod a+r "$room"/*
    same 'a plan of another user' "$(in_room as_nobody cudaplan plan /w /t -c one_kernel.dry1 one_kernel.dry2)" "$plan"
    makes "another user's call" "$room/k.o" 0 in_room as_nobody zigrunk-nvcc -c k.cu -o k.o
    split "another user's call"
    makes "another user's list" "$room/k.o" 0 in_room as_nobody zigrunk batch list
    planted=zigrunk-65534
    mkdir "$scratch/tmp/$planted"
    makes 'a call whose directory is another user'\''s' "$room/k.ptx" 0 in_room as_nobody zigrunk-nvcc -ptx k.cu -o k.ptx
    split 'a call whose directory is another user'\''s'
    rmdir "$scratch/tmp/$planted"
    planted=''
}

# closed STREAMS COMMAND..: runs a command with these streams closed, of 'in out err'.
closed() {
    case $1 in
    in) shift && "$@" <&- ;;
    out) shift && "$@" >&- ;;
    err) shift && "$@" 2>&- ;;
    'out err') shift && "$@" >&- 2>&- ;;
    *) shift && "$@" <&- >&- 2>&- ;;
    esac
}

# nvcc itself makes nothing without standard input, where a process that it starts gets its number for something else. zigrunk-nvcc may make the
# product there, and say that a source is bad.
closed_streams() {
    local streams quiet status
    for streams in in out err 'out err' 'in out err'; do
        quiet='' status=0
        [[ $streams != *err* ]] || quiet=yes
        in_room closed "$streams" nvcc -c k.cu -o k.o > /dev/null 2>&1 || status=$?
        makes "a call without $streams" "$room/k.o" "0 $status" in_room closed "$streams" zigrunk-nvcc -c k.cu -o k.o
        [ "$status" != 0 ] || split "a call without $streams"
        makes "a list without $streams" "$room/k.o" "0 $status" in_room closed "$streams" zigrunk batch list
        in_room closed "$streams" nvcc -c bad.cu -o bad.o > /dev/null 2>&1
        makes "a bad source without $streams" "$room/bad.o" "$? 2" in_room closed "$streams" zigrunk-nvcc -c bad.cu -o bad.o
        # what it prints is lost, and a fault if it's on standard output
        closed "$streams" cudaplan line cicc /w k.cpp1.ii -o k.ptx > "$scratch/out" 2> "$scratch/err"
        same "a line without $streams" "$?" "$([[ $streams == *out* ]] && echo 1 || echo 0)"
        closed "$streams" cudaplan line cicc /w a > /dev/null 2>&1
        same "a refused line without $streams" "$?" 1
        closed "$streams" cudaplan no-such-verb > /dev/null 2>&1
        same "a wrong call without $streams" "$?" 2
    done
}

# disk NAME SIZE: a disk of this size, in $scratch/disk.NAME.
disk() {
    mkdir "$scratch/disk.$1" && mount -t tmpfs -o "size=$2,mode=1777" none "$scratch/disk.$1" 2> /dev/null
}

full_disks() {
    local size tmp
    if ! disk none 4k; then
        skip 'full disks and disks that take no file' 'this machine mounts no tmpfs'
        return
    fi
    for size in 4k 16k 48k 128k 512k; do
        disk "$size" "$size"
        tmp=$scratch/disk.$size
        makes "a TMPDIR of $size" "$room/k.o" '0 1 4' in_room zigrunk-nvcc -c k.cu -o k.o
        makes "a list with a TMPDIR of $size" "$room/k.o" '0 1 2 4' in_room zigrunk batch list
    done
    tmp=$scratch/tmp
    head -c 65536 /dev/zero > "$scratch/disk.none/full" 2> /dev/null
    # (cicc, ptxas and fatbinary end with 0 there, or die, by nvcc too)
    makes 'an object on a full disk' "$scratch/disk.none/k.o" 1 in_room zigrunk-nvcc -c k.cu -o "$scratch/disk.none/k.o"
    echo "nvcc -c k.cu -o $scratch/disk.none/k.o" > "$room/one"
    makes 'an object of a list on a full disk' "$scratch/disk.none/k.o" 1 in_room zigrunk batch one
    cudaplan plan /w /t -c "$runs.dry1" "$runs.dry2" > "$scratch/disk.none/plan" 2> "$scratch/err"
    same 'a plan on a full disk' "$? $(cat "$scratch/err")" '1 cudaplan: cannot write'
}

# folders that take no file, with the source in them
fixed_folders() {
    local tmp
    disk fixed 1m || return 0
    begin_in "$scratch/disk.fixed"
    printf '%s\n' "nvcc -ptx k.cu -o '$scratch/work/k.ptx'" "nvcc -c k.cu -o '$scratch/work/k.o'" > "$room/list"
    mount -o remount,ro "$room"
    makes 'a call in a folder that takes no file' "$scratch/work/k.ptx" 0 in_room zigrunk-nvcc -ptx k.cu -o "$scratch/work/k.ptx"
    split 'a call in a folder that takes no file'
    makes 'a list in a folder that takes no file' "$scratch/work/k.o" 0 in_room zigrunk batch list
    makes 'an object in a folder that takes no file' "$room/k.o" 1 in_room zigrunk-nvcc -c k.cu
    makes 'kept files in a folder that takes no file' "$scratch/work/k.o" '0 1' in_room zigrunk-nvcc --keep -c k.cu -o "$scratch/work/k.o"
    tmp=$room/none
    makes 'a TMPDIR that is missing' "$scratch/work/k.o" 1 in_room zigrunk-nvcc -c k.cu -o "$scratch/work/k.o"
    room=$scratch/work
}

# within KIB COMMAND..: runs a command with so much memory.
within() {
    (ulimit -v "$1" && shift && exec "$@")
}

# A program that gets some memory, but not enough, says so. With less it doesn't start: the loader says that, or the kernel kills it.
little_memory() {
    local size want status out least
    want=$(cudaplan line cicc /w k.cpp1.ii -o k.ptx)
    least=''
    for size in $(seq 800 100 6000); do
        out=$(within "$size" cudaplan line cicc /w k.cpp1.ii -o k.ptx 2> "$scratch/err")
        status=$?
        case $status,$out,$(cat "$scratch/err") in
        "0,$want,") least=${least:-$size} ;;
        "1,,cudaplan: out of memory" | 12[67],,* | 13[0-9],,*) [ -z "$least" ] || count "cudaplan within $size KiB" 'it ran with less' ;;
        *) count "cudaplan within $size KiB" "status $status, '$out', '$(cat "$scratch/err")'" ;;
        esac
    done
    count "cudaplan with little memory" "$([ -n "$least" ] || echo 'it never ran')"
    for size in 20000 60000 100000 200000 400000; do
        makes "a call within $size KiB" "$room/k.ptx" '0 1 2 4 126 127 134 137 139 254 255' in_room within "$size" zigrunk-nvcc -ptx k.cu -o k.ptx
    done
}

few_files() {
    local files
    for files in 256 64 32 20 12; do
        makes "a call with $files open files" "$room/k.o" "0$([ "$files" -gt 32 ] || echo ' 1 2 126 127 255')" \
            in_room few "$files" zigrunk-nvcc -c k.cu -o k.o
        [ "$files" -lt 64 ] || split "a call with $files open files"
        makes "a list with $files open files" "$room/k.o" "0$([ "$files" -gt 32 ] || echo ' 1 2 126 127 255')" in_room few "$files" zigrunk batch list
    done
}

# few FILES COMMAND..: runs a command with so many open files.
few() {
    (limit_files "$1" && shift && exec "$@")
}

user=$(id -u)
wanted
another_user
closed_streams
full_disks
fixed_folders
little_memory
few_files
summary
