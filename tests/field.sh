#!/usr/bin/env bash
# Real projects from Debian's archive, built by nvcc and by zigrunk-nvcc: the CUDA objects of each, in the same folder by turns. A call has to
# have the status that nvcc's has, print the same, and make the same files. Then it builds the objects again through a cache: as they are,
# and after a change of one kernel. docs/TRIED.md says what came out. It installs nothing.
#
#   DRIVER_BIN=FOLDER            where zigrunk-nvcc is, else where `make rust` leaves it
#   PROJECTS='bart ceres'        only these of tests/field
#   GENERATORS='Ninja'           only these of Ninja, make and own; make is CMake's too, and own is a project's own make
#   OBJECTS=PATTERN              only the objects whose paths match, for each project; some projects' files name such a part themselves
#   SEED=N                       draws other objects of the projects of which only some are built, else 1
#   CHECKOUTS=N                  in place of all that, builds N objects of each project in two checkouts under ZIGRUNK_ROOT, and compares them
#   ZIGRUNK_FIELD=FOLDER         what it downloads and builds, else zigrunk/field in your cache folder
#   SCCACHE=PATH                 sccache, if it isn't the one on the path; one before 0.9 doesn't know nvcc's tools
#   JOBS=N                       so many processes at once, else as many as there are processors
#   DEBIAN='URL ..'              where Debian's archive is
cd "$(dirname "$0")/.." || exit 1
. tests/lib.sh
what='Projects in the field'
require "$what" nvcc cmake make ninja python3 curl tar xz dpkg-deb objcopy sha256sum
ours=${DRIVER_BIN:-$PWD/out/rust/target/release}/zigrunk-nvcc theirs=$(command -v nvcc) tools=$PWD/tests/field
jobs=${JOBS:-$(nproc)}
folder=${ZIGRUNK_FIELD:-${XDG_CACHE_HOME:-$HOME/.cache}/zigrunk/field}
mkdir -p "$folder/files" && folder=$(realpath "$folder")
mirrors=${DEBIAN:-https://deb.debian.org/debian https://snapshot.debian.org/archive/debian/20261126T000000Z}
nvcc=$tools/nvcc
toolkit=$(cd "$scratch" && : > k.cu && nvcc --dryrun -c k.cu 2>&1 | sed -n 's/^#\$ TOP=//p')
toolkit=$(realpath "${toolkit:-/usr/local/cuda}")
sccache=$(command -v "${SCCACHE:-sccache}") && [[ ! $("$sccache" --version) =~ ^sccache\ 0\.[0-8]\. ]] || sccache=''
trap '[ -z "$sccache" ] || "$sccache" --stop-server > /dev/null 2>&1; rm -rf "$scratch"' EXIT
unset NVCC_PREPEND_FLAGS NVCC_APPEND_FLAGS MAKEFLAGS CUDAFLAGS CUDACXX CXXFLAGS CFLAGS "${!SCCACHE_@}" "${!ZIGRUNK_L@}"
# As many commands run at once with zigrunk-nvcc as with nvcc, and other calls of this user take none of their slots.
export TMPDIR=$folder/tmp XDG_RUNTIME_DIR=$folder/tmp ZIGRUNK_SLOTS=$jobs
export SCCACHE_SERVER_PORT=$((20000 + RANDOM)) SCCACHE_IDLE_TIMEOUT=0 SCCACHE_CONF=/dev/null

# What a project's file calls. archive SUM PATH: a file of Debian's archive, the sources before packages that only get unpacked.
# patch FILE SCRIPT: a change by sed before anything is built. edit FILE SCRIPT: a change of one kernel. settings WORD..: words for CMake.
# within FOLDER: where its CMakeLists.txt is, if not at the top. only PATTERN: builds only these objects. drawn COUNT: builds only so many of them.
archive() { files+=("$1 $2"); }
edit() { changed=$1 change=$2; }
settings() { settings=("$@"); }
within() { within=$1; }
only() { only=$1; }
drawn() { drawn=$1; }
patch() { patches+=("$1" "$2"); }

gencode() { echo '-gencode arch=compute_75,code=sm_75 -gencode arch=compute_86,code=sm_86'; }

# chosen: of the lines that it reads, each with an object at its end, those that are built. Lots are drawn by checksums, so each seed draws the same.
chosen() {
    local line
    grep -E "${only:-.}" | while IFS= read -r line; do
        printf '%s %s\n' "$(sha256sum <<< "${SEED:-1} ${line##* }")" "$line"
    done | LC_ALL=C sort | sed -n "${drawn:+1,$drawn}s/^[^ ]* *- //p"
}

# make_objects FOLDER JOBS WORD..: has make build the objects of the sources that it reads, in a folder and with these words.
make_objects() { LC_ALL=C sort | sed 's/\.cu$/.o/' | chosen | xargs make -C "$1" -k -j "$2" V=1 NVCC="$nvcc" "${@:3}"; }

# fetch: downloads the project's files, unless they are there, and checks their sums.
fetch() {
    local sum path mirror file
    while read -r sum path; do
        file=$folder/files/${path##*/}
        for mirror in $mirrors; do
            [ -e "$file" ] || { curl -fsSL --connect-timeout 20 -o "$file.part" "$mirror/pool/$path" && mv "$file.part" "$file"; }
        done 2> /dev/null
        [ -e "$file" ] || return 3
        sha256sum --status -c <<< "$sum  $file" || { echo "$file has another sum" && return 1; }
    done < <(printf '%s\n' "${files[@]}")
}

# unpack: makes the project's folder anew. The first file has the sources, and packages go below `root`.
unpack() {
    local path
    rm -rf "$place" && mkdir -p "$place/source" "$place/root"
    while read -r _ path; do
        path=$folder/files/${path##*/}
        case $path in
        *.deb) dpkg-deb -x "$path" "$place/root" || return ;;
        *) tar -x -f "$path" -C "$place/source" --strip-components=1 || return ;;
        esac
    done < <(printf '%s\n' "${files[@]}")
    set -- "${patches[@]}"
    while [ $# -gt 0 ]; do
        sed -i "$2" "$place/source/$1" && shift 2 || return
    done
}

# configure, build JOBS: what a CMake project does. Others have functions of these names in their file. The makefiles of CMake have no target
# for an object that can be called from above, so objects.mk calls those below.
# FindCUDA drops the variable for nvcc if the toolkit's folder isn't the one that it has noted. With Ninja, an object of it would wait for
# hundreds of others, which its target links and which aren't CUDA's. Ninja would remove the dependency files, which are compared too.
configure() {
    local name=Ninja
    [ "$generator" != own ] || return 0
    [ "$generator" = Ninja ] || name='Unix Makefiles'
    cmake -G "$name" -S "source/$within" -B build "${settings[@]}" -DCMAKE_PREFIX_PATH="$place/root/usr" -DCMAKE_CUDA_COMPILER="$nvcc" \
        -DCUDA_TOOLKIT_ROOT_DIR="$toolkit" -DCUDA_TOOLKIT_ROOT_DIR_INTERNAL="$toolkit" -DCUDA_NVCC_EXECUTABLE="$nvcc" \
        -DCUDA_HOST_COMPILER=/usr/bin/c++ || return
    if [ "$generator" = Ninja ]; then
        sed -i '/^build .*_generated_.*: CUSTOM_COMMAND/s/ || .*//' build/build.ninja
        return
    fi
    find build -name build.make -exec grep -HoE '"Building (CUDA|NVCC \(Device\)) object [^"]*' {} + | LC_ALL=C sort -u | chosen |
        sed 's,^build/,,; s,^\([^:]*\):.* object \(.*\),all: \2\n\2: FORCE\n\t$(MAKE) -f \1 \2,; $a FORCE:' > build/objects.mk
}

build() {
    if [ "$generator" = Ninja ]; then
        ninja -C build -t targets all |
            sed -n '/^\//d; s/^\(.*\): CUDA_COMPILER__.*/\1/p; s/^\(.*_generated_.*\.\(o\|fatbin\)\): CUSTOM.*/\1/p' | chosen |
            (cd build && xargs ninja -d keepdepfile -k 0 -j "$1")
    else
        make -C build -f objects.mk -k -j "$1"
    fi
}

# timed NAME: builds, and leaves the seconds that it took.
timed() {
    local start=$EPOCHREALTIME took
    (cd "$place" && build "$jobs") > "$results/$1.said" 2>&1
    took=$((${EPOCHREALTIME/./} - ${start/./}))
    printf '%d.%d\n' $((took / 1000000)) $((took % 1000000 / 100000)) > "$results/$1.seconds"
}

# by WAY COMPILER: a build by one of the two.
by() {
    export FIELD_COMPILER=$2 FIELD_CALLS=$results/$1.calls ZIGRUNK_LOG=$results/$1.log
    timed "$1"
    unset FIELD_CALLS ZIGRUNK_LOG
}

# configured: unpacks the sources and configures them, once for both ways.
configured() {
    export FIELD_COMPILER=$ours
    unpack && (cd "$place" && configure) > "$results/configured" 2>&1 && cp -a "$place" "$place.copy" && return
    echo "it can't be configured" && tail -n 20 "$results/configured" && return 1
}

# through_cache: builds three times through sccache: with an empty cache, unchanged, and after a change of one kernel.
through_cache() {
    "$sccache" --stop-server > /dev/null 2>&1
    rm -rf "$results/cache"
    SCCACHE_DIR=$results/cache "$sccache" --start-server > "$results/server" 2>&1 || { echo "sccache doesn't start" && return; }
    export ZIGRUNK_LAUNCHER=$sccache
    local step
    for step in cold unchanged changed; do
        "$tools/compare.py" remove "$results/zigrunk.calls"
        if [ "$step" = changed ]; then
            sed -i "$change" "$place/source/$changed"
        fi
        "$sccache" --zero-stats > /dev/null 2>&1
        timed "$step"
        "$sccache" --show-stats --stats-format json > "$results/$step.stats"
        "$tools/compare.py" sums "$results/zigrunk.calls" > "$results/$step.sums"
    done
    diff "$results/cold.sums" "$results/unchanged.sums"
    "$tools/compare.py" changed "$place" "$results" "$theirs"
    unset ZIGRUNK_LAUNCHER
    "$sccache" --stop-server > /dev/null 2>&1
    rm -rf "$results/cache"
}

# try: a project with one generator. Both ways build in the same place, one after the other.
try() {
    place=$folder/build/$project results=$folder/results/$project.$generator
    rm -rf "$results" "$place" "$place.nvcc" "$place.copy" && mkdir -p "$results"
    configured || return
    uptime > "$results/load"
    by nvcc "$theirs" && mv "$place" "$place.nvcc" && mv "$place.copy" "$place" && by zigrunk "$ours"
    "$tools/compare.py" compare "$place" "$place.nvcc" "$results" "$theirs" || return
    [ -z "$sccache" ] || [ "$generator" = make ] || through_cache
    rm -rf "$place" "$place.nvcc"
}

# in_checkout NAME: builds by zigrunk-nvcc in a checkout of its own, which is the root, with a folder of its own for temporary files.
in_checkout() {
    local name=${1##*/}
    place=$folder/build/$project.$1
    mkdir -p "$folder/tmp/$name"
    (
        export TMPDIR=$folder/tmp/$name ZIGRUNK_ROOT=$place FIELD_COMPILER=$ours
        unpack && cd "$place" && configure && FIELD_CALLS=$results/$name.calls build "$jobs"
    ) > "$results/$name.said" 2>&1
    "$tools/compare.py" sums "$results/$name.calls" | sed -n "/\.d$/d; s,$place/,,p" > "$results/$name.sums"
    [ -s "$results/$name.sums" ] || { echo "nothing is built in $place" && tail -n 5 "$results/$name.said"; }
}

# checkouts: what is made in two checkouts with names of other lengths. Dependency files, which name the checkout, don't count.
checkouts() {
    results=$folder/results/$project.checkouts
    rm -rf "$results" "$folder/build/$project".* && mkdir -p "$results"
    in_checkout one && in_checkout "longer/another" && diff "$results/one.sums" "$results/another.sums"
    grep -qsv '^none ' "$results/one.sums" || echo 'no object is built'
    rm -rf "$folder/build/$project".*
}

# one PROJECT: its cases, one for each generator.
one() {
    local generators='Ninja make' within=. only='' drawn='' changed='' change='' settings=() files=() patches=()
    project=$1
    # shellcheck source=/dev/null # each has the same variables
    . "tests/field/$project.sh"
    only=${OBJECTS:-$only}
    [ "${#settings[@]}" -gt 0 ] || generators=own
    fetch
    case $? in
    0) ;;
    3) skip "$project" "Debian's archive doesn't have it, or can't be reached" && return ;;
    *) count "$project" 'a file differs from the one that was tried' && return ;;
    esac
    if [ -n "${CHECKOUTS:-}" ]; then
        drawn=$CHECKOUTS generator=${generators%% *}
        count "$project, two checkouts" "$(checkouts 2>&1)"
        echo "$project: $(grep -vc '^none ' "$folder/results/$project.checkouts/one.sums") products in each checkout"
        return
    fi
    for generator in $generators; do
        [[ " ${GENERATORS:-$generator} " = *" $generator "* ]] || continue
        count "$project, $generator" "$(try 2>&1)"
    done
}

# reachable: whether the files are there from an earlier run, or Debian's archive answers.
reachable() {
    local mirror
    [ -z "$(find "$folder/files" -name '*.orig.tar.*' -print -quit)" ] || return 0
    for mirror in $mirrors; do
        ! curl -fsSI --connect-timeout 20 -o "$scratch/head" "$mirror/dists/stable/Release" 2> /dev/null || return 0
    done
    return 1
}

reachable || skip_all "$what" "Debian's archive can't be reached"
[ -n "$sccache" ] || skip 'builds through a cache' "sccache 0.9 or later isn't at hand"
rm -rf "${folder:?}/results"
mkdir -p "$folder/build" "$folder/results" "$folder/tmp"
for project in ${PROJECTS:-$(cd tests/field && printf '%s\n' *.sh | sed 's/\.sh$//')}; do
    (in_lane "$project" one "$project") > "$scratch/said"
    add "$?" "$scratch/said" || echo "$project has no counts"
    [[ ! $(tail -n 1 "$scratch/said") =~ ([0-9]+)\ skipped$ ]] || skipped=$((skipped + BASH_REMATCH[1]))
    sed '$d' "$scratch/said"
done
[ -n "${CHECKOUTS:-}" ] || "$tools/compare.py" table "$folder/results"
summary
