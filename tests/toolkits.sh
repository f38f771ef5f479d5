#!/usr/bin/env bash
# Fetches nvcc 11.2, 11.8 and 12.4 with their headers from Debian's archive, each with a g++ that it accepts, and runs commands with
# one of them as the nvcc on the path. It installs nothing and needs no root: packages are unpacked into a folder, and the
# paths in Debian's profile and wrapper are rewritten. NVIDIA's license applies to what is in that folder.
#
#   tests/toolkits.sh FOLDER fetch VERSION..            fetches what FOLDER lacks; 0.6 to 1 GB a version, of which 0.2 GB stay
#   tests/toolkits.sh FOLDER run VERSION COMMAND..      runs COMMAND with that nvcc
#
# The status of `fetch` is 3 if there is no network or no apt, and 1 if something else fails.
set -eu
folder=$(mkdir -p "$1" && cd "$1" && pwd)
action=$2
shift 2

# suite_of VERSION, host_of VERSION: the Debian release that has this nvcc, and the newest g++ that nvcc accepts with its release.
suite_of() {
    case $1 in
    11.2) echo bullseye ;;
    11.8) echo bookworm ;;
    12.4) echo trixie ;;
    *) echo "toolkits: Debian has no nvcc $1" >&2 && exit 1 ;;
    esac
}
host_of() {
    case $1 in
    11.2) echo 10 bullseye ;;
    11.8) echo 11 bookworm ;;
    12.4) echo 12 bookworm ;;
    esac
}

# get WORD..: apt-get with lists and a status of its own.
get() {
    apt-get -qq -o Dir::Etc::sourceparts="$folder/apt/sources" -o Dir::Etc::sourcelist=/dev/null -o Dir::Etc::preferencesparts=/dev/null \
        -o Dir::State::lists="$folder/apt/lists" -o Dir::State::status="$folder/apt/status" -o Dir::Cache="$folder/apt/cache" \
        -o APT::Sandbox::User=root -o Acquire::Retries=2 "$@"
}

# lists: what Debian's mirror of this machine has.
lists() {
    local mirror suite
    mkdir -p "$folder/apt/lists/partial" "$folder/apt/cache/archives/partial" "$folder/apt/sources"
    : > "$folder/apt/status"
    mirror=$(cat /etc/apt/sources.list /etc/apt/sources.list.d/* 2> /dev/null | grep -o 'https\?://[^ ]*/debian/\?$' | head -n 1)
    for suite in bullseye bookworm trixie; do
        printf '%s\n' 'Types: deb' "URIs: ${mirror:-http://deb.debian.org/debian}" "Suites: $suite" 'Components: main non-free' \
            'Signed-By: /usr/share/keyrings/debian-archive-keyring.gpg' > "$folder/apt/sources/$suite.sources"
    done
    get -o APT::Update::Error-Mode=any update
}

# unpack SUITE PACKAGE..: downloads packages and unpacks them below `root`; of the toolkit's headers and libraries only those that
# compiling and linking a program needs.
unpack() {
    local suite=$1 name debs
    shift
    debs=$(mktemp -d "$folder/debs.XXXXXX")
    (cd "$debs" && get download "${@/%//$suite}")
    for name in "$debs"/*.deb; do
        case $name in
        */nvidia-cuda-dev_*) dpkg-deb --fsys-tarfile "$name" | tar -x -C "$root" --wildcards './usr/include/*' '*/libcudart*' '*/libcudadevrt*' ;;
        *) dpkg-deb -x "$name" "$root" ;;
        esac
    done
    rm -rf "$debs"
}

# relocate: lets the nvcc below `root` find its profile, which is a link to /etc, and its own files. Debian's profile names no folder for
# headers, because the compiler finds theirs in /usr/include. CMake wants the path of libdevice to end in nvvm/libdevice.
relocate() {
    local profile=$root/usr/lib/nvidia-cuda-toolkit/bin/nvcc.profile
    rm -f "$profile"
    sed "s,/usr/lib/,$root/usr/lib/,g; s,/lib/nvidia-cuda-toolkit/libdevice,/nvvm/libdevice," "$root/etc/nvcc.profile" > "$profile"
    echo "INCLUDES += \"-I$root/usr/include\" \$(_SPACE_)" >> "$profile"
    sed -i "s,/usr/lib/nvidia,$root/usr/lib/nvidia,g" "$root/usr/bin/nvcc"
    mkdir -p "$root/usr/nvvm"
    ln -sfn ../lib/nvidia-cuda-toolkit/libdevice "$root/usr/nvvm/libdevice"
}

# fetch VERSION: a folder is whole once it has the file `done`.
fetch() {
    local root=$folder/$1 suite number from
    suite=$(suite_of "$1")
    [ ! -e "$root/done" ] || return 0
    [ -e "$folder/apt/listed" ] || { lists > "$folder/apt.log" 2>&1 && touch "$folder/apt/listed"; } || exit 3
    read -r number from <<< "$(host_of "$1")"
    rm -rf "$root"
    mkdir -p "$root"
    unpack "$suite" nvidia-cuda-toolkit nvidia-cuda-dev
    unpack "$from" "g++-$number" "gcc-$number" "cpp-$number" "libgcc-$number-dev" "libstdc++-$number-dev"
    relocate
    ln -sf "gcc-$number" "$root/usr/bin/gcc"
    ln -sf "g++-$number" "$root/usr/bin/g++"
    touch "$root/done"
}

case $action in
fetch)
    command -v apt-get > /dev/null && command -v dpkg-deb > /dev/null || exit 3
    for version; do fetch "$version"; done
    ;;
run)
    root=$folder/$1
    [ -e "$root/done" ] || { echo "toolkits: $folder has no nvcc $1" >&2 && exit 1; }
    shift
    PATH=$root/usr/bin:$PATH exec "$@"
    ;;
esac
