#!/usr/bin/env bash
# Fetches sccache 0.10.0 as Debian 13 has it, and the crates that it is built of, from Debian's archive. It installs nothing and needs
# no root: apt gets lists and a status of its own, and packages are unpacked into a folder.
#
#   tests/peer/fetch.sh FOLDER
#
# FOLDER gets `source`, with Debian's patches, and `cargo`, a CARGO_HOME that takes crates only from there. It takes 30 MB from the
# network, and 300 MB of the disk. What is there from an earlier run stays. The status is 3 if there is no network or no apt, and 1 if something
# else fails.
set -eu
folder=$(mkdir -p "$1" && cd "$1" && pwd)

# get WORD..: apt-get with lists and a status of its own.
get() {
    apt-get -qq -o Dir::Etc::sourceparts="$folder/apt/sources" -o Dir::Etc::sourcelist=/dev/null -o Dir::Etc::preferencesparts=/dev/null \
        -o Dir::State::lists="$folder/apt/lists" -o Dir::State::status="$folder/apt/status" -o Dir::Cache="$folder/apt/cache" \
        -o APT::Sandbox::User=root -o Acquire::Retries=2 "$@"
}

# lists: what Debian's mirror of this machine has.
lists() {
    local mirror
    mkdir -p "$folder/apt/lists/partial" "$folder/apt/cache/archives/partial" "$folder/apt/sources"
    : > "$folder/apt/status"
    mirror=$(cat /etc/apt/sources.list /etc/apt/sources.list.d/* 2> /dev/null | grep -o 'https\?://[^ ]*/debian/\?$' | head -n 1)
    printf '%s\n' 'Types: deb deb-src' "URIs: ${mirror:-http://deb.debian.org/debian}" 'Suites: trixie' 'Components: main' \
        'Signed-By: /usr/share/keyrings/debian-archive-keyring.gpg' > "$folder/apt/sources/trixie.sources"
    get -o APT::Update::Error-Mode=any update
}

# source_of_sccache: apt checks the files' sums, so dpkg-source needn't know who signed them.
source_of_sccache() {
    mkdir "$work/source"
    (cd "$work/source" && get --download-only source sccache/trixie && dpkg-source --no-check -x ./sccache_0.10.0-*.dsc tree)
    mv "$work/source/tree" "$folder/source"
}

# crates: what the build dependencies need, down to the last. A crate's package has no more than its sources.
crates() {
    local home=$work/cargo names
    mkdir -p "$work/debs" "$work/root" "$home"
    mapfile -t names < <(get -s build-dep sccache/trixie | sed -n 's/^Inst \(librust-[^ ]*\|libzstd-dev\) (\([^ ]*\) .*/\1=\2/p')
    (cd "$work/debs" && get download "${names[@]:?apt names no build dependencies}")
    find "$work/debs" -name '*.deb' -print0 | xargs -0 -n 1 -P "$(nproc)" sh -c 'dpkg-deb -x "$1" "$0"' "$work/root"
    mv "$work/root/usr/share/cargo/registry" "$home/crates"
    # Debian's crate of libzstd has only declarations.
    mkdir "$home/zstd"
    mv "$work/root/usr/lib"/*/libzstd.a "$work"/root/usr/include/z*.h "$home/zstd"
    printf '%s\n' "dir=$folder/cargo/zstd" 'Name: zstd' 'Description: zstd' 'Version: 1.5.7' 'Cflags: -I${dir}' 'Libs: -L${dir} -lzstd' \
        > "$home/zstd/libzstd.pc"
    printf '%s\n' '[source.crates-io]' 'replace-with = "debian"' '[source.debian]' "directory = \"$folder/cargo/crates\"" > "$home/config.toml"
    mv "$home" "$folder/cargo"
}

[ ! -d "$folder/source" ] || [ ! -d "$folder/cargo" ] || exit 0
command -v apt-get > /dev/null && command -v dpkg-source > /dev/null || exit 3
work=$(mktemp -d "$folder/work.XXXXXX")
trap 'rm -rf "$work"' EXIT
lists > "$folder/apt.log" 2>&1 || exit 3
[ -d "$folder/source" ] || source_of_sccache
[ -d "$folder/cargo" ] || crates
