#!/usr/bin/env bash
# Fills vendor/ with the crates of others that the workspace needs, as Debian 13 has them. It installs nothing and needs no root: apt gets lists
# and a status of its own. What was downloaded stays in ~/.cache/zigrunk/crates, so that further clones need no network.
#
#   packaging/vendor.sh [remote]    packages are those of packaging/debian.txt; `remote` takes those of the crate remote too
set -eu
cd "$(dirname "$0")/.."
cache=${XDG_CACHE_HOME:-$HOME/.cache}/zigrunk/crates
mkdir -p "$cache"
exec 9> "$cache/lock"
flock 9
scratch=$(mktemp -d "$cache/work.XXXXXX")
trap 'rm -rf "$scratch" vendor.new' EXIT
lists=(packaging/debian.txt)
words=()
if [ "${1-}" = remote ]; then
    lists+=(packaging/debian_remote.txt)
    words=(--remote)
fi

# apt WORD..: apt-get for Debian 13, with lists and a status of its own.
apt() {
    apt-get -qq -o Dir::Etc::sourceparts="$scratch/sources" -o Dir::Etc::sourcelist=/dev/null -o Dir::Etc::preferencesparts=/dev/null \
        -o Dir::State::lists="$scratch/lists" -o Dir::State::status="$scratch/status" -o Dir::Cache="$scratch/cache" \
        -o APT::Sandbox::User=root -o Acquire::Retries=2 "$@"
}

# update: what Debian's mirror of this machine has.
update() {
    local mirror
    mkdir -p "$scratch/lists/partial" "$scratch/cache/archives/partial" "$scratch/sources" "$scratch/debs"
    : > "$scratch/status"
    mirror=$(cat /etc/apt/sources.list /etc/apt/sources.list.d/* 2> /dev/null | grep -o 'https\?://[^ ]*/debian/\?$' | head -n 1)
    printf '%s\n' 'Types: deb' "URIs: ${mirror:-http://deb.debian.org/debian}" 'Suites: trixie' 'Components: main' \
        'Signed-By: /usr/share/keyrings/debian-archive-keyring.gpg' > "$scratch/sources/trixie.sources"
    apt -o APT::Update::Error-Mode=any update
}

# download: these packages and the crates below them, into a folder of crates. A crate's package has no more than its sources.
download() {
    local packages names
    update
    mapfile -t packages < "$scratch/packages"
    # (a root without /proc can't give a command's output as a file)
    apt -s --no-install-recommends install "${packages[@]}" | sed -n 's/^Inst \(librust-[^ ]*\) (\([^ ]*\) .*/\1=\2/p' > "$scratch/names"
    mapfile -t names < "$scratch/names"
    (cd "$scratch/debs" && apt download "${names[@]:?apt names no packages}")
    find "$scratch/debs" -name '*.deb' -print0 | xargs -0 -n 1 -P "$(nproc)" sh -c 'dpkg-deb -x "$1" "$0"' "$scratch/root"
    rm -rf "$cache/registry"
    mv "$scratch/root/usr/share/cargo/registry" "$cache/registry" && mv "$scratch/packages" "$cache/packages"
}

# fill: the crates that cargo takes for the workspace. Debian doesn't know the sums that cargo's registry has.
fill() {
    local crate
    cargo run --quiet --manifest-path rust/Cargo.toml -p eraser -- --unformatted "${words[@]}" "--crates=$cache/registry" . "$scratch/rust"
    rm -rf vendor.new
    mkdir vendor.new
    packaging/locked.sh "$scratch/rust/Cargo.lock" | while read -r crate; do
        # (what stands behind a + is in no name of Debian's folders)
        crate=${crate%%+*}
        cp -r "$cache/registry/$crate" vendor.new
        echo '{"package":null,"files":{}}' > "vendor.new/$crate/.cargo-checksum.json"
    done
    diff -rq vendor.new vendor > /dev/null 2>&1 || { rm -rf vendor && mv vendor.new vendor; }
}

cat "${lists[@]}" "$cache/packages" 2> /dev/null | grep -v '^#' | sort -u > "$scratch/packages"
if [ ! -d "$cache/registry" ] || ! cmp -s "$scratch/packages" "$cache/packages"; then
    download > "$scratch/said" 2>&1 || { cat "$scratch/said" >&2; echo "packaging/vendor.sh: apt-get can't fetch Debian 13's packages" >&2; exit 1; }
fi
fill
