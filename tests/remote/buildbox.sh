#!/usr/bin/env bash
# Fetches buildbox of Debian sid, a server of the Remote Execution API with storage, action cache and execution, and its libraries. Installs
# nothing; 120 MB. Prints the folder of the programs.
#
#   tests/remote/buildbox.sh FOLDER
set -eu
mkdir -p "${1:?a folder}"
folder=$(realpath "$1")
bin=$folder/bin
[ -e "$folder/done" ] && { echo "$bin"; exit; }
rm -rf "${folder:?}"/*
mkdir -p "$folder"/{lists/partial,cache/archives/partial,sources,debs,root,bin}
: > "$folder/status"
mirror=$(cat /etc/apt/sources.list /etc/apt/sources.list.d/* 2> /dev/null | grep -o 'https\?://[^ ]*/debian/\?$' | head -n 1)
for suite in sid bookworm; do
    printf '%s\n' 'Types: deb' "URIs: ${mirror:-http://deb.debian.org/debian}" "Suites: $suite" 'Components: main' \
        'Signed-By: /usr/share/keyrings/debian-archive-keyring.gpg' > "$folder/sources/$suite.sources"
done
apt() {
    apt-get -qq -o Dir::Etc::sourceparts="$folder/sources" -o Dir::Etc::sourcelist=/dev/null -o Dir::Etc::preferencesparts=/dev/null \
        -o Dir::State::lists="$folder/lists" -o Dir::State::status="$folder/status" -o Dir::Cache="$folder/cache" \
        -o APT::Sandbox::User=root -o APT::Default-Release=sid -o Acquire::Retries=2 "$@"
}
apt -o APT::Update::Error-Mode=any update >&2
mapfile -t names < <(apt -s --no-install-recommends install buildbox | sed -n 's/^Inst \([^ ]*\) (\([^ ]*\) .*/\1=\2/p')
(cd "$folder/debs" && apt download "${names[@]:?apt names no packages}" patchelf/bookworm >&2)
for deb in "$folder"/debs/*.deb; do dpkg-deb -x "$deb" "$folder/root"; done
# (sid's libraries need sid's loader)
lib=$folder/root/usr/lib/x86_64-linux-gnu
mkdir "$folder/patch"
dpkg-deb -x "$folder"/debs/patchelf_*.deb "$folder/patch"
for program in buildbox-casd buildbox-run-hosttools casdownload trexe; do
    cp "$folder/root/usr/bin/$program" "$bin/$program"
    "$folder/patch/usr/bin/patchelf" --set-interpreter "$lib/ld-linux-x86-64.so.2" --set-rpath "$lib" --force-rpath "$bin/$program"
done
rm -rf "$folder"/{debs,cache,lists}
touch "$folder/done"
echo "$bin"
