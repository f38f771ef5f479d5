#!/usr/bin/env bash
# Installs into an empty directory whose name has a space, runs each program from there, uninstalls, and sees that nothing stays.
# Needs cudaplan, which `make build` and the gate leave, and proves nothing. The last line is "N passed, M failed".
set -u
cd "$(dirname "$0")/.." || exit 1
. tests/lib.sh
. tests/callers/room.sh
if ! .ci/built check programs; then
    count 'crates/cudaplan/out' 'it lacks what these sources make; make build proves and builds it'
    summary
    exit
fi
top=$PWD
root="$scratch/in here" room=$scratch/room
make_room "$room"

# exports: the functions of the library, each on a line.
exports() {
    grep -o '\bzigrunk_[a-z_0-9]*(' "$top/bindings/c/zigrunk.h" | tr -d '(' | LC_ALL=C sort -u
}

# page_calls: the functions that the man page of the library declares, and those that it describes, each on a line.
page_calls() {
    sed -n '/^\.SH SYNOPSIS/,/^\.SH DESCRIPTION/s/.*\<\(zigrunk_[a-z_0-9]*\)(.*/\1/p' "$top/man/zigrunk.h.3" | LC_ALL=C sort
    sed -n '/^\.SH CALLS/,/^\.SH ERRORS/s/^\.B \(zigrunk_[a-z_0-9]*\)$/\1/p' "$top/man/zigrunk.h.3" | LC_ALL=C sort -u
}

# page_statuses: the statuses that the man page of the library lists, as the header orders them.
page_statuses() {
    echo ZIGRUNK_OK
    sed -n '/^\.SH ERRORS/,/^\.SH VERSIONS/s/^\.B \(ZIGRUNK_[A-Z_0-9]*\)$/\1/p' "$top/man/zigrunk.h.3"
}

# alike COMMAND OTHER: whether two functions print the same.
alike() {
    diff <("$1") <("$2")
}

twice() { exports && exports; }
# The header has them behind its own version, and the inputs at fault behind them.
statuses() { sed -n '/^#define ZIGRUNK_INPUT_FIRST /q; s/^#define \(ZIGRUNK_[A-Z_0-9]*\) [0-9].*/\1/p' "$top/bindings/c/zigrunk.h" | grep -vx ZIGRUNK_ABI_VERSION; }

check 'the man page declares and describes the functions of the library' alike page_calls twice
check 'the man page lists the statuses of the header' alike page_statuses statuses

# unknown_names: the names in the man page that the header lacks.
unknown_names() {
    local name
    grep -o '\<\(zigrunk\|ZIGRUNK\)_[A-Za-z_0-9]*' "$top/man/zigrunk.h.3" | LC_ALL=C sort -u | while read -r name; do
        grep -q "\<$name\>" "$top/bindings/c/zigrunk.h" || echo "$name"
    done
}
check 'the header has the names of the man page' prints '' unknown_names
# VERSION is the one place for the version number. The packages take it from there; here are the pages and what is installed.
version=$(cat VERSION)
for page in man/*; do
    check "the version of $page" grep -qF "\"zigrunk $version\"" "$page"
done
check 'the version of the module for Python' grep -qx "version = \"$version\"" bindings/python/pyproject.toml
check 'the version of the changelog' grep -qF "## [$version]" CHANGELOG.md
check 'make install' make -s install DESTDIR="$root" PREFIX=/usr
check 'a second make install proves nothing' make -s install DESTDIR="$root" PREFIX=/usr
same 'what it said' "$(cat "$scratch/said")" ''
check 'the links of the installed pages' tests/docs.py --links "$root/usr/share/doc/zigrunk"
PATH=$root/usr/bin:$PATH
mkdir "$scratch/work"
cd "$scratch/work" || exit 1
cp "$top"/tests/drivers/test_plans/data/dry_runs/one_target.dry* .
cudafe='cudafe++ /w --module_id_file_name m k.cpp4.ii'
line=$'--module_id_file_name\n/w/m\nk.cpp4.ii'
check 'the version' prints "zigrunk $version" zigrunk --version
# shellcheck disable=SC2086 # words
check 'a line by cudaplan' prints "$line" cudaplan line $cudafe
check 'a plan by cudaplan' cudaplan plan /w /t -c one_target.dry1 one_target.dry2
check 'where bash looks for completions' test -r "$root/usr/share/bash-completion/completions/zigrunk-nvcc"
check 'the completion for bash' bash -c 'source "$1" && complete -p zigrunk cudaplan zigrunk-nvcc' _ \
    "$root/usr/share/bash-completion/completions/zigrunk"
if command -v zsh > /dev/null; then
    check 'the completion for zsh' zsh -n "$root/usr/share/zsh/site-functions/_zigrunk"
fi
library_flags() {
    PKG_CONFIG_PATH="$root/usr/lib/pkgconfig" pkg-config "$@" zigrunk
}
if command -v man > /dev/null; then
    for page in man1/zigrunk.1 man1/zigrunk-nvcc.1 man1/zigrunk-batch.1 man1/zigrunk-cache.1 man1/zigrunk-plan.1 man1/cudaplan.1 man3/zigrunk.h.3; do
        man --warnings -l "$root/usr/share/man/$page" > shown 2> warnings
        # shellcheck disable=SC2016 # for sh
        check "the man page $page" sh -c '[ -s shown ] && ! grep . warnings'
    done
else
    echo 'skipped: the man pages, without man'
fi

# planned PROGRAM: whether an example prints the programs of the room's call.
planned() {
    diff <(for tool in gcc cudafe++ gcc cicc ptxas fatbinary gcc; do echo "$room/bin/$tool"; done) \
        <(PATH=$room/bin:$PATH "$1" "$room/w" "$room/t" -c kernel.cu -o kernel.o)
}

if command -v cc > /dev/null && command -v pkg-config > /dev/null; then
    check 'the version of zigrunk.pc' prints "$version" library_flags --modversion
    words=()
    # pkg-config puts a backslash before a space
    eval "words=($(library_flags --cflags --libs))"
    check 'the example that plans' cc -o plan "$root/usr/share/zigrunk/c/plan.c" "${words[@]}"
    export LD_LIBRARY_PATH=$root/usr/lib
    check 'what it prints' planned ./plan
    check 'the example that makes' cc -o schedule "$root/usr/share/zigrunk/c/schedule.c" "${words[@]}"
    printf '%s\n' '#include <stdio.h>' '#include <zigrunk.h>' \
        'int main(void) { puts(zigrunk_version()); return zigrunk_abi_version() != ZIGRUNK_ABI_VERSION; }' > version.c
    check 'the versions by the shared object' cc -o by_shared version.c "${words[@]}"
    check 'the version that it has' prints "$version" ./by_shared
    check 'the versions by the archive' cc -o by_archive version.c -I"$root/usr/include" "$root/usr/lib/libzigrunk.a"
    check 'the version that it has' prints "$version" env -u LD_LIBRARY_PATH ./by_archive
    if command -v python3 > /dev/null; then
        check 'the version by Python' prints "$version" env PYTHONDONTWRITEBYTECODE=1 \
            PYTHONPATH="$root/usr/share/zigrunk/python" python3 -c 'import zigrunk; print(zigrunk.version())'
    else
        echo 'skipped: the module for Python, without python3'
    fi
    unset LD_LIBRARY_PATH
    if command -v cargo > /dev/null; then
        mkdir -p uses/src
        printf '%s\n' '[package]' 'name = "uses"' 'version = "0.1.0"' 'edition = "2021"' '[dependencies]' \
            "zigrunk = { path = \"$root/usr/share/zigrunk/rust/zigrunk\" }" > uses/Cargo.toml
        echo 'fn main() { println!("{}", zigrunk::VERSION); }' > uses/src/main.rs
        check 'the version by Rust' prints "$version" \
            cargo run -q --offline --manifest-path uses/Cargo.toml --target-dir uses/target
    else
        echo 'skipped: the crate for Rust, without cargo'
    fi
else
    echo 'skipped: calls of the library, without cc or pkg-config'
fi
if ! command -v cargo > /dev/null; then
    echo 'left out, without cargo on the path: zigrunk'
elif command -v nvcc > /dev/null; then
    echo '__global__ void none() {}' > k.cu
    check 'zigrunk-nvcc' env ZIGRUNK_EXPLAIN=1 zigrunk-nvcc -c k.cu -o k.o
    check 'its object' test -s k.o
    check 'it splits the call' prints '' cat "$scratch/said"
    check 'zigrunk plan' sh -c 'zigrunk plan json nvcc -c k.cu -o k.o | grep -q cicc'
else
    echo 'left out, without nvcc on the path: zigrunk-nvcc'
fi
cd "$top" || exit 1
check 'the programs of the page, with the installation' env TARGET="$scratch/work/uses/target" tests/callers.sh --first "$root/usr"
# as the gate does: it installs and packs side by side
check 'make rust-sources, four at once' sh -c 'for it in 1 2 3 4; do make -s rust-sources & all="$all $!"; done; for it in $all; do wait "$it" || exit; done'
check 'make install-library, alone' make -s install-library DESTDIR="$scratch/" PREFIX='a library'
check 'it installs no program' test ! -e "$scratch/a library/bin"
check 'make uninstall' make -s uninstall DESTDIR="$root" PREFIX=/usr
check 'make uninstall of the library' make -s uninstall DESTDIR="$scratch/" PREFIX='a library'
check 'nothing stays' prints '' find "$root" "$scratch/a library" ! -type d
summary
