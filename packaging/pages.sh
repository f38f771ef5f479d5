#!/bin/sh
# pages.sh installed PREFIX:  copies the pages to PREFIX/share/doc/zigrunk.
# pages.sh sources FOLDER:    mends those that a folder of the sources has.
#
# The pages link to files of the repository. Each link leads to where its file is there, and a link to a file that isn't there becomes plain
# text. Run it once all else is in its place, from the top of the sources.
set -eu
kind=$1 to=$2

# place FILE: where a file of the repository is.
place() {
    case $kind,$1 in
    installed,bindings/c/zigrunk.h | installed,bindings/cpp/zigrunk.hpp) echo "$to/include/${1##*/}" ;;
    installed,bindings/rust/*) echo "$to/share/zigrunk/rust/zigrunk/${1#bindings/rust/}" ;;
    installed,bindings/*) echo "$to/share/zigrunk/${1#bindings/}" ;;
    installed,examples/*) echo "$to/share/zigrunk/$1" ;;
    installed,*) echo "$to/share/doc/zigrunk/${1#docs/}" ;;
    sources,bindings/rust/*) echo "$to/zigrunk/${1#bindings/rust/}" ;;
    *) echo "$to/$1" ;;
    esac
}

# edits PAGE COPY: for each link of a page to a file, the words of sed that have it lead from the copy to that file.
edits() {
    grep -o ']([^)#:]*[)#]' "$1" | tr -d ']()#' | sort -u | while read -r link; do
        file=$(place "$(realpath -m --relative-to=. "$(dirname "$1")/$link")")
        if [ -f "$file" ]; then
            printf 's,](%s\\([)#]\\),](@%s\\1,g\n' "$link" "$(realpath -m --relative-to="$(dirname "$2")" "$file")"
        else
            printf 's,\\[\\([^]]*\\)\\](%s\\(#[^)]*\\)\\{0\\,1\\}),\\1,g\n' "$link"
        fi
    done
    echo 's,](@,](,g'
}

pages=$(ls README.md CHANGELOG.md docs/*.md docs/proof/*.md)
if [ "$kind" = installed ]; then
    for page in $pages LICENSE NOTICE docs/*.json docs/*.svg; do
        install -D -m 644 "$page" "$(place "$page")"
    done
fi
for page in $pages; do
    copy=$(place "$page")
    edits "$page" "$copy" > "$copy.edits"
    sed -f "$copy.edits" "$page" > "$copy.new"
    chmod 644 "$copy.new"
    mv "$copy.new" "$copy"
    rm "$copy.edits"
done
