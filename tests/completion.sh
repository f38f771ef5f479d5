#!/usr/bin/env bash
# Completion for bash, and for zsh if that is here: what each offers of the words and options that the help has, which the test reads another way.
# Prints a line for each failure, and last 'N passed, M failed'.
#
#   DRIVER_BIN=FOLDER   where zigrunk is, else where `make rust` leaves it
set -u
cd "$(dirname "$0")/.." || exit 1
. tests/lib.sh
require 'completion' python3
top=$PWD
zigrunk=$(realpath "${DRIVER_BIN:-out/rust/target/release}/zigrunk")
mkdir -p "$scratch/work/folder" && : > "$scratch/work/file"
cd "$scratch/work" || exit 1

# by_bash WORD..: what bash offers for the last word of a line of zigrunk, sorted.
by_bash() {
    bash -c '. "$1"; compopt() { :; }; COMP_WORDS=("${@:2}") COMP_CWORD=$(($# - 2)); _zigrunk "$2"; printf "%s\n" "${COMPREPLY[@]}"' bash \
        "$top/completions/zigrunk.bash" "$zigrunk" "$@" | LC_ALL=C sort
}

# by_zsh WORD..: the same, by stand-ins for what zsh calls.
by_zsh() {
    # shellcheck disable=SC2016 # for zsh
    zsh -fc '
        _describe() { local name=$argv[-1]; print -rl -- ${${(P)name}%%:*} }
        compadd() { shift; print -rl -- $argv }
        _files() { if [[ $* == -/ ]]; then print -rl -- *(/); else print -rl -- *; fi }
        service=zigrunk file=$1; shift; words=("$@") CURRENT=$#
        f() { source $file }; f
    ' zsh "$top/completions/_zigrunk" "$zigrunk" "$@" | LC_ALL=C sort
}

# offers WANTED WORD..: both offer these words for a line that ends in a word to complete. WANTED: words with blanks between them.
offers() {
    local wanted
    wanted=$(tr ' ' '\n' <<< "$1" | LC_ALL=C sort)
    shift
    for by in by_bash by_zsh; do
        [ "$by" = by_bash ] || command -v zsh > /dev/null || { skip "$by" "there is no zsh" && continue; }
        same "$by: zigrunk $*" "$("$by" "$@" | grep -vxE -- '-h|--help|--version')" "$(grep -vxE -- '-h|--help|--version' <<< "$wanted")"
    done
}

# missing_in PAGE OPTIONS: those of the options that a page of the manual lacks.
missing_in() {
    local option
    for option in $2; do
        case $option in -h | --help | --version) continue ;; esac
        sed 's/\\-/-/g' "$top/man/zigrunk-$1.1" | grep -qE -- "(^|[^-a-z])$option([^-a-z]|\$)" || echo "$option"
    done
}

first=$(python3 - "$zigrunk" << 'END'
import re, subprocess, sys
print(*re.findall(r"^  ([a-z-]+)  +", subprocess.run([sys.argv[1], "help"], capture_output=True, text=True, check=True).stdout, re.MULTILINE))
END
)
# (each has a name in this function)
names=$(sed -n '/pub const fn name(self)/,/^    }/s/.*=> "\([a-z-]*\)",$/\1/p' "$top/driver/src/first_words.rs")
same 'first words' "$(tr ' ' '\n' <<< "$first" | LC_ALL=C sort)" "$(LC_ALL=C sort <<< "$names")"
offers "$first" ''
offers "$first" help ''
for word in $first; do
    # (bash completes an empty word to all)
    options=$("$zigrunk" help "$word" | grep -oE '^-[-a-z]+' | tr '\n' ' ')
    [ "$word" = nvcc ] || [ "$word" = help ] || offers "${options% }" "$word" -
    # (report, why and audit, and check-node, are on the pages of others)
    case $word in report | why | audit) page='nvcc' ;; check-node) page='batch' ;; *) page=$word ;; esac
    [ "$word" = help ] || same "the manual's options of $word" "$(missing_in "$page" "$options")" ''
done
offers 'json ninja shell compdb text' plan ''
offers 'json ninja shell compdb text' plan --dry-runs one two ''
offers 'stats show verify clear limit observe' cache ''
offers 'folder' plan --cwd ''
offers 'folder' plan --dry-runs one two --tmp ''
offers '-c -dc -dw -ptx -cubin -fatbin -optix-ir' plan --flag ''
offers '' batch -j ''
offers '' plan --limit ''
for words in 'plan --dry-runs' 'plan --dry-runs one' 'report --html' 'report' 'batch' 'batch --progress' 'check-node --write' 'plan json' 'nvcc -c'; do
    # shellcheck disable=SC2086 # words
    offers 'file folder' $words ''
done
summary
