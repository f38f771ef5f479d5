#!/usr/bin/env bash
# Checks the sources that nothing proves: shellcheck over all shell, mypy and flake8 over all Python, rustfmt over the crate
# for Rust, side by side. Prints what they find, and last 'N passed, M failed': each tool is a case. A tool that isn't installed is
# skipped, and the last line says how many are. .ci/run installs them.
set -u
cd "$(dirname "$0")/.." || exit 1
. tests/lib.sh
trap 'kill $(jobs -p) 2> /dev/null; rm -rf "$scratch"' EXIT
tools=()
processes=()

# start TOOL COMMAND..: starts a check by a tool, if it is installed.
start() {
    local tool=$1
    shift
    if ! "$tool" --version > /dev/null 2>&1; then
        skip "$tool" "it isn't installed"
        return
    fi
    "$@" > "$scratch/$tool.said" 2>&1 &
    tools+=("$tool")
    processes+=("$!")
}

# find_sources: all scripts and modules, by their names or their first lines.
find_sources() {
    local file first
    scripts=() sourced=() modules=()
    while IFS= read -r -d '' file; do
        first=''
        IFS= read -r first 2> /dev/null < "$file"
        case $first:$file in
        '#!/'*[/\ ]sh:* | '#!/'*[/\ ]bash:*) scripts+=("$file") ;;
        '#!/'*[/\ ]python3:* | *.py) modules+=("$file") ;;
        *.sh | *.bash) sourced+=("$file") ;;
        esac
    done < <(find . \( -name .git -o -name out -o -name dist -o -name target -o -name vendor \) -prune -o -type f -print0 | LC_ALL=C sort -z)
}

# by_shellcheck: several at once. Code for another shell is in single quotes here (SC2016), a loop takes words (SC2013), and
# `a && b || c` is what is meant (SC2015). The script that sources a file sets its variables (SC2154).
by_shellcheck() {
    local words=(-x -e SC2013 -e SC2015 -e SC2016)
    printf '%s\0' "${scripts[@]}" | xargs -0 -n 3 -P "$(nproc)" shellcheck "${words[@]}" &&
        shellcheck "${words[@]}" -e SC2154 -s bash "${sourced[@]}"
}

# by_rustfmt: the crates for Rust. (tests/rust_crate.sh has clippy: that wants the crates below.)
by_rustfmt() {
    rustfmt --check --edition 2024 --config-path bindings/rust bindings/rust/src/lib.rs bindings/rust/{examples,tests,tests/answers}/*.rs &&
        rustfmt --check --edition 2024 --config-path call call/src/lib.rs
}

find_sources
start shellcheck by_shellcheck
start mypy env MYPYPATH=bindings/python mypy --strict --scripts-are-modules --ignore-missing-imports --soft-error-limit=-1 --cache-dir=/dev/null "${modules[@]}"
# The kit's module is on the path only after a statement (E402). The rows of a table are long.
start flake8 flake8 --max-line-length=150 --extend-ignore=E402 "${modules[@]}"
start rustfmt by_rustfmt
for at in "${!tools[@]}"; do
    if wait "${processes[at]}"; then count "${tools[at]}" ''; else count "${tools[at]}" "$(cat "$scratch/${tools[at]}.said")"; fi
done
summary
