# What the test scripts share: a folder for their files, $scratch, cases, counts and the last line. A script sources it from the top of
# the repository, and ends with `summary`. Each case is counted once: by `check`, `same`, `count` or `end_case`. ONLY, if set, is a text: cases
# whose names lack it aren't counted. `make one CASE=TEXT` sets it.
# shellcheck shell=bash

scratch=$(mktemp -d)
trap 'rm -rf "$scratch"' EXIT
passed=0
failed=0
skipped=0

# is_wanted NAME: whether a case of this name is one of those to run.
is_wanted() {
    [[ $1 == *"${ONLY-}"* ]]
}

# count NAME PROBLEM: counts a case, which has passed if there is no problem.
count() {
    is_wanted "$1" || return 0
    if [ -z "$2" ]; then
        passed=$((passed + 1))
    else
        failed=$((failed + 1))
        printf '%s: %s\n' "$1" "$2"
    fi
}

# check NAME COMMAND..: a case: the command has to succeed. What it prints is in $scratch/said, and its end is shown if it fails.
check() {
    local problem=''
    "${@:2}" > "$scratch/said" 2>&1 || problem=failed$'\n'$(tail -n 30 "$scratch/said")
    count "$1" "$problem"
}

# prints TEXT COMMAND..: whether a command prints exactly this text.
prints() {
    diff <(printf '%s\n' "$1") <(printf '%s\n' "$("${@:2}")")
}

# same WHAT GOT WANTED: a problem of the case that has begun, unless the texts are alike. Elsewhere it is a case of its own.
same() {
    local problem=''
    [ "$2" = "$3" ] || problem="'$2', not '$3'"
    if [ -z "${problems+set}" ]; then
        count "$1" "$problem"
    elif [ -n "$problem" ]; then
        problems+="  $1: $problem"$'\n'
    fi
}

# skip WHAT REASON: counts what can't be tried here, and says why.
skip() {
    skipped=$((skipped + 1))
    echo "$1: skipped, $2"
}

# skip_all WHAT REASON: ends the script, since nothing can be tried here.
skip_all() {
    skip "$@"
    summary
    exit
}

# require WHAT TOOL..: ends the script if a tool isn't on the path.
require() {
    local tool
    for tool in "${@:2}"; do
        command -v "$tool" > /dev/null || skip_all "$1" "$tool is not on the path"
    done
}

# add STATUS FILE: adds what another script counted, by the last line of its output. It returns 1, and counts a failure, if there is no
# such line, if it doesn't fit the status, or if no case ran and none was skipped.
add() {
    local line good bad
    line=$(tail -n 1 "$2")
    if [[ $line =~ ^([0-9]+)\ passed,\ ([0-9]+)\ failed(,\ [1-9][0-9]*\ skipped)?$ ]]; then
        good=${BASH_REMATCH[1]} bad=${BASH_REMATCH[2]}
        if [ $((bad > 0)) = $(($1 > 0)) ] && [ "$((good + bad))${BASH_REMATCH[3]-}" != 0 ]; then
            passed=$((passed + good)) failed=$((failed + bad))
            return
        fi
    fi
    failed=$((failed + 1))
    return 1
}

# lane NAME COMMAND..: starts a command in the background, whose cases have a folder $scratch of their own, below this one.
lane() {
    lanes+=("$1")
    in_lane "$@" > "$scratch/lane.$1.said" 2>&1 &
    processes+=("$!")
}

# in_lane NAME COMMAND..: what a lane's process does.
in_lane() {
    scratch=$scratch/lane.$1 passed=0 failed=0 skipped=0
    mkdir "$scratch" && "${@:2}"
    summary
}
lanes=() processes=()

# join_lanes: waits for the lanes, shows what each said, and adds its counts.
join_lanes() {
    local number status
    for number in "${!lanes[@]}"; do
        wait "${processes[number]}"
        status=$?
        add "$status" "$scratch/lane.${lanes[number]}.said" || echo "${lanes[number]} has no counts"
        sed '$d' "$scratch/lane.${lanes[number]}.said"
    done
    lanes=() processes=()
}

# run_parts PART..: runs parts of a script, each a function, whose variables go with it, and says how long each takes.
run_parts() {
    local part begun good bad absent
    for part; do
        [ "$(type -t "$part")" = function ] || { count "$part" 'no such part' && continue; }
        begun=$SECONDS
        rm -f "$scratch/part"
        # shellcheck disable=SC2030,SC2031 # the counts go to a file
        (
            passed=0 failed=0 skipped=0
            "$part"
            echo "$passed $failed $skipped" > "$scratch/part"
        )
        read -r good bad absent 2> /dev/null < "$scratch/part" || good=0 bad=1 absent=0
        # shellcheck disable=SC2031
        passed=$((passed + good)) failed=$((failed + bad)) skipped=$((skipped + absent))
        echo "$part: $((SECONDS - begun)) s"
    done
}

# summary: prints the last line. Returns 1 if a case failed, or if there was none.
summary() {
    if [ $((passed + failed + skipped)) -eq 0 ]; then
        failed=1
        echo 'no case ran'
    fi
    if [ "$skipped" -eq 0 ]; then
        echo "$passed passed, $failed failed"
    else
        echo "$passed passed, $failed failed, $skipped skipped"
    fi
    [ "$failed" -eq 0 ]
}

# limit_files N: from here on this subshell may have N open files. It closes those that whoever started the tests left open, since a
# CI server may leave more than N.
limit_files() {
    local file
    for file in "/proc/$BASHPID/fd"/*; do
        case ${file##*/} in [012] | 255) ;; *) eval "exec ${file##*/}>&-" ;; esac
    done
    ulimit -n "$1"
}

# inherit N COMMAND..: runs a command with N more open files.
inherit() (
    for _ in $(seq "$1"); do exec {_file}< /dev/null; done
    shift
    "$@"
)

# Tests of a shell script, which several shells run. A case has a folder of its own, $room.

# by_shells FUNCTION: calls a function for each of dash, bash and busybox sh that is installed, side by side, and adds their counts. The
# words of $shell start the shell. SHELLS, if set, names the shells instead, as SHELLS='dash bash'. STOP_EARLY, if set, ends the
# cases of a shell at the first failure.
by_shells() {
    local choice tried=() good bad counted_by_shell=yes
    for choice in ${SHELLS-dash bash busybox}; do
        shell=("$choice")
        [ "$choice" != busybox ] || shell=(busybox sh)
        if ! command -v "$choice" > /dev/null; then
            echo "${shell[*]}: skipped, it is not on the path"
            continue
        fi
        tried+=("$choice")
        room=$scratch/$choice/room
        mkdir "$scratch/$choice"
        ("$1"; end_shell) &
    done
    wait
    for choice in "${tried[@]}"; do
        read -r good bad 2> /dev/null < "$scratch/$choice/counts" && [ $((good + bad)) -gt 0 ] || good=0 bad=1
        passed=$((passed + good)) failed=$((failed + bad))
    done
}

# end_shell: ends the process that runs cases. One of `by_shells` notes its counts, and any other prints them as the last line, so that what ends
# early fails as what ends late does.
end_shell() {
    if [ -z "${counted_by_shell-}" ]; then
        summary
        exit
    fi
    echo "$passed $failed" > "${room%/*}/counts"
    exit
}

# running FOLDER: the numbers of the processes that have a folder in their words, and of those that a case there started: they have its log in
# their variables. A tool's own children name no folder.
running() {
    { pgrep -f "$1"; env -u LOG grep -lsz "^LOG=$1/" /proc/[0-9]*/environ | cut -d / -f 3; } | sort -u
}

# shown FOLDER: the same with their words.
shown() {
    local process
    for process in $(running "$1"); do echo "$process $(tr '\0' ' ' 2> /dev/null < "/proc/$process/cmdline")"; done
}

# begin NAME: begins a case, whose working directory is $room/work.
begin() {
    case_name=$1
    problems=''
    rm -rf "$room"
    mkdir -p "$room/work" "$room/tmp"
    cd "$room/work" || exit 1
}

# end_case: counts the case that has begun.
end_case() {
    local found=${problems%$'\n'}
    cd "$scratch" || exit 1
    unset problems
    count "${shell[*]}: $case_name" "${found#  }"
    [ -z "$found" ] || [ -z "${STOP_EARLY-}" ] || end_shell
}

# leaves_nothing: a problem, unless the folder for temporary files is empty.
leaves_nothing() {
    same 'files left' "$(ls -A "$room/tmp")" ''
}
