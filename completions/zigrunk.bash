# Completion for zigrunk, cudaplan and zigrunk-nvcc in bash. First words and options are those that the help of the program has, so they are always
# its own.

# Offers the words of $1 that begin like the current one.
_zigrunk_words() {
    mapfile -t COMPREPLY < <(compgen -W "$1" -- "$current")
}

_zigrunk_files() {
    compopt -o filenames
    mapfile -t COMPREPLY < <(compgen -f -- "$current")
}

_zigrunk_directories() {
    compopt -o filenames
    mapfile -t COMPREPLY < <(compgen -d -- "$current")
}

_zigrunk_flags='-c -dc -dw -ptx -cubin -fatbin -optix-ir'
_zigrunk_suffixes='.ptx .cubin .fatbin .fatbin.c .module_id .cudafe1.gpu'

# The first words, as the help of the program $1 lists them.
_zigrunk_first() {
    "$1" help 2> /dev/null | sed -n 's/^  \([a-z-]*\)  .*/\1/p'
}

# The options with which lines of the help $1 begin.
_zigrunk_options() {
    sed -n 's/^\(-[^ ,]*\), \(--[a-z-]*\).*/\1 \2/p; s/^\(-[^ ,]*\) .*/\1/p' <<< "$1"
}

# The words with which its lines begin behind the first empty one.
_zigrunk_places() {
    sed -n '1,/^$/d; s/^\([a-z]*\) .*/\1/p' <<< "$1"
}

# What stands behind an option in the help $1, as DIR behind --cwd: $2 is the word before, $3 that before it.
_zigrunk_value() {
    awk -v option="$2" -v earlier="$3" '$1 == option && $2 ~ /^[A-Z]/ { print $2 } $1 == earlier && $2 $3 ~ /^[A-Z]+$/ { print $3 }' <<< "$1"
}

_zigrunk() {
    local current=${COMP_WORDS[COMP_CWORD]} word=${COMP_WORDS[1]-} help
    COMPREPLY=()
    if [ "$COMP_CWORD" -eq 1 ]; then
        _zigrunk_words "$(_zigrunk_first "$1") --help --version"
        return
    fi
    [ "$word" != nvcc ] || { _zigrunk_files && return; }
    help=$("$1" help "$word" 2> /dev/null)
    case $word,$(_zigrunk_value "$help" "${COMP_WORDS[COMP_CWORD - 1]}" "${COMP_WORDS[COMP_CWORD - 2]}") in
    *,DIR) _zigrunk_directories ;;
    *,FLAG) _zigrunk_words "$_zigrunk_flags" ;;
    plan,S) _zigrunk_words "$_zigrunk_suffixes" ;;
    *,FILE | *,OUT | *,NVCC) _zigrunk_files ;;
    *,?*) ;;
    *)
        if [[ $current == -* ]]; then
            _zigrunk_words "$(_zigrunk_options "$help")"
        elif [ "$word" = plan ] && { [ "$COMP_CWORD" -eq 2 ] || [[ " ${COMP_WORDS[*]} " == *' --dry-runs '* ]]; }; then
            _zigrunk_words "$("$1" plan --formats 2> /dev/null)"
        elif [ "$word" = help ]; then
            _zigrunk_words "$(_zigrunk_first "$1")"
        elif [ "$word" = cache ] && [ "$COMP_CWORD" -eq 2 ]; then
            _zigrunk_words "$(_zigrunk_places "$help")"
        else
            _zigrunk_files
        fi
        ;;
    esac
}

_cudaplan() {
    local current=${COMP_WORDS[COMP_CWORD]} place=$COMP_CWORD
    COMPREPLY=()
    case $place,${COMP_WORDS[1]-} in
    1,*) _zigrunk_words 'line plan' ;;
    2,line) _zigrunk_words 'cicc cudafe++ ptxas' ;;
    3,line | 2,plan | 3,plan) _zigrunk_directories ;;
    4,plan) _zigrunk_words "$_zigrunk_flags" ;;
    *,line | 5,plan | 6,plan) _zigrunk_files ;;
    *) _zigrunk_words "$_zigrunk_suffixes" ;;
    esac
}

complete -F _zigrunk zigrunk
complete -F _cudaplan cudaplan
complete -o default zigrunk-nvcc
