# A folder in which nvcc and its tools are stand-ins, with the stored dry runs as if they were made there. Sourced by the scripts that test libzigrunk
# or the crate for Rust, from the top of the repository.
# shellcheck shell=bash

# misuse_rows: the rows of the table of misuses, with the file of words in place of the words.
misuse_rows() {
    grep -v '^#' "${top:-$PWD}/tests/callers/misuses.txt" | awk '{ print $1, $2, $3, $4, $5, $6, $7, $8, (NF > 8 ? $1 : "usual") ".words" }'
}

# misuse_words ROOM: the files of words, which the table has as a shell reads them.
misuse_words() {
    local name words
    words_of "$1/usual.words" -c kernel.cu -o kernel.o
    while read -r name _ _ _ _ _ _ _ words; do
        [ -z "$words" ] || eval "words_of '$1/$name.words' $words"
    done < <(grep -v '^#' "${top:-$PWD}/tests/callers/misuses.txt")
}

# words_of FILE WORD..: a file of words, each with a NUL behind it.
words_of() { printf '%s\0' "${@:2}" > "$1"; }

# real_rows ROOM: puts the stored dry runs of all real calls into a room, and prints a row as in the table for each, with the line that made them.
real_rows() {
    local flag stored name source product
    for flag in tests/drivers/test_plans/data/dry_runs/*.flag tests/drivers/test_plans/data/dry_runs/*/*.flag; do
        stored=${flag#tests/drivers/test_plans/data/dry_runs/} stored=${stored%.flag}
        name=${stored/\//_}
        in_room "$1" "$name" "$stored"
        # (a product that isn't an object was in the directory for temporary files, since these calls named none)
        sed -i "\$s,\(-o \|--create=\)\"\($1/t/\)*\(k\.[^o\"][^\"]*\|k\.optixir\)\",\1\"$1/w/\3\"," "$1/$name".dry[12]
        own_of "$1" "$name"
        source=$(grep -o 'orig_src_file_name "[^"]*"' "$1/$name.dry1" | head -n 1 | cut -d '"' -f 2)
        product=$(tail -n 1 "$1/$name.dry1" | grep -oE '(-o |--create=)"[^"]*"' | cut -d '"' -f 2)
        # shellcheck disable=SC2046 # no word where there is no flag
        words_of "$1/$name.words" $(cat "$flag") "$source" -o "$product"
        echo "$name t $name.dry1 $name.dry2 - - - $name.own $name.words"
    done
}

# made_calls ROOM PROGRAM..: what a program says of calls whose dry runs it makes: by the stand-in for nvcc, which says what it sees of a variable, by one
# that isn't there, one that fails, and one that prints nothing.
made_calls() (
    cd "$1/w" || exit
    for nvcc in "$1/bin/nvcc" /no/nvcc /bin/false /bin/true; do
        echo "== made by ${nvcc##*/}"
        "${@:2}" --call "$1/t" "$nvcc" -c kernel.cu -o kernel.o
    done
)

# are_answered ROWS ANSWERS: whether the statuses and places that answers.c says of rows of the table are those of the table.
are_answered() {
    diff <(awk '{ print $1, $5, $6, $7 }' "$1") <(awk '/^== / { name = $2 } open && /^refused / && !planned { end = $2 " " $3 " " $4 } /^command / { planned = 1 }
        { last[name] = end } /^without / { open = 0 } /^== / { planned = 0; open = 1; end = "0 0 0"; order[++count] = name }
        END { for (i = 1; i <= count; i++) print order[i], last[order[i]] }' "$2")
}

# in_room ROOM NAME FILE..: stored dry runs as NAME.dry1 and NAME.dry2, with the room's paths.
in_room() {
    local run
    for run in 1 2; do
        sed "s,^#[$] PATH=.*,#\$ PATH=$1/bin,; s,/opt/cuda/bin/../nvvm/bin,$1/bin,g; s,/usr/lib/nvidia-cuda-toolkit/bin,$1/bin,g; s,\([\"=]\)/t/,\1$1/t/,g; s,\"/w/,\"$1/w/,g" \
            "tests/drivers/test_plans/data/dry_runs/$3.dry$run" | tr -d '\r' |
            sed "s,\"$1/w/kernel.cu\",\"kernel.cu\",g; s,-o \"[^\"]*kernel.o\",-o \"kernel.o\",; s,\"$1/w/kernel.cu,\"kernel.cu," > "$1/$2.dry$run"
    done
}

# own_of ROOM NAME: the dry run of a line as it is, beside those that are planned: its generated files are temporary.
own_of() {
    sed 's,\([="]\)\(k\(ernel\)*\.\(cpp[14]\|cudafe1\|module_id\|fatbin\|ptx\|compute_\|sm_\)\),\1/tmp/tmpxft_000066f5_00000000-6_\2,g; s, --create="k[^"]*",,' \
        "$1/$2.dry1" > "$1/$2.own"
}

# edited ROOM NAME SCRIPT [ONE]: the dry runs `one`, with a change.
edited() {
    local run
    for run in 1 2; do
        sed "$3" "$1/one.dry$run" > "$1/$2.dry$run"
    done
}

# make_room ROOM: the folder.
make_room() {
    local tool
    mkdir -p "$1/bin" "$1/w" "$1/t/t" "$1/u"
    ln -s t "$1/link"
    ln -s w "$1/sources"
    touch "$1/w/kernel.cu" "$1/u/kernel.cu" "$1/w/k.cu"
    misuse_words "$1"
    for tool in gcc cicc ptxas fatbinary nvlink rm; do
        printf '#!/bin/sh\n' > "$1/bin/$tool"
    done
    cp "$(command -v ls)" "$1/bin/cudafe++"
    in_room "$1" one one_target
    in_room "$1" two two_targets
    in_room "$1" ptx only_ptx
    own_of "$1" one
    own_of "$1" two
    sed '25s/$/ -DMORE/' "$1/one.own" > "$1/other.own"
    edited "$1" other 's,kernel\.cu,other.cu,g'
    edited "$1" product 's,"kernel\.o","other.o",'
    edited "$1" less '/ptxas -arch/d'
    edited "$1" bare '/^#[$] fatbinary /d'
    edited "$1" elsewhere "s,orig_src_path_name \"[^\"]*\",orig_src_path_name \"$1/u/kernel.cu\","
    edited "$1" linked "s,orig_src_path_name \"[^\"]*\",orig_src_path_name \"$1/sources/kernel.cu\","
    own_of "$1" linked
    edited "$1" more '25s/$/ -DMORE/'
    cp "$1/one.dry1" "$1/more.dry1"
    edited "$1" quote "\$a#\$ gcc 'open"
    edited "$1" bytes $'$a#$ gcc \xff'
    edited "$1" long "s/ -D__NVCC__ / -D__NVCC__ -DA=$(printf %070000d 0) /"
    own_of "$1" long
    edited "$1" none 's,^#\$ ptxas ,#$ ptxas_of_nobody ,'
    sed '$d' "$1/one.dry2" > "$1/short.dry2"
    : > "$1/empty"
    echo 'nvcc fatal   : none' > "$1/message"
    # shellcheck disable=SC2016 # the stand-in's own
    printf '%s\n' '#!/bin/sh' "echo \"\$*\" >> '$1/words'" 'tmp=' 'run=own' \
        '[ -z "${SEEN-}" ] || echo "#\$ SEEN=$SEEN" >&2' \
        'while [ $# -gt 0 ]; do case $1 in --keep-dir) tmp=$2 run=dry2 ;; --keep) [ "$run" = dry2 ] || run=dry1 ;; esac; shift; done' \
        "sed \"s,$1/t/,\$tmp/,g\" '$1/one.'\$run >&2" > "$1/bin/nvcc"
    chmod +x "$1"/bin/*
}

# moved_room ROOM PATH: the folder for another root, where it has this path.
moved_room() {
    make_room "$1"
    grep -rlF "$1" "$1" | xargs sed -i "s,$1,$2,g"
}
