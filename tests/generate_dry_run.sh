#!/usr/bin/env bash
# Writes a dry run to standard output: a line that sets PATH, and then so many command lines, with as many generated
# names. Each four lines are one kernel's: its step, cicc, ptxas and host compiler.
#
#   tests/generate_dry_run.sh LINES [PREFIX [NAMES [BYTES]]]
#
#     LINES     a multiple of four
#     PREFIX    stands before each kernel's name in words that refer to its generated files, as `-I=`; none if empty
#     NAMES     how many generated names there are, a multiple of four: the kernels come again in turn; LINES if empty
#     BYTES     how long a line is, about: words of some twenty bytes fill it up; no such words unless given
set -eu
lines=${1:?how many lines?}
prefix=${2-}
names=${3:-$lines}
bytes=${4:-0}
if [ $((lines % 4)) -ne 0 ] || [ $((names % 4)) -ne 0 ] || [ "$names" -eq 0 ]; then
    echo 'the numbers of lines and of names are multiples of four' >&2
    exit 2
fi
fill=
for ((word = 0; ${#fill} + 70 < bytes; word++)); do
    fill+="-I/opt/include/part$word "
done
echo '#$ PATH=/b'
for ((kernel = 0; kernel < lines / 4; kernel++)); do
    name=kernel$((kernel % (names / 4)))
    echo "#\$ gcc -D__NVCC__ -E ${fill}kernel.cu -o $name.cpp1.ii"
    echo "#\$ cicc ${fill}--gen_c_file_name $name.cudafe1.c --stub_file_name $name.cudafe1.stub.c $name.cpp1.ii -o $name.ptx"
    echo "#\$ ptxas -arch=sm_80 $fill$name.ptx -o $name.cubin"
    echo "#\$ gcc -D__NVCC__ -c $fill${prefix:+$prefix$name.cudafe1.c }$name.cudafe1.cpp -o $name.o"
done
