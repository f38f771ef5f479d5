#!/bin/sh
# library.sh ARCHIVE FOLDER: makes libzigrunk in FOLDER, with its headers and the files of pkg-config and CMake, of the archive that cargo leaves in
# out/rust/target/release (libzigrunk_c.a).
#
# With OLDER_GLIBC, the shared object runs with glibc 2.28 and newer; otherwise with the glibc of the machine that links it, and newer.
#
# The names of that archive are all global, and it has Rust's whole library, most of which nothing here needs. So it becomes one object, in which only
# the functions of the header are.
set -eu
archive=$(realpath "$1")
folder=$(realpath -m "$2")
cd "$(dirname "$0")"
mkdir -p "$folder/lib/pkgconfig" "$folder/lib/cmake/zigrunk" "$folder/include"
work=$(mktemp -d)
trap 'rm -rf "$work"' EXIT

# So that a cross build can name those of its target.
: "${LD:=ld}" "${AR:=ar}" "${OBJCOPY:=objcopy}"
grep -o '\bzigrunk_[a-z_0-9]*(' zigrunk.h | tr -d '(' | LC_ALL=C sort -u > "$work/exports"
{ echo 'ZIGRUNK_2 { global:' && sed 's/$/;/' "$work/exports" && echo 'local: *; };'; } > "$work/map"
# shellcheck disable=SC2046 # a list of words
"$LD" -r -z noexecstack --gc-sections --force-group-allocation $(sed 's/^/-u /' "$work/exports") -o "$work/whole.o" "$archive"
# (Debian's rustc leaves LLVM's own form of Rust's library in these sections, which other versions of LLVM stop at)
"$OBJCOPY" --keep-global-symbols="$work/exports" --strip-unneeded --remove-section=.llvmbc --remove-section=.llvmcmd \
    "$work/whole.o" "$work/zigrunk.o"

rm -f "$folder/lib/libzigrunk.a"
"$AR" rcsD "$folder/lib/libzigrunk.a" "$work/zigrunk.o"
# Before 2.34, glibc had threads in a library of their own, which newer ones still have in name. The linker takes the names that are wanted from a
# stand-in for it, so that it asks for their first version. Some archives want them weakly alone, for which the linker keeps no library by itself.
set --
if [ -n "${OLDER_GLIBC-}" ]; then
    case $(${CC:-cc} -dumpmachine) in x86_64*) first=GLIBC_2.2.5 ;; *) first=GLIBC_2.17 ;; esac
    echo "$first { global: *; };" > "$work/threads"
    for name in once key_create key_delete setspecific getspecific; do echo "void pthread_$name(void) {}"; done > "$work/threads.c"
    echo 'void __pthread_key_create(void) {}' >> "$work/threads.c"
    ${CC:-cc} -shared -nostdlib -fno-builtin -w -o "$work/libpthread.so.0" "$work/threads.c" -Wl,-soname,libpthread.so.0 \
        -Wl,--version-script="$work/threads"
    ${CC:-cc} -O2 -fPIC -c -o "$work/older_glibc.o" older_glibc.c
    set -- "$work/older_glibc.o" -Wl,--no-as-needed "$work/libpthread.so.0"
fi
${CC:-cc} -shared -o "$folder/lib/libzigrunk.so.2" "$work/zigrunk.o" "$@" -s -Wl,--gc-sections \
    -Wl,-soname,libzigrunk.so.2 -Wl,--version-script="$work/map" -static-libgcc -Wl,--no-undefined -Wl,-z,relro,-z,now,-z,noexecstack
ln -sf libzigrunk.so.2 "$folder/lib/libzigrunk.so"
cp zigrunk.h ../cpp/zigrunk.hpp "$folder/include"
version=$(cat ../../VERSION)
cp ../cmake/zigrunk-config.cmake "$folder/lib/cmake/zigrunk"
cat > "$folder/lib/cmake/zigrunk/zigrunk-config-version.cmake" << END
set(PACKAGE_VERSION $version)
if(PACKAGE_FIND_VERSION VERSION_EQUAL PACKAGE_VERSION)
  set(PACKAGE_VERSION_EXACT TRUE)
endif()
if(NOT PACKAGE_FIND_VERSION VERSION_GREATER PACKAGE_VERSION)
  set(PACKAGE_VERSION_COMPATIBLE TRUE)
endif()
END
cat > "$folder/lib/pkgconfig/zigrunk.pc" << END
prefix=\${pcfiledir}/../..
libdir=\${prefix}/lib

Name: zigrunk
Description: Plans the commands of one nvcc call
Version: $version
Cflags: -I\${prefix}/include
Libs: -L\${libdir} -lzigrunk
Libs.private: -pthread
END
