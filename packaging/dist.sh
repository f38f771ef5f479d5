#!/usr/bin/env bash
# Packs what anyone can build, which is plain Rust (docs/proof/PLAIN_RUST.md), and what is proved, if it is built:
#
#   dist/zigrunk-VERSION.tar.gz                the sources and the crates that they need, with a Makefile that needs cargo
#   dist/PACKAGE_VERSION_ARCHITECTURE.deb      packages of them, zigrunk, libzigrunk2 and libzigrunk-dev for amd64, and for arm64 if rustc and gcc
#                                              can make it; and python3-zigrunk
#   dist/zigrunk-VERSION-py3-none-PLATFORM.whl  the package for Python with the library of each
#   dist/zigrunk-VERSION-x86_64-linux.tar.gz   the proved cudaplan with the others, if crates/cudaplan/out has what these sources make
#   dist/SHA256SUMS
#
# packaging/dist.sh --sources packs the first alone, and builds nothing.
#
# It proves nothing. Programs are static, so that they run on every Linux. Two runs from one commit give the same bytes: files have
# the time SOURCE_DATE_EPOCH, which is that of the commit unless it is set, and all is built in out/dist.
set -eu
cd "$(dirname "$0")/.."
umask 022
export LC_ALL=C TZ=UTC
version=$(cat VERSION)
export SOURCE_DATE_EPOCH=${SOURCE_DATE_EPOCH:-$(git log -1 --format=%ct)}
top=$PWD
name=zigrunk-$version
sources=$top/out/dist/$name
scratch=$(mktemp -d)
trap 'rm -rf "$scratch"' EXIT
rm -rf dist
mkdir -p dist out/dist

# date_all FOLDER: gives everything in a folder the one time.
date_all() {
    find "$1" -exec touch -h -d "@$SOURCE_DATE_EPOCH" {} +
}

# pack FOLDER: a tarball of a folder, in dist.
pack() {
    date_all "$1"
    tar -c -C "$(dirname "$1")" --sort=name --format=ustar --owner=0 --group=0 --numeric-owner "$(basename "$1")" | gzip -n -9 > "dist/$(basename "$1").tar.gz"
}

# prune_vendor: takes out of the sources' vendor what their Cargo.lock doesn't name. `make vendor REMOTE=yes` leaves five times as many crates.
prune_vendor() {
    local crate
    packaging/locked.sh "$sources/Cargo.lock" > "$scratch/locked"
    for crate in "$sources"/vendor/*; do
        grep -qxF "${crate##*/}" "$scratch/locked" || rm -r "$crate"
    done
}

# write_sources: the tree of the source tarball, which is the workspace of plain Rust and what is installed with it.
write_sources() {
    local file
    rm -rf "$sources/vendor"
    mkdir -p "$sources"
    cp -r vendor "$sources/vendor"
    cargo run --quiet --manifest-path rust/Cargo.toml -p eraser -- --crates=vendor . "$sources"
    prune_vendor
    git ls-files README.md CHANGELOG.md LICENSE NOTICE VERSION bindings/c bindings/cmake bindings/cpp bindings/go bindings/python completions demo docs examples man tests/drivers/test_plans/data/dry_runs | while read -r file; do
        mkdir -p "$sources/$(dirname "$file")"
        cp "$file" "$sources/$file"
    done
    cp tests/drivers/test_plans/data/dry_runs/one_target.dry[12] "$sources/demo"
    cp packaging/install.mk packaging/pages.sh "$sources"
    cp packaging/source.mk "$sources/Makefile"
    packaging/pages.sh sources "$sources"
}

# can_build TARGET PREFIX: whether rustc has the library of a target, and gcc its tools.
can_build() {
    [ -d "$(rustc --print target-libdir --target "$1")" ] && command -v "$2gcc" > /dev/null
}

# build TARGET PREFIX: static programs, and the archive of the library, in the sources' folder `target`.
build() {
    local linker
    linker=CARGO_TARGET_$(tr a-z- A-Z_ <<< "$1")_LINKER
    (
        cd "$sources"
        export "$linker=$2gcc" CARGO_TARGET_DIR="$top/out/dist/target"
        words=(build --quiet --release --offline --locked --target "$1")
        cargo "${words[@]}" -p capi
        RUSTFLAGS='-C target-feature=+crt-static -C strip=symbols' cargo "${words[@]}" --target-dir "$top/out/dist/static" --bins
    )
}

# install TARGET PREFIX ROOT FOLDER: what was built for a target.
install_built() {
    local made=$top/out/dist
    make -s -C "$sources" install built="$made/static/$1/release" archive="$made/target/$1/release/libzigrunk_c.a" programs_from=: library_from=: \
        CC="$2gcc" LD="$2ld" AR="$2ar" OBJCOPY="$2objcopy" DESTDIR="$3" PREFIX="$4"
}

# newest_glibc FILE: the newest version of glibc that a file's symbols ask for.
newest_glibc() {
    readelf -V "$1" | sed -n 's/.*Name: GLIBC_\([0-9.]*\) .*/\1/p' | sort -V | tail -n 1
}

# control PACKAGE ARCHITECTURE SECTION [FIELD..]: the control file of a package, whose files are in $scratch, but for what it is.
control() {
    printf '%s\n' "Package: $1" "Version: $version" "Architecture: $2" 'Maintainer: Zigrunk maintainers <maintainers@users.noreply.zigrunk.example>' \
        "Installed-Size: $(find "$scratch/$1" -type f -printf '%s\n' | awk '{ size += $1 } END { print int(size / 1024) + 1 }')" \
        "Section: $3" 'Priority: optional' "${@:4}"
}

# about: what a control file says at its end of the whole.
about() {
    cat << 'END'
 nvcc is a driver: for each GPU architecture it runs a preprocessor, cicc and
 ptxas, and then joins the results into one object. Zigrunk parses nvcc's two
 dry runs and splits the call into those commands, so that independent ones run
 in parallel and cacheable ones go through a compiler cache.
 .
END
}

# needs_libc_alone FILE: whether a shared object needs nothing but glibc, which Depends names.
needs_libc_alone() {
    readelf -d "$1" | sed -n 's/.*(NEEDED).*\[\(.*\)\]/\1/p' | grep -vE '^(libc\.so\.6|libpthread\.so\.0|ld-linux.*)$' && return 1
    return 0
}

# debianize ROOT TARGET: an installation, as Debian has manual pages, completions, shared objects, documents and the files of pkg-config. Debian has
# our license itself.
debianize() {
    local root=$1 page libraries
    libraries=$root/usr/lib/${2/-unknown-/-}
    mkdir -p "$libraries"
    mv "$root/usr/lib/pkgconfig" "$libraries"
    sed -i 's,^prefix=.*,&/..,' "$libraries/pkgconfig/zigrunk.pc"
    mkdir -p "$root/usr/share/zsh/vendor-completions"
    mv "$root/usr/share/zsh/site-functions/_zigrunk" "$root/usr/share/zsh/vendor-completions"
    rmdir "$root/usr/share/zsh/site-functions"
    chmod 644 "$root/usr/lib/libzigrunk.so.2"
    for page in "$root"/usr/share/man/man[13]/*; do
        if [ -h "$page" ]; then
            ln -s "$(readlink "$page").gz" "$page.gz" && rm "$page"
        else
            gzip -n -9 "$page"
        fi
    done
    sed -i 's,\[LICENSE\](LICENSE),/usr/share/common-licenses/Apache-2.0,' "$root/usr/share/doc/zigrunk/README.md"
    rm "$root/usr/share/doc/zigrunk/LICENSE"
}

# changes PACKAGE: the changelog of a package, which has the part of CHANGELOG.md on this version.
changes() {
    printf '%s (%s) unstable; urgency=medium\n\n' "$1" "$version"
    sed -n "/^## \[$version\]/,/^## \[/p" CHANGELOG.md | sed -E '/^## /d; s/\[([^]]*)\]\([^)]*\)/\1/g' |
        awk 'function put() { if (item != "") print item; item = "" }
            /^### / { put(); item = "  * " substr($0, 5) ":"; next }
            /^- / { put(); item = "    - " substr($0, 3); next }
            /^  / { item = item " " substr($0, 3); next }
            { put() }
            END { put() }' |
        while IFS= read -r line; do fold -s -w 72 <<< "$line" | sed '2,$s/^/      /; s/ *$//'; done
    printf '\n -- Zigrunk maintainers <maintainers@users.noreply.zigrunk.example>  %s\n' "$(date -u -R -d "@$SOURCE_DATE_EPOCH")"
}

# begin PACKAGE ROOT PATH..: begins a package with these files of an installation.
begin() {
    local path
    mkdir -p "$scratch/$1/DEBIAN" "$scratch/$1/usr/share/doc/$1"
    for path in "${@:3}"; do
        mkdir -p "$scratch/$1/$(dirname "$path")"
        cp -a "$2/$path" "$scratch/$1/$(dirname "$path")"
    done
    install -m 644 packaging/copyright "$scratch/$1/usr/share/doc/$1"
    changes "$1" | gzip -n -9 > "$scratch/$1/usr/share/doc/$1/changelog.gz"
}

# end PACKAGE ARCHITECTURE: makes a package of its files.
end() {
    (cd "$scratch/$1" && find usr -type f -print0 | sort -z | xargs -0 md5sum > DEBIAN/md5sums)
    date_all "$scratch/$1"
    dpkg-deb --root-owner-group -Zxz --build "$scratch/$1" "dist/$1_${version}_$2.deb" > /dev/null
    rm -r "${scratch:?}/$1"
}

# of_programs ROOT ARCHITECTURE: the package with programs and pages.
of_programs() {
    local program
    begin zigrunk "$1" usr/bin usr/share/man/man1 usr/share/doc/zigrunk usr/share/zigrunk/examples usr/share/zsh usr/share/bash-completion
    mkdir -p "$scratch/zigrunk/usr/share/lintian/overrides"
    # (lintian takes a static program that can be anywhere in memory for a library, too)
    for program in cudaplan zigrunk; do
        printf 'zigrunk: %s [usr/bin/%s]\n' statically-linked-binary "$program" shared-library-lacks-prerequisites "$program"
    done > "$scratch/zigrunk/usr/share/lintian/overrides/zigrunk"
    {
        control zigrunk "$2" devel 'Suggests: libzigrunk-dev, python3, sccache' 'Description: split nvcc calls into their commands'
        about
        printf '%s\n' ' zigrunk-nvcc does so in place of nvcc, in one program; zigrunk writes Ninja' ' files, shell scripts and JSON.'
    } > "$scratch/zigrunk/DEBIAN/control"
    end zigrunk "$2"
}

# of_library ROOT ARCHITECTURE TARGET: the packages with the library, and with what its users need.
of_library() {
    begin libzigrunk2 "$1" usr/lib/libzigrunk.so.2
    echo "libzigrunk 2 libzigrunk2 (>= $version)" > "$scratch/libzigrunk2/DEBIAN/shlibs"
    echo 'activate-noawait ldconfig' > "$scratch/libzigrunk2/DEBIAN/triggers"
    {
        control libzigrunk2 "$2" libs "Depends: libc6 (>= $(newest_glibc "$1/usr/lib/libzigrunk.so.2"))" 'Description: plan the commands of nvcc calls, shared library'
        about
        echo ' This is the library for C, C++, Go and Python.'
    } > "$scratch/libzigrunk2/DEBIAN/control"
    end libzigrunk2 "$2"
    begin libzigrunk-dev "$1" usr/include usr/lib/libzigrunk.a usr/lib/libzigrunk.so "usr/lib/${3/-unknown-/-}" usr/lib/cmake usr/share/man/man3 \
        usr/share/zigrunk/c usr/share/zigrunk/cpp usr/share/zigrunk/go usr/share/zigrunk/python usr/share/zigrunk/rust
    {
        control libzigrunk-dev "$2" libdevel "Depends: libzigrunk2 (= $version)" 'Description: plan the commands of nvcc calls, development files'
        about
        printf '%s\n' ' These are header, archive, the layers for C++, Go and Python, the crate for' ' Rust, and examples.'
    } > "$scratch/libzigrunk-dev/DEBIAN/control"
    end libzigrunk-dev "$2"
}

# of_python ROOT: the package for Python, the same for each architecture.
of_python() {
    local folder=$scratch/python3-zigrunk/usr/lib/python3/dist-packages
    begin python3-zigrunk "$1"
    mkdir -p "$folder"
    cp -r "$1/usr/share/zigrunk/python/zigrunk" "$folder"
    printf '%s\n' '#!/bin/sh' 'set -e' 'if command -v py3compile > /dev/null 2>&1; then py3compile -p python3-zigrunk; fi' > "$scratch/python3-zigrunk/DEBIAN/postinst"
    printf '%s\n' '#!/bin/sh' 'set -e' 'if command -v py3clean > /dev/null 2>&1; then py3clean -p python3-zigrunk; fi' > "$scratch/python3-zigrunk/DEBIAN/prerm"
    chmod 755 "$scratch/python3-zigrunk/DEBIAN/postinst" "$scratch/python3-zigrunk/DEBIAN/prerm"
    {
        control python3-zigrunk all python "Depends: libzigrunk2 (>= $version), python3:any" 'Description: plan the commands of nvcc calls, Python module'
        about
        echo ' This is the module for Python.'
    } > "$scratch/python3-zigrunk/DEBIAN/control"
    end python3-zigrunk all
}

# package ARCHITECTURE TARGET PREFIX: the Debian packages of an architecture, and a wheel with its library.
package() {
    local root=$scratch/root.$1
    build "$2" "$3"
    OLDER_GLIBC=yes install_built "$2" "$3" "$root" /usr
    debianize "$root" "$2"
    if ! needs_libc_alone "$root/usr/lib/libzigrunk.so.2"; then
        echo 'Depends names libc6, but libzigrunk.so.2 needs the above too' >&2
        exit 1
    fi
    bindings/python/wheel.py "$root/usr/lib/libzigrunk.so.2" dist > /dev/null
    of_programs "$root" "$1"
    of_library "$root" "$1" "$2"
    [ -f "dist/python3-zigrunk_${version}_all.deb" ] || of_python "$root"
}

# pack_proved: the proved program, and the others. The kit's linker asks for symbols of glibc 2.34, so its object file is linked once more.
pack_proved() {
    local kit folder=$scratch/$name-x86_64-linux
    kit=$(dirname "$(dirname "$(readlink -f "$(command -v rt)")")")
    OLDER_GLIBC=yes make -s install BUILT=proved DESTDIR="$scratch/" PREFIX="$(basename "$folder")"
    cc -static -s -o "$folder/bin/cudaplan" crates/cudaplan/out/cudaplan.o "$kit/c/libos_c.a" "$kit/c/liblibc_c.a"
    install -m 755 out/dist/static/x86_64-unknown-linux-gnu/release/zigrunk-driver "$folder/bin/zigrunk"
    install -m 644 packaging/README LICENSE NOTICE CHANGELOG.md "$folder"
    pack "$folder"
}

[ -d vendor ] || packaging/vendor.sh
write_sources
pack "$sources"
[ "${1-}" != --sources ] || exit 0
package amd64 x86_64-unknown-linux-gnu ''
if can_build aarch64-unknown-linux-gnu aarch64-linux-gnu-; then
    package arm64 aarch64-unknown-linux-gnu aarch64-linux-gnu-
else
    echo 'no package for arm64: rustc lacks its library, or there is no aarch64-linux-gnu-gcc'
fi
# (rt ci leaves no object files of programs that an earlier run proved)
if .ci/built check programs && [ -s crates/cudaplan/out/cudaplan.o ]; then
    pack_proved
else
    echo "no $name-x86_64-linux.tar.gz: crates/cudaplan/out lacks what these sources make; make build proves and builds it"
fi
(cd dist && sha256sum -- *.tar.gz *.deb *.whl > SHA256SUMS)
ls -l dist
