#!/usr/bin/env bash
# Tests make install and make uninstall: just the files that are due are put below PREFIX, a C program is compiled from there with what fiddlefern.pc
# says, by pkg-config where it is there and read by hand in any case, and header, archive and fiddlefern.pc have one version. Needs make.
set -u
CDPATH='' cd -P -- "$(dirname -- "${BASH_SOURCE[0]}")/.." || exit 2
command -v make >/dev/null || { echo 'make is not there: not tested' && exit 0; }

room=$(mktemp -d) || exit 2
trap 'rm -rf "$room"' EXIT
unset FIDDLEFERN_LIB_DIR MAKEFLAGS MAKELEVEL PREFIX DESTDIR
top=$PWD built=target/staticlib/libfiddlefern.a

fault() {
    printf 'FAULT: %s\n' "$1"
    cat "$room/said"
    exit 1
}

installed() { # ARGUMENT..
    make --silent install "$@" >"$room/said" 2>&1 || fault "make install $* ended with $?"
}

# The files below a folder are those of the repository that are due, and no others.
due() { # FOLDER ARCHIVE
    local file count=2
    for file in include/*.h docs/*.3; do
        cmp "$file" "$1/${file/#docs/share/man/man3}" || fault "$1 has not $file"
        count=$((count + 1))
    done
    cmp "$2" "$1/lib/libfiddlefern.a" || fault "$1 has another archive"
    [ "$(find "$1" -type f | wc -l)" -eq "$count" ] || fault "$1 has more: $(find "$1" -type f | xargs)"
}

# What a field of fiddlefern.pc says, with its variables put in: pkg-config by hand.
field() { # PREFIX FIELD
    local pc=$1/lib/pkgconfig/fiddlefern.pc text name value
    text=$(sed -n "s/^$2: //p" "$pc")
    for name in libdir includedir prefix; do
        value=$(sed -n "s/^$name=//p" "$pc")
        text=${text//"\${$name}"/"$value"}
    done
    printf '%s\n' "$text"
}

# Compiles the example and a program of versions by these flags and runs them, in a folder that has nothing of the repository.
compiles() { # WHAT VERSION FLAG..
    local said
    cp "$top/examples/c/rebuild.c" "$room/program/example.c"
    for program in example versions; do
        (cd "$room/program" && gcc -std=c99 -Wall -Wextra -pedantic -Werror $program.c "${@:3}" -o $program) >"$room/said" 2>&1 ||
            fault "$1: $program does not compile"
    done
    "$room/program/example" >"$room/said" 2>&1 || fault "$1: the example ended with $?"
    said=$("$room/program/versions")
    [ "$said" = "$2 $2" ] || fault "$1: the header and the archive say $said, and fiddlefern.pc says $2"
}

mkdir "$room/program" && cat >"$room/program/versions.c" <<'END_OF_PROGRAM'
#include "fiddlefern.h"
#include <stdio.h>
static void print(unsigned long v, const char *end) { printf("%lu.%lu.%lu%s", v >> 16, v >> 8 & 255, v & 255, end); }
int main(void) {
    print(FIDDLEFERN_VERSION, " ");
    print((unsigned long)fiddlefern_version(), "\n");
    return 0;
}
END_OF_PROGRAM

for prefix in "$room/plain" "$room/with a space"; do
    installed PREFIX="$prefix"
    due "$prefix" "$built"
    version=$(field "$prefix" Version)
    eval "flags=($(field "$prefix" Cflags) $(field "$prefix" Libs))"
    compiles 'by hand' "$version" "${flags[@]}"
    if command -v pkg-config >/dev/null; then
        export PKG_CONFIG_PATH=$prefix/lib/pkgconfig
        [ "$(pkg-config --modversion fiddlefern)" = "$version" ] || fault 'pkg-config says another version'
        eval "told=($(pkg-config --cflags --libs fiddlefern))"
        [ "${told[*]}" = "${flags[*]}" ] || fault "pkg-config says ${told[*]}, and by hand it is ${flags[*]}"
        compiles pkg-config "$version" "${told[@]}"
    fi
    touch "$prefix/lib/libother.a"
    make --silent uninstall PREFIX="$prefix" >"$room/said" 2>&1 || fault "make uninstall ended with $?"
    [ "$(find "$prefix" -type f)" = "$prefix/lib/libother.a" ] || fault "make uninstall leaves $(find "$prefix" -type f | xargs)"
done

installed DESTDIR="$room/package" PREFIX="$room/fern"
due "$room/package$room/fern" "$built"
[ ! -e "$room/fern" ] || fault 'make install writes below PREFIX alone where DESTDIR is given'
grep -qx "prefix=$room/fern" "$room/package$room/fern/lib/pkgconfig/fiddlefern.pc" || fault 'fiddlefern.pc has not the PREFIX'

# What is refused, with nothing put anywhere.
refused() { # CLUE ARGUMENT..
    ! make --silent install DESTDIR="$room/refused" "${@:2}" >"$room/said" 2>&1 || fault "make install ${*:2} ended with 0"
    grep -qF -e "$1" "$room/said" || fault "make install ${*:2} does not say: $1"
    [ ! -e "$room/refused" ] || fault "make install ${*:2} was refused and wrote something"
}
refused 'must be an absolute path' PREFIX=here
refused 'pkg-config takes no path with' PREFIX=/a\'b
mkdir "$room/copy" && cp -R Makefile tools include docs "$room/copy" && cd "$room/copy" || exit 2
refused 'libfiddlefern.a is not there'

# The archive of another folder is taken where one is named, and nothing else where it is not there.
mkdir "$room/other" && echo other >"$room/other/libfiddlefern.a" || exit 2
export FIDDLEFERN_LIB_DIR=$room/other
installed PREFIX="$room/from there"
due "$room/from there" "$room/other/libfiddlefern.a"
mkdir -p target/staticlib && echo built >"$built" && rm "$room/other/libfiddlefern.a" || exit 2
refused "$room/other/libfiddlefern.a is not there"
