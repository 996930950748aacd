#!/usr/bin/env bash
# make install: puts the headers, the archive, fiddlefern.pc for pkg-config and the man page below PREFIX; with --remove it takes just these files
# away again (make uninstall). DESTDIR stands before every path that is written, and not in fiddlefern.pc. It proves and builds nothing: the archive
# is the one in the folder that FIDDLEFERN_LIB_DIR names, else the one that make lib built.
set -u
CDPATH='' cd -P -- "$(dirname -- "${BASH_SOURCE[0]}")/.." || exit 2
shopt -s nullglob

prefix=${PREFIX:-/usr/local}
top=${DESTDIR:-}$prefix
archive=${FIDDLEFERN_LIB_DIR:-target/staticlib}/libfiddlefern.a

stop() {
    printf '%s\n' "$1" >&2
    exit 1
}

case $prefix in
*[\"\'\\\$\#]* | *$'\n'*) stop "PREFIX is $prefix, and pkg-config takes no path with quotes, backslash, dollar or hash in it" ;;
/*) ;;
*) stop "PREFIX is $prefix, and must be an absolute path" ;;
esac

# The version of the header, as MAJOR.MINOR.PATCH.
version() {
    local digits major minor patch
    digits=$(sed -nE 's/^#define FIDDLEFERN_VERSION 0x([0-9A-Fa-f]{2})([0-9A-Fa-f]{2})([0-9A-Fa-f]{2})$/\1 \2 \3/p' include/fiddlefern.h)
    [ -n "$digits" ] && read -r major minor patch <<<"$digits" && printf '%d.%d.%d\n' "0x$major" "0x$minor" "0x$patch"
}

# The text of fiddlefern.pc.
pc() {
    local text version
    version=$(version) && text=$(cat tools/fiddlefern.pc.in) || return
    text=${text//@PREFIX@/"$prefix"}
    printf '%s\n' "${text//@VERSION@/"$version"}"
}

# Puts a file below PREFIX.
put() { # FILE PLACE
    install -D -m 644 -- "$1" "$top/$2" || exit 1
    printf '%s\n' "$top/$2"
}

remove() { # PLACE..
    local place
    for place in "$@"; do rm -f -- "$top/$place" || exit 1; done
}

headers=(include/*.h) pages=(docs/*.3)
if [ "${1:-}" = --remove ]; then
    remove "${headers[@]}" lib/libfiddlefern.a lib/pkgconfig/fiddlefern.pc "${pages[@]/#docs/share/man/man3}"
    exit
fi

[ -f "$archive" ] || stop "$archive is not there: make lib builds the one in target/staticlib, and FIDDLEFERN_LIB_DIR names the folder of another one"
made=$(mktemp) || exit 2
trap 'rm -f "$made"' EXIT
pc >"$made" || stop 'include/fiddlefern.h says no version'
for header in "${headers[@]}"; do put "$header" "$header"; done
put "$archive" lib/libfiddlefern.a
put "$made" lib/pkgconfig/fiddlefern.pc
for page in "${pages[@]}"; do put "$page" "share/man/man3/${page##*/}"; done
