#!/bin/sh
# Installs the library for C below a folder, with what pkg-config and CMake need, or removes it.
#
# usage: crates/data_encoding_c/install.sh [--libdir LIBDIR] DIR PREFIX
#        crates/data_encoding_c/install.sh [--libdir LIBDIR] --remove PREFIX
#
# DIR is the folder in which build.sh built the library; in a release, where the library lies beside
# this script, it need not be given. LIBDIR is the folder for libraries below PREFIX: lib, unless one
# such as lib/x86_64-linux-gnu is given. What is below PREFIX may be moved later. Prints what was
# installed. Folders that were created are left when the files are removed. If DESTDIR is set,
# everything is installed below that folder, as packages need it.
set -eu

words='install.sh [--libdir LIBDIR] DIR PREFIX, or install.sh [--libdir LIBDIR] --remove PREFIX'
# This script may be called through a symbolic link.
here=$(dirname "$(readlink -f "$0")")
. "$here/../install-common.sh"

# Each line: a file of DIR, its mode, and where it goes below PREFIX.
files() {
    cat <<LINES
libdata_encoding.a 644 $libdir
$shared 755 $libdir
data_encoding.h 644 include
data_encoding.pc 644 $libdir/pkgconfig
data_encoding-config.cmake 644 $libdir/cmake/data_encoding
data_encoding-config-version.cmake 644 $libdir/cmake/data_encoding
LICENSE 644 share/doc/data_encoding
LINES
}

# put FILE MODE FOLDER: installs a file. Those that name folders are beside the others in DIR, but
# not below PREFIX, and are changed.
put() {
    mkdir -p "$prefix/$3"
    install -m "$2" "$dir/$1" "$prefix/$3/$1"
    echo "installed $prefix/$3/$1"
    case $1 in
    *.pc)
        moved="s:^prefix=.*:&/..$up:; s:^libdir=.*:&/$libdir:; s:^includedir=.*:&/include:"
        ;;
    *-config.cmake)
        moved="s:^\\(set(data_encoding_libdir .*\\)\"):\\1/../..\"):
            s:^\\(set(data_encoding_includedir .*\\)\"):\\1/../..$up/include\"):"
        ;;
    *) return 0 ;;
    esac
    sed "$moved" "$dir/$1" >"$prefix/$3/$1"
}

libdir=lib
if [ "${1-}" = --libdir ]; then
    [ $# -ge 2 ] || usage
    libdir=$2
    shift 2
fi
case /$libdir/ in
*//* | */./* | */../* | *[!A-Za-z0-9._/-]*)
    echo "install.sh: no folder below PREFIX: $libdir" >&2
    exit 2
    ;;
esac
# From $libdir to PREFIX.
up=$(printf %s "/$libdir" | sed 's:/[^/]*:/..:g')

if [ $# = 1 ] && [ -f "$here/libdata_encoding.a" ]; then
    set -- "$here" "$1"
fi
[ $# = 2 ] || usage
case $2 in
'' | -*) usage ;;
esac
case $1 in
--remove) dir= ;;
'' | -*) usage ;;
*) dir=$(absolute "$1") ;;
esac
prefix=${DESTDIR:+$(absolute "$DESTDIR")}$(absolute "$2")
prefix=${prefix%/}

header=$here/data_encoding.h
[ -f "$header" ] || header=$here/include/data_encoding.h
shared=libdata_encoding.so.$(sed -n 's/^#define DE_INTERFACE //p' "$header")
link=$prefix/$libdir/libdata_encoding.so
if [ -z "$dir" ]; then
    files | while read -r file _ folder; do rm -f "$prefix/$folder/$file"; done
    rm -f "$link"
    exit
fi
files | while read -r file _; do
    if [ ! -f "$dir/$file" ]; then
        echo "no $file in $dir: crates/data_encoding_c/build.sh makes it" >&2
        exit 1
    fi
done
files | while read -r file mode folder; do put "$file" "$mode" "$folder"; done
ln -sf "$shared" "$link"
echo "installed $link"
