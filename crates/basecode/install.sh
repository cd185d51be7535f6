#!/bin/sh
# Installs basecode, its manual page and its completions below a folder, or removes them.
#
# usage: crates/basecode/install.sh PREFIX
#        crates/basecode/install.sh --cpu NAME PREFIX
#        crates/basecode/install.sh --remove PREFIX
#
# The program is for the processors NAME: x86-64, x86-64-v2 or x86-64-v3. For x86-64-v2 it is the
# one that `rt run` or `rt ci` built in out/; for others one is proved and built, and out/basecode
# is unchanged. Without --cpu the program is for x86-64-v3 if this machine supports that. A release
# has both programs in bin/, and nothing is built.
# Prints what was installed, and whether the folder of the program is on the PATH.
# Folders that were created are left when the files are removed. If DESTDIR is set, everything is
# installed below that folder, as packages need it, and the program is for x86-64-v2 without --cpu.
set -eu

words='install.sh [--cpu NAME] PREFIX, or install.sh --remove PREFIX'
# This script may be called through a symbolic link.
here=$(dirname "$(readlink -f "$0")")
. "$here/../install-common.sh"

# Each line: a file of this folder, its mode, and where it goes below PREFIX.
files() {
    cat <<LINES
$program 755 bin/basecode
basecode.1 644 share/man/man1/basecode.1
completions/basecode.bash 644 share/bash-completion/completions/basecode
completions/_basecode 644 share/zsh/site-functions/_basecode
completions/basecode.fish 644 share/fish/vendor_completions.d/basecode.fish
LINES
}

# Puts the program of out/ back, if there was one, with the notes of `rt run` about it.
put_back() {
    for file in basecode basecode.stamp; do
        rm -f "out/$file"
        if [ -e "out/$file.kept" ]; then mv "out/$file.kept" "out/$file"; fi
    done
}

# Whether this machine supports x86-64-v3, as the loader of programs says.
supports_v3() {
    /lib64/ld-linux-x86-64.so.2 --help 2>/dev/null | grep -q '^ *x86-64-v3 (supported'
}

# Builds the program for the processors, as out/basecode-NAME. It may not run on this one, so the
# status of `rt run` is ignored: whether the program was built is tested instead.
build() {
    [ "$built" = out ] || return 0
    mkdir -p out
    for file in basecode basecode.stamp; do
        if [ -e "out/$file" ]; then mv "out/$file" "out/$file.kept"; fi
    done
    trap put_back EXIT
    trap 'exit 1' HUP INT TERM
    rt run --cpu "$cpu" -- list >"$program.log" 2>&1 </dev/null || true
    if [ ! -x out/basecode ]; then
        tail -n 20 "$program.log" >&2
        echo "the program for $cpu was not built" >&2
        exit 1
    fi
    mv out/basecode "$program"
    put_back
    trap - EXIT HUP INT TERM
}

remove=no
cpu=
case ${1-} in
--remove)
    remove=yes
    shift
    ;;
--cpu)
    [ $# = 3 ] || usage
    cpu=$2
    shift 2
    ;;
esac
[ $# = 1 ] || usage
case $1 in
'' | -*) usage ;;
esac
case $cpu in
'' | x86-64 | x86-64-v2 | x86-64-v3) ;;
*)
    echo "install.sh: unknown processors: $cpu (x86-64, x86-64-v2, x86-64-v3)" >&2
    exit 2
    ;;
esac

prefix=${DESTDIR:+$(absolute "$DESTDIR")}$(absolute "$1")
prefix=${prefix%/}

cd "$here"
built=out
verb=builds
if [ -d bin ]; then
    built=bin
    verb=installs
fi
if [ "$remove$cpu${DESTDIR-}" = no ] && [ -x "$built/basecode" ] && supports_v3; then
    cpu=x86-64-v3
    echo "$verb the program for x86-64-v3, which this machine supports; not with --cpu x86-64-v2"
fi
case $cpu in
'' | x86-64-v2) program=$built/basecode ;;
*)
    program=$built/basecode-$cpu
    build
    ;;
esac
if [ "$remove" = no ] && [ ! -x "$program" ]; then
    if [ "$built" = bin ]; then
        echo "no program for $cpu in this release" >&2
    else
        echo 'no program: "rt run -- list" in crates/basecode builds it' >&2
    fi
    exit 1
fi
files | while read -r file mode target; do
    if [ "$remove" = yes ]; then
        rm -f "$prefix/$target"
    else
        mkdir -p "$prefix/$(dirname "$target")"
        install -m "$mode" "$file" "$prefix/$target"
        echo "installed $prefix/$target"
    fi
done
if [ "$remove${DESTDIR-}" = no ]; then say_path "$prefix/bin"; fi
