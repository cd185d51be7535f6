#!/usr/bin/env bash
# Makes the page in DIR, which is made: basecode.html, one file that needs no other and no network.
#
# usage: web/build.sh DIR [PACKAGE]: PACKAGE is where bindings/javascript/build.sh left the package
# for JavaScript, which is built if no folder is given.
set -euo pipefail

if [ $# = 0 ] || [ $# -gt 2 ] || [ "${1#-}" != "$1" ]; then
    echo 'usage: web/build.sh DIR [PACKAGE]' >&2
    exit 2
fi
here=$(realpath "$(dirname "$0")")
mkdir -p "$1"
target=$(realpath "$1")
room=$(mktemp -d)
trap 'rm -rf "$room"' EXIT
package=${2:-$room/package}
if [ $# = 1 ]; then
    "$here/../bindings/javascript/build.sh" "$package"
fi
python3 "$here/bundle.py" "$here" "$(realpath "$package")" >"$room/basecode.html"
mv "$room/basecode.html" "$target"
