#!/usr/bin/env bash
# Builds the page and drives it in Chromium as a person would, at three widths and in both schemes;
# what it shows is compared with the program.
#
# usage: tests/web.sh [--picture FILE] [PACKAGE]: PACKAGE is where bindings/javascript/build.sh left
# the package for JavaScript; it is built if no folder is given. FILE gets the picture of README.md.
. "$(dirname "$0")/common.bash" || exit 1

picture=
if [ "${1:-}" = --picture ]; then
    picture=$2
    shift 2
fi
python=/usr/bin/python3
for needed in chromium chromedriver "$python"; do
    if ! command -v "$needed" >/dev/null; then
        skip "the page: no $needed (chromium, chromium-driver)"
        finish
    fi
done
if ! "$python" -c 'import selenium.webdriver' 2>/dev/null; then
    skip 'the page: no python3-selenium'
    finish
fi

program=$(tests/find-program) || exit 1
package=${1:-$room/package}
if [ $# = 0 ]; then
    bindings/javascript/build.sh "$package" || exit 1
fi
web/build.sh "$room/page" "$package" || exit 1
page=$room/page/basecode.html

is 'what the page asks for' "default-src 'none'" \
    "$(grep -o "default-src '[a-z]*'" "$page")"
is 'addresses in the page' '' "$(grep -oE '(src|href|url)[=(]["'"'"']?(https?:)?//[^ "]*' "$page")"
is 'one file' basecode.html "$(ls "$room/page")"

# browsers FILE: the oldest versions that it names.
browsers() {
    tr '\n' ' ' <"$1" | grep -oE 'Chromium [0-9]+, +Firefox [0-9]+, Safari [0-9.]+[0-9]' | tr -s ' '
}
is 'the browsers of docs/INSTALL.md' "$(browsers docs/INSTALL.md)" "$(browsers "$page")"

if PYTHONDONTWRITEBYTECODE=1 "$python" tests/web/page.py "$page" "$program" ${picture:+"$picture"} \
    >"$room/said" 2>&1; then
    pass
else
    tail -n 80 "$room/said"
    fail 'the page'
fi
tried=$(sed -n 's/^Ran \([0-9]*\) tests.*/\1/p' "$room/said")
[ "${tried:-0}" -ge 20 ] || fail "the page has fewer than 20 tests: ${tried:-0}"

finish
