# What the tests of this folder share: each reads it first, and ends with `finish`.
#
# A test begins at the top of the repository. "$room" is a folder of its own, which is removed when
# it ends. A test that fails or is skipped is printed; the last line is
# `N passed, M failed, K skipped`.
set -u
cd "$(dirname "${BASH_SOURCE[0]}")/.." || exit 1
export LC_ALL=C

room=$(mktemp -d) || exit 1
trap 'rm -rf "$room"' EXIT
passed=0
failed=0
skipped=0

# The version that CHANGELOG.md begins with, released or not.
version=$(sed -nE 's/^## ([0-9.]+).*/\1/p' CHANGELOG.md | head -n 1)

pass() {
    passed=$((passed + 1))
}

fail() {
    failed=$((failed + 1))
    echo "FAILED: $1"
}

skip() {
    skipped=$((skipped + 1))
    echo "skipped: $1"
}

# is NAME WANTED GIVEN: counts a test, which passes where the two words are the same.
is() {
    if [ "$2" = "$3" ]; then
        pass
    else
        fail "$1"
        printf '  wanted: %s\n  given: %s\n' "$2" "$3"
    fi
}

# holds NAME COMMAND..: counts a test, which passes where the command does.
holds() {
    local name=$1
    shift
    if "$@" >&2; then pass; else fail "$name"; fi
}

# name_program PROGRAM: commands find it as `basecode`.
name_program() {
    mkdir "$room/bin"
    ln -s "$1" "$room/bin/basecode"
    PATH=$room/bin:$PATH
}

# find_library [LIB]: sets `lib` to the path of the library for C, which "$room/lib" names too: LIB,
# where build.sh left it, or, if no folder is given, one that is built.
find_library() {
    if [ $# = 0 ]; then
        crates/data_encoding_c/build.sh "$room/lib" || exit 1
    else
        ln -s "$(realpath "$1")" "$room/lib" || exit 1
    fi
    lib=$(realpath "$room/lib") || exit 1
}

# open_library FILE OBJCOPY: prints the path of a copy of a static library that also has its inner names,
# and gives way to a program that has some of its functions itself.
open_library() {
    local opened
    opened=$room/opened.$(basename "$(dirname "$1")").a
    "${2:-objcopy}" -w --globalize-symbol='de_*' "$1" "$opened" && "${2:-objcopy}" -w --weaken-symbol='de_*' "$opened" || exit 1
    echo "$opened"
}

# find_python: sets `python` to the first Python for which `lacking PYTHON`, which is the test's own,
# prints nothing; where there is none, `python` is empty, and `missing` what the last one lacks.
find_python() {
    local found
    python=
    missing=
    for found in python3 /usr/bin/python3; do
        if [ -z "$python" ] && command -v "$found" >/dev/null; then
            missing=$(lacking "$found")
            [ -n "$missing" ] || python=$found
        fi
    done
}

# quietly COMMAND..: what it says is printed if it fails.
quietly() {
    "$@" >"$room/said" 2>&1 || {
        tail -n 60 "$room/said"
        return 1
    }
}

# block PAGE KIND [HEADING]: the code blocks of that kind, or only those below the heading.
block() {
    awk -v kind="$2" -v heading="${3-}" '
        /^```/ {
            fenced = !fenced
            inside = fenced && $0 == "```" kind && (heading == "" || heading == under)
            next
        }
        inside
        !fenced && /^#+ / { under = $0; sub(/^#+ /, "", under) }' "$1"
}

# script PAGE HEADING: the blocks below that heading as one script of bash. A block of `sh` is in it as it
# is. Any other, except of `text`, is written to the file that the line before it names, such as
# `hello.c`:
script() {
    awk -v heading="$2" '
        /^```/ && fenced {
            if (inside && kind != "sh") print "END_OF_FILE"
            fenced = inside = 0
            next
        }
        /^```/ {
            fenced = 1
            kind = substr($0, 4)
            inside = heading == under && kind != "text"
            if (inside && kind != "sh") print "cat >" file " <<\047END_OF_FILE\047"
            next
        }
        inside
        !fenced && /^#+ / { under = $0; sub(/^#+ /, "", under) }
        !fenced && match($0, /`[^` ]+`:$/) { file = substr($0, RSTART + 1, RLENGTH - 3) }' "$1"
}

# printed: what docs/FORMATS.md says is printed of each fault of a text and of each refusal of a
# specification, a line each, with N for a number.
printed() {
    sed -nE 's/^\| [^|]* \| `([^`]* at N)` \| .*/\1/p; s/^\| [^|]* \| `([^`]*)` \|$/\1/p' docs/FORMATS.md
}

# without_number: standard input, with N for a number at the end of a line.
without_number() {
    sed -E 's/[0-9]+$/N/'
}

finish() {
    echo "$passed passed, $failed failed, $skipped skipped"
    [ "$failed" = 0 ]
    exit
}
