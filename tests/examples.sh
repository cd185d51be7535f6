#!/usr/bin/env bash
# Tries every code block of the pages by its kind, and fails at one that it does not know:
#
# - `text`, and the examples of the manual page: a line with `$ ` and a command, and then what that
#   prints, on standard output or standard error;
# - `rust`: is part of the callers or of crates/examples, word for word;
# - `antt`: is part of the callers' proofs, word for word;
# - `edit`: is an edit of a folder must-fail;
# - `sh`: is run as it is, except that `rt run` runs the program that is tried.
#
# tests/interop.sh runs those of docs/SCALE.md, and tests/contracts.sh has those of docs/CONTRACTS*.md and
# docs/PROVED.md. Of docs/LIBRARY.md, docs/C.md, docs/RUST.md, docs/PYTHON.md and docs/JAVASCRIPT.md the
# tests of these names run the programs, and each runs its program of docs/FORMATS.md. release/check runs those below "Use it from" in README.md, and
# those of docs/INSTALL.md that use a file of a release, and tests/library.sh those of Rattle in README.md.
# The programs there have at most eight lines each.
#
# The blocks in the comments of public calls are built, without proofs, and run.
#
# It also compares links, names (docs/names.py), the sizes of code without proofs (docs/unproved.py), the
# toolchain and tables with the sources.
#
# usage: tests/examples.sh [PROGRAM]
. "$(dirname "$0")/common.bash" || exit 1

program=$(tests/find-program "$@") || exit 1
name_program "$program"
mkdir "$room/home"
callers=$(cat crates/conformance/src/callers.rt crates/conformance/src/callers/*.rt)
library=$(cat crates/examples/src/*.rt)
proofs=$(find crates/conformance/proofs -name '*.antt' -exec cat {} +)

# try_examples PAGE BLOCK: a line end that a command doesn't print is not wanted.
try_examples() {
    local line command='' wanted='' given
    while IFS= read -r line; do
        case $line in
        '$ '* | END)
            if [ -n "$command" ]; then
                given=$(bash -c "$command" 2>&1)
                is "$1: $command" "$wanted" "$given"
            fi
            command=${line#'$ '}
            wanted=
            ;;
        *)
            [ -n "$command" ] || is "$1: a block" 'begins with a command' "$line"
            wanted+=${wanted:+$'\n'}$line
            ;;
        esac
    done <<<"$2"$'\nEND'
}

# Replaces `rt run -- WORD..` in a block that is run, which would prove the program once more.
rt() {
    case $* in
    version | 'try '*) command rt "$@" ;;
    'run -- '*) basecode "${@:3}" ;;
    *) return 2 ;;
    esac
}
export -f rt

# The blocks of README.md that release/check and tests/library.sh run.
followed=$(for heading in 'Command line' Rust Python C JavaScript Rattle; do
    script README.md "$heading"
done)

# try_commands PAGE BLOCK: runs it, and looks at what it did.
try_commands() {
    local given
    if [ "$1" = README.md ] && [[ "$followed" == *"$2"* ]]; then return; fi
    case $2 in
    '(cd crates/basecode && rt run -- list)'*'crates/basecode/install.sh ~/.local')
        given=$(HOME=$room/home bash -e -c "$2" 2>&1 |
            grep -Ev "^builds the program for x86-64-v3,|$room/home/")
        is "$1: $2" "$(basecode list)" "$given"
        given=$("$room/home/.local/bin/basecode" canonical HEXLOWER 2>&1)
        is "$1: what $2 installs" true "$given"
        ;;
    '(cd crates/basecode && printf Hello | rt '*' -- encode HEXLOWER)')
        given=$(bash -e -c "$2" 2>"$room/said")
        is "$1: $2" 48656c6c6f "$given"
        ;;
    # It takes long on a machine that has to be idle.
    'crates/data_encoding_c/build.sh '*'comparisons/tables page data-encoding-2.11.1 /opt/bamsturk package')
        holds "$1: $2" [ -x crates/data_encoding_c/build.sh -a -x bindings/javascript/build.sh -a -x comparisons/tables ]
        ;;
    # On two files, of which one was written five seconds after the other.
    "find crates -path 'crates/data_encoding/out/incremental/"*)
        given=$room/kept/crates/data_encoding/out/incremental
        mkdir -p "$given"
        touch -d @1000000000 "$given/one.oantt"
        touch -d @1000000005 "$given/other.oantt"
        is "$1: $2" '5 s  other.oantt' "$(cd "$room/kept" && bash -e -c "$2")"
        ;;
    # It runs this test.
    'tests/setup && tests/all') holds "$1: $2" [ -x tests/setup -a -x tests/all ] ;;
    # release/check runs these.
    'sha256sum --check SHA256SUMS' | "basecode-$version-x86_64-linux/install.sh --remove ~/.local") ;;
    *) is "$1: a block of sh" 'one that is known here' "$2" ;;
    esac
}

# is_in_sources PAGE BLOCK
is_in_sources() {
    [[ "$callers"$'\n'"$library" == *"$2"* ]]
    is "$1: its function is in the sources" 0 $?
}

# try_block PAGE KIND BLOCK
try_block() {
    [ "$1" != README.md ] || [ "$(wc -l <<<"$3")" -le 8 ]
    is "$1: a block of at most eight lines: $3" 0 $?
    case $1:$2 in
    README.md:rust | README.md:python | README.md:c | README.md:js) ;;
    docs/SCALE.md:sh | docs/LIBRARY.md:sh) ;;
    docs/CONTRACTS*.md:rust | docs/PROVED.md:rust | docs/PROVED.md:antt) ;;
    docs/C.md:* | docs/RUST.md:* | docs/PYTHON.md:* | docs/JAVASCRIPT.md:*) ;;
    docs/FORMATS.md:python | docs/FORMATS.md:c | docs/FORMATS.md:js) ;;
    docs/FORMATS.md:rust) [[ $'\n'"$3" == *$'\nfn main() {'* ]] || is_in_sources "$1" "$3" ;;
    *:text) try_examples "$1" "$3" ;;
    *:sh) try_commands "$1" "$3" ;;
    *:rust) is_in_sources "$1" "$3" ;;
    *:edit)
        is "$1: its edit is in the sources" 1 "$(cat crates/*/must-fail/*.edit | tr '\n' '\t' |
            grep -cF "$(tr '\n' '\t' <<<"$3")")"
        ;;
    *:antt)
        [[ "$proofs" == *"$3"* ]]
        is "$1: its proof is in the callers' proofs" 0 $?
        ;;
    *) is "$1: a block" 'of a kind that is known here' "$2" ;;
    esac
}

for page in *.md docs/*.md; do
    kind=
    while IFS= read -r line; do
        case $line in
        '```'*)
            if [ -n "$kind" ]; then
                try_block "$page" "$kind" "$block"
                kind=
            else
                kind=${line#'```'}
                kind=${kind:-none}
                block=
            fi
            ;;
        *) if [ -n "$kind" ]; then block+=${block:+$'\n'}$line; fi ;;
        esac
    done <"$page"
    is "$page: the end of its last block" '' "$kind"
done

while IFS= read -r -d '' block; do
    block=${block#$'\n'}
    try_examples basecode.1 "${block%$'\n'}"
done < <(sed -n '/^\.EX$/,/^\.EE$/ { s/\\-/-/g; s/\\e/\\/g; s/^\.EE$/\x00/; /^\.EX$/d; p }' \
    crates/basecode/basecode.1)

# The examples in comments of public calls: each is a function that a test calls.
commented=(crates/data_encoding/src/{encoding/calls,specification}.rt crates/encoding_stream/src/stream_{en,de}coding.rt)
mkdir -p "$room/commented/crates/commented/src"
cp HANDLES "$room/commented"
# Nothing that is built is needed.
tar -cf - --exclude=out crates/data_encoding{_meaning,_kernel,} crates/encoding_stream | tar -xf - -C "$room/commented"
grep -E '^(data_encoding(_meaning|_kernel)?|encoding_stream):' crates.txt >"$room/commented/crates.txt"
echo 'commented: anyhow data_encoding encoding_stream' >>"$room/commented/crates.txt"
{
    cat <<'END'
#![tactic(auto)]

use anyhow::Result;
use data_encoding::{Encoding, Specification, base64, hexlower};
use encoding_stream::{Watch, decode_stream, encode_stream};
use std::alloc::Global;
use std::process::Abort;
END
    awk '
        /^ *\/\/\/ ```$/ {
            inside = !inside
            if (inside) print "\nfn example_" ++count "(rt: &impl Abort, alloc: Global) -> Result<()> {"
            else print "    Ok(())\n}\n\n#[test]\nfn test_" count "(rt: HostRuntime) {\n" \
                "    assert!(rt; example_" count "(&rt, rt.alloc()).is_ok());\n}"
            next
        }
        inside { sub(/^ *\/\/\/ ?/, "    "); print }' "${commented[@]}"
} >"$room/commented/crates/commented/src/lib.rt"
(cd "$room/commented/crates/commented" && command rt try --test) >"$room/said" 2>&1
is 'the examples in comments of public calls' 'test result: ok. 15 passed; 0 failed' \
    "$(grep -o 'test result: .* failed' "$room/said")"

# anchors FILE: those of the headings of a page, or of the lines of another file.
anchors() {
    case $1 in
    *.md) sed -nE 's/\]\([^)]*\)//g; s/^#+ (.*)/\1/p' "$1" | tr 'A-Z ' 'a-z-' | sed 's/[^a-z0-9_-]//g' ;;
    *) sed -n '=' "$1" | sed 's/^/L/' ;;
    esac
}

# links PAGE: where its links within the repository lead.
links() {
    grep -oE '\]\([^)]+\)' "$1" | sed 's/^](//; s/)$//' | grep -vE '^[a-z]+://' | sort -u
}

for page in *.md docs/*.md; do
    last=
    while IFS='#' read -r target anchor; do
        [ -n "$target" ] && target=$(dirname "$page")/$target || target=$page
        if [ -n "$anchor" ] && [ -f "$target" ] && [ "$target" != "$last" ]; then
            anchors "$target" >"$room/anchors"
            last=$target
        fi
        if [ ! -f "$target" ] || { [ -n "$anchor" ] && ! grep -qxF -e "$anchor" "$room/anchors"; }; then
            echo "$page: $target $anchor"
        fi
    done < <(links "$page")
done >"$room/lost"
is 'links that lead nowhere' '' "$(cat "$room/lost")"
[ "$(for page in *.md docs/*.md; do links "$page"; done | wc -l)" -ge 500 ] || fail 'the pages have fewer than 500 links'

# said COMMAND..: what a script prints, and its status.
said() {
    "$@"
    echo "status $?"
}

is 'names in pages that no source has, and numbers of runs' 'status 0' "$(said docs/names.py)"
is 'the lines of code without proofs' 'status 0' "$(said docs/unproved.py --check)"

# logics PAGE: the hashes of the logic of the toolchain that the page names, each once.
logics() {
    grep -ohE '\blogic [0-9a-f]{16}\b' "$@" | sort -u
}
logic=$(command rt version | grep -oE 'logic [0-9a-f]{16}')
is 'the logic of the toolchain in README.md' "$logic" "$(logics README.md)"
is 'the logic of the toolchain in docs/PROVED.md' "$logic" "$(logics docs/PROVED.md)"
is 'the logic of the toolchain in all pages' "$logic" "$(logics *.md docs/*.md)"

# cell HEADING ROW COLUMN: the ratio in that cell of the first such row below a heading of docs/SPEED.md.
cell() {
    awk -v heading="## $1" '/^## / { under = $0 == heading } under' docs/SPEED.md |
        sed -nE "s/^\| $2 \| (.*) \|$/\1/p" | head -n 1 | cut -d '|' -f "$3" | sed -E 's/ |\(.*//g'
}

# ratios NAME HEADING ROW COLUMN COLUMN: a row of README.md as docs/SPEED.md has it.
ratios() {
    is "the table of speed of README.md, $1" "$(cell "$2" "$3" "$4") $(cell "$2" "${6:-$3}" "$5")" \
        "$(sed -nE "s/^\| $1 \| .* \| ([0-9.]+) \| ([0-9.]+) \|$/\1 \2/p" README.md)"
}

ratios Rattle 'From Rattle' BASE64 3 6
ratios Rust 'From Rust' BASE64 3 7
ratios Python 'From Python' '`BASE64.encode`, of `base64.b64encode`' 3 3 '`BASE64.decode`, of `base64.b64decode`'
ratios JavaScript 'From JavaScript' '`encode`' 3 3 '`decode`'
ratios '`basecode`' 'The program' 'encode BASE64' 2 2 'decode BASE64'
is 'names of README.md that are no encoding' '' "$(sed -n '/^## Encodings/,/^## /p' README.md |
    grep -oE '\b(HEX|BASE)[A-Z0-9_]+' | grep -vxF -e "$(basecode list)")"
is 'the table of docs/FORMATS.md has each encoding, canonical or not' \
    "$(for name in $(basecode list); do
        echo "$name $(basecode canonical "$name" | sed 's/true/yes/; s/false/no/')"
    done)" \
    "$(sed -n 's/^| \([A-Z0-9_]*\) | [^|]*|[^|]*|[^|]*| \(yes\|no\) | .*/\1 \2/p' docs/FORMATS.md)"

[ "$passed" -ge 20 ] || fail 'the pages have fewer than 20 examples'
finish
