#!/usr/bin/env bash
# Follows README.md and docs/LIBRARY.md from an empty folder, and runs the program of crates/examples over
# streams that fail. tests/examples.sh compares the other blocks of that page.
. "$(dirname "$0")/common.bash" || exit 1

tests/find-program >/dev/null || exit 1
program=$(CRATE=examples tests/find-program) || exit 1
BAMSTURK=$PWD
export BAMSTURK

mkdir "$room/mine"
cd "$room/mine" || exit 1
for page in README.md:Rattle docs/LIBRARY.md:Setup; do
    bash -e -c "$(script "$BAMSTURK/${page%:*}" "${page#*:}"); cd ${PWD@Q}/crates/hello; rt run" \
        >>../output 2>>../log
    is "the commands of $page" 0 $?
    is "what they print, $page" SGVsbG8= "$(tail -n 1 ../output)"
done
# One line a unit that was checked, and all of them say so.
is 'it is proved' logic=proved "$(cat ../output ../log | grep -o '^logic=[a-z]*' | sort -u)"
is 'the crates there' 'data_encoding data_encoding_kernel data_encoding_meaning encoding_stream hello' \
    "$(sed 's/:.*//' crates.txt | sort | paste -sd ' ')"

# What the page says is not proved.
form='let mut out = [0; 8]; base64().encode_mut(b"Hello", &mut out)'
is 'the page names the form' 1 "$(grep -cF "\`$form\`" "$BAMSTURK/docs/LIBRARY.md")"
sed -i "/println/a ${form//&/\\&};" crates/hello/src/main.rt
(cd crates/hello && rt check) >../output 2>&1
is 'a length that is not worked out' 1 \
    "$(grep -c '^note: .*it is not proved that what `encode_mut` requires holds' ../output)"

# is_let_go NAME LINE NUMBER: a program that lets an encoder go in this line, its tenth, does not
# compile, and the check names the line of the number.
is_let_go() {
    cat >crates/hello/src/main.rt <<END
#![tactic(auto)]

use anyhow::Result;
use data_encoding::base64;

fn main(rt: HostRuntime) -> Result<()> {
    let encoding = base64();
    let mut text = String::new(rt.alloc());
    let mut encoder = encoding.new_encoder(&mut text);
    $2
}
END
    (cd crates/hello && rt check) >../output 2>&1
    is "$1: it does not compile" 1 $?
    is "$1: the line" "src/main.rt:$3" \
        "$(sed -n 's/^\(src[^:]*:[0-9]*\):.*error\[linear-value-let-go\].*`Encoder<&Encoding>` is not `Drop`.*/\1/p' \
            ../output | sort -u)"
}

is_let_go 'an encoder that is let go' 'encoder.append(b"Hello").is_ok(); Ok(())' 9
is_let_go 'a `?` where it lives' 'encoder.append(b"Hello")?; encoder.abandon(); Ok(())' 10
cd "$room" || exit 1

# ends NAME STATUS LINE INPUT: how the program ends, with what line, on that input.
ends() {
    printf '%s' "$4" >input
    "$program" <input >output 2>line
    is "$1: its status" "$2" $?
    is "$1: its line" "$3" "$(cat line)"
}

ends 'a text' 0 '' SGVsbG8=
ends 'a text with a fault' 1 \
    'Error: a fault of the text: non-zero trailing bits at 6' SGVsbG9=
is 'the groups before it' Hel "$(tail -n 1 output)"
"$program" <. >output 2>line
is 'no input' "Error: the text can't be read" "$(cat line)"

# The next command ends after the lines that are printed first, before there is a text.
stdout=$BAMSTURK/crates/examples/stdout
{ sleep 1; printf SGVsbG8=; } | "$program" 2>line | head -n "$(wc -l <"$stdout")" >output
is 'no output: the lines before it' "$(head -n "$(wc -l <"$stdout")" "$stdout")" "$(cat output)"
is 'no output' "Error: the data can't be written" "$(cat line)"

finish
