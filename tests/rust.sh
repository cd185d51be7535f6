#!/usr/bin/env bash
# Builds the crate for Rust over the library for C, and runs its tests, with each set of features;
# a program whose other crates depend on data-encoding; and the blocks of docs/RUST.md and
# README.md. Nothing is taken from a network, and nothing is written into bindings/.
#
# usage: tests/rust.sh [LIB]: where build.sh left the library; it is built if no folder is given.
. "$(dirname "$0")/common.bash" || exit 1

if ! command -v cargo >/dev/null; then
    skip 'the crate for Rust: no cargo'
    finish
fi

find_library "$@"
crate=$room/bamsturk/bindings/rust
mkdir -p "$crate"
cp -r bindings/rust/{Cargo.toml,rustfmt.toml,src,sys,tests} "$crate"
export DATA_ENCODING_DIR=$lib
export CARGO_TARGET_DIR=$room/target
export CARGO_NET_OFFLINE=true
export CARGO_TERM_COLOR=never

# cargo_in FOLDER WORD..: what cargo says is printed if it fails.
cargo_in() {
    local folder=$1
    shift
    (cd "$folder" && cargo "$@") >"$room/said" 2>&1 || {
        tail -n 60 "$room/said"
        return 1
    }
}

# unnamed COMMAND..: with no variable that names a library.
unnamed() {
    (unset DATA_ENCODING_DIR && "$@")
}

holds 'the tests of the crate' cargo_in "$crate" test
tried=$(grep -c '^test .* ok$' "$room/said")
[ "$tried" -ge 70 ] || fail "the crate has fewer than 70 tests: $tried"
holds 'its tests with alloc alone' cargo_in "$crate" test --tests --no-default-features \
    --features alloc
holds 'its tests without features' cargo_in "$crate" test --tests --no-default-features
RUSTDOCFLAGS='-D warnings' holds 'its documentation' cargo_in "$crate" doc
if cargo clippy --version >/dev/null 2>&1; then
    for features in --all-features --no-default-features; do
        holds "clippy $features" cargo_in "$crate" clippy --all-targets "$features" -- -D warnings
    done
else
    skip 'clippy: this cargo has none'
fi
if cargo fmt --version >/dev/null 2>&1; then
    holds 'the layout of its files' cargo_in "$crate" fmt --check
    holds 'the layout of those of sys' cargo_in "$crate/sys" fmt --check
else
    skip 'the layout of the files: this cargo has no fmt'
fi

wanted="DATA_ENCODING_DIR has to be the absolute path of a folder with libdata_encoding.a: the files \
data-encoding-c of a release have one, and \`crates/data_encoding_c/build.sh FOLDER\` makes one from \
the sources of Bamsturk"
for folder in '' "$room" lib; do
    given=$(cd "$crate" && DATA_ENCODING_DIR=$folder cargo check 2>&1 | sed -n 's/^ *\(DATA_.*FOLDER.*\)/\1/p')
    is "without a library in '$folder'" "$wanted" "$given"
done
# A library for another processor, by the header of its first object.
mkdir "$room/other"
python3 - "$lib/libdata_encoding.a" "$room/other/libdata_encoding.a" <<'END'
import sys
data = bytearray(open(sys.argv[1], "rb").read())
machine = data.index(b"\x7fELF") + 18
data[machine:machine + 2] = (183).to_bytes(2, "little")
open(sys.argv[2], "wb").write(data)
END
host=$(rustc -vV | sed -n 's/^host: //p')
given=$(cd "$crate" && DATA_ENCODING_DIR=$room/other cargo check 2>&1 | sed -n 's/^ *\(the library of .*\)/\1/p')
is 'with a library for another processor' \
    "the library of DATA_ENCODING_DIR is for aarch64, and the target is $host" "$given"
# Without a library the crate is checked and documented, and linking names the target that has none.
for command in check doc; do
    holds "cargo $command without a library" unnamed cargo_in "$crate" "$command"
    is "what cargo $command says" 1 "$(grep -c "no library for $host: .*\[\]" "$room/said")"
done
unnamed cargo_in "$crate" build
is 'what cargo build says' 1 \
    "$(grep -c "^error: could not find native .*\`data_encoding-for-$host\`" "$room/said")"

# The library of a target in lib is taken.
mkdir -p "$crate/sys/lib/$host"
cp "$lib/libdata_encoding.a" "$crate/sys/lib/$host"
touch "$crate/sys/build.rs"
holds 'a library in lib' unnamed cargo_in "$crate" test --tests
rm -r "$crate/sys/lib"
touch "$crate/sys/build.rs"

# What the crate declares of a de_encoding is large enough.
size=$(sed -n 's/^const TABLES_SIZE: usize = \([0-9]*\);$/\1/p' "$crate/src/ffi.rs")
cc=${CC:-cc}
if command -v "$cc" >/dev/null; then
    cat >"$room/size.c" <<END
#include "data_encoding.h"
typedef char size[sizeof(de_encoding) <= $size ? 1 : -1];
typedef char parts[sizeof(de_decoded) == 3 * sizeof(size_t) ? 1 : -1];
typedef char limit[DE_LAYOUT_LIMIT == 770 ? 1 : -1];
typedef char decoder[sizeof(de_decoder) == 104 ? 1 : -1];
typedef char encoder[sizeof(de_encoder) == 200 && DE_LAST_TEXT_LIMIT == 510 ? 1 : -1];
END
    holds 'the size of an encoding' "$cc" -std=c99 "-I$lib" -c "$room/size.c" -o "$room/size.o"
else
    skip "the size of an encoding: no $cc"
fi

# new_package NAME VERSION: a package that depends on this version of data-encoding; what else its
# Cargo.toml says is read from standard input.
new_package() {
    mkdir -p "$room/$1/src"
    cat >"$room/$1/Cargo.toml" <<END
[package]
name = "$1"
version = "0.1.0"
edition = "2021"

[dependencies]
data-encoding = "$2"
END
    cat >>"$room/$1/Cargo.toml"
}

# A program that depends on data-encoding, and two crates that it depends on, which do too: one has
# a macro that writes the layout of an encoding, as those of data-encoding-macro do.
new_package between 2.5 </dev/null
cat >"$room/between/src/lib.rs" <<'END'
pub fn text(data: &[u8]) -> String {
    data_encoding::BASE64.encode(data)
}
END
new_package macros 2.4 <<'END'

[lib]
proc-macro = true
END
cat >"$room/macros/src/lib.rs" <<'END'
use proc_macro::TokenStream;

#[proc_macro]
pub fn octal(_: TokenStream) -> TokenStream {
    let mut specification = data_encoding::Specification::new();
    specification.symbols.push_str("01234567");
    let encoding = specification.encoding().unwrap();
    let layout = encoding.internal_implementation();
    format!("::data_encoding::Encoding::internal_new(&{layout:?})").parse().unwrap()
}
END
new_package program 2.11 <<END
between = { path = "../between" }
macros = { path = "../macros" }

$(block docs/RUST.md toml 'Replace the original' | sed "s:\"data-encoding-rust-.*\":\"$crate\":")
END
{
    block docs/RUST.md rust
    cat <<'END'

#[test]
fn of_the_crate_between() {
    assert_eq!(between::text(b"Hi"), "SGk=");
}

#[test]
fn of_the_macro() {
    const OCTAL: data_encoding::Encoding = macros::octal!();
    assert_eq!(OCTAL.encode(b"Bit"), "20464564");
    assert_eq!(OCTAL.specification().encoding().unwrap(), OCTAL);
}
END
} >"$room/program/src/main.rs"
is 'the commands of docs/RUST.md' 'crates/data_encoding_c/build.sh /opt/bamsturk
export DATA_ENCODING_DIR=/opt/bamsturk' "$(block docs/RUST.md sh)"
holds 'a program in the place of data-encoding' cargo_in "$room/program" test
is 'the tests of that program' 2 "$(grep -c '^test .* ok$' "$room/said")"
mkdir "$room/program/examples"
block README.md rust Rust >"$room/program/examples/hello.rs"
holds 'the program of README.md' cargo_in "$room/program" run --quiet --example hello
is 'what the program of README.md prints' SGVsbG8= "$(cat "$room/said")"
block docs/FORMATS.md rust 'From Rust' >"$room/program/examples/own.rs"
holds 'the program of docs/FORMATS.md' cargo_in "$room/program" run --quiet --example own
is 'what the program of docs/FORMATS.md prints' '91JPRV3F Hello' "$(cat "$room/said")"
holds 'the program of docs/RUST.md' cargo_in "$room/program" run --quiet
is 'what the program of docs/RUST.md prints' $'SGVsbG8=\n220644==\ninvalid symbol at 5' \
    "$(cat "$room/said")"
cat >"$room/program/examples/words.rs" <<'END'
use data_encoding::{Specification, BASE64};

fn refused(symbols: &str, change: impl FnOnce(&mut Specification)) {
    let mut specification = Specification::new();
    specification.symbols.push_str(symbols);
    change(&mut specification);
    println!("{}", specification.encoding().unwrap_err());
}

fn wrapped(width: usize) {
    refused("01", |it| {
        it.wrap.width = width;
        it.wrap.separator.push('-');
    });
}

fn translated(to: &str) {
    refused("01", |it| {
        it.translate.from.push('a');
        it.translate.to.push_str(to);
    });
}

fn main() {
    for text in ["Zm9vY", "Zm9v!m9v", "Zm9vZh==", "Zm9v===="] {
        println!("{}", BASE64.decode(text.as_bytes()).unwrap_err());
    }
    for symbols in ["abc", "\u{e9}", "cc"] {
        refused(symbols, |_| {});
    }
    refused("01", |it| it.padding = Some('='));
    wrapped(256);
    wrapped(9);
    translated("01");
    translated("c");
}
END
holds 'the words of faults and refusals' cargo_in "$room/program" run --quiet --example words
is 'the words of docs/FORMATS.md' "$(printed)" "$(without_number <"$room/said")"
is 'the one data-encoding of the program' 1 \
    "$(grep -c '^name = "data-encoding"' "$room/program/Cargo.lock")"

# A program whose lock file has an older data-encoding keeps that one until it is updated. The older
# one is a package of this test without code, in a folder in the place of the registry.
mkdir -p "$room/vendor/data-encoding/src" "$room/locked/.cargo"
older=$room/vendor/data-encoding
printf '[package]\nname = "data-encoding"\nversion = "2.5.0"\n' >"$older/Cargo.toml"
touch "$older/src/lib.rs"
printf '{"files":{},"package":"%064d"}\n' 0 >"$older/.cargo-checksum.json"
printf '[source.crates-io]\nreplace-with = "vendor"\n[source.vendor]\ndirectory = "%s"\n' \
    "$room/vendor" >"$room/locked/.cargo/config.toml"
new_package locked 2.5 </dev/null
echo 'fn main() {}' >"$room/locked/src/main.rs"
holds 'a lock file with an older data-encoding' cargo_in "$room/locked" generate-lockfile
sed -n '/^\[patch/,$p' "$room/program/Cargo.toml" >>"$room/locked/Cargo.toml"

# which_one: the version and the path of the data-encoding that the program is built with.
which_one() {
    cargo_in "$room/locked" build && (cd "$room/locked" && cargo tree -i data-encoding) 2>/dev/null |
        head -n 1
}

is 'the older one is built' 'data-encoding v2.5.0' "$(which_one)"
is 'what Cargo says of it' 1 \
    "$(grep -c '^warning: patch .* was not used in the crate graph$' "$room/said")"
holds 'the update of docs/RUST.md' cargo_in "$room/locked" update -p data-encoding --offline
is 'this one is built after it' "data-encoding v2.11.1 ($crate)" "$(which_one)"
is 'what docs/RUST.md says of it' 3 "$(grep -oE \
    '`(cargo (update -p|tree -i) data-encoding|was not used in the crate graph)`' docs/RUST.md |
    wc -l)"

finish
