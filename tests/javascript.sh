#!/usr/bin/env bash
# Builds the package for JavaScript, runs its tests, packs and installs it, and runs the blocks of
# docs/JAVASCRIPT.md. Nothing is taken from a network.
#
# usage: tests/javascript.sh [DIR]: where bindings/javascript/build.sh left the package; it is built
# if no folder is given.
. "$(dirname "$0")/common.bash" || exit 1

if ! command -v node >/dev/null; then
    skip 'the package for JavaScript: no node'
    finish
fi

package=$room/package
if [ $# = 0 ]; then
    bindings/javascript/build.sh "$package" || exit 1
else
    cp -r "$(realpath "$1")" "$package" || exit 1
fi
source=$PWD/bindings/javascript
page=$PWD/docs/JAVASCRIPT.md
readme=$PWD/README.md
words=$(printed)
cp -r "$source/tests" "$package"
cd "$room" || exit 1

# The package has 32-bit memory, unless it was built without wasm-opt. Node 20 and 22 have 64-bit
# memory by a flag, and Node 24 without one.
probe='const empty = Uint8Array.of(0, 97, 115, 109, 1, 0, 0, 0, 5, 3, 1, 4, 1);
process.exit(WebAssembly.validate(empty) ? 0 : 1)'
has64=yes
flags64=()
if ! node -e "$probe"; then
    flags64=(--experimental-wasm-memory64)
    node "${flags64[@]}" -e "$probe" 2>/dev/null || has64=
fi
flags=()
if ! grep -qx 'export const ADDRESS_BITS = 32;' package/src/module.js; then
    skip 'the module of 32-bit memory: no wasm-opt (binaryen)'
    if [ -z "$has64" ]; then
        skip "the package for JavaScript: node $(node --version) has no 64-bit memory"
        finish
    fi
    flags=("${flags64[@]}")
fi

# quietly COMMAND..: what it says is printed if it fails.
quietly() {
    "$@" >said 2>&1 || {
        tail -n 60 said
        return 1
    }
}

is 'the version of the package' "$version" \
    "$(sed -n 's/^  "version": "\(.*\)",$/\1/p' package/package.json)"

# By words: by lanes, which are taken apart, the module has over a million bytes.
size=$(node "${flags[@]}" --input-type=module -e "
    import { MODULE } from '$room/package/memory64/module.js';
    console.log(Buffer.from(MODULE, 'base64').length)")
holds "the module goes by words: ${size:-no} bytes" test "${size:-600000}" -lt 600000

# What a bundle has of the package, nearly: docs/JAVASCRIPT.md has a figure.
size=$(cat package/src/*.js | wc -c)
holds "the package has $size bytes" test "$size" -lt 650000
size=$(cat package/src/*.js | gzip -9 | wc -c)
holds "the package has $size bytes, compressed" test "$size" -lt 200000

# Where no folder of the PATH has rt, and no module is kept.
mkdir -p alone/bindings
cp -r "$source" alone/bindings
rm -rf alone/bindings/javascript/out
rest=
while read -r -d : folder; do
    [ -x "$folder/rt" ] || rest+=$folder:
done <<<"$PATH:"
is 'without rt' 'build.sh: no rt on the PATH: the toolchain of README.md has it' \
    "$(PATH=$rest alone/bindings/javascript/build.sh unbuilt 2>&1)"

# The sources of the module: a stand-in of rt keeps what `rt lib` is given.
mkdir stand-in proved
cat >stand-in/rt <<'END_OF_RT'
#!/bin/sh
cp -r ../.. "$KEPT" && mkdir -p out && printf '\0asm\1\0\0\0' >out/data_encoding_c.wasm
END_OF_RT
chmod +x stand-in/rt
tar -C "$OLDPWD" -cf - --exclude=out crates crates.txt HANDLES LICENSE bindings/javascript |
    tar -C proved -xf -

# given [EDIT]: the sources that build.sh gives `rt lib` and that are not those which are proved
# here. The edit, of sed, makes another build.sh.
given() {
    local name part
    rm -rf kept proved/bindings/javascript/out
    sed "${1-}" "$source/build.sh" >proved/bindings/javascript/build.sh
    PATH=$room/stand-in:$PATH KEPT=$room/kept proved/bindings/javascript/build.sh unused >said 2>&1
    for name in $(ls kept/crates); do
        for part in src specs proofs; do
            [ ! -d "proved/crates/$name/$part" ] ||
                diff -rq "proved/crates/$name/$part" "kept/crates/$name/$part"
        done
        [ "$(sed -nE "s/^$name( staticlib)?://p" proved/crates.txt)" = \
            "$(sed -nE "s/^$name( wasm64)?://p" kept/crates.txt)" ] || echo "what $name uses"
    done | sed -e 's:proved/crates/::' -e 's: and kept/.* differ::' -e 's/^Files //'
    diff -q {proved,kept}/HANDLES
}

is 'the sources of the module' data_encoding_kernel/src/platform.rt "$(given)"
for folder in proved kept; do
    grep -v '^//' $folder/crates/data_encoding_kernel/src/platform.rt >$folder.code
done
is 'what differs in platform.rt' $'<     true\n>     false' "$(diff {proved,kept}.code | grep '^[<>]')"
after() {
    given "/^    platform >/a $1"
}
is 'another file is rewritten' 'data_encoding/src/lib.rt
data_encoding_kernel/src/platform.rt' "$(after 'echo >>"$room/crates/data_encoding/src/lib.rt"')"
is 'another file is removed' 'Only in data_encoding/specs: Calls.antt
data_encoding_kernel/src/platform.rt' "$(after 'rm "$room/crates/data_encoding/specs/Calls.antt"')"
is 'another crate is used' 'what data_encoding uses
what data_encoding_calls uses
data_encoding_kernel/src/platform.rt' "$(after 'sed -i "s/ arrayvec//" "$room/crates.txt"')"

wanted="the WebAssembly module is not here: \`bindings/javascript/build.sh DIR\` makes a package \
with it from the sources of Bamsturk"
is 'without the module' "$wanted" "$(node "${flags[@]}" -e "
    import('$source/src/index.js').catch((it) => console.log(it.message))")"

# Its tests import ../src: for 64-bit memory they are beside a copy of memory64 with this name.
mkdir with64
cp -r package/{package.json,memory64,tests} with64
mv with64/memory64 with64/src
for pair in package:"${flags[*]}" ${has64:+with64:"${flags64[*]}"}; do
    holds "the tests of the $pair" quietly node ${pair#*:} --test "${pair%%:*}"/tests/*.test.js
    tried=$(sed -n 's/^# pass //p' said)
    [ "${tried:-0}" -ge 44 ] || fail "$pair has fewer than 44 tests: $tried"
done
[ -n "$has64" ] || skip "64-bit memory: node $(node --version) has none"
is 'the files of both' "$(ls package/src)" "$(ls package/memory64)"
for file in package/src/*; do
    [ "${file##*/}" = module.js ] ||
        holds "the same: ${file##*/}" cmp "$file" "package/memory64/${file##*/}"
done

cat >words.mjs <<'END_OF_WORDS'
import { BASE64, Encoding } from "./package/src/index.js";

const binary = { symbols: "01" };
for (const call of [
  ...["Zm9vY", "Zm9v!m9v", "Zm9vZh==", "Zm9v===="].map((text) => () => BASE64.decode(text)),
  ...[
    { symbols: "abc" },
    { symbols: "\u00e9" },
    { symbols: "cc" },
    { ...binary, padding: "=" },
    { ...binary, wrap: { width: 256, separator: "\n" } },
    { ...binary, wrap: { width: 9, separator: "\n" } },
    { ...binary, translate: { from: "a", to: "01" } },
    { ...binary, translate: { from: "a", to: "c" } },
  ].map((asked) => () => new Encoding(asked)),
]) {
  try {
    call();
  } catch (error) {
    console.log(error.message);
  }
}
END_OF_WORDS
is 'the words of docs/FORMATS.md' "$words" "$(node "${flags[@]}" words.mjs | without_number)"

# What the module gives, and that it asks for nothing.
cat >module.mjs <<'END_OF_MODULE'
import { MODULE } from "./package/src/module.js";

const module = new WebAssembly.Module(Buffer.from(MODULE, "base64"));
console.log(WebAssembly.Module.imports(module).length, "imports");
for (const { name } of WebAssembly.Module.exports(module)) {
  console.log(name);
}
END_OF_MODULE
exports=$(sed -n 's/^pub extern "C" fn \(de_[a-z_]*\)(.*/\1/p' \
    "$OLDPWD"/crates/data_encoding_c/src/*.rt | sort)
is 'what the module gives' "0 imports
__heap_base
$exports
memory" "$(node "${flags[@]}" module.mjs | LC_ALL=C sort)"

# names FILE: the names that it exports.
names() {
    grep -oE 'export (declare )?(class|const) [A-Za-z0-9_]+' "$1" | sed 's/.* //' | sort
}

is 'what has a type' \
    "$(node "${flags[@]}" --input-type=module -e \
        "console.log(Object.keys(await import('$room/package/src/index.js')).sort().join('\n'))" |
        sort)" "$(names package/src/index.d.ts)"
is 'what has a type of the streams' $'DecoderStream\nEncoderStream' "$(names package/src/streams.d.ts)"
if command -v tsc >/dev/null; then
    holds 'its types' quietly tsc --strict --noEmit --target es2022 --module nodenext \
        package/tests/types.ts
    mkdir -p older/node_modules
    ln -s "$room/package" older/node_modules/data-encoding
    sed -e 's:"\.\./src/index\.js":"data-encoding":' \
        -e 's:"\.\./src/streams\.js":"data-encoding/streams":' package/tests/types.ts >older/types.ts
    sed '1i import { HEXLOWER as last } from "data-encoding/memory64"; export { last };\
import { DecoderStream as stream } from "data-encoding/memory64/streams"; export { stream };' \
        older/types.ts >older/both.ts
    holds 'its types for moduleResolution node' quietly tsc --strict --noEmit --target es2022 \
        --module es2022 --moduleResolution node older/types.ts older/both.ts
    # Only the streams need declarations of a platform.
    echo 'import { BASE64 } from "data-encoding"; BASE64.decode(BASE64.encode(new Uint8Array()));' \
        >older/bare.ts
    holds 'its types without a platform' quietly tsc --strict --noEmit --target es2022 --lib es2022 \
        --module es2022 --moduleResolution node older/bare.ts
else
    skip 'the types of the package: no tsc'
fi

mkdir program
echo '{ "name": "program", "private": true }' >program/package.json
commands=$(block "$page" sh)
is 'the first command of docs/JAVASCRIPT.md' 'bindings/javascript/build.sh package' \
    "${commands%%$'\n'*}"
if command -v npm >/dev/null; then
    export npm_config_offline=true npm_config_update_notifier=false npm_config_cache=$room/cache
    ln -s ../package program/package
    cd program || exit 1
    holds 'the other commands of docs/JAVASCRIPT.md' quietly bash -ec "${commands#*$'\n'}"
    cd ..
    is 'what is installed' "LICENSE
README.md
$(cd "$source/src" && printf 'memory64/%s\n' *)
package.json
$(cd "$source" && printf '%s\n' src/*)" \
        "$(cd program/node_modules/data-encoding && find . -type f | sed 's:^\./::' | sort)"
    mkdir lacking
    cp -r "$source"/{package.json,src} lacking
    is 'nothing is packed without the module' 1 \
        "$(cd lacking && npm pack 2>&1 | grep -cF "Error: $wanted")"
else
    skip 'the package as one file: no npm'
    mkdir program/node_modules
    cp -r package program/node_modules/data-encoding
fi

block "$page" js >program/calls.mjs
is 'the program of docs/JAVASCRIPT.md' "$(block "$page" text)" "$(node "${flags[@]}" program/calls.mjs 2>&1)"
block "${page%/*}/FORMATS.md" js >program/own.mjs
is 'the program of docs/FORMATS.md' '91JPRV3F Hello' "$(node "${flags[@]}" program/own.mjs 2>&1)"
block "$readme" js >program/hello.mjs
is 'the program of README.md' SGVsbG8= "$(node "${flags[@]}" program/hello.mjs 2>&1)"

finish
