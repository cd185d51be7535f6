#!/usr/bin/env bash
# Builds the library for programs in C, calls it from C and C++ by the programs of tests/c/, which
# run side by side, installs it, and tries the blocks of docs/C.md and README.md.
#
# usage: tests/c.sh [LIB]: where build.sh left the library; it is built where no folder is given.
. "$(dirname "$0")/common.bash" || exit 1

cc=${CC:-cc}
if ! command -v "$cc" >/dev/null; then
    skip "programs in C: no $cc"
    finish
fi

find_library "$@"
opened=$(open_library "$lib/libdata_encoding.a") || exit 1
strict=(-std=c99 -Wall -Wextra -Wpedantic -Werror "-I$lib")
sanitized=(-g -fsanitize=address,undefined -fno-sanitize-recover=all)
glue=crates/data_encoding_c/glue
names=()
jobs=()

# begin NAME COMMAND..: begins a command, whose test `ended` counts: it passes where that ends well.
begin() {
    names+=("$1")
    shift
    "$@" >"$room/said.${#jobs[@]}" 2>&1 &
    jobs+=($!)
}

# ended: waits for each command, and counts its test.
ended() {
    local index
    for index in "${!jobs[@]}"; do
        holds "${names[index]}" wait "${jobs[index]}"
        cat "$room/said.$index" >&2
    done
}

# program NAME COMMAND..: compiles with the command, and runs what it makes, which ends well.
program() {
    local made=$room/program.${#jobs[@]}
    local name=$1
    shift
    begin "$name" run_made "$made" "$@"
}

# By the calls for this processor, and by those for each.
run_made() {
    local made=$1
    shift
    "$@" -o "$made" && "$made" && DE_CPU=baseline "$made"
}

program 'calls in C' "$cc" "${strict[@]}" tests/c/calls.c "$lib/libdata_encoding.a"
program 'calls of the shared library' "$cc" "${strict[@]}" tests/c/calls.c "-L$lib" \
    -ldata_encoding "-Wl,-rpath,$lib"
program 'calls with short enums' "$cc" "${strict[@]}" -fshort-enums tests/c/calls.c \
    "$lib/libdata_encoding.a"
program 'outputs that hold the data' "$cc" "${strict[@]}" tests/c/fits.c "$lib/libdata_encoding.a"
program 'outputs that overlap the input' "$cc" "${strict[@]}" tests/c/overlap.c \
    "$lib/libdata_encoding.a"
program 'texts in pieces' "$cc" "${strict[@]}" tests/c/pieces.c "$lib/libdata_encoding.a"
program 'data in pieces' "$cc" "${strict[@]}" tests/c/blocks.c "$lib/libdata_encoding.a"
program 'what is written to a bool' "$cc" "${strict[@]}" tests/c/bools.c "$glue"/*.c \
    "$opened" -Wl,--wrap=de_numbered_is_canonical,--wrap=de_custom_is_canonical

# Which calls are taken: those for x86-64-v3 are replaced here, by some that say so.
"$cc" "${strict[@]}" -DDE_WIDE tests/c/processors.c "$glue"/*.c "$opened" \
    -o "$room/processors"
missing=$(for feature in abm avx avx2 bmi1 bmi2 f16c fma movbe xsave; do
    grep -m 1 '^flags' /proc/cpuinfo | grep -qw "$feature" || echo "$feature"
done)
holds 'the calls for this processor' "$room/processors" "$([ -n "$missing" ] || echo wide)"
holds 'the calls for each processor' env DE_CPU=baseline "$room/processors"

cat >"$room/supported.c" <<'END'
#include "data_encoding.h"
#include <stdio.h>

int main(void) {
    puts(de_is_supported() ? "supported" : "too old");
    return 0;
}
END
"$cc" "${strict[@]}" -static "$room/supported.c" "$lib/libdata_encoding.a" -o "$room/supported"
is 'this processor' supported "$("$room/supported")"
if command -v qemu-x86_64 >/dev/null; then
    is 'a processor of x86-64-v2' supported "$(qemu-x86_64 -cpu Nehalem "$room/supported")"
    is 'an older processor' 'too old' "$(qemu-x86_64 -cpu core2duo "$room/supported")"
else
    skip 'an older processor: no qemu-x86_64 (qemu-user)'
fi

# The words of a status, which has no character and no number.
cat >"$room/words.c" <<'END'
#include "data_encoding.h"
#include <stdio.h>

int main(void) {
    int status;
    for (status = DE_INVALID_LENGTH; status <= DE_UNDEFINED; status++)
        puts(de_status_text((de_status)status));
    return 0;
}
END
"$cc" "${strict[@]}" "$room/words.c" "$lib/libdata_encoding.a" -o "$room/words"
is 'the words of docs/FORMATS.md' "$(printed | sed -e 's/ at N$//' -e 's/ of N$/ of a group/' \
    -e "s/^'c' has \(.*\)/\1 of a character/" -e "s/^'c' is undefined$/undefined character/")" \
    "$("$room/words")"

program 'two threads' "$cc" "${strict[@]}" tests/c/threads.c "$lib/libdata_encoding.a" -pthread
begin 'the program of speed' "$cc" -O2 "${strict[@]}" tests/c/speed.c "$lib/libdata_encoding.a" \
    -o "$room/speed"
echo 'int main(void) { return 0; }' >"$room/empty.c"
if "$cc" "${sanitized[@]}" "$room/empty.c" -o "$room/empty" 2>/dev/null; then
    program 'calls with sanitizers' "$cc" "${strict[@]}" "${sanitized[@]}" tests/c/calls.c \
        "$glue"/*.c "$opened"
    program 'outputs that hold the data, with sanitizers' "$cc" "${strict[@]}" "${sanitized[@]}" \
        tests/c/fits.c "$glue"/*.c "$opened"
    program 'outputs that overlap the input, with sanitizers' "$cc" "${strict[@]}" \
        "${sanitized[@]}" tests/c/overlap.c "$glue"/*.c "$opened"
    program 'texts in pieces with sanitizers' "$cc" "${strict[@]}" "${sanitized[@]}" \
        tests/c/pieces.c "$glue"/*.c "$opened"
    program 'data in pieces with sanitizers' "$cc" "${strict[@]}" "${sanitized[@]}" \
        tests/c/blocks.c "$glue"/*.c "$opened"
else
    skip 'sanitizers: this compiler has none'
fi
if command -v c++ >/dev/null; then
    program 'calls in C++' c++ -std=c++11 "${strict[@]:1}" -x c++ tests/c/calls.c -x none \
        "$lib/libdata_encoding.a"
    holds 'the lengths in C++, without casts of C' c++ -std=c++11 -Wold-style-cast "${strict[@]:1}" \
        -fsyntax-only -x c++ - <<<'#include "data_encoding.h"
char text[DE_BASE64_ENCODED_LEN(5) + DE_HEXLOWER_ENCODED_LEN(5)];
char data[DE_BASE64_DECODED_LEN(8) + DE_HEXLOWER_DECODED_LEN(8)];'
else
    skip 'calls in C++: no c++'
fi

# warned NAME WARNING OPTION CALL: a program with the call is not compiled, for this warning alone;
# with the option, which defines a macro of the header, it is.
warned() {
    local source=$room/warned.c
    printf '#include "data_encoding.h"\n%s\n' "$4" >"$source"
    if "$cc" "${strict[@]}" -c "$source" -o "$room/warned.o" 2>"$room/warnings"; then
        fail "$1"
    else
        is "$1" 1 "$(grep -c "error: .*$2" "$room/warnings")"
    fi
    holds "$1, which is turned off" "$cc" "${strict[@]}" "$3" -c "$source" -o "$room/warned.o"
}

warned 'a status that is dropped' unused-result -DDE_NODISCARD= \
    'void drop(size_t *len) { de_encode_len(DE_BASE64, 1, len); }'
warned 'a null pointer' nonnull '-DDE_NONNULL(...)=' \
    'de_status pass(void) { return de_encode_len(DE_BASE64, 1, NULL); }'

# Each call of the header that is not marked for the pointers that it refuses: all but those to
# bytes and *detail.
is 'the marks of null pointers' '' "$(awk '
    /^DE_EXPORT/ { marks = $0; call = ""; next }
    marks != "" { call = call $0 }
    marks != "" && /;/ {
        wanted = ""
        count = split(call, parameters, /[(,]/)
        for (at = 2; at <= count; at++) {
            if (parameters[at] ~ /\*/ && parameters[at] !~ /(void|char) \*|\*detail/) {
                wanted = wanted (wanted == "" ? "" : ", ") (at - 1)
            }
        }
        given = marks ~ /DE_NONNULL/ ? marks : ""
        gsub(/.*DE_NONNULL\(|\).*/, "", given)
        if (given != wanted) print call
        marks = ""
    }' "$lib/data_encoding.h")"
is 'the statuses that may be dropped' 'de_decoder_new
de_encoder_new' "$(awk '
    /^de_status / && marks !~ /DE_NODISCARD/ { sub(/\(.*/, ""); print $2 }
    { marks = $0 }' "$lib/data_encoding.h")"

macros=$(echo 'DE_VERSION_MAJOR.DE_VERSION_MINOR.DE_VERSION_PATCH DE_VERSION' |
    cat "$lib/data_encoding.h" - | "$cc" -E -P -x c - | tail -n 1 | sed 's/ *\. */./g')
is 'the version of the header' "$version \"$version\"" "$macros"
interface=$(sed -n 's/^#define DE_INTERFACE //p' "$lib/data_encoding.h")
is 'the name of the shared library' "libdata_encoding.so.$interface" \
    "$(readelf -d "$lib/libdata_encoding.so" | sed -n 's/.*SONAME.*\[\(.*\)\]/\1/p')"
calls=$(grep -o '^[a-z].*\bde_[a-z_]*(' "$lib/data_encoding.h" | grep -o 'de_[a-z_]*($' | tr -d '(' | sort)
is 'the names of the shared library' "$calls" \
    "$(nm -D --defined-only "$lib/libdata_encoding.so" | sed 's/.* //' | sort)"
is 'the names of the static library' "$calls" \
    "$(nm -g --defined-only "$lib/libdata_encoding.a" | sed -n 's/^[0-9a-f].* //p' | sort)"

# files FOLDER: the files below it, with their modes, and the links.
files() {
    find "$1" -type f -printf '%m %P\n' -o -type l -printf '%l %P\n' | sort -k 2
}

installed="644 include/data_encoding.h
644 lib/cmake/data_encoding/data_encoding-config-version.cmake
644 lib/cmake/data_encoding/data_encoding-config.cmake
644 lib/libdata_encoding.a
libdata_encoding.so.$interface lib/libdata_encoding.so
755 lib/libdata_encoding.so.$interface
644 lib/pkgconfig/data_encoding.pc
644 share/doc/data_encoding/LICENSE"
install=$(realpath crates/data_encoding_c/install.sh)

# in_room COMMAND..: runs it in the folder of this test.
in_room() (cd "$room" && "$@")

# status COMMAND..: the status it ends with, in the folder of this test.
status() {
    in_room "$@" >/dev/null 2>&1
    echo $?
}

# without_rt COMMAND..: runs it where no folder of the PATH has rt.
without_rt() {
    local CC folder rest=
    CC=$(command -v "$cc")
    while read -r -d : folder; do
        [ -x "$folder/rt" ] || rest+=$folder:
    done <<<"$PATH:"
    CC=$CC PATH=$rest "$@"
}

is 'says what it installs' "$(sed "s:^[^ ]* :installed $room/prefix/:" <<<"$installed")" \
    "$(in_room "$install" "$lib" prefix | sort)"
is 'the files' "$installed" "$(files "$room/prefix")"
for file in libdata_encoding.a libdata_encoding.so; do
    holds "$file" cmp "$lib/$file" "$room/prefix/lib/$file"
done
holds data_encoding.h cmp "$lib/data_encoding.h" "$room/prefix/include/data_encoding.h"
echo other >"$room/prefix/lib/other"
ln -s "$install" "$room/link"
holds 'installs again, by a link' quietly in_room ./link "$lib" prefix
holds 'removes' in_room "$install" --remove prefix
is 'what is left' '644 lib/other' "$(files "$room/prefix")"
holds 'removes nothing' in_room "$install" --remove prefix
for staged in beside "$room/staged"; do
    DESTDIR=$staged holds "installs below $staged" quietly in_room "$install" "$lib" /usr
    is "the files below $staged" "$installed" "$(in_room files "$staged/usr")"
    DESTDIR=$staged holds "removes below $staged" in_room "$install" --remove /usr
    is "nothing is left below $staged" '' "$(in_room files "$staged")"
done
multiarch=lib/x86_64-linux-gnu
holds 'installs in another folder for libraries' quietly in_room "$install" --libdir $multiarch \
    "$lib" multi
is 'the files there' "${installed//lib\//$multiarch/}" "$(files "$room/multi")"
for refused in /lib ../lib lib/ lib/../lib ./lib . '' 'l:b'; do
    is "no folder for libraries: '$refused'" 2 \
        "$(status "$install" --libdir "$refused" "$lib" prefix)"
done
build=$(realpath crates/data_encoding_c/build.sh)
is 'a target that there is not' 2 "$(status "$build" --target sparc64 prefix)"
is 'without rt' 'build.sh: no rt on the PATH: the toolchain of README.md has it' \
    "$(without_rt crates/data_encoding_c/build.sh "$room/unbuilt" 2>&1)"
is 'without rt: the status' 1 "$(without_rt status "$build" unbuilt)"
is 'without rt: no folder' '' "$(find "$room" -name unbuilt)"

# In a copy, with a stand-in for rt that notes what it is to build, and makes the library above of it.
mkdir -p "$room/copy/crates" "$room/stand-in"
cp -r crates/data_encoding_c crates.txt LICENSE "$room/copy"
mv "$room/copy/data_encoding_c" "$room/copy/crates"
rm -rf "$room/copy/crates/data_encoding_c/out"
cat >"$room/stand-in/rt" <<END
#!/bin/sh
case \$1 in
version) echo "kit \${KIT-1}" ;;
lib)
    echo "\$*" >>'$room/builds'
    mkdir -p out
    cp '$lib/libdata_encoding.a' out/libdata_encoding_c.a
    ;;
esac
END
chmod 755 "$room/stand-in/rt"

# builds NAME WANTED [OPTION..]: as many builds are noted after build.sh with these options.
builds() {
    holds "builds $1" quietly env "PATH=$room/stand-in:$PATH" \
        "$room/copy/crates/data_encoding_c/build.sh" "${@:3}" "$room/built"
    is "how often, $1" "$2" "$(wc -l <"$room/builds")"
}

builds 'at first' 2
builds 'again' 2
is 'for which processors' $'lib --cpu=x86-64-v3\nlib' "$(cat "$room/builds")"
builds 'for others' 3 --cpu x86-64-v2
touch "$room/copy/crates/data_encoding_c/src/lib.rt"
builds 'after a source has changed' 5
KIT=2 builds 'by another kit' 7
builds 'by the first kit again' 7
is 'no words' 2 "$(status "$install")"
is 'no folder' 2 "$(status "$install" "$lib")"
is 'nothing to remove from' 2 "$(status "$install" --remove)"
is 'an option that there is not' 2 "$(status "$install" --delete prefix)"
is 'too many words' 2 "$(status "$install" "$lib" prefix other)"
is 'no library' 1 "$(status "$install" prefix prefix)"
is 'nothing was installed' '644 lib/other' "$(files "$room/prefix")"

mapfile -t commands < <(block docs/C.md sh)
is 'the commands of docs/C.md' "data-encoding/install.sh /usr/local
crates/data_encoding_c/build.sh lib
crates/data_encoding_c/install.sh lib /usr/local" \
    "$(printf '%s\n' "${commands[@]}" | grep -v '^cc ')"
is 'those that compile' 2 "$(printf '%s\n' "${commands[@]}" | grep -c '^cc ')"
block docs/C.md c >"$room/hello.c"
is 'the program of docs/C.md' $'a key\na key\ninvalid symbol at 1\nno key\nno key' \
    "$(in_room bash -c "${commands[3]} && ./hello" 2>&1)"
block docs/FORMATS.md c >"$room/hello.c"
is 'the program of docs/FORMATS.md' '91JPRV3F Hello' "$(in_room bash -c "${commands[3]} && ./hello" 2>&1)"
block README.md c >"$room/hello.c"
is 'the program of README.md' SGVsbG8= "$(in_room bash -c "${commands[3]} && ./hello" 2>&1)"

# size OPTION..: the length of the program of README.md, linked with these options.
size() {
    "$cc" "-I$lib" "$@" "$room/hello.c" "$lib/libdata_encoding.a" -s -o "$room/sized" &&
        "$room/sized" >"$room/said" && stat -c %s "$room/sized"
}

holds 'what is not called is left out' [ "$(size -Wl,--gc-sections)" -lt "$(($(size) / 2))" ]
is 'what is left prints the same' SGVsbG8= "$(cat "$room/said")"

# needs FILE: the functions that a library or an object lacks, without those of the other half.
needs() {
    nm -u "$1" | sed -n 's/^ *U //p' | grep -v '^de_\|^_GLOBAL_OFFSET_TABLE_$' | sort -u
}

# For one processor there is no choice, and the half in C needs no more than the other.
choice=$'__cpu_indicator_init\n__cpu_model\ngetenv\nstrcmp'
is 'what the library needs' "$(sort <<<$'memcpy\nmemmove\nmemset\n'"$choice")" \
    "$(needs "$lib/libdata_encoding.a")"
"$cc" "${strict[@]}" -O2 -c "$glue/data_encoding.c" -o "$room/one.o"
is 'what the choice of the processor needs' '' "$(needs "$room/one.o" | grep -Fx "$choice")"

# An installed library is found after a move, also if the name of its folder has a blank.
holds 'installs to be moved' quietly in_room "$install" "$lib" first
mkdir "$room/moved to"
mv "$room/first" "$room/moved to/usr"
moved="$room/moved to/usr"

# by_pkg_config LIB FOLDER COMMAND: what the program of README.md prints that the command builds,
# with the library in LIB and its file for pkg-config in the folder.
by_pkg_config() {
    rm -f "$room/hello"
    LD_LIBRARY_PATH=$1 PKG_CONFIG_PATH=$2 in_room bash -c "$3 && ./hello" 2>&1
}

if command -v pkg-config >/dev/null; then
    is 'pkg-config: the version' "$version" \
        "$(PKG_CONFIG_PATH=$lib pkg-config --modversion data_encoding)"
    is 'pkg-config' SGVsbG8= "$(by_pkg_config "$lib" "$lib" "${commands[1]}")"
    is 'pkg-config, of an installed library' SGVsbG8= \
        "$(by_pkg_config "$moved/lib" "$moved/lib/pkgconfig" "eval \"${commands[1]}\"")"
    multi=$room/multi/$multiarch
    is 'pkg-config, of another folder for libraries' SGVsbG8= \
        "$(by_pkg_config "$multi" "$multi/pkgconfig" "${commands[1]}")"
    is 'pkg-config: the prefix' "$(realpath "$room/multi")" \
        "$(realpath "$(PKG_CONFIG_PATH=$multi/pkgconfig pkg-config --variable=prefix data_encoding)")"
else
    skip 'the file for pkg-config: no pkg-config'
fi

# by_cmake FOLDER: what the program of README.md prints that CMake builds by its block of that page,
# with the library in the folder.
by_cmake() {
    rm -rf "$room/built"
    in_room cmake -S cmake -B built "-DCMAKE_PREFIX_PATH=$1" >"$room/said" 2>&1 &&
        in_room cmake --build built >>"$room/said" 2>&1 && "$room/built/hello" ||
        tail -n 20 "$room/said"
}

if command -v cmake >/dev/null; then
    mkdir "$room/cmake"
    cp "$room/hello.c" "$room/cmake"
    block docs/C.md cmake >"$room/cmake/CMakeLists.txt"
    is 'CMake' SGVsbG8= "$(by_cmake "$lib")"
    is 'CMake, of an installed library' SGVsbG8= "$(by_cmake "$moved")"
    is 'CMake, of another folder for libraries' SGVsbG8= "$(by_cmake "$room/multi")"
    is 'CMake takes the shared library' 1 \
        "$(readelf -d "$room/built/hello" | grep -c "NEEDED.*\[libdata_encoding\.so\.$interface\]")"
    block docs/C.md cmake | sed 's/::data_encoding/::static/' >"$room/cmake/CMakeLists.txt"
    is 'CMake, of the static library' SGVsbG8= "$(by_cmake "$moved")"
    is 'CMake takes the static library' 0 \
        "$(readelf -d "$room/built/hello" | grep -c 'NEEDED.*libdata_encoding')"
    for refused in "${version%.*}.99" 0.99 99.1; do
        block docs/C.md cmake | sed "s/data_encoding 0.1/data_encoding $refused/" \
            >"$room/cmake/CMakeLists.txt"
        is "CMake: no version $refused" 1 "$(by_cmake "$moved" |
            grep -c 'compatible with requested version')"
    done
else
    skip 'the package for CMake: no cmake'
fi

holds 'removes from another folder for libraries' in_room "$install" --libdir $multiarch --remove \
    multi
is 'nothing is left there' '' "$(files "$room/multi")"

ended
finish
