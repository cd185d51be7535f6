#!/usr/bin/env bash
# Builds the files of a release, as far as the tools for it are here, and uses each without the
# toolchain.
#
# usage: tests/release.sh
. "$(dirname "$0")/common.bash" || exit 1

# Names of files with a version.
named='[a-z_]+[-_]0\.[0-9]+\.[0-9]+[-_./a-z0-9]*'
files=$(grep -hoE "$named" README.md docs/*.md | sort -u)
is 'the versions in names of files' '' "$(grep -vE "[a-z][-_]${version//./\\.}" <<<"$files")"
[ -n "$files" ] || fail 'no page names a file with a version'
is 'the versions of the crate that links' "$version $version" \
    "$(sed -n 's/^version = "\(.*\)"$/\1/p' bindings/rust/sys/Cargo.toml) \
$(sed -n 's/^bamsturk-data-encoding-sys = { version = "\([^"]*\)".*/\1/p' bindings/rust/Cargo.toml)"

# tag_in WORD..: release/tag with these words, in a repository of its own.
tag_in() {
    (cd "$room/tagged" && GIT_CONFIG_GLOBAL=/dev/null release/tag "$@" "$room/few" 2>&1)
}

# in_tagged WORD..: git there.
in_tagged() {
    GIT_CONFIG_GLOBAL=/dev/null git -C "$room/tagged" -c user.name=A -c user.email=a@b.example "$@"
}

# list PART..: the list for the files there, and the sums.
list() {
    (cd "$room/tagged" && SOURCE_DATE_EPOCH=0 python3 release/contents.py "$version" "$room/few" "$@" \
        >"$room/list" && cd "$room/few" && mv "$room/list" "bamsturk-$version.spdx.json" &&
        sha256sum -- [!S]* >SHA256SUMS)
}

# The tag, of a commit with two files.
export GIT_COMMITTER_NAME=A GIT_COMMITTER_EMAIL=a@b.example
parts='program c rust python javascript'
mkdir "$room/few" "$room/tagged"
cp -r release CHANGELOG.md "$room/tagged"
sed -i "1,/^## /s/^## .*/## $version (unreleased)/" "$room/tagged/CHANGELOG.md"
in_tagged init --quiet
in_tagged add .
in_tagged commit --quiet --message=none
touch "$room/few/"{one,other}
list $parts
is 'a version that is unreleased' "release/tag: CHANGELOG.md has $version as unreleased" "$(tag_in)"
sed -i "s/^## $version .*/## $version/" "$room/tagged/CHANGELOG.md"
in_tagged commit --quiet --all --message=one
list $parts
is 'the message of the tag' "Bamsturk $version

$(cat "$room/few/SHA256SUMS")" "$(tag_in --print)"
is 'no tag by --print' '' "$(in_tagged tag -l)"
is 'what tags' "tagged: to publish it, \`git push origin v$version\`" "$(tag_in)"
is 'the tag is of this commit' "$(in_tagged rev-parse HEAD) tag" \
    "$(in_tagged rev-parse "v$version^{commit}") $(in_tagged cat-file -t "v$version")"
in_tagged tag -l '--format=%(contents:body)' "v$version" >"$room/sums"
holds 'its message has the sums' quietly env -C "$room/few" sha256sum --check --strict "$room/sums"
is 'how many sums it has' 3 "$(grep -c . "$room/sums")"
is 'a tag is not moved' "fatal: tag 'v$version' already exists" "$(tag_in)"
in_tagged tag -d "v$version" >"$room/said"
list program c
is 'a part is lacking' "release/tag: bamsturk-$version.spdx.json has not all parts" "$(tag_in)"
list $parts
touch "$room/few/third"
is 'a file without a sum' "release/tag: a file of $room/few has no sum" "$(tag_in)"
rm "$room/few/third"
echo >"$room/few/other"
is 'another file' "release/tag: the files of $room/few are not those of SHA256SUMS" \
    "$(tag_in | grep ^release)"
list $parts
in_tagged commit --quiet --allow-empty --message=two
is 'files of another commit' \
    "release/tag: bamsturk-$version.spdx.json names another commit than this one" "$(tag_in)"
touch "$room/tagged/third"
is 'changes' 'release/tag: this checkout has changes' "$(tag_in)"
is 'no tag by what is refused' '' "$(in_tagged tag -l)"

options=()
for part in program c rust python javascript; do
    if release/build --lacks "$part" >"$room/lacking"; then
        options+=(--only "$part")
    else
        skip "the files of $part: $(tr '\n' ';' <"$room/lacking")"
    fi
done
if [ ${#options[@]} = 0 ]; then
    finish
fi
holds 'the files of a release' quietly release/build "${options[@]}" "$room/files"
holds 'their use' quietly release/check "$room/files"
while read -r line; do
    skip "their use: ${line#skipped: }"
done < <(grep '^skipped: ' "$room/said")

# field SCRIPT: what the script of Python prints of the list of what went in, `it`.
field() {
    python3 -c "import json, sys
it = json.load(open(sys.argv[1]))
print($1)" "$room/files/bamsturk-$version.spdx.json"
}

# first COMMAND..: the first line that it prints.
first() {
    "$@" 2>/dev/null | sed -n 1p
}

commit='no commit'
if head=$(git rev-parse HEAD 2>/dev/null); then
    commit="commit $head"
    [ -z "$(git status --porcelain)" ] || commit+=', with changes'
fi
is 'the commit in the list' "This repository: $commit." "$(field 'it["packages"][0]["comment"]')"
is 'the toolchain in the list' "$(first rt version)" \
    "$(field '*{p["versionInfo"] for p in it["packages"][1:] if "versionInfo" in p}')"
kit=$(dirname "$(first rt doc)")/toolchain/bin
is 'the tools in the list' "rt: $(first rt version)
clang: $(first "$kit/clang" --version)
ld.lld: $(first "$kit/ld.lld" --version)
$(for tool in cc aarch64-linux-gnu-gcc ld dpkg-deb cargo; do
    said=$(first $tool --version)
    echo "$tool: ${said:-none}"
done)
python3: setuptools $(first /usr/bin/python3 -c 'import setuptools; print(setuptools.__version__)') \
wheel $(first /usr/bin/python3 -c 'import wheel; print(wheel.__version__)')
$(for tool in npm wasm-opt; do
    said=$(first $tool --version)
    echo "$tool: ${said:-none}"
done)" "$(field 'it["creationInfo"]["comment"]')"

# compared FOLDER: what the comparison of the list with the files says at last.
compared() {
    python3 release/checks/contents.py "$1/bamsturk-$version.spdx.json" LICENSE 2>&1 | tail -n 1
}

# wrong NAME EDIT: the list that the edit of sed makes is refused.
wrong() {
    sed "$2" "$room/files/bamsturk-$version.spdx.json" >"$room/wrong/bamsturk-$version.spdx.json"
    [[ $(compared "$room/wrong") == *Error* ]]
    is "a list with $1" 0 $?
}

if [ ${#options[@]} = 10 ]; then
    mkdir "$room/wrong"
    ln -s "$room/files"/* "$room/wrong"
    rm "$room/wrong"/*.json
    wrong 'another sum' '0,/"checksumValue": "/s//&0/'
    wrong 'another file' '0,/"fileName": "/s//&x/'
    wrong 'another kind' 's/"STATIC_LINK"/"GENERATES"/'
    wrong 'another version' '0,/"versionInfo": "/s//&1/'
    wrong 'another licence' '0,/"licenseConcluded": "MIT"/s//"licenseConcluded": "ISC"/'
    wrong 'a part less' 's/It is in: program, c, python\./It is in: program, c./'
    wrong 'a part more' 's/It is in: program, c, python\./It is in: program, c, rust, python./'
    wrong 'another linker' 's/ld\.lld: LLD /&1/'
    wrong 'another toolchain' 's/: "rt: .* logic /&0/'
    wrong 'another C compiler' 's/\\ncc: /&other /'
    wrong 'another C compiler for ARM64' 's/-gcc: /&other /'
    wrong 'another version of what makes wheels' 's/ wheel [0-9]/& /'
    echo >"$room/wrong/basecode.htm"
    wrong 'a file that it lacks' ''
    rm "$room/wrong/basecode.htm" "$room/wrong/basecode.html"
    wrong 'a file that is not there' ''
fi
finish
