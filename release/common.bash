# What the scripts of this folder share: each reads it first. They begin at the top of the
# repository; "$room" is a folder of its own, which is removed at the end.
set -euo pipefail
here=$(dirname "$(realpath "${BASH_SOURCE[0]}")")
cd "$here/.."
umask 022
export LC_ALL=C TZ=UTC

room=$(mktemp -d)
trap 'rm -rf "$room"' EXIT

version=$(sed -nE 's/^## ([0-9.]+).*/\1/p' CHANGELOG.md | head -n 1)
# All files of a release are from the day that the manual page has: a build is the same on each day.
day=$(sed -nE '1s/^\.TH BASECODE 1 ([0-9-]+) .*/\1/p' crates/basecode/basecode.1)
SOURCE_DATE_EPOCH=$(date -d "$day" +%s)
export SOURCE_DATE_EPOCH

. "$here/names.bash"
