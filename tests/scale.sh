#!/usr/bin/env bash
# Runs the program that docs/SCALE.md describes, and its functions with faulty texts and with workers
# that die, on a cluster of two processes. It is skipped where there is no Dask.
#
# usage: [SCALE_LARGE=1] tests/scale.sh [LIB]: where build.sh left the library for C; it is built if
# no folder is given. With SCALE_LARGE=1 the memory that 1 and 4 GiB take is compared, by hand: that
# takes 14 GB of disk and minutes.
. "$(dirname "$0")/common.bash" || exit 1

# lacking PYTHON: why it can't build the package or make a cluster, in a line; nothing if it can.
lacking() {
    "$1" -W ignore -c '
import setuptools, distributed, fsspec, pip, sysconfig, wheel
open(sysconfig.get_paths()["include"] + "/Python.h")' 2>&1 | tail -n 1
}

find_python
if [ -z "$python" ] || ! command -v "${CC:-cc}" >/dev/null; then
    skip "the cluster of docs/SCALE.md: ${missing:-no python3 or no ${CC:-cc}}"
    finish
fi

commands=$(block docs/SCALE.md sh 'On a cluster')
is 'the commands of docs/SCALE.md' 2 "$(grep -c '^python3 cluster.py ' <<<"$commands")"
find_library "$@"
cp -r bindings/python "$room/package"
rm -rf "$room/package"/{build,src/*.egg-info}
cp bindings/python/examples/cluster.py "$room/parts.py"
test=$(realpath tests/scale.py)
cd "$room" || exit 1
export PIP_DISABLE_PIP_VERSION_CHECK=1 PIP_ROOT_USER_ACTION=ignore PYTHONDONTWRITEBYTECODE=1

holds 'the package' quietly env DATA_ENCODING_DIR="$lib" "$python" -m pip install \
    --no-build-isolation --no-index --no-deps --no-compile --target site ./package
export PYTHONPATH=$room/site:$room DASK_TEMPORARY_DIRECTORY=$room

head -c 67108864 /dev/urandom >input
"$python" -c '
import sys
from data_encoding import BASE64
sys.stdout.write(BASE64.encode(sys.stdin.buffer.read()))' <input >whole
# At the limit of time a program ends with all its processes.
commands=$(sed 's/ --scheduler .*//; s:^python3 cluster.py :timeout -k 5 60 "$python" parts.py :' <<<"$commands")
holds 'the commands of docs/SCALE.md' quietly env python="$python" bash -e -c "$commands"
holds 'what they encode' cmp whole text
holds 'what they decode' cmp input back
printf 'SGVs!G8=' >faulty
is 'a fault' 'faulty: invalid symbol at 4' "$(timeout -k 5 60 "$python" parts.py decode faulty back 2>&1 | tail -n 1)"
if [ "${SCALE_LARGE-}" = 1 ]; then
    holds 'its memory' timeout -k 5 900 "$python" "$test" OfMemory
    cat peaks
    finish
fi
holds 'its memory' quietly timeout -k 5 60 "$python" "$test" OfMemory
holds 'its functions' quietly timeout -k 5 180 "$python" "$test" OnACluster OfSmallParts
is 'what is left of its processes' '' "$(cat workers | xargs -r ps -o pid= -p)"

finish
