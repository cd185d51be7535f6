#!/usr/bin/env bash
# Builds the package for Python with the library for C in it, installs it, and runs its tests and
# the blocks of docs/PYTHON.md. Nothing is taken from a network, and nothing is written into
# bindings/.
#
# usage: tests/python.sh [LIB]: where build.sh left the library; it is built if no folder is
# given.
. "$(dirname "$0")/common.bash" || exit 1

cc=${CC:-cc}

# lacking PYTHON: what it lacks to build a package, in a few words; nothing if it lacks nothing.
lacking() {
    "$1" - <<'END'
import importlib.util, os, sys, sysconfig
missing = []
if sys.version_info < (3, 11):
    missing.append("Python 3.11")
if not os.path.exists(os.path.join(sysconfig.get_paths()["include"], "Python.h")):
    missing.append("Python.h (python3-dev)")
for module in ("pip", "setuptools", "wheel"):
    if importlib.util.find_spec(module) is None:
        missing.append(f"{module} (python3-{module})")
print(", ".join(missing))
END
}

if ! command -v "$cc" >/dev/null; then
    skip "the package for Python: no $cc"
    finish
fi
find_python
if [ -z "$python" ]; then
    skip "the package for Python: no ${missing:-python3}"
    finish
fi

find_library "$@"
words=$(printed)
mkdir "$room/bindings"
cp -r bindings/python "$room/bindings"
rm -rf "$room/bindings/python"/{build,src/*.egg-info}
cd "$room" || exit 1
export DATA_ENCODING_DIR=$lib
export PIP_DISABLE_PIP_VERSION_CHECK=1 PIP_ROOT_USER_ACTION=ignore PYTHONDONTWRITEBYTECODE=1

include=$("$python" -c 'import sysconfig; print(sysconfig.get_paths()["include"])')
holds 'the half in C' quietly "$cc" -std=c99 -Wall -Wextra -Wpedantic -Werror "-I$lib" \
    -isystem "$include" -c bindings/python/src/data_encoding/_native.c -o native.o

wanted="DATA_ENCODING_DIR has to be the absolute path of a folder with libdata_encoding.a: unpack \
data-encoding-c-*.tar.gz of a release, or run \`crates/data_encoding_c/build.sh FOLDER\` in the sources \
of Bamsturk"
for folder in '' "$room" lib; do
    given=$(cd bindings/python && DATA_ENCODING_DIR=$folder PYTHONWARNINGS=ignore "$python" setup.py -q \
        build_ext 2>&1)
    is "without a library in '$folder'" "$wanted" "$given"
done
mkdir -p old/setuptools/command
echo 'Extension = setup = None; __version__ = "60.10.0"' >old/setuptools/__init__.py
echo 'build_ext = object' >old/setuptools/command/build_ext.py
is 'an old setuptools' \
    'setuptools 60.10.0 is too old: run `pip install "setuptools>=61" wheel` first' \
    "$(cd bindings/python && PYTHONPATH=$room/old "$python" setup.py -q build_ext 2>&1)"
is 'an sdist, which needs none' "data_encoding-$version" \
    "$(cd bindings/python && env -u DATA_ENCODING_DIR "$python" setup.py -q sdist --dist-dir .. \
        >/dev/null 2>&1 && tar -tf ../data*"$version.tar.gz" | head -n 1 | tr -d / | tr - _ |
        sed "s/_$version/-$version/")"
rm -rf bindings/python/src/*.egg-info bindings/python/build

offline=(--no-build-isolation --no-index --no-deps)
holds 'a wheel' quietly "$python" -m pip wheel "${offline[@]}" --wheel-dir wheels ./bindings/python
is 'the build that pip keeps' 1 "$(find bindings/python/build -name '_native*.so' | wc -l)"
is 'the name of the wheel' 1 "$(ls wheels | grep -c "^data_encoding-$version-cp311-abi3-")"
holds 'an installed wheel' quietly "$python" -m pip install "${offline[@]}" --no-compile \
    --target site wheels/*.whl
is 'what is installed' $'__init__.py\n_native.abi3.so\n_native.pyi\ncompat.py\npy.typed' \
    "$(ls site/data_encoding)"
is 'what the module gives' PyInit__native \
    "$(nm -D --defined-only site/data_encoding/_native.abi3.so | sed 's/.* //')"

# A build that was kept is not taken in place of a library without calls, be it newer or older.
mkdir empty
cp lib/data_encoding.h empty
for time in now 2020-01-01; do
    : >empty/libdata_encoding.a
    touch -d "$time" empty/*
    is "a build with an empty library of $time" 1 \
        "$(DATA_ENCODING_DIR=$room/empty "$python" -m pip wheel "${offline[@]}" \
            --wheel-dir refused ./bindings/python 2>&1 |
            grep -c "required symbol .de_version. not defined")"
    is "no wheel with an empty library of $time" '' "$(ls refused 2>/dev/null)"
done

# Nothing is needed of the library once the wheel is built.
export PYTHONPATH=$room/site
unset DATA_ENCODING_DIR
is 'the versions of the module and of the wheel' "$version $version" "$("$python" -c '
import importlib.metadata, data_encoding
print(data_encoding.__version__, importlib.metadata.version("data-encoding"))')"
if command -v qemu-x86_64 >/dev/null; then
    is 'an older processor' 'data_encoding needs an x86-64-v2 processor' "$(qemu-x86_64 -cpu core2duo \
        "$("$python" -c 'import os, sys; print(os.path.realpath(sys.executable))')" -c '
try:
    import data_encoding
except ImportError as error:
    print(error)' 2>&1)"
else
    skip 'the package on an older processor: no qemu-x86_64 (qemu-user)'
fi
tests=(bindings/python/tests/test_data_encoding.py bindings/python/tests/test_compat.py)

# try_with PYTHON NAME: runs the tests of the package with a Python.
try_with() {
    holds "the tests of $2" quietly "$1" "${tests[0]}"
    holds "the tests of the module compat of $2" quietly "$1" "${tests[1]}"
    "$1" -c 'import test.test_base64' 2>/dev/null ||
        skip "the standard library's tests of base64: $1 has none (libpython3.11-testsuite)"
}

# pythons: the paths of the other Pythons here.
pythons() {
    local found which='import os, sys; print(os.path.realpath(sys.executable))'
    for found in python3 /usr/bin/python3 python3.{9,10,11,12,13,14} \
        "${PYENV_ROOT:-$HOME/.pyenv}"/versions/3.*/bin/python3; do
        "$found" -c "$which" 2>/dev/null
    done | sort -u | grep -vxF "$("$python" -c "$which")"
}

# is_from PYTHON MINOR: whether it is Python 3.MINOR or newer.
is_from() {
    "$1" -c "import sys; sys.exit(sys.version_info < (3, $2))"
}

try_with "$python" 'the package'
# The wheel serves any other Python from 3.11 on. An older one has a module built with it, and with
# this setuptools, since its own may be too old.
mkdir newer
"$python" -c '
import pathlib, setuptools
where = pathlib.Path(setuptools.__path__[0]).parent
names = ["setuptools", "pkg_resources", "_distutils_hack"]
names += [it.name for it in where.glob("setuptools-*-info")]
for name in names:
    pathlib.Path("newer", name).symlink_to(where / name)
'
for other in $(pythons); do
    if is_from "$other" 11; then
        try_with "$other" "the package with $other"
    elif is_from "$other" 9 && "$other" -c 'import setuptools' 2>/dev/null; then
        cp -r bindings/python older
        cp -r older/src site-older
        (cd older && DATA_ENCODING_DIR=$lib PYTHONPATH=$room/newer quietly "$other" setup.py -q \
            build_ext --build-lib ../site-older) || fail "a module for $other"
        PYTHONPATH=$room/site-older try_with "$other" "the module for $other"
        rm -r older site-older
    fi
done

cat >words.py <<'END'
from data_encoding import BASE64, DecodeError, Encoding

for text in ("Zm9vY", "Zm9v!m9v", "Zm9vZh==", "Zm9v===="):
    try:
        BASE64.decode(text)
    except DecodeError as error:
        print(error)
for asked in (
    {"symbols": "abc"},
    {"symbols": "\u00e9"},
    {"symbols": "cc"},
    {"symbols": "01", "padding": "="},
    {"symbols": "01", "wrap": (256, "\n")},
    {"symbols": "01", "wrap": (9, "\n")},
    {"symbols": "01", "translate": ("a", "01")},
    {"symbols": "01", "translate": ("a", "c")},
):
    try:
        Encoding(**asked)
    except ValueError as error:
        print(error)
END
is 'the words of docs/FORMATS.md' "$words" "$("$python" words.py | without_number)"

# Where the characters of a str are not found, a text is copied.
cp -r bindings/python copying
cp -r copying/src site-copying
(cd copying && DATA_ENCODING_DIR=$lib CFLAGS=-DHEADER_LIMIT=0 quietly "$python" setup.py -q \
    build_ext --build-lib ../site-copying) || fail 'a module that copies texts'
PYTHONPATH=$room/site-copying holds 'the tests of a module that copies texts' \
    quietly "$python" "${tests[0]}"

if command -v mypy >/dev/null; then
    MYPYPATH=site holds 'its types' quietly mypy --strict --cache-dir mypy site/data_encoding \
        "${tests[@]}"
    cat >wrong.py <<'END'
import io, sys
from data_encoding import BASE64, compat

compat.b64decode(5)
compat.b64encode("text")
compat.encodebytes("text")
compat.decodebytes("text")
BASE64.encode_stream(io.BytesIO(), 5)
BASE64.encode_stream(io.BytesIO(), sys.stdout)
BASE64.encode_stream(io.BytesIO(), sys.stdout.buffer)
print(compat.b64encode(memoryview(b"data"), b"-_"), compat.b64decode(bytearray(b"Zm9v"), "-_"))
END
    is 'the lines with a wrong type' $'4\n5\n6\n7\n8' "$(MYPYPATH=site mypy --strict --cache-dir mypy \
        wrong.py | sed -n 's/^wrong.py:\([0-9]*\): error.*/\1/p')"
else
    skip 'the types of the package: no mypy'
fi

page=$OLDPWD/docs/PYTHON.md
commands=$(block "$page" sh)
is 'the first command of docs/PYTHON.md' 'crates/data_encoding_c/build.sh /opt/bamsturk' \
    "${commands%%$'\n'*}"
commands=${commands#*$'\n'}
commands=${commands//\/opt\/bamsturk/$lib}
python3() {
    "$python" "$@"
}
export -f python3
export python PIP_NO_INDEX=1
holds 'the commands of docs/PYTHON.md' quietly bash -ec "$commands"
block "$page" python >hello.py
is 'the program of docs/PYTHON.md' "$(block "$page" text)" \
    "$(env -u PYTHONPATH environment/bin/python3 hello.py 2>&1)"
block "$OLDPWD/docs/FORMATS.md" python >hello.py
is 'the program of docs/FORMATS.md' '91JPRV3F Hello' \
    "$(env -u PYTHONPATH environment/bin/python3 hello.py 2>&1)"
block "$OLDPWD/README.md" python >hello.py
is 'the program of README.md' SGVsbG8= \
    "$(env -u PYTHONPATH environment/bin/python3 hello.py 2>&1)"

finish
