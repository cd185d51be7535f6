# The wheels, and the sdist.

# wheel_facts FILE: what is in the wheel and what it needs, in a few lines.
wheel_facts() {
    python3 - "$1" <<'END'
import pathlib, subprocess, sys, tempfile, zipfile

with zipfile.ZipFile(sys.argv[1]) as wheel, tempfile.TemporaryDirectory() as room:
    wheel.extractall(room)
    names = wheel.namelist()
    module = pathlib.Path(room, "data_encoding/_native.abi3.so")
    text = lambda *words: subprocess.run(words, capture_output=True, text=True).stdout
    symbols = text("readelf", "-W", "--dyn-syms", str(module))
    versions = [it.split("@GLIBC_")[1].split()[0] for it in symbols.splitlines() if "@GLIBC_" in it]
    newest = max(tuple(map(int, it.split("."))) for it in versions)
    sections = text("readelf", "-W", "-S", str(module))
    dynamic = text("readelf", "-d", str(module))
    metadata = wheel.read(next(it for it in names if it.endswith(".dist-info/METADATA"))).decode()
    print("glibc", newest <= (2, 17))
    print("stripped", ".symtab" not in sections and ".debug" not in sections)
    needed = [it.split("[")[1][:-1] for it in dynamic.splitlines() if "(NEEDED)" in it]
    print("needs", [it for it in needed if not it.startswith("ld-linux-")])
    print("path", "RPATH" in dynamic or "RUNPATH" in dynamic)
    print("licence", any(it.endswith(".dist-info/LICENSE") for it in names))
    print("described", "\n\n# data-encoding\n" in metadata)
    print("python", [it for it in metadata.splitlines() if it.startswith("Requires-Python")])
END
}

if has '*.whl' && ! lacks 'the wheels' python3 python3; then
    sdist=$files/data_encoding-$version.tar.gz
    is 'the folder of the sdist' "data_encoding-$version" "$(tar -tf "$sdist" | cut -d / -f 1 | sort -u)"
    for arch in x86_64 aarch64; do
        is "the wheel for $arch" "glibc True
stripped True
needs ['libc.so.6']
path False
licence True
described True
python ['Requires-Python: >=3.9']" "$(wheel_facts \
            "$files/data_encoding-$version-cp311-abi3-manylinux_2_17_$arch.whl")"
    done
    block "$pages/README.md" python >hello.py
    if python3 -c 'import pip' 2>/dev/null; then
        python3 -m venv --without-pip --system-site-packages environment
        holds 'installs the wheel' quietly environment/bin/python3 -m pip install --no-index \
            "$files/data_encoding-$version-cp311-abi3-manylinux_2_17_x86_64.whl"
        is 'the program of README.md, in Python' SGVsbG8= "$(environment/bin/python3 hello.py 2>&1)"
        export PIP_NO_INDEX=1 PIP_BREAK_SYSTEM_PACKAGES=1
        if python3 -c 'import ensurepip' 2>/dev/null; then
            prints Python
        else
            skip 'the commands of README.md, Python: no ensurepip (python3-venv)'
        fi
        holds 'the tests of the package' quietly environment/bin/python3 \
            "$pages/bindings/python/tests/test_data_encoding.py"
        is 'what the sdist lacks' 1 "$(environment/bin/python3 -m pip wheel --no-index --no-deps \
            --no-build-isolation --wheel-dir wheels "$sdist" 2>&1 |
            grep -c 'DATA_ENCODING_DIR has to be .*libdata_encoding\.a')"
        if [ -d "$room/c-x86_64" ] && ! lacks 'the sdist' cc gcc &&
            python3 -c 'import setuptools, wheel' 2>/dev/null; then
            cp "$room/c-x86_64/include/data_encoding.h" "$room/c-x86_64/lib/x86_64-linux-gnu"
            holds 'the sdist, with the library' quietly env \
                "DATA_ENCODING_DIR=$room/c-x86_64/lib/x86_64-linux-gnu" environment/bin/python3 -m pip \
                wheel --no-index --no-deps --no-build-isolation --wheel-dir wheels "$sdist"
        fi
    else
        skip 'the wheel: no pip (python3-pip)'
    fi
    if [ -z "$ARM64_ROOT" ]; then
        skip 'the wheel, aarch64: no Python for it (tests/arm64-root)'
    elif ! lacks 'the wheel, aarch64' qemu-aarch64 qemu-user; then
        mkdir site
        python3 -m zipfile -e \
            "$files/data_encoding-$version-cp311-abi3-manylinux_2_17_aarch64.whl" site
        arm_python() {
            qemu-aarch64 -L "$ARM64_ROOT" -E "PYTHONHOME=$ARM64_ROOT/usr" -E "PYTHONPATH=$room/site" \
                -E PYTHONDONTWRITEBYTECODE=1 "$ARM64_ROOT/usr/bin/python3.11" "$@"
        }
        is 'the program of README.md, in Python, aarch64' SGVsbG8= "$(arm_python hello.py 2>&1)"
        for tests in test_data_encoding test_compat; do
            holds "the package, aarch64, $tests" quietly arm_python \
                "$pages/bindings/python/tests/$tests.py"
        done
    fi
fi
