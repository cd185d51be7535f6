"""Builds the extension module, with the library for C in the folder that DATA_ENCODING_DIR names."""

import os
import sys

import setuptools
from setuptools import Extension, setup
from setuptools.command.build_ext import build_ext

ARCHIVE = "libdata_encoding.a"
# From Python 3.11 on the stable interface has the buffer protocol. A module that is built with an
# older Python is for that version.
STABLE = sys.version_info >= (3, 11)
ABI = "cp311"

# An older one ignores `[project]` of pyproject.toml, and installs an empty package UNKNOWN.
OLDEST_SETUPTOOLS = 61

found = setuptools.__version__.split(".")[0]
if found.isdigit() and int(found) < OLDEST_SETUPTOOLS:
    sys.exit(
        f"setuptools {setuptools.__version__} is too old: "
        f'run `pip install "setuptools>={OLDEST_SETUPTOOLS}" wheel` first'
    )


def folder() -> str:
    found = os.environ.get("DATA_ENCODING_DIR", "")
    if not os.path.isabs(found) or not os.path.isfile(os.path.join(found, ARCHIVE)):
        sys.exit(
            f"DATA_ENCODING_DIR has to be the absolute path of a folder with {ARCHIVE}: unpack "
            "data-encoding-c-*.tar.gz of a release, or run `crates/data_encoding_c/build.sh FOLDER` "
            "in the sources of Bamsturk"
        )
    return found


class BuildWithLibrary(build_ext):
    """Nothing but a build needs the library: an sdist is made without."""

    def finalize_options(self) -> None:
        super().finalize_options()
        # pip keeps build/, and DATA_ENCODING_DIR may name another folder by now, with an older
        # library: so times don't say whether a module that is there has this library in it.
        self.force = True

    def build_extension(self, ext: Extension) -> None:
        library = folder()
        ext.include_dirs.append(library)
        ext.extra_objects.append(os.path.join(library, ARCHIVE))
        super().build_extension(ext)


setup(
    cmdclass={"build_ext": BuildWithLibrary},
    ext_modules=[
        Extension(
            "data_encoding._native",
            ["src/data_encoding/_native.c"],
            define_macros=[("Py_LIMITED_API", "0x030B0000")] if STABLE else [],
            # The second saves a jump for each call of Python's.
            extra_compile_args=["-std=c99", "-fno-plt"],
            # Without the second, an empty archive would be linked.
            extra_link_args=["-Wl,--exclude-libs,ALL", "-Wl,--require-defined=de_version"],
            py_limited_api=STABLE,
        )
    ],
    options={"bdist_wheel": {"py_limited_api": ABI}} if STABLE else {},
)
