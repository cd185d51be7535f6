# The library for C, from its archives.
block "$pages/README.md" c >hello.c

# built_in PREFIX ARCH CC RUN..: the program of README.md, linked with what is installed below the
# prefix in each way, prints its text; RUN runs it.
built_in() {
    local prefix=$1 arch=$2 cc=$3 libdir=$1/lib/$2-linux-gnu words
    shift 3
    holds "$arch: by hand" quietly "$cc" -I"$prefix/include" hello.c "$libdir/libdata_encoding.a" \
        -o hello
    is "$arch: the static library" SGVsbG8= "$("$@" ./hello 2>&1)"
    words=$(PKG_CONFIG_LIBDIR=$libdir/pkgconfig pkg-config --cflags --libs data_encoding)
    holds "$arch: by pkg-config" quietly eval "$cc" hello.c "$words" -o hello
    is "$arch: the shared library" SGVsbG8= "$(LD_LIBRARY_PATH=$libdir "$@" ./hello 2>&1)"
    is "$arch: the prefix" "$(realpath "$prefix")" "$(realpath "$(
        PKG_CONFIG_LIBDIR=$libdir/pkgconfig pkg-config --variable=prefix data_encoding)")"
    if ! lacks "$arch: by CMake" cmake cmake; then
        mkdir -p cmake
        cp hello.c cmake
        block "$pages/docs/C.md" cmake >cmake/CMakeLists.txt
        rm -rf built
        holds "$arch: CMake" quietly cmake -S cmake -B built "-DCMAKE_PREFIX_PATH=$prefix" \
            "-DCMAKE_C_COMPILER=$cc" "-DCMAKE_LIBRARY_ARCHITECTURE=$arch-linux-gnu"
        holds "$arch: built by CMake" quietly cmake --build built
        is "$arch: what CMake built" SGVsbG8= "$("$@" built/hello 2>&1)"
    fi
}

# digest LIBRARY CC RUN..: what tests/c/digest.c prints with that library.
digest() {
    local library=$1 cc=$2
    shift 2
    "$cc" -std=c99 -O1 -I"$(dirname "$library")" "$pages/tests/c/digest.c" "$library" -o digest &&
        "$@" ./digest
}

# try_c ARCH CC RUN..
try_c() {
    local arch=$1 name=data-encoding-c-$version-$1-linux
    tar -xf "$files/$name.tar.gz"
    is "$arch: what the archive has" "LICENSE
data_encoding-config-version.cmake
data_encoding-config.cmake
data_encoding.h
data_encoding.pc
install.sh
libdata_encoding.a
libdata_encoding.so
libdata_encoding.so.0" "$(ls "$name")"
    holds "$arch: installs" "$name/install.sh" --libdir "lib/$arch-linux-gnu" "$room/c $arch"
    mv "$room/c $arch" "$room/c-$arch"
    built_in "$room/c-$arch" "$@"
    holds "$arch: installs in lib" "$name/install.sh" "$room/c-lib"
    holds "$arch: removes" "$name/install.sh" --remove "$room/c-lib"
    is "$arch: what is left" '' "$(find c-lib ! -type d)"
    shift
    digests+=("$(digest "$name/libdata_encoding.a" "$@")")
}

# What runs a program for ARM64 here.
foreign=(qemu-aarch64 -L /usr/aarch64-linux-gnu)
digests=()
if has 'data-encoding-c-*' && ! lacks 'the library for C' cc gcc &&
    ! lacks 'the library for C' pkg-config pkg-config; then
    try_c x86_64 cc env
    prints C
    digests+=("$(DE_CPU=baseline ./digest)")
    if ! lacks 'the library for C, aarch64' aarch64-linux-gnu-gcc gcc-aarch64-linux-gnu &&
        ! lacks 'the library for C, aarch64' qemu-aarch64 qemu-user; then
        try_c aarch64 aarch64-linux-gnu-gcc "${foreign[@]}"
    fi
    is 'the digests of the calls' 1 "$(printf '%s\n' "${digests[@]}" | sort -u | wc -l)"
    is 'the calls of the digest' 1 "$(grep -c '^[0-9]\{6,\} calls, digest ' <<<"${digests[0]}")"
fi
