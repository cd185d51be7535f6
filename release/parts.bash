# The parts of a release: each function makes the files of one in "$target".

make_program() {
    local name=basecode-$version-x86_64-linux
    local tree=$room/trees/$name
    local out=crates/basecode/out
    quietly tests/find-program
    quietly crates/basecode/install.sh --cpu x86-64-v3 "$room/wide"
    mkdir -p "$tree/bin"
    strip -o "$tree/bin/basecode" "$out/basecode"
    strip -o "$tree/bin/basecode-x86-64-v3" "$out/basecode-x86-64-v3"
    cp -r crates/basecode/{basecode.1,completions} LICENSE "$tree"
    alone crates/basecode/install.sh >"$tree/install.sh"
    chmod 755 "$tree/install.sh"
    archive "$name"
    debian_program "$tree"
}

# build_libraries: the library for each processor, in "$room/c-ARCH", unless they are there.
build_libraries() {
    local arch
    for arch in $architectures; do
        [ ! -d "$room/c-$arch" ] || continue
        crates/data_encoding_c/build.sh --target "$arch" "$room/c-$arch"
        "$(tool "$arch" strip)" --strip-unneeded "$room/c-$arch"/libdata_encoding.so.*
    done
}

make_c() {
    local arch name tree
    build_libraries
    for arch in $architectures; do
        name=data-encoding-c-$version-$arch-linux
        tree=$room/trees/$name
        mkdir "$tree"
        cp -P "$room/c-$arch"/* "$tree"
        alone crates/data_encoding_c/install.sh >"$tree/install.sh"
        chmod 755 "$tree/install.sh"
        archive "$name"
        debian_library "$arch" "$tree"
    done
}

# The crate has a name of its own here, and the version of this release: under the name in the
# sources it takes the place of another crate. The tree has it under that name, too.
make_rust() {
    local arch name=bamsturk-data-encoding
    local tree=$room/trees/data-encoding-rust-$version
    build_libraries
    mkdir -p "$tree/data-encoding"
    cp -r bindings/rust/{Cargo.toml,README.md,src} LICENSE "$tree/data-encoding"
    cp -r bindings/rust/sys "$tree/data-encoding"
    cp LICENSE "$tree/data-encoding/sys"
    for arch in $architectures; do
        mkdir -p "$tree/data-encoding/sys/lib/$arch-unknown-linux-gnu"
        cp "$room/c-$arch/libdata_encoding.a" "$tree/data-encoding/sys/lib/$arch-unknown-linux-gnu"
    done
    archive "data-encoding-rust-$version"

    mkdir "$room/workspace"
    cp -r "$tree/data-encoding" "$room/workspace/$name"
    mv "$room/workspace/$name/sys" "$room/workspace/$name-sys"
    sed -i -e "s/^name = .*/name = \"$name\"/" -e '/^publish = /d' \
        -e "0,/^version = .*/s//version = \"$version\"/" -e 's:path = "sys":path = "../'"$name-sys"'":' \
        -e 's/^\[dependencies\]$/[lib]\nname = "data_encoding"\n\n&/' "$room/workspace/$name/Cargo.toml"
    sed -i '/^publish = /d' "$room/workspace/$name-sys/Cargo.toml"
    printf '[workspace]\nresolver = "2"\nmembers = ["%s", "%s-sys"]\n' "$name" "$name" \
        >"$room/workspace/Cargo.toml"
    quietly env -u DATA_ENCODING_DIR "CARGO_TARGET_DIR=$room/packaged" CARGO_NET_OFFLINE=true cargo \
        package --workspace --manifest-path "$room/workspace/Cargo.toml"
    cp "$room/packaged/package"/*.crate "$target"
}

# wheel ARCH: the wheel for that processor.
wheel() {
    local cc flags='-O2 -g0'
    cc=$(tool "$1" gcc)
    [ "$1" != aarch64 ] || flags+=" -idirafter $(python_headers)"
    rm -rf "$room/python/build"
    (cd "$room/python" && quietly env "DATA_ENCODING_DIR=$room/c-$1" "CC=$cc" \
        "LDSHARED=$cc -shared" "CFLAGS=$flags" LDFLAGS=-s "_PYTHON_HOST_PLATFORM=linux-$1" \
        /usr/bin/python3 setup.py bdist_wheel --plat-name "manylinux_2_17_$1" --dist-dir "$target")
}

make_python() {
    local arch name=data_encoding-$version
    build_libraries
    mkdir "$room/python"
    cp -r bindings/python/{pyproject.toml,setup.py,README.md,src} LICENSE "$room/python"
    for arch in $architectures; do
        wheel "$arch"
    done
    (cd "$room/python" && quietly env -u DATA_ENCODING_DIR /usr/bin/python3 setup.py sdist \
        --formats=tar --dist-dir "$room")
    # The name of an sdist and of its folder has `_` by their standard. Older versions of setuptools
    # write `-`.
    mkdir "$room/trees/$name"
    tar -C "$room/trees/$name" --strip-components=1 -xf "$room"/data?encoding-"$version.tar"
    archive "$name"
}

make_javascript() {
    bindings/javascript/build.sh "$room/package"
    (cd "$target" && quietly env npm_config_offline=true npm_config_update_notifier=false \
        "npm_config_cache=$room/npm" npm pack --silent "$room/package")
    web/build.sh "$target" "$room/package"
}
