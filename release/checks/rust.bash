# The crates for Rust: both by their own names, and the one that takes another's place.

# cargo_in FOLDER WORD..
cargo_in() {
    env -C "$1" "$CARGO" "${@:2}"
}

# new_program FOLDER: a package with the program of README.md; the rest of its Cargo.toml is read
# from standard input.
new_program() {
    mkdir -p "$1/src"
    block "$pages/README.md" rust Rust >"$1/src/main.rs"
    {
        printf '[package]\nname = "hello"\nversion = "0.1.0"\nedition = "2021"\n'
        cat
    } >"$1/Cargo.toml"
}

if has '*.crate' && ! lacks 'the crates for Rust' "${CARGO:-cargo}" cargo; then
    export CARGO_NET_OFFLINE=true CARGO_TERM_COLOR=never CARGO_TARGET_DIR=$room/rust-target
    mkdir crates
    for crate in "$files"/*.crate; do
        tar -C crates -xf "$crate"
    done
    tar -C crates -xf "$files/data-encoding-rust-$version.tar.gz"
    name=bamsturk-data-encoding
    block "$pages/docs/RUST.md" toml 'The crate files' | new_program crates/by-path
    is 'a program with the crate, as docs/RUST.md says' SGVsbG8= "$(cargo_in crates/by-path run --quiet 2>&1)"
    cargo() {
        "$CARGO" "$@"
    }
    export CARGO "RUSTUP_HOME=$HOME/.rustup" "CARGO_HOME=$HOME/.cargo"
    export -f cargo
    prints Rust
    new_program crates/by-patch <<END
[dependencies]
data-encoding = "2"

[patch.crates-io]
data-encoding = { path = "../data-encoding-rust-$version/data-encoding" }
END
    is 'a program with another crate in its place' SGVsbG8= \
        "$(cargo_in crates/by-patch run --quiet 2>&1)"
    # Another target: the libraries are not for it.
    mv "crates/$name-sys-$version/lib/x86_64-unknown-linux-gnu" \
        "crates/$name-sys-$version/lib/sparc64-unknown-linux-gnu"
    holds 'checks for a target without a library' quietly cargo_in crates/by-path check
    holds 'documentation for a target without a library' quietly cargo_in crates/by-path doc
    is 'the target that has none is named' 1 "$(cargo_in crates/by-path build 2>&1 |
        grep -c '^error: could not find native static library `data_encoding-for-x86_64-unknown-linux-gnu`')"
    if ! lacks 'the crate for Rust, aarch64' aarch64-linux-gnu-gcc gcc-aarch64-linux-gnu &&
        ! lacks 'the crate for Rust, aarch64' qemu-aarch64 qemu-user; then
        if sysroot=$(rust_library "$ARM64_ROOT"); then
            export CARGO_TARGET_AARCH64_UNKNOWN_LINUX_GNU_LINKER=aarch64-linux-gnu-gcc
            export CARGO_TARGET_AARCH64_UNKNOWN_LINUX_GNU_RUNNER="${foreign[*]}"
            export CARGO_TARGET_AARCH64_UNKNOWN_LINUX_GNU_RUSTFLAGS=--sysroot=$sysroot
            is 'a program with the crate, aarch64' SGVsbG8= \
                "$(RUSTC=/usr/bin/rustc cargo_in crates/by-path run --quiet \
                    --target aarch64-unknown-linux-gnu 2>&1)"
        else
            skip 'the crate for Rust, aarch64: no rustc with a library for it (tests/arm64-root)'
        fi
    fi
fi
