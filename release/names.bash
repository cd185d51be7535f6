# The processors of a release, and what is named by them.

architectures='x86_64 aarch64'

# triple ARCH: as Debian's tools and folders name it; debian ARCH: as its packages do.
triple() {
    echo "$1-linux-gnu"
}
debian() {
    case $1 in
    x86_64) echo amd64 ;;
    aarch64) echo arm64 ;;
    esac
}

# tool ARCH NAME: the tool of the C compiler's family for that processor.
tool() {
    if [ "$1" = "$(uname -m)" ]; then
        case $2 in
        gcc) echo cc ;;
        *) echo "$2" ;;
        esac
    else
        echo "$(triple "$1")-$2"
    fi
}

# newest_glibc FILE..: the newest version of glibc from which the files take a name.
newest_glibc() {
    readelf -W --dyn-syms "$@" | grep -o '@GLIBC_[0-9.]*' | sed 's/@GLIBC_//' | sort -uV | tail -n 1
}

# python_headers: the folder that has the header of Python for ARM64, which is called at the top of
# the repository: that of this machine, or that of `tests/arm64-root`.
python_headers() {
    local folder
    for folder in /usr/include "$(tests/arm64-root)/usr/include"; do
        if [ -f "$folder/aarch64-linux-gnu/python3.11/pyconfig.h" ]; then
            echo "$folder"
            return
        fi
    done
}

# rust_library FOLDER: the folder that has Rust's own library for ARM64, of the version of
# /usr/bin/rustc: /usr, or that in a folder of `tests/arm64-root`. It fails where there is none.
rust_library() {
    local folder
    for folder in /usr "$1/usr"; do
        if [ -d "$folder/lib/rustlib/aarch64-unknown-linux-gnu" ] && [ -x /usr/bin/rustc ] &&
            /usr/bin/rustc --target aarch64-unknown-linux-gnu --sysroot "$folder" --crate-type lib \
                --emit metadata -o "$room/tried" - </dev/null 2>/dev/null; then
            echo "$folder"
            return
        fi
    done
    return 1
}
