# Packages for Debian and what is like it. Each function makes some of one tree of the release.

# put_deb NAME ARCH: the package of "$room/deb/NAME", which has its files; the rest of its control
# file is read from standard input.
put_deb() {
    local tree=$room/deb/$1
    local file=$target/${1}_${version}_$2.deb
    mkdir -p "$tree/DEBIAN" "$tree/usr/share/doc/$1"
    cp LICENSE "$tree/usr/share/doc/$1/copyright"
    {
        printf 'Package: %s\nVersion: %s\nArchitecture: %s\n' "$1" "$version" "$2"
        echo 'Maintainer: Bamsturk maintainers <maintainers@users.noreply.bamsturk.example>'
        echo 'Priority: optional'
        echo "Installed-Size: $(du -ks --apparent-size "$tree/usr" | cut -f 1)"
        cat
    } >"$tree/DEBIAN/control"
    (cd "$tree" && find usr -type f -print0 | sort -z | xargs -0 md5sum) >"$tree/DEBIAN/md5sums"
    chmod -R u+rw,go=rX "$tree"
    dpkg-deb --root-owner-group -Zxz --build "$tree" "$file" >/dev/null
    rm -r "$tree"
}

# debian_program TREE: both programs. The first installation links the one for the machine. The link
# is not a file of the package, so that an upgrade keeps another choice.
debian_program() {
    local tree=$room/deb/basecode
    local lib=$tree/usr/lib/basecode
    mkdir -p "$lib" "$tree/DEBIAN"
    DESTDIR=$tree quietly "$1/install.sh" /usr
    mv "$tree/usr/bin/basecode" "$lib/basecode-x86-64-v2"
    cp "$1/bin/basecode-x86-64-v3" "$lib"
    rmdir "$tree/usr/bin"
    gzip -n -9 "$tree/usr/share/man/man1/basecode.1"
    cat >"$tree/DEBIAN/postinst" <<'END'
#!/bin/sh
set -e
link=${DPKG_ROOT-}/usr/bin/basecode
if [ ! -L "$link" ]; then
    level=v2
    if /lib64/ld-linux-x86-64.so.2 --help 2>/dev/null | grep -q '^ *x86-64-v3 (supported'; then
        level=v3
    fi
    mkdir -p "${link%/*}"
    ln -s "../lib/basecode/basecode-x86-64-$level" "$link"
fi
END
    cat >"$tree/DEBIAN/prerm" <<'END'
#!/bin/sh
set -e
[ "$1" != remove ] || rm -f "${DPKG_ROOT-}/usr/bin/basecode"
END
    chmod 755 "$tree/DEBIAN/postinst" "$tree/DEBIAN/prerm"
    put_deb basecode amd64 <<END
Depends: libc6 (>= $(newest_glibc "$1/bin/basecode"))
Section: utils
Description: encode data as text over an alphabet of symbols, and decode it
 Hexadecimal, base32 and base64, as they are used, by code that is proved.
END
}

# debian_library ARCH TREE
debian_library() {
    local name=libdata-encoding0
    local tree=$room/deb/$name
    local folder=usr/lib/$(triple "$1")
    DESTDIR=$tree quietly "$2/install.sh" --libdir "${folder#usr/}" /usr
    mkdir -p "$room/deb/libdata-encoding-dev" "$tree/DEBIAN"
    cp -a "$tree/usr" "$room/deb/libdata-encoding-dev"
    rm "$room/deb/libdata-encoding-dev/$folder"/libdata_encoding.so.*
    # It has the licence as its copyright.
    rm -r "$room/deb/libdata-encoding-dev/usr/share/doc"
    find "$tree/usr" ! -type d ! -name 'libdata_encoding.so.*' -delete
    find "$tree/usr" -type d -empty -delete
    chmod 644 "$tree/$folder"/libdata_encoding.so.*
    echo "libdata_encoding ${name##*[a-z]} $name (>= $version)" >"$tree/DEBIAN/shlibs"
    echo 'activate-noawait ldconfig' >"$tree/DEBIAN/triggers"
    put_deb "$name" "$(debian "$1")" <<END
Depends: libc6 (>= $(newest_glibc "$2"/libdata_encoding.so))
Multi-Arch: same
Section: libs
Description: base encodings, proved: the shared library
 Hexadecimal, base32, base64 and encodings of one's own, by code that is proved.
END
    put_deb libdata-encoding-dev "$(debian "$1")" <<END
Depends: $name (= $version)
Multi-Arch: same
Section: libdevel
Description: base encodings, proved: header and static library
 Hexadecimal, base32, base64 and encodings of one's own, by code that is proved.
END
}
