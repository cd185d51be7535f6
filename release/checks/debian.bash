# The packages for Debian, each installed below a folder of its own with a database of its own.

if has '*.deb' && ! lacks 'the packages for Debian' dpkg dpkg; then
    if has 'basecode_*.deb'; then
        holds 'the package of the program' quietly install_debs debian-program \
            "$files/basecode_${version}_amd64.deb"
        root=$room/debian-program
        is 'the program of the package' SGVsbG8= \
            "$(printf Hello | "$root/usr/bin/basecode" encode BASE64)"
        wanted=basecode-x86-64-v2
        if /lib64/ld-linux-x86-64.so.2 --help | grep -q '^ *x86-64-v3 (supported'; then
            wanted=basecode-x86-64-v3
        fi
        is 'the program for this machine' "$wanted" "$(basename "$(readlink "$root/usr/bin/basecode")")"
        ln -sf ../lib/basecode/basecode-x86-64-v2 "$root/usr/bin/basecode"
        holds 'installs it again' quietly install_debs debian-program \
            "$files/basecode_${version}_amd64.deb"
        is 'the program that was chosen' basecode-x86-64-v2 \
            "$(basename "$(readlink "$root/usr/bin/basecode")")"
        holds 'removes the package of the program' quietly dpkg "--root=$root" --force-not-root \
            --force-script-chrootless --force-bad-path --remove basecode
        is 'what is left of the program' '' "$(find "$root" -path "$root/usr/*" ! -type d)"
    fi
    for pair in x86_64:amd64 aarch64:arm64; do
        arch=${pair%:*}
        has "libdata-encoding0_*_${pair#*:}.deb" || continue
        holds "the packages of the library, $arch" quietly install_debs "debian-$arch" \
            "$files/libdata-encoding0_${version}_${pair#*:}.deb" \
            "$files/libdata-encoding-dev_${version}_${pair#*:}.deb"
        if [ "$arch" = x86_64 ]; then
            lacks "the packages of the library, $arch" cc gcc ||
                built_in "$room/debian-$arch/usr" "$arch" cc env
        elif ! lacks "the packages of the library, $arch" aarch64-linux-gnu-gcc \
            gcc-aarch64-linux-gnu && ! lacks "the same, $arch" qemu-aarch64 qemu-user; then
            built_in "$room/debian-$arch/usr" "$arch" aarch64-linux-gnu-gcc "${foreign[@]}"
        fi
    done
fi
