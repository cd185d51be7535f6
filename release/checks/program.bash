# The program, from its archive.
name=basecode-$version-x86_64-linux
if has "$name.tar.gz"; then
    tar -xf "$files/$name.tar.gz"
    is 'what the archive of the program has' 'LICENSE
basecode.1
bin/basecode
bin/basecode-x86-64-v3
completions/_basecode
completions/basecode.bash
completions/basecode.fish
install.sh' "$(cd "$name" && find . -type f | sed 's:^\./::' | sort)"
    for cpu in '' x86-64-v2; do
        holds "installs $cpu" quietly "$name/install.sh" ${cpu:+--cpu "$cpu"} "$room/prefix"
        is "encodes, installed $cpu" SGVsbG8= \
            "$(printf Hello | PATH=$room/prefix/bin:$PATH basecode encode BASE64)"
        is "decodes, installed $cpu" Hello "$(printf SGVsbG8= | prefix/bin/basecode decode BASE64)"
    done
    holds 'the program for x86-64-v2' cmp "$name/bin/basecode" prefix/bin/basecode
    is 'a fault' 'basecode: invalid symbol at 1' \
        "$(printf 4G | prefix/bin/basecode decode HEXLOWER 2>&1)"
    is 'processors without a program' 'no program for x86-64 in this release' \
        "$("$name/install.sh" --cpu x86-64 "$room/prefix" 2>&1)"
    holds 'removes' "$name/install.sh" --remove "$room/prefix"
    is 'what is left' '' "$(find prefix -type f)"
    # The package for Debian is installed below a folder of its own.
    sudo() {
        [ "$1 $2" = 'dpkg -i' ] && install_debs by-hand "$PWD/$3"
    }
    export room
    export -f sudo install_debs
    if ! lacks 'the commands of README.md, Command line' dpkg dpkg; then
        prints 'Command line' 'printf Hello | basecode encode BASE64'
        is 'the package that they install' SGVsbG8= \
            "$(printf Hello | by-hand/usr/bin/basecode encode BASE64)"
        is 'the program that they install' "$room/Command line/.local/bin/basecode" \
            "$(find "$room/Command line/.local" -name basecode -perm -1)"
        holds 'the command of docs/INSTALL.md that removes it' env -C "Command line" \
            "HOME=$room/Command line" bash -ec "$(script "$pages/docs/INSTALL.md" 'The program' | head -n 1)"
        is 'what is left of it' '' "$(find "Command line/.local" -type f)"
    fi
    [ "$(printf '%s\n' "$(newest_glibc "$name"/bin/*)" 2.34 | sort -V | tail -n 1)" = 2.34 ]
    is 'the program needs no newer glibc than docs/INSTALL.md says' 0 $?
fi
