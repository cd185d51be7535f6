#!/usr/bin/env bash
# Installs the built program below a folder of its own, tries what was installed (program, manual
# page, completions), and removes it again.
. "$(dirname "$0")/common.bash" || exit 1

program=$(tests/find-program) || exit 1
install=$(realpath crates/basecode/install.sh)
fpath=$(grep -o 'fpath=([^)]*)' docs/INSTALL.md)
cd "$room" || exit 1

files() {
    find prefix -type f -printf '%m %P\n' | sort -k 2
}

installed='755 bin/basecode
644 share/bash-completion/completions/basecode
644 share/fish/vendor_completions.d/basecode.fish
644 share/man/man1/basecode.1
644 share/zsh/site-functions/_basecode'

# named: what an installation below prefix prints, but for the PATH.
named() {
    sed "s:^[0-9]* :installed $room/prefix/:" <<<"$installed" | sort
}

mkdir prefix
said=$("$install" --cpu x86-64-v2 prefix)
is 'installs' 0 $?
is 'the files' "$installed" "$(files)"
is 'says what it installed' "$(named)" "$(sed '$d' <<<"$said" | sort)"
is 'says that it is not on the PATH' "$room/prefix/bin is not on the PATH" \
    "$(tail -n 1 <<<"$said")"
for found in "$room/prefix/bin" "$room/prefix/bin/"; do
    said=$(PATH=$PATH:$found "$install" --cpu x86-64-v2 "$room/prefix/")
    is 'installs anew' 0 $?
    is 'the files again' "$installed" "$(files)"
    is 'says the same again' "$(named)" "$(sed '$d' <<<"$said" | sort)"
    is 'says that it is on the PATH' "$room/prefix/bin is on the PATH" "$(tail -n 1 <<<"$said")"
done
holds 'the program' cmp "$program" prefix/bin/basecode
names=$("$program" list)
PATH=$room/prefix/bin:$PATH

page=prefix/share/man/man1/basecode.1
if command -v groff >/dev/null; then
    is 'groff shows the page' '' "$(groff -man -ww -z "$page" 2>&1)"
else
    skip 'the page by groff: no groff'
fi
if command -v man >/dev/null && man --version >/dev/null 2>&1; then
    is 'man shows the page' '' "$(man --warnings -l "$page" 2>&1 >/dev/null)"
else
    skip 'the page by man: no man'
fi
is 'the version in its footer' "basecode $version" \
    "$(sed -nE '1s/^\.TH BASECODE 1 [0-9]{4}-[0-9]{2}-[0-9]{2} "([^"]*)" .*/\1/p' "$page")"
is 'the page has each name' '' \
    "$(for name in $names; do grep -qw "$name" "$page" || echo "$name"; done)"

# The stack that the page says is enough, in KiB.
stack=$(sed -n 's/^The program needs up to \([0-9]*\) KiB of stack.*/\1/p' "$page")
for words in list 'canonical HEXLOWER' 'encode BASE64_MIME' 'encode BASE32_DNSCURVE' \
    'decode BASE64_MIME' 'decode BASE64' 'recode NOPE'; do
    wanted=$("$program" $words <"$page" 2>&1)
    is "$stack KiB of stack: $words" "$wanted" \
        "$(ulimit -s "$stack" && env -i "$program" $words <"$page" 2>&1)"
done

# completed WORD..: what bash completes the last word to.
completed() {
    COMP_WORDS=("$@")
    COMP_CWORD=$(($# - 1))
    COMPREPLY=()
    _basecode
    echo "${COMPREPLY[*]}"
}

. prefix/share/bash-completion/completions/basecode
is 'bash: the function' 'complete -o default -F _basecode basecode' "$(complete -p basecode)"
is 'bash: the verbs' 'list encode decode canonical' "$(completed basecode '')"
is 'bash: a verb' 'encode' "$(completed basecode e)"
is 'bash: the names' "${names//$'\n'/ }" "$(completed basecode encode '')"
is 'bash: names that begin so' 'HEXUPPER HEXUPPER_PERMISSIVE' "$(completed basecode decode HEXU)"
is 'bash: a question' 'BASE32_DNSCURVE' "$(completed basecode canonical BASE32_DNSC)"
is 'bash: no such name' '' "$(completed basecode encode NOPE)"
is 'bash: nothing after a list' '' "$(completed basecode list '')"
is 'bash: nothing after a name' '' "$(completed basecode encode HEXLOWER '')"
is 'bash: nothing after no verb' '' "$(completed basecode recode '')"
is 'bash: a verb after an input' 'encode' "$(completed basecode '<' file enc)"
is 'bash: a verb after two files' 'encode' "$(completed basecode '<' a:b 2 '>>' err enc)"
is 'bash: a verb after a file in parts' 'encode' "$(completed basecode '<' a : b = c enc)"
is 'bash: a name after an input' 'HEXUPPER HEXUPPER_PERMISSIVE' \
    "$(completed basecode encode '<' file HEXU)"
is 'bash: a name between files' 'HEXUPPER HEXUPPER_PERMISSIVE' \
    "$(completed basecode 2 '>' err encode '>' out HEXU)"
is 'bash: nothing after a name and a file' '' "$(completed basecode encode HEXLOWER '<' file '')"
is 'bash: no verb for an input' '' "$(completed basecode '<' e)"
is 'bash: no name for an output' '' "$(completed basecode encode '>' HEXU)"
is 'bash: nothing for a redirection' '' "$(completed basecode encode '<')"

# typed SHELL SETUP KEYS: types the keys in a shell in a terminal, after the setup, and ends it.
typed() {
    python3 -c '
import os, pty, select, shlex, signal, sys, time
shell, setup, keys = sys.argv[1:]
child, terminal = pty.fork()
if child == 0:
    os.environ["TERM"] = "vt100"
    words = shlex.split(shell)
    os.execvp(words[0], words)

# Reads what is shown until nothing comes for so many seconds, or the shell has ended.
def settle(seconds):
    end = time.monotonic() + 30
    while time.monotonic() < end and select.select([terminal], [], [], seconds)[0]:
        try:
            os.read(terminal, 4096)
        except OSError:
            return

settle(1)
os.write(terminal, setup.encode() + b"\n")
settle(1)
os.write(terminal, keys.encode().decode("unicode_escape").encode() + b"\nexit\n")
settle(5)
os.kill(child, signal.SIGKILL)
os.waitpid(child, 0)
' "$@"
}

# Each shell in which completion is tried: what starts it, and what it is told at first. To zsh this
# is the line of docs/INSTALL.md, for a home that has the folder.
share=prefix/share
ln -s prefix .local
shells="bash --norc --noprofile -i|. $share/bash-completion/completions/basecode
zsh -f -i|HOME=$room; $fpath; autoload -Uz compinit; compinit -u -D
fish --no-config -i|source $share/fish/vendor_completions.d/basecode.fish"

# completes SHELL SETUP PROGRAM: whether a name and a file are completed in a line that is run.
completes() {
    local shell=${1%% *}
    rm -f typed.output
    typed "$1" "$2" "$3 encode HEXUPPER_\\t<file-w\\t>typed.output"
    is "$shell, typed: $3, a name, a file" 48656C6C6F "$(cat typed.output 2>&1)"
    rm -f typed.output
    typed "$1" "$2" "$3 <file-with-a-name >typed.output enc\\t HEXUPPER_\\t"
    is "$shell, typed: $3, after files" 48656C6C6F "$(cat typed.output 2>&1)"
}

printf Hello >file-with-a-name
ln -s "$program" basecode
if command -v python3 >/dev/null; then
    while IFS='|' read -r shell setup <&3; do
        if ! command -v "${shell%% *}" >/dev/null; then
            skip "completion as ${shell%% *} does it: no ${shell%% *}"
            continue
        fi
        completes "$shell" "$setup" basecode
        mv prefix/bin/basecode prefix/bin/other
        completes "$shell" "$setup" ./basecode
        mv prefix/bin/other prefix/bin/basecode
    done 3<<<"$shells"
else
    skip 'completion as shells do it: no python3'
fi

ln -s "$install" link
said=$(DESTDIR=$room/staged ./link /usr)
is 'installs by a link, below another folder' 0 $?
is 'says nothing of the PATH then' 0 "$(grep -c PATH <<<"$said")"
holds 'the program there' cmp "$program" staged/usr/bin/basecode
DESTDIR=$room/staged ./link --remove /usr
is 'and is removed' '' "$(find staged -type f)"
DESTDIR=beside ./link /usr >said
is 'installs below a folder beside' 0 $?
holds 'the program beside' cmp "$program" beside/usr/bin/basecode
DESTDIR=beside ./link --remove /usr
is 'and is removed from there' '' "$(find beside -type f)"

if command -v fish >/dev/null; then
    # offered LINE: what fish completes it to, without descriptions.
    offered() {
        fish --no-config -c "source prefix/share/fish/vendor_completions.d/basecode.fish
            complete -C '$1'" | cut -f 1 | sort | tr '\n' ' '
    }
    is 'fish: the verbs' 'canonical decode encode list ' "$(offered 'basecode ')"
    is 'fish: names' 'HEXUPPER HEXUPPER_PERMISSIVE ' "$(offered 'basecode decode HEXU')"
    is 'fish: nothing after a list' '' "$(offered 'basecode list ')"
    is 'fish: nothing after a name' '' "$(offered 'basecode encode HEXLOWER ')"
    is 'fish: a verb after an input' 'encode ' "$(offered 'basecode < file enc')"
    is 'fish: names between files' 'HEXUPPER HEXUPPER_PERMISSIVE ' \
        "$(offered 'basecode 2>err decode >>out HEXU')"
    is 'fish: nothing after a name and a file' '' "$(offered 'basecode encode HEXLOWER <file ')"
else
    skip 'completions of fish: no fish'
fi
if command -v zsh >/dev/null; then
    zsh -n prefix/share/zsh/site-functions/_basecode
    is 'zsh reads its completions' 0 $?
else
    skip 'completions of zsh: no zsh'
fi

echo other >prefix/bin/other
said=$("$install" --remove prefix)
is 'removes' 0 $?
is 'says nothing when it removes' '' "$said"
is 'what is left' '644 bin/other' "$(files)"
"$install" --remove prefix
is 'removes nothing' 0 $?
"$install" 2>/dev/null
is 'no words' 2 $?
"$install" --remove 2>/dev/null
is 'no folder' 2 $?
"$install" one other 2>/dev/null
is 'too many words' 2 $?
is 'unknown processors' \
    'install.sh: unknown processors: x86-64-v9 (x86-64, x86-64-v2, x86-64-v3)' \
    "$("$install" --cpu x86-64-v9 prefix 2>&1)"
"$install" --cpu x86-64-v9 prefix 2>/dev/null
is 'unknown processors: the status' 2 $?
"$install" --cpu x86-64-v3 2>/dev/null
is 'processors and no folder' 2 $?
"$install" --cpu x86-64-v3 --remove prefix 2>/dev/null
is 'processors and a removal' 2 $?
is 'nothing was installed' '644 bin/other' "$(files)"

# Without --cpu the program is for the processors of this machine.
cp "$program" kept
rm prefix/bin/other
missing=$(for feature in abm avx avx2 bmi1 bmi2 f16c fma movbe xsave; do
    grep -m 1 '^flags' /proc/cpuinfo | grep -qw "$feature" || echo "$feature"
done)
said=$("$install" prefix)
is 'installs for this machine' 0 $?
is 'the same files' "$installed" "$(files)"
if [ -z "$missing" ]; then
    is 'says for which processors' \
        'builds the program for x86-64-v3, which this machine supports; not with --cpu x86-64-v2' \
        "${said%%$'\n'*}"
    if cmp -s "$program" prefix/bin/basecode; then fail 'another program'; else pass; fi
    is 'it encodes' SGVsbG8= "$(printf Hello | prefix/bin/basecode encode BASE64)"
else
    is 'says no processors' 0 "$(grep -c '^builds ' <<<"$said")"
    holds 'the program that was built' cmp "$program" prefix/bin/basecode
fi
holds 'the program in out/ as it was' cmp "$program" kept

# A program for other processors. One that is not for this processor says so.
"$install" --cpu x86-64-v3 prefix >said
is 'installs for x86-64-v3' 0 $?
is 'the same files for x86-64-v3' "$installed" "$(files)"
holds 'the program in out/ is still the same' cmp "$program" kept
if cmp -s "$program" prefix/bin/basecode; then fail 'another program for x86-64-v3'; else pass; fi
if [ -n "$missing" ]; then
    printf Hello | prefix/bin/basecode encode BASE64 2>/dev/null
    is 'it says that it is not for this processor' 127 $?
fi

finish
