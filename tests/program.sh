#!/usr/bin/env bash
# Runs the built program from outside: its words, exit statuses and lines, and streams that fail. And
# compares its functions with tests/not-inlined.txt.
#
# usage: tests/program.sh [PROGRAM]
. "$(dirname "$0")/common.bash" || exit 1

program=$(tests/find-program "$@") || exit 1
said=$(tests/not-inlined "$program" --check 2>&1)
is 'marked functions with code of their own (tests/not-inlined.txt)' '0 ' "$? $said"
cd "$room" || exit 1
usage='basecode: usage: basecode list OR encode NAME OR decode NAME OR canonical NAME'

# is_run STATUS OUTPUT LINE: whether the last run ended, wrote and printed so. A line ends in LF.
is_run() {
    printf '%b' "$2" >wanted.output
    if [ -n "$3" ]; then printf '%s\n' "$3"; fi >wanted.line
    [ "$status" = "$1" ] || { echo "  status $status, and not $1"; return 1; }
    cmp output wanted.output && cmp line wanted.line
}

# check NAME STATUS OUTPUT LINE INPUT WORD..: runs the words on the input.
check() {
    local name=$1 wanted=$2 text=$3 line=$4
    printf '%b' "$5" >input
    shift 5
    "$program" "$@" <input >output 2>line
    status=$?
    holds "$name" is_run "$wanted" "$text" "$line"
}

check 'encodes' 0 48656c6c6f '' 'Hello' encode HEXLOWER
check 'encodes any byte' 0 00ff0adeadbeef '' '\x00\xff\n\xde\xad\xbe\xef' encode HEXLOWER
check 'encodes nothing' 0 '' '' '' encode HEXLOWER
check 'decodes' 0 'Hello' '' 48656c6c6f decode HEXLOWER
check 'decodes any byte' 0 '\x00\xff\n\xde\xad\xbe\xef' '' 00ff0adeadbeef decode HEXLOWER
check 'decodes nothing' 0 '' '' '' decode HEXLOWER
check 'encodes in base64' 0 Zg== '' f encode BASE64
names='HEXLOWER\nHEXLOWER_PERMISSIVE\nHEXUPPER\nHEXUPPER_PERMISSIVE\nBASE32\nBASE32_NOPAD\n'
names+='BASE32_NOPAD_NOCASE\nBASE32_NOPAD_VISUAL\nBASE32HEX\nBASE32HEX_NOPAD\nBASE32_DNSSEC\n'
names+='BASE32_DNSCURVE\nBASE64\nBASE64_NOPAD\nBASE64_MIME\nBASE64_MIME_PERMISSIVE\nBASE64URL\n'
names+='BASE64URL_NOPAD\n'
check 'lists the names' 0 "$names" '' 4G list
check 'a canonical encoding' 0 'true\n' '' 4G canonical BASE32_NOPAD
check 'an encoding that is not canonical' 0 'false\n' '' 4G canonical BASE64
check 'decodes base64 without padding' 0 '\x00\x00\x00' '' AAAA decode BASE64_NOPAD
check 'decodes lines of base64' 0 foobar '' 'Zm9v\r\nYmFy\r\n' decode BASE64_MIME

check 'an invalid symbol' 1 '' 'basecode: invalid symbol at 1' 4G decode HEXLOWER
check 'an invalid length' 1 '' 'basecode: invalid length at 2' 4G4 decode HEXLOWER
check 'an upper case symbol' 1 '' 'basecode: invalid symbol at 0' DE decode HEXLOWER
check 'a line feed' 1 hi 'basecode: invalid length at 4' '6869\n' decode HEXLOWER
check 'a fault after sound groups' 1 Hel 'basecode: invalid symbol at 7' 48656c6g decode HEXLOWER
zeros='\x00\x00\x00'
check 'a symbol too many' 1 "$zeros" 'basecode: invalid length at 4' AAAAA decode BASE64_NOPAD
check 'a byte after a group' 1 "$zeros" 'basecode: invalid length at 4' 'AAAA!' decode BASE64

check 'an unknown name' 2 '' 'basecode: unknown encoding: NOPE' 4G decode NOPE
check 'a name in lower case' 2 '' 'basecode: unknown encoding: hexlower' 4G encode hexlower
check 'an empty name' 2 '' 'basecode: unknown encoding: ' 4G encode ''
check 'an unknown name in a question' 2 '' 'basecode: unknown encoding: NOPE' 4G canonical NOPE
check 'a question without a name' 2 '' "$usage" 4G canonical
check 'a list of a name' 2 '' "$usage" 4G list x
check 'no words' 2 '' "$usage" 4G
check 'one word' 2 '' "$usage" 4G encode
check 'three words' 2 '' "$usage" 4G encode HEXLOWER HEXLOWER
check 'a hundred words' 2 '' "$usage" 4G $(seq 100)
check 'no verb' 2 '' "$usage" 4G recode NOPE
check 'an empty verb' 2 '' "$usage" 4G '' HEXLOWER

unknown='basecode: unknown encoding:'
check 'a name that is not UTF-8' 2 '' "$unknown a\\xffb\\xc3" 4G encode $'a\xffb\xc3'
check 'a name of other letters' 2 '' "$unknown caf"$'\xc3\xa9' 4G encode $'caf\xc3\xa9'
check 'a verb that is not UTF-8' 2 '' "$usage" 4G $'\xff' HEXLOWER

long=$(printf '%06000d' 0)
check 'an unknown name that is long' 2 '' "basecode: unknown encoding: $long" 4G decode "$long"

# one_write LINE WORD..: whether the line goes out in one write. The socket keeps writes apart.
one_write() {
    printf '%s\n' "$1" >wanted.line
    shift
    python3 -c '
import socket, subprocess, sys
here, there = socket.socketpair(socket.AF_UNIX, socket.SOCK_SEQPACKET)
subprocess.run(sys.argv[1:], stdout=subprocess.DEVNULL, stderr=there)
there.close()
sys.stdout.buffer.write(here.recv(65536))
sys.exit(here.recv(1) != b"")' "$program" "$@" <input >line || { echo '  more writes'; return 1; }
    cmp line wanted.line
}

if command -v python3 >/dev/null; then
    printf 4G >input
    holds 'a fault in one write' one_write 'basecode: invalid symbol at 1' decode HEXLOWER
    holds 'the usage in one write' one_write "$usage" recode NOPE
    holds 'a name in one write' one_write 'basecode: unknown encoding: NOPE' decode NOPE
    # With 28 bytes before the name and LF after it, the line has 4096 bytes.
    name=${long::4067}
    holds '4096 bytes in one write' one_write "basecode: unknown encoding: $name" decode "$name"

    # In the least memory in which the program starts, there is none for these words.
    is 'no memory for the words, in one write' '4 basecode: out of memory True' "$(python3 -c '
import resource, socket, subprocess, sys
words = [sys.argv[1], "encode"] + ["a" * 100000] * 15
for limit in range(3 << 20, 64 << 20, 1 << 18):
    here, there = socket.socketpair(socket.AF_UNIX, socket.SOCK_SEQPACKET)
    try:
        status = subprocess.run(
            words, stdout=subprocess.DEVNULL, stderr=there,
            preexec_fn=lambda: resource.setrlimit(resource.RLIMIT_AS, (limit, limit))).returncode
    except OSError:
        continue
    there.close()
    if status in range(127):
        print(status, here.recv(65536).decode().strip(), here.recv(1) == b"")
        break' "$program" <input)"
else
    skip 'lines in one write: no python3'
fi

# Wrong words read nothing: the next command has the whole input.
printf Hello >input
{ "$program" recode HEXLOWER 2>line; status=$?; cat; } <input >output
holds 'wrong words read nothing' is_run 2 Hello "$usage"

# Neither does a list, nor a question.
for words in list 'canonical BASE32_NOPAD'; do
    { "$program" $words >answer 2>line; status=$?; cat; } <input >output
    holds "$words reads nothing" is_run 0 Hello ''
done

# An input that comes in pieces is one input.
: >output
{ printf 4; sleep 0.2; printf 86; sleep 0.2; printf 5; } |
    { "$program" decode HEXLOWER >output 2>line; echo $? >status; }
status=$(cat status)
holds 'an input in pieces' is_run 0 He ''

# A directory can't be read.
"$program" encode HEXLOWER <. >output 2>line
status=$?
holds 'a directory as input' is_run 3 '' 'basecode: read failed'

"$program" encode HEXLOWER <&- >output 2>line
status=$?
holds 'a closed input' is_run 3 '' 'basecode: read failed'

: >output
"$program" encode HEXLOWER <input >&- 2>line
status=$?
holds 'a closed output' is_run 3 '' 'basecode: write failed'

# What can't be printed changes no status.
printf 4G >input
: >line
"$program" decode HEXLOWER <input >output 2>&-
status=$?
holds 'a fault, and a closed place for its line' is_run 1 '' ''

if [ -c /dev/full ]; then
    printf Hello >input
    : >output
    "$program" encode HEXLOWER <input >/dev/full 2>line
    status=$?
    holds 'a full disk' is_run 3 '' 'basecode: write failed'
    printf 4G >input
    : >line
    "$program" decode HEXLOWER <input >output 2>/dev/full
    status=$?
    holds 'a fault, and a full disk for its line' is_run 1 '' ''
    "$program" encode HEXLOWER <input >/dev/full 2>/dev/full
    status=$?
    holds 'a full disk for the answer and the line' is_run 3 '' ''
    : >output
    "$program" list >/dev/full 2>line
    status=$?
    holds 'a full disk for the names' is_run 3 '' 'basecode: write failed'
else
    skip 'a full disk: no /dev/full'
fi

# A pipe that nothing reads is a write that fails, and no signal ends the program.
if command -v mkfifo >/dev/null; then
    printf Hello >input
    : >output
    mkfifo pipe
    exec 3<>pipe 4>pipe 3<&-
    "$program" encode HEXLOWER <input >&4 2>line
    status=$?
    exec 4>&-
    holds 'a closed pipe' is_run 3 '' 'basecode: write failed'
else
    skip 'a closed pipe: no mkfifo'
fi

# 64 MiB, there and back.
head -c 67108864 /dev/urandom >input
"$program" encode HEXLOWER <input >text 2>line
status=$?
: >output
holds 'encodes 64 MiB' is_run 0 '' ''
if command -v xxd >/dev/null; then
    xxd -p input | tr -d '\n' >wanted.text
    holds '64 MiB as xxd encodes them' cmp text wanted.text
else
    skip '64 MiB as xxd encodes them: no xxd'
fi
"$program" decode HEXLOWER <text >back 2>line
status=$?
holds 'decodes 128 MiB' is_run 0 '' ''
holds '64 MiB come back' cmp input back

# What stands before a fault is written, however long.
{ cat text; printf 4G; } | { "$program" decode HEXLOWER >back 2>line; echo $? >status; }
status=$(cat status)
: >output
holds 'a fault after 128 MiB' is_run 1 '' 'basecode: invalid symbol at 134217729'
holds 'and 64 MiB before it' cmp input back

# Neither encoding nor decoding takes memory.
if (ulimit -v 98304 && "$program" decode HEXLOWER </dev/null >output 2>line); then
    for verb in encode decode; do
        if [ "$verb" = encode ]; then given=input wanted=text; else given=text wanted=input; fi
        (ulimit -v 98304 && "$program" "$verb" HEXLOWER <"$given" >again 2>line)
        status=$?
        : >output
        holds "$verb of a long input in little memory" is_run 0 '' ''
        holds "the whole output of $verb" cmp "$wanted" again
    done
else
    skip 'little memory: no limit on memory here'
fi

# is_small VERB LIMIT: whether a run over 256 MiB has had at most so many KiB of memory at once, as
# the system counts them when all but the end was read.
is_small() {
    local peak
    mkfifo "long.$1"
    "$program" "$1" HEXLOWER <"long.$1" >/dev/null &
    exec 9>"long.$1"
    head -c 268435456 /dev/zero | tr '\0' 0 >&9
    peak=$(sed -nE 's/^VmHWM:[[:space:]]+([0-9]+) kB$/\1/p' "/proc/$!/status")
    exec 9>&-
    wait $! && [ -n "$peak" ] && [ "$peak" -lt "$2" ]
}

for verb in encode decode; do
    holds "$verb of 256 MiB in less than 2 MiB of memory" is_small "$verb" 2048
done

finish
