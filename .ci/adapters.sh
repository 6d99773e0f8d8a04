#!/bin/bash
# Runs the built program on real files and streams: what the adapters do with a missing file, a folder, a
# pipe, a closed or full output, a reader that goes away, long streams in odd pieces and a closed input, and
# with files that are saved over others, through links, onto devices, on a full disk and in folders that may
# not be written. Compares outputs, reports and files byte by byte. Prints a line for each case, and ends
# with status 1 where one is not as it should be.
set -u

root=$(cd "$(dirname "${BASH_SOURCE[0]}")/.." && pwd)
program=$("$root/examples/build.sh") || exit 1
folder=$(mktemp -d)
trap 'rm -rf "$folder"' EXIT
cp "$root/crates/rewrite_cli/data/hello" "$folder/hello"

# Four executables: `echo` reads 64 bytes, writes what it got and exits with code 0; `cat` reads up to 1,000
# bytes and writes what it got, until there are no more; `loops` has as many loops as may be chosen, and `crowded`
# one more.
python3 - "$folder" <<'PYTHON'
import struct
import sys

ECHO = [
    0x00000513,  # addi a0, x0, 0
    0xFC010593,  # addi a1, sp, -64
    0x04000613,  # addi a2, x0, 64
    0x03F00893,  # addi a7, x0, 63
    0x00000073,  # ecall
    0x00050613,  # addi a2, a0, 0
    0x00100513,  # addi a0, x0, 1
    0x04000893,  # addi a7, x0, 64
    0x00000073,  # ecall
    0x00000513,  # addi a0, x0, 0
    0x05D00893,  # addi a7, x0, 93
    0x00000073,  # ecall
]
CAT = [
    0xC1810593,  # addi a1, sp, -1000
    0x00000513,  # addi a0, x0, 0
    0x3E800613,  # addi a2, x0, 1000
    0x03F00893,  # addi a7, x0, 63
    0x00000073,  # ecall
    0x00050C63,  # beq a0, x0, +24
    0x00050613,  # addi a2, a0, 0
    0x00100513,  # addi a0, x0, 1
    0x04000893,  # addi a7, x0, 64
    0x00000073,  # ecall
    0xFDDFF06F,  # jal x0, -36
    0x05D00893,  # addi a7, x0, 93
    0x00000073,  # ecall
]


def executable(words):
    code = struct.pack(f"<{len(words)}I", *words)
    size = 120 + len(code)
    ident = b"\x7fELF\x02\x01\x01" + bytes(9)
    header = ident + struct.pack("<HHIQQQIHHHHHH", 2, 243, 1, 0x10078, 64, 0, 0, 64, 56, 1, 0, 0, 0)
    segment = struct.pack("<IIQQQQQQ", 1, 5, 0, 0x10000, 0x10000, size, size, 4096)
    return header + segment + code


LOOP = [0x00150513, 0xFEB51EE3]  # addi a0, a0, 1; bne a0, a1, -4
EXIT = [0x05D00893, 0x00000073]  # addi a7, x0, 93; ecall

for name, words in [("echo", ECHO), ("cat", CAT), ("loops", LOOP * 1024 + EXIT), ("crowded", LOOP * 1025 + EXIT)]:
    with open(f"{sys.argv[1]}/{name}", "wb") as file:
        file.write(executable(words))
PYTHON

# A copy of the program that every user may run.
cp "$program" "$folder/rewrite_cli"
chmod 755 "$folder" "$folder/rewrite_cli"
program=$folder/rewrite_cli

bad=0
good=0

# case_is NAME STATUS OUTPUT REPORT: compares the last run's status, output and report, whose lines each end
# with a line feed.
case_is() {
    printf '%s' "$3" >"$folder/want-out"
    printf '%s' "${4:+$4$'\n'}" >"$folder/want-report"
    if [ "$status" = "$2" ] && cmp -s "$folder/out" "$folder/want-out" &&
        cmp -s "$folder/report" "$folder/want-report"; then
        echo "ok: $1"
        good=$((good + 1))
    else
        echo "NOT OK: $1: status $status, output '$(head -c 200 "$folder/out")', report '$(cat "$folder/report")'"
        bad=$((bad + 1))
    fi
}

# run COMMAND [CONDITION]: runs a command of the shell in the folder, where `rewrite_cli` is the program, and
# then looks whether the condition holds.
run() {
    : >"$folder/out"
    : >"$folder/report"
    (cd "$folder" && PATH=$folder:$PATH bash -c "$1")
    status=$?
    (cd "$folder" && bash -c "${2:-true}") || status="$status, but not $2"
}

counts=$'hart 0 instructions 9\nsteps 9\nexit 0'
echo_counts=$'hart 0 instructions 12\nsteps 12\nexit 0'
usage='usage: list FILE | rewrite FILE NEW | run FILE HARTS [FUEL [DUMP]] | replay FILE HARTS ORDER | make KIND N NEW'
hello=$'hello\n'

# ---- words

run 'rewrite_cli >out 2>report </dev/null'
case_is 'no words' 123 '' "$usage"
run "rewrite_cli run hello 1 '' >out 2>report </dev/null"
case_is 'an empty word is a word' 123 '' "$usage"
run "rewrite_cli '' run hello 1 >out 2>report </dev/null"
case_is 'an empty word in front' 123 '' "$usage"
run 'rewrite_cli run hello 1 9 dump x >out 2>report </dev/null' \
    '[ ! -e dump ]'
case_is 'a sixth word' 123 '' "$usage"

# ---- files that are loaded

run 'rewrite_cli run hello 1 >out 2>report </dev/null'
case_is 'a file that is there' 0 "$hello" "$counts"
run 'rewrite_cli run missing 1 >out 2>report </dev/null'
case_is 'a file that is missing' 125 '' store-fault
run 'rewrite_cli run . 1 >out 2>report </dev/null'
case_is 'a folder in place of a file' 125 '' store-fault
run ': >empty; rewrite_cli run empty 1 >out 2>report </dev/null'
case_is 'an empty file' 124 '' 'refused not-elf'
run 'mkfifo fifo; (cat hello >fifo &); timeout 20 rewrite_cli run fifo 1 >out 2>report </dev/null'
case_is 'a pipe in place of a file: it is read once' 0 "$hello" "$counts"

# ---- streams

run 'rewrite_cli run hello 1 >&- 2>report </dev/null'
case_is 'a closed output: no line of a report' 127 '' ''
run 'rewrite_cli run hello 1 >/dev/full 2>report </dev/null'
case_is 'a full output: no line of a report' 127 '' ''
run 'rewrite_cli run hello 1 >out 2>&- </dev/null'
case_is 'a closed report: all of the output' 127 "$hello" ''
run 'printf hello | rewrite_cli run echo 1 >out 2>report'
case_is 'an input that is read to its end' 0 hello "$echo_counts"
run '(printf he; sleep 1; printf llo) | rewrite_cli run echo 1 >out 2>report'
case_is 'an input that comes in two parts' 0 hello "$echo_counts"
run 'rewrite_cli run echo 1 >out 2>report <&-'
case_is 'a closed input' 126 '' read-fault
run 'rewrite_cli run echo 1 >out 2>report <.'
case_is 'a folder as the input' 126 '' read-fault

# `large` has 300,007 bytes, in no order that repeats soon; `pieces` writes them in odd pieces, and
# `without-waiting` runs the program with an input or an output that answers at once that it is not ready.
python3 -c '
import sys
sys.stdout.buffer.write(bytes((i * i // 7 + i // 251) % 256 for i in range(300007)))
' >"$folder/large"
cat >"$folder/pieces" <<'PYTHON'
import sys

data, at, turn = open("large", "rb").read(), 0, 0
while at < len(data):
    size = [1, 7, 513, 4097, 64, 1001][turn % 6]
    sys.stdout.buffer.write(data[at : at + size])
    sys.stdout.buffer.flush()
    at, turn = at + size, turn + 1
PYTHON
cat >"$folder/without-waiting" <<'PYTHON'
import os
import subprocess
import sys

source, sink = os.pipe()
if sys.argv[1] == "input":
    os.set_blocking(source, False)
    sys.exit(subprocess.call(["rewrite_cli", "run", "echo", "1"], stdin=source))
os.set_blocking(sink, False)
status = subprocess.call(["rewrite_cli", "run", "cat", "1"], stdin=open("large"), stdout=sink)
os.close(sink)
with os.fdopen(source, "rb") as got, open("got", "wb") as copy:
    copy.write(got.read())
sys.exit(status)
PYTHON
head -c 10 "$folder/large" >"$folder/want"
run 'rewrite_cli run cat 1 <large >copy 2>/dev/null' 'cmp -s large copy'
case_is 'a long input and output' 0 '' ''
run 'python3 pieces | rewrite_cli run cat 1 2>/dev/null | cat >copy; exit ${PIPESTATUS[1]}' 'cmp -s large copy'
case_is 'a long input in odd pieces' 0 '' ''
run 'timeout 20 rewrite_cli run cat 1 <large 2>report | head -c 10 >got; exit ${PIPESTATUS[0]}' 'cmp -s want got'
case_is 'a reader that goes away' 127 '' ''
run '{ rewrite_cli run cat 1 >/dev/full 2>report; status=$?; wc -c >left; exit $status; } <large' \
    '[ $(cat left) = 299007 ]'
case_is 'nothing is read where the output has failed' 127 '' ''
run 'timeout 20 python3 without-waiting input >out 2>report'
case_is 'an input that has nothing yet and does not wait' 126 '' read-fault
run 'timeout 20 python3 without-waiting output 2>report' '[ -s got ] && cmp -s got <(head -c $(stat -c %s got) large)'
case_is 'an output that is full and does not wait' 127 '' ''

# ---- memory that is saved

run 'rewrite_cli run hello 1 8 dump >out 2>report </dev/null' \
    '[ ! -e dump ]'
case_is 'as many instructions as do not end: no memory is saved' 121 "$hello" spent
run 'rewrite_cli run hello 1 9 dump >out 2>report </dev/null' \
    '[ $(stat -c %s dump) = 25165992 ]'
case_is 'the memory at an ending' 0 "$hello" "$counts"
run 'head -c 162 dump | cmp -s - hello && head -c 25165830 /dev/zero | cmp -s - <(tail -c +163 dump)'
case_is 'the file, and zeros behind it' 0 '' ''
run 'rewrite_cli run hello 1 9 missing/dump >out 2>report </dev/null'
case_is 'a memory that is saved to a missing folder' 125 "$hello" store-fault
run 'mkdir taken; rewrite_cli run hello 1 9 taken >out 2>report </dev/null' \
    '[ -d taken ] && [ -z "$(ls -A taken)" ]'
case_is 'a memory that is saved to a folder' 125 "$hello" store-fault
printf old >"$folder/kept"
run "trap '' XFSZ; ulimit -f 2; rewrite_cli run hello 1 9 kept >out 2>report </dev/null" \
    '[ "$(cat kept)" = old ]'
case_is 'a memory on a full disk: the old file stays whole' 125 "$hello" store-fault
run 'rewrite_cli run hello 1 8 kept >out 2>report </dev/null' \
    '[ "$(cat kept)" = old ]'
case_is 'as many instructions as do not end: the old file stays' 121 "$hello" spent
run 'rewrite_cli run hello 1 9 kept >out 2>report </dev/null' \
    'cmp -s dump kept'
case_is 'a memory that is saved over an old file' 0 "$hello" "$counts"
run 'rewrite_cli run hello 1 9 /dev/full >out 2>report </dev/null' \
    '[ -c /dev/full ]'
case_is 'a memory that is saved to a full device' 125 "$hello" store-fault
run 'rewrite_cli run hello 1 9 /dev/null >out 2>report </dev/null' \
    '[ -c /dev/null ]'
case_is 'a memory that is saved to a device' 0 "$hello" "$counts"
run 'mkfifo pipe; cat pipe >piped & timeout 20 rewrite_cli run hello 1 9 pipe >out 2>report </dev/null
    status=$?; wait; exit $status' '[ -p pipe ] && cmp -s dump piped'
case_is 'a memory that is saved to a pipe' 0 "$hello" "$counts"

# ---- files that are rewritten

run 'rewrite_cli rewrite hello new >out 2>report </dev/null'
case_is 'a file that is rewritten' 0 '' 'rewritten entries 0 words 0'
run 'rewrite_cli run new 1 >out 2>report </dev/null'
case_is 'a rewritten file' 0 "$hello" "$counts"
run 'rewrite_cli rewrite new newer >out 2>report </dev/null' \
    '[ ! -e newer ]'
case_is 'a refused file: nothing is saved' 124 '' 'refused marked 1'
run 'rewrite_cli rewrite hello missing/new >out 2>report </dev/null'
case_is 'a folder to save to that is missing' 125 '' store-fault
run 'rewrite_cli rewrite hello taken >out 2>report </dev/null' \
    '[ -d taken ] && [ -z "$(ls -A taken)" ]'
case_is 'a folder in place of a file to save to' 125 '' store-fault
run 'cp hello same; chmod 750 same; rewrite_cli rewrite same same >out 2>report </dev/null' \
    'cmp -s new same && [ $(stat -c %a same) = 750 ]'
case_is 'a file that is saved over itself keeps its mode' 0 '' 'rewritten entries 0 words 0'
run 'umask 027; rewrite_cli rewrite hello masked >out 2>report </dev/null' \
    '[ $(stat -c %a masked) = 640 ]'
case_is 'a new file has the mode that the mask leaves' 0 '' 'rewritten entries 0 words 0'
run 'mkdir far; cp hello far/real; ln -s far/real link; rewrite_cli rewrite hello link >out 2>report </dev/null' \
    '[ -L link ] && cmp -s new far/real'
case_is 'a link is followed' 0 '' 'rewritten entries 0 words 0'
run 'ln -s far/made dangling; rewrite_cli rewrite hello dangling >out 2>report </dev/null' \
    '[ -L dangling ] && cmp -s new far/made'
case_is 'a link to a file that is made' 0 '' 'rewritten entries 0 words 0'
head -c 3000 /dev/zero | cat "$folder/hello" - >"$folder/padded"
cp "$folder/padded" "$folder/only"
run "trap '' XFSZ; ulimit -f 2; rewrite_cli rewrite only only >out 2>report </dev/null" \
    'cmp -s padded only'
case_is 'a full disk: the old file stays whole' 125 '' store-fault
printf old >"$folder/made"
run "trap '' XFSZ; ulimit -f 2; rewrite_cli rewrite padded made >out 2>report </dev/null" \
    '[ "$(cat made)" = old ]'
case_is 'a full disk: the old file of another name stays whole' 125 '' store-fault
rm "$folder/made"
run "trap '' XFSZ; ulimit -f 2; rewrite_cli rewrite padded made >out 2>report </dev/null" \
    '[ ! -e made ]'
case_is 'a full disk: no file is left' 125 '' store-fault
mkdir "$folder/locked"
cp "$folder/hello" "$folder/locked/old"
chmod 666 "$folder/locked/old"
chmod 555 "$folder/locked"
as_user=()
[ "$(id -u)" != 0 ] || as_user=(setpriv --reuid=65534 --regid=65534 --clear-groups)
run "${as_user[*]} rewrite_cli rewrite hello locked/old >out 2>report </dev/null" \
    'cmp -s hello locked/old'
case_is 'a folder that may not be written: the old file stays' 125 '' store-fault
run "${as_user[*]} rewrite_cli run hello 1 9 locked/old >out 2>report </dev/null" \
    'cmp -s hello locked/old'
case_is 'a memory in a folder that may not be written: the old file stays' 125 "$hello" store-fault
chmod 777 "$folder/locked"
run "${as_user[*]} rewrite_cli rewrite hello locked/old >out 2>report </dev/null" \
    'cmp -s new locked/old && [ $(stat -c %a locked/old) = 666 ]'
case_is 'a folder that may be written' 0 '' 'rewritten entries 0 words 0'
if [ "$(id -u)" = 0 ]; then
    run 'cp hello owned; chown 1234:1234 owned; rewrite_cli rewrite hello owned >out 2>report </dev/null' \
        '[ $(stat -c %u:%g owned) = 1234:1234 ]'
    case_is 'the owner of a file stays' 0 '' 'rewritten entries 0 words 0'
fi
run "[ -z \"\$(find . -name '.saving*')\" ]"
case_is 'no file of its own is left' 0 '' ''
run 'rewrite_cli list hello >out 2>report </dev/null'
case_is 'a list of no loops' 0 '' ''
run 'rewrite_cli list new >out 2>report </dev/null'
case_is 'a list of a rewritten file' 124 '' 'refused marked 1'
loops=''
for ((place = 0; place < 1024; place++)); do
    printf -v loop 'loop 0x%08x parallel chosen\n' $((0x10078 + 8 * place))
    loops+=$loop
done
run 'rewrite_cli list loops >out 2>report </dev/null'
case_is 'a list of as many loops as may be chosen' 0 "$loops" ''
run 'rewrite_cli list crowded >out 2>report </dev/null'
case_is 'a list of one loop too many: no line is written' 124 '' 'refused too-many-loops 1025'
run 'rewrite_cli list loops >/dev/full 2>report </dev/null'
case_is 'a list to a full output' 127 '' ''
run 'printf x >>new; rewrite_cli run new 1 >out 2>report </dev/null'
case_is 'a rewritten file with one byte more' 124 '' 'refused altered 328'

# ---- samples that are made

run 'rewrite_cli make vadd 1000 sample >out 2>report </dev/null' \
    '[ $(stat -c %s sample) = 336 ]'
case_is 'a sample' 0 '' 'made 336'
run 'rewrite_cli run sample 1 >sum 2>report </dev/null' \
    'printf "\204\335\026\0\0\0\0\0" | cmp -s - sum'
case_is 'a sample that runs' 0 '' $'hart 0 instructions 19021\nsteps 19021\nexit 0'
run 'rewrite_cli list sample >out 2>report </dev/null'
case_is 'a list of a sample' 0 \
    $'loop 0x000100cc parallel chosen\nloop 0x000100f0 parallel chosen\nloop 0x0001011c carried x7\n' ''
run 'rewrite_cli make stencil 2000000 square >out 2>report </dev/null' \
    '[ ! -e square ]'
case_is 'a sample that is too large: nothing is saved' 124 '' 'refused too-large 2000000'
run 'rewrite_cli make vadd 0 none >out 2>report </dev/null' \
    '[ ! -e none ]'
case_is 'a sample of no numbers' 123 '' "$usage"

# Files whose program headers are cut, each with one more byte changed: PLACE VALUE, and the refusal.
change() {
    printf '%b' "$(printf '\\x%02x' "$2")" | dd of="$folder/pair" bs=1 seek="$1" conv=notrunc status=none
}
while read -r place value refusal; do
    cp "$folder/hello" "$folder/pair"
    change 32 200
    change "$place" "$value"
    run 'rewrite_cli run pair 1 >out 2>report </dev/null'
    case_is "cut program headers: $refusal" 124 '' "refused $refusal"
done <<'PAIRS'
0 126 not-elf
4 1 class 1
5 2 byte-order 2
6 0 version 0
21 1 version 257
16 3 file-type 3
18 62 machine 62
48 1 flags 1
54 57 header-size 57
7 3 header-cut 256 162
56 65 header-cut 3840 162
PAIRS

echo "adapters: $good passed, $bad failed"
[ "$bad" -eq 0 ]
