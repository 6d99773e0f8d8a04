#!/bin/bash
# Measures how long `list` and `rewrite` take for executables with 2^14, 2^16 and 2^18 reached words: blocks of eight
# words, each a loop with a branch, a call and a pair of auipc and jalr. Then for three files that are hard
# to list: 255 loops one in another in each of 1,023 blocks ('nested'), a chain laid out backwards inside 192
# loops in each of 1,023 blocks ('backwards'), and a header with 2^16 closed edges, from the leaves of a tree
# ('tree'). Then for a file of 1,000 loops of 256 words that are chosen, each with 32 stores to bytes of their own
# ('verdicts'): each two of these are a pair that is tested. Lists and rewrites each some times with the built
# program, and prints the least user times and the most memory.
# Usage: bench/flow.sh [RUNS], 3 runs by default.
# Wants python3; examples/build.sh builds the program where it is not built yet.
set -euo pipefail

root=$(cd "$(dirname "${BASH_SOURCE[0]}")/.." && pwd)
runs=${1:-3}

program=$("$root/examples/build.sh")
folder=$(mktemp -d)
trap 'rm -rf "$folder"' EXIT

python3 - "$folder" <<'PYTHON'
import struct
import sys

# One load segment that may be read and executed, the whole file, at 0x10000; code at 0x10078.

BLOCK = [
    0x00128293,  # addi x5, x5, 1
    0x0005B703,  # ld x14, 0(x11)
    0x00000463,  # beq x0, x0, 8
    0x00E53023,  # sd x14, 0(x10)
    0x020000EF,  # jal x1, 32
    0x00000097,  # auipc x1, 0
    0x000080E7,  # jalr x1, 0(x1)
    0xFE0012E3,  # bne x0, x0, -28
]

END = 0x00100073  # ebreak
BACK = 0xFEB51EE3  # bne x10, x11, -4
JUMP_BACK = 0xFFDFF06F  # jal x0, -4
NEXT_BLOCK = 0x40B51063  # bne x10, x11, 1024

NESTED = [NEXT_BLOCK] + 254 * [BACK] + [JUMP_BACK]
BACKWARDS = [NEXT_BLOCK] + 191 * [BACK] + [0x0FC0006F, 0xFF9FF06F] + 62 * [JUMP_BACK]

# 32 stores to the 256 bytes of the turn, 222 words that take no part, and the step to the next turn.
STORES = [0x00053023 | (8 * i >> 5) << 25 | (8 * i & 31) << 7 for i in range(32)]  # sd x0, 8 * i(x10)
VERDICTS = STORES + 222 * [0x00168613] + [0x10050513, 0xC0B512E3]  # addi x12, x13, 1; addi x10, x10, 256; bne


def jump(offset):
    """jal x0, by so many bytes"""
    bits = offset & 0x1FFFFF
    return 0x6F | (bits >> 12 & 0xFF) << 12 | (bits >> 11 & 1) << 20 | (bits >> 1 & 0x3FF) << 21 | (bits >> 20) << 31


def tree(depth):
    """A header, 222 words behind it, and a tree whose leaves jump back to the header."""
    words = 223 * [0x00150513]  # addi x10, x10, 1

    def node(depth):
        at = len(words)
        if depth == 0:
            words.append(jump(-4 * at))
            return
        words.extend([0x00B51463, 0])  # bne x10, x11, 8
        node(depth - 1)
        words[at + 1] = jump(4 * (len(words) - at - 1))
        node(depth - 1)

    node(depth)
    return words


files = {str(power): BLOCK * (2**power // 8) for power in (14, 16, 18)}
files["nested"] = NESTED * 1023 + [END]
files["backwards"] = BACKWARDS * 1023 + [END]
files["tree"] = tree(16)
files["verdicts"] = VERDICTS * 1000 + [END]

for name, words in files.items():
    code = struct.pack(f"<{len(words)}I", *words)
    size = 120 + len(code)
    ident = b"\x7fELF\x02\x01\x01" + bytes(9)
    header = ident + struct.pack("<HHIQQQIHHHHHH", 2, 243, 1, 0x10078, 64, 0, 0, 64, 56, 1, 0, 0, 0)
    segment = struct.pack("<IIQQQQQQ", 1, 5, 0, 0x10000, 0x10000, size, size, 4096)
    with open(f"{sys.argv[1]}/{name}", "wb") as file:
        file.write(header + segment + code)
PYTHON

# The least user time of so many lists, and of so many rewritings, and the most memory of any. A file of which too many
# words would be added is refused by `rewrite` once they are counted.
python3 - "$program" "$folder" "$runs" <<'PYTHON'
import os
import subprocess
import sys

program, folder, runs = sys.argv[1], sys.argv[2], int(sys.argv[3])
REFUSED = 124


def measure(words, allowed):
    """The least user time in seconds and the most memory in MB of the runs with these words."""
    seconds, memory = [], []
    for _ in range(runs):
        with open(f"{folder}/report", "wb") as report:
            child = subprocess.Popen([program, *words], stdout=subprocess.DEVNULL, stderr=report)
            _, status, usage = os.wait4(child.pid, 0)
        if os.waitstatus_to_exitcode(status) not in allowed:
            sys.stderr.write(open(f"{folder}/report").read())
            sys.exit(1)
        seconds.append(usage.ru_utime)
        memory.append(usage.ru_maxrss)
    return min(seconds), max(memory) // 1024


for name in ["14", "16", "18", "nested", "backwards", "tree", "verdicts"]:
    listed = measure(["list", f"{folder}/{name}"], [0])
    written = measure(["rewrite", f"{folder}/{name}", f"{folder}/image"], [0, REFUSED])
    what = f"2^{name} words" if name.isdigit() else name
    print(f"{what}: list {listed[0]:.2f} s of user time, {listed[1]} MB; rewrite {written[0]:.2f} s, {written[1]} MB")
PYTHON
