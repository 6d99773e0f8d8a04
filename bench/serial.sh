#!/bin/bash
# Measures how many instructions a second the serial run executes, on five programs of about 10^8
# instructions each: `count`, whose loop loads a doubleword from the stack, adds 1, stores it back, counts
# down and branches; `mix`, with a multiplication, a second load and a second branch in the loop; and,
# where there is a compiler for RISC-V, a matrix product, a hash and a sort from examples/c.
# Runs each some times with the built program, and prints, from the report's line `steps` and the least
# user time, the rate. Where YARDSTICK names the source of an interpreter in C, which takes a file and
# prints `steps N` on its standard error, that is compiled by gcc -O2 and run between, and the ratio of
# the two times is printed too.
# Usage: [YARDSTICK=FILE.c] bench/serial.sh [RUNS], 5 runs by default.
# Wants python3; examples/build.sh builds the program where it is not built yet.
set -euo pipefail

root=$(cd "$(dirname "${BASH_SOURCE[0]}")/.." && pwd)
runs=${1:-5}

program=$("$root/examples/build.sh")
folder=$(mktemp -d)
trap 'rm -rf "$folder"' EXIT

python3 - "$folder" <<'PYTHON'
import struct
import sys

# One load segment that may be read and executed, the whole file, at 0x10000; code at 0x10078.


def start(turns):
    """x5 counts down from `turns`, x10 points into the stack, x7 is 3."""
    return [
        (turns >> 12) + (turns >> 11 & 1) << 12 | 5 << 7 | 0x37,  # lui x5, the upper part
        (turns & 0xFFF) << 20 | 5 << 15 | 5 << 7 | 0x13,  # addi x5, x5, the lower part
        0xFC010513,  # addi x10, x2, -64
        0x00300393,  # addi x7, x0, 3
    ]


COUNT = [
    0x00053303,  # ld x6, 0(x10)
    0x00130313,  # addi x6, x6, 1
    0x00653023,  # sd x6, 0(x10)
    0xFFF28293,  # addi x5, x5, -1
    0xFE0298E3,  # bne x5, x0, -16
]
MIX = [
    0x00053303,  # ld x6, 0(x10)
    0x02730333,  # mul x6, x6, x7
    0x00130313,  # addi x6, x6, 1
    0x00653023,  # sd x6, 0(x10)
    0x00452E03,  # lw x28, 4(x10)
    0x000E0463,  # beq x28, x0, 8
    0x01C3C3B3,  # xor x7, x7, x28
    0xFFF28293,  # addi x5, x5, -1
    0xFE0290E3,  # bne x5, x0, -32
]
END = [
    0x00000513,  # addi x10, x0, 0
    0x05D00893,  # addi x17, x0, 93
    0x00000073,  # ecall
]

for name, turns, loop in (("count", 20_000_000, COUNT), ("mix", 11_500_000, MIX)):
    words = start(turns) + loop + END
    code = struct.pack(f"<{len(words)}I", *words)
    size = 120 + len(code)
    ident = b"\x7fELF\x02\x01\x01" + bytes(9)
    header = ident + struct.pack("<HHIQQQIHHHHHH", 2, 243, 1, 0x10078, 64, 0, 0, 64, 56, 1, 0, 0, 0)
    segment = struct.pack("<IIQQQQQQ", 1, 5, 0, 0x10000, 0x10000, size, size, 4096)
    with open(f"{sys.argv[1]}/{name}", "wb") as file:
        file.write(header + segment + code)
PYTHON

programs=(count mix)
compiler=riscv64-unknown-elf-gcc
if command -v "$compiler" >/dev/null; then
    flags=(-march=rv64im -mabi=lp64 -mcmodel=medany -ffreestanding -nostdlib -static -O2)
    for kernel in product:60 hash:4000 shell:24; do
        name=${kernel%:*}
        "$compiler" "${flags[@]}" -DROUNDS="${kernel#*:}" -o "$folder/$name" \
            "$root/examples/c/start.S" "$root/examples/c/$name.c"
        programs+=("$name")
    done
fi
if [ -n "${YARDSTICK:-}" ]; then
    gcc -O2 -w -o "$folder/yardstick" "$YARDSTICK"
fi

# least SO_FAR WORDS: the least of the user times so far, in seconds, and that of one run of a command,
# which leaves its report in $folder/report.
least() {
    local so_far=$1 seconds
    shift
    TIMEFORMAT=%U
    seconds=$({ time "$@" >/dev/null 2>"$folder/report"; } 2>&1)
    awk -v a="$so_far" -v b="$seconds" 'BEGIN { print (a == "" || b < a) ? b : a }'
}

for name in "${programs[@]}"; do
    ours= theirs=
    for ((run = 1; run <= runs; run++)); do
        if [ -n "${YARDSTICK:-}" ]; then
            theirs=$(least "$theirs" "$folder/yardstick" "$folder/$name")
            expected=$(awk '$1 == "steps" { print $2 }' "$folder/report")
        fi
        ours=$(least "$ours" "$program" run "$folder/$name" 1)
        steps=$(awk '$1 == "steps" { print $2 }' "$folder/report")
        if [ "$(tail -n 1 "$folder/report")" != "exit 0" ] || [ "${expected:-$steps}" != "$steps" ]; then
            cat "$folder/report" >&2
            exit 1
        fi
    done
    awk -v name="$name" -v steps="$steps" -v ours="$ours" -v theirs="$theirs" 'BEGIN {
        printf "%s: %d instructions in %s s of user time, %.0f million a second", name, steps, ours, steps / ours / 1e6
        if (theirs != "") printf "; the yardstick %s s, %.2f of it", theirs, ours / theirs
        print ""
    }'
done
