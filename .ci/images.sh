#!/bin/bash
# Rewrites executables and runs them and their images, with one hart and with the built program, or with that of
# the variable PROGRAM: the samples, loops with arrays, nests and cells that are divided at once, later or never,
# and loops that end in a fault. In each case the image is as its layout says, with an entry for each chosen loop;
# its run has the output, the exit status, the last line of the report, the unread input and the memory of the
# executable's run, without and with input; its report says what is expected of each loop; and it is spent where
# it may execute one instruction less than it does. Then files that are refused: images that were altered or cut,
# and executables that pass a limit; nothing is saved, and an older file stays. Prints a line for each case, and
# ends with status 1 where one is not as it should be. Wants python3.
set -u

root=$(cd "$(dirname "${BASH_SOURCE[0]}")/.." && pwd)
program=${PROGRAM:-$("$root/examples/build.sh")} || exit 1
folder=$(mktemp -d)
trap 'rm -rf "$folder"' EXIT

# The executables, and for each that is to be rewritten what is expected of its image: NAME.loops has the lines of
# its loops, NAME.answer the last line of its report, NAME.output its output where that is known; `list` has a line
# for each, with its name and what it shows.
python3 - "$folder" <<'PYTHON' || exit 1
import struct
import sys

folder = sys.argv[1]
START = 0x10000

# ---- an assembler for what the programs below use

NAMES = "zero ra sp gp tp t0 t1 t2 s0 s1 a0 a1 a2 a3 a4 a5 a6 a7 s2 s3 s4 s5 s6 s7 s8 s9 s10 s11 t3 t4 t5 t6"
REGISTERS = {name: number for number, name in enumerate(NAMES.split())}
LOADS = "lb lh lw ld lbu lhu lwu".split()
STORES = "sb sh sw sd".split()
BRANCHES = {"beq": 0, "bne": 1, "blt": 4, "bge": 5, "bltu": 6, "bgeu": 7}
IMMEDIATES = {"addi": 0x13, "xori": 0x4013, "andi": 0x7013, "addiw": 0x1B, "jalr": 0x67}
SHIFTS = {"slli": 0x1013, "srli": 0x5013, "srai": 0x40005013}
OPERATIONS = {"add": 0x33, "sub": 0x40000033, "xor": 0x4033, "and": 0x7033, "mul": 0x02000033, "addw": 0x3B}


def bits(value, high, low):
    return value >> low & (1 << high - low + 1) - 1


def address(operand):
    """The offset and the register of `8(a0)`."""
    offset, register = operand.rstrip(")").split("(")
    return int(offset, 0), REGISTERS[register]


def encoded(name, operands, at, labels):
    """The word of an instruction at an address."""
    if name == "ecall":
        return 0x73
    if name in LOADS:
        offset, base = address(operands[1])
        return bits(offset, 11, 0) << 20 | base << 15 | LOADS.index(name) << 12 | REGISTERS[operands[0]] << 7 | 0x03
    if name in STORES:
        offset, base = address(operands[1])
        middle = REGISTERS[operands[0]] << 20 | base << 15 | STORES.index(name) << 12
        return bits(offset, 11, 5) << 25 | middle | bits(offset, 4, 0) << 7 | 0x23
    if name in BRANCHES:
        way = labels[operands[2]] - at
        word = bits(way, 12, 12) << 31 | bits(way, 10, 5) << 25 | bits(way, 4, 1) << 8 | bits(way, 11, 11) << 7
        return word | REGISTERS[operands[1]] << 20 | REGISTERS[operands[0]] << 15 | BRANCHES[name] << 12 | 0x63
    if name == "j":
        way = labels[operands[0]] - at
        word = bits(way, 20, 20) << 31 | bits(way, 10, 1) << 21 | bits(way, 11, 11) << 20 | bits(way, 19, 12) << 12
        return word | 0x6F
    target = REGISTERS[operands[0]] << 7
    if name in ("lui", "auipc"):
        return bits(int(operands[1], 0), 19, 0) << 12 | target | (0x37 if name == "lui" else 0x17)
    source = REGISTERS[operands[1]] << 15
    if name in IMMEDIATES:
        return bits(int(operands[2], 0), 11, 0) << 20 | source | target | IMMEDIATES[name]
    if name in SHIFTS:
        return int(operands[2], 0) << 20 | source | target | SHIFTS[name]
    return REGISTERS[operands[2]] << 20 | source | target | OPERATIONS[name]


def assembled(text, at):
    """The words of a program, which begins at an address, and the addresses of its labels. `li` of a small number is
    addi, and of others two words, lui and addiw; `mv` is addi with 0."""
    lines, labels = [], {}
    for line in text.splitlines():
        line = line.split("#")[0].strip()
        label, found, rest = line.partition(":")
        if found:
            labels[label] = at + 4 * len(lines)
            line = rest.strip()
        if not line:
            continue
        name, *operands = line.replace(",", " ").split()
        if name == "li":
            value = int(operands[1], 0)
            small = -2048 <= value < 2048
            if not small:
                lines.append(("lui", [operands[0], str(value + 0x800 >> 12)]))
            low = (value & 0xFFF ^ 0x800) - 0x800
            lines.append(("addi" if small else "addiw", [operands[0], "zero" if small else operands[0], str(low)]))
        elif name == "mv":
            lines.append(("addi", operands + ["0"]))
        else:
            lines.append((name, operands))
    return [encoded(name, operands, at + 4 * i, labels) for i, (name, operands) in enumerate(lines)], labels


def executable(words, segments=()):
    """An executable with code from its first byte on, behind the headers, and with other segments: their address, their
    bytes and their length in memory."""
    count = 1 + len(segments)
    code = struct.pack(f"<{len(words)}I", *words)
    front = 64 + 56 * count
    ident = b"\x7fELF\x02\x01\x01" + bytes(9)
    file = ident + struct.pack("<HHIQQQIHHHHHH", 2, 243, 1, START + front, 64, 0, 0, 64, 56, count, 0, 0, 0)
    end = front + len(code)
    file += struct.pack("<IIQQQQQQ", 1, 5, 0, START, START, end, end, 4096)
    for at, content, size in segments:
        file += struct.pack("<IIQQQQQQ", 1, 6, end, at, at, len(content), size, 4096)
        end += len(content)
    return file + code + b"".join(content for _, content, _ in segments)


def save(name, content):
    with open(f"{folder}/{name}", "wb") as file:
        file.write(content)


# ---- the programs, each with what a report of its image says of its loops and how it ends

LIST = []  # lines `NAME TITLE`
NUMBERS = bytes((i * i // 7 + i // 251) % 256 for i in range(0x14000))
ARRAY = [(0x20000, NUMBERS, 0x14000)]
EXIT = """
    li a0, 0
    li a7, 93
    ecall
"""


def write(at, count):
    """Writes so many bytes at an address to the output."""
    return f"""
    li a0, 1
    li a1, {at}
    li a2, {count}
    li a7, 64
    ecall
"""


def expect(name, title, loops, answer="exit 0", output=None):
    """What is to be seen of an image: for each entry its header with arrivals, divided and turns; the last line of its
    report; and, where the program is not enough to compare with, its output."""
    LIST.append(f"{name} {title}\n")
    lines = [f"loop 0x{header:08x} arrivals {a} divided {d} turns {t}\n" for header, a, d, t in loops]
    save(f"{name}.loops", "".join(lines).encode())
    save(f"{name}.answer", f"{answer}\n".encode())
    if output is not None:
        save(f"{name}.output", output)


def program(name, title, text, loops, segments=(), answer="exit 0", output=None):
    """An executable with these instructions. Loops are told by labels, and so is the pc of a fault."""
    words, labels = assembled(text, START + 64 + 56 * (1 + len(segments)))
    save(name, executable(words, segments))
    for label, at in labels.items():
        answer = answer.replace(f"pc {label} ", f"pc 0x{at:016x} ")
    expect(name, title, [(labels[label], *counts) for label, *counts in loops], answer, output)


def number(value):
    return value.to_bytes(8, "little")


for n, counts in [(1000, (1, 1, 999)), (1, (1, 0, 0)), (16, (16, 0, 0)), (17, (1, 1, 16))]:
    loops = [(0x100CC, *counts), (0x100F0, *counts)]
    expect(f"vadd{n}", f"two arrays of {n} are filled and added", loops, output=number(3 * n * (n - 1) // 2))
loops = [(0x100D0, 1, 1, 999), (0x100E4, 1, 1, 999)]
expect("bytemap1000", "bytes, from within a word on", loops, output=number(124716))
loops = [(0x100D0, 1, 1, 10403), (0x100EC, 1, 1, 99)]
expect("stencil100", "a square and the sums of neighbours in it", loops, output=number(208060000))

program("add", "three arrays of which two lie one over the other: never divided", """
        lui a1, 0x20
        lui a0, 0x22
        addi a2, a0, 8
        addi a3, a1, 800
turn:   ld a4, 0(a1)
        ld a5, 0(a2)
        add a4, a4, a5
        sd a4, 0(a0)
        addi a1, a1, 8
        addi a2, a2, 8
        addi a0, a0, 8
        bne a1, a3, turn
""" + write(0x22000, 808) + EXIT, [("turn", 100, 0, 0)], ARRAY)

program("pairs", "each turn in 16 bytes of its own", """
        lui a0, 0x20
        addi a1, a0, 640
turn:   ld a5, 8(a0)
        sd a5, 0(a0)
        addi a0, a0, 16
        bne a0, a1, turn
""" + write(0x20000, 648) + EXIT, [("turn", 1, 1, 39)], ARRAY)

program("weave", "two arrays that lie one in the gaps of the other", """
        lui a0, 0x20
        addi a2, a0, 32
        addi a1, a0, 800
turn:   ld a5, 8(a2)
        sd a5, 0(a0)
        addi a2, a2, 16
        addi a0, a0, 16
        bne a0, a1, turn
""" + write(0x20000, 1024) + EXIT, [("turn", 1, 1, 49)], ARRAY)

program("shift", "a copy over itself: divided once the turns that are left do not meet", """
        lui a1, 0x20
        addi a0, a1, 400
        addi a2, a1, 800
turn:   ld a5, 0(a1)
        sd a5, 0(a0)
        addi a1, a1, 8
        addi a0, a0, 8
        bne a1, a2, turn
""" + write(0x20000, 1200) + EXIT, [("turn", 50, 1, 50)], ARRAY)

# 100 rows of 100 doublewords from 0x20400 on; each row copies, from left to right, the number on the left.
ROWS = """
        li a0, 0x20400
        li a1, 0x33c80
row:    addi a5, a0, {first}
        addi a6, a0, 800
column: ld a4, -8(a5)
        sd a4, 0(a5)
        addi a5, a5, 8
        bne a5, a6, column
        addi a0, a0, 800
        bne a0, a1, row
""" + write(0x33640, 1600) + EXIT
program("rows", "rows that read from the row before: never divided", ROWS.format(first=0), [("row", 100, 0, 0)], ARRAY)
program("rows-apart", "rows that read in themselves", ROWS.format(first=8), [("row", 1, 1, 99)], ARRAY)

program("columns", "columns that are stored one by one", """
        li a0, 0x20400
        addi a1, a0, 800
        li a2, 80000
column: mv a5, a0
        add a6, a0, a2
row:    sd a0, 0(a5)
        addi a5, a5, 800
        bne a5, a6, row
        addi a0, a0, 8
        bne a0, a1, column
""" + write(0x33640, 1600) + EXIT, [("column", 1, 1, 99)], ARRAY)

program("cube", "three loops, one in another", """
        lui a0, 0x20
        li a1, 0x20a00
plane:  mv a2, a0
        addi a3, a0, 128
row:    mv a4, a2
        addi a5, a2, 32
column: sd a4, 0(a4)
        addi a4, a4, 8
        bne a4, a5, column
        addi a2, a2, 32
        bne a2, a3, row
        addi a0, a0, 128
        bne a0, a1, plane
""" + write(0x20000, 2560) + EXIT, [("plane", 1, 1, 19)], ARRAY)

program("counter", "counter, pointer and bound in memory, as without optimisation", """
        mv s0, sp
        lui a5, 0x20
        sd a5, -40(s0)
        sd zero, -24(s0)
        li a5, 100
        sd a5, -48(s0)
        j test
body:   ld a4, -24(s0)
        slli a4, a4, 3
        ld a5, -40(s0)
        add a5, a5, a4
        ld a4, -24(s0)
        sd a4, 0(a5)
        ld a5, -24(s0)
        addi a5, a5, 1
        sd a5, -24(s0)
test:   ld a4, -24(s0)
        ld a5, -48(s0)
        blt a4, a5, body
        li a0, 1
        addi a1, s0, -24
        li a2, 8
        li a7, 64
        ecall
""" + write(0x20000, 800) + EXIT, [("test", 1, 1, 100)], ARRAY, output=number(100) + b"".join(map(number, range(100))))

program("past", "stores that pass the heap", """
        lui a0, 0x1011
        addi a1, a0, 16
        addi a0, a0, -160
turn:   sd zero, 0(a0)
        addi a0, a0, 8
        bne a0, a1, turn
""" + EXIT, [("turn", 21, 0, 0)], answer="fault store-unmapped pc turn addr 0x0000000001011000")

program("end", "stores to the end of the heap, and one turn more", """
        lui a0, 0x1011
        addi a1, a0, 8
        addi a0, a0, -160
turn:   sd zero, 0(a0)
        addi a0, a0, 8
        bne a0, a1, turn
""" + EXIT, [("turn", 1, 1, 20)], answer="fault store-unmapped pc turn addr 0x0000000001011000")

program("missed", "a bound that the step does not meet", """
        lui a0, 0x20
        addi a1, a0, 0x324
turn:   sd zero, 0(a0)
        addi a0, a0, 8
        bne a0, a1, turn
""" + EXIT, [("turn", 101, 0, 0)], [(0x20000, b"", 0x320)],
    "fault store-unmapped pc turn addr 0x0000000000020320")

program("denied", "stores into code", """
        lui a0, 0x10
        addi a1, a0, 400
turn:   sd zero, 0(a0)
        addi a0, a0, 8
        bne a0, a1, turn
""" + EXIT, [("turn", 1, 0, 0)], answer="fault store-denied pc turn addr 0x0000000000010000")

program("odd", "loads at odd places", """
        lui a0, 0x20
        addi a1, a0, 401
        addi a0, a0, 1
turn:   ld a5, 0(a0)
        addi a0, a0, 8
        bne a0, a1, turn
""" + EXIT, [("turn", 1, 0, 0)], ARRAY, "fault load-misaligned pc turn addr 0x0000000000020001")

program("code", "a copy of the code itself, word by word", """
        lui a0, 0x20
        lui a1, 0x10
        addi a2, a1, 160
turn:   lw a5, 0(a1)
        sw a5, 0(a0)
        addi a1, a1, 4
        addi a0, a0, 4
        bne a1, a2, turn
""" + write(0x20000, 160) + EXIT, [("turn", 1, 1, 39)], ARRAY)

# Each loop stores 50 numbers; the bound lies one byte behind the last place at which it goes on, or on it.
program("ways", "a loop for each comparison, up and down, of signed and of unsigned numbers", """
        li a0, 0x20000
        addi a1, a0, 1177
less:   sd a0, 0(a0)
        addi a0, a0, 24
        blt a0, a1, less
        li a0, 0x20800
        addi a1, a0, 1176
most:   sd a0, 0(a0)
        addi a0, a0, 24
        bge a1, a0, most
        li a0, 0x21800
        addi a1, a0, -1177
more:   sd a0, 0(a0)
        addi a0, a0, -24
        blt a1, a0, more
        li a0, 0x22000
        addi a1, a0, -1176
least:  sd a0, 0(a0)
        addi a0, a0, -24
        bge a0, a1, least
        li a0, 0x22800
        addi a1, a0, 1177
lessu:  sd a0, 0(a0)
        addi a0, a0, 24
        bltu a0, a1, lessu
        li a0, 0x23000
        addi a1, a0, 1176
mostu:  sd a0, 0(a0)
        addi a0, a0, 24
        bgeu a1, a0, mostu
        li a0, 0x24000
        addi a1, a0, -1177
moreu:  sd a0, 0(a0)
        addi a0, a0, -24
        bltu a1, a0, moreu
        li a0, 0x24800
        addi a1, a0, -1176
leastu: sd a0, 0(a0)
        addi a0, a0, -24
        bgeu a0, a1, leastu
""" + write(0x24000, 2056) + EXIT,
    [(way, 1, 1, 49) for way in "less most more least lessu mostu moreu leastu".split()], ARRAY)

# The cells: 8 bytes at 0 and 16 behind s0, 4 bytes at 24 and 28 behind it, and 8 bytes at 0x22008.
program("cells", "wide and narrow cells, one at a known address, and an auipc", """
        lui s0, 0x21
        lui a0, 0x20
        addi a1, a0, 640
        li a5, 7
        sw a5, 24(s0)
turn:   auipc a4, 1
        sd a4, 0(s0)
        ld a5, 16(s0)
        ld a4, 0(s0)
        xor a4, a4, a5
        lw a5, 24(s0)
        addiw a5, a5, 3
        sw a5, 24(s0)
        sw a4, 28(s0)
        lw a2, 28(s0)
        xor a4, a4, a2
        lui a6, 0x22
        ld a7, 8(a6)
        addi a7, a7, -5
        sd a7, 8(a6)
        add a4, a4, a7
        sd a4, 0(a0)
        addi a0, a0, 8
        bne a0, a1, turn
""" + write(0x20000, 648) + write(0x21000, 40) + write(0x22000, 24) + EXIT, [("turn", 1, 1, 79)], ARRAY)

program("bases", "cells behind temporaries", """
        lui t0, 0x21
        addi t1, t0, 64
        addi t6, t0, 128
        sw zero, 0(t1)
        lui a0, 0x20
        addi a1, a0, 640
turn:   ld a4, 0(t0)
        addi a4, a4, 9
        sd a4, 0(t0)
        lw a5, 0(t1)
        addiw a5, a5, -1
        sw a5, 0(t1)
        add a4, a4, a5
        sd a4, 8(t6)
        sd a4, 0(a0)
        addi a0, a0, 8
        bne a0, a1, turn
""" + write(0x20000, 648) + write(0x21000, 160) + EXIT, [("turn", 1, 1, 79)], ARRAY)

program("met", "two cells that are one: never divided", """
        lui t0, 0x21
        addi t1, t0, 0
        lui a0, 0x20
        addi a1, a0, 320
turn:   ld a4, 0(t0)
        addi a4, a4, 9
        sd a4, 0(t0)
        ld a5, 0(t1)
        addi a5, a5, 1
        sd a5, 0(t1)
        sd a4, 0(a0)
        addi a0, a0, 8
        bne a0, a1, turn
""" + write(0x20000, 328) + write(0x21000, 16) + EXIT, [("turn", 40, 0, 0)], ARRAY)

program("over", "an array over a cell: divided behind it", """
        lui a0, 0x20
        addi t0, a0, 160
        addi a1, a0, 640
turn:   ld a4, 0(t0)
        addi a4, a4, 9
        sd a4, 0(t0)
        sd a4, 0(a0)
        addi a0, a0, 8
        bne a0, a1, turn
""" + write(0x20000, 648) + EXIT, [("turn", 22, 1, 58)], ARRAY)

program("low", "the low half of 64 bits in a narrow cell", """
        lui s0, 0x21
        lui a0, 0x20
        addi a1, a0, 640
turn:   ld a4, 0(a0)
        xori a4, a4, -1
        sw a4, -20(s0)
        lw a5, -20(s0)
        sd a5, 0(a0)
        addi a0, a0, 8
        bne a0, a1, turn
""" + write(0x20000, 648) + write(0x21000 - 32, 32) + EXIT, [("turn", 1, 1, 79)], ARRAY)

program("wrap", "a counter of 32 bits that wraps: divided behind that", """
        lui s0, 0x21
        li a5, 0x7fffffe0
        sw a5, 0(s0)
        lui a0, 0x20
        addi a1, a0, 800
turn:   lw a5, 0(s0)
        addiw a5, a5, 1
        sw a5, 0(s0)
        sd a5, 0(a0)
        addi a0, a0, 8
        bne a0, a1, turn
""" + write(0x20000, 808) + write(0x21000, 8) + EXIT, [("turn", 33, 1, 67)], ARRAY)

program("temporaries", "all temporaries go on from turn to turn", """
        lui t0, 0x20
        li t1, 60
        li t2, -100
        li t3, 5
        lui t4, 0x7ffff
        li t5, 0
        li t6, 1
turn:   sd t1, 0(t0)
        sd t2, 8(t0)
        sd t3, 16(t0)
        sd t4, 24(t0)
        sd t5, 32(t0)
        sd t6, 40(t0)
        addi t0, t0, 48
        addi t1, t1, -1
        addi t2, t2, 3
        addi t3, t3, 2047
        addi t4, t4, -2048
        addi t5, t5, 1
        addi t6, t6, -7
        bne t1, zero, turn
        sd t0, 0(t0)
        sd t1, 8(t0)
        sd t2, 16(t0)
        sd t3, 24(t0)
        sd t4, 32(t0)
        sd t5, 40(t0)
        sd t6, 48(t0)
""" + write(0x20000, 2936 + 8) + EXIT, [("turn", 1, 1, 59)], ARRAY)

program("middle", "a jump within a turn, and two ways through it", """
        lui a0, 0x20
        addi a1, a0, 640
turn:   ld a4, 0(a0)
        andi a5, a4, 1
        beq a5, zero, even
        addi a4, a4, 100
        j both
even:   slli a4, a4, 1
both:   sd a4, 0(a0)
        addi a0, a0, 8
        bne a0, a1, turn
""" + write(0x20000, 648) + EXIT, [("turn", 1, 1, 79)], ARRAY)

program("falls", "the last word of a turn falls into the next", """
        lui a0, 0x20
        addi a1, a0, 640
        j turn
more:   addi a0, a0, 8
turn:   sd a0, 0(a0)
        bne a0, a1, more
""" + write(0x20000, 656) + EXIT, [("turn", 1, 1, 80)], ARRAY)

program("leaves", "the branch that leaves falls into the next turn", """
        lui a0, 0x20
        addi a1, a0, 640
        j turn
more:   addi a0, a0, 8
        beq a0, a1, done
turn:   sd a0, 0(a0)
        j more
done:   sd a1, 0(a0)
""" + write(0x20000, 656) + EXIT, [("turn", 1, 1, 79)], ARRAY)

program("start", "a loop at the start of the program", """
turn:   lui a1, 0x7f7ff
        addi sp, sp, -8
        sd sp, 0(sp)
        bne sp, a1, turn
""" + write(0x7F7FF000, 0xFC0) + EXIT, [("turn", 1, 1, 503)])

# The inner loop has 8, 16, 24, 32 and 40 turns. The first two times there are too few to be divided.
program("again", "a loop that is arrived at again and again", """
        lui a3, 0x20
        li s1, 64
        li s2, 384
outer:  mv a0, a3
        add a1, a0, s1
turn:   ld a5, 0(a0)
        add a5, a5, s1
        sd a5, 0(a0)
        addi a0, a0, 8
        bne a0, a1, turn
        li a0, 1
        mv a1, a3
        li a2, 320
        li a7, 64
        ecall
        addi s1, s1, 64
        bne s1, s2, outer
""" + EXIT, [("turn", 27, 3, 93)], ARRAY)

program("read", "a program that reads 64 bytes between two loops", """
        lui a3, 0x20
        addi a4, a3, 640
        mv a0, a3
first:  sd a0, 0(a0)
        addi a0, a0, 8
        bne a0, a4, first
        li a0, 0
        addi a1, a3, 253
        li a2, 64
        li a7, 63
        ecall
        mv s1, a0
        mv a0, a3
second: ld a5, 0(a0)
        xori a5, a5, 85
        sd a5, 0(a0)
        addi a0, a0, 8
        bne a0, a4, second
""" + write(0x20000, 648) + """
        mv a0, s1
        li a7, 93
        ecall
""", [("first", 1, 1, 79), ("second", 1, 1, 79)], ARRAY)

program("none", "no loop", EXIT, [])

LOOP = """
        li a0, 20
loop{0}:
        addi a0, a0, -1
        bne a0, zero, loop{0}
"""
most = [(f"loop{i}", 1, 1, 19) for i in range(1024)]
program("most", "1,024 loops", "".join(LOOP.format(i) for i in range(1024)) + EXIT, most)


# Each loop stores 32 numbers in each of 17 turns; its stub has 22,184 words. 4,194,304 words may be added.
CROWD = "        lui a1, 0x21\n        addi a1, a1, 256\n"
for i in range(189):
    CROWD += f"        lui a0, 0x20\nloop{i}:\n"
    CROWD += "".join(f"        sd a0, {8 * k}(a0)\n" for k in range(32))
    CROWD += f"        addi a0, a0, 256\n        bne a0, a1, loop{i}\n"
program("longest", "nearly as many words as may be added", CROWD + EXIT, [(f"loop{i}", 1, 1, 16) for i in range(189)])

NOTHING = [0x13]  # addi zero, zero, 0
save("full", executable(NOTHING * (262144 - 3) + assembled(EXIT, 0)[0]))
expect("full", "262,144 reached words", [])
save("list", "".join(LIST).encode())

# ---- executables that are not rewritten


def marked(original):
    """A file that is marked as the image of an executable, with no entry and no added word."""
    even = (len(original) + 7) // 8 * 8
    headers, count = struct.unpack_from("<Q", original, 32)[0], struct.unpack_from("<H", original, 56)[0]
    front = original[:32] + struct.pack("<Q", even) + original[40:56] + struct.pack("<H", count + 1) + original[58:]
    front += bytes(even - len(original)) + original[headers : headers + 56 * count]
    front += struct.pack("<IIQQQQQQ", 0x65505201, 1, len(front) + 56, 0, 0, 48, 48, 8)
    return front + struct.pack("<4sIQQQQQ", b"XPAR", 1, len(original), headers, count, 0, 0)


more = "        lui a0, 0x20\nmore:\n" + "".join(f"        sd a0, {8 * k}(a0)\n" for k in range(32))
more += "        addi a0, a0, 256\n        bne a0, a1, more\n"
for name, words in [
    ("crowded", assembled("".join(LOOP.format(i) for i in range(1025)) + EXIT, START + 120)[0]),
    ("wide", NOTHING * (262145 - 3) + assembled(EXIT, 0)[0]),
    ("long", assembled(CROWD + more + EXIT, START + 120)[0]),
]:
    save(name, executable(words))
    save(f"{name}.marked", marked(executable(words)))
save("none.marked", marked(executable(assembled(EXIT, 0)[0])))
save("input", bytes((7 * i + i * i // 11) % 256 for i in range(200)))
PYTHON

# layout ORIGINAL IMAGE: whether an image is its original with two fields changed, then the program headers, the
# mark, the record, the entries and the added words. Prints the headers of the entries, and how many words there are.
cat >"$folder/layout" <<'PYTHON'
import struct
import sys

original, image = (open(name, "rb").read() for name in sys.argv[1:])
even = (len(original) + 7) // 8 * 8
headers, count = struct.unpack_from("<Q", original, 32)[0], struct.unpack_from("<H", original, 56)[0]
record = even + 56 * (count + 1)
entries, words = struct.unpack_from("<QQ", image, record + 32)
want = original[:32] + struct.pack("<Q", even) + original[40:56] + struct.pack("<H", count + 1) + original[58:]
want += bytes(even - len(original)) + original[headers : headers + 56 * count]
size = 48 + 16 * entries + 4 * words
want += struct.pack("<IIQQQQQQ", 0x65505201, 1, record, 0, 0, size, size, 8)
want += struct.pack("<4sIQQQQQ", b"XPAR", 1, len(original), headers, count, entries, words)
pairs = [struct.unpack_from("<QQ", image, record + 48 + 16 * i) for i in range(entries)]
stubs = [stub for _, stub in pairs]
places = [0x60000000, *stubs[1:], 0x60000000 + 4 * words]
if image[: len(want)] != want or len(image) != record + size:
    sys.exit("the layout")
if sorted(pairs) != pairs or stubs != places[:entries] or any(a >= b or a % 4 for a, b in zip(stubs, places[1:])):
    sys.exit("the entries")
print("".join(f"0x{header:08x}\n" for header, _ in pairs), end="")
print(f"rewritten entries {entries} words {words}", file=sys.stderr)
PYTHON

cd "$folder" || exit 1
bad=0
good=0
why=

# must TEXT WORDS: a command that has to succeed. TEXT says what is wrong where it does not.
must() {
    local text=$1
    shift
    "$@" || why=${why:-$text}
}

# case_is TITLE: the line of a case, after what it must be.
case_is() {
    if [ -z "$why" ]; then
        echo "ok: $1"
        good=$((good + 1))
    else
        echo "NOT OK: $1: $why; report '$(head -c 200 report 2>/dev/null)'"
        bad=$((bad + 1))
    fi
    why=
}

# ends FILE INPUT AS [FUEL]: runs a file with an input. What it gives is left under AS: the output, the report, the
# exit status, what is left of the input, and the memory at its ending.
ends() {
    rm -f "$3".*
    {
        "$program" run "$1" 1 "${4:-1000000000}" "$3.dump" >"$3.out" 2>"$3.report"
        echo $? >"$3.status"
        cat >"$3.rest"
    } <"$2"
    cp "$3.report" report
}

# as_plain INPUT: whether the executable and its image, run with an input, end in the same way.
as_plain() {
    ends "$name" "$1" plain
    ends "$name.image" "$1" image
    must "the output with $1" cmp -s plain.out image.out
    must "the exit status with $1" cmp -s plain.status image.status
    must "the last line with $1" [ "$(tail -n 1 plain.report)" = "$(tail -n 1 image.report)" ]
    must "the unread input with $1" cmp -s plain.rest image.rest
    must "no memory was saved with $1" [ -s plain.dump ]
    must "the memory with $1" cmp -s plain.dump image.dump
    steps=$(awk '$1 == "steps" { print $2 }' image.report)
    {
        cat "$name.loops"
        printf 'hart 0 instructions %s\nsteps %s\n' "$steps" "$steps"
        tail -n 1 plain.report
    } >want
    must "the report with $1" cmp -s want image.report
}

# try_image NAME TITLE: rewrites an executable, and compares its runs with those of its image.
try_image() {
    local name=$1 steps
    "$program" rewrite "$name" "$name.image" >image.out 2>report </dev/null
    must 'the status of rewrite' [ $? = 0 ]
    must 'rewrite has an output' [ ! -s image.out ]
    must 'the image' python3 layout "$name" "$name.image" >headers 2>made
    must 'the report of rewrite' cmp -s made report
    must 'the entries' cmp -s headers <(cut -d ' ' -f 2 "$name.loops")
    must 'the chosen loops' cmp -s headers <("$program" list "$name" | awk '$NF == "chosen" { print $2 }')
    as_plain input
    as_plain /dev/null
    must 'the answer' cmp -s "$name.answer" <(tail -n 1 image.report)
    [ ! -e "$name.output" ] || must 'the output' cmp -s "$name.output" image.out
    ends "$name.image" /dev/null enough "$steps"
    must 'fuel that is enough: the report' cmp -s image.report enough.report
    ends "$name.image" /dev/null short "$((steps - 1))"
    must 'fuel that is short: the report' [ "$(cat short.report)" = spent ]
    must 'fuel that is short: the status' [ "$(cat short.status)" = 121 ]
    must 'fuel that is short: a memory was saved' [ ! -e short.dump ]
    must 'fuel that is short: the output' cmp -s image.out short.out
    cp image.report report
    case_is "$2"
}

for sample in 'vadd 1000' 'vadd 1' 'vadd 16' 'vadd 17' 'bytemap 1000' 'stencil 100'; do
    "$program" make $sample "${sample/ /}" 2>report || exit 1
done
while read -r name title; do
    try_image "$name" "$name: $title"
done <list

# ---- the image of a sample, by its numbers

try_sum() {
    "$program" rewrite vadd1000 sum >out 2>report
    must 'the report of rewrite' [ "$(cat report)" = 'rewritten entries 2 words 717' ]
    must 'the length' [ "$(stat -c %s sum)" = 3452 ]
    must 'the stubs' [ "$(od -An -v -tx8 -w16 -j552 -N32 sum | tr -s ' \n' ' ')" = \
        ' 00000000000100cc 0000000060000000 00000000000100f0 0000000060000518 ' ]
    ends sum /dev/null image 33533
    must 'the report' [ "$(cat report)" = "$(cat vadd1000.loops)"$'\nhart 0 instructions 33533\nsteps 33533\nexit 0' ]
    must 'the output' cmp -s image.out <(printf '\204\335\026\0\0\0\0\0')
    ends sum /dev/null image 33532
    must 'one instruction less' [ "$(cat image.status report)" = $'121\nspent' ]
    must 'the output of one instruction less' cmp -s image.out <(printf '\204\335\026\0\0\0\0\0')
    case_is 'the numbers of an image'
}
try_sum

# ---- files that are refused

# refused TITLE REFUSAL FILE WORDS: commands on a file that are refused in the same way. `rewrite` is tried with a new
# name and over an old file, `run` with an input of which nothing is read and over an old file.
refused() {
    local title=$1 refusal=$2 file=$3 word
    shift 3
    for word in "$@"; do
        printf old >old
        rm -f new
        for name in new old; do
            case $word in
            list) words=(list "$file") ;;
            rewrite) words=(rewrite "$file" "$name") ;;
            run) words=(run "$file" 1 1000000000 "$name") ;;
            esac
            {
                "$program" "${words[@]}" >out 2>report
                must "the status of $word" [ $? = 124 ]
                cat >rest
            } <input
            must "the report of $word" [ "$(cat report)" = "refused $refusal" ]
            must "the output of $word" [ ! -s out ]
            must "the input of $word" cmp -s input rest
        done
        must "$word has saved a file" [ ! -e new ]
        must "$word has saved over a file" [ "$(cat old)" = old ]
    done
    must 'a file of its own is left' [ -z "$(find . -name '.saving*')" ]
    case_is "$title"
}

# altered PLACE VALUE: the sample's image with one byte changed, as `other`.
altered() {
    cp sum other
    printf '%b' "$(printf '\\x%02x' "$2")" | dd of=other bs=1 seek="$1" conv=notrunc status=none
}

altered 584 0x13
refused 'an image with its first added word changed' 'altered 584' other run
altered 3451 0x01
refused 'an image with its last byte changed' 'altered 3451' other run
altered 452 0x05
refused "an image with the mark's flags changed" 'altered 452' other run
altered 488 0x00
refused "an image with the mark's length in memory changed" 'altered 488' other run
altered 544 0xCC
refused 'an image whose record counts a word less' 'altered 544' other run
altered 560 0x04
refused 'an image with the stub of an entry one word off' 'altered 560' other run
altered 251 0x40
refused 'an image with another word in a loop, of which its stub has a copy' 'altered 3359' other run
altered 18 0x3E
refused 'an image of what is no executable for RISC-V' 'machine 62' other run
altered 24 0xB2
refused 'an image of what starts within a word' 'entry-outside 65714' other run
altered 504 0x59
refused 'an image whose record does not begin as one' 'bad-mark' other run
head -c 504 sum >other
refused 'an image that ends before its record' 'bad-mark' other run
head -c 551 sum >other
refused 'an image that ends in its record' 'bad-mark' other run
head -c 3451 sum >other
refused 'an image that ends in its last word' 'bad-mark' other run
{ cat sum && printf x; } >other
refused 'an image with a byte behind its end' 'altered 3452' other run
refused 'an image is no executable' 'marked 2' sum list rewrite
{ cat none.marked && printf x; } >other
refused 'an image without entries, with a byte behind its end' 'altered 296' other run
refused 'more than 1,024 loops' 'too-many-loops 1025' crowded list rewrite
refused 'a file marked as an image of more than 1,024 loops' 'too-many-loops 1025' crowded.marked run
refused 'more than 262,144 reached words' 'too-many-words 262145' wide list rewrite
refused 'a file marked as an image of more than 262,144 reached words' 'too-many-words 262145' wide.marked run
refused 'more than 4,194,304 added words' 'code-too-long 4214960' long rewrite
refused 'a file marked as an image of more than 4,194,304 added words' 'code-too-long 4214960' long.marked run

# ---- files that are run all the same

# runs TITLE FILE REPORT STATUS: a run of a file, with this report but for the instructions.
runs() {
    ends "$2" /dev/null image
    must 'the report' [ "$(sed 's/\(instructions\|steps\) .*/\1 N/' report)" = "$3" ]
    must 'the status' [ "$(cat image.status)" = "$4" ]
    case_is "$1"
}

counts=$'hart 0 instructions N\nsteps N'
altered 326 0x10
runs 'an image of another executable, which has the same added words' other "$(cat vadd1000.loops)
$counts"$'\nexit 1' 1
altered 448 0x00
runs 'an image without its mark is an executable with bytes behind it' other "$counts"$'\nexit 0' 0
runs 'an image without entries' none.marked "$counts"$'\nexit 0' 0
runs 'an executable with more than 1,024 loops' crowded "$counts"$'\nexit 0' 0
runs 'an executable with more than 262,144 reached words' wide "$counts"$'\nexit 0' 0
runs 'an executable with more than 4,194,304 words to add' long "$counts"$'\nexit 0' 0

echo "images: $good passed, $bad failed"
[ "$bad" -eq 0 ]
