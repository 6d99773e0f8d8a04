#!/usr/bin/env python3
"""Prints the tables of expected results in crates/rv64_meaning/src/tests.rt.

Each operation is worked out here from the text of the RISC-V unprivileged manual (RV32I, RV64I and M)
on Python's integers, so that no result comes from the program that it tests. ROWS are shown one by
one. DIGESTS fold the results of an operation at all pairs of EDGES, so that one wrong result of some
four hundred shows. Run it without arguments."""

WORD = 1 << 64

EDGES = [0, 1, 2, 7, 31, 63, 64, 2**31 - 1, 2**31, 2**31 + 1, 2**32 - 1, 2**32, 2**63 - 1, 2**63, 2**63 + 1,
         2**64 - 2**31, 2**64 - 7, 2**64 - 2, 2**64 - 1, 0x0123_4567_89AB_CDEF]
NUMBERS = [0, 1, -1, 2, -2, 7, -7, 31, 63, 64, 1365, -1366, 2047, -2047, -2048]
AMOUNTS = [0, 1, 2, 7, 15, 16, 30, 31, 32, 33, 47, 48, 61, 62, 63]
AMOUNTS_W = [amount for amount in AMOUNTS if amount < 32]


def signed(a, bits=64):
    """The low bits as a two's-complement number."""
    a %= 1 << bits
    return a - (1 << bits) if a >> (bits - 1) else a


def extend(a):
    """'.. sign-extended to 64 bits'."""
    return signed(a, 32) % WORD


def quotient(a, b):
    """'.. rounding towards zero'."""
    whole = abs(a) // abs(b)
    return whole if (a < 0) == (b < 0) else -whole


def remainder(a, b):
    """'the sign of the result equals the sign of the dividend'."""
    return a - b * quotient(a, b)


def divide(a, b, bits, is_signed):
    """DIV, DIVU and their W forms: 'the quotient of division by zero has all bits set'."""
    if is_signed:
        a, b = signed(a, bits), signed(b, bits)
    else:
        a, b = a % (1 << bits), b % (1 << bits)
    return -1 if b == 0 else quotient(a, b)


def rest(a, b, bits, is_signed):
    """REM, REMU and their W forms: 'the remainder of division by zero equals the dividend'."""
    if is_signed:
        a, b = signed(a, bits), signed(b, bits)
    else:
        a, b = a % (1 << bits), b % (1 << bits)
    return a if b == 0 else remainder(a, b)


ALU = {
    "Add": lambda a, b: a + b,
    "Sub": lambda a, b: a - b,
    "Sll": lambda a, b: a << (b & 63),
    "Slt": lambda a, b: int(signed(a) < signed(b)),
    "Sltu": lambda a, b: int(a < b),
    "Xor": lambda a, b: a ^ b,
    "Srl": lambda a, b: a >> (b & 63),
    "Sra": lambda a, b: signed(a) >> (b & 63),
    "Or": lambda a, b: a | b,
    "And": lambda a, b: a & b,
    "Addw": lambda a, b: extend(a + b),
    "Subw": lambda a, b: extend(a - b),
    "Sllw": lambda a, b: extend(a << (b & 31)),
    "Srlw": lambda a, b: extend((a % 2**32) >> (b & 31)),
    "Sraw": lambda a, b: extend(signed(a, 32) >> (b & 31)),
    "Mul": lambda a, b: a * b,
    "Mulh": lambda a, b: signed(a) * signed(b) >> 64,
    "Mulhsu": lambda a, b: signed(a) * b >> 64,
    "Mulhu": lambda a, b: a * b >> 64,
    "Div": lambda a, b: divide(a, b, 64, True),
    "Divu": lambda a, b: divide(a, b, 64, False),
    "Rem": lambda a, b: rest(a, b, 64, True),
    "Remu": lambda a, b: rest(a, b, 64, False),
    "Mulw": lambda a, b: extend(a * b),
    "Divw": lambda a, b: extend(divide(a, b, 32, True)),
    "Divuw": lambda a, b: extend(divide(a, b, 32, False)),
    "Remw": lambda a, b: extend(rest(a, b, 32, True)),
    "Remuw": lambda a, b: extend(rest(a, b, 32, False)),
}

# 'sign-extended 12-bit immediate'; for a shift 'encoded in the lower bits of the I-immediate field'
IMMEDIATE = {op + "i": (op, NUMBERS) for op in ["Add", "Slt", "Xor", "Or", "And"]}
IMMEDIATE["Sltiu"] = ("Sltu", NUMBERS)
IMMEDIATE["Addiw"] = ("Addw", NUMBERS)
IMMEDIATE.update({op + "i": (op, AMOUNTS) for op in ["Sll", "Srl", "Sra"]})
IMMEDIATE.update({op + "iw": (op + "w", AMOUNTS_W) for op in ["Sll", "Srl", "Sra"]})

LEAST, GREATEST, ALL = 2**63, 2**63 - 1, 2**64 - 1
LEAST_W, GREATEST_W = 2**64 - 2**31, 2**31 - 1
ROWS = [
    ("Add", ALL, 1), ("Add", GREATEST, 1), ("Sub", 0, 1), ("Sub", LEAST, 1), ("Sll", 1, 63), ("Sll", 3, 65),
    ("Slt", LEAST, GREATEST), ("Slt", 0, ALL), ("Sltu", LEAST, GREATEST), ("Sltu", 0, ALL), ("Xor", ALL, 0xF0F0),
    ("Srl", LEAST, 63), ("Srl", ALL, 64), ("Sra", LEAST, 63), ("Sra", LEAST, 64), ("Or", 0xF0, 0x0F), ("And", ALL, 0xF0F0),
    ("Addw", GREATEST_W, 1), ("Addw", 2**32 - 1, 1), ("Subw", LEAST_W, 1), ("Subw", 0, 2**32), ("Sllw", 1, 31),
    ("Sllw", 1, 32), ("Srlw", ALL, 0), ("Srlw", ALL, 1), ("Sraw", 2**31, 31), ("Sraw", 2**32, 0),
    ("Mul", 2**32, 2**32), ("Mul", ALL, ALL), ("Mulh", ALL, ALL), ("Mulh", LEAST, LEAST), ("Mulh", LEAST, 1),
    ("Mulhsu", ALL, ALL), ("Mulhsu", LEAST, ALL), ("Mulhsu", 1, ALL), ("Mulhu", ALL, ALL), ("Mulhu", LEAST, 2),
    ("Div", 7, 0), ("Div", LEAST, ALL), ("Div", WORD - 7, 2), ("Div", 7, WORD - 2), ("Divu", LEAST, 0), ("Divu", ALL, 2),
    ("Rem", WORD - 7, 0), ("Rem", LEAST, ALL), ("Rem", WORD - 7, 2), ("Rem", 7, WORD - 2), ("Remu", 7, 0), ("Remu", ALL, 10),
    ("Mulw", 2**31, 2), ("Mulw", 65535, 65537), ("Divw", 7, 2**32), ("Divw", 2**31, 2**32 - 1), ("Divw", WORD - 7, 2),
    ("Divuw", 1, 0), ("Divuw", 2**32 - 1, 1), ("Divuw", ALL, 2), ("Remw", 2**31, 0), ("Remw", 2**31, ALL),
    ("Remw", WORD - 7, 2), ("Remw", 7, WORD - 2), ("Remuw", 2**31, 0), ("Remuw", 2**32 - 1, 2**31), ("Remuw", ALL, 10),
]


def folded(results):
    digest = 0
    for result in results:
        turned = (digest << 5 | digest >> 59) % WORD
        digest = (turned ^ result) * 0x517C_C1B7_2722_0A95 % WORD
    return digest


def hexed(a):
    if a < 65536:
        return str(a)
    groups = []
    while a:
        groups.append(f"{a % 65536:04X}")
        a //= 65536
    return "0x" + "_".join(reversed(groups)).lstrip("0")


def listed(name, kind, items, per_line):
    print(f"const {name}: [{kind}; {len(items)}] = [")
    for at in range(0, len(items), per_line):
        print("    " + ", ".join(str(item) for item in items[at:at + per_line]) + ",")
    print("];\n")


def main():
    listed("EDGES", "u64", [hexed(a) for a in EDGES], 4)
    listed("NUMBERS", "i32", NUMBERS, 15)
    listed("AMOUNTS", "i32", AMOUNTS, 15)
    listed("AMOUNTS_W", "i32", AMOUNTS_W, 15)
    rows = [f"(AluOp::{op}, {hexed(a)}, {hexed(b)}, {hexed(ALU[op](a, b) % WORD)})" for op, a, b in ROWS]
    listed("ROWS", "(AluOp, u64, u64, u64)", rows, 1)
    digests = [f"(AluOp::{op}, {hexed(folded(f(a, b) % WORD for a in EDGES for b in EDGES))})" for op, f in ALU.items()]
    listed("DIGESTS", "(AluOp, u64)", digests, 1)
    for name, values in [("NUMBER_DIGESTS", NUMBERS), ("AMOUNT_DIGESTS", AMOUNTS), ("AMOUNT_W_DIGESTS", AMOUNTS_W)]:
        digests = [f"(ImmOp::{op}, {hexed(folded(ALU[of](a, z % WORD) % WORD for a in EDGES for z in values))})"
                   for op, (of, those) in IMMEDIATE.items() if those is values]
        listed(name, "(ImmOp, u64)", digests, 1)


main()
