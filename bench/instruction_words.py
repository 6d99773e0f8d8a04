#!/usr/bin/env python3
"""Prints the tables of assembled words in crates/rv64_decode/src/tests.rt.

Each row is one instruction, written here as assembly and as its fields; the words come from GNU as
and objcopy for RISC-V (Debian: binutils-riscv64-linux-gnu), so that they do not come from the program
that they test. Run it without arguments."""
import os
import struct
import subprocess
import tempfile

TOOLS = os.environ.get("RISCV_PREFIX", "riscv64-linux-gnu-")

REGISTER = ["add", "sub", "sll", "slt", "sltu", "xor", "srl", "sra", "or", "and", "addw", "subw",
            "sllw", "srlw", "sraw", "mul", "mulh", "mulhsu", "mulhu", "div", "divu", "rem", "remu",
            "mulw", "divw", "divuw", "remw", "remuw"]
NUMBER = ["addi", "slti", "sltiu", "xori", "ori", "andi", "addiw"]
SHIFT = ["slli", "srli", "srai"]
SHIFT_W = ["slliw", "srliw", "sraiw"]
LOAD = ["lb", "lh", "lw", "lbu", "lhu", "lwu", "ld"]
STORE = ["sb", "sh", "sw", "sd"]
BRANCH = ["beq", "bne", "blt", "bge", "bltu", "bgeu"]


def name(mnemonic):
    return mnemonic.capitalize()


def tables():
    """Triples of a table's name, its row type, and its rows: assembly and fields."""
    rows = [(f"{m} x{a}, x{b}, x{c}", f"AluOp::{name(m)}, {a}, {b}, {c}")
            for k, m in enumerate(REGISTER)
            for a, b, c in [((k + 5) % 32, (3 * k + 1) % 32, (31 - k) % 32)]]
    rows += [("add x0, x31, x31", "AluOp::Add, 0, 31, 31"), ("sub x31, x0, x0", "AluOp::Sub, 31, 0, 0")]
    yield "ALU", "AluOp, u8, u8, u8", rows

    numbers = [93, -1, 2047, -2048, 1, -93, 1365]
    rows = [(f"{m} x{(k * 5 + 7) % 32}, x{k * 3}, {v}", f"ImmOp::{name(m)}, {(k * 5 + 7) % 32}, {k * 3}, {v}")
            for k, (m, v) in enumerate(zip(NUMBER, numbers))]
    for m, amounts in [(m, [0, 1, 31, 32, 63]) for m in SHIFT] + [(m, [0, 1, 31]) for m in SHIFT_W]:
        rows += [(f"{m} x{31 - v % 31}, x{v % 32}, {v}", f"ImmOp::{name(m)}, {31 - v % 31}, {v % 32}, {v}") for v in amounts]
    rows += [("addi x17, x0, 93", "ImmOp::Addi, 17, 0, 93"), ("addi x0, x0, 0", "ImmOp::Addi, 0, 0, 0")]
    yield "IMMEDIATE", "ImmOp, u8, u8, i32", rows

    rows = [(f"{m} x{r}, {v}", f"UpperOp::{name(m)}, {r}, {(v << 12) - (v >> 19 << 32)}")
            for m, r, v in [("lui", 11, 0x20), ("lui", 31, 0x80000), ("lui", 1, 0xFFFFF), ("lui", 5, 0x7FFFF),
                            ("auipc", 10, 1), ("auipc", 3, 0xFFFFE), ("auipc", 0, 0)]]
    yield "UPPER", "UpperOp, u8, i32", rows

    offsets = [0, 2047, -2048, 8, -8, 1024, -1]
    yield "LOAD", "LoadOp, u8, u8, i32", [
        (f"{m} x{k + 20}, {v}(x{2 * k + 1})", f"LoadOp::{name(m)}, {k + 20}, {2 * k + 1}, {v}")
        for k, (m, v) in enumerate(zip(LOAD, offsets))]

    offsets = [-2048, 2047, 31, 32, -1, -32, 0, 1365]
    yield "STORE", "StoreOp, u8, u8, i32", [
        (f"{m} x{k + 8}, {v}(x{31 - k})", f"StoreOp::{name(m)}, {31 - k}, {k + 8}, {v}")
        for k, (m, v) in enumerate(zip(STORE * 2, offsets))]

    offsets = [-28, 4094, -4096, 2048, 2, 30, -2, -2048, 32, 1024, 0, -1366]
    rows = [(f"{m} x{k}, x{30 - k}, . + {v}", f"BranchOp::{name(m)}, {k}, {30 - k}, {v}")
            for k, (m, v) in enumerate(zip(BRANCH * 2, offsets))]
    rows.append(("bne x11, x13, . + -28", "BranchOp::Bne, 11, 13, -28"))
    yield "BRANCH", "BranchOp, u8, u8, i32", rows

    yield "JAL", "u8, i32", [
        (f"jal x{r}, . + {v}", f"{r}, {v}")
        for r, v in [(0, 0), (1, 2048), (5, -1048576), (31, 1048574), (0, 4096), (1, -2), (2, 2046), (3, -699052)]]
    orders = [("fence iorw, iorw", 0x0FF), ("fence rw, w", 0x031), ("fence.tso", 0x833 - 0x1000), ("fence r, rw", 0x023)]
    yield "FENCE", "u8, u8, i32", [(line, f"0, 0, {v}") for line, v in orders]
    yield "JALR", "u8, u8, i32", [
        (f"jalr x{r}, {v}(x{s})", f"{r}, {s}, {v}") for r, s, v in [(0, 1, 0), (1, 5, -2048), (31, 31, 2047)]]


def words(lines):
    """The words of the lines of assembly, in order."""
    with tempfile.TemporaryDirectory() as folder:
        source, made, flat = (os.path.join(folder, n) for n in ("a.s", "a.o", "a.bin"))
        with open(source, "w") as f:
            f.write(".option norvc\n.option norelax\n" + "\n".join(lines) + "\n")
        subprocess.run([TOOLS + "as", "-march=rv64im", "-o", made, source], check=True)
        subprocess.run([TOOLS + "objcopy", "-O", "binary", "-j", ".text", made, flat], check=True)
        with open(flat, "rb") as f:
            data = f.read()
    assert len(data) == 4 * len(lines), "one word a line"
    return struct.unpack(f"<{len(lines)}I", data)


def main():
    for table, fields, rows in tables():
        print(f"    const {table}: [(u32, {fields}); {len(rows)}] = [")
        for word, (_, values) in zip(words([line for line, _ in rows]), rows):
            print(f"        (0x{word >> 16:04X}_{word & 0xFFFF:04X}, {values}),")
        print("    ];\n")


main()
