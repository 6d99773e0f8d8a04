#!/bin/bash
# Compiles the C programs of c/ for RV64IM without optimisation and with each kind of it, runs each with the proved
# program, before and after rewriting, and compares output and exit status with those that qemu-riscv64
# gives, where that is installed; says how many of the loops that have an entry were arrived at and were divided,
# and how many turns that were. Then lists the loops of each, and of a program of more than 100,000 bytes
# of code, and holds the page of verdicts against what the programs of verdicts/ get (verdicts.sh). Prints a line
# for each, with the time that a list took, and ends with status 1 where two differ, or where a list is refused.
# Takes no arguments and works from any folder. Wants Debian's gcc-riscv64-unknown-elf; without it
# nothing is done. qemu-riscv64 is in Debian's qemu-user. The program is the one that build.sh makes, or
# the one that the variable PROGRAM names.
set -euo pipefail

here=$(cd "$(dirname "${BASH_SOURCE[0]}")" && pwd)
compiler=riscv64-unknown-elf-gcc
if ! command -v "$compiler" >/dev/null; then
    echo "skipped: there is no $compiler"
    exit 0
fi
program=${PROGRAM:-$("$here/build.sh")}
folder=$(mktemp -d)
trap 'rm -rf "$folder"' EXIT
printf 'the quick brown fox jumps over the lazy dog\n' >"$folder/input"

# RV64IM without compressed code; the linker puts code and data into segments of their own.
flags=(-march=rv64im -mabi=lp64 -mcmodel=medany -ffreestanding -nostdlib -static)

# result WORDS: what a command writes to its output, and its exit status.
result() {
    local status=0
    "$@" <"$folder/input" 2>"$folder/report" || status=$?
    echo "status $status"
}

# compare NAME EXPECTED ACTUAL: whether two results are the same.
failed=0
compare() {
    if cmp -s "$2" "$3"; then
        echo "ok: $1"
    else
        echo "differs: $1"
        failed=1
    fi
}

# divided: what a report of an image says of its loops, and whether all instructions were those of hart 0.
divided() {
    awk '$1 == "loop" { entries++; arrived += $4 > 0; loops += $6 > 0; turns += $8 }
        $1 == "hart" { hart = $4 }
        $1 == "steps" { steps = $2 }
        END {
            printf "%d entries, %d arrived at, %d divided, %.0f turns\n", entries, arrived, loops, turns
            exit hart != steps || steps == ""
        }' "$folder/report"
}

for source in "$here"/c/*.c; do
    for level in -O0 -O1 -O2 -O3 -Os; do
        name=$(basename "$source" .c)$level
        executable=$folder/$name
        "$compiler" "${flags[@]}" "$level" -o "$executable" "$here/c/start.S" "$source"
        result "$program" run "$executable" 1 >"$folder/run"
        "$program" rewrite "$executable" "$executable.new" 2>"$folder/report"
        result "$program" run "$executable.new" 1 >"$folder/again"
        if counts=$(divided); then
            compare "$name, rewritten: $counts" "$folder/run" "$folder/again"
        else
            echo "differs: $name, rewritten: the report"
            failed=1
        fi
        if command -v qemu-riscv64 >/dev/null; then
            result qemu-riscv64 "$executable" >"$folder/qemu"
            compare "$name, qemu-riscv64" "$folder/qemu" "$folder/run"
        fi
    done
done
# list NAME: how many loops are listed of an executable, and in how many milliseconds.
list() {
    local start end
    start=$(date +%s%N)
    if ! "$program" list "$folder/$1" >"$folder/list" 2>"$folder/report"; then
        echo "list of $1: $(cat "$folder/report")"
        failed=1
        return
    fi
    end=$(date +%s%N)
    local time=$(((end - start) / 1000000))
    echo "list of $1, $(stat -c %s "$folder/$1") bytes: $(wc -l <"$folder/list") loops, $time ms"
}

# Functions with nests of loops, each called once.
{
    echo '#include "calls.h"'
    for n in $(seq 500); do
        echo "static long f$n(long *a, long n) {"
        echo "    long sum = $n;"
        echo "    for (long i = 0; i < n; i++) {"
        echo "        for (long j = 0; j < i; j++) sum += a[j] * $n;"
        echo "        if (sum > n) a[i] = sum;"
        echo "    }"
        echo "    return sum;"
        echo "}"
    done
    echo "int main(void) {"
    echo "    static long a[8];"
    echo "    long sum = 0;"
    for n in $(seq 500); do echo "    sum += f$n(a, 8);"; done
    echo "    write_number((unsigned long)sum);"
    echo "    return 0;"
    echo "}"
} >"$folder/many.c"
"$compiler" "${flags[@]}" -O0 -I "$here/c" -o "$folder/many-O0" "$here/c/start.S" "$folder/many.c"

for executable in "$folder"/*-O[0-9s]; do
    list "$(basename "$executable")"
done
PROGRAM=$program "$here/verdicts.sh" >"$folder/verdicts.md"
compare "docs/VERDICTS.md" "$here/../docs/VERDICTS.md" "$folder/verdicts.md"
exit "$failed"
