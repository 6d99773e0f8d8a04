#!/bin/bash
# Writes the page docs/VERDICTS.md to the output: each verdict with what it means, C code that gets it, what
# `list` writes of that code, and what can be done. The texts are the heads of verdicts/*.c, in the order
# below. c.sh compares the page with what this script writes.
# Takes no arguments. Wants Debian's gcc-riscv64-unknown-elf. The program is the one that build.sh makes, or
# the one that the variable PROGRAM names.
set -euo pipefail

here=$(cd "$(dirname "${BASH_SOURCE[0]}")" && pwd)
program=${PROGRAM:-$("$here/build.sh")}
folder=$(mktemp -d)
trap 'rm -rf "$folder"' EXIT
flags=(-march=rv64im -mabi=lp64 -mcmodel=medany -ffreestanding -nostdlib -static)
order=(parallel nest dependence irregular carried carried-cell short-counter wide-stride no-trip mixed-cell
    shape two-sided limit multi-entry call system indirect unsupported)

# head_of NAME FILE: the text after `NAME: ` in a file's first comment, its lines joined.
head_of() {
    awk -v name="$1: " '
        !/^\/\// { exit }
        { line = substr($0, 4) }
        index(line, name) == 1 { on = 1; print substr(line, length(name) + 1); next }
        line ~ /^[A-Z][a-z]+: / { on = 0 }
        on { print line }
    ' "$2"
}

cat <<'TEXT'
# Verdicts

`list FILE` writes a line for each loop: `loop 0xHEADER` and a verdict. The verdict is the first that
applies, in the order `multi-entry`, `limit`, `call`, `system`, `indirect`, `unsupported`, `shape`, `limit`,
`mixed-cell`, `carried`, `no-trip`, `irregular`, `dependence`, `parallel`; an address is that of the least
word that decides. It says what the rules in README.md say of the instructions that are there, whatever
compiler made them. For each verdict this page has C code that gets it from Debian's gcc 12.2.0, with the lines
of `list` for the whole program of that code, and what an owner of the source can do. The programs
stand in `examples/verdicts`, and `examples/annotate.sh FILE` shows any executable with its verdicts beside its
instructions.

Known of gcc: it keeps steps of 2,048 bytes and more in a register (`carried`); at -O2 it may give the two
sides of an `if` a way round each (`shape`); counters of 8 and 16 bits are cut in each turn (`carried`);
and code behind a jump through a table is not reached by jumps whose targets are known, so that its
loops are not listed.
TEXT
for name in "${order[@]}"; do
    source=$here/verdicts/$name.c
    options=$(head_of Options "$source")
    read -ra words <<<"$options"
    "$(command -v riscv64-unknown-elf-gcc)" "${flags[@]}" "${words[@]}" -o "$folder/$name" "$here/c/start.S" "$source"
    printf '\n## %s\n\n' "$(head_of Verdict "$source")"
    head_of Means "$source"
    printf '\n```c\n'
    sed '1,/^\/\/ Remedy/d; /^\/\//d' "$source" | sed '/^#define KEPT/,/^$/d; s/^KEPT //; /^int main/,$d' |
        cat -s | sed -e '1{/^$/d}' -e '${/^$/d}'
    printf '```\n\nWith `%s`, `list` writes\n\n' "$options"
    "$program" list "$folder/$name" | sed 's/^/    /'
    printf '\n'
    head_of Remedy "$source"
done
