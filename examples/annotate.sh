#!/bin/bash
# Shows an executable as its owner would look at it: objdump's listing, with the verdict of each loop
# beside its header, the words of a loop indented once for each loop round them, and the words that a
# verdict names marked.
# Takes the executable's path. Wants objdump for RISC-V, which is in Debian's binutils-riscv64-unknown-elf.
# The program is the one that build.sh makes, or the one that the variable PROGRAM names.
set -euo pipefail

if [ $# -ne 1 ]; then
    echo "usage: annotate.sh FILE" >&2
    exit 2
fi
objdump=riscv64-unknown-elf-objdump
if ! command -v "$objdump" >/dev/null; then
    echo "annotate.sh: there is no $objdump; Debian has it in binutils-riscv64-unknown-elf" >&2
    exit 1
fi
here=$(cd "$(dirname "${BASH_SOURCE[0]}")" && pwd)
program=${PROGRAM:-$("$here/build.sh")}
folder=$(mktemp -d)
trap 'rm -rf "$folder"' EXIT
"$program" list "$1" >"$folder/list"

# listing FILE: objdump's listing, by sections, or by executable segments where there are no sections.
listing() {
    if "$objdump" -h "$1" | grep -q CODE; then
        "$objdump" -d -M no-aliases "$1"
        return
    fi
    "${objdump%objdump}readelf" -lW "$1" | awk '$1 == "LOAD" && / R E /{ print $2, $3, $5 }' |
        while read -r offset address size; do
            tail -c "+$((offset + 1))" "$1" | head -c "$((size))" >"$folder/segment"
            "$objdump" -D -b binary -m riscv:rv64 --adjust-vma="$address" -M no-aliases "$folder/segment"
        done
}

# The first input is the list, the second objdump's listing. Addresses are text of 8 digits, as the list
# has them; `order` numbers the words, so that the word behind another is known without arithmetic.
listing "$1" | awk '
function eight(text) { sub(/^0x/, "", text); return substr("00000000" text, length(text) + 1) }
function edge(from, to) { sources[to] = sources[to] " " from }
# gather(h, u): puts the words that lead to u without passing h into found. 0 where they are more than
# 256, or one of them but h is where a function starts.
function gather(h, u,    stack, top, word, list, n, i) {
    split("", found)
    found[h] = 1
    size = 1
    if (!(u in found)) { found[u] = 1; size++; stack[++top] = u }
    while (top > 0) {
        word = stack[top--]
        if (word in starts) return 0
        n = split(sources[word], list, " ")
        for (i = 1; i <= n; i++)
            if (!(list[i] in found)) {
                if (++size > 256) return 0
                found[list[i]] = 1
                stack[++top] = list[i]
            }
    }
    return 1
}
NR == FNR {
    header = substr($2, 3)
    text = $0
    sub(/^loop 0x[0-9a-f]+ /, "", text)
    verdict[header] = text
    headers[++loops] = header
    for (i = 3; i <= NF; i++)
        if ($i ~ /^0x/) marked[substr($i, 3)] = marked[substr($i, 3)] " <- " $3 " of loop 0x" header
    next
}
/^Disassembly|^$|file format/ { next }
/^[0-9a-f]+ <.*>:$/ { before[words + 1] = $0; next }
/^ +[0-9a-f]+:/ {
    address = $1
    sub(/:$/, "", address)
    order[++words] = eight(address)
    place[eight(address)] = words
    line = $0
    sub(/^[^\t]*\t[^\t]*\t/, "", line)
    gsub(/\t/, " ", line)
    shown[words] = line
    name[words] = $3
    target[words] = ""
    if ($3 ~ /^(beq|bne|blt|bge|bltu|bgeu)$/ || $3 == "jal") {
        n = split($4, parts, ",")
        target[words] = eight(parts[n])
        link[words] = $3 == "jal" ? parts[1] : ""
    } else if ($3 == "jalr") {
        link[words] = $4
        sub(/,.*/, "", link[words])
    }
    next
}
END {
    for (i = 1; i <= words; i++) {
        branch = name[i] ~ /^b/
        jump = name[i] ~ /^jal/ && link[i] == "zero"
        if (name[i] == "jal" && !jump) starts[target[i]] = 1
        if (target[i] != "" && (branch || jump)) edge(order[i], target[i])
        exits = name[i] == "ecall" && shown[i - 1] ~ /addi +a7,zero,9[34]/
        if (!jump && !exits && name[i] != "ebreak" && i < words) edge(order[i], order[i + 1])
    }
    for (i = 1; i <= loops; i++) {
        split("", body)
        n = split(sources[headers[i]], closing, " ")
        for (k = 1; k <= n; k++)
            if (gather(headers[i], closing[k])) for (word in found) body[word] = 1
        for (word in body) depth[word]++
    }
    for (i = 1; i <= words; i++) {
        if (i in before) print "\n" before[i]
        address = order[i]
        if (address in verdict) print sprintf("%*s", 2 * depth[address], "") "loop 0x" address ": " verdict[address]
        printf "%*s%s  %s%s\n", 2 * depth[address], "", address, shown[i], marked[address]
    }
}
' "$folder/list" -
