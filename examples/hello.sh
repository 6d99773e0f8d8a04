#!/bin/bash
# Runs the executable crates/rewrite_cli/data/hello with the proved program, rewrites it and runs the
# rewritten file; and makes a sample with loops, lists them, and does the same with it: two of its loops are
# divided. Shows each output, of the sample in hexadecimal, report and exit status. Where the program is not
# built yet, build.sh proves and builds it first. Takes no arguments and works from any folder.
set -euo pipefail

here=$(cd "$(dirname "${BASH_SOURCE[0]}")" && pwd)
program=$("$here/build.sh")
folder=$(mktemp -d)
trap 'rm -rf "$folder"' EXIT
cp "$here/../crates/rewrite_cli/data/hello" "$folder/hello"

# give SHOWN WORDS: runs the program with these words in the folder, and shows what it gives, its output by the command
# SHOWN.
give() {
    local shown=$1 status=0
    shift
    echo "\$ rewrite_cli $*"
    (cd "$folder" && "$program" "$@" >out 2>report) || status=$?
    echo "output:"
    $shown "$folder/out"
    echo "report:"
    cat "$folder/report"
    echo "exit status: $status"
}

give cat run hello 1
give cat rewrite hello rewritten
give cat run rewritten 1

give cat make vadd 1000 sums
give cat list sums
give "od -An -tx1" run sums 1
give cat rewrite sums divided
give "od -An -tx1" run divided 1
