#!/bin/bash
# Proves and builds the program where that is not done yet or a source has changed, and prints its path.
# `rt` must be on PATH; without it the program is taken as it was built. Takes no arguments and works
# from any folder.
set -euo pipefail

root=$(cd "$(dirname "${BASH_SOURCE[0]}")/.." && pwd)
crate=$root/crates/rewrite_cli
program=$crate/out/rewrite_cli

if command -v rt >/dev/null; then
    [ -x "$program" ] || echo "proving and building $program" >&2
    log=$(mktemp)
    trap 'rm -f "$log"' EXIT
    # rt also runs what it has built, and ends with that run's status: only the program is wanted here.
    (cd "$crate" && rt run -- run data/hello 1) >"$log" 2>&1 </dev/null || true
    if ! grep -q '^rt: running out/rewrite_cli' "$log"; then
        tail -n 20 "$log" >&2
        exit 1
    fi
elif [ ! -x "$program" ]; then
    echo "build.sh: no rt on PATH to build $program with" >&2
    exit 1
fi
echo "$program"
