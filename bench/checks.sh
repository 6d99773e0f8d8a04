#!/bin/bash
# Measures what the check of a loop costs at an arrival: of a loop of 32 stores, all of whose 528 pairs are tested,
# and of one that has 15 turns, one too few. Makes a program that asks for each answer many times, in a copy of the
# crates in a folder of its own, and prints the time of one answer, least of 3.
# Usage: bench/checks.sh
# Wants rt on PATH, which proves the program first: some minutes where nothing of it is kept.
set -euo pipefail

root=$(cd "$(dirname "${BASH_SOURCE[0]}")/.." && pwd)
folder=$(mktemp -d)
trap 'rm -rf "$folder"' EXIT

needed="elf_image rv64_decode linear_forms loop_data dependence_tests guest_memory alias_checks"
mkdir -p "$folder/crates/check_times/src"
for crate in $needed; do
    mkdir -p "$folder/crates/$crate"
    for part in src specs proofs; do
        if [ -d "$root/crates/$crate/$part" ]; then
            cp -r "$root/crates/$crate/$part" "$folder/crates/$crate/"
        fi
    done
    grep "^$crate:" "$root/crates.txt" >>"$folder/crates.txt"
done
echo "check_times: elf_image rv64_decode linear_forms loop_data guest_memory alias_checks arrayvec anyhow" \
    >>"$folder/crates.txt"
if [ -f "$root/HANDLES" ]; then
    cp "$root/HANDLES" "$folder/"
fi

cat >"$folder/crates/check_times/src/main.rt" <<'RATTLE'
//! Times of the check of a loop.
#![tactic(auto)]

ghost use Rattle.std.specs.Prelude.{◌<◌, ◌≤◌, IfOk};
ghost use Rattle.elf_image.specs.Layout.{IsLoadable};

use alias_checks::laws::bounds_tell_areas;
use alias_checks::{Check, check_of, holds};
use anyhow::Context;
use arrayvec::ArrayVec;
use elf_image::{Bytes, Elf, Segment, Segments};
use guest_memory::build;
use linear_forms::{Form, Loc};
use loop_data::{Access, Accesses, Cells, Duties, Equations, Points, Relation, Trip};
use rv64_decode::{Reg, Regs, Width};
use std::alloc::{AllocError, Global};
use std::time::Instant;

const RUNS: u32 = 20_000;

// A program of code alone, with a heap and a stack.
fn program(alloc: Global) -> Result<Elf, AllocError>
    ensures { IfOk result (λ elf. IsLoadable elf) }
{
    let mut segments = Vec::new(alloc);
    segments.push(Segment {
        index: 0,
        vaddr: 0x10000,
        memsz: 16,
        flags: 5,
        bytes: Bytes::new(Vec::new(alloc)),
    })?;
    Ok(Elf {
        entry: 0x10000,
        segments: Segments::new(segments),
    })
}

// A store of 8 bytes, so many bytes behind x12, which gains 8 in each turn.
fn store(behind: i64) -> anyhow::Result<Access> {
    let at = Form::moving(Loc::Reg(12), 8).context("x12")?;
    let by = Form::pure(behind).context("a constant")?;
    let form = at.add(&by).context("an address")?;
    Ok(Access {
        form,
        width: Width::Eight,
        store: true,
        ..Access::default()
    })
}

// 32 stores to arrays of their own.
fn stores() -> anyhow::Result<Accesses> {
    let mut list = ArrayVec::new();
    for k in 0..32u16 {
        if !list.is_full() {
            list.push(store(k as i64 * 0x4000)?);
        }
    }
    Ok(Accesses { list })
}

// x10, which gains 1 in each turn, is below x11.
fn counted() -> anyhow::Result<Trip> {
    Ok(Trip {
        relation: Relation::Less,
        signed: true,
        start: Form::moving(Loc::Reg(10), 1).context("x10")?,
        bound: Form::moving(Loc::Reg(11), 0).context("x11")?,
        step: 1,
    })
}

fn main(rt: HostRuntime) -> anyhow::Result<()> {
    let alloc = rt.alloc();
    bounds_tell_areas();
    let elf = program(alloc)?;
    let cells = Cells {
        list: ArrayVec::new(),
        uses: ArrayVec::new(),
        fault: None,
    };
    let equations = Equations {
        points: Points::new(Vec::new(alloc)),
        duties: Duties::new(Vec::new(alloc)),
        unconfirmed: None,
    };
    let mut trips = Vec::new(alloc);
    trips.push(counted()?)?;
    let accesses = stores()?;
    let check = check_of(alloc, &cells, trips.as_slice(), &equations, &accesses, &elf)?;
    let mem = build(alloc, &elf)?;
    let mut regs = Regs::new();
    regs.set(Reg::new(12), 0x7F00_0000);
    for turns in [1000u64, 15] {
        regs.set(Reg::new(11), turns);
        let mut least = u64::MAX;
        let mut held = 0u32;
        for _ in 0..3 {
            let start = Instant::now(&rt)?;
            held = 0;
            for k in 0..RUNS {
                regs.set(Reg::new(13), k as u64);
                if holds(&check, &regs, &mem).is_some() {
                    held = held.wrapping_add(1);
                }
            }
            let nanos = start.elapsed(&rt)?.as_nanos() / RUNS as u128;
            if nanos < least as u128 {
                least = nanos as u64;
            }
        }
        println!(rt; "{turns} turns: {least} ns an answer, held {held} times")?;
    }
    Ok(())
}
RATTLE

cd "$folder/crates/check_times"
rt run >"$folder/log" 2>&1 </dev/null || true
if ! grep ' ns an answer' "$folder/log"; then
    tail -n 30 "$folder/log" >&2
    exit 1
fi
