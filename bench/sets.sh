#!/usr/bin/env bash
# What sets of numbers cost (crates/cil_sets): a program that calls them is made in a temporary folder, proved and run there.
# README.md says how to read the table. It needs rt, and valgrind for the instructions.
set -eu
here=$(cd "$(dirname "${BASH_SOURCE[0]}")" && pwd)
work=$(mktemp -d)
trap 'rm -rf "$work"' EXIT
command -v valgrind >/dev/null || { echo "this script needs valgrind" >&2; exit 2; }

mkdir -p "$work/crates/sets_bench/src"
for crate in cil_base cil_sets; do
    mkdir "$work/crates/$crate"
    cp -r "$here/../crates/$crate/"{src,specs,proofs} "$work/crates/$crate"
done
cat >"$work/crates.txt" <<'END'
cil_base:
cil_sets: cil_base
sets_bench: cil_sets cil_base
END
cat >"$work/crates/sets_bench/src/main.rt" <<'END'
//! Runs calls of sets of numbers as often as the words of the command line say.
#![tactic(auto)]

use cil_base::NoMemory;
use cil_sets::{Joining, Numbers};
use std::alloc::Global;
use std::env;
use std::process::ExitCode;
use std::rt::Env;

/// The sets have numbers below this.
const TYPES: usize = 4_098;

/// A number below another, which is not 0, that looks random.
fn some(step: usize, end: usize) -> usize {
    (step.wrapping_mul(2_654_435_761) >> 7).checked_rem(end).unwrap_or(0)
}

/// Adds as many numbers, to 122 sets one after the other.
fn added(alloc: Global, times: usize) -> Result<usize, NoMemory> {
    let mut count: usize = 0;
    let mut set = Numbers::new(alloc);
    for step in 0..times {
        if step % TYPES == 0 {
            count = count.wrapping_add(set.len());
            set = Numbers::new(alloc);
        }
        set.add(some(step, TYPES))?;
    }
    Ok(count.wrapping_add(set.len()))
}

/// A set with a member for each so many numbers, from a number on.
fn spread(alloc: Global, start: usize, every: usize) -> Result<Numbers, NoMemory> {
    let mut set = Numbers::new(alloc);
    for number in start..TYPES {
        if number.checked_rem(every) == Some(start) {
            set.add(number)?;
        }
    }
    Ok(set)
}

/// Unites two sets of 65 blocks as often.
fn united(alloc: Global, times: usize) -> Result<usize, NoMemory> {
    let first = spread(alloc, 0, 5)?;
    let second = spread(alloc, 1, 4)?;
    let mut count: usize = 0;
    for _step in 0..times {
        let both = first.joined(alloc, Joining::Union, &second)?;
        count = count.wrapping_add(both.len());
    }
    Ok(count)
}

/// As many sets of some 900 members in 65 blocks, which have all but three members in common.
fn alike(alloc: Global, times: usize) -> Result<Vec<Numbers>, NoMemory> {
    let common = spread(alloc, 0, 5)?;
    let more = Numbers::below(alloc, 80)?;
    let mut sets = Vec::new(alloc);
    for step in 0..times {
        let mut set = common.joined(alloc, Joining::Union, &more)?;
        for part in 0..3usize {
            set.add(some(step.wrapping_mul(3).wrapping_add(part), TYPES))?;
        }
        sets.push(set)?;
    }
    Ok(sets)
}

fn sorted(alloc: Global, times: usize) -> Result<usize, NoMemory> {
    let mut sets = alike(alloc, times)?;
    sets.sort_unstable();
    sets.dedup();
    Ok(sets.len())
}

fn run<R: Print + Env + AllocGlobal>(rt: &R, alloc: Global) -> Result<(), NoMemory> {
    let Ok(words) = env::args(rt) else {
        return Err(NoMemory);
    };
    let words: Vec<String> = words.collect(alloc)?;
    let [_, call, times] = words.as_slice() else {
        return Ok(());
    };
    let times = times.as_str().parse::<usize>().unwrap_or(0);
    let count = match call.as_str() {
        "add" => added(alloc, times)?,
        "unite" => united(alloc, times)?,
        "make" => alike(alloc, times)?.len(),
        "sort" => sorted(alloc, times)?,
        _ => 0,
    };
    let _ = println!(rt; "{count}");
    Ok(())
}

fn main(rt: HostRuntime) -> ExitCode {
    match run(&rt, rt.alloc()) {
        Ok(()) => ExitCode::SUCCESS,
        Err(_) => ExitCode::from(4),
    }
}
END
if ! (cd "$work/crates/sets_bench" && rt run -- add 1 >"$work/build" 2>&1); then
    cat "$work/build" >&2
    exit 1
fi
program=$work/crates/sets_bench/out/sets_bench

# The least time in microseconds of the program with these words, of seven runs.
least() {
    local start stop least=
    for _ in 1 2 3 4 5 6 7; do
        start=$(date +%s%N)
        "$program" "$@" >/dev/null
        stop=$(date +%s%N)
        if [ -z "$least" ] || [ $(((stop - start) / 1000)) -lt "$least" ]; then least=$(((stop - start) / 1000)); fi
    done
    echo "$least"
}

# Its instructions, as valgrind counts them.
instructions() {
    valgrind --tool=callgrind --callgrind-out-file=/dev/null "$program" "$@" 2>&1 >/dev/null | awk '/Collected/ { print $4 }'
}

# A row: what is measured, how often, the words before and those that are measured, the aim in milliseconds.
row() {
    local what=$1 times=$2 before=$3 call=$4 aim=$5 us count
    us=$(($(least "$call" "$times") - $(least "$before" "$times")))
    count=$(($(instructions "$call" "$times") - $(instructions "$before" "$times")))
    awk -v what="$what" -v times="$times" -v us="$us" -v count="$count" -v aim="$aim" 'BEGIN {
        printf "%-6s %8d %8.1f %10.1f %10.1f %8d  %s\n", what, times, us / 1e3, us * 1e3 / times, count / times, aim,
            us / 1e3 <= aim ? "met" : "MISSED" }'
}

printf '%-6s %8s %8s %10s %10s %8s\n' call times ms 'ns a call' 'ins. each' 'aim ms'
row add 500000 none add 50
row unite 100000 none unite 150
row sort 5000 make sort 100
