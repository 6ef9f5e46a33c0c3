#!/usr/bin/env bash
# What it takes to read a line of a script, with few lines and with as many as there may be.
#
# usage: bench/script.sh [ROUNDS] [FOLDER] [LINES..]
#
# A small program over the crates of this repository is written into FOLDER (/dev/shm), proved and built there, and run.
# It makes a script of so many LINES (512 4096) and reads it ROUNDS times (50); the least time is taken, and where
# the time of each line then lies is printed, in nanoseconds:
#     KIND LINES NANOSECONDS
# where KIND is `one` for lines of one client, `many` for those of 64 clients in turn, `chain` for those of 64 clients of
# which each waits by its `after` for the line above it, and `labels` for keys that one client opens and commits in turn.
# The clock is the wall's, so the machine should have a processor to spare.
set -euo pipefail
top=$(dirname "$(dirname "$(readlink -f "${BASH_SOURCE[0]}")")")
rounds=${1:-50}
work=$(mktemp -d "${2:-/dev/shm}/script.XXXXXX")
trap 'rm -rf "$work"' EXIT
sizes=("${@:3}")
((${#sizes[@]})) || sizes=(512 4096)

below=(oz_fields oz_names oz_nodes oz_command oz_script)
mkdir -p "$work/crates/bench_script/src"
for crate in "${below[@]}"; do
    grep "^$crate\b" "$top/crates.txt" >>"$work/crates.txt"
    cp -r "$top/crates/$crate" "$work/crates/"
done
echo 'bench_script: anyhow oz_fields oz_script' >>"$work/crates.txt"

cat >"$work/crates/bench_script/src/main.rt" <<'PROGRAM'
//! Makes scripts and reads them: its words say how often, and then of how many lines each.
#![tactic(auto)]

use oz_fields::OutOfMemory;
use oz_script::parse;
use std::alloc::Global;
use std::env;
use std::time::Instant;

/// A line of one client, of 64 in turn, or of 64 where each waits for the line above.
fn line(alloc: Global, kind: &str, number: u64) -> Result<String, OutOfMemory> {
    let client = number % 64;
    if kind == "one" {
        return format!(in alloc; "c0 bucket info /vol1/bk{number}\n");
    }
    if kind == "labels" && number % 2 == 0 {
        return format!(in alloc; "c0 key open l{number} /vol1/bk1/k text x\n");
    }
    if kind == "labels" {
        let opened = number - 1;
        return format!(in alloc; "c0 key commit l{opened}\n");
    }
    if kind == "many" || number == 0 {
        return format!(in alloc; "c{client} bucket info /vol1/bk{number}\n");
    }
    let (above, named) = ((number - 1) % 64, (number - 1) / 64 + 1);
    format!(in alloc; "c{client} after c{above} {named} bucket info /vol1/bk{number}\n")
}

fn script(alloc: Global, kind: &str, lines: u64) -> Result<Vec<u8>, OutOfMemory> {
    let mut script = Vec::new(alloc);
    for number in 0..lines {
        script.extend_from_slice(line(alloc, kind, number)?.as_bytes())?;
    }
    Ok(script)
}

fn number_in(word: Option<String>) -> u64 {
    match word {
        Some(word) => word.parse().unwrap_or(0),
        None => 0,
    }
}

fn main(rt: HostRuntime) -> anyhow::Result<()> {
    let mut words = env::args(&rt)?;
    let _program = words.next();
    let rounds = number_in(words.next());
    for word in words {
        let lines = number_in(Some(word));
        for kind in ["one", "many", "chain", "labels"] {
            let script = script(rt.alloc(), kind, lines)?;
            let mut least = u128::MAX;
            for _ in 0..rounds {
                let start = Instant::now(&rt)?;
                let _read = parse(rt.alloc(), script.as_slice()).is_ok();
                least = least.min(start.elapsed(&rt)?.as_nanos());
            }
            if let Some(nanoseconds) = least.checked_div(lines as u128) {
                println!(rt; "{kind} {lines} {nanoseconds}")?;
            }
        }
    }
    Ok(())
}
PROGRAM
cd "$work/crates/bench_script"
rt run -- "$rounds" "${sizes[@]}" >"$work/said" 2>"$work/errors" || { cat "$work/said" "$work/errors"; exit 1; }
grep -E '^(one|many|chain|labels) ' "$work/said"
