#!/usr/bin/env bash
# What it takes to enter one row into the cache and to flush another, with few and with many rows cached.
#
# usage: bench/cache.sh [ROUNDS] [FOLDER] [ROWS..]
#
# A small program over the crates of this repository is written into FOLDER (/dev/shm), proved and built there. It
# caches so many ROWS (1000 10000 100000 400000), each under an epoch of its own, and then enters one row more and
# flushes the oldest, again and again. For each number of rows it is run with and without that, ROUNDS times (5) in
# turn, the keys in order and mixed, and the least processor time of each is taken. Printed are in microseconds
#     ORDER ROWS enter    one of the rows that are cached first
#     ORDER ROWS both     one row that is entered, and one that is flushed
set -euo pipefail
top=$(dirname "$(dirname "$(readlink -f "${BASH_SOURCE[0]}")")")
rounds=${1:-5}
work=$(mktemp -d "${2:-/dev/shm}/cache.XXXXXX")
trap 'rm -rf "$work"' EXIT
rows=("${@:3}")
((${#rows[@]})) || rows=(1000 10000 100000 400000)
more=10000

below=(oz_world oz_fields oz_names oz_epochs oz_rows oz_sorted oz_journal oz_effects oz_tables oz_cache)
mkdir -p "$work/crates/bench_cache/src" "$work/crates/bench_cache/proofs/main"
for crate in "${below[@]}"; do
    grep "^$crate\b" "$top/crates.txt" >>"$work/crates.txt"
    cp -r "$top/crates/$crate" "$work/crates/"
done
echo 'bench_cache: oz_cache oz_epochs oz_fields oz_names oz_rows oz_tables' >>"$work/crates.txt"

cat >"$work/crates/bench_cache/src/main.rt" <<'PROGRAM'
//! Caches rows, and then enters and flushes one at a time: how many, and whether their keys are mixed, say its words.
#![tactic(auto)]

ghost use Rattle.std.specs.Prelude.{◌≡◌, ◌<◌};

use oz_cache::Cached;
use oz_epochs::Steps;
use oz_fields::{Name, OutOfMemory};
use oz_rows::{Change, Row, RowKey};
use oz_tables::Tables;
use std::alloc::Global;
use std::env;
use std::marker::Brand;
use std::process::ExitCode;
use std::sync::ledger::{Blank, Ledger};

/// Enters a session's row under the next epoch; a factor mixes their order.
fn enter(alloc: Global, cached: &mut Cached, name: &Name, number: u64, factor: u64) -> Result<(), OutOfMemory> {
    let epoch = cached.last_epoch();
    let key = RowKey::of_session(alloc, name, name, name, number.wrapping_mul(factor))?;
    let mut changes = Vec::new(alloc);
    changes.push(Change {
        key,
        row: Some(Row::Stripe { number }),
    })?;
    let prepared = cached.prepare(alloc, changes)?;
    if epoch < 1 << 62 {
        cached.enter(epoch + 1, prepared);
    }
    Ok(())
}

fn work<L: Ledger>(alloc: Global, blank: Blank, rows: u64, more: u64, factor: u64) -> Result<(), OutOfMemory>
    requires name { blank.name ≡ L.name }
    requires parts { blank.parts ≡ L.parts }
    requires some { 0 < L.parts }
{
    let mut steps = Steps::<L>::start(blank);
    let mut cached = Cached::over(alloc, Tables::new(alloc));
    let name = Name::copy(alloc, b"name1")?;
    for number in 0..rows {
        enter(alloc, &mut cached, &name, number, factor)?;
    }
    for number in 0..more {
        enter(alloc, &mut cached, &name, rows.saturating_add(number), factor)?;
        cached.flushed(number.saturating_add(1), &mut steps);
    }
    Ok(())
}

fn number_in(word: Option<String>) -> u64 {
    match word {
        Some(word) => word.parse().unwrap_or(0),
        None => 0,
    }
}

fn main(rt: HostRuntime) -> ExitCode {
    let Ok(mut words) = env::args(&rt) else {
        return ExitCode::FAILURE;
    };
    let _program = words.next();
    let rows = number_in(words.next());
    let more = number_in(words.next());
    let factor = number_in(words.next());
    match work::<Brand>(rt.alloc(), Blank::new(1), rows, more, factor) {
        Ok(()) => ExitCode::SUCCESS,
        Err(_) => ExitCode::FAILURE,
    }
}
PROGRAM
cat >"$work/crates/bench_cache/proofs/main/Invariants.antt" <<'PROOF'
use Rattle.bench_cache.proofs.main.Given as goal

abbrev pub ghosts-work : goal.ghosts-work
ghosts-work g a = record { name = a.blank.name; parts = a.blank.parts }
PROOF
(cd "$work/crates/bench_cache" && rt run -- 1 1 1 >"$work/build" 2>&1) || { cat "$work/build"; exit 1; }
program=$work/crates/bench_cache/out/bench_cache

# Runs the program once, and writes how many microseconds of a processor it took.
measure() {
    local TIMEFORMAT='%U %S'
    { time "$program" "$@"; } 2>&1 | awk '{ printf "%d\n", ($1 + $2) * 1000000 }'
}

least() { sort -n "$1" | head -n 1; }

for order in 1:ordered 11400714819323198485:mixed; do
    for count in "${rows[@]}"; do
        for ((round = 0; round < rounds; round++)); do
            measure "$count" 0 "${order%:*}" >>"$work/$order.$count.none"
            measure "$count" "$more" "${order%:*}" >>"$work/$order.$count.more"
        done
        none=$(least "$work/$order.$count.none")
        echo "${order#*:} $count enter $(awk "BEGIN { printf \"%.2f\", $none / $count }")"
        both=$(least "$work/$order.$count.more")
        echo "${order#*:} $count both $(awk "BEGIN { printf \"%.2f\", ($both - $none) / $more }")"
    done
done
