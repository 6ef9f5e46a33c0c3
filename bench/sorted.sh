#!/usr/bin/env bash
# What a row costs the ordered map of the manager's rows, by how many it has.
#
# usage: bench/sorted.sh [ROUNDS] [FOLDER] [ROWS..]
#
# A small program over the crates of this repository is written into FOLDER (/dev/shm), proved and built there, and run.
# It puts so many key ROWS (1024 10240 102400 409600) of one volume into the tables, in batches of 512, in the order of
# their names and in a mixed one. Then come 1,000 rounds each of: a row more, the look-up of a row, and the count of a
# bucket's 4,096 rows. Of ROUNDS (5) the least is taken. Printed are, in nanoseconds by the wall's clock,
#     ORDER ROWS make      a row that is made and dropped by itself, and not put in
#     ORDER ROWS load      a row of those that are put in first, with its making
#     ORDER ROWS one       a row more, by itself, with its making
#     ORDER ROWS find      the look-up of a row, with the making of its key
#     ORDER ROWS count     the count of a bucket's rows
# so the machine should have a processor to spare.
set -euo pipefail
top=$(dirname "$(dirname "$(readlink -f "${BASH_SOURCE[0]}")")")
rounds=${1:-5}
work=$(mktemp -d "${2:-/dev/shm}/sorted.XXXXXX")
trap 'rm -rf "$work"' EXIT
sizes=("${@:3}")
((${#sizes[@]})) || sizes=(1024 10240 102400 409600)

below=(oz_world oz_fields oz_names oz_rows oz_sorted oz_journal oz_effects oz_tables)
mkdir -p "$work/crates/bench_sorted/src"
for crate in "${below[@]}"; do
    grep "^$crate\b" "$top/crates.txt" >>"$work/crates.txt"
    cp -r "$top/crates/$crate" "$work/crates/"
done
echo 'bench_sorted: anyhow oz_fields oz_rows oz_tables' >>"$work/crates.txt"

cat >"$work/crates/bench_sorted/src/main.rt" <<'PROGRAM'
//! Puts rows into tables: its words say how often, and then how many rows each.
#![tactic(auto)]

use oz_fields::{Block, List, Name, OutOfMemory, Piece};
use oz_rows::{Change, Row, RowKey};
use oz_tables::Tables;
use std::alloc::Global;
use std::env;
use std::time::Instant;

const IN_BATCH: u64 = 512;
const IN_BUCKET: u64 = 4_096;
const TURNS: u64 = 1_000;

/// Which row comes at a turn: a factor mixes their order.
fn place(turn: u64, factor: u64, rows: u64) -> u64 {
    turn.wrapping_mul(factor).checked_rem(rows).unwrap_or(0)
}

fn key_of(alloc: Global, volume: &Name, bucket: u64, key: &str) -> Result<RowKey, OutOfMemory> {
    let bucket = format!(in alloc; "bk{bucket}")?;
    let bucket = Name::copy(alloc, bucket.as_bytes())?;
    let key = Name::copy(alloc, key.as_bytes())?;
    RowKey::of_key(alloc, volume, &bucket, &key)
}

fn key_at(alloc: Global, volume: &Name, place: u64) -> Result<RowKey, OutOfMemory> {
    let name = format!(in alloc; "key-{place:09}")?;
    key_of(alloc, volume, 100 + place / IN_BUCKET, name.as_str())
}

fn change_of(alloc: Global, key: RowKey, number: u64) -> Result<Change, OutOfMemory> {
    let mut pieces = List::new(alloc);
    let piece = Piece {
        block: Block {
            container: 1 + number / 1024,
            local: number,
        },
        length: 65_536,
    };
    match pieces.push(alloc, piece) {
        Ok(()) => Ok(Change {
            key,
            row: Some(Row::Key { number, pieces }),
        }),
        Err((_piece, error)) => Err(error),
    }
}

fn put(alloc: Global, tables: &mut Tables, changes: Vec<Change>) -> Result<(), OutOfMemory> {
    let count = changes.len();
    tables.reserve(alloc, count)?;
    tables.enter_all(changes);
    Ok(())
}

fn batch(alloc: Global, volume: &Name, from: u64, factor: u64, rows: u64) -> Result<Vec<Change>, OutOfMemory> {
    let mut changes = Vec::new(alloc);
    for turn in from..rows.min(from.saturating_add(IN_BATCH)) {
        let place = place(turn, factor, rows);
        let key = key_at(alloc, volume, place)?;
        changes.push(change_of(alloc, key, place)?)?;
    }
    Ok(changes)
}

fn load(alloc: Global, volume: &Name, tables: &mut Tables, factor: u64, rows: u64) -> Result<(), OutOfMemory> {
    for number in 0..rows.div_ceil(IN_BATCH) {
        let changes = batch(alloc, volume, number.saturating_mul(IN_BATCH), factor, rows)?;
        put(alloc, tables, changes)?;
    }
    Ok(())
}

fn make(alloc: Global, volume: &Name, factor: u64, rows: u64) -> Result<(), OutOfMemory> {
    for number in 0..rows.div_ceil(IN_BATCH) {
        let _changes = batch(alloc, volume, number.saturating_mul(IN_BATCH), factor, rows)?;
    }
    Ok(())
}

fn one(alloc: Global, volume: &Name, tables: &mut Tables, rows: u64) -> Result<(), OutOfMemory> {
    for turn in 0..TURNS {
        let place = place(turn, 104_729, rows);
        let name = format!(in alloc; "key-{place:09}x")?;
        let key = key_of(alloc, volume, 100 + place / IN_BUCKET, name.as_str())?;
        let mut changes = Vec::new(alloc);
        changes.push(change_of(alloc, key, turn)?)?;
        put(alloc, tables, changes)?;
    }
    Ok(())
}

fn find(alloc: Global, volume: &Name, tables: &Tables, rows: u64) -> Result<u64, OutOfMemory> {
    let mut found: u64 = 0;
    for turn in 0..TURNS {
        let key = key_at(alloc, volume, place(turn, 104_729, rows))?;
        if tables.get(&key).is_some() {
            found = found.saturating_add(1);
        }
    }
    Ok(found)
}

fn count(alloc: Global, volume: &Name, tables: &Tables, rows: u64) -> Result<u64, OutOfMemory> {
    let mut found: u64 = 0;
    for turn in 0..TURNS {
        let bucket = 100 + place(turn, 104_729, rows) / IN_BUCKET;
        let from = key_of(alloc, volume, bucket, "a")?;
        let to = key_of(alloc, volume, bucket, "z")?;
        found = found.saturating_add(tables.count(&from, &to) as u64);
    }
    Ok(found)
}

fn number_in(word: Option<String>) -> u64 {
    match word {
        Some(word) => word.parse().unwrap_or(0),
        None => 0,
    }
}

/// What each part takes, in nanoseconds: made, loaded, one more, found, counted.
fn round(rt: &HostRuntime, factor: u64, rows: u64) -> anyhow::Result<[u128; 5]> {
    let alloc = rt.alloc();
    let volume = Name::copy(alloc, b"vol1")?;
    let start = Instant::now(rt)?;
    make(alloc, &volume, factor, rows)?;
    let made = start.elapsed(rt)?.as_nanos();
    let mut tables = Tables::new(alloc);
    let start = Instant::now(rt)?;
    load(alloc, &volume, &mut tables, factor, rows)?;
    let loaded = start.elapsed(rt)?.as_nanos();
    let start = Instant::now(rt)?;
    one(alloc, &volume, &mut tables, rows)?;
    let added = start.elapsed(rt)?.as_nanos();
    let start = Instant::now(rt)?;
    let found = find(alloc, &volume, &tables, rows)?;
    let looked = start.elapsed(rt)?.as_nanos();
    let start = Instant::now(rt)?;
    let counted = count(alloc, &volume, &tables, rows)?;
    let took = start.elapsed(rt)?.as_nanos();
    println!(rt; "# {rows} rows: {found} found, {counted} counted")?;
    Ok([made, loaded, added, looked, took])
}

fn tell(rt: &HostRuntime, order: &str, rows: u64, what: &str, nanoseconds: u128, over: u64) -> anyhow::Result<()> {
    let each = nanoseconds.checked_div(over as u128).unwrap_or(0);
    println!(rt; "{order} {rows} {what} {each}")?;
    Ok(())
}

fn measure(rt: &HostRuntime, order: &str, factor: u64, rows: u64, rounds: u64) -> anyhow::Result<()> {
    let mut least = [u128::MAX; 5];
    for _ in 0..rounds {
        let [made, loaded, added, looked, counted] = round(rt, factor, rows)?;
        let [a, b, c, d, e] = least;
        least = [a.min(made), b.min(loaded), c.min(added), d.min(looked), e.min(counted)];
    }
    let [made, loaded, added, looked, counted] = least;
    tell(rt, order, rows, "make", made, rows)?;
    tell(rt, order, rows, "load", loaded, rows)?;
    tell(rt, order, rows, "one", added, TURNS)?;
    tell(rt, order, rows, "find", looked, TURNS)?;
    tell(rt, order, rows, "count", counted, TURNS)
}

fn main(rt: HostRuntime) -> anyhow::Result<()> {
    let mut words = env::args(&rt)?;
    let _program = words.next();
    let rounds = number_in(words.next());
    for word in words {
        let rows = number_in(Some(word));
        measure(&rt, "ordered", 1, rows, rounds)?;
        measure(&rt, "mixed", 1_000_003, rows, rounds)?;
    }
    Ok(())
}
PROGRAM
cd "$work/crates/bench_sorted"
rt run -- "$rounds" "${sizes[@]}" >"$work/said" 2>"$work/errors" || { cat "$work/said" "$work/errors"; exit 1; }
grep -E '^(ordered|mixed) ' "$work/said"
