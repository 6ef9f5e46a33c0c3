#!/usr/bin/env bash
# What it takes to decide that a key gets another name, beside the snapshots of its bucket.
#
# usage: bench/rename.sh [ROUNDS] [FOLDER] [KEYS..]
#
# A small program over the crates of this repository is written into FOLDER (/dev/shm), proved and built there, and run; what the
# checkout's crates have in their `out` is used. A bucket has so many KEYS (1000 10000) in the tables. Of ROUNDS (5) the least is taken.
# Printed are, in nanoseconds by the wall's clock for one decision, the mean of a thousand,
#     KEYS none      of a key with one block, in a bucket without snapshots
#     KEYS new       the same below 32 live snapshots that have none of its keys
#     KEYS old       the same where each of the 32 has the key
#     KEYS long      of a key with 32 blocks, below 32 live snapshots that have none of its keys
#     KEYS alone     the same in a bucket without snapshots
# so the machine should have a processor to spare.
set -euo pipefail
top=$(dirname "$(dirname "$(readlink -f "${BASH_SOURCE[0]}")")")
rounds=${1:-5}
work=$(mktemp -d "${2:-/dev/shm}/rename.XXXXXX")
trap 'rm -rf "$work"' EXIT
sizes=("${@:3}")
((${#sizes[@]})) || sizes=(1000 10000)

# a library with all that it stands on
below() {
    local crate
    for crate in $(sed -n "s/^$1\( [^:]*\)\?: *//p" "$top/crates.txt"); do
        [[ -d $top/crates/$crate ]] && below "$crate"
    done
    echo "$1"
}
mkdir -p "$work/crates/bench_rename/src"
for crate in $(below oz_om_key | sort -u); do
    grep "^$crate\b" "$top/crates.txt" >>"$work/crates.txt"
    cp -r "$top/crates/$crate" "$work/crates/"
done
echo 'bench_rename: anyhow oz_cache oz_fields oz_om_key oz_requests oz_rows oz_tables' >>"$work/crates.txt"

cat >"$work/crates/bench_rename/src/main.rt" <<'PROGRAM'
//! Decides that keys get another name: its words say how often, and then over how many keys each.
#![tactic(auto)]

ghost use Rattle.std.specs.Prelude.{IsTrue};
ghost use Rattle.oz_om_key.specs.om_change.Changes.{IsChange};

use oz_cache::Cached;
use oz_fields::{Block, List, Name, OutOfMemory, Piece, TryClone};
use oz_om_key::decide_change;
use oz_requests::Request;
use oz_rows::{Change, Row, RowKey, SnapshotState};
use oz_tables::Tables;
use std::alloc::Global;
use std::env;
use std::time::Instant;

const SNAPSHOTS: u64 = 32;
const DECIDED: u64 = 1_000;
const LONG: u64 = 32;

/// What is measured: which snapshots there are, whether they have the keys, and how many blocks a key has.
#[derive(Clone, Copy)]
struct Part {
    snapshots: u64,
    have: bool,
    blocks: u64,
}

/// The bucket, by its volume and its own name.
#[derive(Drop)]
struct Place {
    volume: Name,
    bucket: Name,
}

fn name_at(alloc: Global, place: u64) -> Result<Name, OutOfMemory> {
    let name = format!(in alloc; "key-{place:09}")?;
    Name::copy(alloc, name.as_bytes())
}

fn pieces_at(alloc: Global, part: Part, place: u64) -> Result<List<Piece>, OutOfMemory> {
    let mut pieces = Vec::new(alloc);
    for number in 0..part.blocks {
        let local = place.saturating_mul(part.blocks).saturating_add(number).saturating_add(1);
        pieces.push(Piece { block: Block { container: 1, local }, length: 65_536 })?;
    }
    Ok(List::of(pieces))
}

fn enter(alloc: Global, tables: &mut Tables, key: RowKey, row: Row) -> Result<(), OutOfMemory> {
    let mut changes = Vec::new(alloc);
    changes.push(Change { key, row: Some(row) })?;
    tables.reserve(alloc, 1)?;
    tables.enter_all(changes);
    Ok(())
}

fn add_key(alloc: Global, at: &Place, tables: &mut Tables, part: Part, place: u64) -> Result<(), OutOfMemory> {
    let name = name_at(alloc, place)?;
    let key = RowKey::of_key(alloc, &at.volume, &at.bucket, &name)?;
    let row = Row::Key { number: place.saturating_add(1), pieces: pieces_at(alloc, part, place)? };
    enter(alloc, tables, key, row)
}

fn add_snapshot(alloc: Global, at: &Place, tables: &mut Tables, number: u64) -> Result<(), OutOfMemory> {
    let text = format!(in alloc; "s{number:03}")?;
    let name = Name::copy(alloc, text.as_bytes())?;
    let key = RowKey::of_snapshot(alloc, &at.volume, &at.bucket, number)?;
    enter(alloc, tables, key, Row::Snapshot { name, previous: number.saturating_sub(1), state: SnapshotState::Live })
}

fn add_kept(alloc: Global, at: &Place, tables: &mut Tables, part: Part, number: u64, place: u64) -> Result<(), OutOfMemory> {
    let name = name_at(alloc, place)?;
    let key = RowKey::of_snapshot_key(alloc, &at.volume, &at.bucket, number, &name)?;
    let row = Row::SnapshotKey { number: place.saturating_add(1), pieces: pieces_at(alloc, part, place)? };
    enter(alloc, tables, key, row)
}

fn add_kept_all(alloc: Global, at: &Place, tables: &mut Tables, part: Part, number: u64, keys: u64) -> Result<(), OutOfMemory> {
    add_snapshot(alloc, at, tables, number)?;
    let kept = if part.have { keys } else { 0 };
    for place in 0..kept {
        add_kept(alloc, at, tables, part, number, place)?;
    }
    Ok(())
}

fn load(alloc: Global, at: &Place, part: Part, keys: u64) -> Result<Tables, OutOfMemory> {
    let mut tables = Tables::new(alloc);
    let of_volume = RowKey::of_volume(alloc, &at.volume)?;
    enter(alloc, &mut tables, of_volume, Row::Volume)?;
    let of_bucket = RowKey::of_bucket(alloc, &at.volume, &at.bucket)?;
    enter(alloc, &mut tables, of_bucket, Row::Bucket)?;
    for place in 0..keys {
        add_key(alloc, at, &mut tables, part, place)?;
    }
    for number in 1..=part.snapshots {
        add_kept_all(alloc, at, &mut tables, part, number, keys)?;
    }
    Ok(tables)
}

fn is_change(request: &Request) -> bool
    ensures { IsTrue result → IsChange request.now }
{
    matches!(request, Request::RenameKey { .. })
}

fn rename(alloc: Global, at: &Place, place: u64) -> Result<Request, OutOfMemory> {
    let text = format!(in alloc; "other-{place:09}")?;
    Ok(Request::RenameKey {
        volume: at.volume.try_clone(alloc)?,
        bucket: at.bucket.try_clone(alloc)?,
        key: name_at(alloc, place)?,
        to: Name::copy(alloc, text.as_bytes())?,
    })
}

/// How many bytes all decisions have.
fn decide_all(alloc: Global, cached: &Cached, requests: &[Request]) -> Result<u64, OutOfMemory> {
    let mut bytes = 0u64;
    for request in requests {
        if is_change(request) {
            let decision = decide_change(alloc, cached, request)?;
            bytes = bytes.saturating_add(decision.bytes.len() as u64);
        }
    }
    Ok(bytes)
}

fn round(rt: &HostRuntime, part: Part, keys: u64) -> anyhow::Result<u128> {
    let alloc = rt.alloc();
    let at = Place { volume: Name::copy(alloc, b"vol1")?, bucket: Name::copy(alloc, b"bk1")? };
    let cached = Cached::over(alloc, load(alloc, &at, part, keys)?);
    let mut requests = Vec::new(alloc);
    for number in 0..DECIDED {
        requests.push(rename(alloc, &at, (number * 7) % keys.max(1))?)?;
    }
    let start = Instant::now(rt)?;
    let bytes = decide_all(alloc, &cached, &requests)?;
    let took = start.elapsed(rt)?.as_nanos();
    println!(rt; "# {bytes} bytes decided")?;
    Ok(took / 1_000)
}

fn number_in(word: Option<String>) -> u64 {
    match word {
        Some(word) => word.parse().unwrap_or(0),
        None => 0,
    }
}

const PARTS: [(&str, Part); 5] = [
    ("none", Part { snapshots: 0, have: false, blocks: 1 }),
    ("new", Part { snapshots: SNAPSHOTS, have: false, blocks: 1 }),
    ("old", Part { snapshots: SNAPSHOTS, have: true, blocks: 1 }),
    ("long", Part { snapshots: SNAPSHOTS, have: false, blocks: LONG }),
    ("alone", Part { snapshots: 0, have: false, blocks: LONG }),
];

fn main(rt: HostRuntime) -> anyhow::Result<()> {
    let mut words = env::args(&rt)?;
    let _program = words.next();
    let rounds = number_in(words.next());
    for word in words {
        let keys = number_in(Some(word));
        for (name, part) in PARTS {
            let mut least = u128::MAX;
            for _ in 0..rounds {
                least = least.min(round(&rt, part, keys)?);
            }
            println!(&rt; "{keys} {name} {least}")?;
        }
    }
    Ok(())
}
PROGRAM
(cd "$work/crates/bench_rename" && rt fmt && rt run -- "$rounds" "${sizes[@]}") 2>"$work/errors" || { cat "$work/errors" >&2; exit 1; }
