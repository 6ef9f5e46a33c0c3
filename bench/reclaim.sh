#!/usr/bin/env bash
# What it takes to find deleted rows that may go, over a store of many keys, and to decide that they go.
#
# usage: bench/reclaim.sh [ROUNDS] [FOLDER] [KEYS..]
#
# A small program over the crates of this repository is written into FOLDER (/dev/shm), proved and built there, and run; what the
# checkout's crates have in their `out` is used. It has so many KEYS (10240 1000000) of one volume in the tables, in buckets of 4,096,
# and notes 100,000 rows more that are deleted, one by one. Of ROUNDS (3) the least is taken. Printed are, in microseconds by the
# wall's clock,
#     KEYS bring     the sweep is brought on over these notes
#     KEYS find      the sweep's first 1,024 rows that may go, where no block is pinned
#     KEYS pinned    the same where one block is pinned
#     KEYS walk      the same by a walk over all rows
#     KEYS purge     the decision that these rows go, of which nothing is known before
#     KEYS known     the same where it is known that none of their blocks is in reach
#     KEYS plan      the copies that are due of a container, of which each of three members holds 1,024 blocks
#     script         a script of generated load with 1,000 keys
# so the machine should have a processor to spare.
set -euo pipefail
top=$(dirname "$(dirname "$(readlink -f "${BASH_SOURCE[0]}")")")
rounds=${1:-3}
work=$(mktemp -d "${2:-/dev/shm}/reclaim.XXXXXX")
trap 'rm -rf "$work"' EXIT
sizes=("${@:3}")
((${#sizes[@]})) || sizes=(10240 1000000)

# a library with all that it stands on
below() {
    local crate
    for crate in $(sed -n "s/^$1\( [^:]*\)\?: *//p" "$top/crates.txt"); do
        [[ -d $top/crates/$crate ]] && below "$crate"
    done
    echo "$1"
}
mkdir -p "$work"/crates/bench_reclaim/{src,proofs/is_rising,proofs/known_round}
for crate in $( (below oz_reclaim; below oz_freon; below oz_repl) | sort -u); do
    grep "^$crate\b" "$top/crates.txt" >>"$work/crates.txt"
    cp -r "$top/crates/$crate" "$work/crates/"
done
echo 'bench_reclaim: anyhow oz_cache oz_container oz_decision oz_fields oz_freon oz_reclaim oz_repl oz_requests oz_rows oz_tables' >>"$work/crates.txt"

cat >"$work/crates/bench_reclaim/src/main.rt" <<'PROGRAM'
//! Finds deleted rows that may go: its words say how often, and then over how many keys each.
#![tactic(auto)]

ghost use Rattle.std.specs.Prelude.{◌≡◌, IsTrue};
ghost use Rattle.std.specs.List.Sorted.{IsStrictlyIncreasing};
ghost use Rattle.oz_reclaim.specs.Service.{IsPurge, NamesFew};
ghost use Rattle.oz_repl.specs.repl.View.{AreRising};
ghost use Rattle.oz_requests.specs.declared.request.Family.TheVariants.{Service};
ghost use Rattle.oz_requests.specs.Families.{family_of};

use oz_cache::Cached;
use oz_container::State;
use oz_fields::{Block, List, Name, OutOfMemory, Piece, TryClone};
use oz_freon::script;
use oz_reclaim::{MOST_PURGED, Sweep, are_unreached, decide, decide_purge, reclaimable};
use oz_repl::{View, plan};
use oz_requests::{PurgeRow, Request};
use oz_rows::{Change, MOST_REMOVALS, Row, RowKey};
use oz_tables::Tables;
use std::alloc::Global;
use std::env;
use std::time::Instant;

const IN_BATCH: u64 = 512;
const IN_BUCKET: u64 = 4_096;
const DELETED: u64 = 100_000;

fn bucket_at(alloc: Global, place: u64) -> Result<Name, OutOfMemory> {
    let number = (place / IN_BUCKET).saturating_add(100);
    let name = format!(in alloc; "bk{number}")?;
    Name::copy(alloc, name.as_bytes())
}

fn name_at(alloc: Global, place: u64) -> Result<Name, OutOfMemory> {
    let name = format!(in alloc; "key-{place:09}")?;
    Name::copy(alloc, name.as_bytes())
}

/// A key with one block, whose local id is this.
fn key_change(alloc: Global, volume: &Name, place: u64) -> Result<Change, OutOfMemory> {
    let bucket = bucket_at(alloc, place)?;
    let name = name_at(alloc, place)?;
    let mut pieces = Vec::new(alloc);
    pieces.push(Piece { block: Block { container: 1, local: place.saturating_add(1) }, length: 65_536 })?;
    Ok(Change {
        key: RowKey::of_key(alloc, volume, &bucket, &name)?,
        row: Some(Row::Key { number: place.saturating_add(1), pieces: List::of(pieces) }),
    })
}

/// A deleted row, whose local id is this.
fn deleted_change(alloc: Global, volume: &Name, place: u64) -> Result<Change, OutOfMemory> {
    let bucket = bucket_at(alloc, place)?;
    let name = name_at(alloc, place)?;
    let local = place.saturating_add(1);
    let mut blocks = Vec::new(alloc);
    blocks.push(Block { container: 2, local })?;
    Ok(Change {
        key: RowKey::of_deleted(alloc, volume, &bucket, 0, &name, local)?,
        row: Some(Row::Deleted { blocks: List::of(blocks) }),
    })
}

fn enter(alloc: Global, tables: &mut Tables, changes: Vec<Change>) -> Result<(), OutOfMemory> {
    let count = changes.len();
    tables.reserve(alloc, count)?;
    tables.enter_all(changes);
    Ok(())
}

fn load(alloc: Global, volume: &Name, tables: &mut Tables, keys: u64) -> Result<(), OutOfMemory> {
    for number in 0..keys.div_ceil(IN_BATCH) {
        let from = number.saturating_mul(IN_BATCH);
        let mut changes = Vec::new(alloc);
        for place in from..keys.min(from.saturating_add(IN_BATCH)) {
            changes.push(key_change(alloc, volume, place)?)?;
        }
        enter(alloc, tables, changes)?;
    }
    Ok(())
}

/// Notes a deleted row, and enters it.
fn note(alloc: Global, volume: &Name, sweep: &mut Sweep, tables: &mut Tables, place: u64) -> Result<(), OutOfMemory> {
    let mut changes = Vec::new(alloc);
    changes.push(deleted_change(alloc, volume, place)?)?;
    sweep.room(alloc, &changes)?;
    sweep.enter(place.saturating_add(1));
    enter(alloc, tables, changes)
}

/// A Purge that names these rows.
fn purge_of(alloc: Global, volume: &Name, keys: &[RowKey]) -> Result<Request, OutOfMemory> {
    let mut rows = Vec::new(alloc);
    for key in keys {
        if let RowKey::Deleted { bucket, owner, key, local, .. } = key {
            rows.push(PurgeRow { bucket: bucket.try_clone(alloc)?, owner: *owner, key: key.try_clone(alloc)?, local: *local })?;
        }
    }
    Ok(Request::Purge { volume: volume.try_clone(alloc)?, rows: List::of(rows) })
}

/// The local ids of these rows.
fn locals_of(alloc: Global, keys: &[RowKey]) -> Result<Vec<u64>, OutOfMemory> {
    let mut locals = Vec::new(alloc);
    for key in keys {
        if let RowKey::Deleted { local, .. } = key {
            locals.push(*local)?;
        }
    }
    Ok(locals)
}

/// So many blocks, of which most have the same local ids whichever the member's place.
fn held_at(alloc: Global, place: u64) -> Result<List<u64>, OutOfMemory> {
    let mut locals = Vec::new(alloc);
    for number in 0..1_024 {
        let own = if number % 16 == 0 { place } else { 0 };
        locals.push(u64::saturating_add(number * 4, own))?;
    }
    Ok(List::of(locals))
}

fn view(alloc: Global) -> Result<View, OutOfMemory> {
    Ok(View {
        state: State::Closed,
        members: [4, 5, 6],
        up: [true, true, true],
        closed: [true, true, true],
        held: [held_at(alloc, 0)?, held_at(alloc, 1)?, held_at(alloc, 2)?],
        logged: List::of(Vec::new(alloc)),
    })
}

fn are_rising(view: &View) -> bool
    ensures { IsTrue result → AreRising view.now }
{
    view.held.iter().all(|held| is_rising(held.items())) && is_rising(view.logged.items())
}

fn is_rising(locals: &[u64]) -> bool
    ensures { IsTrue result → IsStrictlyIncreasing locals.now }
{
    for at in 1..locals.len() {
        if locals[at - 1] >= locals[at] {
            return false;
        }
    }
    true
}

fn is_purge(request: &Request) -> bool
    ensures { IsTrue result → IsPurge request.now }
{
    matches!(request, Request::Purge { .. })
}

fn names_few(request: &Request) -> bool
    ensures { IsTrue result → NamesFew request.now }
{
    match request {
        Request::Purge { rows, .. } => rows.len() <= MOST_REMOVALS,
        _ => true,
    }
}

fn is_own(request: &Request) -> bool
    ensures { IsTrue result → family_of request.now ≡ Service }
{
    matches!(request, Request::Purge { .. })
}

fn number_in(word: Option<String>) -> u64 {
    match word {
        Some(word) => word.parse().unwrap_or(0),
        None => 0,
    }
}

/// What the sweep takes, in microseconds: brought on, its rows found, and the same beside a pinned block.
fn sweep_round(rt: &HostRuntime, volume: &Name, tables: &mut Tables) -> anyhow::Result<[u128; 3]> {
    let alloc = rt.alloc();
    let mut sweep = Sweep::new(alloc);
    sweep.bring(alloc, tables, 0)?;
    for place in 0..DELETED {
        note(alloc, volume, &mut sweep, tables, place)?;
    }
    let start = Instant::now(rt)?;
    sweep.bring(alloc, tables, DELETED)?;
    let brought = start.elapsed(rt)?.as_micros();
    let start = Instant::now(rt)?;
    let found = sweep.find(alloc, &[], MOST_PURGED)?;
    let looked = start.elapsed(rt)?.as_micros();
    let pins = [Block { container: 2, local: 1 }];
    let start = Instant::now(rt)?;
    let others = sweep.find(alloc, &pins, MOST_PURGED)?;
    let beside = start.elapsed(rt)?.as_micros();
    println!(rt; "# {} and {} found", found.rows.len(), others.rows.len())?;
    Ok([brought, looked, beside])
}

/// What the walk over all rows takes, in microseconds, and the decision that they go, without knowledge of them and with it.
fn purge_round(rt: &HostRuntime, volume: &Name, tables: Tables) -> anyhow::Result<[u128; 3]> {
    let alloc = rt.alloc();
    let start = Instant::now(rt)?;
    let walked = reclaimable(alloc, &tables, &[], MOST_PURGED)?;
    let went = start.elapsed(rt)?.as_micros();
    let request = purge_of(alloc, volume, &walked)?;
    let known = locals_of(alloc, &walked)?;
    let cached = Cached::over(alloc, tables);
    let start = Instant::now(rt)?;
    let bytes = if is_own(&request) && names_few(&request) {
        decide(alloc, &cached, &request)?.bytes.len()
    } else {
        0
    };
    let decided = start.elapsed(rt)?.as_micros();
    let (others, knowing) = known_round(rt, &cached, &request, &known)?;
    println!(rt; "# {} by the walk, {bytes} and {others} bytes decided", walked.len())?;
    Ok([went, decided, knowing])
}

/// The bytes of the decision that known rows go, and what it takes in microseconds.
fn known_round(
    rt: &HostRuntime,
    cached: &Cached,
    request: &Request,
    known: &[u64],
) -> anyhow::Result<(usize, u128)> {
    let alloc = rt.alloc();
    if is_purge(request) && names_few(request) {
        let are = are_unreached(alloc, cached, known)?;
        if are {
            let start = Instant::now(rt)?;
            let decision = decide_purge(alloc, cached, request, known)?;
            let took = start.elapsed(rt)?.as_micros();
            return Ok((decision.bytes.len(), took));
        }
    }
    Ok((0, 0))
}

/// What it takes, in microseconds, to plan the copies of a container, and to write a script.
fn other_round(rt: &HostRuntime) -> anyhow::Result<[u128; 2]> {
    let alloc = rt.alloc();
    let view = view(alloc)?;
    let may = are_rising(&view);
    let start = Instant::now(rt)?;
    let orders = if may { plan(alloc, &view)?.len() } else { 0 };
    let planned = start.elapsed(rt)?.as_micros();
    let start = Instant::now(rt)?;
    let text = script(alloc, 7, 1_000)?;
    let made = start.elapsed(rt)?.as_micros();
    println!(rt; "# {orders} copies are due, a script of {} bytes", text.len())?;
    Ok([planned, made])
}

/// What each part takes, in microseconds, over so many keys.
fn round(rt: &HostRuntime, keys: u64) -> anyhow::Result<[u128; 8]> {
    let alloc = rt.alloc();
    let volume = Name::copy(alloc, b"vol1")?;
    let mut tables = Tables::new(alloc);
    load(alloc, &volume, &mut tables, keys)?;
    let [brought, looked, beside] = sweep_round(rt, &volume, &mut tables)?;
    let [went, decided, knowing] = purge_round(rt, &volume, tables)?;
    let [planned, made] = other_round(rt)?;
    Ok([brought, looked, beside, went, decided, knowing, planned, made])
}

const PARTS: [&str; 8] = ["bring", "find", "pinned", "walk", "purge", "known", "plan", "script"];

fn main(rt: HostRuntime) -> anyhow::Result<()> {
    let mut words = env::args(&rt)?;
    let _program = words.next();
    let rounds = number_in(words.next());
    for word in words {
        let keys = number_in(Some(word));
        let mut least = [u128::MAX; 8];
        for _ in 0..rounds {
            let took = round(&rt, keys)?;
            for (one, other) in least.iter_mut().zip(took) {
                *one = (*one).min(other);
            }
        }
        for (part, took) in PARTS.iter().zip(least) {
            println!(&rt; "{keys} {part} {took}")?;
        }
    }
    Ok(())
}
PROGRAM
cat >"$work/crates/bench_reclaim/proofs/is_rising/Invariants.antt" <<'PROOF'
use Rattle.std.proofs.Common.{ℕ, ◌+◌, ◌<◌, slice_index}
use Rattle.bench_reclaim.proofs.is_rising.Given as goal

abbrev pub invariant-loop-at : goal.invariant-loop-at
invariant-loop-at l = (k : ℕ) → k + 1 < l.at → slice_index l.locals k < slice_index l.locals (k + 1)
PROOF
cat >"$work/crates/bench_reclaim/proofs/known_round/Answers.antt" <<'PROOF'
use Rattle.bench_reclaim.proofs.known_round.Goals as goal

pub decide_purge-requires-clause-known : goal.decide_purge-requires-clause-known
decide_purge-requires-clause-known c = c.in_ok-are.ensures.0 c.if-are.true
PROOF
(cd "$work/crates/bench_reclaim" && rt fmt && rt run -- "$rounds" "${sizes[@]}") 2>"$work/errors" || { cat "$work/errors" >&2; exit 1; }
