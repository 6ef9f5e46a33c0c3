#!/usr/bin/env bash
# What an ask costs the manager, by how many threads ask at once and of how many volumes.
#
# usage: bench/asks.sh [FOLDER] [ASKS]
#
# A small program over the crates of this repository, with what `beside_tests` has to seat a manager of an empty disk, is written
# into FOLDER (/dev/shm), proved and built there, and run. In it 1 and 4 threads make ASKS asks each (20000), which make and
# delete a bucket in turn, in one volume and in sixteen. Printed are, in nanoseconds by the wall's clock,
#     THREADS VOLUMES ask     the time of all asks by their number
set -euo pipefail
top=$(dirname "$(dirname "$(readlink -f "${BASH_SOURCE[0]}")")")
work=$(mktemp -d "${1:-/dev/shm}/asks.XXXXXX")
trap 'rm -rf "$work"' EXIT
asks=${2:-20000}

mkdir -p "$work/crates"
cp "$top/HANDLES" "$work/"
below() { # the crates that these stand on, and they themselves
    local crate
    for crate in "$@"; do
        grep "^$crate:\|^$crate " "$top/crates.txt" | grep -q . || continue
        echo "$crate"
        below $(sed -n "s/^$crate\( [^:]*\)\?: *//p" "$top/crates.txt")
    done
}
needed=$(below beside_tests | sort -u)
while read -r line; do
    crate=${line%%[ :]*}
    grep -qx "$crate" <<<"$needed" && [ "$crate" != beside_tests ] || continue
    echo "$line" >>"$work/crates.txt"
    cp -r "$top/crates/$crate" "$work/crates/"
done < <(grep -v '^#' "$top/crates.txt")
echo "bench_asks: $(sed -n 's/^beside_tests\( [^:]*\)\?: *//p' "$top/crates.txt")" >>"$work/crates.txt"

mkdir -p "$work/crates/bench_asks/src" "$work/crates/bench_asks/proofs"
cd "$work/crates/bench_asks"
cp "$top/crates/beside_tests/src/om_store.rt" src/
cp -r "$top/crates/beside_tests/proofs/om_store" "$top"/crates/beside_tests/proofs/Om*.antt proofs/
printf 'pub mod %s\n' OmEmpty OmSeats >proofs/Lib.antt
grep -rl beside_tests . | xargs -r sed -i 's/beside_tests/bench_asks/g'
cat >src/main.rt <<'PROGRAM'
//! Asks a manager: its word says how many asks each thread makes.
#![tactic(auto)]

mod om_store;

ghost use Rattle.std.specs.Prelude.{◌≡◌, true, vec_len, IfOk, OnOk};
ghost use Rattle.oz_om.specs.decider.Decided.{is_decided};
ghost use Rattle.oz_turn.specs.Seat.{AreNewSeats};
ghost use Rattle.oz_turn.specs.Turn.{turn_id};

use crate::om_store::{Book, Office, Worker, last_worker, made, opened};
use oz_fields::Name;
use oz_requests::{AskId, Request};
use oz_turn::{Ring, Seat, Turn};
use std::alloc::{AllocError, Global};
use std::env;
use std::marker::Brand;
use std::sync::Wait;
use std::sync::atomic::{AtomicU64, Ordering};
use std::test::Fail;
use std::thread::{Threads, for_each_mut};
use std::time::{Clock, Duration, Instant};

/// How often what is asked, and in how many volumes.
#[derive(Clone, Copy)]
struct Plan {
    asks: u16,
    volumes: u16,
}

/// What is asked of a volume, or of the bucket `bk1` in it.
#[derive(Clone, Copy)]
enum Kind {
    CreateVolume,
    CreateBucket,
    DeleteBucket,
}

fn kind_of(line: u16, volumes: u16) -> Kind {
    let round = if volumes == 1 { line } else { line / 16 };
    if round % 2 == 0 {
        Kind::CreateBucket
    } else {
        Kind::DeleteBucket
    }
}

/// The request on the volume of this number.
fn request(alloc: Global, kind: Kind, volume: u16) -> Result<Request, AllocError>
    ensures { IfOk result (λ request. is_decided request ≡ true) }
{
    let name = format!(in alloc; "vol{volume}")?;
    let volume = Name::copy(alloc, name.as_bytes())?;
    let bucket = Name::copy(alloc, b"bk1")?;
    match kind {
        Kind::CreateVolume => Ok(Request::CreateVolume { volume }),
        Kind::CreateBucket => Ok(Request::CreateBucket { volume, bucket }),
        Kind::DeleteBucket => Ok(Request::DeleteBucket { volume, bucket }),
    }
}

/// A line of the worker's client asks that. Answers whether it is decided.
fn asks<R: Ring, W: Wait>(
    rt: &W,
    alloc: Global,
    turn: &Turn<Book>,
    office: &Office<R>,
    worker: &mut Worker<R>,
    line: u16,
    kind: Kind,
    volume: u16,
) -> bool
    requires turn { turn_id turn.now ≡ R.turn }
{
    let Ok(request) = request(alloc, kind, volume) else {
        return false;
    };
    let (by, seat) = (worker.number, &mut worker.seat);
    let id = AskId {
        client: by,
        line,
        step: 1,
    };
    office
        .ask(rt, alloc, turn, seat, by, id, request, 0)
        .is_ok()
}

/// A worker asks all that it is to. It is counted where each was decided.
fn work<R: Ring, W: Wait>(
    rt: &W,
    alloc: Global,
    turn: &Turn<Book>,
    office: &Office<R>,
    worker: &mut Worker<R>,
    plan: Plan,
    done: &AtomicU64,
)
    requires turn { turn_id turn.now ≡ R.turn }
{
    let mut decided = 0;
    for line in 100..plan.asks {
        let volume = if plan.volumes == 1 { 0 } else { line % 16 };
        let kind = kind_of(line, plan.volumes);
        if !asks(rt, alloc, turn, office, worker, line, kind, volume) {
            return;
        }
        decided = line;
    }
    if decided.wrapping_add(1) == plan.asks {
        done.fetch_add(1, Ordering::SeqCst);
    }
}

/// The sixteen volumes are made.
fn prepare<R: Ring, W: Wait>(
    rt: &W,
    alloc: Global,
    turn: &Turn<Book>,
    office: &Office<R>,
    worker: &mut Worker<R>,
)
    requires turn { turn_id turn.now ≡ R.turn }
{
    for line in 0..16 {
        if !asks(rt, alloc, turn, office, worker, line, Kind::CreateVolume, line) {
            return;
        }
    }
}

fn work_all<R: Ring + Send + Sync, W: Threads + Wait + Sync>(
    rt: &W,
    alloc: Global,
    turn: &Turn<Book>,
    office: &Office<R>,
    workers: &mut [Worker<R>],
    plan: Plan,
    done: &AtomicU64,
)
    requires turn { turn_id turn.now ≡ R.turn }
{
    for_each_mut(
        rt,
        workers,
        4,
        &|_, worker: &mut Worker<R>|
            requires { turn_id turn.now ≡ R.turn }
        { work(rt, alloc, turn, office, worker, plan, done) },
    );
}

/// Four workers, of the last seats.
fn workers_of<R: Ring>(
    alloc: Global,
    seats: &mut Vec<Seat<Book>>,
) -> Result<Vec<Worker<R>>, Fail>
    requires count { vec_len seats.old ≡ 40 }
    requires new { AreNewSeats R.turn seats.old.items }
    ensures count { OnOk result (vec_len seats.new ≡ 36) }
    ensures new { OnOk result (AreNewSeats R.turn seats.new.items) }
{
    let mut workers = Vec::new(alloc);
    workers.push(last_worker::<R>(seats)?)?;
    workers.push(last_worker::<R>(seats)?)?;
    workers.push(last_worker::<R>(seats)?)?;
    workers.push(last_worker::<R>(seats)?)?;
    Ok(workers)
}

/// How long so many threads take for what they ask.
fn time<R: Ring + Send + Sync, W: Threads + Wait + Clock + Sync>(
    rt: &W,
    alloc: Global,
    turn: &Turn<Book>,
    mut seats: Vec<Seat<Book>>,
    threads: usize,
    plan: Plan,
) -> Result<Duration, Fail>
    requires turn { turn_id turn.now ≡ R.turn }
    requires count { vec_len seats ≡ 40 }
    requires new { AreNewSeats R.turn seats.items }
{
    let mut workers = workers_of::<R>(alloc, &mut seats)?;
    let (office, _desk) = opened::<R>(alloc, seats)?;
    if let Some(worker) = workers.first_mut() {
        prepare(rt, alloc, turn, &office, worker);
    }
    workers.truncate(threads);
    let done = AtomicU64::new(0);
    let start = Instant::now(rt)?;
    work_all(rt, alloc, turn, &office, workers.as_mut_slice(), plan, &done);
    let took = start.elapsed(rt)?;
    if done.load(Ordering::SeqCst) == threads as u64 {
        Ok(took)
    } else {
        Err("an ask that is refused".into())
    }
}

/// The same of a turn of its own, in nanoseconds an ask.
fn time_anew<W: Threads + Wait + Clock + Sync>(
    rt: &W,
    alloc: Global,
    threads: usize,
    plan: Plan,
) -> Result<u128, Fail> {
    let (turn, seats) = made(alloc, 40)?;
    let took = time::<Brand, W>(rt, alloc, &turn, seats, threads, plan)?;
    let asks = u128::from(plan.asks.saturating_sub(100)) * threads as u128;
    Ok(took.as_nanos().checked_div(asks).unwrap_or(0))
}

fn main(rt: HostRuntime) -> Result<(), Fail> {
    let mut words = env::args(&rt)?;
    let _program = words.next();
    let asks = match words.next() {
        Some(word) => word.parse().unwrap_or(0),
        None => 0,
    };
    for (threads, volumes) in [(1, 1), (4, 1), (1, 16), (4, 16)] {
        let took = time_anew(&rt, rt.alloc(), threads, Plan { asks, volumes })?;
        println!(rt; "{threads} {volumes} ask {took}")?;
    }
    Ok(())
}
PROGRAM
mkdir -p proofs/time_anew
cat >proofs/time_anew/Invariants.antt <<'PROOF'
use Rattle.oz_turn.specs.Turn.{turn_id}
use Rattle.bench_asks.proofs.time_anew.Given as goal

-- the turn that was just made
abbrev pub ghosts-time : goal.ghosts-time
ghosts-time g a = record { turn = turn_id a.turn.now }
PROOF
rt run -- "$asks" 2>"$work/errors" || { cat "$work/errors"; exit 1; }
