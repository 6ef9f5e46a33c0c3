#!/usr/bin/env bash
# What a block costs a datanode, by how many it holds, beside one SHA-256 and one copy of its bytes.
#
# usage: bench/datanode.sh [ROUNDS] [FOLDER] [HELD..]
#
# A small program over the crates of this repository is written into FOLDER (/dev/shm), proved and built there, and run. A
# datanode over two disks in memory holds HELD (1 4000) blocks of 65,536 bytes. In each of ROUNDS (200) rounds one more is
# written in four chunks and put; then come, side by side with it, one SHA-256 of as many bytes and one copy of them; and the
# block is deleted again. Of all rounds the least is taken. Printed are, in nanoseconds by the wall's clock,
#     HELD put        four writes and a put
#     HELD digest     the SHA-256
#     HELD copy       the copy
#     HELD read       the read of the block
#     HELD delete     the transaction that deletes it
#     HELD ratio      hundredths of the put to the SHA-256 and the copy together
# The disks in memory copy what is written twice, since they can tell what a stop leaves, and keep all of it: a block takes
# three times its bytes of memory.
set -euo pipefail
top=$(dirname "$(dirname "$(readlink -f "${BASH_SOURCE[0]}")")")
rounds=${1:-200}
work=$(mktemp -d "${2:-/dev/shm}/datanode.XXXXXX")
trap 'rm -rf "$work"' EXIT
sizes=("${@:3}")
((${#sizes[@]})) || sizes=(1 4000)

below=(oz_world oz_fields oz_container oz_dellog oz_journal oz_names oz_rows oz_chunk oz_entries oz_block oz_datanode)
mkdir -p "$work/crates/bench_datanode/src"
cp "$top/HANDLES" "$work/"
for crate in "${below[@]}"; do
    grep "^$crate\b" "$top/crates.txt" >>"$work/crates.txt"
    cp -r "$top/crates/$crate" "$work/crates/"
done
echo 'bench_datanode: anyhow oz_datanode oz_dellog oz_fields oz_rows oz_world sha2' >>"$work/crates.txt"

cat >"$work/crates/bench_datanode/src/main.rt" <<'PROGRAM'
//! Puts blocks: its words say how often, and then beside how many each.
#![tactic(auto)]

ghost use Rattle.std.specs.Prelude.{◌≡◌, vec_len, IfOk};

use oz_datanode::{Datanode, NodeDisks};
use oz_dellog::Txn;
use oz_fields::{Block, List, OutOfMemory};
use oz_world::MemoryDisk;
use sha2::{Digest, Sha256};
use std::alloc::Global;
use std::env;
use std::time::Instant;

type Node = Datanode<MemoryDisk>;

const ROOM: u64 = 268_435_456;

fn load(alloc: Global) -> Result<Option<Node>, OutOfMemory> {
    let disks = NodeDisks {
        meta: MemoryDisk::new(alloc, Vec::new(alloc), Vec::new(alloc), 16_777_216)?,
        slots: MemoryDisk::new(alloc, Vec::new(alloc), Vec::new(alloc), ROOM)?,
    };
    match Datanode::load(alloc, 1, disks) {
        Ok(node) => Ok(Some(node)),
        Err((_disks, _fault)) => Ok(None),
    }
}

fn bytes_of(alloc: Global) -> Result<Vec<u8>, OutOfMemory>
    ensures { IfOk result (λ bytes. vec_len bytes ≡ 65536) }
{
    vec![in alloc; 7; 65_536]
}

/// Writes a block in four chunks and puts it.
fn put(alloc: Global, node: &mut Node, local: u64, bytes: &[u8]) -> bool {
    if local < 1 || local > 1 << 62 || bytes.len() != 65_536 {
        return false;
    }
    let block = Block {
        container: 1,
        local,
    };
    for place in 0..4usize {
        let chunk = &bytes[place * 16_384..place * 16_384 + 16_384];
        if node.write(alloc, block, place as u8, chunk).is_err() {
            return false;
        }
    }
    node.put(alloc, block, 65_536).is_ok()
}

fn delete(alloc: Global, node: &mut Node, local: u64) -> Result<bool, OutOfMemory> {
    if local < 1 {
        return Ok(false);
    }
    let locals = Vec::from_array(alloc, [local])?;
    let txn = Txn {
        number: local,
        container: 1,
        locals: List::of(locals),
    };
    Ok(node.apply_deletes(alloc, &txn) == Ok(1))
}

fn hold(alloc: Global, node: &mut Node, bytes: &[u8], held: u64) -> bool {
    for local in 0..held {
        if !put(alloc, node, local.saturating_add(1), bytes) {
            return false;
        }
    }
    true
}

/// What a put takes in nanoseconds, and then a digest, a copy, a read and a delete.
fn round(rt: &HostRuntime, node: &mut Node, bytes: &[u8], local: u64) -> anyhow::Result<[u128; 5]> {
    let alloc = rt.alloc();
    let start = Instant::now(rt)?;
    let is_put = put(alloc, node, local, bytes);
    let put = start.elapsed(rt)?.as_nanos();
    let start = Instant::now(rt)?;
    let digest = Sha256::digest(bytes);
    let digested = start.elapsed(rt)?.as_nanos();
    let start = Instant::now(rt)?;
    let copy = bytes.to_vec(alloc)?;
    let copied = start.elapsed(rt)?.as_nanos();
    let block = Block {
        container: 1,
        local,
    };
    let start = Instant::now(rt)?;
    let is_read = node.read(alloc, block).is_ok();
    let read = start.elapsed(rt)?.as_nanos();
    let start = Instant::now(rt)?;
    let is_deleted = delete(alloc, node, local)?;
    let deleted = start.elapsed(rt)?.as_nanos();
    let first = digest[0];
    println!(rt; "# {is_put} {is_read} {is_deleted} {} {first}", copy.len())?;
    Ok([put, digested, copied, read, deleted])
}

fn tell(rt: &HostRuntime, held: u64, what: &str, number: u128) -> anyhow::Result<()> {
    println!(rt; "{held} {what} {number}")?;
    Ok(())
}

/// The least of so many rounds of each.
fn least_of(rt: &HostRuntime, node: &mut Node, bytes: &[u8], rounds: u64, held: u64) -> anyhow::Result<[u128; 5]> {
    let mut least = [u128::MAX; 5];
    for number in 0..rounds {
        let local = held.saturating_add(number).saturating_add(1);
        let [put, digest, copy, read, delete] = round(rt, node, bytes, local)?;
        let [a, b, c, d, e] = least;
        least = [a.min(put), b.min(digest), c.min(copy), d.min(read), e.min(delete)];
    }
    Ok(least)
}

fn measure(rt: &HostRuntime, node: &mut Node, bytes: &[u8], rounds: u64, held: u64) -> anyhow::Result<()> {
    let holds = hold(rt.alloc(), node, bytes, held);
    println!(rt; "# holds: {holds}")?;
    let [put, digest, copy, read, delete] = least_of(rt, node, bytes, rounds, held)?;
    tell(rt, held, "put", put)?;
    tell(rt, held, "digest", digest)?;
    tell(rt, held, "copy", copy)?;
    tell(rt, held, "read", read)?;
    tell(rt, held, "delete", delete)?;
    let ratio = put.saturating_mul(100).checked_div(digest.saturating_add(copy));
    tell(rt, held, "ratio", ratio.unwrap_or(0))
}

fn measured(rt: &HostRuntime, mut node: Node, bytes: &[u8], rounds: u64, held: u64) -> anyhow::Result<()> {
    measure(rt, &mut node, bytes, rounds, held)
}

/// Beside so many blocks that are held.
fn over(rt: &HostRuntime, bytes: &[u8], rounds: u64, held: u64) -> anyhow::Result<()> {
    match load(rt.alloc())? {
        Some(node) => measured(rt, node, bytes, rounds, held),
        None => {
            println!(rt; "# loaded: false")?;
            Ok(())
        }
    }
}

fn number_in(word: Option<String>) -> u64 {
    match word {
        Some(word) => word.parse().unwrap_or(0),
        None => 0,
    }
}

fn main(rt: HostRuntime) -> anyhow::Result<()> {
    let mut words = env::args(&rt)?;
    let _program = words.next();
    let rounds = number_in(words.next());
    let bytes = bytes_of(rt.alloc())?;
    for word in words {
        over(&rt, &bytes, rounds, number_in(Some(word)))?;
    }
    Ok(())
}
PROGRAM
cd "$work/crates/bench_datanode"
rt "${BENCH_BY:-run}" -- "$rounds" "${sizes[@]}" >"$work/said" 2>"$work/errors" || { cat "$work/said" "$work/errors"; exit 1; }
grep -q '^# false\|: false\| false ' "$work/said" && { grep false "$work/said" | head -3; exit 1; }
grep -E '^[0-9]+ ' "$work/said"
