#!/usr/bin/env bash
# What an event costs the ledger, by how many the story has; and whether a buffer takes sixteen of the longest batches.
#
# usage: bench/events.sh [FOLDER] [EVENTS..]
#
# A small program over the crates of this repository is written into FOLDER (/dev/shm), proved and built there, and run. It
# appends EVENTS events (1000 1000000) to a story, each with its own reserve. Printed are, in nanoseconds by the wall's clock,
#     EVENTS event     an event, with its reserve
# and then `full`, where after sixteen Decides with batches of 67,108,864 bytes the next byte is refused with the numbers
# that the contract says. That part takes three gigabytes of memory; EVENTS none leaves it out.
set -euo pipefail
top=$(dirname "$(dirname "$(readlink -f "${BASH_SOURCE[0]}")")")
work=$(mktemp -d "${1:-/dev/shm}/events.XXXXXX")
trap 'rm -rf "$work"' EXIT
sizes=("${@:2}")
((${#sizes[@]})) || sizes=(1000 1000000 full)

mkdir -p "$work/crates/bench_events/src"
cp "$top/HANDLES" "$work/"
below() { # the crates that these stand on, and they themselves
    local crate
    for crate in "$@"; do
        grep "^$crate:\|^$crate " "$top/crates.txt" | grep -q . || continue
        echo "$crate"
        below $(sed -n "s/^$crate\( [^:]*\)\?: *//p" "$top/crates.txt")
    done
}
needed=$(below oz_buffer oz_core oz_fields oz_requests | sort -u)
while read -r line; do
    crate=${line%%[ :]*}
    grep -qx "$crate" <<<"$needed" || continue
    echo "$line" >>"$work/crates.txt"
    cp -r "$top/crates/$crate" "$work/crates/"
done < <(grep -v '^#' "$top/crates.txt")
echo 'bench_events: anyhow oz_buffer oz_core oz_fields oz_requests' >>"$work/crates.txt"

cat >"$work/crates/bench_events/src/main.rt" <<'PROGRAM'
//! Appends events to a story: its words say how many, or `full` to fill a buffer.
#![tactic(auto)]

ghost use Rattle.std.specs.Prelude.{◌≤◌, vec_len};

use oz_buffer::{LARGEST_BUFFER, LONGEST_BATCH, Ledger, Opened, Reserve, a_reserve_is_room_enough};
use oz_core::{Event, EventKind};
use oz_fields::List;
use oz_requests::{AskId, Reply};
use std::alloc::{AllocError, Global};
use std::env;
use std::time::Instant;

struct AnyOpening;

impl Opened for AnyOpening {
    ghost use Rattle.std.specs.Prelude.{[], None};
    ghost use Rattle.oz_buffer.specs.Openings.{no_opening, no_script};

    ghost opening = { no_opening };

    ghost bodies = { [] };

    ghost bytes = { λ dn block. None };

    ghost script = { no_script };

    ghost coherent = { ⊥ };
}

fn append(alloc: Global, ledger: &mut Ledger<AnyOpening>, events: u64) -> Result<(), AllocError> {
    for _ in 0..events {
        ledger.reserve_notes(alloc, 2, 1)?;
        ledger.note(Event {
            seat: 2,
            kind: EventKind::Up { dn: 0 },
        });
    }
    Ok(())
}

fn decide(alloc: Global, ledger: &mut Ledger<AnyOpening>, index: u64, batch: Vec<u8>) -> Result<(), Reserve>
    requires { vec_len batch ≤ 67108864 }
{
    a_reserve_is_room_enough();
    ledger.reserve(alloc, 20, batch.len() as u32)?;
    let id = AskId {
        client: 1,
        line: 1,
        step: 1,
    };
    let batch = List::of(batch);
    ledger.decide(Event {
        seat: 20,
        kind: EventKind::Decide {
            id,
            index,
            reply: Reply::Done,
            batch,
        },
    });
    Ok(())
}

fn fill(alloc: Global) -> Result<bool, AllocError> {
    let mut ledger = Ledger::<AnyOpening>::over(alloc, 0);
    for index in 1..=16 {
        let batch = vec![in alloc; 7; LONGEST_BATCH]?;
        if decide(alloc, &mut ledger, index, batch).is_err() {
            return Ok(false);
        }
    }
    let later = Reserve::Later {
        held: LARGEST_BUFFER as u64,
        asked: 1,
    };
    Ok(ledger.reserve(alloc, 20, 1) == Err(later) && ledger.last_index() == 16)
}

fn time(rt: &HostRuntime, events: u64) -> anyhow::Result<()> {
    let mut ledger = Ledger::<AnyOpening>::over(rt.alloc(), 0);
    let start = Instant::now(rt)?;
    append(rt.alloc(), &mut ledger, events)?;
    let took = start.elapsed(rt)?.as_nanos();
    println!(rt; "{events} event {}", took.checked_div(u128::from(events)).unwrap_or(0))?;
    Ok(())
}

fn main(rt: HostRuntime) -> anyhow::Result<()> {
    let mut words = env::args(&rt)?;
    let _program = words.next();
    for word in words {
        if word.as_str() == "full" {
            let full = fill(rt.alloc())?;
            println!(rt; "{}", if full { "full" } else { "not full" })?;
        } else {
            time(&rt, word.parse().unwrap_or(0))?;
        }
    }
    Ok(())
}
PROGRAM
cd "$work/crates/bench_events"
rt run -- "${sizes[@]}" 2>"$work/errors" || { cat "$work/errors"; exit 1; }
