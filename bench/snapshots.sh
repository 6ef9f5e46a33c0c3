#!/usr/bin/env bash
# What snapshots cost: one of a full bucket, and what is read in it beside what is read in the bucket.
#
# usage: bench/snapshots.sh [ROUNDS] [FOLDER]
#
# A bucket of 4,096 keys without bytes is made in FOLDER (/dev/shm), once with one snapshot and once with 32. ROUNDS times (7) runs over
# copies of the two are taken, by one worker, each less a run of no line over the same, and the median of each is printed:
#     create N   milliseconds a line of `snapshot create`, where the bucket has N snapshots and 16 more are made
#     body N     bytes that each adds to the manager's disk
#     get N      microseconds a line of `key get` in the bucket, in the oldest snapshot, and the second as a part of the first
#     list N     the same of `key list` of a thousand keys
# It needs Python 3.
set -euo pipefail
top=$(dirname "$(dirname "$(readlink -f "${BASH_SOURCE[0]}")")")
rounds=${1:-7}
work=$(mktemp -d "${2:-/dev/shm}/snapshots.XXXXXX")
trap 'rm -rf "$work"' EXIT
[[ ${OZONE_PROGRAM:-} ]] || "$top/ozone" build
program=${OZONE_PROGRAM:-$top/crates/oz_main/out/oz_main}

cat >"$work/measure.py" <<'PYTHON'
import os, shutil, statistics, subprocess, sys, time

program, rounds = sys.argv[1], int(sys.argv[2])
BUCKET, KEYS, MADE, GETS, LISTS = "/vol1/bk1", 4096, 16, 4000, 400


def took(folder, lines):
    text = "".join(f"a {line}\n" for line in lines).encode()
    began = time.perf_counter()
    ran = subprocess.run([program, "run", folder, "--workers", "1"], input=text, stdout=subprocess.PIPE, check=True)
    time_taken = time.perf_counter() - began
    assert all(row.split(b" ")[3] == b"OK" for row in ran.stdout.split(b"\n") if row.startswith(b"t "))
    return time_taken


def measured(folder, lines):
    """How long these lines take over a copy of a folder, beside none, and how much the manager's disk grew."""
    times, sizes = [], []
    for said in ([], lines):
        shutil.copytree(folder, "copy")
        before = os.path.getsize("copy/manager")
        times.append(took("copy", said))
        sizes.append(os.path.getsize("copy/manager") - before)
        shutil.rmtree("copy")
    return times[1] - times[0], sizes[1]


def made(folder, snapshots):
    os.mkdir(folder)
    keys = [f"key put {BUCKET}/k{number} fill 0 0" for number in range(KEYS)]
    took(folder, ["volume create /vol1", f"bucket create {BUCKET}", *keys[:2048]])
    took(folder, keys[2048:])
    took(folder, [f"snapshot create {BUCKET} s{number:02}" for number in range(snapshots)])


def each(folder, lines):
    return measured(folder, lines)[0] / len(lines)


os.chdir(sys.argv[3])
for count in (1, 32):
    made(f"store{count}", count)
    creates = [f"snapshot create {BUCKET} t{number:02}" for number in range(MADE)]
    if count == 1:
        found = [measured(f"store{count}", creates) for _ in range(rounds)]
        print(f"create {count} {statistics.median(it[0] for it in found) / MADE * 1e3:.2f}")
        print(f"body {count} {found[0][1] / MADE:.0f}")
    inside = f"{BUCKET}/.snapshot/s00"
    for name, lines in (
        ("get", lambda at: [f"key get {at}/k{number % KEYS}" for number in range(GETS)]),
        ("list", lambda at: [f"key list {at} - - 1000" for _ in range(LISTS)]),
    ):
        pairs = [(each(f"store{count}", lines(BUCKET)), each(f"store{count}", lines(inside))) for _ in range(rounds)]
        here, there = (statistics.median(it[side] for it in pairs) * 1e6 for side in (0, 1))
        print(f"{name} {count} {here:.1f} {there:.1f} {statistics.median(b / a for a, b in pairs):.2f}")
PYTHON

echo "load $(cut -d ' ' -f 1 /proc/loadavg) over $(nproc) processors, $rounds rounds"
python3 "$work/measure.py" "$program" "$rounds" "$work"
