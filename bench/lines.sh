#!/usr/bin/env bash
# What a line costs that makes a volume, over a folder on a disk: beside the two writes and two syncs that it makes,
# done bare, and beside a row that SQLite commits by itself.
#
# usage: bench/lines.sh [LINES] [ROUNDS] [FOLDER]
#
# LINES volumes (100) are made in one run, ROUNDS times (21), each over a fresh folder in FOLDER (data). The four are
# measured in turn within each round, and the median of each is taken. Printed are the file system, how busy the machine
# was (load over the last minute, and processors), and in microseconds
#     line      a line of the program, by a run of LINES lines less a run of none
#     syncs     two writes and two syncs of a file, as a line makes them
#     rollback  a row in SQLite, committed by itself, with its own settings (a rollback journal, synchronous full)
#     wal       the same with its write-ahead log and synchronous full
# and then each as a part of the bare syncs of its round, by the median of the rounds. It needs Python 3 with its
# sqlite3.
set -euo pipefail
top=$(dirname "$(dirname "$(readlink -f "${BASH_SOURCE[0]}")")")
lines=${1:-100} rounds=${2:-21}
work=$(mktemp -d "${3:-$top/data}/lines.XXXXXX")
trap 'rm -rf "$work"' EXIT
[[ ${OZONE_PROGRAM:-} ]] || "$top/ozone" build
program=${OZONE_PROGRAM:-$top/crates/oz_main/out/oz_main}

cat >"$work/measure.py" <<'PYTHON'
import os, shutil, sqlite3, statistics, subprocess, sys, time

program, work, lines, rounds = sys.argv[1], sys.argv[2], int(sys.argv[3]), int(sys.argv[4])
script = "".join(f"a volume create /vol{number}\n" for number in range(1, lines + 1)).encode()


def run_of(text):
    os.mkdir("disks")
    began = time.perf_counter()
    ran = subprocess.run([program, "run", "disks"], input=text, stdout=subprocess.PIPE, check=True)
    took = time.perf_counter() - began
    count = text.count(b"\n")
    assert ran.stdout.endswith(b"end %d of %d\n" % (count, count))
    return took


def line():
    none = run_of(b"")
    shutil.rmtree("disks")
    return run_of(script) - none


def syncs():
    os.mkdir("disks")
    file = os.open("disks/file", os.O_RDWR | os.O_CREAT)
    began = time.perf_counter()
    for number in range(lines):
        os.pwrite(file, bytes(25), 25 * number + 1)
        os.fsync(file)
        os.pwrite(file, b"\1", 25 * number)
        os.fsync(file)
    took = time.perf_counter() - began
    os.close(file)
    return took


def sqlite(mode):
    os.mkdir("disks")
    store = sqlite3.connect("disks/store", isolation_level=None)
    store.execute(f"pragma journal_mode={mode}")
    store.execute("pragma synchronous=full")
    store.execute("create table volume (name text primary key)")
    began = time.perf_counter()
    for number in range(1, lines + 1):
        store.execute("insert into volume values (?)", (f"vol{number}",))
    took = time.perf_counter() - began
    store.close()
    return took


os.chdir(work)
measured = {"line": line, "syncs": syncs, "rollback": lambda: sqlite("delete"), "wal": lambda: sqlite("wal")}
times = {name: [] for name in measured}
for _ in range(rounds):
    for name, measure in measured.items():
        times[name].append(measure() / lines * 1e6)
        shutil.rmtree("disks")
for name, each in times.items():
    print(f"{name} {statistics.median(each):.0f} (from {min(each):.0f} to {max(each):.0f})")
for name, each in times.items():
    print(f"{name} is {statistics.median(one / bare for one, bare in zip(each, times['syncs'])):.2f} of syncs")
PYTHON

load=$(cut -d ' ' -f 1 /proc/loadavg)
echo "file system $(stat -f -c %T "$work"), load $load over $(nproc) processors, $lines lines, $rounds rounds"
python3 "$work/measure.py" "$program" "$work" "$lines" "$rounds"
