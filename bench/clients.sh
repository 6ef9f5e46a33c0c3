#!/usr/bin/env bash
# What many clients and workers make of a run: over a folder on a disk whose sync takes its time, and over one in memory.
#
# usage: bench/clients.sh [ROUNDS] [SYNC] [FOLDER] [MEMORY]
#
# Each figure is the median of ROUNDS runs (5), each over a fresh folder: in FOLDER (data), on a disk, or in MEMORY (/dev/shm).
# What is compared stands side by side within each round. With SYNC (0) each sync on the disk takes so many microseconds more, for
# the program and for SQLite alike (`slow.c`, which gcc compiles). Printed are the file system, how busy the machine was, and
#     length    a line of one client's script of 4,096 lines, as a part of a line of one of 512, over a folder in memory
#     clients   volumes a second that 64 clients make with 4 workers, as a part of those that one client makes, on the disk
#     sqlite    volumes a second that 64 clients make with 4 workers, as a part of rows that SQLite commits, each by itself
#     workers   what 4 workers take for 64 clients, as a part of what 1 takes, over a folder in memory
#     memory    by how much the greatest memory of a run of 4,096 lines is above that of one of 256, in bytes a line
# It needs Python 3 with its sqlite3.
set -euo pipefail
top=$(dirname "$(dirname "$(readlink -f "${BASH_SOURCE[0]}")")")
rounds=${1:-5} sync=${2:-0} folder=${3:-$top/data} memory=${4:-/dev/shm}
work=$(mktemp -d)
trap 'rm -rf "$work"' EXIT
gcc -O1 -shared -fPIC -o "$work/slow.so" "$top/bench/slow.c" -ldl
[[ ${OZONE_PROGRAM:-} ]] || "$top/ozone" build
program=${OZONE_PROGRAM:-$top/crates/oz_main/out/oz_main}

load=$(cut -d ' ' -f 1 /proc/loadavg)
echo "file system $(stat -f -c %T "$folder"), load $load over $(nproc) processors, $rounds rounds, syncs $sync microseconds longer"
python3 - "$program" "$folder" "$memory" "$rounds" "$work/slow.so" "$sync" <<'PYTHON'
import array, fcntl, os, shutil, statistics, subprocess, sys, tempfile, termios, time

program, disk, memory, rounds = sys.argv[1], sys.argv[2], sys.argv[3], int(sys.argv[4])
slow = dict(os.environ, LD_PRELOAD=sys.argv[5], SYNC=sys.argv[6])
ROWS = """
import sqlite3, sys, time
store = sqlite3.connect(sys.argv[1], isolation_level=None)
store.execute("pragma synchronous=full")
store.execute("create table volume (name text primary key)")
began = time.perf_counter()
for number in range(int(sys.argv[2])):
    store.execute("insert into volume values (?)", (f"vol{number}",))
print(time.perf_counter() - began)
"""


def script(clients, lines):
    """Volumes, made by the clients in turn."""
    return "".join(f"c{n % clients} volume create /vol{n}\n" for n in range(lines)).encode()


def run(text, where, workers):
    """The seconds of a run."""
    folder = tempfile.mkdtemp(prefix="clients.", dir=where)
    began = time.perf_counter()
    command = [program, "run", folder, "--workers", str(workers)]
    environment = slow if where == disk else None
    ran = subprocess.Popen(command, stdin=subprocess.PIPE, stdout=subprocess.PIPE, env=environment)
    report, _ = ran.communicate(text)
    took = time.perf_counter() - began
    shutil.rmtree(folder)
    count = text.count(b"\n")
    assert ran.returncode == 0 and report.endswith(b"end %d of %d\n" % (count, count)), report[-200:]
    return took


def greatest(text, where):
    """The greatest memory of a run, in bytes, read while it waits for somebody to take its report."""
    folder = tempfile.mkdtemp(prefix="clients.", dir=where)
    ran = subprocess.Popen([program, "run", folder], stdin=subprocess.PIPE, stdout=subprocess.PIPE)
    room = fcntl.fcntl(ran.stdout, fcntl.F_SETPIPE_SZ, 4096)
    ran.stdin.write(text)
    ran.stdin.close()
    waits = array.array("i", [0])
    while waits[0] < room:
        time.sleep(0.01)
        fcntl.ioctl(ran.stdout, termios.FIONREAD, waits)
    with open(f"/proc/{ran.pid}/status") as it:
        high = next(line for line in it if line.startswith("VmHWM"))
    ran.stdout.read()
    ran.wait()
    shutil.rmtree(folder)
    return int(high.split()[1]) * 1024


def sqlite(rows):
    """The seconds in which SQLite commits so many rows, each by itself."""
    folder = tempfile.mkdtemp(prefix="clients.", dir=disk)
    command = [sys.executable, "-c", ROWS, os.path.join(folder, "store"), str(rows)]
    ran = subprocess.run(command, stdout=subprocess.PIPE, check=True, env=slow)
    shutil.rmtree(folder)
    return float(ran.stdout)


def told(name, each, digits=2):
    print(f"{name} {statistics.median(each):.{digits}f} (from {min(each):.{digits}f} to {max(each):.{digits}f})")


lengths, clients, rows, workers = [], [], [], []
for _ in range(rounds):
    none = run(b"", memory, 4)
    short, long = run(script(1, 512), memory, 4) - none, run(script(1, 4096), memory, 4) - none
    lengths.append(long / 4096 / (short / 512))
    none = run(b"", disk, 4)
    one = (run(script(1, 256), disk, 4) - none) / 256
    many = (run(script(64, 2048), disk, 4) - none) / 2048
    clients.append(one / many)
    rows.append(sqlite(256) / 256 / many)
    by_one, by_four = run(script(64, 4096), memory, 1), run(script(64, 4096), memory, 4)
    workers.append(by_four / by_one)
told("length", lengths)
told("clients", clients)
told("sqlite", rows)
told("workers", workers)
print(f"memory {(greatest(script(64, 4096), memory) - greatest(script(64, 256), memory)) / 3840:.0f}")
PYTHON
