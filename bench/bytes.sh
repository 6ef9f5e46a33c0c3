#!/usr/bin/env bash
# What keys with bytes cost: a load of puts and of gets beside the floor of hashing and writing, or reading, the same bytes.
#
# usage: bench/bytes.sh [ROUNDS] [FOLDER]
#
# Each figure is the median of ROUNDS runs (5) over fresh folders in FOLDER (/dev/shm). What is compared stands side by side within
# each round. Four clients put 200 keys of 3,072 to 204,800 bytes, and then get each of them in a run of its own. `floor.c`, which gcc
# compiles, hashes and writes the same bytes three times by as many threads, or reads and hashes them once. Printed are how busy the
# machine was, and
#     load      bytes a second that 4 workers put
#     puts      what 4 workers take for the load, as a part of the floor by 4 threads
#     workers   what 4 workers take for the load, as a part of what 1 takes
#     gets      what 4 workers take for the gets, as a part of one read and one hashing of the bytes by 4 threads
#     length    a put of a key among 4,000 small ones of a script, as a part of one among 40
# It needs Python 3.
set -euo pipefail
top=$(dirname "$(dirname "$(readlink -f "${BASH_SOURCE[0]}")")")
rounds=${1:-5} folder=${2:-/dev/shm}
work=$(mktemp -d)
trap 'rm -rf "$work"' EXIT
gcc -O2 -pthread -o "$work/floor" "$top/bench/floor.c"
[[ ${OZONE_PROGRAM:-} ]] || "$top/ozone" build
program=${OZONE_PROGRAM:-$top/crates/oz_main/out/oz_main}

echo "load $(cut -d ' ' -f 1 /proc/loadavg) over $(nproc) processors, $rounds rounds, in $folder ($(stat -f -c %T "$folder"))"
python3 - "$program" "$work/floor" "$folder" "$rounds" <<'PYTHON'
import random, shutil, statistics, subprocess, sys, tempfile, time

program, floor, where, rounds = sys.argv[1], sys.argv[2], sys.argv[3], int(sys.argv[4])
chance = random.Random(7)
LENGTHS = [chance.randint(3072, 204800) for _ in range(200)]
MADE = "s volume create /logs\ns bucket create /logs/app\n"


def script(lines):
    return (MADE + "".join(lines)).encode()


def puts(lengths):
    first = {}
    for key, length in enumerate(lengths):
        client = f"c{key % 4}"
        after = "" if client in first else "after s 2 "
        first[client] = True
        yield f"{client} {after}key put /logs/app/k{key} fill {key} {length}\n"


def gets(lengths):
    for key in range(len(lengths)):
        yield f"c{key % 4} key get /logs/app/k{key}\n"


def run(folder, text, workers):
    """The seconds of a run, in which each line is told OK."""
    began = time.perf_counter()
    ran = subprocess.run([program, "run", folder, "--workers", str(workers)], input=text, stdout=subprocess.PIPE)
    took = time.perf_counter() - began
    told = [line for line in ran.stdout.splitlines() if line.startswith(b"t ")]
    assert ran.returncode == 0 and all(b" OK" in line or b" VOLUME_" in line or b" BUCKET_" in line for line in told), ran.stdout[-300:]
    return took


def fresh():
    return tempfile.mkdtemp(prefix="bytes.", dir=where)


def floor_of(folder, threads, reads):
    given = "".join(f"{length}\n" for length in LENGTHS).encode()
    return float(subprocess.run([floor, folder, str(threads), str(reads)], input=given, stdout=subprocess.PIPE, check=True).stdout)


def told(name, each, digits=2):
    print(f"{name} {statistics.median(each):.{digits}f} (from {min(each):.{digits}f} to {max(each):.{digits}f})")


loads, put, get, workers, lengths = [], [], [], [], []
for _ in range(rounds):
    one, four, plain, empty = fresh(), fresh(), fresh(), fresh()
    none = run(empty, b"", 4)
    by_one = run(one, script(puts(LENGTHS)), 1) - none
    by_four = run(four, script(puts(LENGTHS)), 4) - none
    least = floor_of(plain, 4, 0)
    loads.append(sum(LENGTHS) / by_four)
    put.append(by_four / least)
    workers.append(by_four / by_one)
    get.append((run(four, "".join(gets(LENGTHS)).encode(), 4) - none) / floor_of(plain, 4, 1))
    few, many = fresh(), fresh()
    lengths.append((run(many, script(puts([64] * 4000)), 4) - none) / 4000 / ((run(few, script(puts([64] * 40)), 4) - none) / 40))
    for folder in (one, four, plain, empty, few, many):
        shutil.rmtree(folder)
told("load", loads, 0)
told("puts", put)
told("workers", workers)
told("gets", get)
told("length", lengths)
PYTHON
