#!/usr/bin/env python3
"""What rows cost the manager, by how many it has: to load them, to add to them, and to change many at once.

usage: bench/rows.py [ROUNDS] [FOLDER]

It writes manager's disks by itself, with so many keys in buckets of 4,096, in the order of their names or in a mixed
one, and has the program load each of them in FOLDER (/dev/shm, so that no disk is waited for). All times are the
processor's, the program's and the system's together. Of what is compared each has ROUNDS (5) runs, in turn, and the least
of them counts: whatever else the machine does only adds to a run. Printed are

    load KEYS ORDER MICROSECONDS        a row, while a disk of so many is loaded
    volume KEYS MICROSECONDS            a line that makes a volume, over so many keys
    bucket KEYS MICROSECONDS            a line that makes a bucket
    copy KEYS PLACE MICROSECONDS        the copy of a bucket's keys, 4,096 mostly, for a snapshot, while a disk is
                                        loaded; the bucket is the first, the middle or the last one
    expire KEYS MICROSECONDS            the end of all sessions of a bucket that has none
"""

import os
import random
import resource
import struct
import subprocess
import sys
import tempfile

TOP = os.path.dirname(os.path.dirname(os.path.realpath(__file__)))
ROUNDS = int(sys.argv[1]) if len(sys.argv) > 1 else 5
FOLDER = sys.argv[2] if len(sys.argv) > 2 else "/dev/shm"
SIZES = [1_024, 10_240, 102_400, 409_600]
IN_BUCKET = 4_096
LINES = 4_000
# so many buckets in each of so many volumes
BUCKETS = 1_000
VOLUMES = 4
COPIES = 32
EXPIRES = 16_000


def text(word):
    return struct.pack(">H", len(word)) + word


def bucket_name(number):
    return b"bk%03d" % number


def put_volume():
    return b"\x01\x01" + text(b"vol1")


def put_bucket(number):
    return b"\x01\x02" + text(b"vol1") + text(bucket_name(number))


def put_key(number):
    pieces = struct.pack(">H", 1) + struct.pack(">QQI", 1 + number // 1024, 1 + number, 65_536)
    name = text(b"vol1") + text(bucket_name(number // IN_BUCKET)) + text(b"key-%09d" % number)
    return b"\x01\x03" + name + struct.pack(">Q", 1 + number) + pieces


def copy_keys(bucket, number):
    return b"\x03" + text(b"vol1") + text(bucket_name(bucket)) + struct.pack(">Q", number)


def drop_open(bucket):
    return b"\x06" + text(b"vol1") + text(bucket_name(bucket))


class Disk:
    """A manager's disk, written body by body."""

    def __init__(self):
        self.parts = []
        self.index = 0

    def add(self, operations):
        self.index += 1
        body = struct.pack(">BQ", 1, self.index) + b"".join(operations)
        self.parts.append(b"\x01" + struct.pack(">I", len(body)) + body)
        return self

    def bytes(self):
        return b"".join(self.parts) + b"\x00"


def disk_of(keys, mixed):
    disk = Disk()
    buckets = (keys + IN_BUCKET - 1) // IN_BUCKET
    disk.add([put_volume()] + [put_bucket(number) for number in range(buckets)])
    numbers = list(range(keys))
    if mixed:
        random.Random(7).shuffle(numbers)
    for start in range(0, keys, 512):
        disk.add([put_key(number) for number in numbers[start:start + 512]])
    return disk


def seconds_of(program, disk, script):
    """The processor's seconds of one run over a fresh folder with this disk."""
    with tempfile.TemporaryDirectory(dir=FOLDER, prefix="rows.") as folder:
        with open(os.path.join(folder, "manager"), "wb") as file:
            file.write(disk)
        before = resource.getrusage(resource.RUSAGE_CHILDREN)
        done = subprocess.run([program, "run", folder], input=script, stdout=subprocess.PIPE, check=True)
        after = resource.getrusage(resource.RUSAGE_CHILDREN)
        lines = sum(1 for line in script.split(b"\n") if line)
        if not done.stdout.endswith(b"end %d of %d\n" % (lines, lines)):
            sys.exit("bench/rows.py: a run didn't serve its lines")
        return after.ru_utime + after.ru_stime - before.ru_utime - before.ru_stime


def least_of(program, runs):
    """The least time of each of these runs, a disk and a script each, by its name."""
    seen = {name: [] for name in runs}
    for _ in range(ROUNDS):
        for name, (disk, script) in runs.items():
            seen[name].append(seconds_of(program, disk, script))
    return {name: min(seconds) for name, seconds in seen.items()}


def bucket_lines(volume):
    """The lines that make a volume and its buckets."""
    buckets = b"".join(b"a bucket create /new%d/bk%d\n" % (volume, number) for number in range(BUCKETS))
    return b"a volume create /new%d\n" % volume + buckets


def tell(name, *words):
    print(name, *words[:-1], "%.2f" % words[-1], flush=True)


def main():
    program = os.environ.get("OZONE_PROGRAM")
    if program is None:
        subprocess.run([os.path.join(TOP, "ozone"), "--version"], stdout=subprocess.DEVNULL, check=True)
        program = os.path.join(TOP, "crates/oz_main/out/oz_main")
    volumes = b"".join(b"a volume create /new%d\n" % number for number in range(LINES))
    made = b"".join(bucket_lines(number) for number in range(VOLUMES))
    for keys in SIZES:
        in_order = disk_of(keys, False).bytes()
        runs = {
            "empty": (b"\x00", b""),
            "mixed": (disk_of(keys, True).bytes(), b""),
            "in order": (in_order, b""),
            "volumes": (in_order, volumes),
            "buckets": (in_order, made),
            "expire": (disk_of(keys, False).add([drop_open(0)] * EXPIRES).bytes(), b""),
        }
        buckets = (keys + IN_BUCKET - 1) // IN_BUCKET
        places = {"first": 0, "middle": buckets // 2, "last": buckets - 1}
        for place, bucket in places.items():
            copies = [copy_keys(bucket, number) for number in range(1, 1 + COPIES)]
            runs[place] = disk_of(keys, False).add(copies).bytes(), b""
        least = least_of(program, runs)
        for order in ("mixed", "in order"):
            tell("load", keys, order, (least[order] - least["empty"]) / keys * 1e6)
        loaded = least["in order"]
        tell("volume", keys, (least["volumes"] - loaded) / LINES * 1e6)
        tell("bucket", keys, (least["buckets"] - loaded) / (VOLUMES * BUCKETS) * 1e6)
        for place in places:
            tell("copy", keys, place, (least[place] - loaded) / COPIES * 1e6)
        tell("expire", keys, (least["expire"] - loaded) / EXPIRES * 1e6)


main()
