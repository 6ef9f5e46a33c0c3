#!/usr/bin/env bash
# What tests do where memory runs out: each allocation is refused once, in a run of its own.
#
# usage: bench/memory.sh [CRATE] [WORD] [MOST]
#
# The tests of CRATE (beside_tests) whose names have WORD in them are run as the gate built them, so `rt ci` is to have
# run first. A test is run once with no allocation refused, which counts them, and then once for each of them, MOST (2000)
# at most, with that one refused (`refuse.c`, which gcc compiles). A line of each test has its name, how many allocations there are,
# and how many of the runs
#     passed         took no notice
#     told           said that there is no memory
#     asserted       found an answer that isn't the one without want of memory: a refusal for want of it, or that of a disk in
#                    memory, which keeps what a stop may leave of each write and fails where it can't
#     waited         waited for a thread that couldn't be started, a minute long
#     ended          ended in any other way: a fault
# A call that takes no memory can't be refused any, so of `decide`, `note`, `swap` and `flush_once` of the ledger and the
# flusher nothing is told but what the disk below takes. The status is 1 where a run ended in another way.
set -uo pipefail
top=$(dirname "$(dirname "$(readlink -f "${BASH_SOURCE[0]}")")")
crate=${1:-beside_tests}
word=${2:-}
most=${3:-2000}
program=$top/crates/$crate/out/${crate}_tests
[[ -x $program ]] || { echo "bench/memory.sh: run \`rt ci $crate\` first: $program isn't there" >&2; exit 2; }
work=$(mktemp -d)
trap 'rm -rf "$work"' EXIT
gcc -O1 -shared -fPIC -o "$work/refuse.so" "$top/bench/refuse.c" -ldl || exit 2

once() {
    timeout 60 env REFUSE="$1" COUNT="$work/count" LD_PRELOAD="$work/refuse.so" "$program" "$2"
}

faults=0
while read -r name; do
    once 0 "$name" >"$work/said" 2>&1
    count=$(cat "$work/count")
    passed=0 told=0 asserted=0 waited=0 ended=0
    for ((number = 1; number <= count && number <= most; number++)); do
        { once "$number" "$name"; } >"$work/said" 2>&1
        case $? in
            0) ((passed++)) ;;
            101) ((told++)) ;;
            134) ((asserted++)) ;;
            124) ((waited++)) ;;
            *) ((ended++, faults++)) ;;
        esac
    done
    echo "$name allocations $count passed $passed told $told asserted $asserted waited $waited ended $ended"
done < <("$program" --list | sed -n 's/: test$//p' | grep -- "$word")
((faults == 0))
