#!/usr/bin/env bash
# How long a line that makes a bucket takes, where its volume has few buckets and where it has almost all that it may
# have.
#
# usage: bench/buckets.sh [ROUNDS] [FOLDER]
#
# Each measured run has a fresh folder in FOLDER (/dev/shm, so that no disk is waited for) and a script that makes a
# volume and so many buckets. The runs are made ROUNDS times (31) in turn, and the median of each is taken. Printed
# are
#     run N MICROSECONDS          the whole run that makes N buckets, the program's start included
#     line FROM TO MICROSECONDS   the difference of two such runs for each of the lines between them
#     rate N LINES                lines a second over the run that makes N buckets
set -euo pipefail
top=$(dirname "$(dirname "$(readlink -f "${BASH_SOURCE[0]}")")")
rounds=${1:-31}
work=$(mktemp -d "${2:-/dev/shm}/buckets.XXXXXX")
trap 'rm -rf "$work"' EXIT

[[ ${OZONE_PROGRAM:-} ]] || "$top/ozone" build
program=${OZONE_PROGRAM:-$top/crates/oz_main/out/oz_main}
counts=(10 20 100 200 900 1000 1010 1024)

script() {
    echo 'a volume create /vol1'
    for ((number = 1; number <= $1; number++)); do echo "a bucket create /vol1/bk$number"; done
}

# Runs the script of so many buckets once, and writes how many microseconds it took.
measure() {
    mkdir "$work/disks"
    local start=${EPOCHREALTIME/./}
    "$program" run "$work/disks" <"$work/$1.oz" >"$work/report"
    local end=${EPOCHREALTIME/./}
    tail -n 1 "$work/report" | grep -qx "end $(($1 + 1)) of $(($1 + 1))"
    rm -r "$work/disks"
    echo $((end - start))
}

median() { sort -n "$1" | sed -n "$(((rounds + 1) / 2))p"; }

for count in "${counts[@]}"; do script "$count" >"$work/$count.oz"; done
for ((round = 0; round < rounds; round++)); do
    for count in "${counts[@]}"; do measure "$count" >>"$work/$count.times"; done
done

declare -A took
for count in "${counts[@]}"; do
    took[$count]=$(median "$work/$count.times")
    echo "run $count ${took[$count]}"
done
for pair in '10 20' '100 200' '900 1000' '1000 1010'; do
    read -r from to <<<"$pair"
    echo "line $from $to $(((took[$to] - took[$from]) / (to - from)))"
done
echo "rate 1024 $((1025 * 1000000 / took[1024]))"
