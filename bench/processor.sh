#!/usr/bin/env bash
# Times the proved machine against a plain C switch interpreter of the same words, on two loops, and prints the ratios.
# Each pair of runs is made right after the other, and the best of several counts.
set -euo pipefail
cd "$(dirname "$0")/.."

tries=${1:-7}
arithmetic=${2:-30000000}
calls=${3:-20000000}
ours=crates/processor_bench/out/processor_bench
theirs=target/bench/processor_c

(cd crates/processor_bench && rt run -- 1 1 > /dev/null)
mkdir -p target/bench
gcc -O2 -Wall -Wextra -o "$theirs" bench/processor.c

# Milliseconds of processor time that a command takes; what it writes goes to the file that is named first.
timed() {
    local out=$1 seconds TIMEFORMAT=%3U
    shift
    seconds=$( { time "$@" > "$out"; } 2>&1 )
    echo $((10#${seconds/./}))
}

compare() {
    local name=$1 best_ours=0 best_theirs=0 t
    shift
    for ((i = 0; i < tries; i++)); do
        t=$(timed target/bench/theirs.txt "$theirs" "$@")
        if ((best_theirs == 0 || t < best_theirs)); then best_theirs=$t; fi
        t=$(timed target/bench/ours.txt "$ours" "$@")
        if ((best_ours == 0 || t < best_ours)); then best_ours=$t; fi
    done
    cmp target/bench/ours.txt target/bench/theirs.txt
    echo "$name: machine $best_ours ms, C $best_theirs ms, ratio $(awk "BEGIN { printf \"%.2f\", $best_ours / $best_theirs }")"
}

compare arithmetic "$arithmetic" 0
compare calls 0 "$calls"
