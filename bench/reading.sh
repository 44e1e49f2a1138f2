#!/bin/sh
# Times the catalog and the plain C reader on the same texts, one size after the other. Usage: bench/reading.sh [SIZE..]
# It takes 16 words for each byte: 1.3 GB at 10 MB, 13 GB at 100 MB.
set -eu
cd "$(dirname "$0")/.."
[ $# -gt 0 ] || set -- 1000000 10000000 100000000
(cd crates/reading_bench && rt run -- 1000 > /dev/null)
plain=$(mktemp -d)
trap 'rm -rf "$plain"' EXIT
gcc -O2 -o "$plain/reading" bench/reading.c
date -u '+%Y-%m-%d %H:%M UTC'
grep -m1 'model name' /proc/cpuinfo
for size in "$@"; do
    echo "catalog: $(crates/reading_bench/out/reading_bench "$size")"
    echo "plain C: $("$plain/reading" "$size")"
done
