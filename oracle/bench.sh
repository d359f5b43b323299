#!/bin/bash
# Speed of the original Rust: nanoseconds per call (minimum of 2,000 rounds of 1,000 calls), then instructions per call
# by callgrind, with the recorder's own share beside both. Measure on a quiet machine.
set -euo pipefail
use="use: oracle/bench.sh    takes no word; some minutes"
case "$# ${1:-}" in
    "0 ") ;;
    "1 -h" | "1 --help") echo "$use"; exit 0 ;;
    *) echo "$use" >&2; exit 2 ;;
esac
cd "$(dirname "$0")"
cargo build --offline --locked --quiet --profile measure --bin bench
bench=target/measure/bench

$bench time

# Instructions of N calls, start and end of the program included; the difference of two runs is free of those.
instructions() {
    valgrind --tool=callgrind --callgrind-out-file=/dev/null "$bench" run "$1" "$2" 2>&1 | sed -n 's/.*Collected : //p'
}
per_call() {
    echo $(( ($(instructions "$1" 3000) - $(instructions "$1" 1000)) / 2000 ))
}

if ! command -v valgrind > /dev/null; then
    echo "not measured: valgrind is not here, so no instructions are counted"
    exit 0
fi
echo
echo "| call | entries | instructions per call | recorder alone |"
echo "|---|---|---|---|"
$bench names | while read -r name entries; do
    echo "| $name | $entries | $(per_call "$name") | $(per_call "recorder-$entries") |"
done
