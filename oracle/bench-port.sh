#!/bin/bash
# The port beside the original in one run: nanoseconds per call (minimum over rounds in which both take their turn), two
# threads against one, instructions per call by callgrind, and that the library asks for no allocator. The library is that of
# dist/. Measure on a quiet machine.
set -euo pipefail
use="use: oracle/bench-port.sh    takes no word; some minutes"
case "$# ${1:-}" in
    "0 ") ;;
    "1 -h" | "1 --help") echo "$use"; exit 0 ;;
    *) echo "$use" >&2; exit 2 ;;
esac
cd "$(dirname "$0")"
cargo build --offline --locked --quiet --profile measure --package live --bin beside
beside=target/measure/beside

$beside time
echo
$beside threads
echo "the library asks for: $(nm -u "$(env -u PASETONE_LIB_DIR ../host/archive)/libpasetone.a" | sed -n 's/^ *U //p' | sort -u | paste -sd ' ')"

# Instructions of N calls, start and end of the program included; the difference of two runs is free of those.
instructions() {
    valgrind --tool=callgrind --callgrind-out-file=/dev/null "$beside" run "$1" "$2" "$3" 2>&1 | sed -n 's/.*Collected : //p'
}
per_call() {
    echo $(( ($(instructions "$1" "$2" 3000) - $(instructions "$1" "$2" 1000)) / 2000 ))
}

if ! command -v valgrind > /dev/null; then
    echo "not measured: valgrind is not here, so no instructions are counted"
    exit 0
fi
echo
echo "| call | entries | Rust, instructions | port, instructions | port / Rust | port, per entry |"
echo "|---|---|---|---|---|---|"
$beside names | while read -r name entries; do
    port=$(per_call port "$name")
    if [ "$entries" -eq 0 ]; then
        case $name in plan-pll*) rust=$(per_call rust "$name") ;; *) rust= ;; esac
        echo "| $name | 0 | $rust | $port | | |"
        continue
    fi
    rust=$(per_call rust "$name")
    awk -v n="$name" -v e="$entries" -v r="$rust" -v p="$port" \
        'BEGIN { printf "| %s | %d | %d | %d | %.2f | %.1f |\n", n, e, r, p, p / r, p / e }'
done
