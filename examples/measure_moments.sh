#!/usr/bin/env bash
# Measures `inspect`, and `replay` of the same session: the whiteboard, on which one view draws 9,900 strokes and clears the board after each 99.
# usage: examples/measure_moments.sh [PROGRAM], where PROGRAM is the built program.
# It prints instructions, and the most memory at a time. It needs valgrind and GNU time, and takes a few minutes. docs/PERFORMANCE.md has what it printed.
set -euo pipefail
top=$(cd "$(dirname "$(readlink -f "${BASH_SOURCE[0]}")")/.." && pwd)
croquet=$(readlink -f "${1:-$top/release/croquet-x86_64-linux}")
board=$top/examples/whiteboard.program
work=$(mktemp -d)
trap 'rm -rf "$work"' EXIT
cd "$work"

# View 7 joins, and then sends 9,999 events, one each 10 milliseconds: "draw" of two points, and each hundredth time "clear".
draw=00000005626f6172640000000464726177060000000403000000000000000a03000000000000000a03000000000000001403000000000000000a
clear=00000005626f61726400000005636c65617200
awk -v draw="$draw" -v clear="$clear" 'BEGIN {
    print "join 7 0"
    for (number = 1; number <= 9999; number++) print "send 7 1", number, number * 10000, number % 100 ? draw : clear
}' >script
"$croquet" stamp script --log log >printed

# Prints how many instructions a command takes.
instructions() {
    valgrind --tool=callgrind --callgrind-out-file=/dev/null "$croquet" "$@" 2>&1 >/dev/null | sed -n 's/.*Collected : //p'
}

# Prints how many instructions an inspection takes, whose queries are COUNT times the same line. The words are COUNT and the line.
inspection() {
    awk -v count="$1" -v line="$2" 'BEGIN { for (number = 0; number < count; number++) print line }' >queries
    instructions inspect "$board" board log 100 queries
}

# Prints how many instructions one more query of this line takes.
query() {
    echo $((($(inspection 11 "$1") - $(inspection 1 "$1")) / 10))
}

echo "replay to the last entry: $(instructions replay "$board" board log 99990000)"
echo "inspect without a query: $(inspection 0 '')"
for kind in at full; do
    echo "one more query $kind: $(query "$kind 50490000")"
done
: >queries
echo "inspect without a query: $(/usr/bin/time -f '%M KiB' "$croquet" inspect "$board" board log 100 queries 2>&1 >/dev/null)"
echo "replay: $(/usr/bin/time -f '%M KiB' "$croquet" replay "$board" board log 99990000 2>&1 >/dev/null)"
