#!/usr/bin/env bash
# Measures `stamp`, with many sends of one view, and with many joins and leaves of a thousand views.
# usage: examples/measure_sessions.sh [PROGRAM], where PROGRAM is the built program.
# It prints instructions, seconds and the most memory at a time. It prints the seconds and the memory of stamp.js too, a reflector in plain JavaScript,
# whose text and log have to be the same. It needs valgrind, GNU time and node, and takes some minutes. docs/PERFORMANCE.md has what it printed.
set -euo pipefail
top=$(cd "$(dirname "$(readlink -f "${BASH_SOURCE[0]}")")/.." && pwd)
croquet=$(readlink -f "${1:-$top/release/croquet-x86_64-linux}")
work=$(mktemp -d)
trap 'rm -rf "$work"' EXIT
cd "$work"

# A script in which one view joins and sends COUNT events, each with the same payload. The words are COUNT and the payload.
sends() {
    awk -v count="$1" -v payload="$2" 'BEGIN {
        print "join 7 0"
        for (number = 1; number <= count; number++) print "send 7 1", number, 0, payload
    }'
}

# A script in which a thousand views join one after the other, then leave, and so on, until there are COUNT entries.
visits() {
    awk -v count="$1" 'BEGIN {
        for (seq = 1; seq <= count; seq++) {
            view = (seq - 1) % 1000 + 1
            if (int((seq - 1) / 1000) % 2 == 0) print "join", view, 0
            else print "leave", view, seq - 1000, 0
        }
    }'
}

# Prints the seconds and the KiB that a command takes.
cost() {
    /usr/bin/time -f '%e s, %M KiB' "$@" 2>&1 >/dev/null
}

measure() {
    local entries bytes
    entries=$(wc -l <script)
    "$croquet" stamp script --log log >printed
    node "$top/examples/stamp.js" script other >told
    cmp -s printed told && cmp -s log other || echo "$1: the two differ"
    bytes=$(wc -c <log)
    echo "$1: $entries entries, log of $bytes bytes"
    echo "  $(valgrind --tool=callgrind --callgrind-out-file=/dev/null "$croquet" stamp script --log log 2>&1 >/dev/null | sed -n 's/.*Collected : //p') instructions"
    echo "  croquet $(cost "$croquet" stamp script --log log); node $(cost node "$top/examples/stamp.js" script other)"
}

# Prints the memory of a run without a log, that of a run whose sends are all refused, and what an entry takes by the difference.
held() {
    local most least
    sends "$1" "$2" >script
    most=$(/usr/bin/time -f %M "$croquet" stamp script 2>&1 >/dev/null)
    sed 's/^send 7 1 /send 7 1 9/' script >refused
    least=$(/usr/bin/time -f %M "$croquet" stamp refused 2>&1 >/dev/null)
    echo "$1 sends, payload $2: $most KiB, $least KiB where all are refused; an entry has $(((most - least) * 1024 / $1)) bytes"
}

for count in 10000 100000 800000; do
    sends "$count" - >script
    measure "$count sends without payload"
    visits "$count" >script
    measure "$count joins and leaves"
done
for count in 2000 20000 200000; do
    sends "$count" 00000007636f756e74657200000005726573657400 >script
    measure "$count sends of 21 bytes"
done
held 800000 -
held 200000 00000007636f756e74657200000005726573657400
