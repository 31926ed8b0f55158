#!/usr/bin/env bash
# Measures how long a reflector takes to go on from a file: to read the session, to put out all views that are here, and to write it again.
# usage: examples/measure_opening.sh [PROGRAM [ENTRIES]], where PROGRAM is the built program, and ENTRIES is how long the longest log is, a full one if
# it is not given. Nothing else should run. It needs GNU time, python3 and a free port 8096, and takes a minute or two.
set -euo pipefail
top=$(cd "$(dirname "$(readlink -f "${BASH_SOURCE[0]}")")/.." && pwd)
croquet=$(readlink -f "${1:-$top/release/croquet-x86_64-linux}")
most=${2:-1048576}
work=$(mktemp -d)
trap 'rm -rf "$work"' EXIT
cd "$work"
: >empty
mkfifo told
echo 'class Root{init(o){}}' >program

# Writes a session of so many entries, in which so many views join, the one with the highest number first, and then send in turn events without payload.
session() {
    python3 - "$1" "$2" <<'END' >stored
import struct, sys
entries, views = map(int, sys.argv[1:])
out = [b"TEALOG01", struct.pack(">I", entries)]
for seq in range(1, entries + 1):
    turn, place = divmod(seq - 1, views)
    view = views - place
    out.append(struct.pack(">QIB", seq, view, 3 if turn else 1) + (struct.pack(">II", turn, 0) if turn else b""))
sys.stdout.buffer.write(b"".join(out))
END
}

# Prints the seconds, the processor's seconds and the KiB that a command takes.
cost() {
    /usr/bin/time -f '%e s, processor %U and %S s, %M KiB' "$@" 2>&1 >/dev/null
}

# The processor time that a process has taken, in hundredths of a second: of itself, and of the system for it.
taken() {
    sed 's/.*) //' "/proc/$1/stat" | cut -d ' ' -f 12,13
}

# Starts a reflector on the file, and prints what it took until it listens. A view that joins, or is refused, ends it.
opening() {
    local begun listening reflector
    begun=$(date +%s%N)
    "$croquet" reflect program opening localhost:8096 --from stored --connections 1 --log again >printed 2>told &
    reflector=$!
    read -r listening <told
    [ "${listening%% *}" = listening ] || { echo "the reflector does not listen: $listening" >&2; exit 1; }
    echo "  until it listens: $((($(date +%s%N) - begun) / 1000000)) ms, hundredths of a second of the processor: $(taken "$reflector")"
    "$croquet" join program opening localhost:8096 4294967295 empty >joined || true
    wait "$reflector"
    echo "  at the end: $(tail -n 1 printed)"
}

measure() {
    session "$1" "$2"
    echo "$1 entries, $2 views here, $(wc -c <stored) bytes:"
    "$croquet" stamp empty --from stored --log again
    cmp stored again
    echo "  read: $(cost "$croquet" stamp empty --from stored)"
    echo "  read and written: $(cost "$croquet" stamp empty --from stored --log again)"
    opening
}

for views in 1 1024; do
    for entries in $((most / 100)) $((most / 10)) "$most"; do measure "$entries" "$views"; done
done
