#!/usr/bin/env bash
# An example live: examples/live.sh whiteboard|pong|epidemic|restart|host [PORT [PROGRAM]]. It starts a reflector and views, waits for them, prints what the views
# saw, and compares the digest of each with that of the replay of the log that the reflector wrote. It ends with 1 where one differs. `restart` is a whiteboard
# whose reflector ends, and is started again on its own file. `host` is a whiteboard and a game of pong in one process. PROGRAM is another program than
# ./croquet.
set -euo pipefail
top=$(cd "$(dirname "$(readlink -f "${BASH_SOURCE[0]}")")/.." && pwd)
example=${1:-}
address=localhost:${2:-8080}
croquet=$(realpath "${3:-$top/croquet}")
work=$(mktemp -d)

# Ends with a status, and keeps what was printed.
fail() {
    echo "live: $2; what was printed is in $work" >&2
    [ -z "${reflector:-}" ] || kill "$reflector" 2>/dev/null || true
    exit "$1"
}

# From here on it is about this session: its name, its program and the file of its log.
session() {
    name=$1
    program=$top/examples/$2.program
    log=$work/$3
}

# Starts a reflector by these words, and waits until it says that it listens. The program is built before anything waits for it.
serve() {
    local tries
    "$croquet" check "$program" >/dev/null || fail 1 "the program does not run"
    : >"$work/told"
    (cd "$top" && exec "$croquet" "$@" >"$work/served" 2>>"$work/told") &
    reflector=$!
    for tries in {1..300}; do
        kill -0 "$reflector" 2>/dev/null || fail 6 "the reflector ended: $(cat "$work/told" "$work/served")"
        if grep -q '^listening' "$work/told"; then
            # How many points a game of pong has depends on when it begins: the pages show one that begins so late.
            sleep 1.1
            return
        fi
        sleep 0.1
    done
    fail 6 "the reflector does not listen at $address"
}

# Starts the reflector of so many connections. With a second word it goes on from that file.
reflect() {
    serve reflect "$program" "$name" "$address" --connections "$1" ${2:+--from "$2"} --log "$log"
}

# Starts a view: its number and its name, by which its script and what it prints are named.
join() {
    "$croquet" join "$program" "$name" "$address" "$1" "$top/examples/${3:-$2}.view" >"$work/$2" &
    views+=($!)
}

# Waits for the views, or for all that runs.
finish() {
    local process
    for process in "${views[@]}"; do wait "$process" || fail 1 "a view ended with status $?"; done
    views=()
}

# Compares the last line of a view, `view V time N seq SEQ digest HEX`, with the replay to its time.
compare() {
    read -r _ _ _ time _ _ _ digest < <(tail -n 1 "$work/$1") || fail 1 "$1 printed nothing"
    "$croquet" replay "$program" "$name" "$log" "$time" >"$work/replay"
    grep -q " digest $digest\$" "$work/replay" || fail 1 "the replay differs from what $1 has"
}

# Prints the values of the events of a name that a view saw, and compares it with the replay.
tell() {
    local seen
    seen=$(grep -o "\"$2\" .*" "$work/$1" | cut -d ' ' -f 2 | head -n "${4:-100}" | tr '\n' ' ') || fail 1 "$1 saw no event \"$2\""
    compare "$1"
    echo "$1 sees $seen$3, and has the digest of the replay"
}

whiteboard() {
    session whiteboard whiteboard log
    reflect 4
    join 7 alice
    join 8 bob
    finish
    join 9 carol late
    join 10 dave late
    finish
    wait "$reflector"
    tell alice changed strokes
    tell bob changed strokes
    compare carol
    local carol=$digest
    compare dave
    [ "$carol" = "$digest" ] || fail 1 "carol and dave have two digests"
    echo "carol and dave have one digest, which is that of the replay"
}

pong() {
    session pong pong log
    reflect 2
    join 1 left
    sleep 0.5
    join 2 right
    finish
    wait "$reflector"
    tell left score points
    tell right score points
}

epidemic() {
    session epidemic epidemic log
    reflect 2
    join 1 mayor
    join 2 citizen
    finish
    wait "$reflector"
    # What comes after the second count depends on the moment at which the town was closed.
    tell mayor count "in two seconds" 2
    tell citizen count "in two seconds" 2
}

# The second run goes on where the first one ended, and writes its file over that of the first. So the last file has the log of both.
restart() {
    session restart whiteboard log
    reflect 2
    join 7 alice
    join 8 bob
    finish
    wait "$reflector"
    reflect 2 "$log"
    join 9 carol
    join 10 dave
    finish
    wait "$reflector"
    local view
    for view in alice bob carol dave; do tell "$view" changed strokes; done
}

# Two sessions of two programs in one process, with two views each. Last it prints what the host says of its sessions, without times.
host() {
    session pong pong log2
    serve host examples/host.config "$address" --connections 4 --logs "$work/log"
    join 1 left
    sleep 0.5
    join 2 right
    session board whiteboard log1
    join 7 alice
    join 8 bob
    finish
    wait "$reflector"
    tell alice changed strokes
    tell bob changed strokes
    session pong pong log2
    tell left score "as the first points" 3
    tell right score "as the first points" 3
    sed -n 's/^\(session .*\) time .*/\1/p' "$work/served"
}

views=()
case $example in
whiteboard | pong | epidemic | restart | host)
    "$example"
    rm -rf "$work"
    ;;
*)
    echo "usage: examples/live.sh whiteboard|pong|epidemic|restart|host [PORT [PROGRAM]]" >&2
    exit 1
    ;;
esac
