#!/usr/bin/env bash
# Measures live sessions, of `reflect` and of plain_reflector.js in turn: how soon events come, how many, what idle views cost, and how soon a late
# joiner has the log. Usage: examples/measure_live.sh [PROGRAM], where PROGRAM is the built program. Nothing else should run. It needs node, node-ws and
# python3 of Debian, a free port 8095, and takes three minutes. docs/PERFORMANCE.md has what it printed.
set -euo pipefail
top=$(cd "$(dirname "$(readlink -f "${BASH_SOURCE[0]}")")/.." && pwd)
croquet=$(readlink -f "${1:-$top/release/croquet-x86_64-linux}")

figure() {
    timeout 200 node "$top/examples/live_figures.js" "$1" 8095 ${2:+"$2"} || echo "$1 ${2:-node}: no figure"
    sleep 1
}

for round in 1 2 3; do
    for name in latency flood fan idle catch; do
        figure "$name" "$croquet"
        figure "$name"
    done
done
figure slow "$croquet"
