#!/usr/bin/env bash
# Runs the commands that README.md, docs/TUTORIAL.md, docs/PIPES.md, examples/README.md and two sections of docs/OPERATION.md show, and compares what is printed.
# Run it by hand, in any folder, while nothing else listens on the ports 8080 and 8090. It ends with 1 at the first block that prints something else, or in
# which a command fails.
#
# A ```sh block that calls ./croquet, or a script, is run. The ```text block after it is what its commands print. Where there is none, they print
# nothing. A ```console block has commands for terminals of their own, which run at the same time. The ```console block after it is what the second of
# them prints, but for times, digests and how many entries it has seen. Where there is none, they end by hand, and are not run.
set -euo pipefail
top=$(cd "$(dirname "${BASH_SOURCE[0]}")/.." && pwd)
work=$(mktemp -d)
trap 'rm -rf "$work"' EXIT

# Writes the blocks of a page, or of its section under a heading: N.sh and N.text, N.terminals and N.seen.
blocks() {
    mkdir -p "$2"
    awk -v folder="$2" -v heading="$3" '
        /^##* / && !inside { elsewhere = heading != "" && $0 != heading }
        elsewhere { next }
        /^```/ && inside { inside = 0; next }
        /^```/ {
            inside = 1
            file = ""
            if ($0 == "```sh") file = sprintf("%s/%03d.sh", folder, ++count)
            if ($0 == "```text" && last == "```sh") file = sprintf("%s/%03d.text", folder, count)
            if ($0 == "```console" && last != "```console") file = sprintf("%s/%03d.terminals", folder, ++count)
            if ($0 == "```console" && last == "```console") file = sprintf("%s/%03d.seen", folder, count)
            if (file != "") printf "" > file
            last = $0
            next
        }
        inside && file != "" { print > file }
    ' "$1"
}

# Runs the lines of a block side by side, half a second apart, and prints what the second one prints, without what differs from run to run.
run_terminals() {
    local line number=0 processes=() process
    while IFS= read -r line; do
        number=$((number + 1))
        bash -c "$line" >"$work/terminal.$number" &
        processes+=($!)
        sleep 0.5
    done <"$1"
    for process in "${processes[@]}"; do wait "$process"; done
    without_differences <"$work/terminal.2"
}

without_differences() {
    sed -E 's/[0-9a-f]{64}/DIGEST/g; s/[0-9]{6,}/TIME/g; s/ seq [0-9]+ / seq SEQ /'
}

# Compares what a block of a page has printed with what the page shows.
compare() {
    diff "$3" "$work/printed" >"$work/differences" && return
    echo "walk: $1: something else is printed (< the page, > the program) at:" >&2
    cat "$2" "$work/differences" >&2
    exit 1
}

fail() {
    echo "walk: $1: a command fails at:" >&2
    cat "$2" "$work/printed" >&2
    exit 1
}

run_block() {
    local page=$1 block=$2 wanted=${2%.sh}.text
    [ -e "$wanted" ] || : >"$wanted"
    (cd "$room" && bash -e "$block") >"$work/printed" || fail "$page" "$block"
    compare "$page" "$block" "$wanted"
}

run_terminal_block() {
    local page=$1 block=$2
    (cd "$room" && run_terminals "$block") >"$work/printed" || fail "$page" "$block"
    without_differences <"${block%.terminals}.seen" >"$work/wanted"
    compare "$page" "$block" "$work/wanted"
}

# The commands of a page, or of its section under a heading, share a folder, so that one may read what another has written.
walk() {
    local page=$1 section=${2:-} block ran=0 parts room
    parts=$work/parts/$1$section room=$work/rooms/$1$section
    blocks "$top/$page" "$parts" "$section"
    mkdir -p "$room"
    ln -s "$top"/{croquet,examples,checks,deploy,reference,release} "$room"
    for block in "$parts"/*.sh "$parts"/*.terminals; do
        case $block in
        *'*'*) continue ;;
        *.terminals)
            [ -e "${block%.terminals}.seen" ] || continue
            run_terminal_block "$page" "$block"
            ;;
        *)
            grep -q '\./croquet\|^examples/\|^checks/\|^bash ' "$block" || continue
            run_block "$page" "$block"
            ;;
        esac
        ran=$((ran + 1))
    done
    [ "$ran" -gt 0 ] || { echo "walk: $page${section:+, $section} shows no command" >&2; exit 1; }
    echo "walk: $page${section:+, $section}: $ran blocks print what the page shows"
}

walk README.md
walk docs/TUTORIAL.md
if command -v node >/dev/null; then walk docs/PIPES.md; else echo "walk: docs/PIPES.md is left out, since there is no node"; fi
walk examples/README.md
walk docs/OPERATION.md "### Two programs in one process"
if [ -x /usr/sbin/nginx ] && command -v openssl >/dev/null; then
    walk docs/OPERATION.md "### Several processes, and a proxy"
else
    echo "walk: the proxy of docs/OPERATION.md is left out, since there is no nginx or no openssl"
fi
