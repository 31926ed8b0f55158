#!/usr/bin/env bash
# Tests the page: web/test.sh [MODULE.wasm [CROQUET]]. It comes after the gate and is no part of it. What is not installed is left out, and it says so.
#
# With node: what croquet.js does with answers, the cases of views through the module, and figures. With node and chromium: pages, native views and
# a reflector. The module is web/croquet.wasm and the program ./croquet where no other ones are named. It ends with 0 if nothing that was tried is wrong.
set -euo pipefail
unset CDPATH
cd "$(dirname "$(readlink -f "${BASH_SOURCE[0]}")")/.."
module=${1:-web/croquet.wasm}
croquet=${2:-./croquet}
status=0

skip() { echo "left out: $1"; }
try() { echo "== $1"; shift; "$@" || status=1; }
has() { command -v "$1" >/dev/null; }

# An engine of 64-bit memories takes the module as it is; an older node wants a flag.
flags=()
if has node && node --experimental-wasm-memory64 -e 0 2>/dev/null; then
    flags+=(--experimental-wasm-memory64)
fi

if ! has node; then
    skip "all of it: node is not installed"
    exit 0
fi
try "croquet.js, with a module made for the test" node web/test/session.mjs
if [ ! -f "$module" ]; then
    skip "the module's tests: there is no $module"
    exit $status
fi
try "the cases of views, in node" node "${flags[@]}" web/test/cases.mjs "$module"
if has wasm-opt; then
    lowered=$(mktemp -d)/croquet-lowered.wasm
    web/lower.sh "$module" "$lowered"
    try "the cases of views, by the module for engines without 64-bit memories" node web/test/cases.mjs "$lowered"
else
    skip "the module for engines without 64-bit memories: wasm-opt of binaryen is not installed"
fi
try "figures" node "${flags[@]}" web/test/figures.mjs "$module" examples/whiteboard.program
if has chromium; then
    try "pages in chromium" node web/test/browser.mjs "$croquet" "$(mktemp -d)"
else
    skip "pages in a browser: chromium is not installed"
fi
exit $status
