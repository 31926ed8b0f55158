#!/usr/bin/env bash
# Makes a second module for engines without 64-bit memories: web/lower.sh IN.wasm OUT.wasm. Its calls are the same, and take BigInts too.
# It needs wasm-opt of binaryen. An address keeps its 64 bits, and is cut to 32 where memory is reached; more than 4 GiB are refused.
set -euo pipefail
flags=()
for feature in memory64 bulk-memory sign-ext mutable-globals nontrapping-float-to-int multivalue reference-types; do
    flags+=("--enable-$feature")
done
wasm-opt "${flags[@]}" --memory64-lowering "$1" -o "$2"
echo "$(stat -c %s "$2") bytes, $(gzip -9 -c "$2" | wc -c) packed"
