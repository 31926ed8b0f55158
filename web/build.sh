#!/usr/bin/env bash
# Builds the module of the proved page for WebAssembly: web/build.sh OUT.wasm [LIBS [WORK]]. Same sources, same bytes.
#
# LIBS is a folder of NAME.rlib folders; without it the libraries of crates/*/out/rlib are taken. WORK keeps what is made on the way, and a
# WORK/module.bc that is there is taken again. It needs the Rattle kit and nothing else: its compiler and its linker make WebAssembly too.
set -euo pipefail
unset CDPATH
here=$(dirname "$(readlink -f "${BASH_SOURCE[0]}")")
out=$(readlink -m "$1")
kit=$(dirname "$(rt doc)")
clang=$kit/toolchain/bin/clang
if [ -n "${3:-}" ]; then
    work=$(readlink -m "$3")
else
    work=$(mktemp -d)
    trap 'rm -rf "$work"' EXIT
fi
mkdir -p "$work/tools/bin" "$work/libs" "$(dirname "$out")"

libraries() {
    if [ -n "${1:-}" ]; then
        cd "$1" && pwd
        return
    fi
    for library in "$here"/../crates/*/out/rlib/*.rlib; do
        ln -sfn "$(readlink -f "$library")" "$work/libs/$(basename "$library")"
    done
    echo "$work/libs"
}

# A toolchain whose compiler keeps the module that it is handed.
keep_module() {
    ln -sfn "$kit/toolchain/lib" "$work/tools/lib"
    for tool in ld.lld llvm-ar rattle-x64; do
        ln -sfn "$kit/toolchain/bin/$tool" "$work/tools/bin/$tool"
    done
    cat >"$work/tools/bin/clang" <<SHIM
#!/bin/bash
for word in "\$@"; do
    case "\$word" in *.bc) [ ! -f "\$word" ] || install -m 644 "\$word" "$work/module.bc";; esac
done
exec "$clang" "\$@"
SHIM
    chmod +x "$work/tools/bin/clang"
}

# The same module, laid out for WebAssembly with 64-bit memories.
retarget() {
    "$clang" -x ir "$work/module.bc" -S -emit-llvm -o "$work/module.x64.ll" -Wno-override-module --target=x86_64-unknown-linux-gnu
    sed -e 's/^target datalayout = .*/target datalayout = "e-m:e-p:64:64-p10:8:8-p20:8:8-i64:64-i128:128-n32:64-S128-ni:1:10:20"/' \
        -e 's/^target triple = .*/target triple = "wasm64-unknown-unknown"/' \
        -e 's/"target-cpu"="[^"]*"//g; s/"target-features"="[^"]*"//g; s/"tune-cpu"="[^"]*"//g' \
        -e 's/"probe-stack"="[^"]*"//g; s/"stack-probe-size"="[^"]*"//g' "$work/module.x64.ll" >"$work/module.ll"
}

link() {
    local flags=(--target=wasm64-unknown-unknown -O3 -c) exports=() name
    "$clang" "${flags[@]}" -x ir "$work/module.ll" -o "$work/module.o" -ffunction-sections -fdata-sections
    "$clang" "${flags[@]}" -ffreestanding -fno-builtin -nostdlib "$here/heap.c" -o "$work/heap.o"
    for name in seat open step frame text world close room free memory; do
        exports+=("--export=page_$name")
    done
    # The compiler is also the linker, under this name.
    ln -sfn "$clang" "$work/wasm-ld"
    "$work/wasm-ld" -mwasm64 --no-entry "${exports[@]}" --gc-sections --strip-all -z stack-size=1048576 "$work/module.o" "$work/heap.o" -o "$out"
}

if [ ! -f "$work/module.bc" ]; then
    keep_module
    "$here/check.sh" "$(libraries "${2:-}")" build "$work/libcroquet_page.a" "$work/tools"
fi
retarget
link
echo "$(stat -c %s "$out") bytes, $(gzip -9 -c "$out" | wc -c) packed, $(sha256sum <"$out" | cut -d ' ' -f 1)"
