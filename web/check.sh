#!/usr/bin/env bash
# Checks the static library croquet_page over libraries that are built, or builds it: web/check.sh LIBS [check] [FLAGS OF rattle],
# web/check.sh LIBS build OUT TOOLCHAIN [FLAGS OF rattle]. LIBS is a folder of NAME.rlib folders.
set -euo pipefail
unset CDPATH
cd "$(dirname "$(readlink -f "${BASH_SOURCE[0]}")")/.."
libs=$(cd "$1" && pwd)
what=${2:-check}
shift
[ $# = 0 ] || shift
kit=$(dirname "$(rt doc)")
crate=croquet_page
words=(--crate-name "$crate" --crate-type staticlib --extern "std=$kit/rlibs/std.rlib")
for name in $(sed -n "s/^$crate\( [^:]*\)\?: *//p" crates.txt); do
    library=$libs/$name.rlib
    [ -d "$library" ] || library=$kit/rlibs/$name.rlib
    words+=(--extern "$name=$library")
done
words+=(-L "dependency=$libs" -L "dependency=$kit/rlibs" --antt-project "$kit/rattle/logic/antt-project.json")
words+=(--logic-built "$kit/logic_built" --links "$crate=" --jobs 1 --incremental "${TMPDIR:-/var/tmp}/croquet-page-$(id -u)")
cd "crates/$crate"
if [ "$what" = build ]; then
    out=$1
    tools=$2
    shift 2
    exec rattle build "${words[@]}" --toolchain "$tools" -o "$out" "$@" src/lib.rt
fi
exec rattle check "${words[@]}" "$@" src/lib.rt
