#!/bin/bash
# build.sh OUT: makes OUT/reference, OUT/port, OUT/generate, OUT/compare, OUT/demand3 and OUT/sample, and holds include/planner.h to C99.
#   SHARED   the folder with docs/src (the published Rust, not copied into this repository) and oracle (the script that
#            makes the reference of it); by default the folder shared beside the repository
#   LIBRARY  the port's static library; by default crates/planner_c/out/libplanner_c.a, which `rt lib` in crates/planner_c writes
# What can't be made for want of one of these is said, and the exit status is then 1.
set -euo pipefail
[ $# -eq 1 ] || { echo "usage: $0 OUT" >&2; exit 2; }
here="$(cd "$(dirname "$0")" && pwd)"
root="$(cd "$here/.." && pwd)"
shared="${SHARED:-$root/../shared}"
library="${LIBRARY:-$root/crates/planner_c/out/libplanner_c.a}"
mkdir -p "$1"
out="$(cd "$1" && pwd)"
missing=0

program() { rustc --edition 2021 -O -C overflow-checks=on -o "$out/$1" "${@:2}"; echo "built $out/$1"; }

# The reference with one more kind of run, `distance`: the driver gets it in a copy, before the script compiles it.
reference() {
    local work="$out/reference-build" driver="$out/reference-build/scripts/shims/main.rs"
    rm -rf "$work"
    mkdir -p "$work"
    cp -r "$shared/oracle" "$work/scripts"
    chmod -R u+w "$work/scripts"
    [ "$(grep -c '^ *"reversal" => {$' "$driver")" = 1 ] || { echo "the driver has no one place for 'distance'" >&2; exit 1; }
    local run='"distance" => { let d = vans[0].depot_id(); writeln!(out, "{e} {}", hx(local_search::route_distance(\&lists[li], d, \&dm))).unwrap(); }'
    sed -i "s|^ *\"reversal\" => {\$|$run\n&|" "$driver"
    "$work/scripts/make-oracle.sh" "$shared/docs/src/src" "$work"
    mv "$work/oracle" "$out/reference"
    echo "built $out/reference"
}

if command -v gcc > /dev/null; then
    gcc -std=c99 -Wall -Wextra -Werror -fsyntax-only -x c "$root/include/planner.h"
fi
program generate "$here/generate.rs"
program compare "$here/compare/main.rs"
program demand3 "$here/demand3/main.rs"
program sample "$here/sample/main.rs"

if [ -d "$shared/docs/src/src" ] && [ -x "$shared/oracle/make-oracle.sh" ]; then
    reference
else
    echo "no reference: $shared has no docs/src/src or no oracle/make-oracle.sh (set SHARED to the folder that has)" >&2
    missing=1
fi

if [ ! -f "$library" ] && [ -z "${LIBRARY:-}" ] && [ -d "$root/crates/planner_c" ]; then
    (cd "$root/crates/planner_c" && rt lib)
fi
if [ -f "$library" ]; then
    program port "$here/port/main.rs" -L "native=$(dirname "$library")" -l static=planner_c
else
    echo "no port: $library isn't there (rt lib in crates/planner_c writes it)" >&2
    missing=1
fi
exit $missing
