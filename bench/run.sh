#!/bin/bash
# run.sh OUT: times every entry of the library against the published Rust, counts the instructions of one call of each by
# valgrind's callgrind, measures code size and stack by size.sh, and writes docs/BENCHMARKS.md from it. It takes some minutes. The exit
# status is 1 where both sides differ, or size or stack are over our aim.
#   SHARED   the folder with docs/src (the published Rust) and oracle; by default the folder shared beside the repository
#   LIBRARY  the static library; by default crates/planner_c/out/libplanner_c.a, which `rt lib` in crates/planner_c writes: it is made
#            where it isn't there or is older than a source
#   ROWS     a part of the names of the rows to run, as 'soft windows, 30'; then nothing is written, but for OUT
# Where the instructions go, by function: OUT/bench functions OUT/dumps
set -euo pipefail
[ $# -eq 1 ] || { echo "usage: $0 OUT" >&2; exit 2; }
here="$(cd "$(dirname "$0")" && pwd)"
root="$(cd "$here/.." && pwd)"
shared="${SHARED:-$root/../shared}"
[ -d "$shared/docs/src/src" ] || { echo "no published Rust: $shared has no docs/src/src (set SHARED)" >&2; exit 1; }
mkdir -p "$1"
out="$(cd "$1" && pwd)"

library() {
    [ -z "${LIBRARY:-}" ] || return 0
    LIBRARY="$root/crates/planner_c/out/libplanner_c.a"
    if [ ! -f "$LIBRARY" ] || [ -n "$(find "$root/crates" -name '*.rt' -newer "$LIBRARY" -print -quit)" ]; then
        (cd "$root/crates/planner_c" && rt lib)
    fi
}

# One program of the Rust as the oracle has it, the days and exports of oracle/, and bench/.
build() {
    local source="$out/build/src"
    rm -rf "$out/build" "$out/dumps"
    mkdir -p "$out/build" "$out/dumps"
    "$shared/oracle/make-oracle.sh" "$shared/docs/src/src" "$out/build" > /dev/null
    cp -r "$root/oracle/days" "$root/oracle/port/planner.rs" "$here"/*.rs "$source"
    rustc --edition 2021 -C opt-level=3 -A dead_code -A unused -o "$out/bench" "$source/bench.rs" \
        -L "native=$(dirname "$LIBRARY")" -l static=planner_c
}

introduction() {
    cat << END
# Benchmarks

Written by \`bench/run.sh OUT\` on $(date -u +%F), on a machine of $(nproc) cores ($(uname -m)), load $(cut -d' ' -f1 /proc/loadavg) at the start. The Rust is
compiled by $(rustc --version | cut -d' ' -f1,2), opt-level 3. The library is built by $(rt version | cut -d' ' -f1).
The figures are what one run measured; nothing is put in by hand.

- Every entry of include/planner.h that answers more than a refusal runs against the published Rust's function of the same work, in
  one program, on the same days: 10, 30 and 63 offices at random places of a square, from a fixed seed, on 1, 4 or 16 lists; for
  cross-depot 10, 30 and 60 offices beside up to four depots, a van a list, of unlike capacities and costs (bench/timed_days.rs).
  Before a row is measured both sides' answers are compared: lists, bits of the numbers, moves and end words. A difference ends the
  run.
- An entry tests its whole input for refusals, the tables of distances and times too; the Rust doesn't. planner_refusal and those of
  lists and of a fleet make just these tests, and are measured for themselves: 'less' is the entry without them.
- The Rust's matrix keeps the largest distance and the symmetry from call to call. An entry works them out at each call (table is
  that work, and there the Rust does it as well); it is a part of 'less'.
- Time is the thread's own processor time. The three sides are called in turn, in rounds of 20 microseconds or one call, for 0.3
  seconds a row and seven rounds at least. Times are medians of the rounds, and a ratio is the median of the rounds' ratios.
- Instructions are those of one call under callgrind: load does not change them.
- Of the checks (table to schedule) the refusals take many times the check itself: 'less' is then a small difference of large
  times, and the ratio of instructions says more.
- 'stopped' stands where the limit ended both sides after the same moves, so that a row doesn't take too long.
- relocate and exchange have no row of one list: both sides hand it back. schedule has rows of vans with a break, as in the Rust.

END
}

size_and_stack() {
    cat << END

## Size and stack

By \`bench/size.sh --table\`, in bytes. Code is that of a program that has the entry alone. Deepest is the stack that any call can
take, read off the machine code; measured is what a call took on a day of 63 offices, its arguments included.

END
    "$here/size.sh" --table
}

library
export LIBRARY
build
introduction > "$out/introduction"
valgrind --tool=callgrind --callgrind-out-file="$out/dumps/count" "$out/bench" count 2> "$out/callgrind.log" \
    || { cat "$out/callgrind.log" >&2; exit 1; }
"$out/bench" time "$out/dumps" "$out/report"
{
    cat "$out/introduction" "$out/report"
    size_and_stack
} > "$out/BENCHMARKS.md" || status=$?
if [ -z "${ROWS:-}" ]; then
    cp "$out/BENCHMARKS.md" "$root/docs/BENCHMARKS.md"
    echo "wrote docs/BENCHMARKS.md"
fi
exit "${status:-0}"
