#!/bin/bash
# run.sh: holds include/planner.h to C and C++, builds plan_a_day.c against it, runs it and compares what it prints with ../plan_a_day.txt,
# which the Rust example prints too (there a refusal has its words, here its number).
#   PLANNER_LIB  the folder that has libplanner_c.a; by default crates/planner_c/out, to which `rt lib` in crates/planner_c writes
set -euo pipefail
here="$(cd "$(dirname "$0")" && pwd)"
root="$(cd "$here/../.." && pwd)"
library="${PLANNER_LIB:-$root/crates/planner_c/out}/libplanner_c.a"
[ -f "$library" ] || { echo "there is no $library: run 'rt lib' in crates/planner_c first, or name its folder by PLANNER_LIB" >&2; exit 1; }
strict=(-Wall -Wextra -Werror -pedantic -I "$root/include")
work="$(mktemp -d)"
trap 'rm -rf "$work"' EXIT

gcc -std=c99 "${strict[@]}" -fsyntax-only -x c "$root/include/planner.h"
g++ -std=c++11 "${strict[@]}" -fsyntax-only -x c++ "$root/include/planner.h"
gcc -std=c11 -O2 "${strict[@]}" "$here/plan_a_day.c" "$library" -o "$work/plan_a_day"
"$work/plan_a_day" | tee "$work/printed"
sed 's/\(refused [0-9]*\),.*/\1/' "$here/../plan_a_day.txt" | diff - "$work/printed"
