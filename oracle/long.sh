#!/bin/bash
# long.sh OUT [PART ..]: the long comparison of OUT/port with OUT/reference, which build.sh makes: over 10,000,000 runs of all engines and
# checks on good days, and over 4,000,000 runs on damaged ones. Seeds and counts are fixed, so that it makes the same runs again. It takes
# about five minutes of a processor. Parts are cross, refusals, within, across and checks; all where none is named. Each command is
# printed, with its runs by kind of answer and its differences; the last line adds them up. The exit status is 1 where there is a difference.
set -euo pipefail
[ $# -ge 1 ] || { echo "usage: $0 OUT [PART ..]" >&2; exit 2; }
out="$(cd "$1" && pwd)"
shift
log="$(mktemp)"
trap 'rm -f "$log"' EXIT

compared() {
    echo "== compare $*"
    "$out/compare" "$@" | tee -a "$log" || true
}

# Families with over 24 offices have commands of their own: a run takes long there.
small=all,-big,-full,-vans-full
large=big,full,vans-full

cross() {
    compared --runs cross --families vans,fleet,-vans-full --seed 106 --count 396000
    compared --runs cross --families $small --seed 107 --count 84000
    compared --runs cross --families $large --seed 108 --count 9000 --batch 200
}
refusals() {
    compared --refusals 1 --runs all,numbers --seed 109 --count 200000
    compared --refusals 1 --runs cross,refusal_of_fleet --seed 110 --count 200000
}
within() {
    compared --runs two_opt,or_opt,three_opt --families $small --seed 102 --count 252000
    compared --runs two_opt,or_opt,three_opt --families $large --seed 103 --count 1500 --batch 50
}
across() {
    compared --runs relocate,relocate_np,exchange --families $small --seed 104 --count 504000
    compared --runs relocate,relocate_np,exchange --families $large --seed 105 --count 6000 --batch 200
}
checks() {
    compared --runs checks --families all --seed 101 --count 600000
}

[ $# -gt 0 ] || set -- cross refusals within across checks
for part; do
    case "$part" in
        cross | refusals | within | across | checks) "$part" ;;
        *) echo "no part $part" >&2; exit 2 ;;
    esac
done
awk '/ runs, / { runs += $1; differences += $3 } / refused [0-9]+$/ { refused += $1 }
    END { print "all: " runs " runs, " refused + 0 " of them refused, " differences " differences"; exit differences > 0 }' "$log"
