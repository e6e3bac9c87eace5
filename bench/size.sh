#!/bin/bash
# size.sh [--table]: how much code and stack each entry of the static library takes, held to the box's budget (512 KB of flash, 192 KB of
# memory) and to our own aim (128 KB and 32 KB). Where one is passed it says which, and the exit status is 1. With --table it prints
# Markdown, for docs/BENCHMARKS.md.
#   code      code and constants of a program that has this entry alone, linked with --gc-sections, or has all of them; bytes on x86-64
#   deepest   how many bytes below its return address any call of it can take, read off the machine code (deepest.awk)
#   measured  how many bytes a call took on a day of 63 offices, with hard and with soft windows, its arguments included (stack.c)
#   LIBRARY   the static library; by default crates/planner_c/out/libplanner_c.a, which `rt lib` in crates/planner_c writes
set -euo pipefail
case "$*" in '') table= ;; --table) table=yes ;; *) echo "usage: $0 [--table]" >&2; exit 2 ;; esac
here="$(cd "$(dirname "$0")" && pwd)"
root="$(cd "$here/.." && pwd)"
library="${LIBRARY:-$root/crates/planner_c/out/libplanner_c.a}"
[ -f "$library" ] || (cd "$root/crates/planner_c" && rt lib >&2)
work="$(mktemp -d)"
trap 'rm -rf "$work"' EXIT
arguments=512 # the most bytes that a call's arguments take on the stack
failed=0

# Links a program of these entries and prints its code, data and bss. It needs memcpy and memset from outside, and nothing else.
sizes() {
    ld -static --gc-sections --defsym memcpy=16 --defsym memset=32 -e "$1" "${@/#/-u}" -o "$work/program" "$library"
    size "$work/program" | awk 'NR == 2 { print $1, $2, $3 }'
}

row() {
    if [ -n "$table" ]; then printf '| %s | %s | %s | %s | %s |\n' "$@"; else printf '%-30s %8s %8s %14s %14s\n' "$@"; fi
}

# hold WHAT BYTES AIM BUDGET BOX: says whether our aim or the box's budget is passed.
hold() {
    local figures="$2 bytes; our aim is $3, the box's $5 has $4"
    if [ "$2" -gt "$4" ]; then
        figures="over the box's budget: $figures"
        failed=1
    elif [ "$2" -gt "$3" ]; then
        figures="over our own aim: $figures"
        failed=1
    fi
    echo "$1: $figures"
}

mapfile -t entries < <(nm --defined-only "$library" 2> "$work/notes" | awk '$2 == "T" && $3 ~ /^planner_/ { print $3 }')
all="$(sizes "${entries[@]}")"
read -r code data bss <<< "$all"
objdump -d --no-show-raw-insn "$work/program" | awk -f "$here/deepest.awk" | sort > "$work/deepest"
gcc -std=c11 -O2 -Wall -Wextra -Werror -I "$root/include" "$here/stack.c" "$library" -o "$work/stack"
"$work/stack" | sort > "$work/measured"

row entry code deepest 'measured, hard' 'measured, soft'
[ -z "$table" ] || row --- ---: ---: ---: ---:
most=0
while read -r entry deepest hard soft; do
    alone="$(sizes "$entry")"
    row "$entry" "${alone%% *}" "$deepest" "$hard" "$soft"
    for bytes in "$deepest" "$hard" "$soft"; do most=$((bytes > most ? bytes : most)); done
    if [ "$soft" = 0 ]; then
        echo "$entry: stack.c has no call of it" >&2
        failed=1
    elif [ "$hard" -gt $((deepest + arguments)) ] || [ "$soft" -gt $((deepest + arguments)) ]; then
        echo "$entry: a call went deeper than deepest.awk says" >&2
        failed=1
    fi
done < <(join -a 1 -e 0 -o 0,1.2,2.2,2.3 "$work/deepest" "$work/measured")
row 'all entries' "$code" "" "" ""
echo
hold 'Code of all entries' "$code" $((128 * 1024)) $((512 * 1024)) flash
hold 'Deepest stack and fixed data' $((most + data + bss)) $((32 * 1024)) $((192 * 1024)) memory
exit $failed
