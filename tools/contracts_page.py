#!/usr/bin/env python3
"""contracts_page.py CONTRACTS.PY OLD NEW: writes the last section of docs/DESIGN-PASS.md, what changed between the folders OLD and NEW, each with crates/.

CONTRACTS.PY is the kit's lister (port/contracts.py). The section is printed; it replaces the one that begins '## What changed, old and new'.
"""

import json
import subprocess
import sys


def code(text):
    return "`" + " ".join(text.split()).replace("`", "'") + "`"


def listed(title, lines):
    yield f"\n### {title}\n\n"
    yield "\n".join(lines) + "\n"


def clauses(old, new, word):
    if old == new:
        return
    for when, those in (("old", old), ("new", new)):
        for name, text in those:
            yield f"  - {when}: {code(f'{word} {name} {{ {text} }}')}"


def pairs(old, new):
    for when, those in (("old", old), ("new", new)):
        for text in those:
            yield f"  - {when}: {code(text)}"


def page(d):
    functions, definitions = d["functions"], d["definitions"]
    edits = d["edits and outputs"]
    yield "## What changed, old and new\n\n"
    yield "Read off the two trees by the kit's contracts.py and tools/contracts_page.py; spaces are squeezed. A clause of the new tree that says `lent columns.now` speaks of\n"
    yield "the record that the old one built from eight parameters, and `Formed` of it is the type's. By text alone: a function is found again at its place, else by its type and\n"
    yield "name in its crate, else anywhere with the same contract; what the tool can't find again stands among those that are gone, and the lists above say where it went.\n\n"
    yield f"Functions {functions[0]} and {functions[1]}; contracts the same in words {d['contracts the same']}, changed {len(d['contracts changed'])}; "
    yield f"signatures changed {len(d['signatures changed'])}; definitions and laws of specs/ the same {definitions['same']}, changed {len(definitions['changed'])}, "
    yield f"not found again by name {len(definitions['gone'])}; edits changed {len(edits['changed'])}, not found again in their crate {len(edits['gone'])}.\n"
    yield from listed("Functions that are not found again", [f"- {f}" for f in d["functions not found again"]])
    yield from listed("Definitions that are not found again", [f"- {crate} {name}" for crate, name in definitions["gone"]])
    yield from listed("Edits that are not found again in their crate", [f"- {' '.join(map(str, e))}" for e in edits["gone"]])
    lines = []
    for crate, name, old, new in definitions["changed"]:
        lines.append(f"- {crate} {name}")
        lines.extend(pairs(old, new))
    yield from listed("Definitions and laws whose words changed", lines)
    lines = []
    for crate, kind, name, old, new in d["ghost items and constants"]["changed"]:
        lines.append(f"- {crate} {kind} {name}")
        lines.extend(pairs(old, new))
    yield from listed("Type invariants, ghost fields, constants", lines)
    lines = []
    for name, old, new in d["signatures changed"]:
        lines.append(f"- {name}")
        lines.extend(pairs([old], [new]))
    yield from listed("Signatures", lines)
    lines = []
    for name, old_requires, old_ensures, new_requires, new_ensures in d["contracts changed"]:
        lines.append(f"- {name}")
        lines.extend(clauses(old_requires, new_requires, "requires"))
        lines.extend(clauses(old_ensures, new_ensures, "ensures"))
    yield from listed("Contracts", lines)


def main():
    lister, old, new = sys.argv[1:4]
    out = subprocess.run([sys.executable, lister, old, new, "--json"], check=True, capture_output=True, text=True).stdout
    sys.stdout.write("".join(page(json.loads(out))))


main()
