#!/usr/bin/env python3
"""Brings the repository's own names to today's spelling, after the kit's port.py.

usage: python3 respell.py                 at the top of the repository: renames by the table respell.tsv beside the script
       python3 respell.py --write-table   makes the table from the names that the crates declare, writes it, and renames
       python3 respell.py --table FILE    takes the table from FILE (with --write-table: writes it there)
       python3 respell.py --dry           says what it would do, and writes nothing
       python3 respell.py --check         renames nothing: says which imports name nothing, which names stand twice, what is left in old spelling

Types are in upper camel case, everything else in snake case. In a lemma's name a dash stays between two names, and a plain word takes `_`.
Words are changed where they are in scope: declared in the file or imported by it; fields after a dot and in record literals.
Files proofs/**/Proof.antt keep what they declare themselves. A second run changes nothing.
"""
import bisect
import collections
import glob
import os
import re
import sys

STOP = r"""\s(){}\[\],;."@`«»|"""
NAME = rf"[^{STOP}]+"
ARROWS = {"→", "=", "λ", ":", "←"}
KW = {"let", "in", "λ", "case", "of", "where", "rw", "use", "if", "then", "else", "module", "unfolding", "with", "pub", "abbrev", "unfoldable", "infixl", "infixr"}
RESERVED = KW | set(
    "result old new now entry exit record data open ruleset at simp search omega grind cc ground assumption elim absurd requires ensures invariant decreases"
    " ghost fn pub struct enum impl trait mod type const static match for while loop return break continue self Self super crate as ref mut true false arith".split()
)
# names that port.py or today's std spelled otherwise: a part of a lemma's name that names a word of std
WORDS = {"getD": "get_or", "get_d": "get_or"}
# decided by hand: old -> new (new "" keeps the old name)
FIXED = {
    "headAt": "head_of",  # the record Kept has the field head_at
    "isMade": "was_made",  # the records have the field is_made
    "search-of": "engine_search",  # beside searchOf
    "delta-at": "delta_of_segment",  # beside deltaAt
    "anyLeft": "any_left_of",  # a proof names the module of `any_left` any_left
    "get_d_any": "get_or_any",
    "getD-any": "get_or_any",
    "get_d_reverse": "get_or-reverse",
    "getD-reverse": "get_or-reverse",
}
DATA = {"List", "ℕ", "ℤ", "Bool", "Float", "Option", "Maybe", "Pair", "String", "Type", "Result", "Unit", "𝔹", "Word"}
PROOF = "/Proof.antt"


def blank(text, comments=True):
    """The text with comments and strings blanked, of the same length; and the spans of the comments."""
    out, spans, i, n = list(text), [], 0, len(text)

    def clear(a, b):
        for k in range(a, b):
            if out[k] != "\n":
                out[k] = " "

    while i < n:
        if text.startswith("--", i) and (i == 0 or text[i - 1] in " \n\t(){},;"):
            j = text.find("\n", i)
            j = n if j < 0 else j
            clear(i, j)
            spans.append((i, j))
            i = j
        elif text.startswith("{-", i):
            j = text.find("-}", i)
            j = n if j < 0 else j + 2
            clear(i, j)
            spans.append((i, j))
            i = j
        elif text[i] == '"':
            j = i + 1
            while j < n and text[j] not in '"\n':
                j += 2 if text[j] == "\\" else 1
            clear(i, min(j + 1, n))
            i = j + 1
        else:
            i += 1
    return "".join(out), spans


def blank_rt(text):
    out, spans, i, n = list(text), [], 0, len(text)

    def clear(a, b):
        for k in range(a, b):
            if out[k] != "\n":
                out[k] = " "

    while i < n:
        if text.startswith("//", i):
            j = text.find("\n", i)
            j = n if j < 0 else j
            clear(i, j)
            spans.append((i, j))
            i = j
        elif text[i] == '"':
            j = i + 1
            while j < n and text[j] != '"':
                j += 2 if text[j] == "\\" else 1
            clear(i, min(j + 1, n))
            i = j + 1
        else:
            i += 1
    return "".join(out), spans


Decl = collections.namedtuple("Decl", "file line indent mods name kind sig")
DECL = re.compile(rf"^(\s*)((?:(?:pub|abbrev|unfoldable|opaque|ghost)\s+)*)({NAME}(?:\s+{NAME})*)\s+:\s")
HEAD = re.compile(r"^(\s*)((?:(?:pub|abbrev|unfoldable|opaque)\s+)*)(record|data|ruleset)\s+([^\s{]+)")


def decls(path, text):
    code, _ = blank(text)
    lines = code.split("\n")
    stack, res = [], []
    for n, l in enumerate(lines):
        if not l.strip():
            continue
        ind = len(l) - len(l.lstrip())
        while stack and stack[-1][0] >= ind:
            stack.pop()
        m = HEAD.match(l)
        if m and m.group(3) == "record":
            s, q = l, n
            while "where" not in s and q - n < 8 and q + 1 < len(lines):
                q += 1
                s += " " + lines[q]
            if "where" not in s or ":" not in s:
                m = None
        if m:
            res.append(Decl(path, n + 1, ind, m.group(2).split(), m.group(4), "ruleset" if m.group(3) == "ruleset" else "type", ""))
            stack.append((ind, m.group(3)))
            continue
        if re.match(r"\s*module\s", l):
            stack.append((ind, "module"))
            continue
        m = DECL.match(l)
        if m:
            names = m.group(3).split()
            if not (set(names) & (KW | ARROWS)):
                parent = stack[-1][1] if stack else "top"
                sig, q = l[m.end():], n + 1
                while q < len(lines) and (not lines[q].strip() or len(lines[q]) - len(lines[q].lstrip()) > ind):
                    sig += " " + lines[q].strip()
                    q += 1
                res += [Decl(path, n + 1, ind, m.group(2).split(), x, parent, sig) for x in names]
                continue
        if re.search(r"(^|\s)where\s*$", l):
            stack.append((ind, "where"))
    return res


IMP = re.compile(r"(?m)^\s*(?:pub\s+|ghost\s+)*use\s+([^\s{;]+?)(?:\.\{([^}]*)\}|\s+as\s+([^\s;]+))?\s*;?\s*$")


def imports(text):
    for m in IMP.finditer(text):
        names = []
        for p in (m.group(2) or "").split(","):
            q = p.strip().split(" as ")
            if q[0]:
                names.append((q[0].strip(), q[1].strip() if len(q) > 1 else None))
        yield m.group(1), names, m.group(3)


def last_part(sig):
    """The type after the last arrow at depth 0."""
    depth, start = 0, 0
    for i, c in enumerate(sig):
        if c in "({[":
            depth += 1
        elif c in ")}]":
            depth -= 1
        elif c == "→" and depth == 0:
            start = i + 1
    return sig[start:].strip()


def outside(t):
    out, depth = "", 0
    for c in t:
        if c in "({[":
            depth += 1
        elif c in ")}]":
            depth -= 1
        elif depth == 0:
            out += c
    return out


def kind_of(d):
    if d.kind in ("type", "ruleset"):
        return d.kind
    if d.kind == "record":
        return "field"
    if d.kind == "data":
        return "constructor"
    r = last_part(d.sig)
    if re.search(r"(^|\s)Type [01]$", r):
        return "type"
    if "abbrev" in d.mods or "unfoldable" in d.mods:
        return "function"
    o = outside(r)
    if re.search(r"[≡≤<∈¬≢∉↔⊎×≥]", o):
        return "lemma"
    head = o.split()[0] if o.split() else ""
    return "function" if head in DATA or "/specs/" in d.file else "lemma"


def is_old(name, kind):
    if name.startswith("◌") or "◌" in name or name[0] in "«#":
        return False
    if "′" in name:
        return True
    if re.search(r"\w-\w", name):
        return True
    if kind == "type":
        return name[0].islower() or "_" in name
    return bool(re.search(r"[a-z0-9][A-Z]", name)) and name[0].islower()


def snake(part):
    if part in WORDS:
        return WORDS[part]
    if part[:1].isupper():
        return part
    return re.sub(r"(?<=[a-z0-9])([A-Z])", lambda m: "_" + m.group(1), part).lower() if re.search(r"[a-z0-9][A-Z]", part) else part


def respelled(name, kind, known):
    name = name.replace("′", "'")
    if name in FIXED:
        return FIXED[name] or name
    parts = [snake(p) for p in name.split("-")]
    if kind == "type":
        return "".join(w[:1].upper() + w[1:] for w in re.split(r"[-_]", "_".join(parts)))
    if kind != "lemma":
        if parts[0][:1].isupper() and len(parts[0]) > 1 and kind != "field":
            parts[0] = parts[0][0].lower() + parts[0][1:]
        return "_".join(parts)
    segs, i = [], 0
    while i < len(parts):
        for j in range(len(parts), i, -1):
            w = "_".join(parts[i:j])
            if w in known or j == i + 1:
                segs.append((w, w in known))
                i = j
                break
    out = segs[0][0]
    for (_, a), (w, b) in zip(segs, segs[1:]):
        out += ("-" if a and b else "_") + w
    return out


class Tree:
    def __init__(self):
        self.crates = sorted(c for c in os.listdir("crates") if os.path.isdir(os.path.join("crates", c, "src")))
        own = set(self.crates)
        self.antt = sorted(f for part in ("specs", "proofs") for f in glob.glob(f"crates/*/{part}/**/*.antt", recursive=True))
        self.rt = sorted(glob.glob("crates/*/src/**/*.rt", recursive=True))
        self.edits = sorted(glob.glob("crates/*/must-fail/*.edit"))
        self.docs = sorted(glob.glob("README.md") + glob.glob("docs/*.md") + glob.glob("crates/*/README.md"))
        self.text = {f: open(f, encoding="utf-8").read() for f in self.antt + self.rt + self.edits + self.docs}
        self.decls = {f: decls(f, self.text[f]) for f in self.antt}
        self.mod = {"Rattle." + f[len("crates/"):-len(".antt")].replace("/", "."): f for f in self.antt}
        self.own_imports, self.other_imports, self.aliases = {}, {}, {}
        for f in self.antt + self.rt:
            self.own_imports[f], self.other_imports[f], self.aliases[f] = [], set(), {}
            for path, names, al in imports(self.text[f]):
                p = path.split(".")
                mine = p[0] == "Rattle" and len(p) > 1 and p[1] in own
                if al:
                    self.aliases[f][al] = path if mine else ""
                if mine:
                    self.own_imports[f].append((path, names))
                else:
                    self.other_imports[f] |= {x for x, _ in names} | {y for _, y in names if y}


def is_proof(f):
    return f.endswith(PROOF)


def make_table(t):
    kinds = collections.defaultdict(collections.Counter)
    where = collections.defaultdict(set)
    known = collections.defaultdict(set)
    defs = {f: {d.name: kind_of(d) for d in t.decls[f]} for f in t.antt}
    names_of = {}  # names a file gives that a dash may join, in new spelling
    for f in t.antt:
        names_of[f] = set() if is_proof(f) else {respelled(n, k, ()) for n, k in defs[f].items() if k not in ("lemma", "ruleset")}
    for f in t.antt:
        if is_proof(f):
            continue
        scope = set(names_of[f]) | {x for x in t.other_imports[f] if "-" not in x}
        for path, names in t.own_imports[f]:
            g = t.mod.get(path)
            if g:
                scope |= names_of[g]
        for d in t.decls[f]:
            k = kind_of(d)
            if is_old(d.name, k) or d.name in FIXED:
                kinds[d.name][k] += 1
                where[d.name].add(f.split("/")[1])
                known[d.name] |= scope
        for path, names in t.own_imports[f]:
            g = t.mod.get(path)
            for x, al in names:
                if al and g:
                    k = defs[g].get(x, "function")
                    if k != "type" and al[0].isupper() and len(al) > 1 or is_old(al, k):
                        kinds[al]["alias-" + k] += 1
                        where[al].add(f.split("/")[1])
                        known[al] |= scope
    rows = {}
    for old in sorted(kinds):
        ks = kinds[old]
        k = sorted(ks, key=lambda x: (-ks[x], x))[0]
        if "lemma" in ks and len(ks) > 1 and "type" not in ks:
            k = "lemma" if ks["lemma"] * 2 > sum(ks.values()) else k
        base = k.replace("alias-", "")
        new = respelled(old, base, known[old] - {old})
        if new != old:
            rows[old] = (new, "+".join(sorted(ks)) + ("!fixed" if old in FIXED else ""), ",".join(sorted(where[old])))
    for old, new in FIXED.items():
        if new and old.startswith("get"):
            rows.setdefault(old, (new, "lemma!fixed", "deltas,edits"))
    return rows


def read_table(p):
    rows = {}
    with open(p, encoding="utf-8") as f:
        for l in f:
            if l.strip() and not l.startswith("#"):
                old, new, kind, where = l.rstrip("\n").split("\t")[:4]
                rows[old] = (new, kind, where)
    return rows


TOKEN = re.compile(NAME)
TOKEN_RT = re.compile(r"(?:[^\W]|[′])(?:[\w'′₀-₉]|-(?=\w))*")
TICKED = re.compile(r"`[^`\n]*`")


class Renamer:
    def __init__(self, t, rows):
        self.t, self.rows = t, rows
        self.count = collections.Counter()
        self.per = collections.Counter()
        self.loose = collections.Counter()
        self.fields = {o for o, (n, k, c) in rows.items() if "field" in k.split("!")[0].split("+")}

    def scope(self, f):
        """old -> new for the words of a file that are the repository's own."""
        rows, t = self.rows, self.t
        s = {}
        mine = {d.name for d in t.decls.get(f, ())}
        if not is_proof(f):
            for x in mine:
                if x in rows and rows[x][1] != "field":
                    s[x] = rows[x][0]
        for path, names in t.own_imports.get(f, ()):
            g = t.mod.get(path)
            if path.split(".")[-1] in ("Statement", "Tie", "Symbol", "Key", "Proof") or (g and is_proof(g)) or ".declared" in path:
                continue
            for x, al in names:
                if x in rows:
                    s[x] = rows[x][0]
                if al and al in rows and not is_proof(f):
                    s[al] = rows[al][0]
        return s

    def put(self, old, f, k=1):
        self.count[old] += k
        self.per[f] += k
        return self.rows[old][0]

    def comment(self, text, spans, f, s):
        """The renamed text of comments: a word with a capital in it anywhere, a word with a dash only between backticks."""
        edits = []
        for a, b in spans:
            ticks = [(a + m.start(), a + m.end()) for m in TICKED.finditer(text[a:b])]
            for m in TOKEN_RT.finditer(text, a, b):
                w = m.group(0)
                if w not in self.rows or self.rows[w][1] in ("field",):
                    continue
                if "-" not in w:
                    ok = w[0].islower() and not w.islower()
                else:
                    ok = any(x <= m.start() < y for x, y in ticks) and (w in s or s is None)
                if ok:
                    edits.append((m.start(), m.end(), w))
        return edits

    def antt(self, f, text):
        s = self.scope(f)
        code, spans = blank(text)
        mine = {d.name for d in self.t.decls.get(f, ())} if is_proof(f) else set()
        field_lines = {(d.line, d.name) for d in self.t.decls.get(f, ()) if kind_of(d) == "field"} if not is_proof(f) else set()
        starts = [0] + [m.end() for m in re.finditer("\n", text)]
        edits, braces = [], []
        pos = 0
        for m in re.finditer(rf"[(){{}}\[\]]|{NAME}", code):
            w = m.group(0)
            if w in "({[":
                rec = w == "{" and re.search(r"(^|[^\w'-])record(\s+(?:\S+|\([^{}]*\)))?\s*$", code[max(0, m.start() - 200):m.start()]) is not None
                braces.append(rec)
                continue
            if w in ")}]":
                if braces:
                    braces.pop()
                continue
            if "′" in w and w not in self.rows and not f.endswith("/none"):
                edits.append((m.start(), m.end(), None, w.replace("′", "'")))
                continue
            if w not in self.rows:
                continue
            new = self.rows[w][0]
            before = code[m.start() - 1] if m.start() else "\n"
            if before == "." and m.start() > 1 and code[m.start() - 2] not in " \n":
                k = m.start() - 1
                while k > 0 and code[k - 1] not in " \n\t({[,;":
                    k -= 1
                chain = [x for x in code[k:m.start() - 1].split(".") if x]
                root = chain[0] if chain else ")"
                if root in self.t.aliases.get(f, {}):
                    if len(chain) == 1 and self.t.aliases[f][root]:
                        g = self.t.mod.get(self.t.aliases[f][root])
                        if g and not is_proof(g) and any(d.name == w for d in self.t.decls[g]):
                            edits.append((m.start(), m.end(), w, new))
                    continue
                if root == "Rattle":
                    continue
                if w in self.fields:
                    made = is_proof(f) and (root == "c" or root.startswith("at-")) and not set(chain) & {"ensures", "requires", "invariant", "args", "holds", "cached"}
                    if made:
                        self.loose[(f, "step", w)] += 1
                        continue
                    edits.append((m.start(), m.end(), w, new))
                continue
            line = bisect.bisect_right(starts, m.start())
            after = code[m.end():m.end() + 4]
            prev = code[:m.start()].rstrip()[-1:]
            if w in self.fields and ((line, w) in field_lines or (braces and braces[-1] and re.match(r"\s*=(\s|$)", after) and prev in "{;")):
                edits.append((m.start(), m.end(), w, new))
                continue
            if w in s and w not in mine:
                edits.append((m.start(), m.end(), w, new))
                continue
            if w in self.fields and not is_proof(f) and self.in_record(f, line, w):
                edits.append((m.start(), m.end(), w, new))
                continue
            if w not in mine:
                self.loose[(f, "word", w)] += 1
        for a, b, w in self.comment(text, spans, f, s):
            edits.append((a, b, w, self.rows[w][0]))
        return self.apply(f, text, edits)

    def in_record(self, f, line, w):
        """A word in the body of the record that has it as a field."""
        for d in self.t.decls[f]:
            if d.name == w and kind_of(d) == "field" and d.line <= line <= d.line + 60:
                return True
        return False

    def apply(self, f, text, edits):
        out, last = [], 0
        for a, b, w, new in sorted(edits):
            out += [text[last:a], new]
            last = b
            if w is not None:
                self.put(w, f)
        return "".join(out) + text[last:]

    def rattle(self, f, text, s):
        code, spans = blank_rt(text)
        edits = []
        for m in TOKEN_RT.finditer(code):
            w = m.group(0)
            if w not in self.rows:
                continue
            dotted = m.start() and code[m.start() - 1] == "."
            if dotted and w in self.fields or not dotted and w in s:
                edits.append((m.start(), m.end(), w, self.rows[w][0]))
            elif re.search(r"(?m)ghost use [^\n]*$", code[code.rfind("\n", 0, m.start()) + 1:m.start()]) and w in s:
                edits.append((m.start(), m.end(), w, self.rows[w][0]))
            else:
                self.loose[(f, "rt", w)] += 1
        edits += [(a, b, w, self.rows[w][0]) for a, b, w in self.comment(text, spans, f, s)]
        return self.apply(f, text, edits)

    def edit_file(self, f, text):
        c = f.split("/")[1]
        s = {}
        for g in self.t.rt + self.t.antt:
            if g.split("/")[1] == c and not is_proof(g):
                s.update(self.scope(g))
        out = []
        for l in text.splitlines(keepends=True):
            if l.startswith(("#", "file:")):
                out.append(l)
                continue
            edits = []
            for m in TOKEN_RT.finditer(l):
                w = m.group(0)
                dotted = m.start() and l[m.start() - 1] == "."
                if w in self.rows and (dotted and w in self.fields or not dotted and w in s):
                    edits.append((m.start(), m.end(), w, self.rows[w][0]))
            out.append(self.apply(f, l, edits))
        return "".join(out)

    def doc(self, f, text):
        edits = []
        for m in re.finditer(r"(?m)^.*$", text):
            for a, b, w in self.comment(text, [(m.start(), m.end())], f, None if False else self.all_words()):
                edits.append((a, b, w, self.rows[w][0]))
        return self.apply(f, text, edits)

    def all_words(self):
        if not hasattr(self, "_all"):
            self._all = {o: n for o, (n, k, c) in self.rows.items() if k != "field"}
        return self._all

    def run(self):
        new = {}
        for f, text in self.t.text.items():
            if f.endswith(".antt"):
                r = self.antt(f, text)
            elif f.endswith(".rt"):
                r = self.rattle(f, text, self.scope(f))
            elif f.endswith(".edit"):
                r = self.edit_file(f, text)
            else:
                r = self.doc(f, text)
            if r != text:
                new[f] = r
        return new


PARAM = re.compile(r"(?:\b(?:let|for)\s+(?:mut\s+)?\(?([\w, ]+?)\)?\s*(?:=|:|\bin\b))|(?:[(,|]\s*(?:mut\s+)?(\w+)\s*:)")


def collisions(t, rows, r):
    """Words that would fall together: in a file a new word that is there already, or two old words with one new one."""
    found = []
    for f in t.antt:
        s = r.scope(f)
        code, _ = blank(t.text[f])
        there = set()
        for m in TOKEN.finditer(code):
            b = code[m.start() - 1:m.start()]
            if b == "." and code[m.start() - 2:m.start() - 1] not in (" ", "\n", ""):
                continue
            there.add(m.group(0))
        fields = {d.name for d in t.decls[f] if kind_of(d) == "field"}
        back = collections.defaultdict(set)
        for o, n in s.items():
            back[n].add(o)
            if n in RESERVED:
                found.append(("reserved", o, n, f))
            if n in there and n not in s:
                only_field = n in fields
                found.append(("field there" if only_field else "word there", o, n, f))
        for n, os_ in back.items():
            if len(os_) > 1:
                found.append(("two", " ".join(sorted(os_)), n, f))
        # fields of a record that fall together, or with a word that the record's body has
        fs = collections.defaultdict(set)
        for d in t.decls[f]:
            if kind_of(d) == "field":
                fs[rows[d.name][0] if d.name in rows else d.name].add(d.name)
        for n, os_ in fs.items():
            if len(os_) > 1:
                found.append(("two fields", " ".join(sorted(os_)), n, f))
            if any(o in rows for o in os_) and not is_proof(f):
                words = {d.name for d in t.decls[f] if kind_of(d) != "field"} | {a or y for _, ns in t.own_imports[f] for y, a in ns} | t.other_imports[f]
                if n in {s.get(w, w) for w in words if w not in os_}:
                    found.append(("field and word", " ".join(sorted(os_)), n, f))
    for f in t.rt:
        s = r.scope(f)
        code, _ = blank_rt(t.text[f])
        pieces = re.split(r"(?=\bfn\s+\w+)", code)
        for p in pieces:
            names = set()
            for m in PARAM.finditer(p):
                names |= {x.strip() for x in (m.group(1) or m.group(2) or "").split(",")}
            used = set(TOKEN_RT.findall(p))
            for o, n in s.items():
                if o in used and n in names:
                    found.append(("parameter", o, n, f + ":" + p.split("(")[0].strip()))
        items = set(re.findall(r"\b(?:struct|enum|fn|trait|type|mod)\s+(\w+)", code))
        for o, n in s.items():
            if n in RESERVED:
                found.append(("reserved", o, n, f))
            for i in items:
                if i.lower() == n.lower() and i != n:
                    found.append(("case", o, n, f))
                if i == n:
                    found.append(("same as the function (Rattle takes it)", o, n, f))
    for f in t.antt:  # names of one module that differ only in case
        low = collections.defaultdict(set)
        for d in t.decls[f]:
            if d.kind in ("top", "type") and not is_proof(f):
                low[(rows[d.name][0] if d.name in rows else d.name).lower()].add(d.name)
        for l, ns in low.items():
            if len(ns) > 1 and any(x in rows for x in ns):
                found.append(("case", " ".join(sorted(ns)), l, f))
    return sorted(set(found))


def settle(t, rows):
    """Gives a suffix to the words that would fall together: `_lem` to a lemma beside a function, `_of` else."""
    for _ in range(5):
        change = set()
        for what, olds, n, f in collisions(t, rows, Renamer(t, rows)):
            if what not in ("two", "word there", "reserved", "parameter", "field and word", "two fields"):
                continue
            olds = [o for o in olds.split() if o in rows]
            lemmas = [o for o in olds if "lemma" in rows[o][1]]
            change.add(sorted(lemmas or olds, key=lambda o: ("-" not in o, o))[0])
        if not change:
            return
        for o in change:
            n, k, w = rows[o]
            rows[o] = (n + ("_lem" if "lemma" in k else "_of"), k if "settled" in k else k + "!settled", w)


def check(t, rows):
    bad = collections.defaultdict(list)
    for f in t.antt + t.rt:
        for path, names in t.own_imports[f]:
            g = t.mod.get(path)
            if not g:
                last = path.split(".")
                if not any(x in path for x in (".declared", ".Statement", ".Tie", ".Symbol", ".Key", ".contracts")) and names and "/Proof.antt" not in f:
                    bad["no module"].append(f"{f}: {path}")
                continue
            have = {d.name for d in t.decls[g]}
            for m in re.finditer(r"(?m)^\s*pub use [^\s{]+\.\{([^}]*)\}", t.text[g]):
                have |= {p.split(" as ")[-1].strip() for p in m.group(1).split(",")}
            for x, al in names:
                if x not in have:
                    bad["import"].append(f"{f}: {path}.{x}")
    for f in t.antt:
        seen = collections.Counter((d.name) for d in t.decls[f] if d.indent == 0 and d.kind in ("top", "type", "ruleset"))
        for n, k in seen.items():
            if k > 1:
                bad["twice"].append(f"{f}: {n}")
        if not is_proof(f):
            for d in t.decls[f]:
                k = kind_of(d)
                if d.name in rows or is_old(d.name, k) and not (k == "lemma" and "-" in d.name and not re.search(r"[a-z0-9][A-Z]", re.sub(r"\b[A-Z]\w*", "", d.name))):
                    bad["old spelling"].append(f"{f}:{d.line}: {d.name} ({k})")
    return bad


def main(argv):
    if not os.path.isdir("crates"):
        sys.exit("respell: run it at the top of the repository")
    here = os.path.dirname(os.path.realpath(__file__))
    table = os.path.join(here, "respell.tsv")
    if "--table" in argv:
        table = argv[argv.index("--table") + 1]
    t = Tree()
    if "--check" in argv:
        bad = check(t, read_table(table) if os.path.exists(table) else {})
        for k, v in bad.items():
            print(f"{k}: {len(v)}")
            for x in v:
                print("   " + x)
        return
    if "--write-table" in argv:
        rows = make_table(t)
    elif os.path.exists(table):
        rows = read_table(table)
    else:
        sys.exit(f"respell: no {table}; --write-table makes it")
    rows = {o: r for o, r in rows.items() if o != r[0]}
    if "--write-table" in argv:
        settle(t, rows)
    r = Renamer(t, rows)
    hit = collisions(t, rows, r)
    new = r.run()
    if "--write-table" in argv and "--dry" not in argv:
        with open(table, "w", encoding="utf-8") as f:
            f.write("# old\tnew\tkind\tcrates\n")
            for o in sorted(rows):
                f.write("\t".join((o, *rows[o])) + "\n")
    if "--dry" not in argv:
        for f, x in new.items():
            with open(f, "w", encoding="utf-8") as out:
                out.write(x)
    kinds = collections.Counter(k for _, k, _ in rows.values())
    done = collections.Counter()
    for o, k in r.count.items():
        done[rows[o][1]] += k
    print(f"respell: {len(rows)} names, {sum(r.count.values())} replacements in {len(new)} files")
    for k in sorted(kinds):
        print(f"   {k}: {kinds[k]} names, {done[k]} replacements")
    print(f"respell: {len(hit)} places where words fall together")
    if "--quiet" not in argv:
        for x in hit:
            print("   " + "  ".join(x))
    if "--loose" in argv:
        print("respell: words of the table that are not in scope, and stay")
        for (f, k, w), n in sorted(r.loose.items()):
            print(f"   {k} {w} {n} {f}")


if __name__ == "__main__":
    main(sys.argv[1:])
