#!/usr/bin/env python3
"""Lists functions (and types) of a folder of Rattle crates that are twins.

    twins.py CRATES                 functions of the same body once called functions, literals and type names are a placeholder
    twins.py CRATES --alpha         the same, local names and parameters numbered in the order of their first use
    twins.py CRATES --calls         the same as --alpha, and a call's arguments that are names, fields, borrows or ranges of names are left out
    twins.py CRATES --near 0.9      pairs of functions whose --calls bodies are alike by that ratio (difflib) and not equal
    twins.py CRATES --types         structs and enums: one name declared twice, or the same field types in the same order
    twins.py CRATES --loops         counting loops by what they are: all, any, find, fill, fold, pack, other
    twins.py CRATES --columns       functions that take parallel columns, a buffer or a table with its length beside it
    twins.py CRATES --columns --names   the same, with their names
    twins.py CRATES --switches      matches whose arms call different functions, and parameters of one bool or number that choose one
    --min N                         least number of lines of a body (3)

A body's lines are those between its braces that aren't blank or comments, as they stand in the file.
"""
import argparse, difflib, glob, os, re, sys
from collections import defaultdict

TOKEN = re.compile(r'''
    (?P<comment>//[^\n]*)
  | (?P<string>b?"(?:\\.|[^"\\])*")
  | (?P<char>b?'(?:\\.|[^'\\\n])')
  | (?P<life>'[A-Za-z_]\w*)
  | (?P<number>\d[\d_]*(?:\.\d[\d_]*)?(?:[eE][+-]?\d+)?(?:f64|u8|u16|u32|u64|usize|i32|i64)?|0x[0-9a-fA-F_]+)
  | (?P<name>[A-Za-z_]\w*)
  | (?P<op>::|->|=>|==|!=|<=|>=|&&|\|\||\+=|-=|\*=|/=|<<|>>|\.\.=?|.)
''', re.X | re.S)
HEX = re.compile(r'0x[0-9a-fA-F_]+')
KEYWORDS = set('let mut if else while loop for in return break continue match as fn pub struct enum impl self crate use mod const ref move'.split())
PRIMITIVE = set('u8 u16 u32 u64 usize i8 i16 i32 i64 isize f32 f64 bool str char Self'.split())


def tokens_of(text):
    out, i = [], 0
    while i < len(text):
        m = HEX.match(text, i) or TOKEN.match(text, i)
        kind = m.lastgroup if m.lastgroup else 'number'
        if kind != 'comment' and not m.group().isspace():
            out.append((kind, m.group(), m.start()))
        i = m.end()
    return out


def closing(toks, i, opened='{', closed='}'):
    depth = 0
    while i < len(toks):
        if toks[i][1] == opened:
            depth += 1
        elif toks[i][1] == closed:
            depth -= 1
            if depth == 0:
                return i
        i += 1
    raise ValueError('no end')


def is_type(kind, text):
    return kind == 'name' and (text in PRIMITIVE or text[0].isupper())


class Function:
    pass


def functions_in(path, where):
    text = open(path, encoding='utf-8').read()
    toks = tokens_of(text)
    found, i, owner, owner_end = [], 0, '', -1
    while i < len(toks):
        if toks[i][1] == 'impl' and toks[i][0] == 'name' and i > owner_end and toks[i - 1][1] != '&':
            j = i
            while toks[j][1] != '{':
                j += 1
            owner = [t for k, t, _ in toks[i:j] if is_type(k, t)][-1] + '::'
            owner_end = closing(toks, j)
            i = j + 1
            continue
        if toks[i][1] == 'fn' and toks[i][0] == 'name' and toks[i + 1][0] == 'name':
            f = Function()
            f.name = (owner if i < owner_end else '') + toks[i + 1][1]
            f.where = where
            j = i + 2
            while toks[j][1] != '(':
                j += 1
            end = closing(toks, j, '(', ')')
            f.params = [t for _, t, _ in toks[j:end + 1]]
            j = end + 1
            while True:
                if toks[j][1] in ('requires', 'ensures', 'decreases'):
                    while toks[j][1] != '{':
                        j += 1
                    j = closing(toks, j) + 1
                    continue
                if toks[j][1] in ('{', ';'):
                    break
                if toks[j][1] == '[':
                    j = closing(toks, j, '[', ']')
                j += 1
            if toks[j][1] == ';':
                i = j + 1
                continue
            end = closing(toks, j)
            f.body = toks[j + 1:end]
            inner = text[toks[j][2] + 1:toks[end][2]]
            f.lines = sum(1 for line in inner.split('\n') if line.strip() and not line.strip().startswith('//'))
            f.line = text.count('\n', 0, toks[i][2]) + 1
            found.append(f)
            i = end + 1
            continue
        i += 1
    return found


def plain(body):
    """The body with called functions as F, types, variants and constants as T, literals as L; no comma before a closing bracket."""
    out, i = [], 0
    while i < len(body):
        kind, text, _ = body[i]
        if kind in ('number', 'string', 'char') or text in ('true', 'false'):
            out.append('L')
            i += 1
            continue
        if kind == 'name' and text not in KEYWORDS - {'crate', 'self'}:
            j, path = i, [text]
            while j + 2 < len(body) and body[j + 1][1] == '::' and body[j + 2][0] == 'name':
                path.append(body[j + 2][1])
                j += 2
            called = j + 1 < len(body) and body[j + 1][1] == '('
            after_dot = i > 0 and body[i - 1][1] == '.'
            if any(p[0].isupper() for p in path) or text in PRIMITIVE:
                out.append('T')
            elif called:
                out.append('F')
            elif len(path) > 1:
                out.append('T')
            elif after_dot:
                out.append('.' + text)
            else:
                out.append('$' + text)
            i = j + 1
            continue
        if text == ',' and i + 1 < len(body) and body[i + 1][1] in ')}]':
            i += 1
            continue
        out.append(text)
        i += 1
    return out


def numbered(toks):
    names, out = {}, []
    for t in toks:
        if t[0] == '$':
            t = names.setdefault(t, '$%d' % len(names))
        out.append(t)
    return out


def without_arguments(toks):
    """Call arguments that are names, fields, literals, borrows or ranges of these are left out; a call within a call is kept."""
    easy = lambda t: t[0] in '$.L' and t != '..' or t in ('&', 'mut', '..', '[', ']', ',', '.', '-', '+', '*', 'T')
    out, i = [], 0
    while i < len(toks):
        if toks[i] == 'F' and i + 1 < len(toks) and toks[i + 1] == '(':
            end = closing([(None, t, None) for t in toks], i + 1, '(', ')')
            inside = without_arguments(toks[i + 2:end])
            kept = ['F', '()'] if all(easy(t) or t in ('F', '()') for t in inside) and 'F' not in inside else None
            if kept is None:
                parts = [k for k in inside if not (easy(k) and k not in ('T',))]
                kept = ['F', '('] + parts + [')']
            out += kept
            i = end + 1
            continue
        out.append(toks[i])
        i += 1
    return out


def types_in(path, where):
    text = open(path, encoding='utf-8').read()
    toks = tokens_of(text)
    found = []
    for i, (kind, t, pos) in enumerate(toks):
        if kind == 'name' and t in ('struct', 'enum') and toks[i + 2][1] == '{':
            end = closing(toks, i + 2)
            inside = [x for x in toks[i + 3:end]]
            shape, fields = [], []
            if t == 'struct':
                j = 0
                while j < len(inside):
                    if inside[j][1] == 'pub':
                        j += 1
                    name = inside[j][1]
                    j += 2
                    typ, depth = [], 0
                    while j < len(inside) and not (inside[j][1] == ',' and depth == 0):
                        depth += inside[j][1] in '([' and inside[j][1] != ''
                        depth -= inside[j][1] in ')]' and inside[j][1] != ''
                        typ.append(inside[j][1])
                        j += 1
                    j += 1
                    fields.append(name)
                    shape.append(''.join(typ))
            else:
                shape = [x[1] if not (x[0] == 'name' and x[1][0].isupper() and (k == 0 or inside[k - 1][1] == ',')) else 'V'
                         for k, x in enumerate(inside)]
                shape = [s for k, s in enumerate(shape) if not (s == ',' and k + 1 == len(shape))]
                fields = [x[1] for k, x in enumerate(inside) if x[0] == 'name']
            found.append((t, toks[i + 1][1], tuple(shape), tuple(fields), where))
    return found


def blocks_after(word, raw):
    """Each block that a keyword leads: where the keyword stands, and the block's braces."""
    toks = [(None, t, None) for t in raw]
    for i, t in enumerate(raw):
        if t == word:
            j = raw.index('{', i)
            yield i, j, closing(toks, j)


def loop_kind(f):
    """The kind of each counting loop `while i < n { .. i += k; }` of a function."""
    raw = [t for _, t, _ in f.body]
    kinds = []
    for i, j, end in blocks_after('while', raw):
        head = raw[i + 1:j]
        inside, after = raw[j + 1:end], raw[end + 1:end + 3]
        text = ' '.join(inside)
        tail = ' '.join(raw[end + 1:])
        if 'return false' in text and tail == 'true':
            kinds.append('all')
        elif 'return true' in text and tail == 'false':
            kinds.append('any')
        elif re.search(r'return (\w+) ;', text) and re.search(r'return (\w+) ;', text).group(1) in head:
            kinds.append('find')
        elif re.search(r'\w+ \[ kept \] =', text):
            kinds.append('pack')
        elif re.search(r'\w+ \[ [^\]]* \] = ', text):
            kinds.append('fill')
        elif re.search(r'(\w+) (\+= |= [^;{]*)', text) and 'return' not in text:
            kinds.append('fold')
        else:
            kinds.append('other')
    return kinds


GROUPS = {
    'the day\'s columns (six or more of flags, service, ready, due, penalty, distances, times)':
        lambda s: len(s & {'flags', 'service', 'ready', 'due', 'penalty', 'distances', 'times'}) >= 6,
    'the day\'s table of distances with l beside it, without the other columns':
        lambda s: {'l', 'distances'} <= s and not {'service', 'ready'} <= s,
    'the fleet\'s columns (five or more)':
        lambda s: len(s & {'depots', 'capacities', 'distance_costs', 'fixed_costs', 'max_distances', 'max_durations', 'earliest', 'latest', 'durations'}) >= 5,
    'the table of lists (visits and lengths)': lambda s: {'visits', 'lengths'} <= s,
    'the plan of cross-depot (ids and costs beside lengths)': lambda s: {'lengths', 'ids', 'costs'} <= s,
    'the table of pairs (deltas and positions)': lambda s: {'deltas', 'positions'} <= s,
    'the insertion cache (figures and places)': lambda s: {'figures', 'places'} <= s,
    'what each list costs and loads (costs and loads)': lambda s: {'costs', 'loads'} <= s,
    'kept heads with how far they go (heads and reached)': lambda s: {'heads', 'reached'} <= s or {'heads1', 'reached1'} <= s,
    'cross-depot\'s room (sums and heads)': lambda s: {'sums', 'heads'} <= s,
    'a buffer with a count beside it': lambda s: {'buffer', 'count'} <= s,
    'a lent buffer': lambda s: 'buffer' in s and 'count' not in s,
    'a table with a count beside it': lambda s: 'count' in s and bool(s & {'marks', 'costs', 'costs1', 'skip'}),
    'bytes with a position beside them': lambda s: 'at' in s and bool(s & {'bytes', 'day', 'run', 'table'}),
}


def names_of(f):
    p = f.params
    return {p[i] for i in range(len(p) - 1) if p[i + 1] == ':' and p[i - 1] in ('(', ',', 'mut')}


def switches_in(f):
    """Matches whose arms are calls of different functions; parameters of type bool that choose a call by `if`."""
    raw = [t for _, t, _ in f.body]
    toks = [(None, t, None) for t in raw]
    found = []
    for i, j, end in blocks_after('match', raw):
        called, k = [], j + 1
        while k < end:
            if raw[k] == '=>':
                m = k + 1
                if raw[m] == '{':
                    stop = closing(toks, m) + 1
                    arm = raw[m + 1:stop - 1]
                else:
                    stop, depth = m, 0
                    while stop < end and not (raw[stop] == ',' and depth == 0):
                        depth += raw[stop] in '([{'
                        depth -= raw[stop] in ')]}'
                        stop += 1
                    arm = raw[m:stop]
                calls = [x for n, x in enumerate(arm[:-1]) if arm[n + 1] == '(' and x[0].islower() and x not in KEYWORDS]
                called.append(calls[0] if calls else None)
                k = stop
            k += 1
        names = {c for c in called if c}
        if len(names) > 1:
            found.append('match %s: %s' % (' '.join(raw[i + 1:j]), ', '.join(c or '-' for c in called)))
    p = f.params
    for i in range(len(p) - 2):
        if p[i + 1] == ':' and p[i + 2] == 'bool':
            text = ' '.join(raw)
            m = re.search(r'if (! )?%s \{ return ([^;]*) ;' % p[i], text)
            if m:
                found.append('if %s' % p[i])
            elif re.search(r'[(,] %s [,)]' % p[i], text):
                found.append('%s: bool handed on' % p[i])
    return found


def sources(folder):
    for path in sorted(glob.glob(os.path.join(folder, '*', 'src', '*.rt'))):
        parts = path.split(os.sep)
        yield path, '/'.join([parts[-3], parts[-2], parts[-1]])


def main():
    a = argparse.ArgumentParser(description=__doc__, formatter_class=argparse.RawDescriptionHelpFormatter)
    a.add_argument('crates')
    a.add_argument('--alpha', action='store_true')
    a.add_argument('--calls', action='store_true')
    a.add_argument('--near', type=float)
    a.add_argument('--types', action='store_true')
    a.add_argument('--loops', action='store_true')
    a.add_argument('--columns', action='store_true')
    a.add_argument('--switches', action='store_true')
    a.add_argument('--names', action='store_true')
    a.add_argument('--min', type=int, default=3)
    a = a.parse_args()
    if a.types:
        all_types = [t for path, where in sources(a.crates) for t in types_in(path, where)]
        by_name, by_shape = defaultdict(list), defaultdict(list)
        for t in all_types:
            by_name[t[1]].append(t)
            if len(t[2]) > 1:
                by_shape[(t[0], t[2])].append(t)
        print('%d types' % len(all_types))
        some = {n: ts for n, ts in by_name.items() if len(ts) > 1}
        print('%d names declared more than once, %d types' % (len(some), sum(map(len, some.values()))))
        for n, ts in sorted(some.items()):
            print('\n' + n)
            for t in ts:
                print('  %s: %s %s { %s }' % (t[4], t[0], t[1], ', '.join(t[3])))
        some = {n: ts for n, ts in by_shape.items() if len(ts) > 1}
        print('\n%d groups of the same field types, %d types' % (len(some), sum(map(len, some.values()))))
        for (kind, shape), ts in sorted(some.items(), key=lambda x: str(x[0])):
            print('\n%s of %s' % (kind, ' '.join(shape)))
            for t in ts:
                print('  %s: %s { %s }' % (t[4], t[1], ', '.join(t[3])))
        return
    every = [f for path, where in sources(a.crates) for f in functions_in(path, where)]
    if a.loops:
        by = defaultdict(list)
        for f in every:
            for kind in loop_kind(f):
                by[kind].append(f)
        print('%d while loops' % sum(map(len, by.values())))
        for kind, fs in sorted(by.items(), key=lambda x: -len(x[1])):
            print('\n%s: %d' % (kind, len(fs)))
            for f in fs:
                print('  %s:%d %s' % (f.where, f.line, f.name))
        return
    if a.columns:
        for name, test in GROUPS.items():
            fs = [f for f in every if test(names_of(f))]
            print('%4d  %s, in %d crates' % (len(fs), name, len({f.where.split('/')[0] for f in fs})))
            if a.names:
                for f in fs:
                    print('        %s:%d %s' % (f.where, f.line, f.name))
        print('%4d  functions of eight parameters or more, %d of twenty or more' %
              (sum(len(names_of(f)) >= 8 for f in every), sum(len(names_of(f)) >= 20 for f in every)))
        return
    if a.switches:
        n = 0
        for f in every:
            for what in switches_in(f):
                n += 1
                print('%s:%d %s: %s' % (f.where, f.line, f.name, what))
        print('%d places' % n)
        return
    kept = [f for f in every if f.lines >= a.min]
    for f in kept:
        f.toks = plain(f.body)
        if a.alpha or a.calls or a.near:
            f.toks = numbered(f.toks)
        if a.calls or a.near:
            f.toks = numbered(without_arguments(plain(f.body)))
    print('%d functions, %d with a body of %d lines or more' % (len(every), len(kept), a.min))
    if a.near:
        pairs = []
        for i, f in enumerate(kept):
            for g in kept[i + 1:]:
                n, m = len(f.toks), len(g.toks)
                if 2 * min(n, m) < a.near * (n + m) or min(n, m) < 12:
                    continue
                s = difflib.SequenceMatcher(None, f.toks, g.toks, autojunk=False)
                if s.quick_ratio() < a.near:
                    continue
                r = s.ratio()
                if a.near <= r < 1:
                    pairs.append((r, f, g))
        print('%d pairs' % len(pairs))
        for r, f, g in sorted(pairs, key=lambda p: -p[0]):
            print('%.2f  %s:%d %s  ~  %s:%d %s' % (r, f.where, f.line, f.name, g.where, g.line, g.name))
        return
    groups = defaultdict(list)
    for f in kept:
        groups[' '.join(f.toks)].append(f)
    groups = sorted((g for g in groups.values() if len(g) > 1), key=lambda g: (-len(g), g[0].where))
    print('%d groups, %d functions in them' % (len(groups), sum(map(len, groups))))
    for g in groups:
        print('\n%d functions of %s lines' % (len(g), '/'.join(sorted({str(f.lines) for f in g}, key=int))))
        for f in g:
            print('  %s:%d %s' % (f.where, f.line, f.name))


main()
