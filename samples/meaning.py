"""What a plan gives over the tables' contents: document 01's "Fields and meaning", with names alone and scan filters, on Python's unbounded
numbers; None is missing. A check by running, for the lessons; the proved meaning is crates/meaning."""
from functools import cmp_to_key

from cpl import NO_FETCH, children


def fields(p, tables):
    kind = p[0]
    if kind == "projection":
        return [e[1] for e in p[1]]
    if kind == "aggregate":
        return [e[1] for e in p[1]] + [m[0] for m in p[2]]
    if kind == "window":
        return fields(p[2], tables) + [w[0] for w in p[1]]
    if kind == "subqueryalias":
        return [(p[1], n) for _, n in fields(p[2], tables)]
    if kind == "join":
        left, right = fields(p[4], tables), fields(p[5], tables)
        return left if p[1] in (4, 5) else right if p[1] in (6, 7) else left + right
    if kind == "scan":
        names = tables[p[1]]
        return [(p[2], names[i]) for i in (range(len(names)) if p[3] is None else p[3])]
    if kind == "empty":
        return p[2]
    return fields(children(p)[0], tables)


def find(pair, fs):
    """The first field that fits: with a qualifier the exact pair, a name alone any field of that name."""
    return next(i for i, (q, n) in enumerate(fs) if n == pair[1] and pair[0] in (0, q))


def value(e, fs, row):
    op = e[0]
    if op == "as":
        return value(e[2], fs, row)
    if op == "column":
        return row[find(e[1], fs)]
    if op == "literal":
        return e[1]
    if op == "missing":
        return None
    a = value(e[1], fs, row)
    if op == "is-missing":
        return int(a is None)
    if op == "not":
        return None if a is None else int(a == 0)
    b = value(e[2], fs, row)
    if op == "and":
        return 0 if a == 0 or b == 0 else None if a is None or b is None else 1
    if op == "or":
        return 1 if a or b else None if a is None or b is None else 0
    if a is None or b is None:
        return None
    return {"add": a + b, "subtract": a - b, "multiply": a * b, "equal": int(a == b), "less": int(a < b)}[op]


def yes(v):
    return v is not None and v != 0


def by_keys(keys, fs):
    """Key for a stable sort: missings first only where the flag says so, also when descending."""
    def compare(r, s):
        for flags, e in keys:
            a, b = value(e, fs, r), value(e, fs, s)
            if a == b:
                continue
            if a is None or b is None:
                return -1 if (a is None) == bool(flags & 2) else 1
            return -1 if (a < b) != bool(flags & 1) else 1
        return 0
    return cmp_to_key(compare)


def function(f, e, fs, rows):
    if f == 0:
        return len(rows)
    present = [v for v in (value(e, fs, r) for r in rows) if v is not None]
    if f == 1:
        return len(present)
    return {2: sum, 3: min, 4: max}[f](present) if present else None


def groups(exprs, fs, rows):
    """The rows of each group, in order of first appearance."""
    out = {}
    for r in rows:
        out.setdefault(tuple(value(e, fs, r) for e in exprs), []).append(r)
    return out


def window(call, fs, rows):
    _, f, partition, keys, e = call
    out = [None] * len(rows)
    numbered = [row + [i] for i, row in enumerate(rows)]
    for part in groups(partition, fs, numbered).values():
        for n, r in enumerate(sorted(part, key=by_keys(keys, fs)), 1):
            out[r[-1]] = n if f == 0 else function(f, e, fs, part)
    return out


def join(p, left, right, lf, rf):
    def match(l, r):
        for a, b in p[2]:
            v = value(a, lf, l)
            if v is None or v != value(b, rf, r):
                return False
        return p[3] is None or yes(value(p[3], lf + rf, l + r))
    kind, no_left, no_right = p[1], [None] * len(lf), [None] * len(rf)
    if kind in (4, 5):
        return [l for l in left if any(match(l, r) for r in right) == (kind == 4)]
    if kind in (6, 7):
        return [r for r in right if any(match(l, r) for l in left) == (kind == 6)]
    out = []
    if kind == 2:
        for r in right:
            found = [l + r for l in left if match(l, r)]
            out += found or [no_left + r]
        return out
    for l in left:
        found = [l + r for r in right if match(l, r)]
        out += found or ([l + no_right] if kind in (1, 3) else [])
    if kind == 3:
        out += [no_left + r for r in right if not any(match(l, r) for l in left)]
    return out


def rows(p, tables, log):
    """log: for each table its rows, lists as long as the table's columns."""
    kind = p[0]
    below = [rows(c, tables, log) for c in children(p)]
    fs = [fields(c, tables) for c in children(p)]
    if kind == "projection":
        return [[value(e, fs[0], r) for e in p[1]] for r in below[0]]
    if kind == "filter":
        return [r for r in below[0] if yes(value(p[1], fs[0], r))]
    if kind == "sort":
        return sorted(below[0], key=by_keys(p[1], fs[0]))
    if kind == "limit":
        rest = below[0][p[1]:]
        return rest if p[2] == NO_FETCH else rest[:p[2]]
    if kind == "aggregate":
        parts = groups(p[1], fs[0], below[0]) if p[1] else {(): below[0]}
        return [list(key) + [function(f, e, fs[0], part) for _, f, e in p[2]] for key, part in parts.items()]
    if kind == "window":
        columns = [window(call, fs[0], below[0]) for call in p[1]]
        return [r + [c[i] for c in columns] for i, r in enumerate(below[0])]
    if kind == "union":
        return below[0] + below[1]
    if kind == "distinct":
        return [list(r) for r in dict.fromkeys(map(tuple, below[0]))]
    if kind == "join":
        return join(p, below[0], below[1], fs[0], fs[1])
    if kind == "scan":
        every = [(p[2], n) for n in tables[p[1]]]
        kept = [r for r in log[p[1]] if all(yes(value(e, every, r)) for e in p[4])]
        return [[r[i] for i in (range(len(every)) if p[3] is None else p[3])] for r in kept]
    if kind == "empty":
        return [[None] * len(p[2])] if p[1] else []
    return below[0]
