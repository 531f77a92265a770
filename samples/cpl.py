"""Plans as tuples, to and from the file form of docs/FORMAT.md, both versions.

Expressions: ('column', pair), ('literal', n), ('missing',), ('not', e), ('is-missing', e), (operator, e, e) with the
operators of OPERATORS. Items: an expression of a bare column, or ('as', pair, e). Keys: (flags, e).
Plans: ('projection', items, p), ('filter', e, p), ('sort', keys, p), ('limit', skip, fetch, p),
('aggregate', items, [(pair, function, e or None)], p), ('window', [(pair, function, partition, keys, e or None)], p),
('subqueryalias', q, p), ('union', p, p), ('distinct', p), ('join', type, [(e, e)], e or None, p, p),
('scan', table, q, columns or None, filters), ('empty', one_row, pairs).
A Catalogue is what stands before the plan: the version, the names of each table's columns, and keys as (table, columns); version 1
has neither keys nor filters.
"""
import struct
from collections import namedtuple

Catalogue = namedtuple("Catalogue", "version tables keys")

OPERATORS = ["add", "subtract", "multiply", "equal", "less", "and", "or"]
NO_FETCH = 4294967295


def u16(n):
    return struct.pack("<H", n)


def u32(n):
    return struct.pack("<I", n)


def pair(p):
    return u16(p[0]) + u16(p[1])


def expr(e):
    if e[0] == "column":
        return b"\0" + pair(e[1])
    if e[0] == "literal":
        return b"\1" + struct.pack("<q", e[1])
    if e[0] == "missing":
        return b"\2"
    if e[0] == "not":
        return b"\3" + expr(e[1])
    if e[0] == "is-missing":
        return b"\4" + expr(e[1])
    if e[0] == "as":
        return b"\14" + pair(e[1]) + expr(e[2])
    return bytes([5 + OPERATORS.index(e[0])]) + expr(e[1]) + expr(e[2])


def many(parts):
    return bytes([len(parts)]) + b"".join(parts)


def wide(version, n):
    """A count or a column index: one byte in version 1, two in version 2."""
    return u16(n) if version == 2 else bytes([n])


def wide_many(version, parts):
    return wide(version, len(parts)) + b"".join(parts)


def exprs(es):
    return many([expr(e) for e in es])


def keys(ks):
    return many([bytes([flags]) + expr(e) for flags, e in ks])


def argument(e):
    return b"" if e is None else expr(e)


def children(p):
    if p[0] in ("scan", "empty"):
        return []
    return list(p[-2:]) if p[0] in ("union", "join") else [p[-1]]


def scan(version, table, q, columns, filters):
    read = b"\0" if columns is None else b"\1" + wide_many(version, [wide(version, i) for i in columns])
    assert version == 2 or not filters, "version 1 has no filters"
    return b"\13" + bytes([table]) + u16(q) + read + (exprs(filters) if version == 2 else b"")


def head(version, p):
    kind = p[0]
    if kind == "projection":
        return b"\1" + wide_many(version, [expr(e) for e in p[1]])
    if kind == "filter":
        return b"\2" + expr(p[1])
    if kind == "sort":
        return b"\3" + keys(p[1])
    if kind == "limit":
        return b"\4" + u32(p[1]) + u32(p[2])
    if kind == "aggregate":
        measures = [pair(q) + bytes([f]) + argument(e) for q, f, e in p[2]]
        return b"\5" + wide_many(version, [expr(e) for e in p[1]]) + wide_many(version, measures)
    if kind == "window":
        calls = [pair(q) + bytes([f]) + exprs(by) + keys(ks) + argument(e) for q, f, by, ks, e in p[1]]
        return b"\6" + wide_many(version, calls)
    if kind == "subqueryalias":
        return b"\7" + u16(p[1])
    if kind == "union":
        return b"\10"
    if kind == "distinct":
        return b"\11"
    if kind == "join":
        condition = b"\0" if p[3] is None else b"\1" + expr(p[3])
        return b"\12" + bytes([p[1]]) + many([expr(l) + expr(r) for l, r in p[2]]) + condition
    if kind == "scan":
        return scan(version, *p[1:])
    return b"\14" + bytes([p[1]]) + wide_many(version, [pair(q) for q in p[2]])


def plan_bytes(version, p):
    return head(version, p) + b"".join(plan_bytes(version, c) for c in children(p))


def write(catalogue, plan):
    version, tables, table_keys = catalogue
    assert version == 2 or not table_keys, "version 1 has no keys"
    out = b"CPL" + u16(version) + many([wide_many(version, [u16(n) for n in names]) for names in tables])
    if version == 2:
        out += many([bytes([table]) + wide_many(version, [u16(c) for c in columns]) for table, columns in table_keys])
    return out + plan_bytes(version, plan)


class Reader:
    """Reads files that were accepted; it refuses nothing by itself."""

    def __init__(self, data):
        self.data, self.at, self.version = data, 0, 1

    def take(self, n):
        self.at += n
        return self.data[self.at - n:self.at]

    def u8(self):
        return self.take(1)[0]

    def u16(self):
        return struct.unpack("<H", self.take(2))[0]

    def u32(self):
        return struct.unpack("<I", self.take(4))[0]

    def pair(self):
        return (self.u16(), self.u16())

    def many(self, part):
        return [part() for _ in range(self.u8())]

    def wide(self):
        return self.u16() if self.version == 2 else self.u8()

    def wide_many(self, part):
        return [part() for _ in range(self.wide())]

    def expr(self):
        tag = self.u8()
        if tag == 0:
            return ("column", self.pair())
        if tag == 1:
            return ("literal", struct.unpack("<q", self.take(8))[0])
        if tag == 2:
            return ("missing",)
        if tag in (3, 4):
            return (("not", "is-missing")[tag - 3], self.expr())
        if tag == 12:
            return ("as", self.pair(), self.expr())
        return (OPERATORS[tag - 5], self.expr(), self.expr())

    def key(self):
        return (self.u8(), self.expr())

    def argument(self, function):
        return self.expr() if function else None

    def measure(self):
        p, f = self.pair(), self.u8()
        return (p, f, self.argument(f))

    def call(self):
        p, f = self.pair(), self.u8()
        return (p, f, self.many(self.expr), self.many(self.key), self.argument(f))

    def plan(self):
        tag = self.u8()
        if tag == 1:
            return ("projection", self.wide_many(self.expr), self.plan())
        if tag == 2:
            return ("filter", self.expr(), self.plan())
        if tag == 3:
            return ("sort", self.many(self.key), self.plan())
        if tag == 4:
            return ("limit", self.u32(), self.u32(), self.plan())
        if tag == 5:
            return ("aggregate", self.wide_many(self.expr), self.wide_many(self.measure), self.plan())
        if tag == 6:
            return ("window", self.wide_many(self.call), self.plan())
        if tag == 7:
            return ("subqueryalias", self.u16(), self.plan())
        if tag == 8:
            return ("union", self.plan(), self.plan())
        if tag == 9:
            return ("distinct", self.plan())
        if tag == 10:
            kind, on = self.u8(), self.many(lambda: (self.expr(), self.expr()))
            return ("join", kind, on, self.expr() if self.u8() else None, self.plan(), self.plan())
        if tag == 11:
            table, q = self.u8(), self.u16()
            columns = self.wide_many(self.wide) if self.u8() else None
            return ("scan", table, q, columns, self.many(self.expr) if self.version == 2 else [])
        return ("empty", self.u8(), self.wide_many(self.pair))


def read(data):
    r = Reader(data)
    r.take(3)
    r.version = r.u16()
    tables = r.many(lambda: r.wide_many(r.u16))
    keys = r.many(lambda: (r.u8(), r.wide_many(r.u16))) if r.version == 2 else []
    return Catalogue(r.version, tables, keys), r.plan()
