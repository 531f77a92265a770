"""Plans as people read them: the listing that the library writes (docs/FORMAT.md), with words for numbers.

A Names holds what qualifiers and names are called; a number that has no word is written q7 or c7, and a column of a scan as its
index. With no words at all the text is what the library writes, letter by letter."""
import re

from cpl import NO_FETCH, OPERATORS, Catalogue, children

SIGNS = ["+", "-", "*", "=", "<", "and", "or"]
FUNCTIONS = ["rows", "count", "sum", "min", "max"]
JOINS = ["inner", "left", "right", "full", "leftsemi", "leftanti", "rightsemi", "rightanti"]
TOKEN = re.compile(r"\s*([A-Za-z?][A-Za-z0-9-]*|-?\d+|[][(),.=+*<-])")


class Names:
    def __init__(self):
        self.qualifiers, self.names, self.tables, self.version, self.keys = {}, {}, [], 1, []

    def catalogue(self):
        return Catalogue(self.version, self.tables, self.keys)

    def columns(self, words):
        """The numbers of a table's names; c101..c356 is a row of them."""
        out = []
        for word in words:
            first, _, last = word.partition("..")
            numbers = [self.number(self.names, w, "c") for w in (first, last) if w]
            out += range(numbers[0], numbers[-1] + 1)
        return out

    def qualifier(self, q):
        return next((w for w, n in self.qualifiers.items() if n == q), f"q{q}")

    def name(self, n):
        return next((w for w, m in self.names.items() if m == n), f"c{n}")

    def column(self, table, i):
        """What column i of a table is called in a scan."""
        words = [w for w, n in self.names.items() if n == self.tables[table][i]] if self.names else []
        return words[0] if words else str(i)

    def number(self, words, word, letter):
        if word in words:
            return words[word]
        if re.fullmatch(letter + r"\d+", word):
            return int(word[1:])
        raise ValueError(f"no name {word}")


# ---- writing --------------------------------------------------------------------------------------------------------


def show_pair(p, names):
    return (names.qualifier(p[0]) + "." if p[0] else "") + names.name(p[1])


def show_expr(e, names):
    if e[0] == "as":
        return f"{show_expr(e[2], names)} as {show_pair(e[1], names)}"
    if e[0] == "column":
        return show_pair(e[1], names)
    if e[0] == "literal":
        return str(e[1])
    if e[0] == "missing":
        return "missing"
    if e[0] in ("not", "is-missing"):
        return f"({e[0]} {show_expr(e[1], names)})"
    return f"({show_expr(e[1], names)} {SIGNS[OPERATORS.index(e[0])]} {show_expr(e[2], names)})"


def show_list(parts):
    return "[" + ", ".join(parts) + "]"


def show_exprs(es, names):
    return show_list([show_expr(e, names) for e in es])


def show_keys(keys, names):
    words = lambda f: (" down" if f & 1 else "") + (" first" if f & 2 else "")
    return show_list([show_expr(e, names) + words(f) for f, e in keys])


def show_call(f, e, names, none):
    return f"{none if f == 0 else FUNCTIONS[f]}({'' if e is None else show_expr(e, names)})"


def show_head(p, names):
    kind = p[0]
    if kind == "projection":
        return f"projection {show_exprs(p[1], names)}"
    if kind == "filter":
        return f"filter {show_expr(p[1], names)}"
    if kind == "sort":
        return f"sort {show_keys(p[1], names)}"
    if kind == "limit":
        return f"limit {p[1]} {'none' if p[2] == NO_FETCH else p[2]}"
    if kind == "aggregate":
        measures = [f"{show_call(f, e, names, 'rows')} as {show_pair(q, names)}" for q, f, e in p[2]]
        return f"aggregate {show_exprs(p[1], names)} {show_list(measures)}"
    if kind == "window":
        calls = [f"{show_call(f, e, names, 'number')} by {show_exprs(by, names)} order {show_keys(keys, names)} "
                 f"as {show_pair(q, names)}" for q, f, by, keys, e in p[1]]
        return f"window {show_list(calls)}"
    if kind == "subqueryalias":
        return f"subqueryalias {names.qualifier(p[1])}"
    if kind == "join":
        on = show_list([f"{show_expr(l, names)} = {show_expr(r, names)}" for l, r in p[2]])
        return f"join {JOINS[p[1]]} on {on}" + ("" if p[3] is None else f" if {show_expr(p[3], names)}")
    if kind == "scan":
        columns = "" if p[3] is None else " " + show_list([names.column(p[1], i) for i in p[3]])
        return f"scan {p[1]} as {names.qualifier(p[2])}{columns}" + (f" where {show_exprs(p[4], names)}" if p[4] else "")
    if kind == "empty":
        return f"empty {'one-row ' if p[1] else ''}{show_list([show_pair(q, names) for q in p[2]])}"
    return kind


def show(p, names, level=0):
    return "  " * level + show_head(p, names) + "\n" + "".join(show(c, names, level + 1) for c in children(p))


# ---- reading --------------------------------------------------------------------------------------------------------


class Line:
    def __init__(self, text, names):
        self.words, self.at, self.names = TOKEN.findall(text), 0, names
        if "".join(self.words) != re.sub(r"\s", "", text):
            raise ValueError(f"unreadable: {text}")

    def peek(self):
        return self.words[self.at] if self.at < len(self.words) else None

    def next(self):
        self.at += 1
        return self.words[self.at - 1]

    def skip(self, word):
        if self.peek() != word:
            return False
        self.at += 1
        return True

    def need(self, word):
        if not self.skip(word):
            raise ValueError(f"{word} expected, {self.peek()} found in {self.words}")

    def list(self, part):
        self.need("[")
        out = []
        while not self.skip("]"):
            if out:
                self.need(",")
            out.append(part())
        return out

    def qualifier(self):
        return self.names.number(self.names.qualifiers, self.next(), "q")

    def name(self):
        return self.names.number(self.names.names, self.next(), "c")

    def pair(self):
        if self.at + 1 < len(self.words) and self.words[self.at + 1] == ".":
            q = self.qualifier()
            self.need(".")
            return (q, self.name())
        return (0, self.name())

    def expr(self):
        word = self.peek()
        if self.skip("("):
            if self.peek() in ("not", "is-missing"):
                e = (self.next(), self.expr())
                self.need(")")
                return e
            left = self.expr()
            sign = self.next()
            right = self.expr()
            self.need(")")
            return (OPERATORS[SIGNS.index(sign)], left, right)
        if self.skip("missing"):
            return ("missing",)
        if re.fullmatch(r"-?\d+", word):
            return ("literal", int(self.next()))
        return ("column", self.pair())

    def item(self):
        e = self.expr()
        return ("as", self.pair(), e) if self.skip("as") else e

    def key(self):
        e = self.expr()
        return ((1 if self.skip("down") else 0) + (2 if self.skip("first") else 0), e)

    def call(self):
        word = self.next()
        f = 0 if word == "number" else FUNCTIONS.index(word)
        self.need("(")
        e = self.expr() if f else None
        self.need(")")
        return f, e

    def measure(self):
        f, e = self.call()
        self.need("as")
        return (self.pair(), f, e)

    def window(self):
        f, e = self.call()
        self.need("by")
        by = self.list(self.expr)
        self.need("order")
        keys = self.list(self.key)
        self.need("as")
        return (self.pair(), f, by, keys, e)

    def on(self):
        left = self.expr()
        self.need("=")
        return (left, self.expr())

    def column(self, table):
        if self.peek().isdigit():
            return int(self.next())
        return self.names.tables[table].index(self.name())

    def head(self):
        """The parts of a node before its inputs, and how many inputs it has."""
        kind = self.next()
        if kind == "projection":
            return (kind, self.list(self.item)), 1
        if kind == "filter":
            return (kind, self.expr()), 1
        if kind == "sort":
            return (kind, self.list(self.key)), 1
        if kind == "limit":
            skip = int(self.next())
            return (kind, skip, NO_FETCH if self.skip("none") else int(self.next())), 1
        if kind == "aggregate":
            return (kind, self.list(self.item), self.list(self.measure)), 1
        if kind == "window":
            return (kind, self.list(self.window)), 1
        if kind == "subqueryalias":
            return (kind, self.qualifier()), 1
        if kind == "join":
            join = JOINS.index(self.next())
            self.need("on")
            return (kind, join, self.list(self.on), self.expr() if self.skip("if") else None), 2
        if kind == "scan":
            table = int(self.next())
            self.need("as")
            q = self.qualifier()
            columns = self.list(lambda: self.column(table)) if self.peek() == "[" else None
            return (kind, table, q, columns, self.list(self.expr) if self.skip("where") else []), 0
        if kind == "empty":
            return (kind, int(self.skip("one-row")), self.list(self.pair)), 0
        return (kind,), {"union": 2, "distinct": 1}[kind]


def plan(lines, names):
    """Takes a plan's lines from the front of the list."""
    line = Line(lines.pop(0), names)
    parts, inputs = line.head()
    if line.peek() is not None:
        raise ValueError(f"{line.peek()} after the end of {line.words}")
    return parts + tuple(plan(lines, names) for _ in range(inputs))


def descriptions(path):
    """The plans of a file as (file name, description, plan, Names)."""
    out, names, block = [], Names(), []

    def close():
        if block:
            title, lines = block[0], block[1:]
            p = plan(lines, names)
            if lines:
                raise ValueError(f"lines left: {lines}")
            file, _, description = title.partition(": ")
            if plan(show(p, names).splitlines(), names) != p:
                raise ValueError(f"{file}: the listing does not read back")
            out.append((file, description, p, names))
            block.clear()

    for text in open(path):
        text = text.rstrip()
        if not text.strip() or text.startswith("#"):
            continue
        if text.startswith("  "):
            block.append(text)
            continue
        close()
        words = text.split()
        if words[0] == "version":
            names.version = int(words[1])
        elif words[0] == "qualifiers":
            names = Names()
            names.qualifiers = {w: int(n) for w, n in (x.split("=") for x in words[1:])}
        elif words[0] == "names":
            names.names = {w: int(n) for w, n in (x.split("=") for x in words[1:])}
        elif words[0] == "table":
            names.tables.append(names.columns(words[1:]))
        elif words[0] == "key":
            table = int(words[1])
            names.keys.append((table, [names.tables[table].index(n) for n in names.columns(words[2:])]))
        else:
            block.append(text)
    close()
    return out
