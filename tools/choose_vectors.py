#!/usr/bin/env python3
"""tools/choose_vectors.py [FOLDER [OUT]]: writes crates/replay/stdin and crates/replay/stdout, or stdin and stdout of the folder OUT.

The vectors that the gate replays: cases made by hand from documents 01 and 02, then a choice of the lines of library.txt, bare.txt, version2.txt and
keys.txt of FOLDER (../shared/vectors), then the answers of the Rust's own texts (oracle/answers.txt, made by oracle/answers), then a choice of the
lines of check-bare.txt and check-v2.txt.

By hand. Each case below has the answer that the documents give, written down beside it, never computed by code of this project: a
result is spelled out as bytes, a refusal as code and place. A file is a list of fields, so that an offset is the sum of the sizes before it.

Choice. Lines are looked at short ones first. A line is taken where it has a trait of which fewer than the
wanted number were taken. Traits: its code (12 of each, so all where there are fewer); the field at which it is refused (2); each node kind in
the file and in the result of a success (6 each), join type, function, expression tag, keys and filters (3 each); a count at its limit; mode, mask and
request with the code (2); no room to spare, or one byte too little (5 each). Of the checks: its code (8); the field at which it is refused (1); each node
kind in an accepted file and at a refusal (1); a count at its limit; the most and the fewest nodes and fields. The tables CHOICES and CHECKS lower these
numbers and say how long a line may be: the program replay reads less than 524,288 bytes.
"""
import sys
from pathlib import Path

ROOT = Path(__file__).resolve().parent.parent
ROOM = 65536


# ── pieces of plan files ──────────────────────────────────────────────────────────────────────


def u8(x):
    return bytes([x])


def u16(x):
    return x.to_bytes(2, 'little')


def u32(x):
    return x.to_bytes(4, 'little')


def join(*parts):
    return b''.join(parts)


MARK = b'CPL' + u16(1)
NO_TABLES = MARK + u8(0)  # 6 bytes: the plan starts at 6
ONE_NAME = MARK + u8(1) + u8(1) + u16(1)  # 9 bytes: one table of one column
HEADER = MARK + u8(1) + u8(3) + u16(1) + u16(2) + u16(3)  # 13 bytes: document 01's table 0 with names 1, 2, 3


def pair(q, n):
    return u16(q) + u16(n)


def col(q, n):
    return u8(0) + pair(q, n)


def lit(x):
    return u8(1) + x.to_bytes(8, 'little')


MISSING = u8(2)


def alias(q, n, e):
    return u8(12) + pair(q, n) + e


def add(x, y):
    return u8(5) + x + y


def equal(x, y):
    return u8(8) + x + y


def projection(*items):
    return u8(1) + u8(len(items)) + join(*items)


def filter_(e):
    return u8(2) + e


def limit(skip, fetch):
    return u8(4) + u32(skip) + u32(fetch)


UNION = u8(8)
DISTINCT = u8(9)


def aggregate(groups, aggs):
    return u8(5) + u8(len(groups)) + join(*groups) + u8(len(aggs)) + join(*aggs)


def join_on(kind, pairs=(), condition=None):
    on = join(*[x + y for x, y in pairs])
    return u8(10) + u8(kind) + u8(len(pairs)) + on + (u8(0) if condition is None else u8(1) + condition)


def scan(columns=None, table=0, q=1):
    head = u8(11) + u8(table) + u16(q)
    return head + (u8(0) if columns is None else u8(1) + u8(len(columns)) + bytes(columns))


def empty(pairs=(), one_row=0):
    return u8(12) + u8(one_row) + u8(len(pairs)) + join(*pairs)


# Document 01's letters, as docs/DECISIONS.md chooses them.
S = scan()
A, B, C = col(1, 1), col(1, 2), col(1, 3)
X, Y, Z = (0, 7), (0, 8), (0, 9)
B_IS_5 = filter_(equal(B, lit(5)))


# ── cases made by hand ────────────────────────────────────────────────────────────────────────

cases = []


def case(mode, mask, room, request, file, code, place, out):
    asked = '*' if request is None else ','.join(map(str, request)) or '-'
    cases.append(f'{mode} {mask} {room} {asked} {file.hex() or "-"} => {code} {len(out)} {place} {out.hex() or "-"}')


def gives(out, file, request=None, mode=1, mask=0, room=ROOM):
    case(mode, mask, room, request, file, 0, 0, out)


def refused(code, place, file, request=None, mode=1, mask=0, room=ROOM):
    case(mode, mask, room, request, file, code, place, b'')


def settings_and_marks():
    refused(2, 0, b'')
    refused(3, 5, MARK)
    refused(2, 0, MARK[:4])
    refused(2, 0, MARK[:1])
    for mark in (b'cpl\x01\x00', b'CPM\x01\x00', b'DPL\x01\x00', b'CPL\x00\x00', b'CPL\x03\x00', b'CPL\x01\x01', b'CPL\x02\x01', b'\x00' * 5):
        refused(2, 0, mark)
        refused(2, 0, mark + HEADER[5:] + S)
    for mode, mask in ((2, 0), (255, 0), (0, 4096), (1, 65535), (2, 4096)):
        refused(1, 0, b'', mode=mode, mask=mask)
        refused(1, 0, HEADER + S, [1, 1], mode=mode, mask=mask, room=0)
    for mode in (0, 1):
        gives(HEADER + scan([0, 1, 2]), HEADER + S, mode=mode, mask=4095)


def samples():
    for room in (ROOM, 20):
        gives(HEADER + scan([0]), HEADER + projection(A) + S, room=room)  # S1
    # "output shorter than the result": 13 bytes of catalogue and 7 of the scan
    for room in (0, 1, 19):
        refused(13, 20, HEADER + projection(A) + S, room=room)
    # S2
    top = projection(alias(*X, A)) + B_IS_5
    gives(HEADER + top + scan([0, 1]), HEADER + top + S)
    # S3
    sum_b, max_c = pair(*X) + u8(2) + B, pair(*Y) + u8(4) + C
    gives(HEADER + limit(0, 3) + aggregate([A], [max_c]) + scan([0, 2]), HEADER + limit(0, 3) + aggregate([A], [sum_b, max_c]) + S, [2])
    # S4
    gives(HEADER + empty(one_row=1), HEADER + aggregate([], [pair(*X) + u8(0)]) + S, [])
    # S5
    rows = u8(6) + u8(1) + pair(*X) + u8(0) + u8(1) + A + u8(1) + u8(0) + B
    gives(HEADER + scan([0]), HEADER + rows + S, [0])
    gives(HEADER + rows + scan([0, 1]), HEADER + rows + S, [3])
    # S6
    gives(HEADER + scan([2]), HEADER + scan([2, 0]), [0])
    # S7
    y_1 = projection(alias(*Y, add(col(*Y), lit(1))))
    a_y = projection(alias(*Y, A))
    once = projection(alias(*Y, add(A, lit(1))))
    twice = projection(alias(*Y, add(add(A, lit(1)), lit(1))))
    gives(HEADER + once + scan([0]), HEADER + y_1 + y_1 + a_y + S, mode=0)
    gives(HEADER + twice + scan([0]), HEADER + y_1 + y_1 + a_y + S, mode=1)
    # S8
    y_y = projection(alias(*Z, add(col(*Y), col(*Y))))
    a_1 = add(A, lit(1))
    gives(HEADER + y_y + once + scan([0]), HEADER + y_y + once + S)
    gives(HEADER + projection(alias(*Z, add(a_1, a_1))) + scan([0]), HEADER + y_y + once + S, mask=32)


def requests():
    refused(11, 1, HEADER + S, [1, 1])
    for place, request in ((0, [3]), (0, [65535]), (1, [0, 3]), (1, [2, 1]), (2, [0, 1, 1]), (2, [0, 2, 1, 9]), (3, [0, 1, 2, 3])):
        refused(11, place, HEADER + S, request)
        refused(11, place, HEADER + S, request, room=0)  # before ROOM
    gives(HEADER + scan([]), HEADER + S, [])
    gives(HEADER + scan([1]), HEADER + S, [1])
    gives(HEADER + scan([0, 1, 2]), HEADER + S, [0, 1, 2])
    gives(HEADER + B_IS_5 + scan([0, 1]), HEADER + B_IS_5 + S, [0])
    # beneath the filter a and b are asked for and Distinct keeps all three: topped up
    gives(HEADER + B_IS_5 + projection(A, B) + DISTINCT + scan([0, 1, 2]), HEADER + B_IS_5 + DISTINCT + S, [0])


def counts_of_fields():
    def many(k, q):
        return empty([pair(q, i + 1) for i in range(k)])

    row_number = u8(6) + u8(1) + pair(0, 200) + u8(0) + u8(0) + u8(0)
    for file in (join_on(0) + many(127, 1) + many(1, 2), row_number + many(127, 1), many(128, 1)):
        gives(NO_TABLES + file, NO_TABLES + file)
    refused(10, 0, NO_TABLES + join_on(0) + many(128, 1) + many(1, 2))
    refused(10, 0, NO_TABLES + row_number + many(128, 1))
    refused(10, 1, NO_TABLES + DISTINCT + join_on(3) + many(1, 1) + many(128, 2))
    # 128 fields of one side: a semi join's own fields are counted; nothing is asked of the other side, which is topped up with no items
    gives(NO_TABLES + join_on(4) + many(128, 1) + projection() + many(1, 2), NO_TABLES + join_on(4) + many(128, 1) + many(1, 2))
    wide = MARK + u8(1) + u8(64) + join(*[u16(i + 1) for i in range(64)])
    every = list(range(64))
    gives(wide + join_on(0) + scan(every) + scan(every, q=2), wide + join_on(0) + scan() + scan(q=2))
    refused(10, 0, wide + join_on(0) + join_on(0) + scan() + scan(q=2) + scan([0], q=3))


def limits_of_a_file():
    # 256 nodes; the 257th at offset 6 + 256, before its value, after a cut
    gives(NO_TABLES + DISTINCT * 255 + empty(), NO_TABLES + DISTINCT * 255 + empty())
    refused(5, 262, NO_TABLES + DISTINCT * 256 + empty())
    refused(5, 262, NO_TABLES + DISTINCT * 256 + u8(99))
    refused(3, 262, NO_TABLES + DISTINCT * 256)
    # 4,096 tags; the 4,097th at offset 7 + 4096
    gives(NO_TABLES + filter_(u8(3) * 4095 + MISSING) + empty(), NO_TABLES + filter_(u8(3) * 4095 + MISSING) + empty())
    refused(5, 4103, NO_TABLES + filter_(u8(3) * 4096 + MISSING) + empty())
    # 16 tables, 64 columns
    gives(MARK + u8(16) + bytes(16) + empty(), MARK + u8(16) + bytes(16) + empty())
    for count in (17, 255):
        refused(5, 5, MARK + u8(count) + bytes(count) + empty())
    refused(5, 6, MARK + u8(1) + u8(65) + join(*[u16(i + 1) for i in range(65)]) + S)
    refused(5, 9, MARK + u8(2) + u8(1) + u16(1) + u8(255))


def large():
    """Each step of [y+y as y] doubles: with k of them alias, 2^k - 1 sums and 2^k columns, 2^(k+1) tags. House mode merges them with mask 32."""
    y_y = projection(alias(*Y, add(col(*Y), col(*Y))))
    a_y = projection(alias(*Y, A))

    def tree(k, leaf):
        return leaf if k == 0 else add(tree(k - 1, leaf), tree(k - 1, leaf))

    refused(12, 0, HEADER + y_y * 12 + a_y + S, mask=32)  # 8,192 tags
    refused(12, 0, HEADER + y_y * 11 + a_y + S, mask=32)  # 4,096 tags, and the two of [a as y] stay beneath
    refused(12, 0, HEADER + y_y * 12 + a_y + S, mask=32, room=0)  # before ROOM
    refused(11, 0, HEADER + y_y * 12 + a_y + S, [1], mask=32)  # after REQUEST
    gives(HEADER + projection(alias(*Y, tree(11, A))) + scan([0]), HEADER + y_y * 11 + a_y + S, mask=33)
    gives(HEADER + projection(alias(*Y, tree(3, col(*Y)))) + a_y + scan([0]), HEADER + y_y * 3 + a_y + S, mask=32)
    # crate mode: equal lists fold into one
    gives(HEADER + y_y + a_y + scan([0]), HEADER + y_y * 12 + a_y + S, mode=0, mask=32)
    gives(HEADER + projection(alias(*Y, add(A, A))) + scan([0]), HEADER + y_y * 12 + a_y + S, mode=0, mask=33)


def values():
    """A wrong value and a count above its limit, each at its field's offset. The plan starts at 6."""
    for tag in (0, 13, 255):
        refused(4, 6, NO_TABLES + u8(tag))
    for code, place, plan in (
        # names and qualifiers that may not be 0
        (4, 11, empty([pair(5, 0)])),
        (4, 15, empty([pair(5, 1), pair(0, 0)])),
        (4, 7, u8(7) + u16(0) + empty()),
        (4, 10, filter_(col(1, 0)) + empty()),
        (4, 11, projection(alias(0, 0, MISSING)) + empty()),
        (4, 11, aggregate([], [pair(0, 0) + u8(0)]) + empty()),
        (4, 10, u8(6) + u8(1) + pair(0, 0) + u8(0) + u8(0) + u8(0) + empty()),
        # tags of expressions and items
        (4, 7, filter_(u8(13)) + empty()),
        (4, 7, filter_(alias(*X, MISSING)) + empty()),
        (4, 13, projection(alias(*X, alias(*X, MISSING))) + empty()),
        (4, 8, projection(lit(1)) + empty()),
        (4, 8, aggregate([MISSING], []) + empty()),
        # counts
        (5, 7, u8(1) + u8(129)),
        (4, 7, u8(3) + u8(0) + empty()),
        (5, 7, u8(3) + u8(17)),
        (4, 8, aggregate([], []) + empty()),
        (5, 7, u8(5) + u8(129)),
        (5, 8, u8(5) + u8(0) + u8(129)),
        (4, 7, u8(6) + u8(0) + empty()),
        (5, 7, u8(6) + u8(129)),
        (5, 13, u8(6) + u8(1) + pair(*X) + u8(0) + u8(17)),
        (5, 14, u8(6) + u8(1) + pair(*X) + u8(0) + u8(0) + u8(17)),
        (5, 8, u8(10) + u8(0) + u8(17)),
        (5, 8, u8(12) + u8(0) + u8(129)),
        # flags, functions, types
        (4, 8, u8(3) + u8(1) + u8(4) + MISSING + empty()),
        (4, 13, aggregate([], [pair(*X) + u8(5) + MISSING]) + empty()),
        (4, 12, u8(6) + u8(1) + pair(*X) + u8(5)),
        (4, 15, u8(6) + u8(1) + pair(*X) + u8(0) + u8(0) + u8(1) + u8(4)),
        (4, 7, join_on(8) + empty() + empty()),
        (4, 9, u8(10) + u8(0) + u8(0) + u8(2)),
        (4, 7, empty(one_row=2)),
        (4, 7, scan()),
    ):
        refused(code, place, NO_TABLES + plan)
    # names of tables; a scan's parts, with one table of one column: the plan starts at 9
    refused(4, 7, MARK + u8(1) + u8(1) + u16(0))
    refused(4, 9, MARK + u8(1) + u8(2) + u16(1) + u16(0))
    refused(4, 10, ONE_NAME + scan(table=1))
    refused(4, 11, ONE_NAME + scan(q=0))
    refused(4, 13, ONE_NAME + scan()[:-1] + u8(2))
    refused(4, 15, ONE_NAME + scan([1]))
    refused(4, 16, ONE_NAME + scan([0, 1]))
    refused(5, 14, ONE_NAME + scan()[:-1] + u8(1) + u8(65))
    # bytes after the plan
    for tail in (b'\x00', b'CPL'):
        refused(6, 18, HEADER + S + tail)
        refused(6, 9, NO_TABLES + empty() + tail)


def cuts():
    """A plan of every node kind, field by field; cut before each field and before its last byte."""
    p = [u16(1), u16(1)]  # a pair is two fields
    a = [u8(0)] + p
    call = p + [u8(2)] + a
    catalogue = [u8(1), u8(2), u16(1), u16(2)]
    plan = (
        [u8(1), u8(2)] + a + [u8(12)] + p + a  # Projection: an item of tag 0, one of tag 12
        + [u8(2), u8(8)] + a + [u8(1), bytes(8)]  # Filter: equal, a column, a literal
        + [u8(3), u8(1), u8(0), u8(3), u8(2)]  # Sort: a key of not missing
        + [u8(4), u32(0), u32(1)]  # Limit
        + [u8(5), u8(1)] + a + [u8(1)] + call  # Aggregate
        + [u8(6), u8(1)] + p + [u8(2), u8(1)] + a + [u8(1), u8(0)] + a + a  # Window: a part, a key, a column
        + [u8(7), u16(1)]  # SubqueryAlias
        + [u8(8), u8(9)]  # Union of Distinct, and what follows
        + [u8(12), u8(0), u8(1)] + p  # Empty
        + [u8(10), u8(0), u8(1)] + a + a + [u8(1)] + a  # Join: a pair of columns, a condition
        + [u8(11), u8(0), u16(1), u8(0)]  # Scan of all columns
        + [u8(11), u8(0), u16(1), u8(1), u8(1), u8(1)]  # Scan of one
    )
    file = MARK
    for field in catalogue + plan:
        refused(3, len(file), file)
        if len(field) > 1:
            refused(3, len(file), file + field[:-1])
        file += field


def acceptance():
    refused(7, 0, NO_TABLES + empty([pair(0, 1), pair(0, 1)]))
    refused(7, 0, NO_TABLES + empty([pair(0, 1), pair(5, 1)]))
    refused(7, 0, NO_TABLES + empty([pair(5, 1), pair(4, 2), pair(0, 1)]))
    gives(NO_TABLES + empty([pair(4, 1), pair(5, 1)]), NO_TABLES + empty([pair(4, 1), pair(5, 1)]))
    refused(7, 0, HEADER + scan([0, 0]))
    refused(7, 2, HEADER + DISTINCT + limit(0, 1) + scan([1, 2, 1]))
    refused(7, 0, HEADER + u8(7) + u16(9) + join_on(0) + S + scan(q=2))  # both names 1 become (9, 1)
    for kind in range(8):
        refused(7, 0, HEADER + join_on(kind) + S + S)
        refused(7, 1, HEADER + DISTINCT + join_on(kind) + S + S)
    refused(8, 0, HEADER + filter_(col(1, 9)) + S)
    refused(8, 1, HEADER + projection(A) + filter_(col(2, 1)) + S)
    refused(8, 0, HEADER + join_on(0, [(col(2, 1), col(1, 1))]) + S + scan(q=2))  # each half in its own side
    refused(8, 0, HEADER + join_on(4, [(A, A)]) + S + scan(q=2))
    refused(8, 0, HEADER + join_on(0, (), col(3, 1)) + S + scan(q=2))
    # the condition in both sides: kept as it is, with the columns that it names
    both = join_on(4, (), equal(A, col(2, 2)))
    gives(HEADER + both + scan([0, 1, 2]) + scan([1], q=2), HEADER + both + S + scan(q=2))
    refused(9, 0, HEADER + UNION + S + scan([0]))
    refused(9, 1, HEADER + DISTINCT + UNION + S + empty())
    # by place, not by name: the second input's old projection at the request
    gives(HEADER + UNION + scan([0]) + scan([1]), HEADER + UNION + S + scan([1, 0, 2]), [0])
    # children first, left before right
    refused(8, 1, HEADER + UNION + filter_(col(1, 9)) + S + scan([0, 0]))
    refused(7, 1, HEADER + UNION + scan([0, 0]) + filter_(col(1, 9)) + S)
    refused(8, 2, HEADER + filter_(col(1, 9)) + filter_(col(1, 8)) + filter_(col(1, 7)) + S)
    # after the whole reading: a tail, then UNKNOWN, then REQUEST
    refused(6, 18 + 6, HEADER + filter_(col(1, 9)) + S + u8(0))
    refused(8, 0, HEADER + filter_(col(1, 9)) + S, [1, 1])


def checks():
    """Of `check`: the number of nodes and of the root's fields, or a refusal with neither."""

    def found(nodes, fields, file):
        cases.append(f'{file.hex()} => 0 0 {nodes} {fields}')

    def faulty(code, place, file):
        cases.append(f'{file.hex() or "-"} => {code} {place} 0 0')

    found(1, 3, HEADER + S)
    found(2, 1, HEADER + projection(A) + S)  # the root's, not the scan's
    found(2, 2, HEADER + projection(alias(*X, A), alias(*Y, A)) + scan([0]))
    found(3, 2, HEADER + UNION + scan([0, 1]) + scan([2, 0]))
    for kind, fields in enumerate((4, 4, 4, 4, 3, 3, 1, 1)):
        found(3, fields, HEADER + join_on(kind) + S + scan([0], q=2))
    found(256, 0, NO_TABLES + DISTINCT * 255 + empty())
    found(1, 128, NO_TABLES + empty([pair(1, i + 1) for i in range(128)]))
    faulty(2, 0, b'')
    faulty(3, 5, MARK)
    faulty(4, 7, MARK + u8(1) + u8(1) + u16(0))
    faulty(5, 262, NO_TABLES + DISTINCT * 256 + empty())
    faulty(6, 18, HEADER + S + b'\x00')
    # reading before acceptance; children first, left before right; 8 beneath 9, 9 beneath 8
    faulty(6, 24, HEADER + filter_(col(1, 9)) + S + b'\x00')
    faulty(8, 1, HEADER + UNION + filter_(col(1, 9)) + S + scan([0]))
    faulty(8, 2, HEADER + UNION + scan([0]) + filter_(col(1, 9)) + S)
    faulty(9, 1, HEADER + filter_(col(1, 9)) + UNION + S + scan([0]))
    faulty(9, 0, HEADER + UNION + S + scan([0]))
    faulty(7, 1, HEADER + filter_(col(1, 9)) + scan([0, 0]))
    faulty(10, 0, NO_TABLES + join_on(0) + empty([pair(1, i + 1) for i in range(128)]) + empty([pair(2, 1)]))
    # version 2
    found(1, 3, HEADER_2 + S_2)
    found(1, 1, HEADER_2 + scan_2([2], filters=[A, col(0, 2)]))
    found(1, 129, head_2([table_2(*range(1, 130))], [key_2(0, 128)]) + S_2)
    faulty(3, 5, MARK_2)
    faulty(4, 15, head_2([table_2(1, 2, 3)], [u8(1)]))
    faulty(8, 1, HEADER_2 + DISTINCT + scan_2(filters=[col(1, 9)]))
    faulty(17, 0, head_2([table_2(1, 1)]) + scan_2([0], filters=[A]))


def bare_names():
    """Document 02's request 6. A reference without a qualifier fits each field of its name."""
    one, two = col(0, 1), scan(q=2)
    gives(HEADER + filter_(one) + scan([0, 1]), HEADER + filter_(one) + S, [1])
    refused(8, 0, HEADER + filter_(col(0, 9)) + S)
    # two fields fit; none fits comes before two, two before a wrong width, too many fields and a clash
    for kind in range(4):
        refused(17, 0, HEADER + filter_(one) + join_on(kind) + S + two)
        refused(17, 0, HEADER + join_on(kind, (), one) + S + two)
        refused(17, 0, HEADER + join_on(kind, (), A) + S + S)
    refused(8, 0, HEADER + filter_(equal(one, col(0, 9))) + join_on(0) + S + two)
    refused(8, 0, HEADER + join_on(0, (), equal(one, col(0, 9))) + S + two)
    # a half is looked up on its own side; for the request every reference on each side, so that both are asked for columns 1 and 2
    halves = join_on(0, [(one, col(0, 2))])
    gives(HEADER + halves + scan([0, 1]) + scan([0, 1], q=2), HEADER + halves + S + two, [])
    # an item keeps its written pair, so that the projection stays; merged, it is the column that it finds under that pair
    gives(HEADER + projection(one) + scan([0]), HEADER + projection(one) + S)
    gives(HEADER + projection(alias(0, 1, A)) + scan([0]), HEADER + projection(one) + projection(A, B) + S)
    # uses are counted by written pair
    a_1 = add(A, lit(1))
    lower = projection(alias(5, 7, a_1))
    each_once = projection(alias(*Z, add(col(0, 7), col(5, 7))))
    one_twice = projection(alias(*Z, add(col(0, 7), col(0, 7))))
    gives(HEADER + projection(alias(*Z, add(a_1, a_1))) + scan([0]), HEADER + each_once + lower + S)
    gives(HEADER + one_twice + lower + scan([0]), HEADER + one_twice + lower + S)
    gives(HEADER + projection(alias(*Z, add(a_1, a_1))) + scan([0]), HEADER + one_twice + lower + S, mask=32)


# Version 2: counts of 64 and 128 are u16, keys follow the tables, a scan ends in its filters.
MARK_2 = b'CPL' + u16(2)


def table_2(*names):
    return u16(len(names)) + join(*[u16(n) for n in names])


def key_2(table, *columns):
    return u8(table) + u16(len(columns)) + join(*[u16(c) for c in columns])


def head_2(tables, keys=()):
    return MARK_2 + u8(len(tables)) + join(*tables) + u8(len(keys)) + join(*keys)


HEADER_2 = head_2([table_2(1, 2, 3)])  # 15 bytes: the keys' count is at 14, the plan starts at 15


def projection_2(*items):
    return u8(1) + u16(len(items)) + join(*items)


def aggregate_2(groups, aggs):
    return u8(5) + u16(len(groups)) + join(*groups) + u16(len(aggs)) + join(*aggs)


def window_2(*calls):
    return u8(6) + u16(len(calls)) + join(*calls)


def scan_2(columns=None, table=0, q=1, filters=()):
    head = u8(11) + u8(table) + u16(q)
    read = u8(0) if columns is None else u8(1) + u16(len(columns)) + join(*[u16(c) for c in columns])
    return head + read + u8(len(filters)) + join(*filters)


def empty_2(pairs=(), one_row=0):
    return u8(12) + u8(one_row) + u16(len(pairs)) + join(*pairs)


S_2 = scan_2()


def version_2():
    """Document 02's request 9. Every node kind with a wide count once, then keys, then filters, then what is wide."""
    gives(HEADER_2 + scan_2([0]), HEADER_2 + projection_2(A) + S_2)  # S1
    gives(HEADER_2 + scan_2([]), HEADER_2 + S_2, [])
    gives(HEADER_2 + scan_2([2]), HEADER_2 + scan_2([2, 0]), [0])  # S6
    sum_b, max_c = pair(*X) + u8(2) + B, pair(*Y) + u8(4) + C
    gives(HEADER_2 + aggregate_2([A], [max_c]) + scan_2([0, 2]), HEADER_2 + aggregate_2([A], [sum_b, max_c]) + S_2, [2])  # S3
    gives(HEADER_2 + empty_2(one_row=1), HEADER_2 + aggregate_2([], [pair(*X) + u8(0)]) + S_2, [])  # S4
    rows = window_2(pair(*X) + u8(0) + u8(1) + A + u8(1) + u8(0) + B)
    gives(HEADER_2 + rows + scan_2([0, 1]), HEADER_2 + rows + S_2, [3])  # S5
    topped = B_IS_5 + projection_2(A, B) + DISTINCT
    gives(HEADER_2 + topped + scan_2([0, 1, 2]), HEADER_2 + B_IS_5 + DISTINCT + S_2, [0])
    for room in (0, 24):
        refused(13, 25, HEADER_2 + projection_2(A) + S_2, room=room)
    # each version read as the other: 259 columns, of which the fifth is called 0; three columns, then a node of tag 0
    refused(4, 16, MARK_2 + HEADER[5:] + S)
    refused(4, 13, MARK + HEADER_2[5:] + S_2)
    refused(2, 0, b'CPL' + u16(3) + HEADER_2[5:] + S_2)


def cuts_2():
    """As cuts, where version 2 has other fields."""
    a = [u8(0), u16(1), u16(1)]
    call = [u16(1), u16(1), u8(2)] + a
    fields = [u8(2), u16(2), u16(1), u16(2), u16(0), u8(1), u8(0), u16(2), u16(1), u16(0)]  # two tables, a key of two columns
    fields += [u8(1), u16(1)] + a + [u8(5), u16(1)] + a + [u16(1)] + call  # Projection, Aggregate
    fields += [u8(6), u16(1), u16(1), u16(1), u8(0), u8(0), u8(0), u8(8), u8(12), u8(0), u16(1), u16(1), u16(1)]  # Window, Union, Empty
    fields += [u8(11), u8(0), u16(1), u8(1), u16(1), u16(1), u8(1)] + a  # Scan of a column with a filter
    file = MARK_2
    for field in fields:
        refused(3, len(file), file)
        if len(field) > 1:
            refused(3, len(file), file + field[:-1])
        file += field


def counts_2():
    """Limits and counts of version 2: at the limit what follows is looked at, past it nothing is."""
    plan = 7  # a file without tables and keys: the plan starts at 7
    none = head_2([])
    for code, place, file in (
        (5, 5, MARK_2 + u8(17)),
        (5, 6, MARK_2 + u8(1) + u16(513)),
        (5, 6, MARK_2 + u8(1) + u16(65535)),
        (3, 8, MARK_2 + u8(1) + u16(512)),
        (4, 8, MARK_2 + u8(1) + u16(1) + u16(0)),
        (5, plan + 1, none + u8(1) + u16(513)),
        (3, plan + 3, none + u8(1) + u16(512)),
        (5, plan + 1, none + u8(5) + u16(513)),
        (4, plan + 3, none + u8(5) + u16(0) + u16(0)),
        (5, plan + 3, none + u8(5) + u16(0) + u16(513)),
        (4, plan + 1, none + u8(6) + u16(0)),
        (5, plan + 1, none + u8(6) + u16(513)),
        (5, plan + 2, none + u8(12) + u8(0) + u16(513)),
        (3, plan + 4, none + u8(12) + u8(0) + u16(256)),  # as one byte it would be none
        # as they are in version 1: a sort's, a window's and a join's counts
        (4, plan + 1, none + u8(3) + u8(0)),
        (5, plan + 1, none + u8(3) + u8(17)),
        (5, plan + 8, none + window_2(pair(0, 1) + u8(0) + u8(17))),
        (5, plan + 9, none + window_2(pair(0, 1) + u8(0) + u8(0) + u8(17))),
        (5, plan + 2, none + u8(10) + u8(0) + u8(17)),
        # a scan's
        (5, 20, HEADER_2 + scan_2()[:-2] + u8(1) + u16(513)),
        (4, 22, HEADER_2 + scan_2([3])),
        (4, 24, HEADER_2 + scan_2([2, 256])),  # as one byte it would be 0
        (5, 20, HEADER_2 + scan_2()[:-1] + u8(17)),
        (3, 21, HEADER_2 + scan_2()[:-1] + u8(16)),
        (4, 21, HEADER_2 + scan_2()[:-1] + u8(1) + alias(0, 1, A)),
        (6, 21, HEADER_2 + S_2 + u8(0)),
    ):
        refused(code, place, file)


def keys_of_tables():
    """"a table or column out of range or repeated, or an empty key, is 4." Kept and written back, in the order that they have."""
    tables = [table_2(1, 2, 3), table_2(4, 5)]  # the keys' count is at 20, the first key at 21
    for keys in ([key_2(0, 1)], [key_2(1, 1, 0), key_2(0, 2, 0, 1)]):
        head = head_2(tables, keys)
        gives(head + scan_2([0]), head + S_2, [0])
        gives(head + scan_2([1]), head + projection_2(B) + S_2)
    for code, place, keys in (
        (5, 20, u8(17)),
        (4, 21, u8(1) + u8(2)),
        (4, 22, u8(1) + u8(0) + u16(0)),
        (5, 22, u8(1) + u8(0) + u16(513)),
        (4, 26, u8(1) + u8(0) + u16(512) + u16(0) + u16(0)),  # before the cut
        (4, 24, u8(1) + key_2(1, 2)),
        (4, 26, u8(1) + key_2(1, 1, 2)),
        (4, 26, u8(1) + key_2(0, 2, 2)),
        (4, 28, u8(1) + key_2(0, 2, 1, 2)),
        (4, 26, u8(2) + key_2(0, 1) + key_2(0, 2)),
        (4, 26, u8(2) + key_2(0, 1) + u8(2)),
        (4, 31, u8(3) + key_2(0, 1) + key_2(1, 0) + key_2(0, 0)),
        (4, 24, u8(1) + key_2(0, 65535)),
    ):
        refused(code, place, MARK_2 + u8(2) + join(*tables) + keys + S_2)
    # of a table without columns every column is out of range
    refused(4, 12, MARK_2 + u8(1) + table_2() + u8(1) + key_2(0, 0))
    # 16 keys
    sixteen = head_2([table_2(t + 1) for t in range(16)], [key_2(15 - t, 0) for t in range(16)])
    gives(sixteen + scan_2([]), sixteen + S_2, [])


def keyed_groups():
    """"If all key columns are groups of an Aggregate, bare or aliased, its other groups that were not requested are dropped."""
    tables = [table_2(1, 2, 3), table_2(4, 5)]
    of_a, of_both, of_other = (head_2(tables, [k]) for k in (key_2(0, 0), key_2(0, 1, 0), key_2(1, 0)))
    x, a_1 = col(*X), add(A, lit(1))
    max_c = pair(*X) + u8(4) + C
    for mode in (0, 1):
        for head, groups, asked, kept, columns in (
            (of_a, [A, B], [], [A], [0]),
            (of_a, [A, B], [0], [A], [0]),
            (of_a, [A, B], [1], [A, B], [0, 1]),  # a requested group stays
            (of_a, [B, A, C], [0], [B, A], [0, 1]),
            (of_a, [B, C], [0], [B, C], [1, 2]),  # the key column is no group
            (of_a, [alias(*X, A), B], [], [alias(*X, A)], [0]),
            (of_a, [A, alias(*X, A), B], [], [A, alias(*X, A)], [0]),  # all groups that are key columns stay
            (of_a, [alias(*X, a_1), B], [1], [alias(*X, a_1), B], [0, 1]),  # computed
            (of_both, [A, C], [0], [A, C], [0, 2]),  # one of two
            (of_both, [C, A, B], [], [A, B], [0, 1]),
            (of_other, [A, B], [0], [A, B], [0, 1]),
            (head_2(tables), [A, B], [0], [A, B], [0, 1]),
        ):
            gives(head + aggregate_2(kept, []) + scan_2(columns), head + aggregate_2(groups, []) + S_2, asked, mode=mode)
    gives(of_a + aggregate_2([A], [max_c]) + scan_2([0, 2]), of_a + aggregate_2([A, B], [max_c]) + S_2, [2])
    # "A key passes up through Filter, Sort, Limit, SubqueryAlias, a Scan that has all its columns and a Projection that has them all as bare columns"
    by_a = u8(3) + u8(1) + u8(0) + A
    four = u8(7) + u16(4)
    for old, new in (
        (aggregate_2([A, B], []) + B_IS_5 + S_2, aggregate_2([A], []) + projection_2(A) + B_IS_5 + scan_2([0, 1])),
        (aggregate_2([A, B], []) + by_a + S_2, aggregate_2([A], []) + by_a + scan_2([0])),
        (aggregate_2([A, B], []) + limit(0, 3) + S_2, aggregate_2([A], []) + limit(0, 3) + scan_2([0])),
        (aggregate_2([col(4, 1), col(4, 2)], []) + four + S_2, aggregate_2([col(4, 1)], []) + four + scan_2([0])),
        (aggregate_2([A, B], []) + scan_2(filters=[equal(B, lit(5))]), aggregate_2([A], []) + scan_2([0], filters=[equal(B, lit(5))])),
        (aggregate_2([A, C], []) + scan_2([2, 0]), aggregate_2([A], []) + scan_2([0])),
        (aggregate_2([B, C], []) + scan_2([1, 2]), aggregate_2([B, C], []) + scan_2([1, 2])),
        (aggregate_2([x, B], []) + projection_2(B, alias(*X, A)) + S_2, aggregate_2([x], []) + projection_2(alias(*X, A)) + scan_2([0])),
        (aggregate_2([x, B], []) + projection_2(B, alias(*X, a_1)) + S_2, aggregate_2([x, B], []) + projection_2(B, alias(*X, a_1)) + scan_2([0, 1])),
        # a second copy of a key column is no key column
        (aggregate_2([x, B], []) + projection_2(A, alias(*X, A), B) + S_2, aggregate_2([x, B], []) + projection_2(alias(*X, A), B) + scan_2([0, 1])),
        (aggregate_2([A, x], []) + projection_2(A, alias(*X, A)) + S_2, aggregate_2([A], []) + scan_2([0])),
        # "nothing else"
        (aggregate_2([A, B], []) + DISTINCT + S_2, aggregate_2([A, B], []) + projection_2(A, B) + DISTINCT + scan_2([0, 1, 2])),
        (aggregate_2([A, B], []) + UNION + S_2 * 2, aggregate_2([A, B], []) + UNION + scan_2([0, 1]) * 2),
        (aggregate_2([A, B], []) + join_on(0) + S_2 + empty_2(one_row=1), aggregate_2([A, B], []) + join_on(0) + scan_2([0, 1]) + empty_2(one_row=1)),
        (aggregate_2([A, B], []) + window_2(pair(*X) + u8(0) + u8(0) + u8(0)) + S_2, aggregate_2([A, B], []) + scan_2([0, 1])),
        (aggregate_2([A, B], []) * 2 + S_2, aggregate_2([A, B], []) * 2 + scan_2([0, 1])),
    ):
        gives(of_a + new, of_a + old, [])


def filters():
    """"n filter expressions, over all its table's columns under the scan's qualifier"; "Filters stay"."""
    five = equal(B, lit(5))
    for f in (five, equal(col(0, 2), lit(5)), MISSING, add(C, A)):
        gives(HEADER_2 + scan_2([0], filters=[f]), HEADER_2 + scan_2(filters=[f]), [0])
        gives(HEADER_2 + scan_2([0], filters=[f]), HEADER_2 + scan_2([2, 0], filters=[f]), [1])
        gives(HEADER_2 + scan_2([], filters=[f, f]), HEADER_2 + scan_2([], filters=[f, f]))
    every = [equal(A, lit(i)) for i in range(16)]
    gives(HEADER_2 + scan_2([1], filters=every), HEADER_2 + scan_2(filters=every), [1])
    # not among the columns that are read, and nothing is asked of the scan for them
    gives(HEADER_2 + scan_2([0], filters=[five]), HEADER_2 + projection_2(A) + scan_2(filters=[five]))
    # under the scan's own qualifier
    refused(8, 0, HEADER_2 + scan_2(filters=[col(2, 1)]))
    refused(8, 0, HEADER_2 + scan_2(q=2, filters=[A]))
    refused(8, 0, HEADER_2 + scan_2(filters=[col(1, 9)]))
    refused(8, 0, HEADER_2 + scan_2(filters=[col(0, 9)]))
    refused(8, 2, HEADER_2 + UNION + S_2 + scan_2([1], filters=[five, col(1, 4)]))
    # two columns of one name: a qualified reference fits twice too; no clash among all columns, only among those that are read
    twice = head_2([table_2(1, 1, 2)])
    gives(twice + scan_2([0, 2], filters=[col(1, 2)]), twice + scan_2([0, 2], filters=[col(1, 2)]))
    for ref in (col(1, 1), col(0, 1)):
        refused(17, 0, twice + scan_2([0, 2], filters=[ref]))
        refused(17, 0, twice + scan_2(filters=[ref]))  # before 7
        refused(8, 0, twice + scan_2(filters=[ref, col(1, 9)]))  # before 17
        refused(17, 1, twice + filter_(col(1, 9)) + scan_2([0], filters=[ref]))  # children first
    refused(7, 0, twice + scan_2(filters=[col(1, 2)]))
    # tags of filters count: 4,095 in the filter above, the 4,096th here, the next one at 26 + 4,095 + 5
    refused(5, 4126, HEADER_2 + filter_(u8(3) * 4094 + MISSING) + scan_2([0], filters=[A, A]))
    # eleven doublings merge to 4,096 tags, which is not too long; with the scan's filter the result passes the limit
    y_y = projection_2(alias(*Y, add(col(*Y), col(*Y))))
    refused(12, 0, HEADER_2 + y_y * 11 + projection_2(alias(*Y, A)) + scan_2(filters=[A]), mask=33)


def wide_2():
    """Tables of 256 columns: indices past 127 and 255, 512 fields and one more."""
    half = head_2([table_2(*range(1, 257))])
    two = scan_2(q=2)
    gives(half + join_on(0) + scan_2([0, 255]) + scan_2([1, 255], q=2), half + join_on(0) + S_2 + two, [0, 255, 257, 511])
    refused(11, 1, half + join_on(0) + S_2 + two, [511, 512])
    refused(10, 0, half + join_on(0) + join_on(0) + S_2 + two + scan_2([0], q=3))
    refused(10, 1, half + DISTINCT + window_2(pair(*X) + u8(0) + u8(0) + u8(0)) + join_on(3) + S_2 + two)
    gives(half + join_on(4) + scan_2([255]) + scan_2([], q=2), half + join_on(4) + S_2 + two, [255])
    last = equal(col(1, 256), lit(1))
    gives(half + filter_(last) + scan_2([0, 255], filters=[last]), half + filter_(last) + scan_2(filters=[last]), [0])
    whole = head_2([table_2(*range(1, 513))], [key_2(0, 511)])
    gives(whole + scan_2([1, 511]), whole + S_2, [1, 511])


for make in (settings_and_marks, samples, requests, counts_of_fields, limits_of_a_file, large, values, cuts, acceptance, checks, bare_names,
             version_2, cuts_2, counts_2, keys_of_tables, keyed_groups, filters, wide_2):
    make()


# ── traits of a stored line ───────────────────────────────────────────────────────────────────


class Stop(Exception):
    pass


class Walk:
    """Goes through a plan file and notes what it has, up to the first byte that it cannot go past. It judges nothing."""

    def __init__(self, file):
        self.file, self.at, self.traits, self.field, self.starts = file, 5, set(), 'start', {}
        self.second = file[3:4] == u8(2)
        self.columns, self.items = (512, 512) if self.second else (64, 128)
        try:
            for _ in range(self.count('tables', 16)):
                for _ in range(self.wide('columns', self.columns)):
                    self.number('name', 2)
            for _ in range(self.count('keys of tables', 16) if self.second else 0):
                self.traits.add(('late', 'key'))
                self.number('table of a key', 1)
                for _ in range(self.wide('columns of a key', self.columns)):
                    self.number('column of a key', 2)
            self.plan()
        except (Stop, RecursionError):
            pass

    def number(self, field, size):
        self.starts[self.at] = field
        if self.at + size > len(self.file):
            raise Stop
        x = int.from_bytes(self.file[self.at:self.at + size], 'little')
        self.at += size
        return x

    def wide(self, field, limit):
        """A count of one byte in version 1, of two in version 2."""
        return self.count(field, limit, 2 if self.second else 1)

    def count(self, field, limit, size=1):
        n = self.number(field, size)
        if n == limit:
            self.traits.add(('at its limit', field))
        if n > limit:
            raise Stop
        return n

    def pair(self, what):
        self.number(what + ' qualifier', 2)
        self.number(what + ' name', 2)

    def expr(self, item=False):
        tag = self.number('item tag' if item else 'expression tag', 1)
        self.traits.add(('expression', tag))
        if tag == 0:
            self.pair('column')
        elif tag == 1:
            self.number('literal', 8)
        elif tag in (3, 4):
            self.expr()
        elif 5 <= tag <= 11:
            self.expr()
            self.expr()
        elif tag == 12:
            self.pair('alias')
            self.expr()
        elif tag != 2:
            raise Stop

    def keys(self):
        for _ in range(self.count('keys', 16)):
            self.number('flags', 1)
            self.expr()

    def function(self, what):
        self.pair(what)
        f = self.number(what + ' function', 1)
        self.traits.add((what, f))
        return f

    def plan(self):
        tag = self.number('node tag', 1)
        self.traits.add(('node', tag))
        if tag == 1:
            for _ in range(self.wide('items', self.items)):
                self.expr(True)
        elif tag == 2:
            self.expr()
        elif tag == 3:
            self.keys()
        elif tag == 4:
            self.number('skip', 4)
            self.number('fetch', 4)
        elif tag == 5:
            for _ in range(self.wide('groups', self.items)):
                self.expr(True)
            for _ in range(self.wide('aggregates', self.items)):
                if self.function('aggregate'):
                    self.expr()
        elif tag == 6:
            for _ in range(self.wide('windows', self.items)):
                f = self.function('window')
                for _ in range(self.count('parts', 16)):
                    self.expr()
                self.keys()
                if f:
                    self.expr()
        elif tag == 7:
            self.number('alias qualifier', 2)
        elif tag == 10:
            self.traits.add(('join', self.number('join type', 1)))
            for _ in range(self.count('pairs', 16)):
                self.expr()
                self.expr()
            if self.number('condition', 1):
                self.expr()
        elif tag == 11:
            self.number('table', 1)
            self.number('scan qualifier', 2)
            if self.number('given', 1):
                for _ in range(self.wide('scan columns', self.columns)):
                    self.number('column index', 2 if self.second else 1)
            for _ in range(self.count('filters', 16) if self.second else 0):
                self.traits.add(('late', 'filter'))
                self.expr()
        elif tag == 12:
            self.number('one row', 1)
            for _ in range(self.wide('pairs of empty', self.items)):
                self.pair('empty')
        elif tag not in (8, 9):
            raise Stop
        for _ in range({8: 2, 10: 2, 11: 0, 12: 0}.get(tag, 1)):
            self.plan()


def traits(line):
    mode, mask, room, request, file, _, code, length, place, out = line.split(' ')
    code, room, length, place = int(code), int(room), int(length), int(place)
    some = {('code', code): 12}
    kind = request if request in '*-' else 'list'
    for t in (('mode', mode), ('mask', mask if mask in ('0', '4095') else 'other'), ('request', kind)):
        some[t + (code,)] = 2
    walk = Walk(b'' if file == '-' else bytes.fromhex(file))
    if 3 <= code <= 5:
        some['refused at', code, walk.starts.get(place, 'nowhere')] = 2
    if code == 0:
        for t in walk.traits:
            some['file', t, mode] = {'node': 6}.get(t[0], 3)
        for t in Walk(bytes.fromhex(out)).traits:
            some['result', t] = {'node': 6}.get(t[0], 3)
        if room == length:
            some['no room to spare'] = 5
    if code == 13 and room + 1 == place:
        some['a byte too little'] = 5
    if code >= 7:
        for t in walk.traits:
            if t[0] in ('node', 'late'):
                some['code', code, t] = 1
    return some


def check_traits(line):
    file, _, code, place, nodes, fields = line.split(' ')
    code, place, nodes, fields = int(code), int(place), int(nodes), int(fields)
    some = {('code', code): 8}
    walk = Walk(b'' if file == '-' else bytes.fromhex(file))
    if 3 <= code <= 5:
        some['refused at', code, walk.starts.get(place, 'nowhere')] = 1
    if code >= 7:
        some['at node', code, min(place, 3)] = 1
    if code == 0:
        some['nodes', nodes if nodes in (1, 255, 256) else 'some'] = 2
        some['fields', fields if fields in (0, 1, 64, 127, 128, 512) else 'some'] = 2
    if code == 0 or code >= 7:
        for t in walk.traits:
            if t[0] in ('node', 'late', 'at its limit'):
                some['file', code, t] = 1
    return some


def choose(lines, traits, most, longest):
    """No trait is wanted more than `most` times."""
    taken, had = [], {}
    for line in sorted((l for l in lines if len(l) <= longest), key=lambda l: (len(l), l)):
        some = traits(line)
        if any(had.get(t, 0) < min(wanted, most) for t, wanted in some.items()):
            taken.append(line)
            for t in some:
                had[t] = had.get(t, 0) + 1
    return taken


# the file, its traits, how often one is wanted at most, and the longest line
CHOICES = [('library.txt', traits, 1, 3000), ('bare.txt', traits, 1, 1000), ('version2.txt', traits, 1, 3000), ('keys.txt', traits, 1, 1000)]
CHECKS = [('check-bare.txt', check_traits, 1, 1000), ('check-v2.txt', check_traits, 1, 1000)]


def main():
    folder = Path(sys.argv[1]) if len(sys.argv) > 1 else ROOT.parent / 'shared/vectors'
    chosen, checks = ([line for name, *how in files for line in choose((folder / name).read_text().split('\n')[:-1], *how)] for files in (CHOICES, CHECKS))
    rust = (ROOT / 'oracle/answers.txt').read_text().split('\n')[:-1]
    lines = cases + chosen + rust + checks
    text = ''.join(line + '\n' for line in lines)
    code_of = lambda line: int(line.partition(' => ')[2].split(' ')[0])
    codes = sorted({code_of(line) for line in lines})
    per_code = {code: sum(code_of(line) == code for line in lines) for code in codes}
    crate = Path(sys.argv[2]) if len(sys.argv) > 2 else ROOT / 'crates/replay'
    (crate / 'stdin').write_text(text)
    summary = [f'vectors {len(lines)}'] + [f'code {code}: {n}' for code, n in per_code.items()] + ['differ 0']
    (crate / 'stdout').write_text('\n'.join(summary) + '\n')
    print(f'{len(cases)} by hand, {len(chosen)} chosen, {len(rust)} of the Rust, {len(checks)} of check, {len(text)} bytes; by code', per_code)
    if len(text) >= 524288:
        sys.exit('more than the program reads')


if __name__ == '__main__':
    main()
