# tools/predicates.awk: what ./simmerroof keys shows. Standard input: bytes as decimal numbers.
#   -v what=plan   an accepted plan file: a line for each filter, join condition and filter of a scan: node, kind, offset, length, text
#   -v what=keys   what the entry join_keys wrote: a line for each pair
#   -v what=left   what the entry without_keys wrote: what is left, or `nothing`

{ for (i = 1; i <= NF; i++) b[size++] = $i }

END {
    split("+ - * = < and or", sign, " ")
    at = 0
    if (what == "keys") { for (n = b[at++]; n > 0; n--) { left = expr(); print left " = " expr() } }
    else if (what == "left") print b[at++] ? expr() : "nothing"
    else { at = 5; catalogue(); node() }
}

# a file of version 2 has wide counts, keys behind its tables, and filters at the end of a scan
function second() { return b[3] == 2 }

function wide() { return second() ? u16() : b[at++] }

function catalogue(    n, m) {
    for (n = b[at++]; n > 0; n--) { m = wide(); at += 2 * m }
    if (second()) for (n = b[at++]; n > 0; n--) { at++; m = u16(); at += 2 * m }
}

function u16(    v) { v = b[at] + 256 * b[at + 1]; at += 2; return v }

function pair(    q, n) { q = u16(); n = u16(); return (q ? "q" q "." : "") "c" n }

# 8 bytes, two's complement, in decimal: a double does not hold them
function number(    minus, i, j, carry, d, count, text) {
    minus = b[at + 7] > 127
    carry = minus
    for (i = 0; i < 8; i++) { d[i] = minus ? 255 - b[at + i] + carry : b[at + i]; carry = d[i] > 255; if (carry) d[i] -= 256 }
    at += 8
    text = ""
    for (j = 0; j < 20; j++) {
        carry = 0
        for (i = 7; i >= 0; i--) { carry = carry * 256 + d[i]; d[i] = int(carry / 10); carry %= 10 }
        text = carry text
    }
    sub(/^0+/, "", text)
    return (minus ? "-" : "") (text == "" ? "0" : text)
}

function expr(    tag, left) {
    tag = b[at++]
    if (tag == 0) return pair()
    if (tag == 1) return number()
    if (tag == 2) return "missing"
    if (tag == 3) return "(not " expr() ")"
    if (tag == 4) return "(is-missing " expr() ")"
    if (tag == 12) { pair(); return expr() }
    left = expr()
    return "(" left " " sign[tag - 4] " " expr() ")"
}

function exprs(n) { for (; n > 0; n--) expr() }

function keys(    n) { for (n = b[at++]; n > 0; n--) { at++; expr() } }

function call(    f) { pair(); f = b[at++]; return f }

function predicate(k, kind,    from, text) {
    from = at
    text = expr()
    print k, kind, from, at - from, text
}

function node(    k, tag, n, f) {
    k = nodes++
    tag = b[at++]
    if (tag == 1) exprs(wide())
    if (tag == 2) predicate(k, "filter")
    if (tag == 3) keys()
    if (tag == 4) at += 8
    if (tag == 5) { exprs(wide()); for (n = wide(); n > 0; n--) if (call()) expr() }
    if (tag == 6) for (n = wide(); n > 0; n--) { f = call(); exprs(b[at++]); keys(); if (f) expr() }
    if (tag == 7) at += 2
    if (tag == 10) { at++; for (n = 2 * b[at++]; n > 0; n--) expr(); if (b[at++]) predicate(k, "join") }
    if (tag == 11) { at += 3; if (b[at++]) { n = wide(); at += n * (second() ? 2 : 1) } }
    if (tag == 11 && second()) for (n = b[at++]; n > 0; n--) predicate(k, "scan")
    if (tag == 12) { at++; n = wide(); at += 4 * n }
    if (tag < 11) node()
    if (tag == 8 || tag == 10) node()
}
