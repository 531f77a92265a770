#!/usr/bin/env python3
"""Counts the places of each point of docs/DESIGN-PASS.md in crates/*/src/*.rt, and with -v lists them.

    python3 tools/forms.py [-v] [POINT..]       in the checkout
    python3 tools/forms.py [-v] --at COMMIT     of a commit

It goes by text: what a line says is judged by who reads the list."""
import os, re, subprocess, sys

POINTS = {
    '1a': 'enums with a case of nothing, of a failure or of a refusal',
    '1b': 'a flag or a code as a field of a struct',
    '1c': 'numbers for kinds: constants and matches on numbers',
    '2': 'pairs of functions that are the same but for names and numbers',
    '3': 'while and loop',
    '4a': 'conversions, smaller and larger, written as functions',
    '4b': 'printing by functions of a program, not by print! and println!',
    '4c': 'equality field by field',
    '5a': 'functions with more than eight parameters',
    '5b': 'a requires that three or more functions of a crate have word for word',
    '6a': 'pairs of from and to, and a length beside a buffer, in types and results',
    '6b': 'arenas: lent arrays of numbers that hold nodes',
    '7': 'matches that choose which function to call, by a kind that is passed in',
    '8': 'answers (goals answered by hand) in proofs',
}

def files(commit):
    if commit:
        out = subprocess.run(['git', 'ls-tree', '-r', '--name-only', commit, 'crates'], capture_output=True, text=True, check=True).stdout
        names = out.split('\n')
        read = lambda f: subprocess.run(['git', 'show', f'{commit}:{f}'], capture_output=True, text=True, check=True).stdout
    else:
        out = subprocess.run(['git', 'ls-files', 'crates'], capture_output=True, text=True, check=True).stdout
        names = [f for f in out.split('\n') if os.path.exists(f)]
        read = lambda f: open(f).read()
    for f in sorted(names):
        if re.match(r'crates/\w+/src/\w+\.rt$', f) or f.endswith('/Answers.antt') and '/proofs/' in f:
            yield f, read(f)

def code_of(text):
    """the lines without comments, ghost lines and tests"""
    out = []
    for n, l in enumerate(text.split('\n'), 1):
        if l.startswith('#[cfg(test)]'):
            break
        s = l.strip()
        if s.startswith('//') or s.startswith('ghost use'):
            continue
        out.append((n, l))
    return out

def functions(lines):
    """(line, name, parameters, body lines, whole)"""
    i = 0
    while i < len(lines):
        n, l = lines[i]
        m = re.match(r'( *)(pub )?(extern "C" )?fn (\w+)', l)
        if not m:
            i += 1
            continue
        ind, name, j = m.group(1), m.group(4), i
        while j + 1 < len(lines) and lines[j][1] != ind + '}' and not lines[j][1].endswith('{}'):
            j += 1
        whole = [x for _, x in lines[i:j + 1]]
        text = '\n'.join(whole)
        k = text.find('(', text.find('fn ' + name))
        d, e = 0, k
        while e < len(text):
            d += text[e] in '([<'
            d -= text[e] in ')]>' and text[e - 1] != '-'
            if d == 0:
                break
            e += 1
        args, depth, cur = [], 0, ''
        for ch in text[k + 1:e]:
            depth += ch in '([<'
            depth -= ch in ')]>'
            if ch == ',' and depth == 0:
                args.append(cur.strip()); cur = ''
            else:
                cur += ch
        if cur.strip():
            args.append(cur.strip())
        yield n, name, args, whole
        i = j + 1

def shape(whole):
    """a body with names and numbers made alike"""
    t = '\n'.join(w for w in whole if not re.match(r'\s*(requires|ensures)', w))
    t = t[t.find('{'):] if '{' in t else t
    t = re.sub(r'b"[^"]*"', 'S', t)
    t = re.sub(r'\b\d[\d_]*(u\d+|usize)?\b', 'N', t)
    names = {}
    keep = {'let', 'mut', 'if', 'else', 'while', 'for', 'in', 'return', 'match', 'loop', 'true', 'false', 'as', 'N', 'S'}
    return re.sub(r'\b[a-zA-Z_]\w*\b', lambda m: m.group(0) if m.group(0) in keep else names.setdefault(m.group(0), f'v{len(names)}'), t)

def main():
    a = sys.argv[1:]
    verbose = '-v' in a
    commit = a[a.index('--at') + 1] if '--at' in a else None
    wanted = [x for x in a if x in POINTS] or list(POINTS)
    found = {p: [] for p in POINTS}
    put = lambda p, f, n, s: found[p].append(f'{f}:{n}: {s.strip()}')
    bodies = {}
    for f, text in files(commit):
        if f.endswith('.antt'):
            for n, l in enumerate(text.split('\n'), 1):
                if re.match(r'pub \S+ : goal\.', l):
                    put('8', f, n, l)
            continue
        lines = code_of(text)
        enum = None
        for n, l in lines:
            m = re.match(r'\s*(pub )?enum (\w+)', l)
            if m:
                enum = (n, m.group(2), [])
            elif enum and re.match(r'\s*}$', l):
                cases = enum[2]
                if any(re.match(r'(Nothing|Not|Absent|Full|Bad|Large|Pairs|Other|Fine|Malformed|Unknown)\b', c) for c in cases):
                    put('1a', f, enum[0], f'{enum[1]}: ' + ' '.join(cases))
                enum = None
            elif enum:
                m = re.match(r'\s{4}(\w+.*)', l)
                if m:
                    enum[2].append(m.group(1))
            if re.match(r'\s+(pub )?(\w*): bool,$', l) or re.match(r'\s+pub (code|place|refused|topped): \w+,$', l):
                put('1b', f, n, l)
            if re.match(r'\s*(pub )?const [A-Z_]+: (u8|u64|usize) = \d+;', l) or re.match(r'\s+\d+ => ', l):
                put('1c', f, n, l)
            if re.match(r'\s*(while|loop)\b', l):
                put('3', f, n, l)
            if re.match(r'\s*(pub )?fn (wide\w*|least|smaller|larger|less|same|equals|join_number|type_of|digit)\(', l):
                put('4a', f, n, l)
            if re.match(r'\s*fn \w+\(rt: &impl Print', l) or re.match(r'\s*(text|number|answer|line)\(&?rt\b', l) or re.search(r'rt\.(write_all|print)\(', l):
                put('4b', f, n, l)
            if re.search(r'\(?(\w+)\.(\w+) == (\w+)\.\2\)? &', l):
                put('4c', f, n, l)
            if re.match(r'\s+(pub )?(from|to|used|end|start|size): usize,$', l):
                put('6a', f, n, l)
            if re.match(r'\s+(cells|nodes|rows|pairs|acells|bcells|icells|records): &(mut )?\[u\d+', l) or re.search(r'\((.*, )?(cells|nodes|rows|pairs): &(mut )?\[u', l):
                put('6b', f, n, l)
            if re.match(r'\s+match (part|kind|segment|form|todo|list|level|rest|pushed|t)\b', l):
                put('7', f, n, l)
        facts = {}
        for n, name, args, whole in functions(lines):
            if len(args) > 8:
                put('5a', f, n, f'{name}: {len(args)}')
            for w in whole:
                m = re.match(r'\s*requires \w* ?\{ (.*) \}$', w) or re.match(r'\s*requires \{ (.*) \}$', w)
                if m:
                    facts.setdefault(m.group(1), []).append((n, name))
            s = shape(whole)
            if s.count('\n') > 3:
                bodies.setdefault(s, []).append((f, n, name))
        for t, fs in facts.items():
            if len(fs) > 2:
                put('5b', f, fs[0][0], f'{t}: ' + ', '.join(x for _, x in fs))
    for s, fs in bodies.items():
        if len(fs) > 1:
            put('2', fs[0][0], fs[0][1], ', '.join(f'{x.split("/")[1]}::{y}' for x, _, y in fs))
    for p in wanted:
        print(f'{p}\t{len(found[p])}\t{POINTS[p]}')
        if verbose:
            for x in found[p]:
                print('    ' + x)

main()
