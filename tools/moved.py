#!/usr/bin/env python3
"""tools/moved.py BASE HEAD: what a change moved, for the notes in docs/changes.

Prints, in Markdown: files and lines by crate and kind (specs, proofs, src, must-fail); functions whose contract (header with
requires and ensures) changed, came or went; definitions of specs/ that changed, came or went; public statements of proofs/
that changed or went. A definition is a name at the start of a line with what follows it up to the next one; comments and
`use` lines do not count."""
import collections
import re
import subprocess
import sys

KINDS = ("specs", "proofs", "src", "must-fail")


def git(*words):
    return subprocess.run(["git", *words], check=True, stdout=subprocess.PIPE).stdout.decode()


def changed(base, head):
    """(status, path) of every file of crates/ that differs; a move counts as one file gone and one new."""
    lines = git("diff", "--no-renames", "--name-status", base, head, "--", "crates").splitlines()
    return [line.split("\t", 1) for line in lines]


def text(rev, path):
    done = subprocess.run(["git", "show", f"{rev}:{path}"], stdout=subprocess.PIPE, stderr=subprocess.DEVNULL)
    return done.stdout.decode() if done.returncode == 0 else ""


def lines_moved(base, head):
    counts = collections.defaultdict(lambda: [0, 0, 0, 0, 0])
    status = {path: s for s, path in changed(base, head)}
    for line in git("diff", "--no-renames", "--numstat", base, head, "--", "crates").splitlines():
        added, removed, path = line.split("\t")
        parts = path.split("/")
        kind = parts[2] if len(parts) > 3 and parts[2] in KINDS else "other"
        row = counts[parts[1], kind]
        row["AMD".index(status[path])] += 1
        row[3] += int(added) if added != "-" else 0
        row[4] += int(removed) if removed != "-" else 0
    print("| crate | kind | files new | changed | gone | lines + | lines − |\n|---|---|---|---|---|---|---|")
    for (crate, kind), row in sorted(counts.items()):
        print(f"| {crate} | {kind} | " + " | ".join(map(str, row)) + " |")


def contracts(source):
    """Function name → header, from `fn` to the brace that opens the body, without comments and layout."""
    out = {}
    for match in re.finditer(r"^\s*(?:pub )?(?:extern \"C\" )?fn (\w+)(.*?)^\s*\{\s*$|^\s*(?:pub )?fn (\w+)([^\n]*)\{\s*$", source, re.M | re.S):
        name, header = (match[1], match[2]) if match[1] else (match[3], match[4])
        out[name] = " ".join(re.sub(r"//[^\n]*", "", header).split())
    return out


def definitions(source, public_only, statements_only):
    """Name → its text: the signature alone where only statements count."""
    out, name = {}, None
    head = re.compile(r"^(?:unfoldable |abbrev |pub |private )*(?:record |data )?([^\s:(]+) ?[:(]")
    for line in source.splitlines():
        if not line.strip() or line.startswith(("--", "use ", "pub mod", "mod ", "section", "end")):
            continue
        match = head.match(line)
        if match and not line.startswith(" ") and match[1] not in out and " : " in line:
            name = match[1] if (not public_only or "pub " in line.split(":")[0]) else None
            if name:
                out[name] = line
            continue
        if statements_only and not line.startswith(" "):
            name = None
        if name:
            out[name] += "\n" + line
    return {n: " ".join(re.sub(r"--.*", "", t).split()) for n, t in out.items()}


def compare(base, head, want, parse):
    """By crate: names changed, new and gone among the files that `want` takes. A name that moved to another file stayed."""
    old, new = collections.defaultdict(dict), collections.defaultdict(dict)
    for _, path in changed(base, head):
        if want(path):
            crate = path.split("/")[1]
            old[crate].update(parse(text(base, path)))
            new[crate].update(parse(text(head, path)))
    for crate in sorted(set(old) | set(new)):
        a, b = old[crate], new[crate]
        rows = [("changed", [n for n in a if n in b and a[n] != b[n]]), ("new", [n for n in b if n not in a]),
                ("gone", [n for n in a if n not in b]), ("stayed", [n for n in a if n in b and a[n] == b[n]])]
        shown = [f"{word} {len(names)}" + (f": {', '.join(names)}" if word != "stayed" else "") for word, names in rows if names]
        if shown:
            print(f"- {crate}: " + "; ".join(shown))


def main():
    if len(sys.argv) != 3:
        sys.exit("usage: tools/moved.py BASE HEAD")
    base, head = sys.argv[1:]
    part = lambda kind, end: lambda path: path.split("/")[2] == kind and path.endswith(end)
    lines_moved(base, head)
    print("\nContracts, in the files that changed:\n")
    compare(base, head, part("src", ".rt"), contracts)
    print("\nDefinitions of specs/, in the files that changed:\n")
    compare(base, head, part("specs", ".antt"), lambda s: definitions(s, False, False))
    print("\nPublic statements of proofs/, in the files that changed:\n")
    compare(base, head, part("proofs", ".antt"), lambda s: definitions(s, True, True))


main()
