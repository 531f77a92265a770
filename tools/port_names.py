#!/usr/bin/env python3
"""Spells the repository's own definitions and lemmas as today's Rattle does: words in snake case, types and modules in camel case.

usage: python3 tools/port_names.py [--list]     at the top of a checkout that /opt/rattle/port/port.py has turned; --list only prints what would be renamed

A name that an .antt file of specs/ or proofs/ declares, and that begins with a small letter, loses its capitals (columnsOf: columns_of). A dash stays where
it joins two names, as in length-drop, and is an underscore elsewhere (map-cong: map_cong). The functions of src/, exported names, strings, inputs and outputs
keep theirs. Where the new name would be another's in one file, INSTEAD says what it is called. Run it once, directly after port.py.
"""
import glob
import os
import re
import sys

# Names whose snake case is another name in some file that has both.
INSTEAD = {"rowsIn": "rows_held", "allPass": "each_passes"}

# Lemmas that would have the new name of the definition that they are about, and the files that name them.
LEMMAS = {
    "call_asks": ["plan_text/proofs/SizesTrip"],
    "head_at": ["plan_text/proofs/LinesTrip"],
    "head_bytes": ["cpl/proofs/HeadTrip", "cpl/proofs/PlanTrip", "plan_text/proofs/FileCode"],
    "is_digit": ["plan_text/proofs/NumberTrip"],
    "leaf_fields": ["jobs/proofs/Places", "rules/proofs/Retable", "version1/proofs/Embed", "version1/proofs/Passes"],
    "one_end": ["optimize_projections/proofs/Inputs"],
    "own_keys": ["rules/proofs/OwnTables"],
    "passed_on": ["intake/proofs/Ways"],
    "read_number": ["plan_text/proofs/NumberTrip"],
    "same_bytes": ["rules/proofs/Samples", "cpl/proofs/PartTrip"],
    "too_long": ["merge/proofs/Steps", "merge/proofs/merge_consecutive_projections/Proof"],
    "top_up": ["rules/proofs/Retable", "version1/proofs/Passes"],
    "one_input": ["jobs/proofs/Places"],
}

DECL = re.compile(r"\s*(?:(?:pub|abbrev|unfoldable|opaque|private)\s+)*((?:[^\s(){}\[\].;,\":=]+\s+)+):(?:\s|$)")
KEYWORDS = {"pub", "let", "in", "where", "data", "record", "module", "use", "abbrev", "unfoldable", "unfolding", "λ", "→", "_"}
TOKEN = re.compile(r"[^\s(){}\[\].;,\"@«»`:?!&]+")
DASH = re.compile(r"(?<=[^\s+∷≤<=-])-(?=[^\s>-])")


def own_files():
    return sorted(glob.glob("crates/*/specs/*.antt") + glob.glob("crates/*/proofs/*.antt"))


def all_files():
    found = []
    for folder, dirs, files in os.walk("crates"):
        dirs[:] = sorted(d for d in dirs if d not in ("out", "data"))
        found += [os.path.join(folder, f) for f in sorted(files) if f.endswith((".antt", ".rt"))]
    return found


def declared(path):
    for line in open(path, encoding="utf-8"):
        if line.lstrip().startswith("--"):
            continue
        m = DECL.match(line.rstrip("\n"))
        if m and not KEYWORDS & set(m.group(1).split()):
            yield from m.group(1).split()


def imported():
    """The words that the repository's files bring in from the library."""
    words = set()
    for path in all_files():
        for line in open(path, encoding="utf-8"):
            m = re.match(r"\s*(?:ghost )?use ([^{]*)\{(.*)\}", line)
            if m and not m.group(1).startswith("Rattle.") or m and m.group(1).startswith("Rattle.std"):
                words |= {w.strip().split(" as ")[0] for w in m.group(2).split(",")}
    return words


def snake(word):
    return re.sub(r"(?<=[a-z0-9])([A-Z])", lambda m: "_" + m.group(1).lower(), word)


def spelled(name, words, definition):
    if not re.match(r"[a-z]", name) and not DASH.search(name):
        return name
    parts = DASH.split(name)
    parts = [snake(p) if re.match(r"[a-z]", p) else p for p in parts]
    made = parts[0]
    run = parts[0]
    for k, p in enumerate(parts[1:], 1):
        rest = "_".join(parts[k:])
        joined = not definition and run in words and (rest in words or p in words)
        made += ("-" if joined else "_") + p
        run = p if joined else run + "_" + p
    return made


def turns():
    """Old name to new name."""
    names = set()
    in_specs = set()
    for path in own_files():
        for n in declared(path):
            names.add(n)
            if "/specs/" in path:
                in_specs.add(n)
    words = imported() | {snake(n) for n in in_specs if not DASH.search(n)}
    turned = {n: INSTEAD.get(n, spelled(n, words, n in in_specs)) for n in names}
    definitions = {new for n, new in turned.items() if not DASH.search(n)}
    for n, new in turned.items():
        if DASH.search(n) and new != n and new in definitions:
            turned[n] = new + "_lem"
    return {n: new for n, new in turned.items() if n != new}


def written(path, text, turned):
    """The text of a file in the new names."""
    here = dict(turned)
    short = re.sub(r"^crates/|\.antt$", "", path)
    here.update({n: n + "_lem" for n, where in LEMMAS.items() if short in where})
    by_hand = path.endswith(".antt") and os.path.basename(path) == "Proof.antt"
    if by_hand:
        brought = {w.strip().split(" as ")[0] for m in re.finditer(r"(?m)^use Rattle\.[^{\n]*\{(.*)\}", text) for w in m.group(1).split(",")}

    def one(m):
        name = m.group(0)
        if name not in here:
            return name
        before = text[: m.start()]
        if by_hand and name not in brought:
            # a field of a record of the repository's; the steps of the function, behind c, keep their names
            if not before.endswith(".") or re.search(r"(?<![\w'-])c(\.before)*\.$", before[-400:]):
                return name
        if path.endswith(".rt") and before[before.rfind("\n") + 1 :].count('"') % 2:
            return name
        return here[name]

    return TOKEN.sub(one, text)


def main():
    turned = turns()
    if "--list" in sys.argv:
        for n, new in sorted(turned.items()):
            print(n, new)
        return
    for path in all_files():
        text = open(path, encoding="utf-8").read()
        made = written(path, text, turned)
        if made != text:
            open(path, "w", encoding="utf-8").write(made)
    print(len(turned), "names turned")


if __name__ == "__main__":
    main()
