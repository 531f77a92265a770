# tools/cycle.py CRATE ANSWERS [GEN]: fills the proof file of a cycle of calls. The skeleton must be in place (extract.py, then the callees' readings
# named once as FN-calls), and GEN (default target/gen) is the DIR of `rt dev CRATE --generated DIR`. A section of ANSWERS starts with `== FN`; then
# lines `NEED = TERM` (a line that starts with spaces goes on with the term before); @thing in a term stands for the path to that thing at that need.
# Needs that are not named stay as they are.
import glob
import os
import re
import sys

import paths


def things(crate, gen, cycle, fn):
    text = open(f'{gen}/Rattle·{crate}·proofs/proofs/{cycle}/Lts-{fn}.antt').read()
    recs = paths.records(text)
    known = {}
    for need, name in paths.needs(text).items():
        known[need] = {}
        for field, path, _ in paths.paths(recs, name):
            known[need].setdefault(field, path)
    return known


def sections(file):
    found, fn, last = {}, None, None
    for line in open(file).read().split('\n'):
        if line.startswith('== '):
            fn, last = line[3:].strip(), None
            found[fn] = {}
        elif re.match(r'\S+ = ', line):
            last, term = line.split(' = ', 1)
            found[fn][last] = term
        elif line.startswith(' ') and last:
            found[fn][last] += '\n' + line
    return found


def expand(term, known, where):
    def path(m):
        if m.group(1) not in known:
            print(where, 'knows no', m.group(1), '| it knows', ' '.join(x for x in known if 'known' not in x and '-arg' not in x))
            return m.group(0)
        return known[m.group(1)]
    return re.sub(r'@([\w-]+)', path, term)


def main():
    crate, answers = sys.argv[1:3]
    gen = sys.argv[3] if len(sys.argv) > 3 else 'target/gen'
    proof = glob.glob(f'crates/{crate}/proofs/+*+*/Proof.antt')[0]
    cycle = os.path.basename(os.path.dirname(proof))
    text = open(proof).read()
    for fn, terms in sections(answers).items():
        known = things(crate, gen, cycle, fn)
        for need, term in terms.items():
            line = re.compile(r'(?m)^(%s-%s t c(?: κs)?) =(?:.*\n(?:[ ]+.*\n)*)' % (re.escape(fn.replace('_', '-')), re.escape(need)))
            if need not in known or not line.search(text):
                print('no such need:', fn, need)
                continue
            new = expand(term, known[need], f'{fn} {need}')
            text = line.sub(lambda m: m.group(1) + ' =' + ('\n    ' if '\n' in new else ' ') + new + '\n', text, count=1)
    open(proof, 'w').write(text)


if __name__ == '__main__':
    main()
