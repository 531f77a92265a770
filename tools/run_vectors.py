#!/usr/bin/env python3
"""tools/run_vectors.py [FOLDER]: runs all stored vectors and says how many differ; the status is 1 if one does.

FOLDER (../shared/vectors) has the files of the table FILES below, in the form that its README.md says; adding a file is adding a
row. The programs are proved and built where that is needed (tools/build) and run (tools/run). Not part of the
gate, which replays the choice in crates/replay/stdin.
"""
import subprocess
import sys
from pathlib import Path

TOOLS = Path(__file__).resolve().parent
PART = 524287  # what replay reads, less one


def run(program, given):
    done = subprocess.run([str(TOOLS / 'run'), program], input=given, stdout=subprocess.PIPE)
    if done.returncode:
        sys.exit(f'{program} ended with status {done.returncode}')
    return done.stdout.decode()


def parts(lines):
    """The lines in parts that a program like replay can hold, each with the number of its first line."""
    first, part, size = 1, [], 0
    for at, line in enumerate(lines, 1):
        if size + len(line) + 1 > PART:
            yield first, part
            first, part, size = at, [], 0
        part.append(line)
        size += len(line) + 1
    if part:
        yield first, part


def replayed(path, program):
    """Many lines in one run: the program says `vectors N`, `code C: N` for those that are the same, `differ N`, and `line AT ...` for each
    that differs, the lines of its input counted from 1."""
    lines = path.read_text().split('\n')[:-1]
    count = differ = 0
    codes = {}
    for first, part in parts(lines):
        for said in run(program, ('\n'.join(part) + '\n').encode()).split('\n')[:-1]:
            words = said.split(' ')
            if words[0] == 'vectors':
                count += int(words[1])
            elif words[0] == 'differ':
                differ += int(words[1])
            elif words[0] == 'code':
                code = int(words[1].rstrip(':'))
                codes[code] = codes.get(code, 0) + int(words[2])
            elif words[0] == 'line':
                at = first + int(words[1]) - 1
                wanted = ' '.join(lines[at - 1].partition(' => ')[2].split(' ')[:3])
                print(f'{path.name} line {at}', *words[2:], f'(wanted {wanted})')
            else:
                sys.exit(f'{program}: {said}')
    if count != len(lines):
        sys.exit(f'{path.name}: {count} of {len(lines)} lines were run')
    same = ', '.join(f'{code}: {n}' for code, n in sorted(codes.items()))
    print(f'{path.name}: {count} vectors, {differ} differ; the same by code {same}')
    return differ


def one_by_one(path, program):
    """Each line in a run of its own: `stdin => stdout`, bytes in hex, newlines as |."""

    def stored():
        for line in path.read_text().split('\n')[:-1]:
            given, wanted = line.split(' => ')
            yield bytes.fromhex('' if given == '-' else given), wanted.replace('|', '\n')

    return compared(path.name, program, stored())


def compared(name, program, vectors):
    count = differ = 0
    for given, wanted in vectors:
        count += 1
        wrote = run(program, given)
        if wrote != wanted:
            differ += 1
            print(f'{name} line {count} differs: {wrote!r} (wanted {wanted!r})')
    print(f'{name}: {count} vectors, {differ} differ')
    return differ


# the file, the program that runs it, and how
FILES = [
    ('library.txt', 'replay', replayed),
    ('bare.txt', 'replay', replayed),
    ('version2.txt', 'replay', replayed),
    ('keys.txt', 'replay', replayed),
    ('program.txt', 'prune', one_by_one),
    ('check-bare.txt', 'replay', replayed),
    ('check-v2.txt', 'replay', replayed),
    ('join_keys.txt', 'key_vectors', replayed),
    ('without_keys.txt', 'key_vectors', replayed),
    ('list_plan.txt', 'list_vectors', replayed),
]


def own():
    """Of the program `prune`, made by hand: missing settings, and plans around 65,536 bytes. An aggregate of 128 row counts has 3 + 640 bytes
    and no tags. Its own input is asked for nothing, so that it becomes the one-row Empty."""
    settings, marks = bytes(3), b'CPL\x01\x00\x00'
    s1 = bytes.fromhex('43504C0100 01 03 0100 0200 0300 01 01 00 0100 0100 0B 00 0100 00')

    def rows(n):
        return b'\x05\x00' + bytes([n]) + b''.join(b'\x00\x00' + (i + 1).to_bytes(2, 'little') + b'\x00' for i in range(n))

    yield b'', 'REFUSED 2 0\n'
    yield b'\x00', 'REFUSED 2 0\n'
    yield b'\x02', 'REFUSED 1 0\n'
    yield b'\x00\x10', 'REFUSED 2 0\n'
    yield b'\x00\x00\x10', 'REFUSED 1 0\n'
    yield settings + bytes(65536), 'REFUSED 2 0\n'
    yield settings + s1 + b'\xff' * 70000, 'REFUSED 6 25\n'
    # S1 in version 2, and with a filter on its scan, whose column is not read for it
    s1_2 = bytes.fromhex('43504C0200 01 0300 0100 0200 0300 00 01 0100 00 0100 0100 0B 00 0100 00')
    yield settings + s1_2 + b'\x00', 'PLAN 1\n0 scan 1\n'
    yield settings + s1_2 + bytes.fromhex('01 00 0100 0300'), 'PLAN 1\n0 scan 1\n'
    yield settings + s1_2 + bytes.fromhex('01 00 0100 0900'), 'REFUSED 8 1\n'
    most = marks + rows(128) * 101  # 64,949 bytes
    narrowed = 'PLAN 2\n0 aggregate 128\n1 empty 0\n'
    yield settings + most + rows(116) + b'\x0c\x00\x00', narrowed  # 65,535
    yield settings + most + rows(116) + b'\x0c\x00\x00' + b'\x00', 'REFUSED 6 65535\n'
    yield settings + most + b'\x09' + rows(116) + b'\x0c\x00\x00', narrowed  # 65,536
    yield settings + most + b'\x09' + rows(116) + b'\x0c\x00\x00' + b'\xff', narrowed  # the last byte is not read
    yield settings + most + rows(128) + b'\x0c\x00\x00', 'REFUSED 3 65536\n'  # cut at a function


def main():
    folder = Path(sys.argv[1]) if len(sys.argv) > 1 else TOOLS.parent.parent / 'shared/vectors'
    missing = [name for name, _, _ in FILES if not (folder / name).is_file()]
    if len(sys.argv) > 2 or missing:
        print('usage: tools/run_vectors.py [FOLDER]', *[f'{folder} has no {name}' for name in missing], sep='\n', file=sys.stderr)
        sys.exit(2)
    programs = sorted({program for _, program, _ in FILES})
    if subprocess.run([str(TOOLS / 'build'), 'program', *programs]).returncode:
        sys.exit(3)
    differ = sum(how(folder / name, program) for name, program, how in FILES)
    differ += compared('own cases', 'prune', own())
    print('failed' if differ else 'passed')
    sys.exit(1 if differ else 0)


if __name__ == '__main__':
    main()
