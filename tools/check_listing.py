#!/usr/bin/env python3
"""check_listing.py: run the program `pages`, as `tools/program pages` builds it, on every listing case of tools/cases/*.jsonl, and compare.

A listing case has the call ["pages"], the master in hex as `in` and the listing as `want`. Three more are made here: the
most pages, whose listing is longer than the program's buffer; the longest master, most of it a comment; and one byte more."""
import glob, json, os, subprocess, sys

ROOT = os.path.join(os.path.dirname(os.path.abspath(__file__)), '..')
PROGRAM = [os.path.join(ROOT, 'tools', 'x86_64'), 'run', os.path.join(ROOT, 'target', 'bin', 'pages')]
LONGEST = 32768
MOST_PAGES = 512
BODY, END = bytes.fromhex('a06a a06b'), bytes.fromhex('a067')
BEGIN = b'Interpress/Xerox/3.0 ' + bytes.fromhex('a066') + BODY


def padded(length):
    """A master of that length with nothing in it but a long comment."""
    comment = length - len(BEGIN) - len(END) - 4
    return BEGIN + b'\xe6' + comment.to_bytes(3, 'big') + bytes(comment) + END


def empty(last):
    """The listing of bodies 0 to `last` with nothing in them."""
    return ''.join(f'page {n} outcome F errors 0 steps 0 cells 0\nstack 0\nframe 0\ncells 0\n' for n in range(last + 1))


def most_pages():
    """A listing case: as many pages as there may be."""
    given = BEGIN + BODY * MOST_PAGES + END
    return {'name': 'most-pages-listed', 'call': ['pages'], 'in': given.hex(), 'want': empty(MOST_PAGES)}


def sources():
    """Every case of tools/cases."""
    for source in sorted(glob.glob(os.path.join(ROOT, 'tools', 'cases', '*.jsonl'))):
        yield from map(json.loads, open(source, encoding='utf-8'))


def cases():
    for case in [*sources(), most_pages()]:
        if case['call'] == ['pages']:
            yield case['name'], bytes.fromhex(case['in']), case['want']
    yield 'longest', padded(LONGEST), empty(0)
    yield 'longer', padded(LONGEST + 1), 'refused 10 at 0\n'


if __name__ == '__main__':
    right = wrong = 0
    for name, master, want in cases():
        ran = subprocess.run(PROGRAM, input=master, capture_output=True)
        if ran.returncode == 0 and ran.stdout == want.encode():
            right += 1
        else:
            wrong += 1
            print('wrong:', name)
    print(f'pages: {right} right, {wrong} wrong')
    sys.exit(1 if wrong else 0)
