#!/usr/bin/env python3
"""check_architecture.py: two tables of docs/ARCHITECTURE.md are as the sources have them. Where one is not, the right one is printed.

The first: the definitions on which the promises of the public calls rest, and no others; a reader must believe these. The second: which files of
laws are cited across crates, and by which; a crate's specs/ and proofs/Theorems.antt are for everyone."""
import glob, os, re, sys

ROOT = os.path.join(os.path.dirname(os.path.abspath(__file__)), '..')
# where each public call's relation stands
PROMISES = [('machine', 'Promise'), ('lists', 'Promise'), ('host', 'Told'), ('tokens', 'Token'), ('numbers', 'Arith'), ('points', 'Point')]


def read(*path):
    return open(os.path.join(ROOT, *path), encoding='utf-8').read()


def crates():
    """The crates, in the order of crates.txt."""
    return [line.split(':')[0].split()[0] for line in read('crates.txt').splitlines() if ':' in line and not line.startswith('#')]


def code(names):
    return ', '.join(f'`{name}`' for name in names)


def path_of(crate, module):
    """The file of a module of definitions; 'Ops.Test' stands in Ops/Test.antt."""
    return os.path.join('crates', crate, 'specs', *module.split('.')) + '.antt'


def cited_by(crate, module):
    """The modules of definitions that one of them cites."""
    found = re.findall(r'^use Rattle\.([a-z_]+)\.specs\.([A-Z][A-Za-z]*(?:\.[A-Z][A-Za-z]*)*)', read(path_of(crate, module)), re.M)
    return [(of, name) for of, name in found if os.path.exists(os.path.join(ROOT, path_of(of, name)))]


def definitions():
    """The table of definitions: a row for each crate that has any, with their lines that are not empty."""
    reached, left = set(), list(PROMISES)
    while left:
        one = left.pop()
        if one not in reached:
            reached.add(one)
            left += cited_by(*one)
    rows = []
    for crate in crates():
        files = sorted(module for of, module in reached if of == crate)
        lines = sum(1 for module in files for line in read(path_of(crate, module)).splitlines() if line.strip())
        if files:
            rows.append(f'| `{crate}` | {code(files)} | {lines} |\n')
    return '| definitions of | files | lines |\n|---|---|---|\n' + ''.join(rows)


def laws():
    """The table of laws: a row for each crate whose laws another cites."""
    found = set()
    for by in crates():
        for path in glob.glob(os.path.join(ROOT, 'crates', by, '**', '*'), recursive=True):
            if path.endswith(('.rt', '.antt')) and '/out/' not in path:
                found |= {(by, of, file) for of, file in re.findall(r'Rattle\.([a-z_]+)\.proofs\.([A-Z][A-Za-z]*)', read(path))}
    found = {(by, of, file) for by, of, file in found
             if of != by and file != 'Theorems' and os.path.exists(os.path.join(ROOT, 'crates', of, 'proofs', file + '.antt'))}
    rows = []
    for crate in crates():
        files = sorted({file for _, of, file in found if of == crate})
        if files:
            rows.append(f'| `{crate}` | {code(files)} | {code(by for by in crates() if any(b == by and of == crate for b, of, _ in found))} |\n')
    return '| laws of | files | cited by |\n|---|---|---|\n' + ''.join(rows)


if __name__ == '__main__':
    text = read('docs', 'ARCHITECTURE.md')
    wrong = [table for table in (definitions(), laws()) if table + '\n' not in text]
    for table in wrong:
        print('docs/ARCHITECTURE.md: a table is not this one:\n' + table)
    sys.exit(1 if wrong else 0)
