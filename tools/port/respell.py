#!/usr/bin/env python3
"""respell.py: the names of this repository's own definitions and laws in snake case, as today's Rattle spells them.

    python3 tools/port/respell.py [--docs]

Run once at the top, after port.py. A word of ours in camel case (gcdOf) or with dashes (rest-above) becomes gcd_of and rest_above: in specs/,
proofs/ and the clauses of src/. Types, modules, names of a library, what Rattle makes and the code keep theirs. With --docs the names that
stand in backticks in README.md and docs/ follow. Names that would fall together stop it before anything is written."""
import collections, os, re, sys

WORD = re.compile(r"[A-Za-z_◌ℕℤ≡≢≤<>→←↔∷+*×∙⊎¬0-9₀-₉'′-]+")
DEFINED = re.compile(r"^\s*(?:-- )?(?:(?:abbrev|unfoldable|pub)\s+)*([^\s:(){}.,;λ]+)\s*:(?!=)\s")
BOUND = re.compile(r"(?:\blet\s+|λ\s+|\bas\s+|[({]\s*|;\s*|[|]\s*)((?:[a-z][\w'-]*\s+)*[a-z][\w'-]*)\s*(?:[:=.)}]|↦)")
LIBRARY = re.compile(r"^\s*(?:ghost )?use\s+([\w.+'-]+)\.\{([^}]*)\}")
OWN_PATH = re.compile(r"^Rattle\.(?!std\b|core\b)(\w+)\.")
MADE = ('Tie', 'Lts', 'Statement', 'Goals', 'Given', 'Reads', 'Kinds', 'Met', 'Code')
# A field that would have the name of the definition that it cites
SPECIAL = {'getD-asc': 'get_or_asc', 'getD-desc': 'get_or_desc', 'scratch-leaves': 'scratch_left', 'rows-leaves': 'rows_left',
           'sections-leaves': 'sections_left', 'text-leaves': 'text_left', 'list-leaves': 'list_left', 'slice-val': 'part_val'}


def files():
    for top, dirs, names in os.walk('crates'):
        dirs[:] = sorted(d for d in dirs if d != 'out')
        for n in sorted(names):
            if n.endswith(('.antt', '.rt')):
                yield os.path.join(top, n)


def due(word):
    """Whether a word is to be respelled, by its form alone."""
    return re.match(r"^[a-z][\w'-]*$", word) and (re.search('[a-z0-9][A-Z]', word) or '-' in word.strip('-')) is not None and (
        bool(re.search('[a-z0-9][A-Z]', word)) or '-' in word)


def spelled(word):
    if word in SPECIAL:
        return SPECIAL[word]
    word = re.sub(r'([a-z0-9])([A-Z]+)', lambda m: m.group(1) + '_' + m.group(2).lower(), word)
    return word.replace('-', '_').lower()


def foreign(text):
    """Words that a file brings from a library, or from what Rattle makes of a function."""
    got = set()
    for line in text.splitlines():
        m = LIBRARY.match(line)
        if m and not (OWN_PATH.match(m.group(1) + '.') and m.group(1).split('.')[-1] not in MADE and not m.group(1).split('.')[-1].startswith('Lts')):
            got |= {w.strip().split(' as ')[0].strip() for w in m.group(2).split(',')}
    return got


def own(texts):
    """Our own words, each with its new spelling. A law that would have the name of a definition gets `_lem`."""
    names, stated = set(), set()
    for path, text in texts.items():
        if not path.endswith('.antt'):
            continue
        for line in text.splitlines():
            m = DEFINED.match(line)
            if m:
                names.add(m.group(1))
                stated.add(m.group(1))
            for m in BOUND.finditer(line):
                names |= set(m.group(1).split())
    got = {n: spelled(n) for n in names if due(n)}
    camel = {new for n, new in got.items() if '-' not in n}
    snake = {n for n in stated if not due(n) and re.match(r"^[a-z][a-z0-9_'′]*$", n)}
    for n in snake & camel:
        got[n] = n + '_lem'
    for n in got:
        if '-' in n and got[n] in (camel | snake):
            got[n] += '_lem'
    return got


def turned(path, text, names):
    skip = foreign(text)
    by_hand = os.path.basename(path) == 'Proof.antt'

    def one(m):
        word = m.group(0)
        if word not in names or word in skip:
            return word
        before = text[:m.start()]
        if not due(word) and (path.endswith('.rt') or before.endswith('.') or re.match(r"\.[A-Za-z+]", text[m.end():])):
            return word
        if by_hand and before.endswith('.') and word not in FIELDS:
            return word
        line = before[before.rfind('\n') + 1:]
        comment = '--' if path.endswith('.antt') else '//'
        if comment in line and '-' in word and not (before.endswith('`') and text[m.end():m.end() + 1] == '`'):
            return word
        if path.endswith('.rt') and line.count('"') % 2:
            return word
        return names[word]

    return WORD.sub(one, text)


def fields(texts):
    """The fields of our own records: they alone are respelled behind a dot in a proof by hand."""
    got = set()
    for path, text in texts.items():
        if path.endswith('.antt') and os.path.basename(path) != 'Proof.antt':
            got |= {m.group(1) for m in re.finditer(r"(?m)^\s+(?:pub )?([a-z][\w'-]*)\s*:\s", text)}
    return got


def together(texts, names):
    """Names that would fall together: two words of one file, or a word and one that is there. (A function of src/ may have the name of the
    definition that its contract cites.)"""
    said = []
    for path, text in texts.items():
        if path.endswith(('.rt', 'Proof.antt')):
            continue
        skip = foreign(text)
        words = set(WORD.findall(text))
        groups = collections.defaultdict(set)
        for w in words:
            groups[names[w] if w in names and w not in skip else w].add(w)
        said += [f'{path}: {sorted(g)} would all be {n}' for n, g in groups.items() if len(g) > 1]
    return said


def in_documents(names):
    """The names in backticks in README.md and docs/, where what they are now called is there."""
    there = set()
    for p in files():
        there |= set(WORD.findall(open(p, encoding='utf-8').read()))

    def one(m):
        word = m.group(1)
        new = names.get(word, spelled(word) if due(word) else word)
        return '`' + (new if new in there and word not in there else word) + '`'

    for top, _, found in os.walk('docs'):
        for n in [os.path.join(top, f) for f in found if f.endswith('.md')]:
            if not n.endswith(('PORT.md', 'DESIGN-PASS.md')) and '/landings' not in n:
                put(n, re.sub(r"`([a-z][\w'-]*)`", one, open(n, encoding='utf-8').read()))
    put('README.md', re.sub(r"`([a-z][\w'-]*)`", one, open('README.md', encoding='utf-8').read()))


def put(path, text):
    with open(path, 'w', encoding='utf-8') as f:
        f.write(text)


if __name__ == '__main__':
    TEXTS = {p: open(p, encoding='utf-8').read() for p in files()}
    FIELDS = fields(TEXTS)
    NAMES = own(TEXTS)
    if '--docs' in sys.argv:
        in_documents({})
        sys.exit(0)
    falls = together(TEXTS, NAMES)
    if falls:
        print('\n'.join(falls))
        sys.exit(f'{len(falls)} names would fall together; nothing is written')
    n = 0
    for p, t in TEXTS.items():
        new = turned(p, t, NAMES)
        if new != t:
            put(p, new)
            n += 1
    print(f'{len(NAMES)} names, {n} files')
