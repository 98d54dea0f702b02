#!/usr/bin/env python3
"""make_cases.py [--check]: turn tools/cases/*.jsonl into crates/cases/data/cases, which the program `cases` runs.

A line of a source is a case: `name`; `call`, one of those below; `in`; `want`. "refused N at P" may be wanted of every call.
  ["readback"]  in: the bytes in hex. want: {"tokens": [words], "text": hex}.
  ["write"]     in: {"words": [..], "text": hex, "buf": length}; "list", the list's bytes in hex, may stand for "words".
                want: the written bytes in hex.
  ["load"]      in: the bytes in hex. want: the page count.
  ["reprint", ALLOWANCE, PAGE]  in: the bytes in hex. want: {"row": [four words], "sections": [words up to the last value]}.
  ["pages"]     in: the bytes in hex. want: the listing of the run with allowance 100000. tools/check_listing.py runs these.
From a case whose call is done come more, by themselves: tables longer than needed, whose rest must stay, and tables one byte short;
from one reprint that is done, and from one run, also wrong arguments. Every master of a reprint or of a listing is run whole: the
rows are those that its listing and its reprints say.

A record of the data file: its own length; call; number and value of the answer; allowance; page; lengths of the three tables lent;
name; input; text; what is left in each table. Numbers are four bytes, low byte first; a text is its length and its bytes. What is
left in a table is a text of runs, each a text: how many times, and the bytes that come so often. After the last run the table must
be as lent, byte by byte."""
import itertools, os, re, sys
from check_listing import MOST_PAGES, most_pages, sources

ROOT = os.path.join(os.path.dirname(os.path.abspath(__file__)), '..')
DATA = os.path.join(ROOT, 'crates', 'cases', 'data', 'cases')
READ_BACK, WRITE, LOAD, RUN, REPRINT = 1, 2, 3, 4, 5
TABLE_TOO_SHORT, OUT_OF_STEPS, NO_SUCH_PAGE, BAD_ALLOWANCE, NO_ROOM = 11, 12, 13, 14, 16
SCRATCH, ROWS, SECTIONS = 48000, 8208, 24052
MOST_STEPS = 1000000
LISTED_STEPS = 100000
SPARE = 7
# As in crates/cases/src/main.rt: the byte of a lent table, the longest file, the longest tables.
LENT = b'\xa5'
LONGEST = 196608
LONGEST_TABLES = (49152, 16384, 24576)


def word(n):
    return (n & 0xFFFFFFFF).to_bytes(4, 'little')


def words(ns):
    return b''.join(word(n) for n in ns)


def text(b):
    return word(len(b)) + b


def run_of(times, b):
    return text(word(times) + b)


def once(b):
    return run_of(1, b) if b else b''


def record(call, name, answer, given, given_text=b'', sizes=(), left=(), allowance=0, page=0):
    sizes, left = (*sizes, 0, 0, 0)[:3], (*left, b'', b'', b'')[:3]
    if any(n > most for n, most in zip(sizes, LONGEST_TABLES)):
        sys.exit(name + ': a table longer than those of the program')
    head = words((call, *answer, allowance, page, *sizes))
    return text(head + b''.join(map(text, (name.encode(), given, given_text, *left))))


def refusal(want):
    m = re.fullmatch(r'refused (\d+) at (\d+)\n?', want) if isinstance(want, str) else None
    return (int(m[1]), int(m[2])) if m else None


def read_back(case):
    given, want = bytes.fromhex(case['in']), case['want']
    name = case['name']
    refused = refusal(want)
    if refused:
        return [record(READ_BACK, name, refused, given, b'', (40, 40))]
    tokens = words(want['tokens'])
    texts = bytes.fromhex(want['text'])
    done = (0, len(tokens) // 16)
    sizes = (len(tokens), len(texts))
    left = (once(tokens), once(texts))
    out = [
        record(READ_BACK, name, done, given, b'', sizes, left),
        record(READ_BACK, name + '-longer', done, given, b'', (sizes[0] + SPARE, sizes[1] + SPARE), left),
    ]
    short = (TABLE_TOO_SHORT, 0)
    if tokens:
        out.append(record(READ_BACK, name + '-list-short', short, given, b'', (sizes[0] - 1, sizes[1])))
    if texts:
        out.append(record(READ_BACK, name + '-text-short', short, given, b'', (sizes[0], sizes[1] - 1)))
    return out


def write(case):
    given, want, name = case['in'], case['want'], case['name']
    listed = bytes.fromhex(given['list']) if 'list' in given else words(given['words'])
    texts = bytes.fromhex(given['text'])
    refused = refusal(want)
    if refused:
        return [record(WRITE, name, refused, listed, texts, (given['buf'], 0))]
    written = bytes.fromhex(want)
    done = (0, len(written))
    left = (once(written), b'')
    return [
        record(WRITE, name, done, listed, texts, (given['buf'], 0), left),
        record(WRITE, name + '-exact', done, listed, texts, (len(written), 0), left),
        record(WRITE, name + '-short', (NO_ROOM, 0), listed, texts, (len(written) - 1, 0)),
    ]


def load(case):
    refused = refusal(case['want'])
    answer = refused if refused else (0, int(case['want']))
    return [record(LOAD, case['name'], answer, bytes.fromhex(case['in']), b'', (SPARE, SPARE))]


def scratch_left(number):
    return run_of(SCRATCH, b'\0') if number in (0, OUT_OF_STEPS) else b''


def row_left(page, row):
    return (run_of(16 * page, LENT) if page else b'') + once(words(row))


def runs_of(parts):
    """A run for equal parts that follow each other."""
    return b''.join(run_of(len(list(equal)), part) for part, equal in itertools.groupby(parts))


def sections_left(ns):
    """The words, then zero."""
    out, rest = b'', list(ns)
    while rest:
        count, rest = rest[0], rest[1:]
        out += once(word(count)) + runs_of(words(rest[5 * i:5 * i + 5]) for i in range(count))
        rest = rest[5 * count:]
    zero = SECTIONS - 4 * len(ns)
    return out + (run_of(zero, b'\0') if zero else b'')


def reprint(case):
    given, want = bytes.fromhex(case['in']), case['want']
    _, allowance, page = case['call']
    sizes = (SCRATCH, ROWS, SECTIONS)
    refused = refusal(want)
    if refused:
        left = (scratch_left(refused[0]), b'', b'')
        return [record(REPRINT, case['name'], refused, given, b'', sizes, left, allowance, page)]
    left = (scratch_left(0), row_left(page, want['row']), sections_left(want['sections']))
    return [record(REPRINT, case['name'], (0, page), given, b'', sizes, left, allowance, page)]


def wrong_arguments(call, name, given, sizes, allowance, page):
    """Each table one byte short, and allowances out of range; a short table goes before them."""
    out = []
    for i in range(len(sizes)):
        short = tuple(n - (i == k) for k, n in enumerate(sizes))
        for steps, tag in ((allowance, ''), (0, '-and-allowance')):
            out.append(record(call, f'{name}-table-{i}-short{tag}', (TABLE_TOO_SHORT, 0), given, b'', short, (), steps, page))
    for steps in (0, -1, MOST_STEPS + 1):
        out.append(record(call, f'{name}-allowance-{steps}', (BAD_ALLOWANCE, 0), given, b'', sizes, (), steps, page))
    return out


def from_reprint(case, count):
    """What comes of a reprint that is done."""
    name, given, want = case['name'], bytes.fromhex(case['in']), case['want']
    _, allowance, page = case['call']
    sizes = (SCRATCH, ROWS, SECTIONS)
    left = (scratch_left(0), row_left(page, want['row']), sections_left(want['sections']))
    longer = tuple(n + SPARE for n in sizes)
    out = [record(REPRINT, name + '-longer', (0, page), given, b'', longer, left, allowance, page)]
    out += wrong_arguments(REPRINT, name, given, sizes, allowance, page)
    for n in (-1, count + 1):
        out.append(record(REPRINT, f'{name}-page-{n}', (NO_SUCH_PAGE, 0), given, b'', sizes, (), allowance, n))
        out.append(record(REPRINT, f'{name}-page-{n}-allowance-0', (BAD_ALLOWANCE, 0), given, b'', sizes, (), 0, n))
    return out


def rows_listed(listing):
    rows = re.findall(r'^page (\d+) outcome ([FRB]) errors (\d+) steps (\d+) cells (\d+)$', listing, re.M)
    assert [int(r[0]) for r in rows] == list(range(len(rows)))
    return [['FRB'.index(r[1]) + 1, *map(int, r[2:])] for r in rows]


def rows_wanted(listing, allowance, reprinted):
    """The rows of a run with an allowance. A body that ended within it ends so with any other that is not less."""
    rows = rows_listed(listing)
    for n, row in enumerate(rows):
        if n in reprinted:
            rows[n] = reprinted[n]
        elif row[2] > allowance or row[0] == 3:
            assert allowance == LISTED_STEPS, 'a row that no case says'
    return rows


def asked(cases):
    """Of every master and allowance of a listing or a reprint: its name, and what the reprints say: the rows by page, or the refusal."""
    names, rows, refusals = {}, {}, {}
    for case in cases:
        call, allowance, page = (*case['call'], LISTED_STEPS, 0)[:3]
        key, refused = (case['in'], allowance), refusal(case['want'])
        if call not in ('pages', 'reprint') or refused and refused[0] == NO_SUCH_PAGE:
            continue
        names.setdefault(key, case['name'])
        if refused:
            refusals[key] = refused
        elif call == 'reprint':
            rows.setdefault(key, {})[page] = case['want']['row']
    return [(*key, name, rows.get(key, {}), refusals.get(key)) for key, name in names.items()]


def runs(cases):
    """A run for each of these; of one that is refused, a reprint of page 0 too. The first done with a page has more come from it."""
    listings = {case['in']: case['want'] for case in cases if case['call'] == ['pages']}
    out, sizes, whole = [], (SCRATCH, ROWS), False
    for hexed, allowance, name, reprinted, refused in asked(cases):
        given, name = bytes.fromhex(hexed), name + '-run'
        if refused:
            left = (scratch_left(refused[0]), b'')
            out.append(record(RUN, name, refused, given, b'', sizes, left, allowance))
            out.append(record(REPRINT, name + '-0', refused, given, b'', (*sizes, SECTIONS), left, allowance))
            continue
        rows = rows_wanted(listings[hexed], allowance, reprinted)
        done, left = (0, len(rows) - 1), (scratch_left(0), runs_of(map(words, rows)))
        out.append(record(RUN, name, done, given, b'', sizes, left, allowance))
        if not whole and len(rows) > 1:
            whole = True
            longer = tuple(n + SPARE for n in sizes)
            out.append(record(RUN, name + '-longer', done, given, b'', longer, left, allowance))
            out += wrong_arguments(RUN, name, given, sizes, allowance, 0)
    one = next(case for case in cases if case['call'][0] == 'reprint' and not refusal(case['want']))
    return out + from_reprint(one, len(rows_listed(listings[one['in']])) - 1)


CALLS = {'readback': read_back, 'write': write, 'load': load, 'reprint': reprint, 'pages': lambda case: []}


def last_page():
    """A reprint of the last page that there may be: its row ends where the rows end."""
    want = {'row': [1, 0, 0, 0], 'sections': [0, 50, *[1, 0, 1, 0, 0] * 50, 0]}
    return {'name': 'last-page', 'call': ['reprint', LISTED_STEPS, MOST_PAGES], 'in': most_pages()['in'], 'want': want}


def made():
    cases = [*sources(), most_pages(), last_page()]
    data = b''.join(b''.join(CALLS[case['call'][0]](case)) for case in cases) + b''.join(runs(cases))
    if len(data) > LONGEST:
        sys.exit('the data file is longer than the program reads')
    return data


if __name__ == '__main__':
    data = made()
    if sys.argv[1:] == ['--check']:
        if open(DATA, 'rb').read() != data:
            sys.exit('crates/cases/data/cases is not what tools/cases gives: run tools/make_cases.py')
    else:
        os.makedirs(os.path.dirname(DATA), exist_ok=True)
        open(DATA, 'wb').write(data)
        print(len(data), 'bytes')
