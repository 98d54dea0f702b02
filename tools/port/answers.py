#!/usr/bin/env python3
"""answers.py: proofs that walk the code by position become answers by name.

    python3 tools/port/answers.py CRATE NAMES.json

NAMES.json is what `rt check --generated DIR --old-names` writes in the crate. Each proofs/F/Proof.antt of the form `tie.spec (answer) ..` becomes
Answers.antt and, for loops, Invariants.antt. What it can't place it says, and leaves the file."""
import json, os, re, sys

IDENT = r"[A-Za-z_+ℤℕ◌≡≢≤<>→∙⊎×¬0-9₀-₉'-]+"
CHAIN = re.compile(r"(?<![\w.'-])([a-z][\w'₀-]*)((?:\.[\w'₀+-]+)+)?")


def matching(text, i):
    """Where the parenthesis that opens at i closes."""
    deep = 0
    for j in range(i, len(text)):
        deep += text[j] in '([{'
        deep -= text[j] in ')]}'
        if deep == 0:
            return j
    raise ValueError('open')


def split_args(text):
    args, i = [], 0
    while i < len(text):
        if text[i].isspace():
            i += 1
        elif text[i] == '(':
            j = matching(text, i)
            args.append(text[i:j + 1])
            i = j + 1
        else:
            m = re.match(r"[^\s()]+", text[i:])
            args.append(m.group(0))
            i += len(m.group(0))
    return args


def norm(s):
    """A name without what older scripts made of it."""
    s = s.replace('-', '_').lower()
    return s[:-4] if s.endswith('_lem') else s


def alike(a, b):
    a, b = norm(a), norm(b)
    return a == b or 'is' + b == a or 'is_' + a == b or a == 'is' + b.replace('_', '', 1)


class Names:
    def __init__(self, it):
        self.it = it
        self.place = {p[0]: p for p in it['places']}

    def parent(self, p):
        return self.place[p][1]

    def field(self, p):
        return self.place[p][2]

    def arm(self, p, rest):
        """What an arm of a match calls a step and the path after it, or None."""
        it = self.it['arms'][[q[0] for q in self.it['places']].index(p)]
        best = None
        for new, step, path in (it[2] if it else []):
            if alike(rest[0], step) and rest[1:1 + len(path)] == path and (best is None or len(path) > len(best[1])):
                best = (new, path)
        if best and best[0].endswith('-own') and len(rest) > 1 and re.match(r'keys\d|rest', rest[1]) and it[0].startswith('in_default') and re.match('[A-Z]', self.earlier(p)):
            return [it[0], 'not-' + self.earlier(p)] + rest[2:]
        return [it[0], best[0]] + rest[1 + len(best[1]):] if best else None

    def earlier(self, p):
        """The variant of the arm before p's, of the same match."""
        _, above, (step, _), _, _ = self.place[p]
        arms = [q[2][1] for q in self.it['places'] if q[1] == above and q[2][0] == step]
        k = arms.index(self.place[p][2][1])
        return arms[k - 1][3:] if k else ''

    def record(self, p):
        """What the record of the facts at a place is called in Goals."""
        i = [q[0] for q in self.it['places']].index(p)
        it = self.it['arms'][i]
        return 'In' + it[0][2:] if it else self.it['places_by_name'][i]

    def above(self, p, f):
        """The place above p whose step is f by its old name."""
        while p:
            if self.field(p)[0] and alike(self.field(p)[0], f):
                return p
            p = self.parent(p)
        return None


GLOBALS = {'args', 'requires', 'ranges', 'auto', 'well_formed', 'type_inv', 'utf8'}


def flat(text, names, place, said, top='c', goal=None, takers=()):
    """The text of an answer at a place, its chains made flat."""
    env = {top: place}

    def resolve(head, parts):
        p = env[head]
        while parts and parts[0] == 'before':
            p = names.parent(p) or 'Start'
            parts = parts[1:]
        return p, parts

    out, i = [], 0
    while i < len(text):
        m = re.match(r"let ([a-z][\w'-]*) = ([a-z][\w'-]*)((?:\.before)*) in ", text[i:])
        if m and m.group(2) in env and (i == 0 or not re.match(r"[\w.'-]", text[i - 1])):
            p, rest = resolve(m.group(2), m.group(3).split('.')[1:])
            env[m.group(1)] = p
            i += m.end()
            continue
        m = CHAIN.match(text, i)
        if m and (i == 0 or not re.match(r"[\w.'-]", text[i - 1])):
            head, parts = m.group(1), (m.group(2) or '').split('.')[1:]
            if head in env:
                p, rest = resolve(head, parts)
                if not rest:
                    before = ''.join(out).split()
                    taker = takers.get(before[-1].lstrip('(')) if before and takers else None
                    if taker and goal:
                        out.append(f'(goal.at.{goal} c).{taker}')
                    elif taker:
                        out.append('c')
                    else:
                        said.append(f'{m.group(0)} at {place}: a record is passed')
                        out.append('c')
                else:
                    f = rest[0]
                    old, new = names.field(p)
                    armed = names.arm(p, rest)
                    known = {norm(step): s for s, step in names.it['typed'][[q[0] for q in names.it['places']].index(place)]}
                    if 'known' in f and len(rest) > 1 and rest[1] == 'given' and norm(f) in known:
                        rest = ['type_inv', known[norm(f)]] + rest[2:]
                    elif armed:
                        rest = armed
                    elif old and (alike(f, old) or alike(f, new)):
                        rest[0] = new
                        turn = dict(names.place[p][4])
                        if len(rest) > 1 and rest[1] in turn:
                            rest[1] = turn[rest[1]]
                    elif norm(f) in GLOBALS:
                        rest[0] = norm(f)
                    elif names.above(place, f):
                        q = names.above(place, f)
                        armed = names.arm(q, rest)
                        rest = armed or [names.field(q)[1]] + rest[1:]
                        turn = dict(names.place[q][4])
                        if not armed and len(rest) > 1 and rest[1] in turn:
                            rest[1] = turn[rest[1]]
                    else:
                        said.append(f'{m.group(0)} at {place}: {p} has {names.field(p)}')
                    rest = [r.replace('type-inv', 'type_inv') for r in rest]
                    if len(rest) > 2 and rest[1] in ('new', 'auto') and rest[2].isdigit():
                        callee = next((q[3] for q in names.it['places'] if q[2][1] == rest[0] and q[3]), None)
                        params = names.it['params'].get(callee)
                        if params and int(rest[2]) < len(params):
                            rest[2] = params[int(rest[2])]
                    out.append('c.' + '.'.join(rest))
            else:
                out.append(m.group(0))
            i = m.end()
            continue
        out.append(text[i])
        i += 1
    text = ''.join(out)
    text = re.sub(r"\(?not-(true|false) _ (c\.[\w.'+-]+)\.\1-raw\)?", lambda m: strip(m.group(0), f'{m.group(2)}.{m.group(1)}'), text)
    for m in re.finditer(r"c\.[\w.'+-]+-raw", text):
        said.append(f'raw: {m.group(0)}')
    return text


def strip(whole, inner):
    """The inside of whole, its parentheses dropped if they are a pair."""
    if whole.startswith('(') and whole.endswith(')'):
        return inner
    return ('(' if whole.startswith('(') else '') + inner + (')' if whole.endswith(')') else '')


def invariant(name, text, goal):
    """An invariant or a measure by positions: its variables become fields of l."""
    m = re.match(re.escape(name) + r"((?: [\w'₀]+)*) =\s*", text)
    params = m.group(1).split()
    body = text[m.end():].strip()

    def one(k):
        w = k.group(0)
        if w not in params:
            return w
        return 'l.initial.' + w[:-1] if w.endswith('₀') else 'l.' + w

    return re.sub(r"(?<![\w.'-])[a-z][\w'₀]*(?!['\w-])", one, body)


def decls(text):
    """The declarations of a file after its imports: name, signature, unfolding line, body."""
    got, cur = [], None
    for line in text.split('\n'):
        if line.startswith('module '):
            cur = {'name': line, 'sig': line, 'unfolding': None, 'body': [], 'lead': []}
            got.append(cur)
            continue
        if line and not line[0].isspace() and not line.startswith('--'):
            m = re.match(r"((?:pub |abbrev |unfoldable )*)(\S+) :\s*(.*)$", line)
            if m and not line.startswith('unfolding'):
                cur = {'name': m.group(2), 'sig': line, 'unfolding': None, 'body': [], 'lead': []}
                got.append(cur)
                continue
            if line.startswith('unfolding'):
                cur['unfolding'] = line
                continue
        if cur is None:
            continue
        cur['body'].append(line)
    for d in got:
        d['body'] = '\n'.join(d['body']).strip('\n')
    return got


def without_settled(args, needs, head, settled):
    """The answers without those of goals that are settled now."""
    extra = len(args) - len(needs) - head
    if extra <= 0 or extra > settled:
        return args
    from itertools import combinations
    can = [i for i in range(head, len(args)) if re.match(r'\(λ c\. (search rules|refl|omega arith)\)$', args[i])]
    for gone in combinations(can, extra):
        rest = [a for i, a in enumerate(args) if i not in gone]
        if all((' κs' in a[:9] or not a.startswith('(')) == ('requires' in old) or (not a.startswith('(') and norm(a) == norm(old))
               for a, (old, _) in zip(rest[head:], needs)):
            return rest
    return args


def one_file(crate, path, folder, table):
    said = []
    text = open(path, encoding='utf-8').read()
    lines = text.split('\n')
    head = []
    while lines and lines[0].startswith('--'):
        head.append(lines.pop(0))
    uses = [l for l in lines if l.startswith('use ')]
    rest = '\n'.join(l for l in lines if not l.startswith('use '))
    mod = folder.replace('/', '.')
    key = f'Rattle-{crate}-proofs.{mod}.Lts'
    if key not in table:
        return [f'no names for {key}'], None, None
    names = Names(table[key])
    ds = decls(rest)
    spec = [d for d in ds if d['name'].endswith('_spec') and not d['name'].startswith('module ')]
    if len(spec) != 1:
        return ['no spec'], None, None
    body = spec[0]['body']
    at = body.find('(tie.spec')
    if at < 0:
        return ['no tie.spec'], None, None
    j = matching(body, at)
    args = split_args(body[at + len('(tie.spec'):j])
    loops = table[key]['loops']
    needs = table[key]['needs']
    args = without_settled(args, needs, 2 * len(loops), len(table[key]['settled']))
    k = len(args) - len(needs)
    inv = []
    if k < 0 or k > 2 * max(1, len(loops)) or (k and not loops):
        return [f'{len(args)} answers for {len(needs)} goals, {len(loops)} loops'], None, None
    by_name = {d['name']: d for d in ds}
    used = set()
    takers = {}
    old_places = {norm(q[0]): q[0] for q in table[key]['places']}
    for d in ds:
        m = re.match(r"((?:pub |abbrev )*\S+ : )\(c : tie\.(\S+?)(?: invariant_\w+| decreases_\w+)*\) → (.*)$", d['sig'], re.S)
        if m and norm(m.group(2)) in old_places:
            d['place'] = old_places[norm(m.group(2))]
            takers[d['name']] = names.record(d['place'])
            d['sig'] = f"{m.group(1)}(c : {takers[d['name']]}) → " + flat(m.group(3), names, d['place'], said)
    for d in ds:
        if d.get('place'):
            d['body'] = flat(d['body'], names, d['place'], said, takers=takers)
    for a in args[:k]:
        d = by_name[a]
        used.add(a)
        m = re.match(r"abbrev (\S+) : tie\.((?:invariant|decreases)-\S+)", d['sig'])
        if not m:
            said.append(f'invariant {a}')
            continue
        kind, loop = m.group(2).split('-', 1)
        new = {norm(o): n for (o, n), _ in loops}.get(norm(loop))
        if not new:
            said.append(f'invariant {a}: loop {loop} of {loops}')
            continue
        inv.append((f'{kind}-{new}', invariant(a, d['body'], m.group(2))))
    answers, helpers = [], []
    for a, (old, new), (place, _) in zip(args[k:], needs, table[key]['asked_at']):
        unfolding = spec[0]['unfolding']
        if a.startswith('('):
            t = a[1:-1].strip()
            m = re.match(r"λ c(?: κs)?((?: [\w'-]+)*)\.\s*", t)
            if not m:
                said.append(f'{new}: {t[:60]}')
                continue
            more = m.group(1)
            t = t[m.end():]
            if t in ('search rules', 'search needs'):
                continue
        else:
            if a not in by_name:
                said.append(f'{new}: {a}')
                continue
            d = by_name[a]
            used.add(a)
            m = re.match(re.escape(a) + r" c(?: κs)?((?: [\w'-]+)*) =\s*", d['body'])
            if not m:
                said.append(f'{new}: {d["body"][:80]}')
                continue
            t = d['body'][m.end():]
            more = m.group(1)
            unfolding = d['unfolding']
        if t in ('search rules', 'search needs') and not unfolding:
            continue
        answers.append((new, unfolding, more, flat(t, names, place, said, goal=new, takers=takers)))
    for d in ds:
        if d['name'] not in used and d is not spec[0]:
            helpers.append(d)
    for d in ds:
        if d['name'] in used and any(re.search(r"(?<![\w.'-])" + re.escape(d['name']) + r"(?![\w'-])", e['body']) for e in ds if e is not d and e is not spec[0]):
            said.append(f"{d['name']} is cited by another answer")
    # the texts
    out, invs = None, None
    if answers or helpers:
        text = []
        for d in helpers:
            text.append('\n'.join([d['sig']] + ([d['unfolding']] if d['unfolding'] else []) + [d['body']]) + '\n')
            if re.search(r'\b(tie|lts)\.', d['sig']):
                said.append(f'helper {d["name"]} : {d["sig"]}')
        for name, unfolding, more, t in answers:
            text.append(f'pub {name} : goal.{name}\n' + (unfolding + '\n' if unfolding else '') + f'{name} c{more} =' + ('\n    ' if len(t) > 100 and not t.startswith('let ') else ' ' if not t.startswith('let ') else '\n    ') + t + '\n')
        text = '\n'.join(text)
        records = sorted({v for k, v in takers.items()})
        out = '\n'.join(head + imports(uses, text) + [f'use Rattle.{crate}.proofs.{mod}.Goals as goal'] + ([f'use Rattle.{crate}.proofs.{mod}.Goals.{{{", ".join(records)}}}'] if records else []) + ['', text])
    if inv:
        text = '\n'.join(f'abbrev pub {n} : goal.{n}\n{n} l = {t}\n' for n, t in inv)
        invs = '\n'.join(imports(uses, text) + [f'use Rattle.{crate}.proofs.{mod}.Given as goal', '', text])
    return said, out, invs


WORDS = re.compile(r"[^\s(){},;.]+")


def imports(uses, text):
    """The imports that a text uses."""
    words = set(WORDS.findall(text))
    spaced = set(text.replace('(', ' ').replace(')', ' ').replace(',', ' ').split())
    got = []
    for u in uses:
        m = re.match(r"use (\S+)\.\{(.*)\}$", u)
        if not m:
            if not re.search(r'\.(Statement|Tie)\b', u):
                got.append(u)
            continue
        if m.group(1).endswith(('.Statement', '.Tie')):
            continue
        keep = []
        for n in m.group(2).split(','):
            n = n.strip()
            w = n.split(' as ')[-1]
            parts = [p for p in w.split('◌') if p]
            if '◌' in w and all(p in text for p in parts) or w in words or w in spaced:
                keep.append(n)
        if keep:
            got.append(f'use {m.group(1)}.{{{", ".join(keep)}}}')
    return got


def main(crate, names):
    table = json.load(open(names))
    top = f'crates/{crate}/proofs'
    bad = 0
    for folder, _, files in sorted(os.walk(top)):
        if 'Proof.antt' not in files:
            continue
        path = os.path.join(folder, 'Proof.antt')
        said, out, invs = one_file(crate, path, os.path.relpath(folder, top), table)
        for s in said:
            print(f'{path}: {s}')
        bad += bool(said)
        if out is None and invs is None and said:
            continue
        os.remove(path)
        for n, t in (('Answers.antt', out), ('Invariants.antt', invs)):
            if t:
                open(os.path.join(folder, n), 'w', encoding='utf-8').write(t)
    print(f'{bad} files with something said')


if __name__ == '__main__':
    main(sys.argv[1], sys.argv[2])
