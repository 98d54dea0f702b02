#!/usr/bin/env python3
"""edits.py: must-fail edits in today's spelling, by the text alone.

    python3 tools/port/edits.py LANDED

LANDED is a checkout of the last commit before the port. Each edit's texts are turned as the scripts turned the files: fields are written tight, what a
reference points to is .now, .old and .new, names are respelled as the file's own lines were. An edit whose text then does not stand once is named."""
import difflib, glob, os, re, sys
sys.path.insert(0, os.path.dirname(os.path.abspath(__file__)))
import respell


def words(text):
    return re.findall(r"[\w'′◌ℕℤ≡≢≤<>→-]+|\s+|.", text)


def spellings(landed):
    """Old word to new word, from the lines of each file and what stands for them now."""
    got = {}
    for path in glob.glob('crates/*/s[rp]*/**/*', recursive=True):
        old = os.path.join(landed, path)
        if not (path.endswith(('.rt', '.antt')) and os.path.exists(old)):
            continue
        a = tight(open(old, encoding='utf-8').read()).split('\n')
        b = open(path, encoding='utf-8').read().split('\n')
        for op, i, j, k, l in difflib.SequenceMatcher(None, [loose(x) for x in a], [loose(x) for x in b], autojunk=False).get_opcodes():
            if op != 'equal':
                continue
            for x, y in zip(a[i:j], b[k:l]):
                u, v = words(x), words(y)
                if len(u) == len(v):
                    for p, q in zip(u, v):
                        if p != q and re.match(r'[a-z]\w', p) and re.match(r'[a-z]\w', q):
                            got.setdefault(p, {}).setdefault(q, 0)
                            got[p][q] += 1
    return {p: max(q, key=q.get) for p, q in got.items()} | {'getD': 'get_or'}


def loose(line):
    return re.sub(r'[^a-z0-9]', '', line.lower())


def tight(text):
    """Fields without a space before them, and what references point to."""
    text = re.sub(r"now \((\w+) \.entry\)", r"\1.old", text)
    text = re.sub(r"now \((\w+) \.exit\)", r"\1.new", text)
    text = re.sub(r"now (\w+)", r"\1.now", text)
    text = re.sub(r"(?<=[\w)'\]]) \.(?=[\w])", '.', text)
    before = None
    while before != text:
        before = text
        text = re.sub(r"(?<![\w'])\(([\w'-]+(?:\.[\w'-]+)+)\)", r"\1", text)
    return text.replace('′', "'")


def turned(text, names):
    return ''.join(names.get(w, w) for w in words(tight(text)))


def main(landed):
    names = spellings(landed)
    for k in list(names):
        if re.match(r'^[A-Z]', k) and not names[k][0].isupper():
            del names[k]
    bad = 0
    for path in sorted(glob.glob('crates/*/must-fail/*.edit')):
        source = os.path.join(landed, path)
        lines, file, code = [], None, False
        for line in open(source, encoding='utf-8').read().split('\n'):
            m = re.match(r'(file|old|new): (.*)$', line)
            if m and m.group(1) == 'file':
                file = m.group(2)
                code = file.endswith('.rt')
            elif m:
                crate = path.split('/')[1]
                now = open(f'crates/{crate}/{file}', encoding='utf-8').read()
                t = m.group(2)
                if m.group(1) == 'old':
                    as_is = now.count(t) == 1
                    if not as_is:
                        t = turned(t, names)
                        if now.count(t) != 1:
                            bad += 1
                            print(f'{path}: {now.count(t)} times in {file}: {t}')
                elif not as_is:
                    t = turned(t, names)
                elif not code:
                    t = turned(t, names)
                line = f'{m.group(1)}: {t}'
            lines.append(line)
        open(path, 'w', encoding='utf-8').write('\n'.join(lines))
    print(f'{bad} to mend by hand')


if __name__ == '__main__':
    main(sys.argv[1])
