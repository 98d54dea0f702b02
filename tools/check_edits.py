#!/usr/bin/env python3
"""check_edits.py: every must-fail edit finds its text, once, in the file that it changes, and docs/ANSWERS.md names it and no other.

The gate tries the edits after all proofs; one that a renaming has left behind shows here at once."""
import glob, os, re, sys

ROOT = os.path.join(os.path.dirname(os.path.abspath(__file__)), '..')


def wrong_with(edit):
    """What is wrong with an edit: a list of words."""
    crate, said, file = os.path.dirname(os.path.dirname(edit)), [], None
    for line in open(edit, encoding='utf-8').read().splitlines():
        if line.startswith('file: '):
            file = line[len('file: '):]
        elif line.startswith('old: '):
            found = open(os.path.join(crate, file), encoding='utf-8').read().count(line[len('old: '):])
            if found != 1:
                said.append(f'its text stands {found} times in {file}')
    name = os.path.basename(crate) + '/' + os.path.basename(edit)[:-len('.edit')]
    if f'`{name}`' not in ANSWERS:
        said.append('docs/ANSWERS.md does not name it')
    return [f'{name}: {words}' for words in said]


def missing():
    """The edits that docs/ANSWERS.md names and that are not there."""
    named = sorted(set(re.findall(r'`([a-z_]+)/([a-z0-9_]+)`', ANSWERS)))
    there = [os.path.exists(os.path.join(ROOT, 'crates', crate, 'must-fail', edit + '.edit')) for crate, edit in named]
    return [f'docs/ANSWERS.md names {crate}/{edit}, which is not there' for (crate, edit), is_there in zip(named, there) if not is_there]


if __name__ == '__main__':
    ANSWERS = open(os.path.join(ROOT, 'docs', 'ANSWERS.md'), encoding='utf-8').read()
    edits = sorted(glob.glob(os.path.join(ROOT, 'crates', '*', 'must-fail', '*.edit')))
    said = [words for edit in edits for words in wrong_with(edit)] + missing()
    print('\n'.join([*said, f'edits: {len(edits)}, {len(said)} to mend']))
    sys.exit(1 if said or not edits else 0)
