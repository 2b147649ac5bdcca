#!/usr/bin/env python3
"""edits.py [LOG]: whether every must-fail edit still fits its crate: each 'old:' text stands exactly once in its file, after the pairs
before it. With LOG, what rt ci or rt must-fail printed, also whether the prover refused each for what the edit says, and not only for a
name that is missing: rt says which edits are refused only because a proof file names what the edit took away, and which cannot be read."""
import glob
import os
import re
import sys

ROOT = os.path.dirname(os.path.dirname(os.path.abspath(__file__)))
# rt's line for an edit, and how one begins that the prover refused
SAID = re.compile(r'^rt: must-fail (\S+?)/(\S+)\.edit: (.*)$', re.M)
REFUSED = 'refused, as it must be'
# what stands in the line of one that is refused for a missing name: rt's own words, else the prover's
NAMELESS = re.compile(r'only because a proof file names|can be named from here|not in scope|no field')


def misfit(edit):
    """What keeps an edit from being applied, or nothing."""
    crate = os.path.dirname(os.path.dirname(edit))
    texts, name, old, pairs = {}, None, None, 0
    for line in open(edit, encoding='utf-8').read().split('\n'):
        if line.startswith('file: '):
            name = line[6:]
            path = os.path.join(crate, name)
            if not os.path.isfile(path):
                return f'there is no {name}'
            texts.setdefault(name, open(path, encoding='utf-8').read())
        elif line.startswith('old: '):
            old = line[5:]
        elif line.startswith('new:'):
            if name is None or not old:
                return "a 'new:' without its 'file:' and 'old:'"
            if texts[name].count(old) != 1:
                return f'{texts[name].count(old)} times in {name}: {old}'
            texts[name] = texts[name].replace(old, line[5:])
            old, pairs = None, pairs + 1
    return None if pairs else 'no pair of texts'


def unproved(said):
    """What rt says of an edit, where that is not that the prover refuses what it says."""
    if said is None:
        return 'rt says nothing of it'
    return said if not said.startswith(REFUSED) or NAMELESS.search(said) else None


def main():
    bad, said = 0, {}
    if len(sys.argv) > 1:
        with open(sys.argv[1], encoding='utf-8', errors='replace') as log:
            said = {found.groups()[:2]: found[3] for found in SAID.finditer(log.read())}
    edits = sorted(glob.glob(os.path.join(ROOT, 'crates', '*', 'must-fail', '*.edit')))
    for edit in edits:
        crate, label = edit.split(os.sep)[-3], os.path.basename(edit)[:-5]
        why = misfit(edit)
        if not why and len(sys.argv) > 1:
            why = unproved(said.get((crate, label)))
        if why:
            bad += 1
            print(f'{crate}/{label}: {why}')
    print(f'{len(edits)} edits, {bad} that do not fit')
    return 1 if bad else 0


if __name__ == '__main__':
    sys.exit(main())
