#!/usr/bin/env python3
"""mutants.py [--jobs N] [--most N] [--only TEXT]: single changes of the definitions, and which of them nothing refuses.

A change is one token of one definition in `specs/` of paper, lists, pairing, lister or acceptance: a number one more or less, another
operator, comparison, field, function or corner. Each is tried in a copy of the repository, where its crate is proved. A definition of
paper's, or of lists, is first tried against paper's tables, computed tests and laws of definitions alone (FACTS below), so that a change
that only the text of another proof refuses is seen.

Prints a line for each change that is not refused so: 'proof' with the file whose proof refuses it, 'neutral' with the reason that
tools/neutral.txt gives (a line each: FILE<tab>DEFINITION<tab>OLD<tab>NEW<tab>why), else 'SURVIVES'. Exit status 1 where one survives."""
import argparse
import atexit
import os
import re
import shutil
import subprocess
import sys
import tempfile
from concurrent.futures import ThreadPoolExecutor
from queue import Queue

ROOT = os.path.dirname(os.path.dirname(os.path.abspath(__file__)))
CRATES = ['paper', 'lists', 'pairing', 'lister', 'acceptance']
# the proofs of paper that are facts about definitions, and not steps on the way to other proofs
FACTS = ['Cases', 'Worked', 'Pins', 'Ints', 'Numbers', 'Tables', 'Visits', 'Steps', 'Edges', 'Crossing', 'Records', 'Listing', 'Limits']

SWAPS = {
    '&&': '||', '||': '&&', '+': '*', '*': '+', '-': '+', '++': None, 'leb': 'ltb', 'ltb': 'leb', 'eqb': 'leb', 'any': 'all', 'all': 'any',
    'true': 'false', 'false': 'true', 'take': 'drop', 'drop': 'take', 'min': 'max', '/': '*', '%': '/',
    '.x': '.y', '.y': '.z', '.z': '.x', '.nx': '.ny', '.ny': '.nz', '.nz': '.nx', '.a': '.b', '.b': '.c', '.c': '.a', '.d': '.a',
    'LBN': 'RBN', 'RBN': 'LTN', 'LTN': 'LBF', 'RTN': 'RBF', 'LBF': 'RBN', 'RBF': 'LTF', 'LTF': 'RTF', 'RTF': 'RTN',
    'first_end': 'second_end', 'second_end': 'first_end', 'file_v': 'file_t', 'file_t': 'file_v', 'vertex_room': None,
    'needed': 'needed_slots', 'needed_slots': 'needed', 'samples': 'cubes', 'cubes': 'samples', 'sample_no': 'cube_no',
    'cube_no': 'sample_no', 'sample_at': 'cube_at', 'cube_at': 'sample_at', 'words': 'slots', 'waiting': 'words', 'pos': None,
    'is_in': None, 'not': None, 'air_at': None,
}
TOKEN = re.compile(r"\d+|\.[a-z_]+|[A-Za-z][A-Za-z0-9_']*|&&|\|\||\+\+|[-+*/%]")


def definitions(text):
    """The lines of bodies, each with the name of its definition."""
    name, body, opened = None, False, None
    for number, line in enumerate(text.split('\n')):
        # the names that a definition unfolds, over one line or several
        depth = len(line) - len(line.lstrip())
        opened = depth if line.lstrip().startswith('unfolding') else opened if opened is not None and depth > opened else None
        if opened is not None or re.match(r'\s*(--|use |pub mod|module )', line) or not line.strip():
            continue
        head = re.match(r'\s*(?:unfoldable |abbrev )?(?:pub )?(?:record )?([A-Za-z0-9_]+)( :|\s)', line)
        declared = re.match(r'\s*(unfoldable |abbrev |pub |data )', line)
        if re.match(r'worked', line):
            # a worked value, up to the next definition
            name = None
        if name is None and not declared:
            continue
        if declared:
            name, body = head.group(1) if head else name, False
            record = re.match(r'\s*(?:pub )?record (\S+)', line)
            if record:
                name = record.group(1)
            continue
        if not body:
            body = True
        at = line.index('=') + 1 if re.match(r'\s*%s\b.*=' % re.escape(name or '?'), line) else 0
        yield number, at, name, line


def changes(path):
    """(line number, column, old, new, definition) for each change of a file."""
    for number, at, name, line in definitions(open(path, encoding='utf-8').read()):
        if line.lstrip().startswith(('worked', 'pub ')):
            continue
        for token in TOKEN.finditer(line, at):
            old = token.group()
            if old.isdigit():
                yield number, token.start(), old, str(int(old) + 1), name
                if old != '0':
                    yield number, token.start(), old, str(int(old) - 1), name
            elif SWAPS.get(old):
                yield number, token.start(), old, SWAPS[old], name


def place(room, number):
    """A copy of the repository for one worker, without what rt keeps: a check there begins with what the checks of other checkouts kept."""
    here = os.path.join(room, str(number))
    os.makedirs(here)
    shutil.copytree(os.path.join(ROOT, 'crates'), os.path.join(here, 'crates'), ignore=shutil.ignore_patterns('out', 'must-fail'))
    shutil.copy(os.path.join(ROOT, 'crates.txt'), here)
    subprocess.run(['git', 'init', '-q', here], check=True)
    return here


def refusal(here, crate):
    """Where the first error of a crate's check stands, or None where it is proved."""
    folder = os.path.join(here, 'crates', crate)
    run = subprocess.run(['rt', 'check'], cwd=folder, stdout=subprocess.PIPE, stderr=subprocess.STDOUT, text=True)
    if run.returncode == 0:
        return None
    first = re.search(r'^(?:\./)?(\S+?):\d+:\d+: error', run.stdout, re.M) or re.search(r'^note: (\S+?):\d+:\d+: it is not proved', run.stdout, re.M)
    return first.group(1) if first else 'no place'


def attempt(here, crate, file, change):
    """Where a change is refused: at a fact, else at a proof ('by FILE'), else nowhere (None)."""
    number, column, old, new, _ = change
    path = os.path.join(here, file)
    kept = open(path, encoding='utf-8').read()
    lines = kept.split('\n')
    lines[number] = lines[number][:column] + new + lines[number][column + len(old):]
    library = os.path.join(here, 'crates/paper/proofs/Lib.antt')
    all_laws = open(library, encoding='utf-8').read()
    hidden = []

    def restore():
        open(library, 'w', encoding='utf-8').write(all_laws)
        while hidden:
            name = hidden.pop()
            os.rename(os.path.join(here, 'hidden-' + name), os.path.join(os.path.dirname(library), name))

    try:
        open(path, 'w', encoding='utf-8').write('\n'.join(lines))
        if crate in ('paper', 'lists'):
            # the tables and the computed tests alone
            laws = os.path.dirname(library)
            open(library, 'w', encoding='utf-8').write(''.join(f'pub mod {name}\n' for name in FACTS))
            for name in os.listdir(laws):
                if name != 'Lib.antt' and name[:-5] not in FACTS:
                    hidden.append(name)
                    os.rename(os.path.join(laws, name), os.path.join(here, 'hidden-' + name))
            first = refusal(here, 'paper')
            if first:
                return first
            restore()
            proof = refusal(here, 'paper')
            return proof and 'by ' + proof
        return refusal(here, crate)
    finally:
        restore()
        open(path, 'w', encoding='utf-8').write(kept)


def neutral():
    path = os.path.join(ROOT, 'tools', 'neutral.txt')
    rows = [line.rstrip('\n').split('\t') for line in open(path, encoding='utf-8') if line.strip() and not line.startswith('#')]
    return {tuple(row[:4]): row[4] for row in rows}


def main():
    parser = argparse.ArgumentParser(description=__doc__, formatter_class=argparse.RawDescriptionHelpFormatter)
    parser.add_argument('--jobs', type=int, default=2)
    parser.add_argument('--most', type=int, default=0, help='at most so many changes, spread over all')
    parser.add_argument('--only', default='', help='files whose path holds this')
    args = parser.parse_args()
    todo = []
    for crate in CRATES:
        folder = f'crates/{crate}/specs'
        for name in sorted(os.listdir(os.path.join(ROOT, folder))):
            file = f'{folder}/{name}'
            if name != 'Lib.antt' and args.only in file:
                todo += [(crate, file, change) for change in changes(os.path.join(ROOT, file))]
    if args.most and len(todo) > args.most:
        todo = [todo[i * len(todo) // args.most] for i in range(args.most)]
    print(f'{len(todo)} changes', flush=True)
    known, places = neutral(), Queue()
    # outside the repository, in which rt ci takes no other crates.txt
    room = tempfile.mkdtemp(prefix='mutants-')
    atexit.register(shutil.rmtree, room, ignore_errors=True)
    for number in range(args.jobs):
        places.put(place(room, number))

    def judge(task):
        crate, file, change = task
        here = places.get()
        try:
            return task, attempt(here, crate, file, change)
        finally:
            places.put(here)

    survivors = proofs = 0
    with ThreadPoolExecutor(args.jobs) as pool:
        for (crate, file, (number, _, old, new, name)), first in pool.map(judge, todo):
            why = known.get((file, name or '', old, new), '')
            what = 'neutral' if why else 'SURVIVES'
            if first and first.startswith('by '):
                what, why, proofs = 'proof', first, proofs + 1
            elif first:
                continue
            survivors += what == 'SURVIVES'
            print(f'{what}\t{file}:{number + 1}\t{name}\t{old}\t{new}\t{why}', flush=True)
    print(f'{len(todo)} changes; {survivors} survive that are not known to be neutral; {proofs} are refused by a proof alone')
    sys.exit(1 if survivors else 0)


main()
