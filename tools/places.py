#!/usr/bin/env python3
"""Counts the places in crates/*/src that docs/DESIGN-PASS.md speaks of, by its points 1 to 8, by text alone.

usage: python3 tools/places.py [FOLDER] [--list]     FOLDER is the top of a checkout (default: this one)

What it finds is a place to look at, and not always one to change; the page says which stay, and why."""
import collections
import pathlib
import re
import sys

HEAD = re.compile(r'^(\s*)(?:pub )?(?:extern "C" )?fn (\w+)')


class Function:
    def __init__(self, crate, file, line, name, comment, head, clauses, body):
        self.crate, self.file, self.line, self.name = crate, file, line, name
        self.comment, self.head, self.clauses, self.body = comment, head, clauses, body

    def place(self):
        return f'{self.file}:{self.line} {self.name}'


def functions(top):
    for path in sorted(top.glob('crates/*/src/*.rt')):
        lines = path.read_text().split('\n')
        crate, file = path.parts[-3], str(path.relative_to(top))
        i = 0
        while i < len(lines):
            m = HEAD.match(lines[i])
            if not m:
                i += 1
                continue
            indent, name = m.group(1), m.group(2)
            start = i
            comment = []
            j = i - 1
            while j >= 0 and (lines[j].strip().startswith('//') or lines[j].strip().startswith('#[')):
                comment.insert(0, lines[j].strip())
                j -= 1
            k = i
            while not (lines[k] == indent + '{' or lines[k].rstrip().endswith(') {') or re.search(r'-> .*[^=] \{$', lines[k])
                       or lines[k].rstrip().endswith(';')):
                k += 1
            if lines[k].rstrip().endswith(';'):
                i = k + 1
                continue
            e = k + 1
            while lines[e] != indent + '}':
                e += 1
            text = '\n'.join(lines[start:k + 1])
            cut = re.search(r'\n\s*(requires|ensures|ghost|where)\b', text)
            head = text[:cut.start()] if cut else text
            clauses = text[cut.start():] if cut else ''
            yield Function(crate, file, start + 1, name, ' '.join(comment), head, clauses, '\n'.join(lines[k + 1:e]))
            i = e + 1


def conjuncts(clauses):
    """The facts of the `requires` clauses, each once, with the names of what they speak of left as they are."""
    facts = set()
    for text in re.findall(r'requires\s*\w*\s*\{(.*?)\}\n', clauses + '\n', re.S):
        text = re.sub(r'let \w+ = .*? in\s', '', text, flags=re.S)
        for fact in text.split('×'):
            fact = re.sub(r'\s+', ' ', fact).strip()
            while fact.startswith('(') and fact.endswith(')') and fact.count('(') == fact.count(')'):
                fact = fact[1:-1].strip()
            if fact:
                facts.add(fact)
    return facts


KEYWORDS = {'fn', 'pub', 'let', 'mut', 'if', 'else', 'for', 'in', 'while', 'return', 'as', 'match', 'true', 'false', 'break', 'self'}


def skeleton(f):
    """Head and body with names, types and numbers in the order of their first use."""
    seen = {}
    out = []
    for token in re.findall(r'\w+|[^\s\w]', re.sub(r'//.*', '', f.head[f.head.index('('):] + f.body)):
        if re.match(r'\w', token) and token not in KEYWORDS:
            token = '$%d' % seen.setdefault(token, len(seen))
        out.append(token)
    return tuple(out)


def places(top):
    fs = list(functions(top))
    found = collections.OrderedDict()

    def put(point, what, list_):
        found[(point, what)] = sorted(set(list_))

    put(1, 'a struct of C with a refusal number as the result',
        [f.place() for f in fs if re.search(r'-> (Verdict|Built|Wrote|Got|Found|Loaded|Ready)\b', f.head)])
    put(1, 'a refusal as a number written in a literal',
        [f'{f.place()} +{n}' for f in fs for n, l in enumerate(f.body.split('\n')) if re.search(r'\bnumber: ([1-9]|n)|return [1-9][0-9]?;$|^\s*[67]$', l)
         and 'usize' in f.head + 'usize' and not f.crate == 'printer'])
    put(1, 'a number that stands for none',
        [f.place() for f in fs if re.search(r'-> (usize|Spot)', f.head)
         and re.search(r', or (V|T|n|nt|12|their count|7 × samples|the number of cubes|as many)\b|or n where|or the number of cubes where|else 7 × samples|'
                       r'past V where|past its end|where the word is 0|else as many|else `wide`|Where t is|The same\b.*triangle by triangle|'
                       r'The same for the (vertices|triangles)|behind all vertices', f.comment)])
    put(1, 'a flag or a kind as a number', [f.place() for f in fs if re.search(r'\bkind: usize\b|\bfrom: u32\b|\b(off|halfway): bool|\bd: usize\) -> usize', f.head)])
    groups = collections.defaultdict(list)
    for f in fs:
        s = skeleton(f)
        if len(s) >= 22:
            groups[s].append(f)
    put(2, 'functions alike but for names, types and numbers', [' = '.join(f.place() for f in g) for g in groups.values() if len(g) > 1])
    put(2, 'functions of one name but for a type or a width',
        [f.place() for f in fs if re.search(r'_(u16|u32|i16|i32)s?$|trailer[24]$|^clear_(words|list)$|^signed_of$|^first_(bad|outside|untaken)', f.name)])
    put(3, 'while', [f'{f.place()} +{n}' for f in fs for n, l in enumerate(f.body.split('\n')) if re.match(r"\s*('\w+: )?while ", l)])
    put(3, 'for over numbers that only index', [f'{f.place()} +{n}' for f in fs for n, l in enumerate(f.body.split('\n'))
                                                if (m := re.match(r"\s*('\w+: )?for (\w+) in [^.]*\.\.", l))
                                                and re.search(r'\[(\w+ \+ )?%s\]' % m.group(2), f.body)])
    put(4, 'equality by hand', [f.place() for f in fs if re.match(r'same_(sizes|triangle|record|word)$', f.name)])
    put(4, 'conversion by hand', [f.place() for f in fs if re.match(r'(start|rule|level)_if$|signed_of$|bits_of$|magnitude$', f.name)])
    put(4, 'printing by hand', [f.place() for f in fs if 'impl Print' in f.head and re.match(r'(say|decimal|number|signed|natural|text|refused|counts|vertex|triangle)', f.name)])
    counts = collections.defaultdict(list)
    for f in fs:
        if f.crate != 'cabi_c':
            for fact in conjuncts(f.clauses):
                counts[fact].append(f.place())
    put(5, 'a fact that three or more contracts ask for', [f'{len(v)} {k}' for k, v in counts.items() if len(v) >= 3])
    together = [('samples', 'sizes'), ('rows', 'may'), ('rows', 'vis'), ('table', 'counts'), ('corners', 'steps'), ('bytes', 'nv'), ('off', 'dirs'), ('x', 'y', 'z'),
                ('slots', 'vertices', 'first'), ('vis', 'due', 'waiting'), ('words', 'waiting', 'slots')]
    put(5, 'functions whose parameters travel together',
        ['%d %s' % (n, ', '.join(names)) for names in together
         if (n := sum(all(re.search(r'\b%s: ' % name, f.head) for name in names) for f in fs if f.crate != 'cabi_c')) >= 3])
    put(6, 'parallel arrays, flat tables, buffers with a length beside',
        [f.place() for f in fs if re.search(r'\[usize; (24|36|576)\]|\btable: &(mut )?\[u16\]|off: &\[usize\]|due: &mut \[u64\].*\n?.*waiting: &mut \[u32\],?\s*h', f.head)])
    put(7, 'a step chosen by a number', [f.place() for f in fs if re.search(r'if (k|i|d|kind) == \d', f.body) or re.search(r'\boff: bool', f.head)])
    proofs = [p for p in top.glob('crates/*/proofs/**/*.antt')]
    lines = [(f'{p.relative_to(top)}:{n + 1}', l) for p in proofs for n, l in enumerate(p.read_text().split('\n'))]
    put(8, 'lines of proof that go round by a raw flag', [at for at, l in lines if re.search(r'-raw\b', l)])
    put(8, 'lines of proof over 140 characters', [at for at, l in lines if len(l) > 140])
    return found, len(fs), len(lines), sum(1 for p in proofs if p.name == 'Answers.antt')


def main():
    args = [a for a in sys.argv[1:] if not a.startswith('--')]
    top = pathlib.Path(args[0] if args else pathlib.Path(__file__).resolve().parent.parent)
    found, count, lines, answers = places(top)
    print(f'{count} functions; {lines} lines of proof, {answers} files of answers')
    for (point, what), list_ in found.items():
        print(f'{point}  {len(list_):4}  {what}')
        if '--list' in sys.argv:
            for place in list_:
                print('          ' + place)


if __name__ == '__main__':
    main()
