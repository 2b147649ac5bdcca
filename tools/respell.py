#!/usr/bin/env python3
"""Respells the repository's own definitions and lemmas: words in snake_case, types and modules in CamelCase.

    python3 tools/respell.py [--say]

It goes over crates/*/{src,specs,proofs,must-fail}. What it turns: names that a file of specs/ or proofs/ declares or binds, where they are declared and
wherever they are used. What it leaves: names that come from another library, names that the check makes (`tie.Need-..`, the fields of a step), functions of
src/ (a definition may have the name of the function that computes it), strings. A lemma whose name would fall together with a definition's gets the ending
_law. It stops and writes nothing where two names of one file still would. `--say` prints the names and writes nothing.
"""

import collections
import glob
import re
import sys

TOKEN = re.compile(r"[^\s(){}.;,@\"«»`\[\]⌜⌝⟦⟧|]+")
MADE = ("Statement", "Tie", "Met", "Code", "Reads", "Lts", "Kinds", "Goals", "Given")
NAME = re.compile(r"[A-Za-z][A-Za-z0-9_'→-]*")


def odd(t):
    if not NAME.fullmatch(t) or t.startswith("-"):
        return False
    return "-" in t or "→" in t or (t[0].islower() and any(c.isupper() for c in t))


def turned(t):
    if not odd(t):
        return t
    tail = t[len(t.rstrip("'")):]
    t = t.rstrip("'")
    if "→" in t:
        return "_to_".join(turned(p[:1].lower() + p[1:]) if p else p for p in t.split("→")) + tail
    if t[0].isupper():
        return "".join(p[:1].upper() + p[1:] for p in re.split(r"[-_]", t)) + tail
    t = t.replace("-", "_")
    t = re.sub(r"(?<=[a-z0-9])([A-Z]+)", lambda m: "_" + m[1].lower(), t)
    return re.sub(r"(?<=_)[A-Z]+", lambda m: m[0].lower(), t) + tail


def uses(text):
    """(module, [(name, alias)], whole alias) of each use line"""
    for m in re.finditer(r"(?m)^[ \t]*(?:ghost )?(?:pub )?use ([^\s{;]+?)(?:\.\{([^}]*)\})?(?: as ([^\s;]+))?;?[ \t]*$", text):
        names = []
        for leaf in (m[2] or "").split(","):
            if leaf.strip():
                a, _, b = leaf.strip().partition(" as ")
                names.append((a.strip(), b.strip()))
        yield m[1], names, m[3]


def own_module(module, crates):
    p = module.split(".")
    if p[0] != "Rattle" or len(p) < 4 or p[1] not in crates:
        return False
    return p[3] not in ("declared", "contracts") if p[2] == "specs" else not any(q in MADE for q in p[4:])


def pieces(text, rust):
    """(start, end, kind) with kind code, comment or string"""
    at, i, n = 0, 0, len(text)
    mark = "//" if rust else "--"
    while i < n:
        if text.startswith(mark, i) and (rust or i == 0 or text[i - 1] in " \n\t") and (rust or text[i + 2:i + 3] in (" ", "\n", "")):
            yield at, i, "code"
            j = text.find("\n", i)
            j = n if j < 0 else j
            yield i, j, "comment"
            at = i = j
        elif text[i] == '"' and not (rust and text[i - 1] == "'"):
            yield at, i, "code"
            j = i + 1
            while j < n and text[j] != '"':
                j += 2 if text[j] == "\\" else 1
            yield i, j + 1, "string"
            at = i = j + 1
        else:
            i += 1
    yield at, n, "code"


def main():
    say = "--say" in sys.argv[1:]
    crates = {p.split("/")[1] for p in glob.glob("crates/*/src")}
    antt = sorted(glob.glob("crates/*/specs/**/*.antt", recursive=True) + glob.glob("crates/*/proofs/**/*.antt", recursive=True))
    rt = sorted(glob.glob("crates/*/src/**/*.rt", recursive=True))
    text = {f: open(f, encoding="utf-8").read() for f in antt + rt}
    walks = {f for f in antt if f.endswith("/Proof.antt")}

    # what each file takes from elsewhere
    foreign = {}
    for f, t in text.items():
        foreign[f] = set()
        for module, names, _ in uses(t):
            if not own_module(module, crates):
                for a, b in names:
                    foreign[f].add(a)
    # what the files of specs/ and the lemmas declare or bind
    declared = set()
    for f in antt:
        if f in walks:
            continue
        for a, b, kind in pieces(text[f], False):
            for m in TOKEN.finditer(text[f], a, b) if kind == "code" else ():
                if odd(m[0]) and m[0] not in foreign[f] and text[f][m.start() - 1] != ".":
                    declared.add(m[0])

    fallen, short = set(), set()

    def turn(f):
        t = text[f]
        rust = f.endswith(".rt")
        out, seen = [], collections.defaultdict(set)
        for a, b, kind in pieces(t, rust):
            part = t[a:b]
            if kind == "string":
                out.append(part)
                continue

            def one(m):
                w = m[0]
                i = a + m.start()
                after_dot = i > 0 and t[i - 1] == "."
                alone = not after_dot and t[i + len(w):i + len(w) + 1] != "."
                if not odd(w):
                    if w in short and alone and kind == "code" and "/proofs/" in f and w not in foreign[f]:
                        seen[w + "_law"].add(w)
                        return w + "_law"
                    if alone and kind == "code":
                        seen[w].add(w)
                    return w
                quoted = i > 0 and t[i - 1] == "`"
                if kind == "comment" and not (w in declared and (quoted or "-" not in w)):
                    return w
                if rust and kind == "code" and w not in declared and ("-" in w or w[0].isupper()):
                    return w
                if w in foreign[f] and not after_dot:
                    seen[w].add(w)
                    return w
                if (f in walks or after_dot) and w not in declared:
                    if after_dot or w[0].isupper():
                        return w
                new = turned(w) + ("_law" if w in fallen else "")
                if kind == "code" and not after_dot:
                    seen[new].add(w)
                return new

            out.append(TOKEN.sub(one, part))
        return "".join(out), {k: v for k, v in seen.items() if len(v) > 1}

    # a lemma whose name falls together with a definition's gets the ending _law
    camel = {turned(d) for d in declared if "-" not in d}
    fallen |= {d for d in declared if "-" in d and turned(d) in camel}
    for f in antt:
        for k, v in turn(f)[1].items():
            fallen |= {w for w in v if "-" in w}
            if k in v and "/proofs/" in f and not any("-" in w for w in v):
                short.add(k)
    bad, new = 0, {}
    for f in text:
        new[f], fall = turn(f)
        if f.endswith(".rt"):
            fall = {}
        for k, v in sorted(fall.items()):
            print(f"together: {f}: {k} of {', '.join(sorted(v))}")
            bad += 1
    if say:
        for d in sorted(declared):
            print(d, turned(d))
    if bad or say:
        return 1 if bad else 0
    n = 0
    for f in text:
        if new[f] != text[f]:
            open(f, "w", encoding="utf-8").write(new[f])
            n += 1
    # edits: the names that were turned above
    known = {w for t in new.values() for w in TOKEN.findall(t)}
    for f in sorted(glob.glob("crates/*/must-fail/*.edit")):
        t = open(f, encoding="utf-8").read()

        def one(m):
            if not odd(m[0]) or not (m[0] in declared or ("-" not in m[0] and turned(m[0]) in known)):
                return m[0]
            return turned(m[0]) + ("_law" if m[0] in fallen else "")

        u = TOKEN.sub(one, t)
        if u != t:
            open(f, "w", encoding="utf-8").write(u)
            n += 1
    print(f"{n} files")
    return 0


if __name__ == "__main__":
    raise SystemExit(main())
