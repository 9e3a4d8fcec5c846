#!/usr/bin/env python3
"""Brings the repository's own names of definitions, fields and lemmas to today's spelling: once, at the top, after port.py.

A word is in snake case: `sameAll` becomes `same_all`. A dash stays behind the name of an example alone (`P1-parts`): any other, as in
`tray-by-itself`, becomes `_`. A lemma that would then have the name of a function, of a definition or of something of the library ends in
`_lem`. So does a definition's name in a file of src/ that has a function of that name: it is imported as such, in place of the older
`Label·nearest`.

Every .antt, .rt and .edit file of crates/ and .ci/tried is turned. Names of functions, exported names and strings stay. With --names it
prints the names and writes nothing; it also writes nothing where two names of one file would fall together.
"""
import collections
import os
import re
import sys

TOKEN = re.compile(r"[^\W\d][\w'₀-₉]*(?:-[\w'₀-₉]+)*")
DOTTED = re.compile(r"(?<![\w·])(?!Rattle·)[A-Z]\w*·([^\W\d][\w'₀-₉-]*)")
STRING = re.compile(r'("(?:[^"\\]|\\.)*")')
DECLARED = re.compile(r"^(abbrev |unfoldable )?(?:pub )?(data |record )?([^\s:({]+)(?= .*(?: : | :$|→| where)| :$)")
FIELD = re.compile(r"^ +(?:pub )?([a-zA-Z][^\s:({]*) :")
ITEM = re.compile(r"\b(?:fn|mod) (\w+)|\bconst (\w+)")
USED = re.compile(r"^\s*use (?!Rattle\b)[\w:]*?(\w+)(?:::\{([\w, ]+)\})?;")
# Variables of definitions that would have a field's name.
VARIABLES = {"orderCells": "order_room", "endCells": "end_room", "meanCells": "mean_room", "distanceCells": "distance_room"}
OF_RATTLE = re.compile(r"(returns|loop|invariant|decreases)\b")


def files():
    for top in ("crates", ".ci/tried"):
        for folder, dirs, names in os.walk(top):
            dirs[:] = sorted(d for d in dirs if d != "out")
            for name in sorted(names):
                if name.endswith((".antt", ".rt", ".edit")):
                    yield os.path.join(folder, name)


def snake(word):
    if word[:1].islower() and re.search(r"[A-Z]", word):
        return re.sub(r"(?<=[a-z0-9])([A-Z])", r"_\1", word).lower()
    return word


def turned(name):
    parts = [snake(part) for part in name.split("-")]
    if re.fullmatch(r"P\d+", parts[0]) and len(parts) > 1:
        return parts[0] + "-" + "_".join(parts[1:])
    return "_".join(parts)


def plain(text):
    """The text with no comments and no strings."""
    return re.sub(r'"(?:[^"\\]|\\.)*"|(?<!\S)--.*|//.*', "", text)


def read(texts):
    """The names that lemma files and definitions declare, and which of them are definitions or fields."""
    own, defined = set(), set()
    for path, text in texts.items():
        if not path.endswith(".antt"):
            continue
        of_function = "/proofs/" in path and path.count("/") > 3
        for line in text.splitlines():
            if re.match(r"\s*(use|mod|pub|open)? ?(use|mod|open)\b|--|unfolding", line):
                continue
            m, f = DECLARED.match(line), FIELD.match(line)
            name = m.group(3) if m else f.group(1) if f else None
            if not name or not re.match(r"[^\W\d]", name) or of_function and OF_RATTLE.match(name):
                continue
            own.add(name)
            if f and "-" not in name or m and (m.group(1) or m.group(2)) or "/specs/" in path:
                defined.add(name)
    return own, defined


def items(text):
    """The names that code of a file of src/ has, at which a ghost import may not stand."""
    code = "\n".join(l for l in plain(text).splitlines() if not l.startswith("ghost use"))
    found = {a or b for a, b in ITEM.findall(code)}
    for line in code.splitlines():
        m = USED.match(line)
        if m:
            found.update(re.findall(r"\w+", m.group(2) or m.group(1)))
    return found


def main():
    texts = {path: open(path, encoding="utf-8").read() for path in files()}
    own, defined = read(texts)
    met = collections.Counter()
    for path, text in texts.items():
        if path.endswith(".antt"):
            met.update(set(TOKEN.findall(plain(text))))
    camel = {t for t in met if re.match(r"[a-z][a-z0-9]*[A-Z]", t) and "-" not in t}
    camel -= set(VARIABLES)
    names = {n: turned(n) for n in own | camel if turned(n) != n} | VARIABLES
    taken = set(met) | {turned(n) for n in defined | camel}
    for n in own - defined:
        if "-" in n and turned(n) != n and turned(n) in taken:
            names[n] = turned(n) + "_lem"
    for n in own - defined - camel:
        if "-" not in n and n not in names and any(turned(d) == n and d != n for d in defined | camel):
            names[n] = n + "_lem"
    bad = False
    functions = {f for path, text in texts.items() if path.endswith(".rt") for f in re.findall(r"\bfn (\w+)", text)}

    def word(t):
        head, dash, rest = t.partition("-")
        return names.get(t) or (names[head] + dash + rest if dash and head in names and t not in own else t)

    out = {}
    for path, text in texts.items():
        source = path if path.endswith(".rt") else None
        if path.endswith(".edit"):
            m = re.search(r"(?m)^file: (src/.*)$", text)
            source = os.path.join("crates", path.split("/")[-3 if "/must-fail/" in path else -2], m.group(1)) if m else None
        here = items(texts[source]) if source in texts else set()
        lines = []
        for line in text.split("\n"):
            imports = line.startswith("ghost use")

            def dotted(m):
                return word(m.group(1)) + "_lem"

            def one(m):
                t = word(m.group(0))
                if path.endswith(".edit") and re.match(r"[a-z][a-z0-9]*[A-Z]", t):
                    t = turned(t)
                if t in here and m.group(0) not in here:
                    before, after = line[: m.start()], line[m.end():]
                    return t if imports and after.startswith(" as ") else f"{t} as {t}_lem" if imports else t + "_lem"
                return t

            turn = []
            for i, part in enumerate(STRING.split(line)):
                if i % 2 == 0:
                    line = part
                    part = TOKEN.sub(one, part)
                    part = DOTTED.sub(dotted, part)
                turn.append(part)
            lines.append("".join(turn))
        new = "\n".join(lines)
        if path.endswith(".antt"):
            together = collections.defaultdict(set)
            for t in set(TOKEN.findall(plain(text))):
                together[word(t)].add(t)
            for to, olds in sorted(together.items()):
                if len(olds - functions) > 1:
                    print(f"{path}: {', '.join(sorted(olds))} would all be {to}")
                    bad = True
        if new != text:
            out[path] = new
    if "--names" in sys.argv:
        for n in sorted(names):
            print(n, names[n])
    elif not bad:
        for path, new in out.items():
            with open(path, "w", encoding="utf-8") as f:
                f.write(new)
        print(f"{len(out)} files, {len(names)} names")
    return 1 if bad else 0


if __name__ == "__main__":
    raise SystemExit(main())
