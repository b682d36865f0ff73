#!/usr/bin/env python3
"""Respells the repository's own names: words in snake case, and a dash only beside an operator.

usage: tools/respell.py [--check]      at the top of the repository, once

A name is the repository's own if an .antt file of crates/ declares it: a definition, a lemma, a
record's field, a constructor or a local. `nearestTick` and `near-first` become `nearest_tick` and
`near_first`. Types, modules, names with an operator in them, names of the library and names that
are made for goals (proofs/*/Proof.antt declares those) stay. Where two names of one file would fall
together, a lemma that would get its definition's name gets `_lem`. Pages (README.md, docs/) follow
where a name stands in code marks. --check writes nothing and says what would fall together.
"""

import os
import re
import sys

TOKEN = re.compile(r"[^\s(){}.,;:\[\]\"`|]+")
PLAIN = re.compile(r"^[A-Za-z][A-Za-z0-9_'₀-₉]*(-[A-Za-z0-9_'₀-₉]+)*$")
DECLARED = re.compile(
    r"^\s*(?:(?:pub|abbrev|unfoldable)\s+)*([^\s(){}.,;:\[\]\"`|=]+)(?:\s*\{[^}]*\})?\s+:\s"
)
LOCAL = re.compile(r"\blet\s+([^\s(){}.,;:\[\]\"`|=]+)\s+[:=]")
OF_GOALS = re.compile(r"(tie|goal)\.(Need|invariant|decreases)")
MARKED = re.compile(r"`[^`\n]*`")
HUMP = re.compile(r"(?<=[a-z0-9])([A-Z])")

# names that would fall together with a definition's: a lemma named like it
APART = {
    n: n + "_lem" for n in ("is_digit", "line_read", "all_digits", "sum_told", "held_by")
}


def antt_files(root):
    for folder, dirs, files in os.walk(os.path.join(root, "crates")):
        dirs[:] = sorted(d for d in dirs if d not in ("out", ".git"))
        for name in sorted(files):
            if name.endswith((".antt", ".rt")):
                yield os.path.join(folder, name)


def code_of(line):
    """A line without its comment: `--` at its head or after a space."""
    if line.startswith("--"):
        return ""
    return re.split(r"\s--\s", line)[0]


def declared(root):
    names = set()
    for path in antt_files(root):
        if not path.endswith(".antt"):
            continue
        walk = path.endswith("/Proof.antt")
        with open(path, encoding="utf-8") as f:
            for line in f:
                line = code_of(line)
                found = DECLARED.match(line)
                if found and not (walk and OF_GOALS.search(line)):
                    names.add(found.group(1))
                names.update(LOCAL.findall(line))
    return {n for n in names if PLAIN.match(n)}


def imported(root):
    """The names that come from the library, as `use` lines bring them."""
    names = set()
    use = re.compile(r"^(?:ghost )?use ([^\s{]+?)\.?\{([^}]*)\}")
    for path in antt_files(root):
        with open(path, encoding="utf-8") as f:
            for line in f:
                found = use.match(line)
                if not found:
                    continue
                module = found.group(1)
                ours = module.startswith("Rattle.") and not module.startswith("Rattle.std.")
                if not ours:
                    parts = found.group(2).split(",")
                    names.update(part.split(" as ")[0].strip() for part in parts)
    return names


def respelled(name):
    if name in APART:
        return APART[name]
    if name in BESIDE:
        return BESIDE[name]
    if name[0].isupper() and "-" not in name:
        return name
    if name[0].isupper():
        head, _, rest = name.partition("-")
        return head + "_" + respelled(rest)
    return HUMP.sub(lambda m: "_" + m.group(1).lower(), name).replace("-", "_")


def table(root):
    """The names that change. A lemma with a dash that would get its definition's name gets _lem."""
    names = declared(root) - imported(root)
    BESIDE.clear()
    BESIDE.update({n: respelled(n) + "_lem" for n in names if "-" in n and clashes(root, names, n)})
    return {n: respelled(n) for n in names if respelled(n) != n}


def clashes(root, names, name):
    """Whether another name of a file that has this one would be spelled alike."""
    new = respelled(name)
    if not ALIKE:
        for path in antt_files(root):
            if path.endswith(".antt"):
                seen = {}
                for t in tokens_of(path) & names:
                    seen.setdefault(respelled(t), set()).add(t)
                for spelled, olds in seen.items():
                    if len(olds) > 1:
                        ALIKE.setdefault(spelled, set()).update(olds)
        ALIKE.setdefault("", set())
    return any("-" not in other for other in ALIKE.get(new, ()))


ALIKE = {}
BESIDE = {}


def tokens_of(path):
    tokens = set()
    with open(path, encoding="utf-8") as f:
        for line in f.read().split("\n"):
            code = code_of(line)
            if code.startswith("use "):
                code = code.partition("{")[2]
            tokens.update(TOKEN.findall(code))
    return tokens


def turn_code(text, names):
    lines = []
    for line in text.split("\n"):
        code = code_of(line) if not line.lstrip().startswith("//") else ""
        rest = line[len(code):]
        code = TOKEN.sub(lambda m: names.get(m.group(0), m.group(0)), code)
        lines.append(code + turn_marked(rest, names))
    return "\n".join(lines)


def turn_clauses(text, names):
    """Of a .rt file, `ghost use` items, clauses, and the names in code marks of a comment."""
    out, depth, ghost = [], 0, False
    for line in text.split("\n"):
        start = line.lstrip()
        if start.startswith("//"):
            line = turn_marked(line, names)
        elif depth or ghost or re.match(r"(ghost use|requires|ensures|ghost)\b", start):
            line = TOKEN.sub(lambda m: names.get(m.group(0), m.group(0)), line)
            if re.match(r"ghost use\b", start) or ghost:
                ghost = not line.rstrip().endswith(";")
            else:
                depth += line.count("{") - line.count("}")
        out.append(line)
    return "\n".join(out)


def turn_marked(text, names):
    """The names in code marks."""
    return MARKED.sub(
        lambda m: TOKEN.sub(lambda t: names.get(t.group(0), t.group(0)), m.group(0)), text
    )


def together(root, names):
    """Files in which two names would become one."""
    for path in antt_files(root):
        if path.endswith(".rt"):
            continue
        seen = {}
        for t in tokens_of(path):
            seen.setdefault(names.get(t, t), set()).add(t)
        for new, olds in seen.items():
            if len(olds) > 1:
                yield path, new, sorted(olds)


def main():
    root = os.getcwd()
    names = table(root)
    if "--check" in sys.argv:
        for path, new, olds in together(root, names):
            print(os.path.relpath(path, root), new, olds)
        print(len(names), "names")
        return
    for path in antt_files(root):
        with open(path, encoding="utf-8") as f:
            old = f.read()
        new = turn_code(old, names) if path.endswith(".antt") else turn_clauses(old, names)
        if new != old:
            with open(path, "w", encoding="utf-8") as f:
                f.write(new)
    papers = sorted(p for p in os.listdir("docs") if p.endswith(".md"))
    pages = ["README.md"] + [os.path.join("docs", p) for p in papers]
    for page in pages:
        with open(page, encoding="utf-8") as f:
            old = f.read()
        new = turn_marked(old, names)
        if new != old:
            with open(page, "w", encoding="utf-8") as f:
                f.write(new)


main()
