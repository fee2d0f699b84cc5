#!/usr/bin/env python3
"""Spells the repository's own definitions, lemmas and record fields in snake case: `sheetItems` as `sheet_items`, `drop-next` as `drop_next`.

usage: tools/respell.py [--check]

It reads which names the files of specs/ and proofs/ declare, and rewrites them there, in the ghost imports and clauses of src/, and between
backticks in the pages of docs/ and README.md. Functions of src/, exported names, strings and files of data keep theirs. A name that the library also
has keeps its spelling where it has a dash. It prints each place where two names would fall together, and with --check it writes nothing.
"""

import os
import re
import sys

DECLARED = re.compile(r"^( {0,6})((?:(?:abbrev|unfoldable|pub|private|opaque) +)*)([^\s:(){}.,;\[\]]+) :(?: |$)")
CAMEL = re.compile(r"(?<=[a-z0-9])[A-Z]|(?<=[A-Z])[A-Z](?=[a-z])")
TOKEN = re.compile(r"[^\s(){}\[\].,;@`\"«»]+")
IMPORT = re.compile(r"\buse\s+((?!Rattle\.)[\w.+'-]+|Rattle\.(?:std|core|io)[\w.+'-]*)\.\{([^}]*)\}")
VARIABLE = re.compile(r"(?<![\w'.\\-])[a-z][a-z0-9]*(?:[A-Z][a-z0-9]*)+(?:_[a-z0-9]+)*'*(?![\w'-])")
GENERATED = re.compile(r"/proofs/[^/]+/Proof\.antt$")


def files(kinds):
    for top, dirs, names in os.walk("crates"):
        dirs[:] = sorted(d for d in dirs if d != "out")
        for name in sorted(names):
            if name.endswith(kinds):
                yield os.path.join(top, name)


def read(path):
    with open(path, encoding="utf-8") as it:
        return it.read()


def snake(name):
    """The name in snake case; a type's keeps its capitals."""
    if name[0].islower():
        name = CAMEL.sub(lambda m: "_" + m.group(0), name).lower()
    return name.replace("-", "_")


def declared():
    """The names that the repository declares, and those that it imports from elsewhere."""
    own, others = set(), set()
    for path in files(".antt"):
        text = read(path)
        for m in IMPORT.finditer(text):
            others.update(m.group(2).replace(",", " ").split())
        if GENERATED.search(path):
            continue
        for line in text.split("\n"):
            m = DECLARED.match(line)
            if m and not line.lstrip().startswith("--"):
                own.add(m.group(3))
            # a constructor, or a field on a line of its own
            m = re.match(r"^ {2,}(?:pub )?([a-z][\w'-]*) :(?: |$)", line)
            if m:
                own.add(m.group(1))
        # a variable
        own.update(VARIABLE.findall(re.sub(r"--.*", "", text)))
    for path in files(".rt"):
        text = read(path)
        for m in IMPORT.finditer(text):
            others.update(m.group(2).replace(",", " ").split())
        for m in re.finditer(r"\bas ([a-z]\w*)", text):
            own.add(m.group(1))
    return own, others


def table():
    own, others = declared()
    groups = {}
    for name in own:
        if "◌" in name or not re.match(r"[A-Za-zμ]", name) or (name in others and "-" in name):
            continue
        groups.setdefault(snake(name), set()).add(name)
    to = {}
    for new, names in groups.items():
        # a definition keeps the plain name, and a lemma or a field of the same name gets the ending `_lem`
        camel = {n for n in names if "-" not in n and n != new}
        for name in names:
            if len(names) == 1 or name in camel or (name == new and not camel):
                to[name] = new
            else:
                to[name] = new + "_lem"
            if "-" in name and new in others:
                to[name] = new + "_lem"
    return {name: new for name, new in to.items() if name != new}


def clauses(text):
    """The parts of a source file that are ghost: imports, and clauses up to the brace that closes them."""
    for m in re.finditer(r"(?m)^\s*(?:pub )?ghost use [^;]*;|\b(?:requires|ensures|invariant|ghost)\b(?: \w+)?\s*:?\s*\{", text):
        if m.group(0).rstrip().endswith(";"):
            yield m.start(), m.end()
            continue
        depth, at = 1, m.end()
        while depth and at < len(text):
            depth += {"{": 1, "}": -1}.get(text[at], 0)
            at += 1
        yield m.start(), at


def respelled(text, to):
    def turn(m):
        name = m.group(0)
        if name not in to:
            return name
        # a part of a path, or a field that Rattle makes, as the step of a call
        if text[m.start() - 1 : m.start()] == "." and name not in FIELDS and not CAMEL.search(name):
            return name
        return to[name]

    return TOKEN.sub(turn, text)


FIELDS = set()


def fields():
    for path in files(".antt"):
        if GENERATED.search(path):
            continue
        inside = False
        for line in read(path).split("\n"):
            if re.match(r"^\s*(?:pub )?record\b", line):
                inside = True
            elif line and not line.startswith(" "):
                inside = False
            m = re.match(r"^ {2,}(?:pub )?([a-z][\w'-]*) :(?: |$)", line)
            if inside and m:
                FIELDS.add(m.group(1))


def main(argv):
    write = "--check" not in argv
    to = table()
    fields()
    clashes = 0
    for path in files((".antt", ".rt")):
        text = read(path)
        if path.endswith(".antt"):
            new = respelled(text, to)
        else:
            parts, at = [], 0
            for a, b in clauses(text):
                parts += [text[at:a], respelled(text[a:b], to)]
                at = b
            new = "".join(parts) + text[at:]
            # names in comments
            new = re.sub(r"`[^`\n]*`", lambda m: respelled(m.group(0), to), new)
        code = re.sub(r"--.*|//.*", "", text)
        here = set(TOKEN.findall(code))
        turned = {}
        for name in here:
            if name in to:
                turned.setdefault(to[name], []).append(name)
        for n, olds in sorted(turned.items()):
            if len(olds) > 1 or n in here:
                print(f"clash: {path}: {', '.join(sorted(olds))} and {n if n in here else ''}")
                clashes += 1
        if new != text and write:
            with open(path, "w", encoding="utf-8") as it:
                it.write(new)
    for top in ("README.md", *sorted(os.path.join("docs", f) for f in os.listdir("docs") if f.endswith(".md"))):
        text = read(top)
        new = re.sub(r"`[^`\n]*`", lambda m: respelled(m.group(0), to), text)
        if new != text and write:
            with open(top, "w", encoding="utf-8") as it:
                it.write(new)
    print(f"{len(to)} names, {clashes} clashes")
    return 0


if __name__ == "__main__":
    raise SystemExit(main(sys.argv[1:]))
