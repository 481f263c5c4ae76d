#!/usr/bin/env python3
"""Respells the repository's own definitions, lemmas and fields as today's Rattle has them, after port.py.

usage: tools/respell.py [ROOT]   rewrites crates/; run once, on what port.py made. What to look at is printed.

Words are in snake case. A dash stays behind a function of the library, as in `length-cells_from`; elsewhere it becomes `_`.
"""
import collections
import os
import re
import sys

# names whose plain new spelling is a parameter's where a clause cites them
TAKEN = {"pansAt": "pans_place"}
# functions of the library whose name a dash joins to another, as in `length-drop`
LIBRARY = ("length", "take", "drop", "map", "append", "replicate", "get_or")
TOKEN = re.compile(r"[A-Za-z_\u00ab][A-Za-z0-9_'\u00bb-]*")
HEAD = re.compile(r"(?:abbrev )?(?:unfoldable )?(?:pub )?(?:abbrev )?(data |record |ruleset )?([^\s(){}:.;,\u03bb\u25cc]+) (?:[({].* )?:(?: |$)")
FIELD = re.compile(r"  (?:pub )?([a-z][^\s(){}:.;,\u03bb]*) :(?: |$)")


def files(root, ending):
    for folder, dirs, names in os.walk(os.path.join(root, "crates")):
        dirs[:] = sorted(d for d in dirs if d not in ("out", "data"))
        for name in sorted(names):
            if name.endswith(ending):
                yield os.path.join(folder, name)


def own(path, root):
    """Whether a file holds definitions or lemmas, and not the proof of a function."""
    parts = os.path.relpath(path, root).split(os.sep)
    return parts[2] == "specs" or (parts[2] == "proofs" and len(parts) == 4)


def declared(root):
    names, fields, specs = set(), set(), set()
    for path in files(root, ".antt"):
        if not own(path, root):
            continue
        with open(path) as f:
            in_record, modules = False, []
            for line in f:
                indent = len(line) - len(line.lstrip(" "))
                if line.strip():
                    modules = [i for i in modules if i < indent]
                if line.lstrip(" ").startswith("module "):
                    modules.append(indent)
                m = HEAD.match(line[indent:]) if indent == 2 * len(modules) else None
                if m:
                    in_record = m.group(1) == "record "
                    names.add(m.group(2))
                    if os.sep + "specs" + os.sep in path:
                        specs.add(m.group(2))
                elif in_record and FIELD.match(line):
                    fields.add(FIELD.match(line).group(1))
                elif line.strip() and not line.startswith(" ") and not line.startswith("--"):
                    in_record = False
    return names, fields, specs


def snake(word):
    word = re.sub(r"(?<=[a-z0-9'])(?=[A-Z])", "_", word)
    return word.lower()


def is_camel(word):
    return word[0].islower() and re.search(r"[a-z0-9'][A-Z]", word) is not None


def parts(name):
    """The words of a name that dashes join, in snake case."""
    return [snake(p) if is_camel(p) else p for p in name.split("-")]


def new_names(root):
    names, fields, specs = declared(root)
    table = {}
    for name in sorted(names | fields):
        ps = parts(name)
        if name in fields or name in specs or ps[0] not in LIBRARY:
            new = "_".join(ps)
        else:
            new = ps[0] + "-" + "_".join(ps[1:])
        if name[0].isupper():
            new = name
        new = TAKEN.get(name, new)
        if new != name:
            table[name] = new
    # a lemma that would have its function's name gets `_lem`
    functions = {table.get(n, n) for n in specs | fields | {n for n in names if "-" not in n}}
    for name in table:
        if "-" in name and name not in specs | fields and table[name] in functions:
            table[name] += "_lem"
    return table, names, fields


def code(line):
    """A line without its comment."""
    return line.split("-- ")[0] if not line.lstrip().startswith("--") else ""


def look(root, table, kept):
    """Names that fall together, with one another or with one that keeps its spelling."""
    olds = collections.defaultdict(set)
    for old, new in table.items():
        olds[new].add(old)
    back = {}
    for new, found in olds.items():
        if len(found) > 1 or new in kept:
            print(f"look: {', '.join(sorted(found))} all become {new}" + (", which stands already" if new in kept else ""))
        back[new] = found
    for path in files(root, (".antt", ".rt")):
        with open(path) as f:
            lines = f.read().splitlines()
        tokens = set()
        for line in lines:
            tokens |= set(TOKEN.findall(code(line)))
        for new, found in back.items():
            if new in tokens and tokens & found:
                where = [i + 1 for i, l in enumerate(lines) if re.search(r"(?<![.\w'-])" + re.escape(new) + r"(?![\w'-])(?! =)", code(l))]
                if where:
                    print(f"look: {os.path.relpath(path, root)}:{where[:6]}: {new} stands there beside {', '.join(sorted(tokens & found))}")


def turn(text, table, fields, rust):
    """The text with the new names. In Rust a dash is a minus; behind a value's dot only a field is ours."""
    aliases = set(re.findall(r"^use Rattle\.[\w.+-]+ as ([\w-]+)$", text, re.M))

    def one(m):
        word = m.group(0)
        bare = word.strip("\u00ab\u00bb")
        if bare not in table or ("-" in bare and rust):
            return word
        before = re.search(r"([^\s.(){}]+)\.$", text[max(0, m.start() - 80) : m.start()])
        if text[m.start() - 1 : m.start()] == "." and bare not in fields and not (before and (before.group(1)[0].isupper() or before.group(1) in aliases)):
            return word
        return table[bare]

    return TOKEN.sub(one, text)


def main(root):
    table, names, fields = new_names(root)
    look(root, table, (names | fields) - set(table))
    for path in files(root, (".antt", ".rt")):
        with open(path) as f:
            text = f.read()
        new = turn(text, table, fields, path.endswith(".rt"))
        if new != text:
            with open(path, "w") as f:
                f.write(new)
    print(f"respell: {len(table)} names")


if __name__ == "__main__":
    main(sys.argv[1] if len(sys.argv) > 1 else ".")
