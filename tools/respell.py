#!/usr/bin/env python3
"""Respells the repository's own definitions, fields, constructors and lemmas in snake case: `termText` and `most-parts` become `term_text` and `most_parts`.

usage: python3 tools/respell.py          at the top of the repository: rewrites .antt, .rt and .edit files below crates/ in place
       python3 tools/respell.py --list   prints what would be renamed, which names would fall together, and which a function of src/ has too

It was run once, after the kit's port.py had turned the paths and clauses. Names that the check makes (the goals in Answers.antt and
Invariants.antt) keep their spelling, and so do strings and comments of .rt and .antt files; an edit of specs/ or proofs/ is turned whole.
A clash with a name of the library shows only when the crate is checked.
"""
import os
import re
import sys

NAME = r"[A-Za-z_ℕ'][\wℕ'\-]*"
TOKEN = re.compile(NAME)
GOALS = ("Answers.antt", "Invariants.antt")

# names that would fall together with another
APART = {"ofTerm": "begins_term", "table-length": "table_length_lem", "term-width": "term_width_lem", "word-of": "word_of_lem"}

# what stands after these is a step of the check's, and no name of ours
STEP = re.compile(r"(?<![\w.])(?:c|w|g|l|goal)\.$")


def files(ends):
    for folder, dirs, names in os.walk("crates"):
        dirs[:] = sorted(d for d in dirs if d != "out")
        for n in sorted(names):
            if n.endswith(ends):
                yield os.path.join(folder, n)


def read(p):
    with open(p, encoding="utf-8") as f:
        return f.read()


def snake(name):
    """`termText`, `most-parts` and `pred0-at` in snake case; a name that begins with a capital is a type and stays."""
    if name[0].isupper() or name.startswith("'"):
        return name
    if name in APART:
        return APART[name]
    spelt = re.sub(r"(?<=[a-z0-9])([A-Z])", lambda m: "_" + m.group(1).lower(), name)
    return spelt.replace("-", "_")


def goals(text):
    """The names that a file of answers or invariants gives to what the check asks for."""
    return set(re.findall(rf"(?m)^(?:abbrev )?(?:pub )?({NAME}) : goal\.", text))


def aliases(text):
    """The names that a file gives to what it imports."""
    return {n for line in re.findall(r"(?m)^(?:ghost )?use [^\n]*$", text) for n in re.findall(rf" as ({NAME})", line)}


def strip_comments(text):
    return re.sub(r"(?m)--.*$", "", text)


def defined(path):
    """The names that a file of specs/ or proofs/ defines."""
    text = strip_comments(read(path))
    asked = goals(text) if os.path.basename(path) in GOALS else set()
    found = set()
    for line in text.splitlines():
        m = re.match(rf"\s*(?:(?:abbrev|unfoldable|pub|private|instance) )*((?:{NAME} )*{NAME}) : ", line)
        if m and not line.lstrip().startswith(("use ", "data ", "record ", "pub data", "pub record", "pub module")):
            words = m.group(1).split()
            found.update(words)
    found.update(re.findall(rf"(?m)^(?:pub )?(?:ruleset) ({NAME})", text))
    found.update(aliases(text))
    return {n for n in found if n not in asked and n not in ("data", "record", "where", "pub", "abbrev")}


# comments and literals, in Rattle source and in a file of specs/ or proofs/
IN_CODE = re.compile(r'//[^\n]*|"(?:\\.|[^"\\])*"|b?\'(?:\\.|[^\'\\])\'')
IN_ANTT = re.compile(r'--[^\n]*|"(?:\\.|[^"\\])*"')


def put(text, table):
    return TOKEN.sub(lambda m: m.group(0) if STEP.search(text[max(0, m.start() - 6) : m.start()]) else table.get(m.group(0), m.group(0)), text)


def put_around(kept, text, table):
    """`put` in all of the text but the parts that `kept` finds."""
    out, at = [], 0
    for m in kept.finditer(text):
        out += [put(text[at : m.start()], table), m.group(0)]
        at = m.end()
    return "".join(out) + put(text[at:], table)


def respelt(path, text, table):
    if path.endswith(".antt"):
        return put_around(IN_ANTT, text, table)
    if path.endswith(".edit") and re.match(r"file: (specs|proofs)/", text):
        return put(text, table)
    return put_around(IN_CODE, text, table)


def main(argv):
    own = {}
    for p in files(".antt"):
        for n in defined(p):
            own.setdefault(n, set()).add(p)
    for p in files(".rt"):
        for n in aliases(read(p)):
            own.setdefault(n, set()).add(p)
    asked = set()
    for p in files(GOALS):
        asked |= goals(read(p))
    table = {n: snake(n) for n in own if snake(n) != n and n not in asked}
    functions = set()
    for p in files(".rt"):
        functions |= set(re.findall(r"\bfn (\w+)", read(p)))
    if "--list" in argv:
        for n in sorted(table):
            new = table[n]
            marks = []
            if new in own:
                marks.append("IS A NAME ALREADY: " + " ".join(sorted(own[new])))
            if new in functions:
                marks.append("a function of src/ has this name")
            if sum(1 for k in table if table[k] == new) > 1:
                marks.append("two names fall together")
            print(n, "->", new, *marks, "  " + " ".join(sorted(own[n]))[:150])
        return 0
    for p in files((".antt", ".rt", ".edit")):
        text = read(p)
        new = respelt(p, text, table)
        if new != text:
            with open(p, "w", encoding="utf-8") as f:
                f.write(new)
    return 0


if __name__ == "__main__":
    raise SystemExit(main(sys.argv[1:]))
