#!/usr/bin/env python3
"""Spells this repository's own definitions, fields and lemmas as today's Rattle does: words in snake case (`fieldsLeft`,
`kinds-room` become `fields_left`, `kinds_room`). Types, modules, constructors with a capital, functions of src/, exported
names and strings keep theirs. Run once, at the top, after port.py.

usage: tools/respell.py [--dry]
"""
import glob
import os
import re
import sys

CHARS = r"[^\s(){}.;,@\"«»⟦⟧`]"
NAME = re.compile(rf"{CHARS}+")
DECLARED = re.compile(rf"^ *(?:(?:pub|abbrev|unfoldable|opaque|instance|private) )*({CHARS}+) (?:\{{[^{{}}\n]*\}} )*:(?: |$)", re.M)
SEVERAL = re.compile(rf"^ *(?:(?:pub|abbrev|unfoldable|opaque) )+((?:{CHARS}+ )+):(?: |$)", re.M)
USE = re.compile(r"^ *(?:ghost )?use ([^\s{;]+?)\.?(?:\{([^}]*)\})?(?: as (\S+?))?;?$", re.M)
# An answer to a goal that Rattle makes keeps the goal's name.
PROOF = re.compile(r"/proofs/(.*/)?(Proof|Answers|Invariants)\.antt$")


# Laws that port.py spelled as a definition now is: a law that would have its function's name gets `_lem`.
LAWS = ["form_small", "in_place", "first_found", "read_as", "written_as", "in_one", "kept_row", "row_back"]
# Of these the dash tells a theorem from the definition that it is about.
KEPT = ["at-most", "if-accepted", "in-proof", "next-proof", "report-room", "test-list", "turn-bundle", "turn-proof"]
OWN = {"entryOf": "entry_for"}


def spelled(name, dashes):
    """The name as it is to be: its camel humps as underscores, and its dashes too where it is a definition's or a field's."""
    if "◌" in name:
        return "◌".join(spelled(part, dashes) if part else "" for part in name.split("◌"))
    if not re.match(r"[A-Za-z]", name) or not re.search(r"[a-z]", name):
        return name
    if name[0].isupper() and "-" not in name and "_" not in name:
        return name
    head, rest = name[0], name[1:]
    if head.isupper() and len(name) > 1 and name[1].islower():
        # a type's name at the head of a law's stays as it is
        return name.replace("-", "_") if dashes else name
    text = head + re.sub(r"(?<=[a-z0-9])[A-Z](?=[a-z]|$|[-_])", lambda m: "_" + m[0].lower(), rest)
    text = re.sub(r"(?<=[a-z0-9])([A-Z]+)", lambda m: "_" + m[1], text)
    return text.replace("-", "_") if dashes else text


def is_own(module, crates):
    steps = module.split(".")
    return steps[0] == "Rattle" and len(steps) > 1 and steps[1] in crates


def sources():
    for pattern in ("crates/*/specs/**/*.antt", "crates/*/proofs/**/*.antt", "crates/*/src/**/*.rt"):
        yield from sorted(glob.glob(pattern, recursive=True))


def main():
    dry = "--dry" in sys.argv
    crates = set(os.listdir("crates"))
    texts = {p: open(p, encoding="utf-8").read() for p in sources()}
    declared = {}
    for path, text in texts.items():
        if not path.endswith(".antt") or PROOF.search(path):
            continue
        for m in DECLARED.finditer(text):
            declared.setdefault(m[1], set()).add(path)
        for m in SEVERAL.finditer(text):
            for name in m[1].split():
                declared.setdefault(name, set()).add(path)
    # A dash joins two names in a law's; a definition or a field has none.
    in_specs = {n for n, paths in declared.items() if any("/specs/" in p for p in paths)}
    table = {n: spelled(n, n in in_specs) for n in declared}
    table = {o: n for o, n in table.items() if o != n and o not in KEPT}
    table.update(OWN)
    table.update({name: name + "_lem" for name in LAWS})
    # names that would fall together with another one
    known = {}
    for path, text in texts.items():
        known[path] = set(NAME.findall(text))
    every = set().union(*known.values())
    for path, names in known.items():
        own = PROOF.search(path)
        for old in sorted(names & set(table)):
            others = {o for o in names if o != old and table.get(o, o) == table[old]}
            if others:
                is_code = path.endswith(".rt") and re.search(rf"fn {table[old]}\b", texts[path]) or own
                print(f"{'code' if is_code else 'MEETS'}: {old} and {others} -> {table[old]} in {path}")
        if path.endswith(".rt"):
            params = set(re.findall(r"\b(\w+): ", texts[path]))
            for old in names & set(table):
                if table[old] in params:
                    print(f"PARAM: {old} -> {table[old]} in {path}")
    imported = 0
    for path, text in texts.items():
        keeps = set()
        for m in USE.finditer(text):
            if m[2] and not is_own(m[1], crates):
                keeps |= {w.split(" as ")[-1].strip() for w in m[2].split(",")}
        here = {o: n for o, n in table.items() if o not in keeps}
        for k in keeps & set(table):
            print(f"library's in {path}: {k}")
        if PROOF.search(path):
            # names that the file itself declares for goals stay
            own = set(m[1] for m in DECLARED.finditer(text))
            here = {o: n for o, n in here.items() if o not in own}
        for k in [o for o in here if "◌" in o]:
            for part_old, part_new in zip(k.split("◌"), here[k].split("◌")):
                if part_old and part_old != part_new:
                    here.setdefault(part_old, part_new)

        def turn(piece):
            return NAME.sub(lambda m: here.get(m[0], m[0]), piece)

        lines = []
        for line in text.split("\n"):
            mark = "--" if path.endswith(".antt") else "//"
            i = line.find(mark)
            if path.endswith(".antt") and i >= 0 and not (i == 0 or line[i - 1] == " "):
                i = -1
            if i >= 0 and (path.endswith(".antt") and (line[i:i + 3] in ("-- ", "--") ) or path.endswith(".rt")):
                code, note = line[:i], line[i:]
                note = re.sub(r"`[^`]*`", lambda m: turn(m[0]), note)
                lines.append(turn(code) + note)
            else:
                lines.append(turn(line))
        new = "\n".join(lines)
        if new != text:
            imported += 1
            if not dry:
                with open(path, "w", encoding="utf-8") as f:
                    f.write(new)
    print(f"respell: {len(table)} names, {imported} files")


main()
