#!/usr/bin/env python3
"""Counts the older forms in crates/*/src of a commit, or of the working tree where none is named.

usage: tools/forms.py [-l] [COMMIT]

Prints a line for each kind of place, with how many there are; -l lists each as FILE:LINE.
"""
import collections
import re
import subprocess
import sys


def sources(commit):
    """Each source file's path and text."""
    if commit:
        names = subprocess.run(["git", "ls-tree", "-r", "--name-only", commit, "crates"], capture_output=True, text=True, check=True).stdout.split()
    else:
        names = subprocess.run(["git", "ls-files", "-co", "--exclude-standard", "crates"], capture_output=True, text=True, check=True).stdout.split()
    for name in names:
        if re.fullmatch(r"crates/[a-z_]+/src/[a-z_]+\.rt", name):
            if commit:
                text = subprocess.run(["git", "show", f"{commit}:{name}"], capture_output=True, text=True, check=True).stdout
            else:
                text = open(name, encoding="utf-8").read()
            yield name, text


def functions(text):
    """Each function's first line, name and text, comments left out, up to the brace that closes it in the column where it begins."""
    lines = [re.sub(r"//.*", "", line).rstrip() for line in text.split("\n")]
    for number, line in enumerate(lines):
        begin = re.match(r"( *)(?:pub )?fn (\w+)", line)
        if begin:
            end = number
            while lines[end] != begin.group(1) + "}":
                end += 1
            yield number + 1, begin.group(2), lines[number:end + 1]


def shape(lines):
    """What is left of a function when its clauses, numbers and names apart from keywords and types are made one."""
    body = [line for line in lines if not re.match(r" *(requires|ensures)\b", line)]
    text = re.sub(r"\b[a-z_]\w*\b(?!!)", lambda m: m.group() if m.group() in KEYWORDS else "x", "\n".join(body))
    text = re.sub(r"\b[A-Z]\w*\b", "X", text)
    return re.sub(r"\b(0x)?[0-9][0-9A-Fa-f_]*\w*\b", "0", text)


KEYWORDS = set("fn pub let mut if else while for in loop match return break continue as self impl true false".split())

# The places that one line shows: a name, and what the line has.
LINES = [
    ("1 a variant that is a refusal", r"^ +(Refused|Fault|Broken|Cut) ?[{(,]"),
    ("1 a refusal's number written out", r"\bnumber: [0-9]+|\brefus(al|ed)\([0-9]"),
    ("1 an own enum", r"^(pub )?enum "),
    ("1 a flag with a value beside it", r"^ +(pub )?(made|ok|done|held|accepted): bool,"),
    ("1 a number for a kind or an edition, as a parameter or field", r"\b(kind|edition|e): u8\b"),
    ("3 a loop by while", r"^ +while "),
    ("3 a loop without a head", r"^ +loop \{"),
    ("3 an index counted up or down by hand", r"^ +[a-z]\w* [+-]= [0-9]+;"),
    ("4 an impl of a trait that can be derived", r"^impl .*\b(PartialEq|Eq|Ord|PartialOrd|Clone|Copy|Debug)\b.* for "),
    ("4 a function that compares, copies, converts or prints by hand", r"^(pub )?fn (same\w*|copy_\w+|equal\w*|put_(text|decimal|hex|byte|number|refused|digits?|minus)|decimal|write_digits|digit|glyph|is_zero)\b"),
    ("6 a slice with a place and a count beside it", r"^(pub )?fn .*\b(start|at|from): usize, (\w+: \w+, )?(n|len|count|w): usize"),
    ("7 a flag that chooses a step", r"\b(form_first|others|either|equality|first|wide): bool\b"),
]


def main(arguments):
    listed = "-l" in arguments
    commit = next((a for a in arguments if a != "-l"), None)
    found = collections.defaultdict(list)
    shapes = collections.defaultdict(list)
    facts = collections.defaultdict(list)
    together = collections.defaultdict(list)
    for name, text in sources(commit):
        for number, line in enumerate(text.split("\n"), 1):
            code = re.sub(r"//.*", "", line)
            for kind, pattern in LINES:
                if re.search(pattern, code):
                    found[kind].append(f"{name}:{number}")
            clause = re.match(r" +requires \w* ?\{ (.*) \}$", code)
            if clause:
                for fact in re.split(r" × ", clause.group(1)):
                    facts[fact.strip("() ")].append(f"{name}:{number}")
        for number, function, lines in functions(text):
            if len(lines) >= 6:
                shapes[shape(lines)].append(f"{name}:{number} {function}")
            head = re.sub(r"\s+", " ", " ".join(lines)).split("{")[0]
            parameters = re.findall(r"\b(\w+): (&mut \[\w+\]|&\[\w+\]|[\w:]+)", head)
            for first, second in zip(parameters, parameters[1:]):
                together[" ".join((f"{first[0]}: {first[1]},", f"{second[0]}: {second[1]}"))].append(f"{name}:{number} {function}")
    for places in shapes.values():
        if len(places) > 1:
            found["2 a function of the shape of another"] += places
    for fact, places in facts.items():
        if len(places) >= 3:
            found["5 a fact in the contracts of three or more functions"].append(f"{fact} ({len(places)})")
    for pair, places in together.items():
        if len(places) >= 8:
            found["5 two parameters that travel together in eight functions or more"].append(f"{pair} ({len(places)})")
    for kind in sorted(found):
        print(f"{len(found[kind]):5} {kind}")
        if listed:
            for place in found[kind]:
                print(f"          {place}")


main(sys.argv[1:])
