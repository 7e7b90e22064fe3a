#!/usr/bin/env python3
"""Turns each Proof.antt that answers a tie's needs into Invariants.antt and Answers.antt.

usage: tools/answers.py NAMES CRATE..

NAMES is what `rt names NAMES` wrote. An answer that is a search alone goes, as the check finds it.
"""
import glob
import json
import os
import re
import sys

N = r"[^\s(){}.;,@\"«»]"
NAME = rf"{N}+"


def key(name):
    """A name whatever its dashes."""
    return name.replace("_", "-").lower()


def squash(name):
    return re.sub(r"[-_]", "", name).lower()


def blocks(text):
    """The head's lines, and each declaration with what stands before it."""
    lines = text.split("\n")
    found, at = [], []
    for line in lines:
        if at and re.match(r"\S", line) and not line.startswith("--") and re.match(rf"(?:(?:pub|abbrev|unfoldable) )*{NAME} (?:\{{[^}}]*\}} )*:(?: |$)|module |mutual", line):
            found.append(at)
            at = []
        at.append(line)
    found.append(at)
    # comments that end a block go with the next one
    for i in range(len(found) - 1):
        while found[i] and (found[i][-1].startswith("--") or not found[i][-1].strip()):
            found[i + 1].insert(0, found[i].pop())
        if i == 0 and not found[0]:
            pass
    return found


class Function:
    def __init__(self, names, path):
        self.n = names
        self.path = path
        self.places = names["places"]
        self.index = {p[0]: i for i, p in enumerate(self.places)}
        self.by_squash = {squash(p[0]): p[0] for p in self.places}

    def chain(self, place):
        """The steps from a place up to the start."""
        found = []
        while place is not None:
            i = self.index[place]
            found.append(i)
            place = self.places[i][1]
        return found

    def turn_paths(self, text, var, place, said):
        """Turns the paths of `var`, which stands at the old place."""
        chain = self.chain(place)
        # another name for an earlier place
        while True:
            m = re.search(rf"let ({NAME}) = {re.escape(var)}((?:\.before)*) in\s*", text)
            if not m:
                break
            up = m[2].count(".before")
            other = self.places[chain[min(up, len(chain) - 1)]][0]
            behind = text[m.end():]
            if re.search(rf"(?<![^\s(){{}};,]){re.escape(m[1])}(?![^\s(){{}};,])", behind):
                # it is passed on whole
                text = text[:m.start()] + f"let {m[1]} = \2{var[0]}\3{var[1:]}{m[2]} in\n    " + self.turn_paths(behind, m[1], other, said).replace(m[1] + ".", m[1][0] + "\3" + m[1][1:] + ".")
                continue
            marked = self.turn_paths(behind, m[1], other, said).replace("\0", "")
            marked = re.sub(rf"(?<![^\s(){{}};,]){re.escape(m[1])}(?=\.)", "\1" + var, marked)
            marked = re.sub(rf"(?<![^\s(){{}};,]){re.escape(m[1])}(?![^\s(){{}};,])", var, marked)
            text = text[:m.start()] + marked

        def path(m):
            steps = m[0].split(".")[1:]
            up = 0
            while up < len(steps) and steps[up] == "before":
                up += 1
            rest = steps[up:]
            if not rest:
                said.append(f"a bare place {m[0]}")
                return m[0]
            here = chain[up:] if up < len(chain) else chain[-1:]
            tried = []
            found = self.field(here, rest, tried)
            if tried and up:
                tried = []
                found = self.field(chain, rest, tried)
            said.extend(tried)
            return var + "." + ".".join(found)

        return re.sub(rf"(?<![^\s(){{}};,]){re.escape(var)}(?:\.{NAME})+", path, text).replace("\1", "").replace("\2", "").replace("\3", "")

    def field(self, chain, rest, said):
        first = rest[0]
        if first == "requires" and self.n["pre"]:
            return [first] + self.picked(rest[1:], self.n["pre"]["fields"])
        if first in ("args", "requires", "ranges", "auto", "well_formed", "type_inv", "utf8"):
            return rest
        if first == "fits":
            return ["ranges"] + rest[1:]
        # what the types say
        for i in chain:
            for old, known in []:
                pass
        typed = {}
        for i in chain[:1]:
            for var, known in self.n["typed"][i]:
                typed[squash(known)] = var
        if squash(first) in typed and rest[1:2] == ["given"]:
            return ["type_inv", typed[squash(first)]] + rest[2:]
        # an arm's parts
        for i in chain[:1]:
            arm = self.n["arms"][i]
            if arm:
                best = None
                for new, old, steps in arm[2]:
                    if squash(old) == squash(first) and rest[1:1 + len(steps)] == steps:
                        if best is None or len(steps) > len(best[1]):
                            best = (new, steps)
                if best:
                    return [arm[0], best[0]] + rest[1 + len(best[1]):]
        for i in chain:
            arm = self.n["arms"][i]
            if arm:
                best = None
                for new, old, steps in arm[2]:
                    if squash(old) == squash(first) and rest[1:1 + len(steps)] == steps:
                        if best is None or len(steps) > len(best[1]):
                            best = (new, steps)
                if best:
                    return [arm[0], best[0]] + rest[1 + len(best[1]):]
        for i in chain:
            old, new = self.places[i][2]
            if old and squash(old) == squash(first):
                return [new] + self.within(i, rest[1:])
        for i in range(len(self.places)):
            old, new = self.places[i][2]
            if new and squash(new) == squash(first):
                return [new] + self.within(i, rest[1:])
        said.append(f"no step {'.'.join(rest)}")
        return rest

    def within(self, i, rest):
        clauses = self.n["clauses"][i]
        if rest[:1] == ["ensures"] and clauses:
            return [rest[0]] + self.picked(rest[1:], clauses["fields"])
        params = self.n["params"].get(self.places[i][3])
        if rest[:1] == ["new"] and params:
            ups = 0
            while ups + 1 < len(rest) and rest[1 + ups] == "1":
                ups += 1
            if rest[1 + ups:2 + ups] == ["0"] and ups < len(params):
                return ["new", params[ups]] + rest[2 + ups:]
        return rest

    def picked(self, rest, fields):
        """A pair's path as a clause's name."""
        ups = 0
        while ups < len(rest) and rest[ups] == "1" and ups < len(fields) - 1:
            ups += 1
        if ups == len(fields) - 1:
            return [fields[ups]] + rest[ups:]
        if rest[ups:ups + 1] == ["0"]:
            return [fields[ups]] + rest[ups + 1:]
        return rest


FN = re.compile(r"(?m)^ *(?:pub )?(?:extern \"C\" )?fn (\w+)")
CLAUSE = re.compile(r"(?m)^ *(requires|ensures)(\*)? (?:(\w+) )?\{")


def contracts(crates="crates"):
    """The names of each function's clauses, by its path below its crate."""
    found = {}
    for path in glob.glob(f"{crates}/*/src/**/*.rt", recursive=True):
        parts = path[len(crates) + 1:].split("/")
        inner = [parts[0]] + parts[2:-1] + ([] if parts[-1] in ("lib.rt", "main.rt", "mod.rt") else [parts[-1][:-3]])
        text = open(path, encoding="utf-8").read()
        starts = [m for m in FN.finditer(text)]
        for i, m in enumerate(starts):
            end = starts[i + 1].start() if i + 1 < len(starts) else len(text)
            body = text[m.start():end]
            kinds = {"requires": [], "ensures": []}
            for c in CLAUSE.finditer(body):
                kinds[c[1]].append(c[3])
            for name in ("::".join(inner + [m[1]]),):
                found[name] = kinds
            found.setdefault(("any", inner[0], m[1]), kinds)
    return found


CONTRACTS = {}


def parts_of(text):
    """The parts of a text at its own commas."""
    found, depth, at = [], 0, 0
    for i, ch in enumerate(text):
        if ch in "([{":
            depth += 1
        elif ch in ")]}":
            depth -= 1
        elif ch == "," and depth == 0:
            found.append(text[at:i].strip())
            at = i + 1
    found.append(text[at:].strip())
    return found


def as_record(value, fields):
    """A value that ends in a tuple as one that ends in a record."""
    text = value.rstrip()
    if not text.endswith(")"):
        return value
    depth = 0
    for i in range(len(text) - 1, -1, -1):
        if text[i] == ")":
            depth += 1
        elif text[i] == "(":
            depth -= 1
            if depth == 0:
                break
    lead, inner = text[:i], text[i + 1:-1]
    if not re.fullmatch(r"(?s)\s*|.*\bin\s*|.*[=.]\s*", lead) and not re.search(r"(?s)(?:^|\bin|\s)\s*rw (?:\([^()]*(?:\([^()]*\)[^()]*)*\)|[^\s()]+) $", lead):
        return value
    parts = parts_of(inner)
    if len(parts) < len(fields) or len(parts) < 2:
        return value
    n = len(fields)
    parts = parts[:n - 1] + [", ".join(parts[n - 1:]) if len(parts) == n else "(" + ", ".join(parts[n - 1:]) + ")"]
    record = "record { " + "; ".join(f"{f} = {p}" for f, p in zip(fields, parts)) + " }"
    whole = not lead.strip() or re.search(r"(\bin|[=.])\s*$", lead)
    return lead + (record if whole else f"({record})")


def module_of(path):
    """crates/C/proofs/a/f/Proof.antt as Rattle.C.proofs.a.f"""
    parts = path.split("/")
    return "Rattle." + parts[1] + ".proofs." + ".".join(parts[3:-1])


def convert(path, names, said):
    text = open(path, encoding="utf-8").read()
    if "tie.close" not in text:
        said.append("no tie")
        return None
    f = Function(names, path)
    f.own = "::".join([path.split("/")[1]] + path.split("/")[3:-1])
    found = blocks(text)
    head = found[0]
    decls = found[1:]
    # the head's use lines may hold no declaration
    last = "\n".join(decls[-1])
    m = re.search(r"tie\.close\s*\(tie\.spec\s*([^()]*)\)", last) or re.search(r"tie\.close\s*\(?\s*tie\.spec\b([^()]*)\)?", last)
    if not m:
        m2 = re.search(r"=\s*tie\.close\s*tie\.spec\s*$", last.strip())
        if m2:
            args = []
        else:
            said.append("the last declaration is no tie.spec")
            return None
    else:
        args = m[1].split()
    by_name = {}
    for d in decls[:-1]:
        dm = None
        for line in d:
            dm = re.match(rf"(?:(?:pub|abbrev|unfoldable) )*({NAME}) (?:\{{[^}}]*\}} )*:(?: |$)", line)
            if dm:
                by_name[dm[1]] = d
                break
    loops = names["loops"]
    kinds = {}
    invs, measures, rest = [], [], []
    for a in args:
        d = by_name.get(a)
        ty = "\n".join(d) if d else ""
        t = re.search(rf": tie\.({NAME})", ty)
        if t and t[1].startswith("invariant"):
            invs.append(a)
        elif t and t[1].startswith("decreases"):
            measures.append(a)
        else:
            rest.append(a)
    needs = names["needs"]
    if len(rest) > len(needs):
        # a text's bytes need no answer any more
        rest = [a for a in rest if "Need-slice-aggregate" not in "\n".join(by_name.get(a, []))]
    if len(rest) != len(needs):
        said.append(f"{len(rest)} answers, {len(needs)} needs: {[n[0] for n in needs]} {rest}")
    # match by order where they are as many, else by name
    pairs = {}
    if len(rest) == len(needs):
        for a, n, asked in zip(rest, needs, names["asked_at"]):
            pairs[a] = (n[1], asked[0])
    else:
        olds = {}
        for n, asked in zip(needs, names["asked_at"]):
            olds.setdefault(squash(n[0]), (n[1], asked[0]))
        for a in rest:
            d = by_name.get(a)
            t = re.search(rf": tie\.Need-({NAME})", "\n".join(d or []))
            k = squash(t[1]) if t else squash(a)
            for cut in ("", "overflow", "invariant"):
                if k.startswith(cut) and k[len(cut):] in olds:
                    pairs[a] = olds[k[len(cut):]]
                    break
            else:
                said.append(f"no need for {a}")
    inv_text, ans_text, places = [], [], set()
    mod = module_of(path)
    for i, (a, kind) in enumerate([(a, "invariant") for a in invs] + [(a, "decreases") for a in measures]):
        d = by_name[a]
        body = "\n".join(d)
        t = re.search(rf": tie\.(?:invariant|decreases)-({NAME})", body)
        old = t[1] if t else "loop"
        loop = None
        for j, lp in enumerate(loops):
            if squash(lp[0][0]) == squash(old):
                loop = j
        if loop is None:
            loop = (i if kind == "invariant" else i - len(invs)) if len(loops) > 0 else None
        if loop is None or loop >= len(loops):
            said.append(f"no loop for {a}: {old} {loops}")
            ans_text.append(body)
            continue
        new = loops[loop][0][1]
        variables = loops[loop][1]
        changed = names["changed"][loop]
        # the clause
        cm = re.search(rf"(?m)^{re.escape(a)}((?: (?:(?!=(?: |$)){NAME}|\{{[^}}]*\}}|\([^)]*\)))*) =", body)
        if not cm:
            said.append(f"clause of {a}")
            ans_text.append(body)
            continue
        params = [p for p in cm[1].split()]
        value = body[cm.end():]
        table = {}
        order = []
        for v, ch in zip(variables, changed):
            order.append("l.initial." + v if ch else "l." + v)
        order += ["l." + v for v, ch in zip(variables, changed) if ch]
        flat = re.findall(rf"{NAME}", cm[1]) if any(c in cm[1] for c in "({") else params
        if len(flat) != len(order):
            # without the values at the start
            said.append(f"{a}: {flat} against {order}")
        for p, o in zip(flat, order):
            if p != "_":
                table[p] = o
        value = re.sub(rf"(?<![^\s(){{}};,]){NAME}", lambda m: table.get(m[0], m[0]), value)
        word = "invariant" if kind == "invariant" else "decreases"
        unf = "".join(line + "\n" for line in d if line.startswith("unfolding"))
        comments = "".join(line + "\n" for line in d if line.startswith("--"))
        inv_text.append(f"{comments}abbrev pub {word}-{new} : goal.{word}-{new}\n{unf}{word}-{new} l ={value.rstrip()}\n")
    # answers that others cite
    cited = set()
    for d in decls[:-1]:
        words = re.findall(NAME, re.sub(r"(?m)^--.*$", "", "\n".join(d)))
        own = {w for w in words if words.count(w) <= 2 and w in pairs and re.search(rf"(?m)^(?:pub )?{re.escape(w)} ", "\n".join(d))}
        cited |= {w for w in words if w in pairs and w not in own}
    for d in decls[:-1]:
        body = "\n".join(d).strip("\n")
        dm = re.search(rf"(?m)^(?:(?:pub|abbrev|unfoldable) )*({NAME}) (?:\{{[^}}]*\}} )*:(?: |$)", body)
        name = dm[1] if dm else None
        if name in invs or name in measures or (name not in pairs and "tie.Need-slice-aggregate" in body):
            continue
        if name not in pairs:
            if "tie." in body:
                olds = {squash(p[0]): (p[0], n) for p, n in zip(f.places, names["places_by_name"])}

                def place_of(m):
                    if squash(m[1]) not in olds:
                        said.append(f"no place {m[1]}")
                        return m[0]
                    new = olds[squash(m[1])][1]
                    places.add(new)
                    return new

                pms = re.findall(rf"\(({NAME}) : tie\.({NAME})", body)
                for v, p in pms:
                    if squash(p) in olds:
                        body = f.turn_paths(body, v, olds[squash(p)][0], said)
                body = re.sub(rf"tie\.({NAME})(?: (?:{'|'.join(map(re.escape, invs + measures)) or 'tie'}))*", place_of, body)
            if "tie." in body:
                said.append(f"by hand: {name or body.split(chr(10))[0]}")
                # a law over a place
                pm = re.search(rf"\((\w+) : tie\.({NAME})", body)
                if pm and squash(pm[2]) in f.by_squash:
                    body = f.turn_paths(body, pm[1], f.by_squash[squash(pm[2])], said)
            ans_text.append(re.sub(r"\.type-inv\b", ".type_inv", body) + "\n")
            continue
        new, place = pairs[name]
        clause = re.search(rf"(?m)^{re.escape(name)}((?: (?!=(?: |$)){NAME})*) =", body)
        if clause and re.fullmatch(r"\s*search rules\s*", body[clause.end():]) and "unfolding" not in body and name not in cited:
            continue
        if not clause:
            said.append(f"clause of {name}")
            ans_text.append(body + "\n")
            continue
        params = clause[1].split()
        var = params[0]
        kept = [p for p in params if not p.startswith("κ")]
        if not re.match(r"[a-z]$", kept[-1]):
            said.append(f"params of {name}: {params}")
        var = kept[-1]
        value = f.turn_paths(body[clause.end():], var, place, said)
        lead = body[:clause.start()]
        lead = re.sub(rf"(?m)^(?:(?:pub) )?{re.escape(name)} :(?: |\n)(?:.|\n)*?(?=^unfolding|\Z)", f"pub {new} : goal.{new}\n", lead)
        if "goal." not in lead:
            said.append(f"type of {name}")
        value = re.sub(r"\.type-inv\b", ".type_inv", value)
        value = re.sub(rf"(?<![^\s(){{}};,]){NAME}", lambda m: pairs[m[0]][0] if m[0] in pairs and m[0] in cited else m[0], value)
        fields = None
        if re.match(r"returns(-|$)", new):
            own = f.own
            fields = CONTRACTS.get(own, CONTRACTS.get(("any", own.split("::")[0], own.split("::")[-1])))
            fields = fields and fields["ensures"]
        m = re.match(r"(.*)-requires(-\d+)?", new)
        if m:
            callee = [p[3] for p in f.places if p[2] and p[3] and squash(p[2][1]) == squash(m[1])] or [p[3] for p in f.places if p[3] and p[3].split("::")[-1] == m[1].split("-")[0]]
            if not callee:
                callee = [k for k in names["params"] if k.split("::")[-1] == m[1].split("-")[0]]
            fields = callee and CONTRACTS.get(callee[0], CONTRACTS.get(("any", callee[0].split("::")[0], callee[0].split("::")[-1])))
            fields = fields and fields["requires"]
        if fields and len(fields) > 1 and all(fields):
            value = as_record(value, fields)
        ans_text.append(f"{lead}{new} {' '.join(kept)} ={value}\n")
    uses = [line for line in head if line.startswith("use ")]
    top = [line for line in head if line.startswith("--")]
    uses = [u for u in uses if not re.search(r"\.Statement\.|\.Tie as tie|\.Tie\b", u)]
    body_all = "\n".join(ans_text)
    if "rules" not in re.findall(NAME, body_all):
        uses = [u for u in uses if "Author.Rules.{rules}" not in u]

    def used(lines, body):
        out = []
        words = set(re.findall(NAME, body))
        for u in lines:
            m = re.match(r"(use \S+?)\.\{(.*)\}$", u)
            if m:
                keep = []
                for w in m[2].split(", "):
                    last = w.split(" as ")[-1]
                    parts = [p for p in re.split("◌", last) if p]
                    if last in words or any(p in words for p in parts):
                        keep.append(w)
                if keep:
                    out.append(f"{m[1]}.{{{', '.join(keep)}}}")
            else:
                out.append(u)
        return out

    result = {}
    folder = os.path.dirname(path)
    if inv_text:
        body = "\n".join(inv_text)
        result[folder + "/Invariants.antt"] = "\n".join(top + used(uses, body) + [f"use {mod}.Given as goal", ""]) + "\n" + body
    if "".join(ans_text).strip():
        body = "\n".join(ans_text)
        result[folder + "/Answers.antt"] = "\n".join(top + used(uses, body) + [f"use {mod}.Goals as goal"] + [f"use {mod}.Goals.{{{', '.join(sorted(places))}}}"] * bool(places) + [""]) + "\n" + body
    return result


def main():
    names_at = sys.argv[1]
    CONTRACTS.update(contracts())
    for crate in sys.argv[2:]:
        listed = f"{names_at}/crates/{crate}/names.json"
        if not os.path.isfile(listed):
            print(f"{crate}: no names")
            continue
        names = json.load(open(listed))
        for path in sorted(glob.glob(f"crates/{crate}/proofs/**/Proof.antt", recursive=True)):
            parts = path.split("/")
            at = f"Rattle-{crate}-proofs." + ".".join(parts[3:-1]) + ".Lts"
            said = []
            mine = names.get(at)
            if mine is None:
                near = [k for k in names if k.startswith(f"Rattle-{crate}-proofs." + ".".join(parts[3:-1]))]
                print(f"{path}: no names; near {near}")
                continue
            try:
                result = convert(path, mine, said)
            except Exception as e:
                print(f"{path}: {type(e).__name__} {e}")
                continue
            for s in said:
                print(f"{path}: {s}")
            if result is None:
                continue
            for p, t in result.items():
                with open(p, "w", encoding="utf-8") as out:
                    out.write(t)
            os.remove(path)


main()
