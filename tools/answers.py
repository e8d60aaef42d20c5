#!/usr/bin/env python3
"""Turns a function's Proof.antt of the older form, a list of answers, to Invariants.antt and Answers.antt.

usage: tools/answers.py NAMES CRATE..   NAMES is the folder that `rt check --generated FOLDER --old-names` wrote, one below it for each crate
What it cannot turn it prints. Answers that only searched are left out, since the check searches by itself."""

import json
import os
import re
import subprocess
import sys

PATH = r"(?:\.[\w'?₀-₉·-]+)+"


def flat(name):
    return re.sub(r"[-_]", "", name)


def forms(need):
    """How the names of goals of several older kits may spell this one."""
    yield flat(need)
    for a, b in (("overflow-", ""), ("slice-bounds-", "part-"), ("slicebounds-", "part-")):
        if need.startswith(a):
            yield flat(b + need[len(a):])
    yield flat(re.sub(r"^loop(\d*)-init", r"loop\1-holds", need))


class Names:
    def __init__(self, names):
        self.needs = {}
        for old, new in names["needs"]:
            self.needs[flat(old)] = new
        self.steps, self.fields, self.arms, self.callees, self.keys = {}, {}, {}, {}, {}
        for old, parent, step, callee, fields in names["places"]:
            if not step[0]:
                continue
            self.steps.setdefault(flat(step[0]), []).append(step[1])
            keys = re.fullmatch(r"At-(.*)-(keys\d+|branch|rest)", old)
            if keys:
                self.keys[flat(keys[1]), keys[2]] = step[1]
            if callee in names["params"]:
                self.callees[flat(step[0])] = names["params"][callee]
            for a, b in fields:
                self.fields.setdefault((flat(step[0]), a), b)
        for arm in names["arms"]:
            if not arm:
                continue
            name, _, fields = arm
            for new, step, path in fields:
                if new.endswith("-own") and not path:
                    continue
                key = (flat(step), tuple(path))
                self.arms.setdefault(key, (name, new))
        self.loops = {}
        for ((old, new), variables), changed in zip(names["loops"], names["changed"]):
            self.loops[flat(old)] = (new, variables, changed)

    def turned(self, parts, said):
        """The path of these parts behind `c`, without the steps back."""
        parts = [p for p in parts if p != "before"]
        if not parts:
            return "c"
        step, rest = parts[0], parts[1:]
        key = flat(step)
        # the kit's script took some functions' names for names of its library
        for other in (flat(step.replace("Is", "")).lower(), flat(re.sub("_lem$", "", step)), flat(step).lower()):
            if key not in self.steps and other in self.steps:
                key = other
        for n in range(len(rest), -1, -1):
            found = self.arms.get((key, tuple(rest[:n])))
            if found:
                return ".".join(["c", *found, *rest[n:]])
        if rest and (key, rest[0]) in self.keys:
            arm = self.keys[key, rest[0]]
            if rest[0] == "rest":
                return "(λ u. omega arith)"
            if rest[0] == "branch":
                return f"c.{arm}.branch"
            if len(rest) > 1:
                said(f"more behind {step}.{rest[0]}")
            return f"(is_one_of c.{arm}.{arm}-own.{rest[0]})"
        if key in self.steps:
            new = sorted(set(self.steps[key]), key=self.steps[key].index)
            if len(new) > 1:
                said(f"step {step} may be {new}")
            if rest and rest[0] in ("new", "auto") and key in self.callees and len(rest) > 1 and rest[1] in "01":
                at = 1
                while rest[at] == "1":
                    at += 1
                rest = [rest[0], self.callees[key][at - 1], *rest[at + 1:]]
            elif rest and rest[0] == "new" and len(rest) > 1 and rest[1] in "01":
                said(f"step {step} has no parameters")
            if rest and (key, rest[0]) in self.fields:
                rest = [self.fields[key, rest[0]], *rest[1:]]
            return ".".join(["c", new[0], *rest])
        if step not in ("args", "requires", "lifetimes", "well_formed", "ranges", "ghost"):
            said(f"step {step} is not known")
        return ".".join(["c", *parts])


def turn_body(body, names, said):
    body = re.sub(r"(?<![\w-])needs(?![\w-])", "rules", body)
    aliases = {"c": []}
    for m in re.finditer(r"let ([\w'₀-₉]+) = ([\w'₀-₉]+)(" + PATH + r")?\s+in\b", body):
        if m[2] in aliases:
            parts = aliases[m[2]] + [p for p in (m[3] or "").split(".") if p and p != "before"]
            if len(parts) <= 1 or len(parts) == 2 and parts[1] == "given":
                aliases[m[1]] = parts
    del aliases["c"]
    # what an arm knows has fields of its own now, so a name for all of it goes
    for alias, parts in list(aliases.items()):
        if len(parts) == 2:
            known = any(k[0] == flat(parts[0]) and k[1][:1] == ("given",) for k in names.arms)
            alone = re.search(r"(?<![\w.'-])" + re.escape(alias) + r"(?![\w.'-])(?! = )", body.replace(f"let {alias} ", ""))
            if known and not alone:
                body = re.sub(r"let " + re.escape(alias) + r" = [\w.'₀-₉-]+\s+in\s+", "", body)
            else:
                del aliases[alias]
    def one(m):
        return names.turned(m[1].split(".")[1:], said)
    body = re.sub(r"(?<![\w.'-])c(" + PATH + r")", one, body)
    for alias, parts in aliases.items():
        def other(m, parts=parts, alias=alias):
            more = m[1].split(".")[1:]
            if not parts:
                return names.turned(more, said)
            plain = names.turned(parts, lambda x: None)
            full = names.turned([*parts, *more], said)
            if len(parts) == 2:
                return full
            return alias + full[len(plain):] if full.startswith(plain + ".") else full
        body = re.sub(r"(?<![\w.'-])" + re.escape(alias) + r"(" + PATH + r")", other, body)
    return body


def blocks(text):
    """The declarations: (comment and marks above, name, signature, clauses)."""
    lines, found, now = text.split("\n"), [], []
    for line in lines:
        if line and not line[0].isspace():
            found.append([line])
        elif found:
            found[-1].append(line)
    return ["\n".join(b).rstrip() for b in found]


def turn(file, crate, names_of):
    where = os.path.dirname(file)
    path = os.path.relpath(where, f"crates/{crate}/proofs").replace("/", ".")
    said_here = []
    said = said_here.append
    key = f"Rattle-{crate}-proofs.{path}.Lts"
    if key not in names_of:
        print(f"{file}: no names")
        return
    names = Names(names_of[key])
    text = open(file, encoding="utf8").read()
    uses, invariants, answers, other, comment = [], [], [], [], []
    bs = blocks(text)
    i = 0
    while i < len(bs):
        b = bs[i]
        i += 1
        if b.startswith("use "):
            if not re.search(r"\.(Statement|Tie)\b", b):
                uses.append(re.sub(r"(?<![\w-])needs(?![\w-])", "rules", b))
            continue
        if b.startswith("--"):
            comment.append(b)
            continue
        m = re.match(r"(?:abbrev )?(\S+) : tie\.(\S+)", b)
        if b.startswith("pub ") and "statement M" in b or re.match(r"\S+ =\s+tie\.close", b):
            continue
        if not m:
            other.append(b)
            continue
        name, goal = m[1], m[2]
        marks = ""
        while bs[i].startswith("unfolding"):
            marks += bs[i] + "\n"
            i += 1
        body = bs[i]
        i += 1
        above = "".join(c + "\n" for c in comment)
        comment = []
        head = re.match(re.escape(name) + r"((?: [^\s=]+)*) =\s", body)
        if not head:
            said(f"{name}: clauses")
            other.append(b + "\n" + body)
            continue
        parameters, term = head[1].split(), body[head.end() - 1:]
        loop = re.match(r"(invariant|decreases)-(.*)", goal)
        if loop:
            found = names.loops.get(flat(loop[2]))
            if not found:
                said(f"no loop {goal}")
                continue
            new, variables, changed = found
            places = [("l.initial." if c else "l.") + v for v, c in zip(variables, changed)]
            places += ["l." + v for v, c in zip(variables, changed) if c]
            # values that only the older kit carried through a loop
            if len(places) != len(parameters):
                parameters = [p for p in parameters if not re.fullmatch(r"t\d+", p)]
            if len(places) != len(parameters):
                said(f"{goal}: {parameters} for {places}")
                continue
            for p, to in zip(parameters, places):
                term = re.sub(r"(?<![\w.'₀-₉-])" + re.escape(p) + r"(?![\w'₀-₉-])", "\0" + to, term)
            term = term.replace("\0", "")
            marks = re.sub(r"^", "", marks)
            invariants.append(f"{above}abbrev pub {loop[1]}-{new} : goal.{loop[1]}-{new}\n{marks}{loop[1]}-{new} l ={term}")
            continue
        old = re.sub(r"^Need-", "", goal)
        new = next((names.needs[f] for f in [*forms(old), flat(name)] if f in names.needs), None)
        if re.fullmatch(r"\s*search needs\s*", term):
            continue
        if not new:
            said(f"no goal {old}")
            continue
        more = [p for p in parameters if p not in ("c", "κs")]
        term = turn_body(term, names, said)
        if "κs" in parameters and re.search(r"(?<![\w])κs(?![\w])", term):
            said(f"{old}: κs is used")
        answers.append(f"{above}pub {new} : goal.{new}\n{marks}{' '.join([new, 'c', *more])} ={term}")
    module = f"Rattle.{crate}.proofs.{path}"
    for kind, parts, goals in (("Invariants", invariants, "Given"), ("Answers", answers, "Goals")):
        if not parts:
            continue
        if kind == "Answers":
            parts = [turn_body(o, names, said) for o in other] + parts
            if any("is_one_of" in it for it in parts):
                uses.append("use borrow.Enum.Refused.{opened as is_one_of}")
        out = "\n".join([*uses, f"use {module}.{goals} as goal"]) + "\n\n" + "\n\n".join(parts) + "\n"
        with open(f"{where}/{kind}.antt", "w", encoding="utf8") as it:
            it.write(out)
    if other and not answers:
        said("other text is lost")
    os.remove(file)
    for s in dict.fromkeys(said_here):
        print(f"{file}: {s}")


def main():
    folder, *crates = sys.argv[1:]
    for crate in crates:
        try:
            names_of = json.load(open(f"{folder}/{crate}/names.json"))
        except OSError:
            print(f"{crate}: no names")
            continue
        out = subprocess.check_output(["git", "ls-files", f"crates/{crate}/proofs"]).decode().split()
        for file in out:
            if file.endswith("/Proof.antt") and os.path.exists(file):
                turn(file, crate, names_of)


if __name__ == "__main__":
    main()
