#!/usr/bin/env python3
"""Counts, in the src/ of every crate, the places of the older language that docs/DESIGN-PASS.md is about; with -v it lists them."""
import collections
import glob
import re
import sys

FILES = sorted(glob.glob("crates/*/src/**/*.rt", recursive=True))
TEXTS = {file: open(file, encoding="utf-8").read() for file in FILES}
NUMBERS = ("usize", "u64", "u32", "u16", "u8")
found = collections.OrderedDict()


def note(point, file, at, what):
    line = TEXTS[file].count("\n", 0, at) + 1
    found.setdefault(point, []).append(f"{file}:{line}: {what}")


def variants_of(body):
    body = re.sub(r"//.*", "", body)
    return [it.strip() for it in re.split(r",(?![^(]*\))(?![^{]*\})", body) if it.strip()]


# Functions with their heads and bodies.
HEAD = re.compile(r"^(?:    )?(?:pub(?:\(crate\))? )?fn (\w+)(?:<.*?>)?\((.*?)\)(?: -> ([^\n{]+?))?\s*(?=\n\s+(?:requires|ensures|where)|\s*\{)", re.M | re.S)


def functions():
    for file, text in TEXTS.items():
        heads = [*HEAD.finditer(text)]
        for at, head in enumerate(heads):
            end = heads[at + 1].start() if at + 1 < len(heads) else len(text)
            yield file, head, text[head.end() : end]


POINTS = [
    "1 own enum like Option",
    "1 own enum like Result",
    "1 number that says none",
    "2 handheld and vehicle",
    "3 loop by while",
    "4 match from an enum to a literal, or back",
    "4 comparison by match",
    "5 three parameters or more that five functions share",
    "6 buffer with its length beside",
    "7 match that only picks which function runs",
]
for it in POINTS:
    found[it] = []

for file, text in TEXTS.items():
    for it in re.finditer(r"enum (\w+)\s*\{(.*?)\n\}", text, re.S):
        variants = variants_of(it.group(2))
        carrying = [v for v in variants if re.search(r"[({]", v)]
        if len(variants) == 2 and len(carrying) == 1:
            refuses = re.search(r"\((?:Refusal|No\w+|Fault|Result)\)", carrying[0])
            note(POINTS[1] if refuses else POINTS[0], file, it.start(), it.group(1))
        elif len(variants) == 2 and len(carrying) == 2:
            note(POINTS[1], file, it.start(), it.group(1))
        elif len(variants) > 2 and len(carrying) == 1 and not carrying[0].startswith(("Shared", "Members", "QuickTexts")):
            note(POINTS[1], file, it.start(), it.group(1))
        elif len(variants) == 2 and not carrying and re.search(r"Wrong|Past|Beyond|No", variants[1]):
            note(POINTS[1], file, it.start(), it.group(1))
    for it in re.finditer(r"^\s*while .*", text, re.M):
        note(POINTS[4], file, it.start(), it.group().strip())
    for it in re.finditer(r"match [^\n]*\{\n((?:\s+[\w:]+(?:\((?:_|\.\.)\))? => (?:\d+|0x\w+|0b\w+|true|false|b?\"[^\"]*\"),\n)+)(?:\s+_ => [^\n]*\n)?\s*\}", text):
        kind = POINTS[6] if re.fullmatch(r"(?:\s+[\w:]+(?:\((?:_|\.\.)\))? => (?:true|false),\n)+", it.group(1)) else POINTS[5]
        note(kind, file, it.start(), it.group(0).split("\n")[0].strip())
    for it in re.finditer(r"match [^\n]*\{\n((?:\s+(?:\d+|0x\w+|0b\w+)(?: \| \w+)* => (?:Some\(|Ok\()?[\w:]+(?:\([\w:]+\))?\)?,\n)+)(?:\s+_ => [^\n]*\n)?\s*\}", text):
        note(POINTS[5], file, it.start(), it.group(0).split("\n")[0].strip())
    if file.endswith("/vehicle.rt"):
        note(POINTS[3], file, 0, "beside handheld.rt")

shared = collections.defaultdict(list)
for file, head, body in functions():
    name, parameters, result = head.groups()
    pairs = [it.strip().rsplit(":", 1) if it.count(":") == 1 else it.strip().split(":", 1) for it in re.split(r",\s*(?![^<(]*[>)])", parameters) if ":" in it]
    names = [(a.strip(), b.strip()) for a, b in pairs]
    plain = [it for it in names if it[1] in (*NUMBERS, "bool")]
    for at in range(len(plain) - 2):
        shared[(file.split("/")[1], tuple(plain[at : at + 3]))].append((file, head.start(), name))
    slices = [it for it in names if re.fullmatch(r"&(?:mut )?\[\w+(?:; \d+)?\]", it[1])]
    for a, b in zip(names, names[1:]):
        if a in slices and b[1] == "usize" and b[0] in ("count", "length", "len", "n", "size", "held", "units"):
            note(POINTS[8], file, head.start(), f"{name}: {a[0]}, {b[0]}")
    comment = re.search(r"((?://[^\n]*\n)+)\Z", TEXTS[file][: head.start()])
    says = comment and re.search(r"\bor (?:0|13)\b|\b0 (?:where|for a|past)\b", comment.group(1))
    if says and result and result.strip() in NUMBERS:
        note(POINTS[2], file, head.start(), f"{name} -> {result.strip()}")
    arms = re.search(r"\{\n\s+match (\w+) \{\n((?:\s+[\w:]+(?:\([^)]*\))? => \w+\([^\n]*\),\n)+)\s+\}\n\}\s*(?://.*\s*)*$", body)
    if arms and arms.group(2).count("\n") > 1:
        calls = re.findall(r"=> (\w+)\(", arms.group(2))
        if len(set(calls)) > 1 and not any(it[0].isupper() for it in calls):
            note(POINTS[9], file, head.start(), name)
for (crate, three), places in shared.items():
    if len(places) >= 5:
        file, at, _ = places[0]
        note(POINTS[7], file, at, f"{', '.join(a for a, _ in three)}: {len(places)} functions of {crate}")

for point, places in found.items():
    print(f"{len(places):4}  {point}")
    if "-v" in sys.argv:
        for it in places:
            print(f"        {it}")
