#!/usr/bin/env python3
"""Brings the repository's own definitions and lemmas to snake case: run once at the top, right after the kit's port.py.

Names that a file takes from the library keep their spelling, so do names that the check makes (in Proof.antt: those that it declares)."""

import re
import subprocess
import sys

TOKEN = re.compile(r"[^\s(){}\[\],.;:⌜⌝«»\"`|]+")
ODD = re.compile(r"[\w?'₀-₉ℕ]-[\w?'≡ℕ]|·")
USE = re.compile(r"(?:pub |ghost )*use ([\w·.+']+)\.\{([^}]*)\}")
# names that would fall together with another
OTHER = {"put-at": "put_in_place", "bytes-before": "bytes_before_end"}


def files():
    out = subprocess.check_output(["git", "ls-files", "crates"]).decode().split("\n")
    return [f for f in out if f.endswith((".antt", ".rt"))]


def is_odd(t):
    return bool(ODD.search(t)) or bool(re.match(r"[a-z]", t) and re.search(r"[a-z][A-Z]", t)) or "′" in t


def respelled(t):
    if t in OTHER:
        return OTHER[t]
    t = t.replace("′", "'").replace("·", "_")
    t = re.sub(r"([a-z0-9])([A-Z])", lambda m: m.group(1) + "_" + m.group(2).lower(), t) if re.match(r"[a-z]", t) else t
    if re.match(r"[A-Z][a-z]+_", t):
        t = t[0].lower() + t[1:]
    return t.replace("-", "_")


def code(line, rt):
    """The line's parts: (text, whether it is code)."""
    mark = "//" if rt else "--"
    at = 0
    for p in re.split(r'("(?:[^"\\]|\\.)*")', line):
        if not p.startswith('"'):
            m = re.search(r"(?:^|\s)" + mark, p)
            if m:
                yield p[: m.start()], True
                yield line[at + m.start():], False
                return
        yield p, not p.startswith('"')
        at += len(p)


def main():
    texts = {f: open(f, encoding="utf8").read() for f in files()}
    library, own = set(), set()
    for t in texts.values():
        for m in USE.finditer(t):
            if not re.match(r"Rattle\.(?!std\b|core\b|io\b|libc\b|os\b)", m.group(1)):
                for n in m.group(2).split(","):
                    library.add(n.split(" as ")[0].strip())
    for f, t in texts.items():
        if f.endswith("/Proof.antt"):
            continue
        for line in t.split("\n"):
            if f.endswith(".rt") and "ghost use" not in line:
                continue
            for p, is_code in code(line, f.endswith(".rt")):
                if is_code:
                    own |= {x for x in TOKEN.findall(p) if is_odd(x)}
    own -= library
    turn = {n: respelled(n) for n in own}
    turn = {a: b for a, b in turn.items() if a != b}
    # names that fall together
    seen = {}
    for a, b in turn.items():
        seen.setdefault(b, []).append(a)
    taken = set()
    for f, t in texts.items():
        for line in t.split("\n"):
            for p, is_code in code(line, f.endswith(".rt")):
                if is_code:
                    taken |= set(TOKEN.findall(p))
    for b, names in sorted(seen.items()):
        if len(names) > 1:
            print("together:", b, names)
        if b in taken:
            where = [f for f, t in texts.items() if re.search(r"(?<![\w.-])" + re.escape(b) + r"(?![\w-])", t) and any(re.search(r"(?<![\w.-])" + re.escape(a) + r"(?![\w-])", t) for a in names)]
            if where:
                print("taken:", b, names, where[:6])
    if "--dry" in sys.argv:
        print(len(turn))
        return
    for f, t in texts.items():
        local = set()
        if f.endswith("/Proof.antt"):
            local = set(re.findall(r"^(?:pub |abbrev )*(\S+)(?: \{[^}]*\})? :", t, re.M))
        out = []
        for line in t.split("\n"):
            new = ""
            for p, is_code in code(line, f.endswith(".rt")):
                if is_code:
                    p = TOKEN.sub(lambda m: turn.get(m.group(0), m.group(0)) if m.group(0) not in local else m.group(0), p)
                else:
                    p = re.sub(r"`([^`]*)`", lambda m: "`" + TOKEN.sub(lambda k: turn.get(k.group(0), k.group(0)), m.group(1)) + "`", p)
                new += p
            out.append(new)
        new = "\n".join(out)
        if new != t:
            open(f, "w", encoding="utf8").write(new)
    for f in subprocess.check_output(["git", "ls-files", "*.md"]).decode().split():
        t = open(f, encoding="utf8").read()
        new = re.sub(r"`([^`\n]*)`", lambda m: "`" + TOKEN.sub(lambda k: turn.get(k.group(0), k.group(0)), m.group(1)) + "`", t)
        if new != t:
            open(f, "w", encoding="utf8").write(new)
    print(len(turn), "names respelled")


main()
