#!/usr/bin/env python3
"""Brings the repository's own definitions, lemmas and fields to snake case: run once, at the top, after the toolchain's port.py.

Names of src/ (functions, types, fields, constants), strings, inputs and outputs stay. A lemma whose new name a definition or another
lemma has already is given `_lem`. Prints each name that it turned, old and new.
"""
import glob
import re
import sys

WORD = r"[^\s(){}\[\].,;:λ→×=`\"'|↦⟨⟩]+[^\s(){}\[\].,;:λ→×=`\"|↦⟨⟩]*"
TOP = re.compile(r"^(?:(?:abbrev|unfoldable|pub|record|data|ruleset) )*(" + WORD + r")\s*(?:\([^=]*\)|\{[^=]*\}|\s)*:\s")
INNER = re.compile(r"^\s+(?:pub )?(" + WORD + r") :(?:\s|$)")
KEPT = {"use", "pub", "where", "in", "let", "unfolding"}


def snake(name):
    if name[0].isupper() or not re.match(r"[a-z]", name):
        return name
    name = re.sub(r"(?<=[a-z0-9])([A-Z])", lambda m: "_" + m.group(1).lower(), name)
    return name.replace("-", "_").replace("·", "_")


def is_walk(path):
    return path.endswith("/Proof.antt")


def declared(path):
    """Names that a file declares: top ones, and those of fields and of where."""
    top, inner = set(), set()
    goals = set()
    with open(path, encoding="utf-8") as f:
        for line in f:
            m = TOP.match(line)
            if m and m.group(1) not in KEPT:
                name = m.group(1)
                if is_walk(path) and (re.search(r":\s*tie\.|:\s*\{M|statement", line) or name.endswith("-spec")):
                    goals.add(name)
                else:
                    top.add(name)
                continue
            m = INNER.match(line)
            if m and m.group(1) not in KEPT:
                inner.add(m.group(1))
    return top, inner, goals


def brought_in(paths):
    """Names that the files import from the library, whose spelling is not ours."""
    names = set()
    for path in paths:
        with open(path, encoding="utf-8") as f:
            for where, what in re.findall(r"^use ([\w.]+)\.\{([^}]*)\}", f.read(), re.M):
                if not where.startswith("Rattle.") or where.startswith("Rattle.std."):
                    names |= {n.strip().split(" as ")[0] for n in what.split(",")}
    return names


def code_and_comment(line, mark):
    i = line.find(mark)
    return (line, "") if i < 0 else (line[:i], line[i:])


def turned(line, names, mark):
    code, comment = code_and_comment(line, mark)
    parts = re.split(r'("(?:[^"\\]|\\.)*")', code)
    parts = [p if p.startswith('"') else re.sub(WORD, lambda m: names.get(m.group(0), m.group(0)), p) for p in parts]
    comment = re.sub(r"`([^`\s]+)`", lambda m: "`" + names.get(m.group(1), m.group(1)) + "`", comment)
    return "".join(parts) + comment


def main():
    antt = sorted(glob.glob("crates/*/specs/**/*.antt", recursive=True) + glob.glob("crates/*/proofs/**/*.antt", recursive=True))
    tops, inners, local = {}, set(), {}
    for path in antt:
        top, inner, goals = declared(path)
        if is_walk(path):
            local[path] = (top | inner) - goals, goals
        else:
            for name in top:
                tops.setdefault(name, set()).add(path)
            inners |= inner
    names = {}
    foreign = brought_in(antt)
    for name in sorted(set(tops) | inners):
        new = snake(name)
        if new != name and name not in foreign:
            names[name] = new
    # names that fall together: the lemma gets _lem
    stay = {n for n in tops if snake(n) == n}
    taken = {}
    for name, new in sorted(names.items(), key=lambda e: ("-" in e[0], e[0])):
        if name not in tops:
            continue
        if new in stay or new in taken:
            if "-" in name:
                names[name] = new + "_lem"
                print(f"{name} -> {new}_lem (falls together with {taken.get(new, new)})")
            elif new in stay and all("/proofs/" in p for p in tops[new]):
                names[new] = new + "_lem"
                print(f"{new} -> {new}_lem (falls together with {name})")
            else:
                print(f"TOGETHER {name} -> {new}: {taken.get(new, new)}", file=sys.stderr)
        taken.setdefault(names[name], name)
    for name, new in sorted(names.items()):
        print(f"{name} -> {new}")
    for path in antt:
        own = dict(names)
        if is_walk(path):
            mine, goals = local[path]
            for name in mine:
                own.setdefault(name, snake(name))
            for name in goals:
                own.pop(name, None)
        rewrite(path, own, "--")
    for path in sorted(glob.glob("crates/*/src/**/*.rt", recursive=True)):
        rewrite(path, names, "//")


def rewrite(path, names, mark):
    with open(path, encoding="utf-8") as f:
        old = f.read()
    new = "\n".join(turned(line, names, mark) for line in old.split("\n"))
    if new != old:
        with open(path, "w", encoding="utf-8") as f:
            f.write(new)


main()
