#!/usr/bin/env python3
"""Spells the repository's own definitions and lemmas as today's Rattle does: words in snake case, types in camel case.

Run once, at the top, after the kit's port.py. It collects the names that crates/*/specs and crates/*/proofs define, and
those that an import there or in crates/*/src gives by 'as', and rewrites each where it stands as a whole word in .antt
and .rt files, outside comments and texts. A name that a file takes from the library stays in that file, and so do, in the
proof of a function, the names that the check makes (c.NAME, l.NAME, and the goals themselves). With --list it only prints
the names, old and new. It also gives the library's AllByRecursion its own name, where port.py calls it All, a name that
the library has for something else today.
"""
import glob
import re
import sys

NAME = re.compile(r"[^\s(){}\[\];,.:«»\"`]+")
DEFINITION = re.compile(
    r"^\s*(?:(?:abbrev|unfoldable|pub|record|data)\s+)*([A-Za-z][^\s(){}:,;.]*)(?:\s+\([^)]*\)|\s+\{[^}]*\})*\s+:(?:\s+(.*))?$"
)
ALIAS = re.compile(r" as ([A-Za-z][A-Za-z0-9]*-[A-Za-z0-9-]+)[,}]")
TEXT = re.compile(r'"(?:[^"\\]|\\.)*"')
# where the plain spelling is the name of a function in a file that cites the definition
APART = {"all-at-most": "each_at_most", "all-marked": "each_marked", "node-field": "field_of_node"}
# what a file takes from the library keeps its spelling in that file
LENT = re.compile(r"^use (?:Rattle\.std|mathlib)[\w.]*\.\{(.*)\}", re.M)
MADE = re.compile(r"(?:^|[^\w'])(?:c|l|goal|given)\.$")


def spelled(name):
    """The name as it is spelled today."""
    if name in APART:
        return APART[name]
    core = name.rstrip("'")
    primes = name[len(core):]
    if core[0].isupper():
        return "".join(p[:1].upper() + p[1:] for p in core.split("-")) + primes
    core = re.sub(r"(?<=[a-z])([A-Z])", r"-\1", core)
    return "_".join(p.lower() if p.isalnum() else p for p in core.split("-")) + primes


def of_function(path):
    """Whether this is a file of a function's proof, in which the check's own names stand."""
    return path.endswith(("/Answers.antt", "/Invariants.antt", "/Choices.antt", "/Proof.antt"))


def defined(files):
    """What the files define, or bring in under another name, that is spelled otherwise today."""
    names = {}
    for path in files:
        for line in open(path):
            m = DEFINITION.match(line.rstrip("\n"))
            own = [m.group(1)] if m and not (m.group(2) or "").startswith(("goal.", "given.")) else []
            for name in own + ALIAS.findall(line):
                if spelled(name) != name:
                    names.setdefault(name, path)
    return names


def spell_line(line, names, own):
    if own and re.match(r"use .*\.(Goals|Given)\.\{|(abbrev )?pub [^ ]+ : (goal|given)\.", line):
        return line

    def word(m):
        name = m.group(0)
        if name not in names or (own and MADE.search(m.string[:m.start()])):
            return name
        return spelled(name)

    out, at = [], 0
    for text in TEXT.finditer(line):
        out += [NAME.sub(word, line[at:text.start()]), text.group(0)]
        at = text.end()
    return "".join(out) + NAME.sub(word, line[at:])


def spell(text, names, path):
    if "AllByRecursion as All" in text:
        text = re.sub(r"(?<![\w'-])All(?![\w'-])", "AllByRecursion", text.replace("AllByRecursion as All", "AllByRecursion"))
    own = of_function(path)
    lent = {n.strip() for line in LENT.findall(text) for n in line.split(",")}
    names = {n: p for n, p in names.items() if n not in lent}
    comment = re.compile(r"(^|\s)--\s") if path.endswith(".antt") else re.compile(r"//")
    lines = []
    for line in text.split("\n"):
        m = comment.search(line)
        cut = m.start() if m else len(line)
        lines.append(spell_line(line[:cut], names, own) + line[cut:])
    return "\n".join(lines)


def main():
    antt = [p for d in ("specs", "proofs") for p in sorted(glob.glob(f"crates/*/{d}/**/*.antt", recursive=True))]
    code = sorted(glob.glob("crates/*/src/**/*.rt", recursive=True))
    names = defined(antt + code)
    if "--list" in sys.argv:
        for name, path in sorted(names.items()):
            print(name, spelled(name), path)
        return
    for path in antt + code:
        text = open(path).read()
        new = spell(text, names, path)
        if new != text:
            open(path, "w").write(new)


if __name__ == "__main__":
    main()
