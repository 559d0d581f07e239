"""Counts the places in crates/*/src that an older form of the language may have left, and prints them with -v.

Each line of FORMS has the number of what is looked for, as docs/DESIGN-PASS.md lists it, a name and a pattern. Usage: python3 tools/places.py [-v] [FOLDER]
"""
import collections
import glob
import os
import re
import sys

FORMS = [
    (1, 'an Err handed on by hand', r'if let Err\(\w+\)|Err\((\w+)\) => (return )?(Err\(\1\)|Err\(\w+::|\{)'),
    (1, 'a None handed on by hand', r'else \{\s*None\s*\}|None => None|None => 0|None => Err\('),
    (1, 'a flag kept beside what is done', r'let mut \w+ = (true|false);|: bool,'),
    (1, 'a number that stands for none', r'// .*(\b0 where|stands for no)'),
    (2, 'a function whose name stands in another file too', None),
    (3, 'a range of numbers gone through', r'for \w+ in [^{]*\.\.'),
    (3, 'a loop that ends in true or false', r'return (true|false);'),
    (3, 'a count by hand', r'\b\w+ \+= 1;|saturating_add\(1\)'),
    (3, 'a loop without for', r'\bloop \{|\bwhile '),
    (3, 'a total by hand', r'\b(\w+) = (\1\.(max|plus|times)|both)\(|\b\w+ \+= \w+\('),
    (4, 'an order by hand', r'^impl .*\b(PartialEq|Eq|PartialOrd|Ord)\b.* for|Ordering::'),
    (4, 'a conversion by hand', r'^impl.* (From|TryFrom)<'),
    (4, 'a copy by hand', r'\b\w+\[[^\]]+\] = \w+\[[^\]]+\];|\b\w+\[\w+\] = \*\w+;'),
    (4, 'a default by hand', r'children: \[0; 4\]|fn empty_\w+'),
    (4, 'printing by hand', r'fn (put_\w+|reason|sentence|fault_line|of_\w+)\b'),
    (5, 'a clause that three functions have', None),
    (5, 'parameters that three functions have together', None),
    (6, 'an array of a fixed size', r'\[[\w: ,{}]+; \d+\]'),
    (6, 'a Vec behind a reference', r'&Vec<'),
    (6, 'a lookup by a length test', r'if \w+ < [\w.()]+ \{\s*(Some\()?[\w.]+\['),
    (7, 'a table of functions or a pointer', r'\bfn\(|\bdyn '),
]

CODE = re.compile(r'^ *//.*$', re.M)


def sources(top):
    for path in sorted(glob.glob(os.path.join(top, 'crates/*/src/**/*.rt'), recursive=True)):
        yield os.path.relpath(path, top), open(path).read()


def by_pattern(files, pattern):
    for path, text in files:
        comments_matter = pattern.startswith('//')
        searched = text if comments_matter else CODE.sub(lambda m: ' ' * len(m.group()), text)
        for m in re.finditer(pattern, searched, re.M):
            yield path, text.count('\n', 0, m.start()) + 1, ' '.join(m.group().split())


def functions(files):
    """Each function that stands by itself or in a plain impl: its path, line, name, parameters and clauses."""
    head = re.compile(r'^( *)(?:pub(?:\(crate\))? )?fn (\w+)(?:<[^(]*>)?\((.*?)\)[^{]*?(?=\n\1    (?:requires|ensures)|\{|;)', re.M | re.S)
    clause = re.compile(r'^ +(requires|ensures)(?: \w+)? \{ (.*) \}$', re.M)
    for path, text in files:
        trait_impls = [(m.start(), text.index('\n}', m.start())) for m in re.finditer(r'^impl.* for .*\{|^pub trait', text, re.M)]
        heads = list(head.finditer(text))
        for i, m in enumerate(heads):
            if any(a <= m.start() <= b for a, b in trait_impls):
                continue
            end = heads[i + 1].start() if i + 1 < len(heads) else len(text)
            params = [p.strip() for p in re.split(r',\s*(?![^<\[]*[>\]])', m.group(3)) if ':' in p]
            yield path, text.count('\n', 0, m.start()) + 1, m.group(2), params, clause.findall(text[m.start():end])


def shared(found, least):
    """The places of each key that at least so many functions have."""
    at = collections.defaultdict(list)
    for path, line, key in found:
        at[key].append((path, line))
    for key in sorted(at, key=str):
        if len(at[key]) >= least:
            for path, line in at[key]:
                yield path, line, key


def places(files, name, pattern):
    if pattern:
        return list(by_pattern(files, pattern))
    found = list(functions(files))
    if name.startswith('a function'):
        used = [(p, n, f) for p, n, f, _, _ in found if not re.search(r'_tests/', p) and f not in ('new', 'main')]
        return list(shared(used, 2))
    if name.startswith('a clause'):
        return list(shared([(p, n, f'{k} {c}') for p, n, _, _, cs in found for k, c in set(cs)], 3))
    pairs = []
    for path, line, _, params, _ in found:
        names = sorted(re.sub(r'^mut ', '', p) for p in params)
        pairs += [(path, line, f'{a}; {b}') for i, a in enumerate(names) for b in names[i + 1:]]
    return list(shared(pairs, 3))


def main():
    asked = [a for a in sys.argv[1:] if a != '-v']
    files = list(sources(asked[0] if asked else '.'))
    for point, name, pattern in FORMS:
        found = places(files, name, pattern)
        keys = len({k for _, _, k in found})
        more = f' ({keys} of them different)' if pattern is None else ''
        print(f'{point}  {len(found):4}  {name}{more}')
        if '-v' in sys.argv:
            for path, line, what in found:
                print(f'        {path}:{line}  {what}')


main()
