#!/usr/bin/env python3
"""Respells the repository's own ghost names as the library does: types and facts in camel case, everything else in snake case.

usage: python3 tools/respell.py        at the top of the repository, after the kit's port.py; a second run finds nothing

A name is taken where specs/ or proofs/ declare it, or a `use` line gives it, with a dash or in mixed case. In the name of a lemma a dash stays between two names of
definitions, as in `commas-comma`. Goals of a proof keep their names. Prints what it renamed, and names that fall together.
"""
import glob
import re
import sys

LIBRARY = {'length', 'take', 'drop', 'map', 'set', 'sum', 'append', 'replicate', 'cond', 'slice_index'}
DECLARED = re.compile(r'^ *(?:(?:abbrev|unfoldable|pub|record|data) +)*([^\s:(){}\[\].,;]+)(?= |:)[^\n=→]*:(?: |$)', re.M)
MIXED = re.compile(r'[a-z][a-z0-9]*[A-Z]\w*$')
ALIAS = re.compile(r'^(?:ghost )?use .*', re.M)
TYPED = re.compile(r'^ *(?:(?:abbrev|unfoldable|pub) +)*(\S+) : (?:need|goal|given)\.', re.M)
CHARS = r"[\w'\-]"


def files(*patterns):
    return sorted(f for p in patterns for f in glob.glob(p, recursive=True) if '/out/' not in f)


def read(path):
    with open(path, encoding='utf-8') as f:
        return f.read()


def declared():
    """The names with a dash, each with whether a definition has it, and all names of definitions."""
    names, definitions, goals = {}, set(LIBRARY), set()
    for path in files('crates/*/specs/**/*.antt', 'crates/*/proofs/**/*.antt'):
        text = read(path)
        goals.update(TYPED.findall(text))
        spec = '/specs/' in path
        for name in DECLARED.findall(text):
            if name.startswith('--'):
                continue
            if spec:
                definitions.add(name)
            if '-' in name or MIXED.match(name):
                names[name] = names.get(name, False) or spec
    for path in files('crates/**/*.antt', 'crates/**/*.rt'):
        for line in ALIAS.findall(read(path)):
            for name in re.findall(r" as ([^\s,{};]+)", line):
                if '-' in name or MIXED.match(name):
                    names.setdefault(name, True)
    return {n: s for n, s in names.items() if n not in goals}, definitions


def respelled(name, is_definition, definitions):
    if MIXED.match(name):
        return re.sub('[A-Z]', lambda m: '_' + m.group().lower(), name)
    if name[0].isupper():
        head, *rest = name.split('-')
        return head + ''.join(w[:1].upper() + w[1:] for w in rest)
    if is_definition:
        return name.replace('-', '_')
    parts = name.split('-')
    for i in range(1, len(parts)):
        left, right = '-'.join(parts[:i]), '-'.join(parts[i:])
        if left in definitions and right in definitions:
            return left.replace('-', '_') + '-' + right.replace('-', '_')
    return '_'.join(parts)


def main():
    names, definitions = declared()
    new = {n: respelled(n, spec, definitions) for n, spec in names.items()}
    new = {a: b for a, b in new.items() if a != b}
    if not new:
        return
    texts = {p: read(p) for p in files('crates/**/*.antt', 'crates/**/*.rt', 'crates/**/must-fail/*.edit', 'docs/*.md', 'README.md')}
    words = set()
    for path, text in texts.items():
        if not path.endswith('.md'):
            words.update(re.findall(CHARS + '+', text))
    for a, b in sorted(new.items()):
        print(a, '->', b, '(falls together?)' if b in words else '')
    for b in sorted({b for b in new.values() if list(new.values()).count(b) > 1}):
        print('one name for two:', b, file=sys.stderr)
    pattern = re.compile('(?<!' + CHARS + ')(' + '|'.join(map(re.escape, sorted(new, key=len, reverse=True))) + ')(?!' + CHARS + ')')
    for path, text in texts.items():
        changed = pattern.sub(lambda m: new[m.group(1)], text)
        if changed != text:
            with open(path, 'w', encoding='utf-8') as f:
                f.write(changed)


main()
