#!/usr/bin/env -S python3 -B
"""Brings the names that this repository's definitions and lemmas have to the spelling of today's Rattle: words in snake case.

Run once at the top, after the kit's port.py. A name is one that an .antt file of crates/ declares and no library of the kit does. Functions of src/,
exported C names, strings, inputs and outputs keep theirs. Where a lemma's new name would be a definition's, it ends in _lem.
"""

import collections
import re
import sys
from pathlib import Path

TOP = Path(__file__).resolve().parent.parent
ID = r"[^\s(){}\[\]:;,.λ«»]+"
HEAD = re.compile(rf"\s*(?:(?:pub|abbrev|unfoldable|private)\s+)*((?:{ID})(?:\s+{ID})*)\s+:\s")
NAMED = re.compile(rf"\s*(?:pub\s+)?(?:abbrev\s+|unfoldable\s+)?(?:data|record|ruleset|module)\s+({ID})")
TOKEN = re.compile(r"[A-Za-z_Ͱ-Ͽℕℤ≢≡⊥'′·0-9*+-]+")
# A lemma that would have a definition's name. port.py has turned the dash of these already.
LEMMAS = ('asked_by', 'c_read', 'counter_at', 'met_at', 'moved_by', 'next_place', 'nothing_yet', 'quiet_at', 'read_as', 'read_at', 'read_back',
          'row_on', 'tail_of', 'taken_in', 'too_long')


def snake(name):
    name = name.replace('′', "'")
    if name[0].isupper():
        return name
    name = re.sub(r'(?<=[a-z0-9])([A-Z])(?=[A-Z]|$)', lambda m: '_' + m[1].lower(), name)
    name = re.sub(r'([A-Z]+)', lambda m: '_' + m[1].lower(), name)
    return re.sub(r'_+', '_', name.replace('-', '_').replace('·', '_'))


def lines_of(path):
    return path.read_text().splitlines(keepends=True)


def is_goal_file(path):
    return path.name == 'Proof.antt' or 'tie.Need' in path.read_text()


def declared():
    found, generated = collections.defaultdict(set), set()
    for path in sorted((TOP / 'crates').rglob('*.antt')):
        for line in lines_of(path):
            if line.strip().startswith('--'):
                continue
            got = HEAD.match(line)
            if got and re.search(r'\b(tie|goal|given)\.', line):
                generated.update(got[1].split())
                continue
            for name in got[1].split() if got else ():
                found[name].add(path)
            got = NAMED.match(line)
            if got:
                found[got[1]].add(path)
    for path in (TOP / 'crates').rglob('Proof.antt'):
        for line in lines_of(path):
            got = re.match(r'pub ([a-z0-9_-]+-spec) ', line)
            if got:
                generated.add(got[1])
    return found, generated


def renamed():
    found, generated = declared()
    table = {}
    for name in found:
        if name in generated and not any('specs' in p.parts or p.parent.name == 'proofs' for p in found[name]):
            continue
        new = snake(name)
        if new != name and re.match(r"[A-Za-z]", name):
            table[name] = new
    definitions = {new for old, new in table.items() if '-' not in old} | {'read_by', 'bytes_at'}  # port.py has turned these two
    for old, new in table.items():
        if '-' in old and new in definitions:
            table[old] = new + '_lem'
    for name in LEMMAS:
        table[name] = name + '_lem'
    return table, found


KIT = re.compile(r'use (?:Rattle\.(?:std|core|io|libc|os)\b|Prim|mathlib|native|lib|borrow|denote|logic)[\w.]*\.\{([^}]*)\}')


def turned(text, table, kept=()):
    walk = 'tie.Need' in text

    def one(match):
        token, at = match[0], match.start()
        if token not in table or token in kept:
            return token
        before = text[max(0, at - 60):at]
        if walk and before.endswith('.'):  # a step of the code, unless it is a module's
            head = re.search(r"([^\s(){}\[\],;]*)\.$", before)[1]
            if head.split('.')[0] in ('c', 'tie', 'goal', 'given', 'reads', 'lts', '') or '..' in head:
                return token
        return table[token]
    return TOKEN.sub(one, text)


def main():
    table, found = renamed()
    clash = collections.defaultdict(set)
    for name in list(found):
        clash[table.get(name, name)].add(name)
    for new, old in sorted(clash.items()):
        if len(old) > 1:
            print('falls together:', new, sorted(old), [str(p.relative_to(TOP)) for o in old for p in sorted(found[o])[:3]])
    if '--look' in sys.argv:
        return
    for path in sorted((TOP / 'crates').rglob('*')):
        if path.suffix not in ('.antt', '.rt') or 'out' in path.parts:
            continue
        text = path.read_text()
        kept = {n.strip().split(' as ')[-1] for m in KIT.finditer(text) for n in m[1].split(',')}
        if path.suffix == '.rt':
            kept |= set(LEMMAS)  # no lemma stands in a clause, and functions keep their names
        new = turned(text, table, kept)
        if new != text:
            path.write_text(new)


if __name__ == '__main__':
    main()
