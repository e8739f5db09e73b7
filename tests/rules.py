#!/usr/bin/env -S python3 -B
"""Plants wrong rules in definition and code alike, and asks that each is refused by a fact that cites neither.

    tests/rules.py                  every rule of tests/planted.py, one after the other, crate by crate
    tests/rules.py NAME..           only these
    tests/rules.py --texts          only look whether each text to be replaced is there once (a second)
    tests/rules.py --page LOG..     writes docs/RULES.md from what such runs printed: every rule has to be in them

The repository is copied to a folder beside the system's temporary files, with what the crates' out/ has, so that only what a
rule touches is checked again, by `rt check` in the crate's folder: first the lowest crate that it touches, then those above, until one refuses. A rule
passes if a computed table or a promise is among what refuses it: TABLES below names their files. It fails if every
crate is proved with it, or if only laws of the definitions and functions' own proofs refuse it: those cite the
definition, so they may say no more than that the text of a proof is stale.

Besides it is told how many such places refused it as well; where there are none, definition and code still agree.
It runs for about an hour, beside the gate. The last line is 'N passed, M failed'.
"""

import argparse
import collections
import datetime
import re
import shutil
import subprocess
import sys
import tempfile
import time
from pathlib import Path

from checks import Checks, TOP
from documents import layers, reached
from planted import RULES, misplaced

PAGE = TOP / 'docs' / 'RULES.md'
ERROR = re.compile(r'^(?P<path>\S+):(?P<line>\d+):\d+: error: (?P<text>.*)', re.MULTILINE)
RUN = re.compile(r'^rules of commit (\S+), (\S+)$', re.MULTILINE)
TOLD = re.compile(r'(?P<name>\w+): refused at (?P<place>\S+: \S+) \(\S+\); (?:also at (?P<also>\d+) |definition and code agree)')
TABLES = {
    'record/proofs/Sheet', 'host/proofs/Sheet', 'management/proofs/Listed', 'port/proofs/Sheet', 'port/proofs/Disabled', 'store/proofs/Sheet', 'burst/proofs/Scenes',
    'repeater/proofs/Sheet', 'repeater/proofs/Commands', 'attributes/proofs/Sheet', 'attributes/proofs/FlatSheet', 'attributes/proofs/OctetCheck', 'attributes/proofs/TotalSheet', 'changes/proofs/Sheet',
    'chip/proofs/Sheet', 'access/proofs/Sheet', 'himib/proofs/Sheet', 'himib/proofs/FlatSheet', 'himib/proofs/Told', 'start/proofs/Sheet', 'block/proofs/Answers', 'chain/proofs/Sheet', 'history/proofs/Past',
}
PROMISES = 'pass/proofs/'
Place = collections.namedtuple('Place', 'crate file line name text')


def order():
    """The crates, each after those that it stands on."""
    below, found = layers(), []

    def visit(name):
        if name in below and name not in found:
            for one in below[name]:
                visit(one)
            found.append(name)

    for name in below:
        visit(name)
    return found


def touched(rule):
    return {file.split('/')[0] for file, _, _ in rule.changes}


def upwards(rule):
    """The crates to check: those that the rule touches and those above one of them, from below."""
    below, mine = layers(), touched(rule)
    return [name for name in order() if name in mine or mine & reached(below, name)]


def texts(checks):
    names = [rule.name for rule in RULES]
    checks.check(len(names) == len(set(names)), 'tests/planted.py: each rule has a name of its own')
    for rule in RULES:
        wrong = misplaced(rule, TOP / 'crates')
        checks.check(not wrong, f'tests/planted.py: {rule.name}', *wrong)


class Planted:
    """A copy of the tree with a rule in it; the files are as they were when it ends."""

    def __init__(self, folder, rule):
        self.folder, self.rule, self.kept = folder, rule, {}

    def __enter__(self):
        for file, old, new in self.rule.changes:
            path = self.folder / 'crates' / file
            text = path.read_text()
            self.kept.setdefault(path, text)
            path.write_text(text.replace(old, new, 1))

    def __exit__(self, *_):
        for path, text in self.kept.items():
            path.write_text(text)


def declared(path, line):
    """The name of the declaration that a line of a file belongs to: the last one with a type above it."""
    rows = path.read_text().splitlines()[:line]
    for row in reversed(rows):
        found = re.match(r"\s*(?:(?:abbrev|unfoldable|pub) )*([\w'·-]+) :", row)
        if found:
            return found[1]
    return '?'


def check(folder, crate):
    """(proved, places of errors, what was printed)."""
    here = folder / 'crates' / crate
    done = subprocess.run(['rt', 'check'], cwd=here, stdin=subprocess.DEVNULL, stdout=subprocess.PIPE, stderr=subprocess.STDOUT, text=True)
    places = []
    for found in ERROR.finditer(done.stdout):
        path = here / found['path']
        parts = path.relative_to(folder / 'crates').parts if path.is_relative_to(folder / 'crates') else (crate, *path.parts)
        name = declared(path, int(found['line'])) if path.is_file() and path.suffix == '.antt' else '?'
        places.append(Place(parts[0], '/'.join(parts[1:]), int(found['line']), name, found['text']))
    return done.returncode == 0, places, done.stdout


def module(place):
    return f'{place.crate}/{place.file.removesuffix(".antt").removesuffix(".rt")}'


def is_fact(place):
    return module(place) in TABLES or module(place).startswith(PROMISES)


def shown(place):
    return f'{module(place)}: {place.name}'


def tried(folder, rule):
    """(whether a fact refused it; where; the other places; the crate)."""
    for crate in upwards(rule):
        proved, places, said = check(folder, crate)
        if proved:
            continue
        facts, own = [p for p in places if is_fact(p)], [p for p in places if not is_fact(p)]
        if not places:
            return False, f'{crate}: refused, and no place is told: {said.strip().splitlines()[-1:]}', '', crate
        return bool(facts), (facts or own), own, crate
    return False, 'proved', '', None


def main():
    parser = argparse.ArgumentParser(description='Plants wrong rules in definition and code, and asks that facts refuse them.')
    parser.add_argument('names', nargs='*', help='only these rules')
    parser.add_argument('--texts', action='store_true', help='only look whether the texts are there')
    parser.add_argument('--page', nargs='+', metavar='LOG', help='write docs/RULES.md from what runs printed')
    parser.add_argument('--folder', help='a copy of the repository to work in, kept between runs')
    words = parser.parse_args()
    checks = Checks()
    texts(checks)
    if words.page:
        page(checks, words.page)
    if words.texts or words.page or checks.failed:
        sys.exit(checks.end())
    names = [rule.name for rule in RULES]
    wanted = words.names or names
    for name in set(wanted) - set(names):
        parser.error(f'tests/planted.py has no {name}')
    checks = Checks()
    print(f'rules of commit {commit()}, {datetime.date.today().isoformat()}', flush=True)
    with tempfile.TemporaryDirectory(prefix='rules.') as made:
        folder = Path(words.folder or made) / 'tree'
        if not folder.exists():
            shutil.copytree(TOP, folder, ignore=shutil.ignore_patterns('.git', 'must-fail'), symlinks=True)
        for rule in sorted((rule for rule in RULES if rule.name in wanted), key=lambda rule: order().index(upwards(rule)[0])):
            began = time.monotonic()
            with Planted(folder, rule):
                fine, where, own, crate = tried(folder, rule)
            seconds = round(time.monotonic() - began)
            first = where if isinstance(where, str) else f'{shown(where[0])} ({where[0].crate}/{where[0].file}:{where[0].line})'
            agree = 'definition and code agree' if not own else f'also at {len(own)} other places, first {shown(own[0])}'
            told = '' if isinstance(where, str) else f'; {where[0].text[:110]}'
            checks.check(fine, f'{rule.name}: {first}', 'a fact has to refuse it')
            print(f'{rule.name}: {"refused at " if fine else ""}{first}; {agree}; {seconds} s{told}', flush=True)
    sys.exit(checks.end())


def commit():
    """The commit that the tree is at, with a + where it has changed since."""
    done = subprocess.run(['git', 'describe', '--always', '--dirty=+'], cwd=TOP, stdout=subprocess.PIPE, text=True)
    return done.stdout.strip()


def page(checks, logs):
    """docs/RULES.md: the rules in their order, with where each was refused last."""
    found, runs = {}, []
    for log in logs:
        text = Path(log).read_text()
        runs += [run for run in RUN.findall(text) if run not in runs]
        for line in text.splitlines():
            told = TOLD.match(line)
            name = line.partition(':')[0]
            found.pop(name, None)
            if told:
                found[name] = told
    checks.check(runs, 'the runs tell their commit')
    lines = [
        '# Wrong rules, planted',
        '',
        'The last result of `tests/rules.py`. Each row has a rule of document 01, or of a request, in our own words, what was planted in its',
        'place in the definition and in the code alike, and the computed table or promise that refused it. The last column says how many',
        "laws of definitions and functions' own proofs were refused as well. These cite the definition, so they may be stale text",
        'alone; 0 says that definition and code still agreed, and that nothing but the fact refused.',
        '',
        f'{len(found)} of {len(RULES)} rules refused, by runs of these commits and days, the later run of a rule counting:',
        f'{", ".join(f"{at} ({day})" for at, day in runs)}.',
        '',
        '| Name | Section | Rule | Planted | Refused at | Also |',
        '|---|---|---|---|---|---|',
    ]
    for rule in RULES:
        told = found.get(rule.name)
        if checks.check(told, f'{rule.name}: a run has refused it'):
            lines.append(f'| {rule.name} | {rule.section} | {rule.says} | {rule.planted} | `{told["place"]}` | {told["also"] or 0} |')
    PAGE.write_text('\n'.join(lines) + '\n')


if __name__ == '__main__':
    main()
