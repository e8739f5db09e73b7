#!/usr/bin/env -S python3 -B
"""Holds README.md, docs/MAP.md, docs/PASS.md, docs/RULES.md and docs/changes/ to the repository.

    tests/documents.py               every name is there, promises and edits match, README's commands print what it says
    tests/documents.py --functions   prints the public functions as docs/PASS.md has to list them

In docs/MAP.md, docs/PASS.md and docs/RULES.md whatever stands in backquotes is a name, in one of these forms:

    record/specs/Record: place, kinds     definitions, theorems, functions or types in a file of a crate
    record/specs/Record                   such a file
    record/proofs/read_record/Proof       the proof of a function, in files of that folder or found by the checker itself
    record/must-fail/order_2_and_1        an edit that the check must refuse
    tests/planted: two_are_one, m_stays   wrong rules that tests/rules.py plants
    traces/sample                         a trace of traces/LIST
    tests/compare.py                      any file or folder, from the top

The notes in docs/changes/ are read in the same way, but for two things. A name alone, such as kind_number or
Query::Mjlp, has to occur in some crate, or to be one. And what a table has in a column headed 'before' is not looked up.
"""

import collections
import functools
import os
import re
import subprocess
import sys

from checks import Checks, TOP, roverivet_command
from planted import RULES, misplaced
from tutorial import steps

import roverivet
from tools import build

MAP, PASS, PLANTED, README = TOP / 'docs' / 'MAP.md', TOP / 'docs' / 'PASS.md', TOP / 'docs' / 'RULES.md', TOP / 'README.md'
NOTES = TOP / 'docs' / 'changes'
STATEMENTS = [TOP / 'crates' / crate / 'specs' / f'{name}.antt' for crate, name in (('pass', 'Pass'), ('pass', 'HostPast'), ('pass', 'Totals'), ('pass', 'Limit'), ('alone', 'Alone'), ('alone', 'Limit'))]
KEYS = ['demand', 'sentence', 'section', 'statement', 'theorem', 'instance', 'edits', 'says not']
UNFINISHED = re.compile(r'PENDING|@[A-Z]+@')  # words that hold the place of what is still to be told
GONE = 'before'
PARTS = ('port', 'burst', 'management', 'repeater')
ABOVE = ('chip', 'access', 'himib')
TOLD = {'repeater::Repeater', 'management::decode', 'management::Command', 'management::Query', 'management::Setting', 'burst::Activity'}
SYSTEM = ('/dev', '/proc', '/usr/bin/env', '/bin/sh')
IN_CRATE = re.compile(r'(\w+)/(specs|proofs|src)/([\w/]+)(?:: (.+))?')
EDIT = re.compile(r'(\w+)/must-fail/(\w+)')
RULE = re.compile(r'tests/planted: (.+)')
EDIT_NAME = re.compile(r'[a-z][a-z0-9]*(?:_[a-z0-9]+)*')
ALONE = re.compile(r"[\w'-]+(?:::[\w'-]+)*")
ABSOLUTE = re.compile(r'(?:^|[\s"\'`(=:!])(/[A-Za-z][\w.-]*(?:/[\w.-]+)*)')
HOST = re.compile(r'https?://(?!www\.w3\.org/)[\w.-]+')


def shown(path):
    return str(path.relative_to(TOP))


def same(checks, found, expected, what):
    """Two lists of names are the same; only what differs is told."""
    lacking, extra = sorted(set(expected) - set(found)), sorted(set(found) - set(expected))
    checks.check(sorted(found) == sorted(expected), what, f'not there: {", ".join(lacking) or "-"}', f'too much: {", ".join(extra) or "-"}')


# ---- names


def lines_of(page):
    """(number, line) outside blocks of code."""
    inside = False
    for number, line in enumerate(page.read_text().splitlines(), 1):
        if line.startswith('```'):
            inside = not inside
        elif not inside:
            yield number, line


def present(page):
    """(number, line) outside blocks of code, without the cells that a table has below the heading 'before'."""
    gone = None
    for number, line in lines_of(page):
        if not line.startswith('|'):
            gone = None
            yield number, line
            continue
        cells = line.split('|')
        if gone is None:
            gone = [at for at, cell in enumerate(cells) if cell.strip().lower() == GONE]
        yield number, '|'.join(cell for at, cell in enumerate(cells) if at not in gone)


def names_in(text):
    return re.findall(r'`([^`]+)`', text)


def is_there(path, name):
    """Whether a file has a definition, theorem, function or type of this name."""
    word = re.escape(name)
    if path.suffix == '.rt':
        pattern = rf'\b(?:fn|struct|enum|const) {word}\b'
    else:
        pattern = rf'^\s*(?:(?:abbrev|unfoldable|pub) )*{word} :|^\s*(?:pub )?(?:record|data) {word}\b'
    return re.search(pattern, path.read_text(), re.MULTILINE) is not None


def traces():
    rows = (TOP / 'traces' / 'LIST').read_text().splitlines()
    return [row.split()[0] for row in rows if row.strip() and not row.startswith('#')]


def rule_names():
    return [rule.name for rule in RULES]


def missing(name):
    """Why a name names nothing, or None."""
    found = IN_CRATE.fullmatch(name)
    if found:
        crate, folder, file, words = found.groups()
        *_, function, last = ('', *file.split('/'))
        if (folder, last, words) == ('proofs', 'Proof', None):
            code = (TOP / 'crates' / crate / 'src').rglob('*.rt')
            return None if any(re.search(rf'\bfn {function}\b', path.read_text()) for path in code) else f'crates/{crate} has no function {function}'
        path = TOP / 'crates' / crate / folder / (file + ('.rt' if folder == 'src' else '.antt'))
        if not path.is_file():
            return f'there is no {shown(path)}'
        absent = [word for word in words.split(', ') if not is_there(path, word)] if words else []
        return f'{shown(path)} has no {", ".join(absent)}' if absent else None
    found = EDIT.fullmatch(name)
    if found:
        path = TOP / 'crates' / found[1] / 'must-fail' / f'{found[2]}.edit'
        return None if path.is_file() else f'there is no {shown(path)}'
    found = RULE.fullmatch(name)
    if found:
        absent = [word for word in found[1].split(', ') if word not in rule_names()]
        return f'tests/planted.py has no {", ".join(absent)}' if absent else None
    if name.startswith('traces/') and '.' not in name and name not in ('traces/LIST', 'traces/REFUSED'):
        return None if name.removeprefix('traces/') in traces() else 'traces/LIST does not name it'
    return None if (TOP / name).exists() else 'there is no such file'


@functools.cache
def written():
    """Every word of the crates' code, definitions and proofs, remarks left out."""
    found = set()
    for path in sorted(TOP.glob('crates/*/*/**/*')):
        if path.suffix in ('.rt', '.antt'):
            remark = r'//.*' if path.suffix == '.rt' else r'--.*'
            found |= set(re.findall(r"[\w'-]+", re.sub(remark, '', path.read_text())))
    return found


def missing_now(name):
    """Why a name in a note names nothing, or None."""
    if not ALONE.fullmatch(name) or (TOP / name).exists():
        return missing(name)
    absent = [word for word in name.split('::') if word not in written() and not (TOP / 'crates' / word).is_dir()]
    return f'no crate has {", ".join(absent)}' if absent else None


def named(checks):
    notes, tried = sorted(NOTES.glob('*.md')), 0
    for page, lines, lookup in [(MAP, lines_of, missing), (PASS, lines_of, missing), (PLANTED, lines_of, missing), *((note, present, missing_now) for note in notes)]:
        for number, line in lines(page):
            if UNFINISHED.search(line):
                continue
            for name in names_in(line):
                tried += 1
                reason = lookup(name)
                checks.check(reason is None, f'{shown(page)}:{number}: {name}', reason)
    print(f'{tried} names in docs/MAP.md, docs/PASS.md, docs/RULES.md and {len(notes)} pages of docs/changes')


def finished(checks):
    for page in [README, TOP / 'crates.txt', *sorted((TOP / 'docs').rglob('*.md'))]:
        places = [f'{n}: {word}' for n, line in enumerate(page.read_text().splitlines(), 1) for word in UNFINISHED.findall(line)]
        checks.check(not places, f'{shown(page)} is finished', f'still to be told in line {", ".join(places)}')


# ---- promises


def entries(checks):
    """docs/PASS.md's entries: [(id, title, {key: value})]."""
    found, current = [], None
    for number, line in lines_of(PASS):
        head = re.fullmatch(r'### (\w+) (.+)', line)
        item = re.fullmatch(r'- ([a-z ]+): (.+)', line)
        if head:
            current = (head[1], head[2], {})
            found.append(current)
        elif line.startswith('#'):
            current = None
        elif current and item:
            checks.check(item[1] not in current[2], f'docs/PASS.md:{number}: {item[1]} stands once in {current[0]}')
            current[2][item[1]] = item[2]
        elif current and line.startswith('  ') and current[2]:
            current[2][list(current[2])[-1]] += ' ' + line.strip()
        else:
            checks.check(not current or not line.strip(), f'docs/PASS.md:{number}: a line of the form of {current and current[0]}')
    return found


def line_of(path, name):
    """The line on which a name is defined, from 1."""
    pattern = rf'\s*(?:(?:abbrev|unfoldable|pub) )*{re.escape(name)} :.*|.*\bfn {re.escape(name)}\b.*'
    lines = path.read_text().splitlines()
    return next((n for n, line in enumerate(lines, 1) if re.fullmatch(pattern, line)), 0)


def file_of(name):
    """The file and the first word of a name in a crate, or None."""
    found = IN_CRATE.fullmatch(name)
    if not found or not found[4]:
        return None
    crate, folder, file, words = found.groups()
    path = TOP / 'crates' / crate / folder / (file + ('.rt' if folder == 'src' else '.antt'))
    return (path, words.split(', ')) if path.is_file() else None


def promises(checks):
    """Each statement of the crates pass and alone has its entries and one theorem, and an instance above it."""
    listed = entries(checks)
    ids = [entry[0] for entry in listed]
    checks.equal(sorted(set(ids)), sorted(ids), 'docs/PASS.md: each id stands once')
    stated, proofs = [], {}
    for number, title, fields in listed:
        where = f'docs/PASS.md: {number} {title}'
        checks.equal(list(fields), KEYS, f'{where}: the lines, in their order')
        if list(fields) != KEYS or UNFINISHED.search(fields['theorem']):
            continue
        statement, theorem, instance = (file_of((names_in(fields[key]) or [''])[0]) for key in ('statement', 'theorem', 'instance'))
        if statement and statement[0] in STATEMENTS and theorem:
            kind, parts = statement[1][0], statement[1][1:]
            stated.append((kind, *parts))
            proofs.setdefault(kind, set()).add(theorem[0])
            text = theorem[0].read_text()
            checks.check(re.search(rf'^pub {re.escape(theorem[1][0])} : {kind}$', text, re.MULTILINE),
                         f'{where}: the theorem has the statement {kind}')
        if theorem and instance and theorem[0] == instance[0]:
            checks.check(0 < line_of(instance[0], instance[1][0]) < line_of(theorem[0], theorem[1][0]),
                         f'{where}: the instance stands above the theorem')
    kinds = [kind for path in STATEMENTS for kind in re.findall(r'^abbrev pub (\w+) : Type [01]$', path.read_text(), re.MULTILINE)]
    same(checks, {kind for kind, *_ in stated}, kinds, 'docs/PASS.md has the statements of crates/pass/specs and crates/alone/specs')
    checks.equal(len(set(stated)), len(stated), 'docs/PASS.md: no part of a statement has two entries')
    checks.check(all(len(files) == 1 for files in proofs.values()), 'docs/PASS.md: each statement has one theorem')
    print(f'{len(listed)} promises, {len(kinds)} statements')


def told_edits(page):
    """(crate, edit) of every edit that a page names."""
    return {found.groups() for _, line in lines_of(page) for name in names_in(line) if (found := EDIT.fullmatch(name))}


def edits(checks):
    """Every edit is named in docs/PASS.md (all of the crates pass, past and alone are) or docs/MAP.md, has a name of its own, and says first what it breaks."""
    every = sorted(TOP.glob('crates/*/must-fail/*.edit'))
    there = {(path.parents[1].name, path.stem) for path in every}
    for promising in ('pass', 'past', 'alone'):
        same(checks, {edit for crate, edit in told_edits(PASS) if crate == promising}, {edit for crate, edit in there if crate == promising},
             f'docs/PASS.md has the edits of the crate {promising}')
    untold = sorted(f'{crate}/must-fail/{edit}' for crate, edit in there - told_edits(PASS) - told_edits(MAP))
    checks.check(not untold, 'docs/PASS.md or docs/MAP.md names every edit', *untold)
    for name, times in sorted(collections.Counter(edit for _, edit in there).items()):
        checks.check(times == 1, f'{name} is the name of one edit', *(shown(path) for path in every if path.stem == name))
        checks.check(EDIT_NAME.fullmatch(name), f'{name} is in lower case, its words joined by _')
    for path in every:
        first = path.read_text().splitlines()[0]
        checks.check(first.startswith('# ') and len(first) > 20, f'{shown(path)}: the first line says what it breaks')
    print(f'{len(every)} edits, {sum(crate == "pass" for crate, _ in there)} of them of the crate pass')


def rules(checks):
    """Every wrong rule of tests/planted.py can be planted, docs/MAP.md names it, and docs/RULES.md tells where it was refused."""
    for rule in RULES:
        wrong = misplaced(rule, TOP / 'crates')
        checks.check(not wrong, f'tests/planted.py: {rule.name}', *wrong)
    told = {word for _, line in lines_of(MAP) for name in names_in(line) if (found := RULE.fullmatch(name)) for word in found[1].split(', ')}
    same(checks, told, rule_names(), 'docs/MAP.md names the wrong rules of tests/planted.py')
    rows = re.findall(r'^\| (\w+) \| .*\| `[^`]+` \| \d+ \|$', PLANTED.read_text(), re.MULTILINE)
    same(checks, rows, rule_names(), 'docs/RULES.md has the wrong rules of tests/planted.py, each refused')
    print(f'{len(rows)} wrong rules')


# ---- public functions


def functions():
    """(file, function, contract) of every public function of the crates that are no programs."""
    for path in sorted(TOP.glob('crates/*/src/**/*.rt')):
        if (path.parents[0] / 'main.rt').is_file():
            continue
        text = path.read_text()
        for found in re.finditer(r'^ *pub (?:extern "C" )?fn (\w+)(.*?)\{$', text, re.MULTILINE | re.DOTALL):
            yield path, found[1], found[2]


def is_equation(contract):
    return re.findall(r'\bensures\b[^{]*\{\s*(result ≡ )?', contract) == ['result ≡ ']


def is_other(contract):
    return not is_equation(contract)


LISTS = (('Public functions', is_equation), ('Functions with another contract', is_other))


def function_lines(wanted):
    """The lines 'crate/src/file: one, two' for the functions that are wanted."""
    by_file = {}
    for path, name, contract in functions():
        if wanted(contract):
            by_file.setdefault(path, []).append(name)
    for path, names in by_file.items():
        crate, *rest = path.relative_to(TOP / 'crates').with_suffix('').parts
        yield f'{crate}/{"/".join(rest)}: {", ".join(names)}'


def listed_functions(heading):
    """The names in the section of docs/PASS.md with this heading."""
    section = PASS.read_text().split(f'\n## {heading}\n', 1)
    body = section[1].split('\n## ', 1)[0] if len(section) == 2 else ''
    rows = [line for line in body.splitlines() if line.startswith('- `')]
    return [names_in(row)[0] for row in rows]


def public(checks):
    every = list(functions())
    for path, name, contract in every:
        checks.check('ensures' in contract, f'{shown(path)}: {name} states its answer')
        checks.check('requires' not in contract, f'{shown(path)}: {name} asks for nothing')
    for heading, wanted in LISTS:
        same(checks, listed_functions(heading), list(function_lines(wanted)), f'docs/PASS.md: {heading}')
    print(f'{len(every)} public functions')


# ---- crates, README


def layers():
    """{crate: what it stands on} by crates.txt."""
    rows = (row.partition(':') for row in (TOP / 'crates.txt').read_text().splitlines() if row.strip() and not row.startswith('#'))
    return {name.strip(): needs.split() for name, _, needs in rows}


def reached(below, name):
    """Every crate that a crate stands on, directly or not."""
    found = set()
    todo = list(below.get(name, []))
    while todo:
        one = todo.pop()
        if one not in found:
            found.add(one)
            todo += below.get(one, [])
    return found


def crates(checks):
    below = layers()
    for name in below:
        checks.check((TOP / 'crates' / name / 'src').is_dir(), f'crates.txt: {name} is there')
    checks.equal(reached(below, 'repeater'), {'ports', 'history', 'management', 'port', 'store', 'burst'}, 'crates.txt: the repeater works by itself')
    rows = re.findall(r'^\| `(\w+)` \|', README.read_text().split('\n## Layout\n', 1)[-1], re.MULTILINE)
    same(checks, rows, list(below), 'README.md: the layout has the crates of crates.txt')
    for row in (TOP / 'tests' / 'GATE').read_text().splitlines():
        if row.strip() and not row.startswith('#'):
            checks.check((TOP / 'tests' / row).is_file(), f'tests/GATE: {row} is there')
    print(f'{len(below)} crates')


def code_of(crate):
    """(file, its code without remarks and without what only proofs read)."""
    for path in sorted((TOP / 'crates' / crate / 'src').rglob('*.rt')):
        lines = (line.split('//')[0] for line in path.read_text().splitlines() if not line.lstrip().startswith(('ghost ', 'ensures ', 'requires ')))
        yield path, '\n'.join(lines)


def fields_of(crate, struct):
    """The fields of a struct."""
    text = (TOP / 'crates' / crate / 'src' / 'lib.rt').read_text()
    return re.findall(r'^    pub (\w+):', re.search(rf'pub struct {struct} \{{\n(.*?)^\}}', text, re.MULTILINE | re.DOTALL)[1], re.MULTILINE)


def promises_alone(checks):
    """The code of the HIMIB asks the repeater by its functions, and names of its parts only what their contracts speak of."""
    inside = {*fields_of('repeater', 'Repeater'), *fields_of('port', 'Port')}
    for crate in ABOVE:
        for path, text in code_of(crate):
            named = {name for name in re.findall(rf'\b((?:{"|".join(PARTS)})::\w+)', text)}
            checks.check(named <= TOLD, f'{shown(path)}: names no more of the repeater than its promises', *sorted(named - TOLD))
            read = {name for name in re.findall(r'\.(\w+)\b(?!\s*\()', text) if name in inside}
            checks.check(not read, f'{shown(path)}: reads nothing inside the repeater or a port', *sorted(read))


def front_page(checks):
    """The first page of docs/PASS.md names no file."""
    page = PASS.read_text().split('\n## ', 2)[1]
    checks.check('`' not in page and not re.search(r'\w/\w|\.(?:md|py|rt|antt)\b', page), 'docs/PASS.md: no file is named on its first page')


def exists(checks, where, words):
    """A command of README's can be started, and the files that it names are there."""
    checks.check(os.access(TOP / words[0], os.X_OK), f'{where}: {words[0]} can be started')
    for word, before in zip(words[1:], words):
        if '/' in word and before != '-o' and not word.startswith('target/'):
            checks.check((TOP / word).exists(), f'{where}: {word} is there')


def commands(checks):
    """README's commands are there, and show every verb."""
    page = README.read_text()
    for block in re.findall(r'^```sh\n(.*?)^```$', page, re.DOTALL | re.MULTILINE):
        for line in block.splitlines():
            exists(checks, 'README.md', line.split())
    told = [(line, words, output) for line, kind, words, output in steps(page) if kind == 'command']
    for line, words, _ in told:
        exists(checks, f'README.md:{line}', words.rpartition('| ')[2].split())
    verbs = re.findall(r'^    (\w+) ', roverivet_command('--help').stdout.decode(), re.MULTILINE)
    spoken = {verb for _, words, _ in told for verb in re.findall(r'\./roverivet (\w+)', words)}
    same(checks, spoken, verbs, 'README.md shows every verb')
    return told


def outputs(checks, told):
    """README's commands print what it says."""
    try:
        build.ensure()
    except roverivet.Missing as error:
        checks.check(False, 'there is a program to run', str(error))
        return
    (TOP / 'target').mkdir(exist_ok=True)
    for old in (TOP / 'target').glob('runs.log*'):
        old.unlink()
    for line, words, output in told:
        ran = subprocess.run(['sh', '-c', words], cwd=TOP, stdin=subprocess.DEVNULL, capture_output=True, text=True, timeout=3600)
        checks.equal((ran.stdout, ran.returncode), (output, 0), f'README.md:{line}: {words}')
    print(f'{len(told)} commands of README.md run and compared')


# ---- paths


def files():
    for folder, names, leaves in os.walk(TOP):
        names[:] = [name for name in names if name not in ('target', 'out', '.git', '__pycache__')]
        yield from (TOP / folder / leaf for leaf in leaves)


def paths(checks):
    """No file names a path of some machine, nor a host of some network."""
    tried = 0
    for path in sorted(files()):
        text = path.read_bytes().decode(errors='replace')
        tried += 1
        for number, line in enumerate(text.splitlines(), 1):
            absolute = [found for found in ABSOLUTE.findall(line) if not found.startswith(SYSTEM)]
            for word in absolute + HOST.findall(line):
                checks.check(False, f'{shown(path)}:{number}: {word} is of some machine or network')
    checks.check(tried > 0, 'files were looked through')
    print(f'{tried} files looked through for paths of some machine')


def main(words):
    if words == ['--functions']:
        for heading, wanted in LISTS:
            print(f'## {heading}', *(f'- `{row}`' for row in function_lines(wanted)), sep='\n', end='\n\n')
        return 0
    checks = Checks()
    for part in (named, finished, promises, edits, rules, public, crates, promises_alone, front_page, paths):
        part(checks)
    outputs(checks, commands(checks))
    return checks.end()


if __name__ == '__main__':
    sys.exit(main(sys.argv[1:]))
