#!/usr/bin/env -S python3 -B
"""Tries every line of the table 'Exit status' in docs/REFERENCE.md, for every verb that the line names."""

import os
import re
import shutil
import subprocess
import sys
import tempfile
from pathlib import Path

from checks import Checks, TOP, need_program, roverivet_command
import building
import liars
from reference import rows

VERBS = ('build', 'asm', 'dis', 'run', 'check', 'verdict', 'explain', 'export', 'talk', 'totals', 'view')
GOOD = b'pulse tp0 x4 => ok\nburst tp0 d=600 n=64 => rep 100\ntick mask=001 => ref 8\n'
WRONG = b'pulse tp0 x4\nburst tp0 n=64\n'


class Table:
    """A folder with files to try, and a function for each line of the table, named by its words."""

    def __init__(self, checks, folder):
        self.checks, self.folder = checks, folder
        for name, data in (('good.txt', GOOD), ('wrong.txt', WRONG), ('empty.txt', b'# nothing\n'), ('short.start', b'short\0'),
                           ('bad.start', b'tp0 Runts = x\n'), ('76.start', b'Short Event limit = 76\n'), ('82.start', b'Short Event limit = 82\n'),
                           ('other.txt', GOOD.replace(b'100', b'102')), ('refused.txt', b'tick mask=001\n'),
                           ('good.readings', b'7\n9\n'), ('wrong.readings', b'7\n-9\n')):
            (folder / name).write_bytes(data)
        (folder / 'good.bin').write_bytes(self.run('asm', 'good.txt').stdout)
        self.run('check', '--log', 'good.log', 'good.txt')
        self.run('check', '--log', 'red.log', 'other.txt')
        self.env = None

    def run(self, *words, data=None, **more):
        return roverivet_command(*words, data=data, cwd=self.folder, **more)

    def words(self, verb, file):
        """The words by which a verb is given a file."""
        more = {'view': ('-o', 'x.svg'), 'asm': ('-o', 'x.bin'), 'dis': ('-o', 'x.txt')}.get(verb, ())
        return (verb, *((file,) if verb not in ('talk', 'build') else ()), *more)

    def usual(self, verb):
        return {'dis': 'good.bin', 'verdict': 'good.log', 'totals': 'good.readings'}.get(verb, 'good.txt')

    def is_status(self, status, ran, what):
        said = ran.stderr.decode()
        fine = ran.returncode == status and 'Traceback' not in said and (bool(said) or status < 2)
        self.checks.check(fine, what, f'status {ran.returncode}, said {said!r}')

    def with_program(self, status, verb, source, data=b'pulse tp0\nburst tp0 d=5\n', file='three.txt'):
        (self.folder / file).write_bytes(data)
        path = liars.written(self.folder, source)
        ran = self.run(*self.words(verb, file), data=data if verb == 'talk' else None, env={**os.environ, 'ROVERIVET_RUN': str(path)})
        self.is_status(status, ran, f'{verb}: {source[-60:]!r}')

    def copied(self, verb, source, data=b'7\n8\n9\n'):
        """A verb by a copy of ./roverivet that has nothing to build with, and this for the program of its name if it is not empty."""
        folder = self.folder / 'copied'
        shutil.rmtree(folder, ignore_errors=True)
        built = folder / 'repository' / 'crates' / verb / 'out' / verb
        built.parent.mkdir(parents=True)
        building.make(folder)
        (folder / 'repository' / 'crates.txt').unlink()
        if source:
            built.write_text(source)
            built.chmod(0o755)
        return subprocess.run([sys.executable, '-B', str(folder / 'repository' / 'roverivet'), verb], input=data, capture_output=True, timeout=60)


def does(table, status, verb):
    data = re.sub(rb'=>.*', b'', GOOD) if verb == 'talk' else None
    table.is_status(status, table.run(*table.words(verb, table.usual(verb)), data=data), verb)


def fails_to_answer(table, status, verb):
    table.with_program(status, verb, liars.UNORDERED['answers before it is asked'])  # tests/wrong_programs.py has the others


def impossible(table, status, verb):
    table.with_program(status, verb, liars.script(liars.ALWAYS_OK))


def refuses(table, status, verb):
    table.with_program(status, verb, liars.script("number, 'ref 8'"), b'tick\n')
    table.with_program(status, verb, liars.script(), b'tick mask=001\n')


def unexpected(table, status, verb):
    table.is_status(status, table.run(verb, 'good.txt', 'other.txt'), f'{verb}: another answer')
    table.is_status(status, table.run(verb, 'refused.txt'), f'{verb}: a refusal')


def no_sum(table, status, verb):
    for source in (building.TOTALS, '#!/bin/sh\ncat > /dev/null\n', '#!/bin/sh\nexit 7\n', '#!/bin/sh\ncat > /dev/null\necho hello\n'):
        ran = table.copied(verb, source)
        table.is_status(status, ran, f'{verb}: {source[-60:]!r}')
        table.checks.check(ran.stderr.startswith(b'roverivet: ') and not ran.stdout, f'{verb}: which is told, and no sum is printed')


def not_green(table, status, verb):
    table.is_status(status, table.run(verb, 'good.log', 'red.log'), f'{verb}: red')
    table.is_status(status, table.run(verb, 'good.log', '--since', '2999-01-01'), f'{verb}: no test')
    (table.folder / 'cut.log').write_bytes((table.folder / 'good.log').read_bytes()[:-9])
    table.is_status(status, table.run(verb, 'cut.log'), f'{verb}: cut')


def words(table, status, verb):
    ran = table.run(*table.words(verb, table.usual(verb)), '--bogus')
    table.is_status(status, ran, f'{verb} --bogus')
    table.checks.check(b'usage:' in ran.stderr, f'{verb} --bogus tells how it is used')


def unreadable(table, status, verb):
    table.is_status(status, table.run(*table.words(verb, 'none')), f'{verb}: a file that is not there')
    table.is_status(status, table.run(*table.words(verb, '.')), f'{verb}: a folder')


def mistake(table, status, verb):
    ran = table.run(*table.words(verb, 'wrong.txt'))
    table.is_status(status, ran, f'{verb}: a text with a mistake')
    table.checks.check(b'wrong.txt:2:15: expected d=' in ran.stderr and b'ok' not in ran.stdout, f'{verb}: the mistake is told, and nothing is run')


def no_reading(table, status, verb):
    ran = table.run(*table.words(verb, 'wrong.readings'))
    table.is_status(status, ran, f'{verb}: a line that is no reading')
    table.checks.check(b'wrong.readings:2:1: expected a reading' in ran.stderr and not ran.stdout, f'{verb}: it is told, and no sum is printed')


def text(table, status, verb):
    table.is_status(status, table.run(*table.words(verb, 'good.txt')), f'{verb} of a text')


def talked(table, status, verb):
    table.is_status(status, table.run(verb, data=WRONG), f'{verb} with a mistake')


def start(table, status, verb):
    for file in ('none', 'short.start', 'bad.start'):
        table.is_status(status, table.run(*table.words(verb, 'good.txt'), '--start', file, data=b''), f'{verb} --start {file}')


def limit(table, status, verb):
    for words, number in ((('--short-limit', '74'), 74), (('--start', '82.start'), 82), (('--short-limit', '4294967374'), 4294967374)):
        ran = table.run(*table.words(verb, 'good.txt'), *words, data=b'')
        table.checks.equal((ran.stdout, ran.stderr.decode(), ran.returncode),
                           (b'', f'{verb}: short event limit {number} is outside 75 to 81 (refused 13)\n', status), f'{verb} {" ".join(words)}')


def two_limits(table, status, verb):
    ran = table.run(*table.words(verb, 'good.txt'), '--start', '76.start', '--short-limit', '75', data=b'')
    table.is_status(status, ran, f'{verb} --start 76.start --short-limit 75')
    table.checks.check(b'--short-limit 75: 76.start names another, the short event limit 76\n' in ran.stderr and b'ok' not in ran.stdout,
                       f'{verb}: both limits are told, and nothing is run', ran.stderr)


def misnamed(table, status, verb):
    ran = table.run(verb, 'good.txt', '--attribute', 'Readable')
    table.is_status(status, ran, f'{verb} --attribute Readable')
    table.checks.check(b'Readable Frames, Readable Octets' in ran.stderr and not ran.stdout, f'{verb}: a wrong name brings the list')


def nothing(table, status, verb):
    table.is_status(status, table.run(verb, 'empty.txt'), f'{verb} of no record')


def point(table, status, verb):
    table.is_status(status, table.run(verb, 'good.log', '--since', 'fffffffff'), f'{verb} --since')


def unwritable(table, status, verb):
    if verb in ('asm', 'dis', 'view'):
        name = 'none/x.svg'
        table.is_status(status, table.run(verb, table.usual(verb), '-o', name), f'{verb} -o {name}')
    if verb in ('run', 'check'):
        table.is_status(status, table.run(verb, 'good.txt', '--log', 'none/x.log'), f'{verb} --log')
    if verb == 'check':
        table.is_status(status, table.run(verb, 'good.txt', '--junit', 'none/x.xml'), f'{verb} --junit')
    if verb != 'view':
        with open('/dev/full', 'wb') as full:
            table.is_status(status, table.run(verb, table.usual(verb), stdout=full), f'{verb} to a full device')


def missing(table, status, verb):
    if verb == 'totals':
        table.is_status(status, table.copied(verb, ''), f'{verb} without a program')
        return
    ran = table.run(*table.words(verb, table.usual(verb)), data=b'', env={**os.environ, 'ROVERIVET_RUN': str(table.folder / 'none')})
    table.is_status(status, ran, f'{verb} without a program')


LINES = {
    'it did what was asked; a refused record is an answer': does,
    'every file passed': does,
    'there are tests, all of them are green, and no log is damaged': does,
    'an answer is missing, surplus or out of order, or the program ends badly': fails_to_answer,
    'an answer that no record of its kind can have': impossible,
    'a refusal where document 01 has none, or the reverse': refuses,
    'an answer is not the expected one, or a refusal where nothing is expected': unexpected,
    'the sum does not fit in 64 bits, or the program gives none': no_sum,
    'a test is not green, there is none, or a log is damaged': not_green,
    'words that the verb does not take': words,
    'a name that no attribute has': misnamed,
    'a file that cannot be read': unreadable,
    'a text with a mistake; nothing of it is run': mistake,
    'a line that is no reading; no sum is printed': no_reading,
    'text where records are expected': text,
    'a line with a mistake, unless a person types it': talked,
    'a start file that cannot be read, has another size, or a mistake': start,
    'a short event limit that is refused with 13; nothing is run': limit,
    'a short event limit other than the one that the start file names': two_limits,
    'a file without a record': nothing,
    'a point of `--since` that the logs do not have': point,
    'an output, a report or a log that cannot be written': unwritable,
    'the program is missing, or cannot be proved or built': missing,
}


def typed(checks):
    """A person who types a wrong line is told, and the status stays 0."""
    master, slave = os.openpty()
    process = subprocess.Popen([sys.executable, '-B', str(TOP / 'roverivet'), 'talk'], stdin=slave, stdout=subprocess.PIPE, stderr=subprocess.PIPE)
    os.close(slave)
    os.write(master, b'tick\nbur\n\x04')
    output, said = process.communicate(timeout=60)
    os.close(master)
    checks.check(process.returncode == 0 and b'1 tick: ok' in output and b'2:1: expected burst' in said, 'talk: a person types', output, said)


def main():
    need_program()
    checks, table = Checks(), rows('Exit status')
    checks.equal(sorted({when for _, _, when in table}), sorted(LINES), 'the lines of the table are those that are tried here')
    with tempfile.TemporaryDirectory() as name:
        tried = Table(checks, Path(os.path.realpath(name)))
        for status, verbs, when in table:
            for verb in VERBS if verbs == 'all' else re.findall(r'`(\w+)`', verbs):
                if when in LINES:
                    LINES[when](tried, int(status), verb)
    typed(checks)
    print(f'{len(table)} lines of the table, each for its verbs')
    return checks.end()


if __name__ == '__main__':
    sys.exit(main())
