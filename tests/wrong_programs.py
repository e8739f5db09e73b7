#!/usr/bin/env -S python3 -B
"""Programs that answer wrongly: every verb and both clients find it, and name the program that is not the proved one."""

import os
import shutil
import subprocess
import sys
import tempfile
from pathlib import Path

from checks import Checks, TOP, need_program, roverivet_command
import liars

import roverivet
from tools import explain, text, watch

FOUR = b'tick\npulse tp0\nreset\ntick\n'
SOME = ('does nothing', 'dies', 'counts from 2')

# a harness that gives each record of its input to a new program, named with the words behind it, and says what it found
C = r'''
#include "roverivet.h"
int main(int count, char **words)
{
    struct roverivet chip;
    struct roverivet_answer answer;
    unsigned char record[ROVERIVET_SIZE];
    const char *command[] = {words[1], NULL};
    int together = count > 2, found = 0;
    if (count < 2 || (together && roverivet_open(&chip, command, NULL, ROVERIVET_SHORT_LIMIT))) return 9;
    while (fread(record, 1, sizeof record, stdin) == sizeof record) {
        if (!together && roverivet_open(&chip, command, NULL, ROVERIVET_SHORT_LIMIT)) return 9;
        int wrong = roverivet_ask(&chip, record, &answer);
        found = found || wrong;
        if (!together)
            printf("%d%d\n", !!wrong, roverivet_close(&chip) != 0);
    }
    if (together) puts(roverivet_close(&chip) || found ? "found" : "taken");
    return 0;
}
'''


def verbs(checks, folder):
    """Every verb that runs the program ends with status 1 and says why."""
    binary = folder / 'four.bin'
    binary.write_bytes(roverivet_command('asm', data=FOUR).stdout)
    uses = {'run of a file': (('run', str(binary)), None), 'explain': (('explain', str(binary)), None),
            'run of a text': (('run', '-'), FOUR), 'run of a pipe': (('run',), binary.read_bytes()),
            'export': (('export', str(binary)), None), 'talk': (('talk',), FOUR), 'view': (('view', str(binary), '-o', str(folder / 'x.svg')), None)}
    for wrong, source in liars.UNORDERED.items():
        for use, (words, data) in uses.items():
            patient = wrong in liars.PATIENT and not use.startswith('run')
            if patient or (use not in ('run of a file', 'explain') and wrong not in SOME):
                continue
            output, said, status = liars.command(folder, source, *words, data=data)
            checks.check(status == 1 and said.startswith('roverivet: ') and said.count('\n') == 1,
                         f'{use}: a program that {wrong}', f'status {status}, said {said!r}, printed {output[:100]!r}')
    checks.equal(liars.command(folder, liars.script(), 'run', str(binary)), ('1 ok\n2 ok\n3 ok\n4 ok\n', '', 0), 'run: another program that is right')
    checks.equal(liars.command(folder, liars.script("number + (number == 3), 'ok'"), 'run', str(binary)),
                 ('1 ok\n2 ok\n', 'roverivet: the program answered record 4 when record 3 was due\n', 1), 'run: what came before is printed')
    checks.equal(liars.command(folder, liars.script(), 'build')[::2], ('ready: the program answers records\n', 0), 'build with another program')
    for wrong in SOME:
        checks.equal(liars.command(folder, liars.UNORDERED[wrong], 'build')[::2], ('', 1), f'build: a program that {wrong}')
    print(f'{len(liars.UNORDERED)} programs, {len(uses)} ways to use them', flush=True)


def impossible(checks, folder):
    """explain, view and talk tell an answer that no record of its kind can have."""
    for at, (wrong, (answer, record)) in enumerate(liars.IMPOSSIBLE.items()):
        piece, state = text.assembled(record), watch.State(0x1FF, 0, 0x1FF)
        seen = watch.Seen(1, piece, roverivet.answer_of(f'1 {answer}'), (16, 14), 1, None, state, state, {}, {}, False)
        checks.check('FINDING: document 01' in explain.told(seen), f'explain: {wrong}', explain.told(seen))
        if at % 5 == 0:
            output, said, status = liars.command(folder, liars.script(f'number, {answer!r}'), 'explain', data=record.encode())
            checks.check(status == 1 and output.startswith('1 ') and 'FINDING: document 01' in output, f'explain: {wrong}, by the command', output, said)
    found = 'document 01 accepts this and answers rep or jam or nil\n'
    checks.equal(liars.command(folder, liars.script("number, 'ok'"), 'talk', data=b'burst tp0 d=5\n'),
                 (f'1 burst tp0 d=5: answered ok 0; FINDING: {found}', '', 1), 'talk: ok to a burst')
    checks.equal(liars.command(folder, liars.script("number, 'ok'"), 'view', '-o', str(folder / 'x.svg'), data=b'burst tp0 d=5\n'),
                 ('', f'roverivet: record 1 was answered ok: {found}', 1), 'view: ok to a burst')
    print(f'{len(liars.IMPOSSIBLE)} answers that no record of its kind can have', flush=True)


def python_client(checks, folder):
    """In this process, since the client runs in its harness; what it says on standard error is asked apart."""
    def found(source, use):
        os.environ['ROVERIVET_RUN'] = str(liars.written(folder, source))
        said = roverivet._say_once
        roverivet._say_once = lambda words: None
        try:
            return use() or ''
        except roverivet.Ended as error:
            return str(error)
        finally:
            roverivet._say_once = said
            del os.environ['ROVERIVET_RUN']

    def chip(records):
        with roverivet.Chip(patience=1) as one:
            for piece in text.pieces(text.assembled(records)):
                one.send(piece)

    def whole(records):
        roverivet.answers(text.assembled(records), patience=1)

    for wrong, source in liars.UNORDERED.items():
        checks.check(found(source, lambda: chip(FOUR)), f'a chip: a program that {wrong}')
        if wrong in SOME + liars.PATIENT:
            checks.check(found(source, lambda: whole(FOUR)), f'answers: a program that {wrong}')
    for wrong, (answer, record) in liars.IMPOSSIBLE.items():
        checks.check('can have that answer' in found(liars.quick(answer), lambda: chip(record)), f'a chip: {wrong}')
    checks.equal(found(liars.script(), lambda: chip(FOUR + b'burst tp0 d=5\nc-read\n')), '', 'a chip: a program that is right')
    checks.equal(found(liars.script(), lambda: whole(FOUR)), '', 'answers: a program that is right')
    path = liars.written(folder, liars.script())
    twice = 'import roverivet\nfor _ in range(2):\n    with roverivet.Chip() as chip:\n        chip.tick()\n'
    ran = subprocess.run([sys.executable, '-B', '-c', twice], env=liars.environment(path), capture_output=True, text=True, timeout=60)
    checks.equal((ran.returncode, ran.stderr), (0, liars.named(path)), 'the Python client names the program, once')
    print('the Python client', flush=True)


def c_client(checks, folder):
    compiler = shutil.which('cc')
    if not checks.check(compiler, 'there is a C compiler, cc'):
        return
    source = folder / 'harness.c'
    source.write_text(C)
    made = subprocess.run([compiler, '-std=c99', '-Wall', '-Wextra', '-Werror', '-pedantic', '-Wformat=2', '-DROVERIVET_PATIENCE=1000',
                           '-I', str(TOP / 'clients' / 'c'), '-o', str(folder / 'harness'), str(source)], capture_output=True, text=True)
    if not checks.equal((made.returncode, made.stderr), (0, ''), 'the C harness compiles without a warning'):
        return

    def harness(program, records, *words):
        path = liars.written(folder, program)
        ran = subprocess.run([str(folder / 'harness'), str(path), *words], input=text.assembled(records), capture_output=True, timeout=60)
        checks.check(ran.stderr.decode().startswith(f'roverivet: the answers are those of {path}, and not of ./roverivet run\n'),
                     'the C client names its command')
        return ran.stdout.decode()

    for wrong, program in liars.UNORDERED.items():
        checks.equal(harness(program, FOUR, 'together'), 'found\n', f'C: a program that {wrong}')
    for wrong, (answer, record) in liars.IMPOSSIBLE.items():
        checks.equal(harness(liars.quick(answer), record)[:1], '1', f'C: {wrong}')
    right = FOUR + b'burst tp0 d=5\nc-read\nd-read\nc-write R=0\n'
    checks.equal(harness(liars.script(), right, 'together'), 'taken\n', 'C: a program that is right')
    usual = subprocess.run([str(folder / 'harness'), str(TOP / 'roverivet')], input=b'', capture_output=True, timeout=60)
    checks.equal(usual.stderr, b'', 'C: ./roverivet itself is not named')
    print('the C client', flush=True)


STALE = '''
import os, sys, roverivet
if sys.argv[1] == 'old':
    for path in (roverivet.PROGRAM, roverivet.CHECKED):
        if path.exists():
            os.utime(path, (1, 1))
for _ in range(2):
    with roverivet.Chip() as chip:
        chip.tick()
'''


def stale(checks, folder):
    """The Python client says that a program is older than its sources."""
    for name in ('clients', 'crates/run/src'):
        shutil.copytree(TOP / name, folder / 'copy' / name)
    (folder / 'copy' / 'crates' / 'run' / 'out').mkdir()
    shutil.copy(roverivet.PROGRAM, folder / 'copy' / 'crates' / 'run' / 'out')
    shutil.copy(TOP / 'crates.txt', folder / 'copy')
    for moment, told in (('new', ''), ('old', 'roverivet: crates/run/out/run is older than its sources, so it is not what they prove: ./roverivet build\n')):
        environment = {key: value for key, value in os.environ.items() if key != 'ROVERIVET_RUN'}
        if moment == 'new':
            (folder / 'copy' / 'crates' / 'run' / 'out' / 'run.checked').touch()
        ran = subprocess.run([sys.executable, '-B', '-c', STALE, moment], capture_output=True, text=True, timeout=60,
                             env={**environment, 'PYTHONPATH': str(folder / 'copy' / 'clients' / 'python')})
        checks.equal((ran.returncode, ran.stderr), (0, told), f'the Python client with a program that is {moment}')
    print('a program older than its sources')


def main():
    need_program()
    checks = Checks()
    with tempfile.TemporaryDirectory() as name:
        for part in (verbs, impossible, python_client, c_client, stale):
            part(checks, Path(name))
    return checks.end()


if __name__ == '__main__':
    sys.exit(main())
