#!/usr/bin/env -S python3 -B
"""The run log and its verdict: every attempt is there, damage shows, and green means that every attempt was."""

import hashlib
import json
import os
import signal
import subprocess
import sys
import tempfile
import time
from pathlib import Path

from checks import Checks, TOP, need_program, roverivet_command
import liars

import roverivet
from roverivet_log import FIELDS
from tools import verdict as reader

GREEN = 'pulse tp0 x4 => ok\nburst tp0 d=600 n=64 => rep 100\nd-read mask=001 => ref 8\nd-read => ref\n'
RED = GREEN.replace('rep 100', 'rep 102')


def lines_of(log):
    return [json.loads(line) for line in log.read_text().splitlines()]


def verdict(*words):
    ran = roverivet_command('verdict', *map(str, words))
    return ran.stdout.decode(), ran.stderr.decode(), ran.returncode


def check(log, path, text):
    path.write_text(text)
    return roverivet_command('check', '--log', str(log), str(path)).returncode


def fields(checks, folder):
    """What a line holds, worked out here from the same files."""
    log, path = folder / 'fields.log', folder / 'fields.txt'
    (folder / 'fields.start').write_text('Total Octets = 1\n')
    started = time.time()
    checks.equal(check(log, path, 'start = fields.start\n' + GREEN), 0, 'a check that is logged')
    begun, ended = lines_of(log)
    records = roverivet_command('asm', str(path)).stdout
    start = roverivet_command('asm', '--start', str(folder / 'fields.start')).stdout
    checks.equal([begun[name] for name in ('line', 'test', 'verdict', 'records', 'refusals', 'before')],
                 [1, str(path), 'running', 0, {}, '0' * 64], 'the line of a beginning')
    checks.equal([ended[name] for name in ('line', 'test', 'verdict', 'records', 'refusals', 'first_failing', 'reason')],
                 [2, str(path), 'green', 7, {'8': 1, '5': 1}, None, ''], 'the line of an end')
    checks.equal([ended['trace'], ended['text'], ended['start']],
                 [hashlib.sha256(data).hexdigest() for data in (records, path.read_bytes(), start)], 'the hashes of trace, text and start file')
    checks.equal(ended['before'], hashlib.sha256(log.read_bytes().split(b'\n')[0]).hexdigest(), 'the hash of the line before')
    stamp = time.strftime('%Y-%m-%dT%H:%M', time.gmtime(started))
    checks.check(ended['time'].startswith(stamp) or time.gmtime(started).tm_sec > 50, 'the time', ended['time'])
    version = roverivet_command('--version').stdout.decode()
    checks.check(all(f': {ended["version"][name]}' in version for name in ('rules', 'commit', 'toolchain')) and ended['version']['sum'] in version
                 and ended['version']['proved'] is True, 'the version is that of --version', str(ended['version']), version)
    checks.equal(check(log, path, RED), 1, 'a check that fails')
    checks.equal([lines_of(log)[3][name] for name in ('line', 'verdict', 'first_failing', 'reason', 'start')],
                 [4, 'red', 5, f'{path}:2: expected rep 102, came rep 100', None], 'the line of a failure')
    checks.equal((check(log, path, 'bogus'), lines_of(log)[-1]['verdict']), (2, 'red'), 'a file that is no text')
    ran = roverivet_command('run', '--log', str(log), 'traces/sample.txt')
    checks.equal((ran.returncode, [lines_of(log)[-1][name] for name in ('test', 'verdict', 'records', 'refusals')]),
                 (0, ['traces/sample.txt', 'answered', 10, {'8': 1}]), 'a run that is logged')
    roverivet_command('check', '--log', str(log), str(TOP / 'traces' / '..' / 'traces' / 'sample.txt'), cwd=folder)
    checks.equal(lines_of(log)[-1]['test'], 'traces/sample.txt', 'a test has one name, however its file is called')
    ran = roverivet_command('check', '--log', str(folder / 'none' / 'x.log'), 'traces/sample.txt')
    checks.equal((ran.stderr.decode(), ran.returncode), (f'roverivet: {folder}/none/x.log: No such file or directory\n', 2), 'a log that cannot be written')
    print('log: what a line holds')


def limits(checks, folder):
    """The hash of what power-up was given covers the short event limit, wherever it came from."""
    log, path, start = folder / 'limits.log', folder / 'limits.txt', folder / 'limits.start'
    path.write_text('tick => ok\n')
    start.write_text('Total Octets = 9\nShort Event limit = 76\n')

    def hashed(total, limit):
        data = bytes(526) + bytes([total, 0, 0, 0]) + (bytes([limit, 0, 0, 0, 0]) if limit else b'')
        return hashlib.sha256(data).hexdigest()

    def started(verb, *words):
        ran = roverivet_command(verb, '--log', str(log), *words, str(path))
        return ran.returncode, [line['start'] for line in lines_of(log)[-2:]]

    for verb in ('check', 'run'):
        checks.equal(started(verb), (0, [None] * 2), f'{verb}: no start file')
        checks.equal(started(verb, '--short-limit', '75'), (0, [hashed(0, 75)] * 2), f'{verb} --short-limit 75')
        checks.equal(started(verb, '--short-limit', '78'), (0, [hashed(0, 78)] * 2), f'{verb} --short-limit 78')
        checks.equal(started(verb, '--start', str(start)), (0, [hashed(9, 76)] * 2), f'{verb}: a start file that names a limit')
        checks.equal(started(verb, '--start', str(start), '--short-limit', '76'), (0, [hashed(9, 76)] * 2), f'{verb}: and the same beside it')
    start.write_text('Total Octets = 9\n')
    checks.equal(started('check', '--start', str(start)), (0, [hashed(9, None)] * 2), 'a start file that names none')
    checks.equal(started('check', '--start', str(start), '--short-limit', '81'), (0, [hashed(9, 81)] * 2), 'and a limit beside it')
    log = folder / 'no-limit.log'
    checks.equal(started('check', '--short-limit', '75')[0], 0, 'a limit that is fine')
    start.write_text('Short Event limit = 74\n')
    path.write_text('start = limits.start\ntick => ok\n')
    reason = 'short event limit 74 is outside 75 to 81 (refused 13)'
    ran = roverivet_command('check', '--log', str(log), str(path))
    checks.equal((ran.stdout, ran.stderr.decode(), ran.returncode), (b'', f'check: {reason}\n', 2), 'a limit that is refused')
    checks.equal([[line[name] for name in ('test', 'verdict', 'records', 'first_failing', 'reason')] for line in lines_of(log)[2:]],
                 [[str(path), 'running', 0, None, ''], [str(path), 'red', 0, None, reason]], 'is a red attempt, and no record was run')
    for words in (('--short-limit', '74'), ('--start', str(start))):
        roverivet_command('check', '--log', str(log), *words, str(path), 'traces/sample.txt')
        checks.equal([[line[name] for name in ('test', 'verdict', 'reason')] for line in lines_of(log)[-4:]],
                     [[test, verdict, reason * (verdict == 'red')] for test in (str(path), 'traces/sample.txt') for verdict in ('running', 'red')],
                     f'{words[0]}: each file is refused')
    output, _, status = verdict(log)
    checks.check(status == 1 and output.startswith(f'red {path}: 4 attempts\n') and f' red: {reason}\n' in output, 'and the verdict tells it', output)
    one, two = folder / 'one.start', folder / 'limit-client.log'
    one.write_bytes(bytes(530) + b'\x4b\0\0\0\0')
    for given, due in (({'short_limit': 75}, hashed(0, 75)), ({'start': one}, hashed(0, 75)), ({'start': str(one), 'short_limit': 75}, hashed(0, 75)),
                       ({'start': bytes(530), 'short_limit': 81}, hashed(0, 81)), ({'start': bytes(530)}, hashed(0, None)), ({}, None)):
        handed, launch = [], roverivet.launch

        def launched(start=None, **pipes):
            handed.append(start)
            return launch(start, **pipes)

        roverivet.launch = launched
        try:
            with roverivet.Chip(log=two, name='limits', **given) as chip:
                chip.tick()
        finally:
            roverivet.launch = launch
        checks.equal([line['start'] for line in lines_of(two)[-2:]], [due] * 2, f'a client: {list(given)}')
        checks.equal([start and hashlib.sha256(start).hexdigest() for start in handed], [due], f'a client: {list(given)}: the bytes that the program got')
    count = len(lines_of(two))
    try:
        roverivet.Chip(log=two, name='limits', short_limit=74)
        checks.check(False, 'a client: limit 74 was taken')
    except roverivet.Refused as error:
        checks.equal((error.number, len(lines_of(two))), (13, count), 'a client: limit 74 is refused, and no connection was made')
    print('log: short event limits')


def verdicts(checks, folder):
    log, path = folder / 'verdicts.log', folder / 'one.txt'
    check(log, path, GREEN)
    checks.equal(verdict(log), (f'green {path}: 1 attempt\n1 green, 0 not green\n', '', 0), 'green')
    check(log, path, RED)
    output, _, status = verdict(log)
    checks.check(status == 1 and output.startswith(f'red {path}: 2 attempts\n    {log}:4: ') and output.endswith('0 green, 1 not green\n'), 'green, then red', output)
    check(log, path, GREEN)
    output, _, status = verdict(log)
    told = output.splitlines()
    checks.equal((status, told[0], told[1].startswith(f'    {log}:4: '), told[1].endswith(f' red, record 5: {path}:2: expected rep 102, came rep 100'),
                  told[2].startswith(f'    {log}:6: '), told[2].endswith(' green'), told[3:]),
                 (1, f'flaky {path}: 3 attempts', True, True, True, True, ['0 green, 1 not green']), 'the last attempt went green, and the test is flaky')
    moment, commit = lines_of(log)[4]['time'], lines_of(log)[0]['version']['commit']
    checks.equal(verdict(log, '--since', moment)[2], 0, 'since a time after the failure')
    checks.equal(verdict(log, '--since', lines_of(log)[2]['time'])[2], 1, 'since a time before it')
    checks.equal(verdict(log, '--since', '2999-01-01'), ('no attempt since 2999-01-01\n0 green, 0 not green\n', '', 1), 'nothing since a time to come')
    if len(commit) == 40:
        checks.equal(verdict(log, '--since', commit[:8])[2], 1, 'since a commit')
    checks.equal(verdict(log, '--since', 'fffffffff')[1:],
                 ('roverivet: --since fffffffff: neither a time, nor a commit that a line of the logs has\n', 2), 'since a commit that no line has')
    other = folder / 'other.log'
    check(other, folder / 'two.txt', GREEN)
    output, _, status = verdict(log, other)
    checks.check(status == 1 and output.endswith('1 green, 1 not green\n'), 'two logs', output)
    checks.equal(verdict(other)[2], 0, 'the green one alone')
    check(other, path, RED)
    check(other, path, GREEN)
    checks.check(f'flaky {path}: 2 attempts' in verdict(other)[0] and f'green {folder}/two.txt: 1 attempt' in verdict(other)[0], 'two tests in a log')
    foreign = folder / 'foreign.log'
    path.write_text('tick => ok\n')
    checks.equal(liars.command(folder, liars.script(), 'check', '--log', str(foreign), str(path))[2], 0, 'a check by another program')
    checks.check(verdict(foreign)[0].startswith(f'unproved {path}: 1 attempt\n') and verdict(foreign)[2] == 1, 'is not green', verdict(foreign)[0])
    runs = folder / 'runs.log'
    roverivet_command('run', '--log', str(runs), 'traces/sample.txt')
    checks.check(verdict(runs)[0].startswith('unsaid traces/sample.txt: 1 attempt\n') and verdict(runs)[2] == 1, 'a run is not green')
    checks.equal(verdict(folder / 'none.log')[1:], (f'roverivet: {folder}/none.log: No such file or directory\n', 2), 'a log that is not there')
    print('verdict: green, red, flaky, unproved, unsaid, since')


def damage(checks, folder):
    """Whatever is done to a log that was green, it is not green afterwards."""
    good = folder / 'good.log'
    path = folder / 'one.txt'
    for _ in range(3):
        check(good, path, GREEN)
    data, end = good.read_bytes(), Path(f'{good}.end').read_bytes()
    lines = data.splitlines(keepends=True)
    checks.equal((verdict(good)[2], len(lines)), (0, 6), 'a log that is whole')
    log = folder / 'damaged.log'

    def after(made, beside=end):
        log.write_bytes(made)
        Path(f'{log}.end').write_bytes(beside)
        said = []
        fine = reader.told([str(log)], None, said.append)
        return 0 if fine else 1, any(line.startswith('FINDING') for line in said)

    checks.equal(after(data), (0, False), 'a copy that is whole')
    for number in range(6):
        checks.equal(after(b''.join(lines[:number] + lines[number + 1:])), (1, True), f'line {number + 1} taken out')
        checks.equal(after(b''.join(lines[:number])), (1, True), f'everything from line {number + 1} on taken out')
    for at in range(7, len(data), 211):
        checks.equal(after(data[:at]), (1, True), f'cut after {at} bytes')
        changed = bytearray(data)
        changed[at] ^= 1
        checks.equal(after(bytes(changed)), (1, True), f'byte {at} altered')
    for name in FIELDS:
        checks.equal(after(data.replace(f'"{name}"'.encode(), f'"{name}x"'.encode())), (1, True), f'{name} has another name')
    checks.equal(after(lines[0] + lines[2] + lines[1] + b''.join(lines[3:])), (1, True), 'two lines exchanged')
    checks.equal(after(data + lines[5]), (1, True), 'a line put in twice')
    checks.equal(after(data + b'{}\n'), (1, True), 'a line that is none')
    checks.equal(after(data, b'9 x\n'), (1, True), 'an end of some other log')
    log.write_bytes(b''.join(lines[:4]))
    Path(f'{log}.end').write_bytes(end)
    check(log, path, GREEN)
    checks.equal(verdict(log)[2], 1, 'a log that was cut, and then written to again')
    log.write_bytes(data[:-30])
    Path(f'{log}.end').unlink()
    check(log, path, GREEN)
    checks.equal((verdict(log)[2], len(log.read_bytes().splitlines())), (1, 8), 'a log that was cut within a line, and then written to again')
    log.write_bytes(b''.join(lines[:5]))
    output = verdict(log)
    checks.check(output[2] == 1 and 'flaky' not in output[0] and 'aborted' in output[0], 'without the file beside it, an attempt that did not end', output[0])
    print('verdict: damaged and cut logs')


def at_once(checks, folder):
    """Several tests write at the same time, and no line is lost or torn."""
    log = folder / 'at-once.log'
    for number in range(12):
        (folder / f'at-once-{number}.txt').write_text(GREEN)
    running = [subprocess.Popen([sys.executable, '-B', str(TOP / 'roverivet'), 'check', '--log', str(log), *(str(folder / f'at-once-{n}.txt')
                                 for n in range(start, 12, 3))], stdout=subprocess.DEVNULL) for start in range(3)]
    checks.equal([one.wait(120) for one in running], [0, 0, 0], 'three checks at once')
    checks.equal(len(lines_of(log)), 24, 'every line is there')
    output, _, status = verdict(log)
    checks.check(status == 0 and output.endswith('12 green, 0 not green\n'), 'and the log is whole', output)
    print('log: several tests at once')


CLIENT = '''
import os, sys, time, roverivet
how, log = sys.argv[1:]
if how == 'close':
    chip = roverivet.Chip(log=log, name=how)
    chip.tick()
    chip.close()
elif how == 'finally':
    chip = roverivet.Chip(log=log, name=how)
    try:
        chip.tick()
        raise AssertionError('no')
    finally:
        chip.close()
with roverivet.Chip(log=log, name=how) as chip:
    if how != 'idle':
        chip.tick(3)
    if how == 'refused':
        try:
            chip.pulse('AUI')
        except roverivet.Refused:
            pass
    if how == 'raise':
        raise ValueError('one is not two')
    if how == 'swallow':
        chip.program.process.kill()
        try:
            chip.tick()
        except roverivet.Ended:
            pass
    if how == 'failed':
        chip.failed('by the harness')
        chip.passed()
    if how == 'exit':
        sys.exit(0)
    if how == 'die':
        os.kill(os.getpid(), 9)
    if how == 'fork':
        if os.fork() == 0:
            sys.exit(0)
        os.wait()
'''
TESTS = '''
import os, unittest, roverivet
LOG = os.environ['LOG']
class Test(unittest.TestCase):
    def test_within(self):
        with roverivet.Chip(log=LOG) as chip:
            chip.tick()
    def test_wrong(self):
        with roverivet.Chip(log=LOG) as chip:
            chip.tick()
            self.fail('wrong')
    def test_context(self):
        chip = roverivet.Chip(log=LOG).__enter__()
        self.addCleanup(chip.__exit__, None, None, None)
        chip.tick()
        self.fail('seen by the test alone')
    def test_cleanup(self):
        chip = roverivet.Chip(log=LOG)
        self.addCleanup(chip.close)
        chip.tick()
        self.fail('seen by the test alone')
    def test_claimed(self):
        chip = roverivet.Chip(log=LOG)
        self.addCleanup(chip.close)
        chip.tick()
        chip.passed()
    def test_skipped(self):
        with roverivet.Chip(log=LOG) as chip:
            chip.tick()
            self.skipTest('not now')
unittest.main()
'''
# a fixture as pytest runs one: the test fails, and the fixture's with block ends without an exception
FIXTURE = '''
import os, roverivet
os.environ['PYTEST_CURRENT_TEST'] = 'test_it.py::test_one (setup)'
def fixture():
    with roverivet.Chip(log=os.environ['LOG']) as chip:
        yield chip
made = fixture()
chip = next(made)
os.environ['PYTEST_CURRENT_TEST'] = 'test_it.py::test_one (call)'
chip.tick()
os.environ['PYTEST_CURRENT_TEST'] = 'test_it.py::test_one (teardown)'
next(made, None)
'''


def client(checks, folder):
    """A client's connection stands in the log from its beginning, and is green only if its test said so."""
    environment = {**os.environ, 'PYTHONPATH': str(TOP / 'clients' / 'python'), 'LOG': str(folder / 'tests.log')}
    due = {'fine': ['green', 3, None, ''], 'refused': ['green', 4, None, ''], 'raise': ['red', 3, 3, 'ValueError: one is not two'],
           'failed': ['red', 3, 3, 'by the harness'], 'idle': ['unsaid', 0, None, 'no record was sent'], 'exit': ['aborted', 3, 3, 'SystemExit: 0'],
           'fork': ['green', 3, None, ''], 'die': ['running', 0, None, '']}
    for how, expected in due.items():
        log = folder / f'{how}.log'
        ran = subprocess.run([sys.executable, '-B', '-c', CLIENT, how, str(log)], env=environment, capture_output=True, timeout=60)
        found = lines_of(log)
        checks.equal(([found[-1][name] for name in ('verdict', 'records', 'first_failing', 'reason')], len(found), found[-1]['test']),
                     (expected, 1 if how == 'die' else 2, how), f'a client: {how}')
        checks.equal(verdict(log)[2], 0 if expected[0] == 'green' else 1, f'the verdict on a client: {how}')
        checks.check(how != 'die' or ran.returncode == -signal.SIGKILL and verdict(log)[0].startswith('aborted die: 1 attempt\n'), 'a client that was killed')
    swallow, twice, final = folder / 'swallow.log', folder / 'close.log', folder / 'finally.log'
    for how, log in (('swallow', swallow), ('close', twice), ('finally', final)):
        subprocess.run([sys.executable, '-B', '-c', CLIENT, how, str(log)], env=environment, capture_output=True, timeout=60)
    checks.equal((lines_of(swallow)[-1]['verdict'], 'ended' in lines_of(swallow)[-1]['reason']), ('red', True), 'an error that the harness swallowed')
    checks.equal([line['verdict'] for line in lines_of(twice)], ['running', 'unsaid', 'running', 'green'], 'close alone says nothing')
    checks.equal([line['verdict'] for line in lines_of(final)], ['running', 'red'], 'closed while an exception is under way')
    subprocess.run([sys.executable, '-B', '-c', TESTS], env=environment, capture_output=True, timeout=60)
    found = {line['test'].rpartition('.')[2]: line['verdict'] for line in lines_of(folder / 'tests.log')}
    checks.equal(found, {'test_within': 'green', 'test_wrong': 'red', 'test_context': 'unsaid', 'test_cleanup': 'unsaid', 'test_claimed': 'green',
                         'test_skipped': 'unsaid'}, 'tests of unittest')
    (folder / 'tests.log').unlink()
    (folder / 'tests.log.end').unlink()
    subprocess.run([sys.executable, '-B', '-c', FIXTURE], env=environment, capture_output=True, timeout=60)
    found = lines_of(folder / 'tests.log')[-1]
    checks.equal((found['test'], found['verdict']), ('test_it.py::test_one', 'unsaid'), 'a fixture of pytest does not know how its test ended')
    data = b''.join(roverivet.Record(kind).pack() for kind in (3, 8))
    with roverivet.Chip(start=bytes(530), log=folder / 'hash.log', name='hash') as chip:
        chip.tick()
        chip.reset()
    found = lines_of(folder / 'hash.log')[-1]
    checks.equal((found['trace'], found['start']), (hashlib.sha256(data).hexdigest(), hashlib.sha256(bytes(530)).hexdigest()), 'a client: the hashes')
    try:
        roverivet.Chip(log=folder / 'none' / 'x.log')
        checks.check(False, 'a client took a log that cannot be written')
    except OSError as error:
        checks.equal(error.strerror, 'No such file or directory', 'a client: a log that cannot be written')
    print('log: clients that end well, fail, are killed, and say nothing')


def main():
    need_program()
    checks = Checks()
    with tempfile.TemporaryDirectory() as name:
        for part in (fields, limits, verdicts, damage, at_once, client):
            part(checks, Path(os.path.realpath(name)))
    return checks.end()


if __name__ == '__main__':
    sys.exit(main())
