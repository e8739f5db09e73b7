#!/usr/bin/env -S python3 -B
"""The verb check: what it lets pass, what it finds, what it says of it, and its reports."""

import re
import sys
import tempfile
import xml.etree.ElementTree
from pathlib import Path

from checks import Checks, TOP, need_program, roverivet_command
import liars

import roverivet
from tools import check, text

# By document 01: a frame on TP0 goes to AUI, P 16 R 0 has counted it, a tick with a mask is refused with 8.
GOOD = '''# every form of an answer
pulse tp0 x4 => ok
burst tp0 d=600 n=64 => REP 100        # upper case is the same
burst aui+tp0 d=600 c=100 x=300=>jam 101
burst tp5 d=600 => nil 000
c-write P=16
c-write R=0 => ok
d-read => val 01
d-read mask=001 => ref
d-read mask=001 => ref 8
'''

WRONG = '''pulse tp0 x4 => ref
burst tp0 d=600 n=64 => rep 102
burst tp0 d=600 n=64 => jam 100
burst tp5 d=600 => nil 001
c-write P=16 => val 00
c-write R=0
d-read => val 02
tick mask=001
d-read mask=001 => ref 6
d-read mask=001 => ok
'''
TOLD = '''NAME:1: expected any ref, came ok
    1-4 pulse tp0: ok
NAME:2: expected rep 102, came rep 100
    5 burst tp0 d=600 n=64: one heard (TP0), data to AUI; Readable Frames +1 TP0
NAME:3: expected jam 100, came rep 100
    6 burst tp0 d=600 n=64: one heard (TP0), data to AUI; Readable Frames +1 TP0
NAME:4: expected nil 001, came nil 000
    7 burst tp5 d=600: none heard, nothing goes out; link passes: TP5
NAME:5: expected val 00, came ok
    8 c-write P=16: selects Readable Frames of TP0 (P 16 R 0)
NAME:8: expected no refusal, came ref 8
    11 refused 8: tick with a mask
NAME:9: expected ref 6, came ref 8
    12 refused 8: d-read with a mask
NAME:10: expected ok, came ref 8
    13 refused 8: d-read with a mask
FAILED NAME: 11 of 13 records
0 passed, 1 failed
'''
BAD = [
    ('tick =>', '1:8: expected ok, rep, jam or nil and three hex digits, val and two, ref, or ref and a number'),
    ('tick => val 1', '1:9: expected ok, rep'),
    ('tick => rep 1000', '1:9: expected ok, rep'),
    ('tick => ok ok', '1:9: expected ok, rep'),
    ('tick => nothing', '1:9: expected ok, rep'),
    ('=> ok', '1:1: expected a record before =>'),
    ('tick\nrefusals = allowed', '2:1: refusals can only be set before the first record of a file'),
    ('refusals = some\ntick', '1:12: expected refusals = allowed, found some'),
    ('refusals = allowed\nrefusals = allowed\ntick', '2:1: refusals is set already'),
    ('start =\ntick', '1:8: expected the name of a start file'),
    ('# nothing', 'there is no record to check'),
    ('', 'there is no record to check'),
]


def said(result):
    return result.stdout.decode(), result.stderr.decode(), result.returncode


def passes(checks, folder):
    good = folder / 'good.txt'
    good.write_text(GOOD)
    checks.equal(said(roverivet_command('check', str(good))), (f'passed {good}: 12 records\n1 passed, 0 failed\n', '', 0), 'every form of an answer')
    checks.equal(said(roverivet_command('check', '-', data=GOOD.encode()))[::2], ('passed standard input: 12 records\n1 passed, 0 failed\n', 0),
                 'from standard input')
    every = sorted(str(path.relative_to(TOP)) for path in (TOP / 'traces').glob('*.txt'))
    output, errors, status = said(roverivet_command('check', *every))
    checks.equal((errors, status, output.splitlines()[-1]), ('', 0, f'{len(every)} passed, 0 failed'), 'every trace of the repository')
    for verb in ('asm', 'run', 'explain'):
        plain = re.sub(r'=>[^#\n]*', '', GOOD).encode()
        checks.equal(roverivet_command(verb, str(good)).stdout, roverivet_command(verb, data=plain).stdout, f'{verb} leaves the answers aside')
    print('check: what passes')


def fails(checks, folder):
    wrong = folder / 'wrong.txt'
    wrong.write_text(WRONG)
    # record 9, of which nothing is said, is not refused; record 10 reads the two frames that were credited
    checks.equal(said(roverivet_command('check', str(wrong))), (TOLD.replace('NAME', str(wrong)), '', 1), 'each failing record is told')
    both = said(roverivet_command('check', 'traces/sample.txt', str(wrong), 'traces/cut-tail.txt'))
    checks.check(both[0].endswith('passed traces/cut-tail.txt: 6 records\n2 passed, 1 failed\n') and both[2] == 1, 'the files after one that failed')
    for path in sorted((TOP / 'traces').glob('*.txt'))[:8]:
        changed = folder / path.name
        count = altered(path, changed)
        ran = said(roverivet_command('check', '--start', start_of(path), str(changed)) if start_of(path) else roverivet_command('check', str(changed)))
        checks.check(ran[2] == 1 and f'FAILED {changed}: {count} of {count} records\n' in ran[0], f'{path.name} with every answer altered', ran[0][-200:])
    print('check: what fails')


def altered(path, changed):
    """Writes a trace with every answer another one; gives how many records it has."""
    other = {'ok': 'ref', 'rep': 'jam 000', 'jam': 'nil 000', 'nil': 'rep 000', 'val': 'ok', 'ref': 'ok'}
    lines, count = [], 0
    for line in path.read_text().splitlines():
        found = re.fullmatch(r'([^#]+?)(?: x(\d+))?\s*=> (\w+).*', line)
        count += int(found[2] or 1) if found else 0
        lines.append(f'{found[1]}{f" x{found[2]}" if found[2] else ""} => {other[found[3]]}' if found else '' if line.startswith('start') else line)
    changed.write_text('\n'.join(lines))
    return count


def start_of(path):
    found = re.search(r'^start = (.+)$', path.read_text(), re.MULTILINE)
    return str(path.parent / found[1]) if found else None


def settings(checks, folder):
    """Refusals that are allowed, and start files."""
    one = folder / 'one.txt'
    one.write_text('tick mask=001\ntick\n')
    checks.equal(said(roverivet_command('check', str(one)))[2], 1, 'a refusal that nobody spoke of')
    checks.equal(said(roverivet_command('check', '--refusals-allowed', str(one)))[2], 0, '--refusals-allowed')
    one.write_text('refusals = allowed\n' + one.read_text())
    checks.equal(said(roverivet_command('check', str(one)))[2], 0, 'refusals = allowed')
    one.write_text('refusals = allowed\ntick mask=001 => ok\n')
    checks.equal(said(roverivet_command('check', str(one)))[2], 1, 'a refusal that is allowed, and not the expected answer')
    (folder / 'one.start').write_text('Total Octets = 255\n')
    one.write_text('start = one.start\nc-write R=13\nd-read => val ff\nd-read => val 00\n')
    checks.equal(said(roverivet_command('check', str(one)))[2], 0, 'the start file beside the text')
    (folder / 'two.start').write_text('Total Octets = 256\n')
    output = said(roverivet_command('check', '--start', str(folder / 'two.start'), str(one)))[0]
    checks.check(f'{one}:3: expected val ff, came val 00\n' in output and f'{one}:4: expected val 00, came val 01\n' in output, '--start instead of it')
    one.write_text('start = none.start\ntick\n')
    checks.equal(said(roverivet_command('check', str(one))),
                 (f'FAILED {one}: {folder}/none.start: No such file or directory\n0 passed, 1 failed\n',
                  f'roverivet: {one}: {folder}/none.start: No such file or directory\n', 2), 'a start file that is not there')
    one.write_text('start = one.start\nburst aui d=76 => rep 000\nc-write P=31\nc-write R=6\nd-read => val 01\n')
    (folder / 'one.start').write_text('Short Event limit = 76\n')
    checks.equal(said(roverivet_command('check', str(one))), (f'passed {one}: 4 records\n1 passed, 0 failed\n', '', 0), 'a limit by the start file')
    checks.equal(said(roverivet_command('check', '--short-limit', '76', str(one)))[2], 0, 'the same limit beside it')
    output, errors, status = said(roverivet_command('check', '--short-limit', '75', str(one), 'traces/sample.txt'))
    told = f'{one}: --short-limit 75: {folder}/one.start names another, the short event limit 76'
    checks.equal((output, errors, status), (f'FAILED {told}\npassed traces/sample.txt: 10 records\n1 passed, 1 failed\n', f'roverivet: {told}\n', 2),
                 'another limit beside it is bad for that file alone')
    (folder / 'one.start').write_text('Total Octets = 1\n')
    output, errors, status = said(roverivet_command('check', str(one)))
    checks.check(f'{one}:5: expected val 01, came val 00\n' in output and status == 1, 'without a limit d 76 is a short event', output)
    checks.equal(said(roverivet_command('check', '--short-limit', '75', str(one), str(one)))[2], 0, '--short-limit holds for every file')
    checks.equal(said(roverivet_command('check', '--start', '/dev/stdin', str(one), data=bytes(530) + b'\x4b\0\0\0\0'))[2], 0, 'a limit from a pipe')
    checks.equal(said(roverivet_command('check', '--start', '/dev/stdin', str(one), data=bytes(530) + b'\x4a\0\0\0\0')),
                 ('', 'check: short event limit 74 is outside 75 to 81 (refused 13)\n', 2), 'a limit from a pipe that is refused')
    print('check: refusals allowed, start files, short event limits')


def bad(checks, folder):
    path = folder / 'bad.txt'
    for source, reason in BAD:
        path.write_text(source)
        output, errors, status = said(roverivet_command('check', str(path), 'traces/sample.txt'))
        place = f'roverivet: {path}:' + (reason if reason[0].isdigit() else f' {reason}')
        checks.check(errors.startswith(place) and status == 2 and output.endswith('passed traces/sample.txt: 10 records\n1 passed, 1 failed\n'),
                     f'bad: {source!r}', output, errors)
    output, errors, status = said(roverivet_command('check', 'none.txt'))
    checks.equal((errors, status), ('roverivet: none.txt: No such file or directory\n', 2), 'a file that is not there')
    checks.equal(roverivet_command('check').returncode, 2, 'no file')
    print('check: files that it does not take')


def programs(checks, folder):
    """Wrong programs: nothing passes, whatever is expected."""
    path = folder / 'four.txt'
    path.write_text('tick => ok\npulse tp0 => ok\nreset => ok\ntick => ok\n')
    for wrong, source in liars.UNORDERED.items():
        if wrong not in liars.PATIENT:
            output, errors, status = liars.command(folder, source, 'check', str(path))
            checks.check((errors, status) == ('', 1) and output.endswith('0 passed, 1 failed\n') and f'FAILED {path}: the program ' in output,
                         f'check: a program that {wrong}', output, errors)
    for at, (wrong, (answer, record)) in enumerate(liars.IMPOSSIBLE.items()):
        line = next(text.bytes_of([f'{record} => {answer}']))
        checks.check(check.wrong(line, roverivet.answer_of(f'1 {answer}'), True), f'check: {wrong}, though it was expected')
        if at % 5 == 0:
            path.write_text(f'{record} => {answer}\n')
            output, _, status = liars.command(folder, liars.script(f'number, {answer!r}'), 'check', str(path))
            checks.check(status == 1 and f'came {answer}\n' in output, f'check: {wrong}, though it was expected, by the command', output)
    fickle = liars.script("number, 'ok' if os.path.exists('seen') or open('seen', 'w').close() else 'ref 8'")
    path.write_text('tick => ok\n')
    output, _, status = liars.command(folder, fickle.replace("'seen'", repr(str(folder / 'seen'))), 'check', str(path))
    checks.check(status == 1 and 'expected ok, came ref 8' in output and 'when it was run once more, ok' in output, 'a program that changes its mind', output)
    print('check: wrong programs')


def reports(checks, folder):
    path, odd, junit = folder / 'wrong.txt', folder / 'a<&">.txt', folder / 'junit.xml'
    path.write_text('tick => ok\ntick => ref 8\n')
    odd.write_text('tick => ok\x01\n')
    words = ('check', 'traces/sample.txt', str(path), str(odd))
    output, _, status = said(roverivet_command(*words, '--tap', '--junit', str(junit)))
    lines = [line for line in output.splitlines() if not re.match('# (rules|change requests|commit|proofs|toolchain|program): ', line)]
    checks.equal((lines, status), (['TAP version 13', '1..3', 'ok 1 - traces/sample.txt', f'not ok 2 - {path}', f'# {path}:2: expected ref 8, came ok',
                                    '#     2 tick: ok', f'not ok 3 - {odd}',
                                    '# ' + lines[-2][2:], '# 1 passed, 2 failed'], 2), '--tap')
    checks.check('1:9: expected ok, rep' in lines[-2], '--tap tells a bad file')
    tree = xml.etree.ElementTree.parse(junit).getroot()
    suite = tree.find('testsuite')
    checks.equal([suite.get(name) for name in ('tests', 'failures', 'errors')], ['3', '1', '1'], '--junit counts')
    cases = suite.findall('testcase')
    checks.equal([case.get('name') for case in cases], ['traces/sample.txt', str(path), str(odd)], '--junit names')
    checks.equal([[child.tag for child in case] for case in cases], [[], ['failure'], ['error']], '--junit tells what failed')
    checks.check(cases[1][0].get('message') == 'expected ref 8, came ok' and '2 tick: ok' in cases[1][0].text, '--junit tells why')
    checks.equal(said(roverivet_command('check', 'traces/sample.txt', '--junit', str(folder / 'none' / 'x.xml')))[1:],
                 (f'roverivet: {folder}/none/x.xml: No such file or directory\n', 2), '--junit to a place that is not there')
    print('check: TAP and JUnit')


def main():
    need_program()
    checks = Checks()
    with tempfile.TemporaryDirectory() as name:
        for part in (passes, fails, settings, bad, programs, reports):
            part(checks, Path(name))
    return checks.end()


if __name__ == '__main__':
    sys.exit(main())
