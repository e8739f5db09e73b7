#!/usr/bin/env -S python3 -B
"""Checks every trace of traces/LIST, as `./roverivet check` does, and every start file of traces/REFUSED.

    tests/traces.py [NAME...]

A trace whose start file names no short event limit is run with one of 535 bytes and the limit 78, too: the answers are the same.
"""

import os
import re
import subprocess
import sys
import tempfile

from checks import Checks, TOP, need_program

import roverivet
from tools import check, inputs
from tools.progress import Progress
import derive

TRACES = TOP / 'traces'
SAID = re.compile(r'(\S.*?)(?: x(\d+))? +=> (ok|(?:rep|jam|nil) [0-9a-f]{3}|val [0-9a-f]{2}|ref [0-9]+) *(?:# (.+))?')


def listed():
    """(name, meaning) for each line of the list."""
    for line in (TRACES / 'LIST').read_text().splitlines():
        if line.strip() and not line.startswith('#'):
            name, meaning = line.split(None, 1)
            yield name, meaning


def records(name):
    """(line, what it says) for each line with a record."""
    for number, line in enumerate((TRACES / f'{name}.txt').read_text().splitlines(), 1):
        if line.strip() and not line.startswith(('#', 'start = ')):
            yield f'traces/{name}.txt:{number}: {line}', SAID.fullmatch(line)


def untold(name, by_hand):
    """The lines with a record that do not say what is expected, or, in a trace by hand, why."""
    return [line for line, said in records(name) if not said or (by_hand and not said[4])]


def differing(name, one, start):
    """The first answer that is not the line's, compared here and not by the verb, or nothing."""
    due = [(line, said[3]) for line, said in records(name) for _ in range(int(said[2] or 1))]
    came = roverivet.answers(b''.join(one.blocks()), start)
    wrong = [f'{line}, answered {answer.words}' for (line, words), answer in zip(due, came) if answer.words != words]
    return wrong[:1] if len(due) == len(came) else [f'{len(due)} lines, {len(came)} answers']


def refused():
    """(start file, message) for each line of traces/REFUSED."""
    for line in (TRACES / 'REFUSED').read_text().splitlines():
        if line.strip() and not line.startswith('#'):
            yield line.split(None, 1)


def no_power_up(checks, name, message):
    """The program says why, answers no record, and ends with 0; what runs it for people does not start it."""
    number = re.fullmatch(r'short event limit (\d+) is outside 75 to 81 \(refused 13\)', message)
    checks.equal(inputs.start_of(f'traces/{name}'), bytes(530) + int(number[1]).to_bytes(4, 'little') + b'\0', f'{name}: its bytes')
    with tempfile.NamedTemporaryFile() as file:
        file.write(inputs.start_of(f'traces/{name}'))
        file.flush()
        ran = subprocess.run([*roverivet.command(), file.name], input=b''.join(inputs.trace('traces/sample.txt').blocks()), capture_output=True, timeout=60)
    checks.equal((ran.stdout, ran.stderr.decode(), ran.returncode), (b'', f'run: {message}\n', 0), f'{name}: the program')
    try:
        inputs.powered(f'traces/{name}')
        checks.check(False, f'{name}: was taken')
    except roverivet.Refused as error:
        checks.equal((error.number, f'{error.reason} (refused {error.number})'), (13, message), f'{name}: refused before it is run')


def main(names):
    need_program()
    os.chdir(TOP)
    checks, rows, made = Checks(), list(listed()), derive.derived()
    unknown = set(names) - {name for name, _ in rows}
    checks.check(not unknown, f'not in traces/LIST: {" ".join(sorted(unknown))}')
    files = {path.name for path in TRACES.iterdir()} - {'LIST', 'REFUSED', 'README.md'}
    no_starts = dict(refused())
    starts = {inputs.trace(f'traces/{name}.txt').settings.get('start') for name, _ in rows} - {None}
    checks.equal(sorted(files), sorted({f'{name}.txt' for name, _ in rows} | starts | set(no_starts)),
                 'the files of traces/ are those of its LIST and of REFUSED')
    for name, lines in made.items():
        checks.equal((TRACES / name).read_text(), '\n'.join(lines) + '\n', f'traces/{name} is what tests/derive.py writes')
    for name, meaning in rows:
        if not names or name in names:
            silent = untold(name, f'{name}.txt' not in made)
            if not checks.check(not silent, f'{name}: every record has its answer, and the rule that it follows from', *silent):
                continue
            one = inputs.trace(f'traces/{name}.txt')
            start = inputs.start_for(one, None)
            wrong = differing(name, one, start)
            checks.check(not wrong, f'{name}: line by line', *wrong)
            if start is None or len(start) == 530:
                wrong = differing(name, one, (start or bytes(530)) + b'\x4e\0\0\0\0')
                checks.check(not wrong, f'{name}: line by line, with a start file that names the limit 78', *wrong)
            result = check.checked(f'traces/{name}.txt', None, False, Progress('check'))
            if checks.check(result.passed, f'{name}: {meaning}', *result.told(), result.summary):
                print(f'passed {name}: {meaning}')
    for name, message in no_starts.items():
        if not names:
            no_power_up(checks, name, message)
    print(f'{len(no_starts)} start files refused at power-up')
    return checks.end()


if __name__ == '__main__':
    sys.exit(main(sys.argv[1:]))
