#!/usr/bin/env -S python3 -B
"""Holds the program tell to the program run: the same answers, and of what it tells what reading the registers gives.

    tests/tell.py

Each line of tell must begin with the line that run prints. What else it says is asked of run: by a second copy that is
asked questions after each record (tools/watch.py), and at some places of a trace by runs that end in reads of every
change register, of C, of all counters and of both totals.
"""

import os
import random
import re
import subprocess
import sys
import tempfile
from pathlib import Path

from checks import Checks, TOP, need_program

import compare
import generate
import roverivet
from roverivet import ATTRIBUTES, BANKS, CHANGES, PORTS, SIZE
from tools import startfile, telling, text, watch
from tools.watch import READ, select

TRACES = TOP / 'traces'
SEEDS, RECORDS, WATCHED, PLACES = range(900, 912), 2500, 250, 3
LINE = re.compile(rb'[1-9][0-9]* (?:ok|(?:rep|jam|nil) [0-9a-f]{3}|val [0-9a-f]{2}|ref [0-9]+)(?: [0-9a-f]{3}){28}')
C_READ = roverivet.Record(roverivet.C_READ).pack()


def listed():
    """(name, records, start file or None) for each trace of the list. The list or the trace names the start file."""
    for row in (TRACES / 'LIST').read_text().splitlines():
        if row.strip() and not row.startswith('#'):
            name, word, *_ = row.split()
            lines = (TRACES / f'{name}.txt').read_bytes()
            found = re.search(rb'^[ \t]*start[ \t]*=[ \t]*(\S+)', lines, re.MULTILINE)
            yield name, text.assembled(lines, name), first(found[1].decode() if found else word)


def first(name):
    path = TRACES / name
    return startfile.start_bytes(path.read_bytes(), name) if path.is_file() else None


def made():
    for seed in SEEDS:
        yield f'seed {seed}', generate.trace(seed, RECORDS), generate.start(seed)


def output(path, data, start, *words):
    """(lines, what it said, status) of a program."""
    more, file = roverivet._start_words(start)
    try:
        ran = subprocess.run([*roverivet.starting(path), *more, *words], input=data, stdout=subprocess.PIPE,
                             stderr=subprocess.PIPE, timeout=300, pass_fds=[file.fileno()] if file else ())
    finally:
        if file:
            file.close()
    return ran.stdout.split(b'\n')[:-1], ran.stderr, ran.returncode


def same_answers(checks, name, data, start):
    """The lines of both programs. Gives those of tell."""
    told, plain = output(telling.TELL, data, start)[0], output(roverivet.PROGRAM, data, start)[0]
    checks.equal(len(told), -(-len(data) // SIZE), f'{name}: a line for each record')
    wrong = [(a, b) for a, b in zip(told, plain) if not LINE.fullmatch(a) or a[:-telling.TAIL] != b]
    checks.check(not wrong and len(told) == len(plain), f'{name}: the answers of run', *wrong[:3])
    return told


def same_watched(checks, name, data, start):
    """What tools/telling.py makes of the lines, and what tools/watch.py finds by reading."""
    pieces = list(text.pieces(data))[:WATCHED]
    for mine, its in zip(telling.watched(pieces, start), watch.watched(pieces, start)):
        if mine[:-1] != its[:-1]:
            return checks.check(False, f'{name}: record {mine.number}', f'told {mine[:-1]}', f'read {its[:-1]}')
    return checks.check(True, name)


def reads():
    """Records that read what tell says: C, the change registers, each counter, both totals."""
    asked = [('C', [C_READ])] + [(('change', r), select(1, r) + [READ]) for r in CHANGES]
    for bank in BANKS:
        asked += [((bank, r), select(bank, r) + [READ] * 4) for r in range(len(ATTRIBUTES))]
    return asked + [((0, r), select(0, r) + [READ] * 4) for r in (12, 13)]


def values(data, start):
    """What reading gives behind these records."""
    asked = reads()
    lines = output(roverivet.PROGRAM, data + b''.join(b''.join(records) for _, records in asked), start)[0][len(data) // SIZE:]
    found, at = {}, 0
    for name, records in asked:
        size = len(records) if name == 'C' else len(records) - 2
        some = [roverivet.answer_of(line.decode()).value for line in lines[at + len(records) - size:at + len(records)]]
        found[name], at = sum(byte << 8 * place for place, byte in enumerate(some)), at + len(records)
    return found


def same_registers(checks, name, data, start, told):
    """At some places: each word of a line against what reading the registers gives before and behind its record."""
    whole = len(data) // SIZE
    for number in random.Random(name).sample(range(1, whole + 1), min(PLACES, whole)):
        left = telling.telling_of(told[number - 1]).left
        before, after = values(data[:SIZE * number - SIZE], start), values(data[:SIZE * number], start)
        moved = {port: [a for r, a in enumerate(ATTRIBUTES) if before[bank, r] != after[bank, r]] for port, bank in zip(PORTS, BANKS)}
        found = {'changes': {r: after['change', r] for r in CHANGES}, 'interrupt': bool(after['C'] & 0x80),
                 'interface_error': bool(after['C'] & 0x40), 'moved': {port: names for port, names in moved.items() if names},
                 'transmit_collisions': before[0, 12] != after[0, 12], 'total_octets': before[0, 13] != after[0, 13]}
        for what, value in found.items():
            checks.equal(getattr(left, what), value, f'{name}: record {number}: {what}')


def used_badly(checks):
    tick = roverivet.Record(roverivet.TICK).pack()
    checks.equal(output(telling.TELL, b'', None), ([], b'', 0), 'nothing to tell')
    checks.equal(output(telling.TELL, tick, None, 'a', 'b')[:2], ([], b'tell: at most one argument, the name of a start file\n'), 'two arguments')
    said = b'tell: the start file does not have 530 bytes, or 535 with a 0 at the end\n'
    checks.equal(output(telling.TELL, tick, None, str(TOP / 'README.md')), ([], said, 0), 'a start file of another length')
    with tempfile.TemporaryDirectory() as folder:
        path = Path(folder) / 'some.start'
        for size in (0, 529, 531, 534, 536):
            path.write_bytes(bytes(size))
            checks.equal(output(telling.TELL, tick, None, str(path)), ([], said, 0), f'a start file of {size} bytes')
        path.write_bytes(generate.limited(None, 78, 1))
        checks.equal(output(telling.TELL, tick, None, str(path)), ([], said, 0), 'a start file of 535 bytes that does not end in 0')
        for number in generate.REFUSED:
            path.write_bytes(generate.limited(None, number))
            due = ([], b'tell: short event limit %d is outside 75 to 81 (refused 13)\n' % number, 0)
            checks.equal((output(telling.TELL, tick, None, str(path)), output(telling.TELL, b'', None, str(path))), (due, due), f'limit {number}')
        odd = Path(folder) / os.fsdecode(b'\xff.start')  # the library's names of files are text
        odd.write_bytes(generate.limited(None, 78))
        due = ([], b'tell: the start file cannot be opened: invalid filename\n', 0)
        checks.equal(output(telling.TELL, tick, None, str(odd)), due, 'a start file whose name is not UTF-8')
    lines, said, _ = output(telling.TELL, tick, None, str(TOP / 'no such file'))
    checks.check(not lines and said.startswith(b'tell: the start file cannot be opened'), 'no start file', said)
    piece = output(telling.TELL, tick + tick[:31], None)[0]
    checks.check(len(piece) == 2 and piece[1].startswith(b'2 ref 9 '), 'a last piece is one record', *piece)


def limits(checks):
    """At each limit a single port's burst of one less moves Short Events, and one of the limit Runts; a burst's words have nothing else of it."""
    up = roverivet.Record(roverivet.PULSE, mask=1).pack() * 4
    reset = roverivet.Record(roverivet.RESET).pack()
    for limit in generate.LIMITS:
        for turn, before in (('at power-up', up), ('after a reset', up + reset + up)):
            for d, name in ((limit - 1, 'Short Events'), (limit, 'Runts')):
                lines = output(telling.TELL, before + roverivet.Record(roverivet.BURST, mask=1, d=d, n=9).pack(), generate.limited(None, limit))[0]
                told = telling.telling_of(lines[-1])
                checks.equal((told.answer.words, told.left.moved), ('rep 100', {'TP0': [name]}), f'limit {limit}, d {d}, {turn}')


def in_pieces(checks):
    """The input in pieces of every length gives the same lines."""
    for seed in SEEDS[:4]:
        data = generate.trace(seed, RECORDS)
        whole = output(telling.TELL, data, None)[0]
        cut = compare.run(roverivet.starting(telling.TELL), compare.pieces(data, seed))
        checks.check(cut.lines.split(b'\n')[:-1] == whole, f'seed {seed}: in pieces')


def alone(checks):
    """A record is told as soon as it has come."""
    tick = roverivet.Record(roverivet.TICK).pack()
    with telling.Teller() as teller:
        checks.equal([teller.take(tick).answer.word for _ in range(3)], ['ok'] * 3, 'one record after the other')


def main():
    need_program()
    checks = Checks()
    if checks.check(telling.usable(), f'there is a program {telling.TELL}'):
        for name, data, start in [*listed(), *made()]:
            told = same_answers(checks, name, data, start)
            same_watched(checks, name, data, start)
            same_registers(checks, name, data, start, told)
        used_badly(checks)
        limits(checks)
        in_pieces(checks)
        alone(checks)
    return checks.end()


if __name__ == '__main__':
    sys.exit(main())
