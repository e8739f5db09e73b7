#!/usr/bin/env -S python3 -B
"""Holds the picture of a run to the run.

What `view` draws comes from a second copy of the program that is asked questions as it goes. Here each state
is found another way: the trace is run again up to each record, with the questions after its end, where they
can disturb nothing. Marks and states in the picture must be those, no more and no fewer.
"""

import sys
import tempfile
import xml.etree.ElementTree as ElementTree
from pathlib import Path

from checks import Checks, TOP, need_program, roverivet_command

import roverivet
from roverivet import ATTRIBUTES, BANKS, CHANGES, PORTS, Record
from tools import text

TRACES = ['sample', 'thirty-two-collisions', 'disable-and-enable', 'aui-status-bits', 'reset-keeps-the-attributes',
          'partitioned-aui-keeps-colliding', 'refused-read-keeps-the-change-bits', 'five-address-writes', 'cut-tail']
CLASSES = {'Readable Frames', 'FCS Errors', 'Alignment Errors', 'Frames Too Long', 'Short Events', 'Runts'}


def questions():
    """Records that read everything at the end of a run, and the names of what they read."""
    records, names = [], []

    def read(name, *writes):
        records.extend([Record(4 if port == 'c' else 5, byte=byte).pack() for port, byte in writes] + [Record(7).pack()])
        names.extend([None] * len(writes) + [name])

    for register in CHANGES:
        read(('change', register), ('c', 1), ('c', 0xE0 + register))
    for get in (0x80, 0x89, 0xD0):
        read(get, ('c', 0), ('c', 0xFF), ('d', get))
    for port, bank in zip(PORTS, BANKS):
        for register, name in enumerate(ATTRIBUTES):
            read((port, name), ('c', bank), ('c', 0xE0 + register))
    return b''.join(records), names


QUESTIONS, NAMES = questions()


def at_end(data):
    """What the questions give after a trace: {name: value}."""
    answers = roverivet.answers(data + QUESTIONS)[len(data) // 32:]
    return {name: answer.value for name, answer in zip(NAMES, answers) if name}


def port_states(values):
    return {'connected': values[0x80] | values[0x89] >> 7 << 8, 'passing': values[0xD0]}


def expected(data):
    """(events, held bits) that the picture of a trace must have, each as a set of rows."""
    answers, pieces = roverivet.answers(data), text.pieces(data)
    before, marks, held, selected = at_end(b''), set(), set(), (0, 0)
    for number, (piece, answer) in enumerate(zip(pieces, answers), 1):
        after = at_end(b''.join(pieces[:number])) if len(piece) == 32 else before
        if answer.word == 'ref':
            marks.add((number, 'refused', 'record', str(answer.value)))
        elif piece[0] == 1:
            marks |= burst_marks(number, piece, answer, before, after)
        elif piece[0] == 4:
            selected = (selected[0], piece[13] & 31) if piece[13] >> 5 else (piece[13], selected[1])
        elif piece[0] == 6 or (piece[0] == 7 and selected[0] == 1):
            marks.add((number, 'read', 'C' if piece[0] == 6 else str(selected[1]), f'{answer.value:02x}'))
        elif piece[0] == 8:
            marks.add((number, 'reset', 'record', ''))
            selected = (0, 0)
        marks |= state_marks(number, port_states(before), port_states(after))
        held |= {(number, str(r), f'{after["change", r]:02x}') for r in CHANGES if after['change', r]}
        before = after
    return marks, held


def burst_marks(number, piece, answer, before, after):
    marks = set()
    for bit, port in enumerate(PORTS):
        raised = {name for name in ATTRIBUTES if before[port, name] != after[port, name]}
        if int.from_bytes(piece[2:4], 'little') >> bit & 1 or (port == 'AUI' and piece[1] & 4):
            marks.add((number, 'collision' if 'Collisions' in raised else 'heard' if CLASSES & raised else 'active', port, ''))
        if answer.value >> bit & 1:
            marks.add((number, {'rep': 'data', 'jam': 'jam'}[answer.word], port, ''))
    return marks


def state_marks(number, before, after):
    marks = set()
    for bit, port in enumerate(PORTS):
        for what, lost, gained in (('connected', 'partition', 'reconnect'), ('passing', 'link-fail', 'link-pass')):
            was, now = before[what] >> bit & 1, after[what] >> bit & 1
            if was != now:
                marks.add((number, gained if now else lost, port, ''))
    return marks


def drawn(path):
    """The same rows as the picture has them; a column for several records stands for each of them."""
    marks, sets, held = set(), set(), set()
    for column in ElementTree.parse(path).iter('{http://www.w3.org/2000/svg}g'):
        if column.get('class') == 'column':
            numbers = range(int(column.get('data-record')), int(column.get('data-last')) + 1)
            for part in column:
                if part.get('class') == 'event':
                    row = (part.get('data-event'), part.get('data-port') or part.get('data-register'), part.get('data-value') or '')
                    (sets if row[0] == 'set' else marks).update((number, *row) for number in numbers)
                elif part.get('class') == 'held':
                    held |= {(number, part.get('data-register'), part.get('data-value')) for number in numbers}
    return marks, sets, held


def switches(marks):
    return {row for row in marks if row[1] in ('enable', 'disable')}


# typed from the trace's text: the records that disable or enable a port
SWITCHES = {'disable-and-enable': {(18, 'disable', 'TP0'), (53, 'enable', 'TP0'), (107, 'disable', 'TP0'), (110, 'enable', 'TP0'),
                                   (122, 'disable', 'TP1'), (237, 'disable', 'AUI'), (241, 'enable', 'AUI')},
            'reset-keeps-the-attributes': {(16, 'disable', 'TP4'), (19, 'disable', 'AUI'), (26, 'enable', 'TP4'), (26, 'enable', 'AUI')},
            'aui-status-bits': {(83, 'disable', 'AUI')}}


def main():
    need_program()
    checks = Checks()
    with tempfile.TemporaryDirectory() as folder:
        for name in TRACES:
            data = text.assembled((TOP / 'traces' / f'{name}.txt').read_text())
            path = Path(folder) / f'{name}.svg'
            made = roverivet_command('view', f'traces/{name}.txt', '-o', str(path))
            if not checks.equal((made.returncode, made.stderr), (0, b''), f'view {name}'):
                continue
            marks, sets, held = drawn(path)
            due, due_held = expected(data)
            checks.equal(sorted(marks - switches(marks) - due), [], f'{name}: marks that the run does not have')
            checks.equal(sorted(due - marks), [], f'{name}: events of the run that are not drawn')
            checks.equal(sorted(held ^ due_held), [], f'{name}: change bits while they stand')
            checks.equal({row[:3] for row in switches(marks)}, SWITCHES.get(name, set()), f'{name}: ports disabled and enabled')
            checks.check(all((number, register) in {(n, r) for n, r, _ in held} for number, _, register, _ in sets),
                         f'{name}: a bit that is set stands')
            print(f'{name}: {len(marks)} marks, {len(sets)} bits set, {len(held)} standing')
        page = Path(folder) / 'page.html'
        checks.equal(roverivet_command('view', 'traces/sample.txt', '-o', str(page)).returncode, 0, 'view as a page')
        checks.check('10 refused 8: tick with a mask' in page.read_text(), 'the page explains its records')
        part = Path(folder) / 'part.svg'
        roverivet_command('view', 'traces/thirty-two-collisions.txt', '--from', '46', '--to', '60', '-o', str(part))
        checks.equal({row[0] for row in drawn(part)[0]}, {46, 59}, 'a part of a trace shows its records alone')
    return checks.end()


if __name__ == '__main__':
    sys.exit(main())
