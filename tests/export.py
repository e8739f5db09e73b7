#!/usr/bin/env -S python3 -B
"""Holds the program export to what reading the registers gives: all 117 counters, and each attribute by itself.

    tests/export.py

After every trace of traces/LIST and after generated ones the counters are read through nine banks of thirteen registers,
from the program run and from the model in plain Rust. What export prints must be those numbers. How many records it calls
refused is counted in the lines of run. Values for power-up are the start file's own.
"""

import os
import random
import signal
import struct
import subprocess
import sys
import tempfile
import threading
from pathlib import Path

from checks import Checks, TOP, need_program, roverivet_command
from tell import listed

import compare
import generate
import program
import roverivet
from record import SAMPLE
from robust import any_record, finished as ends
from roverivet import ATTRIBUTES, BANKS, PORTS, SIZE, START_SIZE
from tools import export, startfile, text
from tools.watch import READ, select

SEEDS, RECORDS, SECONDS = range(1300, 1316), 2500, 60
HEADER = b'attribute,tp0,tp1,tp2,tp3,tp4,tp5,tp6,tp7,aui\n'
BUFFER = 65536  # bytes that export reads at a time
WHO = b'export: an attribute is the number of its register, 0 to 12, or all\n'
FORM = b'export: the start file does not have 530 bytes, or 535 with a 0 at the end\n'
WORDS = b'export: expected an attribute, and behind it perhaps the name of a start file\n'

# by document 01: one readable frame of 64 octets on TP0, one collision of TP0 and TP1, one record refused
SAMPLE_ROWS = {'Readable Frames': (1, 0), 'Readable Octets': (64, 0), 'Collisions': (1, 1)}


def started(words, start, **more):
    """A program, with a start file of these bytes if there is one; every word is an argument."""
    names, file = roverivet._start_words(start)
    try:
        return subprocess.Popen([*words, *names], stdin=more.pop('stdin', subprocess.PIPE), stdout=more.pop('stdout', subprocess.PIPE),
                                stderr=subprocess.PIPE, pass_fds=[file.fileno()] if file else (), **more)
    finally:
        if file:
            file.close()


def output(words, data, start=None):
    """(what it printed, what it said, status) of a program."""
    process = started(words, start)
    came, said = process.communicate(data, timeout=300)
    return came, said, process.returncode


def exporting(*words):
    return [*roverivet.starting(export.EXPORT), *words]


def plain(words):
    return roverivet.starting(roverivet.PROGRAM) if words == 'run' else [str(program.model())]


# ---- what is expected


def reads():
    """Records that read every counter, attribute after attribute."""
    return b''.join(b''.join(select(bank, register) + [READ] * 4) for register in range(len(ATTRIBUTES)) for bank in BANKS)


def read_by(who, data, start):
    """(the thirteen rows of nine counters that are read behind the whole records of a trace, how many records were refused)."""
    whole = data[:len(data) - len(data) % SIZE]
    lines = output(plain(who), whole + reads(), start)[0].split(b'\n')[:-1]
    count = len(whole) // SIZE
    values = [roverivet.answer_of(line.decode()) for line in lines[count:]]
    numbers = [sum(answer.value << 8 * place for place, answer in enumerate(values[at + 2:at + 6])) for at in range(0, len(values), 6)]
    refused = sum(b' ref ' in line for line in lines[:count]) + bool(len(data) % SIZE)
    return [numbers[at:at + len(PORTS)] for at in range(0, len(numbers), len(PORTS))], refused


def csv(rows, names=ATTRIBUTES):
    return HEADER + b''.join(f'{name},{",".join(map(str, rows[ATTRIBUTES.index(name)]))}\n'.encode() for name in names)


def told(refused, who='export'):
    return f'{who}: {refused} record{"s" * (refused != 1)} refused\n'.encode() if refused else b''


def rows_of(start):
    """The counters of a start file's bytes."""
    values = struct.unpack('<' + '13I6s' * 9 + '2I', start)
    return [[values[14 * port + register] for port in range(len(PORTS))] for register in range(len(ATTRIBUTES))]


def sample_rows():
    return [[*SAMPLE_ROWS.get(name, (0, 0)), *[0] * 7] for name in ATTRIBUTES]


# ---- the program


def made():
    """Generated traces; every third ends in a piece of a record."""
    for seed in SEEDS:
        data = generate.trace(seed, RECORDS)
        yield f'seed {seed}', data[:len(data) - seed % 3 * 11 or None], generate.start(seed)


def same_counters(checks):
    """Everything at once and each attribute, against reads of the program run and of the model."""
    seen = 0
    for name, data, start in [*listed(), *made()]:
        rows, refused = read_by('run', data, start)
        if not checks.equal(read_by('model', data, start), (rows, refused), f'{name}: the counters of run and of the model'):
            continue
        checks.equal(output(exporting('all'), data, start), (csv(rows), told(refused), 0), f'{name}: all')
        for register, attribute in enumerate(ATTRIBUTES):
            checks.equal(output(exporting(str(register)), data, start), (csv(rows, [attribute]), told(refused), 0), f'{name}: {attribute}')
        seen += 1
    print(f'{seen} traces: 117 counters through the registers, and by export', flush=True)


def every_place(checks):
    """Counters that are all different: each stands at its attribute and its port."""
    start = struct.pack('<' + '13I6s' * 9 + '2I', *[value for port in range(9) for value in
                        (*(2**32 - 1 - 1000 * register - port for register in range(13)), bytes([port] * 6))], 7, 9)
    checks.equal(output(exporting('all'), b'', start), (csv(rows_of(start)), b'', 0), 'the counters of a start file, without a record')
    random_start = random.Random('start').randbytes(START_SIZE)
    checks.equal(output(exporting('all'), b'', random_start), (csv(rows_of(random_start)), b'', 0), 'any start file, without a record')
    checks.equal(output(exporting('all'), b''), (csv([[0] * 9] * 13), b'', 0), 'power-up without a start file')
    checks.equal(output(exporting('all'), SAMPLE), (csv(sample_rows()), told(1), 0), "document 01's sample")
    wraps = startfile.start_bytes(b'aui Source Address Changes = 4294967295\naui Readable Octets = 4294967290\n')
    frame = roverivet.Record(roverivet.BURST, 0, 0x100, 600, 64, sa=b'\x02\0\0\0\0\x01').pack()
    lines = output(exporting('all'), frame, wraps)[0].decode().splitlines()
    checks.equal((lines[13], lines[2], lines[1]), ('Source Address Changes,0,0,0,0,0,0,0,0,0', 'Readable Octets,0,0,0,0,0,0,0,0,58',
                                                  'Readable Frames,0,0,0,0,0,0,0,0,1'), 'the last counter of all goes on with 0')


def limits(checks):
    """At each limit: of bursts with d from 74 to 81 those below it are short events, the others runts; and the start file's counters stand."""
    up = roverivet.Record(roverivet.PULSE, mask=1).pack() * 4
    bursts = b''.join(roverivet.Record(roverivet.BURST, mask=1, d=d, n=9).pack() for d in range(74, 82))
    start = bytes(58) + struct.pack('<13I6s', *range(100, 113), bytes(6)) + bytes(58 * 7 + 8)
    for limit in (None, *generate.LIMITS):
        rows = rows_of(start)
        short = (limit or 78) - 74
        rows[5][0], rows[6][0] = short, 8 - short
        given = start if limit is None else generate.limited(start, limit)
        checks.equal(output(exporting('all'), up + bursts, given), (csv(rows), b'', 0), f'limit {limit}')
        rows[5][0], rows[6][0] = 2 * short, 2 * (8 - short)
        data = up + bursts + roverivet.Record(roverivet.RESET).pack() + up + bursts
        checks.equal(output(exporting('all'), data, given), (csv(rows), b'', 0), f'limit {limit}, with a reset')


def lengths(checks):
    """Input of every length: what is behind the last whole record is one refusal, and changes nothing."""
    draw = random.Random('lengths')
    tick, frame = roverivet.Record(roverivet.TICK).pack(), roverivet.Record(roverivet.BURST, 0, 0x100, 600, 64).pack()
    some = [*range(0, 100), *(turn * BUFFER + more for turn in (1, 2) for more in (-33, -32, -31, -1, 0, 1, 31, 32, 33)), 200_000]
    for length in some:
        frames = draw.randrange(length // SIZE + 1)
        pieces = [frame] * frames + [tick] * (length // SIZE - frames)
        draw.shuffle(pieces)
        data = b''.join(pieces) + bytes(length % SIZE)
        rows = [[0] * 8 + [frames * {0: 1, 1: 64}.get(register, 0)] for register in range(13)]
        checks.equal(output(exporting('all'), data), (csv(rows), told(int(length % SIZE > 0)), 0), f'{length} bytes')
    print(f'{len(some)} lengths of input, 0 to 99 and around the size of a reading', flush=True)


def in_pieces(checks):
    """The input in pieces gives the same."""
    for seed in SEEDS[:6]:
        data = (generate.trace(seed, RECORDS) * 2)[:-seed % SIZE or None]
        rows, refused = read_by('run', data, None)
        cut = compare.run(exporting('all'), compare.pieces(data, seed))
        checks.equal((cut.lines, cut.message.encode(), cut.status), (csv(rows), told(refused), 0), f'seed {seed}: in pieces')


def any_bytes(checks):
    """Records that are often damaged, and a tail of any length."""
    draw = random.Random('any bytes')
    for turn in range(20):
        data = b''.join(any_record(draw) for _ in range(600)) + draw.randbytes(draw.randrange(SIZE))
        rows, refused = read_by('model', data, None)
        checks.equal(output(exporting('all'), data), (csv(rows), told(refused), 0), f'random trace {turn}')


def counted(checks):
    """Refusals are counted whatever they are refused with, also one alone and many."""
    bad, short = roverivet.Record(roverivet.TICK, mask=1).pack(), b'\x03'
    for count in (0, 1, 2, 9, 10, 11, 5000):
        for tail in (b'', short):
            checks.equal(output(exporting('0'), bad * count + tail)[1], told(count + len(tail)), f'{count} refusals and {len(tail)} bytes more')


def used_badly(checks):
    tick = roverivet.Record(roverivet.TICK).pack()
    for words in ((), ('all', 'a', 'b'), ('all', 'a', 'b', 'c')):
        checks.equal(output(exporting(*words), tick), (b'', WORDS, 0), f'{len(words)} arguments')
    for word in ('', 'x', '13', '20', '1x', '-1', '00', '01', '012', '120', '1 ', ' 1', 'All', 'ALL', 'al', 'alls', '/', ':', '\u0661', 'Runts', 'a' * 5000):
        checks.equal(output(exporting(word), tick), (b'', WHO, 0), f'the attribute {word[:10]!r}')
    with tempfile.TemporaryDirectory() as name:
        path = Path(name) / 'some.start'
        for size in (0, 1, 529, 531, 534, 536, 5300):
            path.write_bytes(bytes(size))
            checks.equal(output(exporting('all', str(path)), tick), (b'', FORM, 0), f'a start file of {size} bytes')
        for last in (1, 255):
            path.write_bytes(generate.limited(None, 78, last))
            checks.equal(output(exporting('all', str(path)), tick), (b'', FORM, 0), f'a start file of 535 bytes that ends in {last}')
        for number in generate.REFUSED:
            path.write_bytes(generate.limited(None, number))
            for words, data in ((('all',), tick), (('all',), b''), (('5',), tick)):
                due = (b'', b'export: short event limit %d is outside 75 to 81 (refused 13)\n' % number, 0)
                checks.equal(output(exporting(*words, str(path)), data), due, f'limit {number}')
                checks.equal(output([str(program.model()), '--export', *words, str(path)], data), due, f'limit {number}, model')
        for wrong in (f'{name}/none', name, ''):
            came, said, _ = output(exporting('all', wrong), tick)
            checks.check(came == b'' and said.startswith(b'export: the start file ') and said.count(b'\n') == 1, f'a start file {wrong!r}', said)


def closed_and_full(checks):
    """Outputs that fail and readers that leave: the program ends, by itself and soon."""
    data = generate.trace(7, 3000)
    with open('/dev/full', 'wb') as full:
        checks.check(finished(started(exporting('all'), None, stdout=full), data), 'export ends at a full device')
    process = started(exporting('all'), None)
    process.stdout.close()
    checks.check(finished(process, data), 'export ends when its reader leaves')
    process = started(exporting('all'), None, stdin=subprocess.DEVNULL)
    checks.equal(process.communicate(timeout=SECONDS), (csv([[0] * 9] * 13), b''), 'no input at all')
    for words in (('0',), ('x',)):
        process = started(exporting(*words), None)
        process.stdin.close()
        checks.check(finished(process, b''), f'export {words[0]}: input that ends at once')


def finished(process, data):
    """Whether a program ends within some time, whatever it takes of its input."""
    def feed():
        try:
            process.stdin.write(data)
            process.stdin.close()
        except (OSError, ValueError):
            pass

    threading.Thread(target=feed, daemon=True).start()
    try:
        return ends(process)
    finally:
        process.stderr.close()
        if process.stdout:
            process.stdout.close()


# ---- the verb and the client


def verb(checks, folder):
    """./roverivet export: text, records, standard input, names, start files; and the same by the registers of another program."""
    binary, whole, other = folder / 'sample.bin', csv(sample_rows()), {**os.environ, 'ROVERIVET_RUN': str(folder / 'run')}
    binary.write_bytes(SAMPLE)
    (folder / 'run').write_text('#!/bin/sh\nexec ' + ' '.join(f"'{word}'" for word in plain('run')) + ' "$@"\n')
    (folder / 'run').chmod(0o755)
    named = f'roverivet: the answers are those of {folder / "run"} (ROVERIVET_RUN), and not of the proved program\n'.encode()

    def does(words, data, due, what):
        for environment, before in ((None, b''), (other, named)):
            ran = roverivet_command('export', *words, data=data, env=environment)
            checks.equal((ran.stdout, ran.stderr, ran.returncode), (due[0], before + due[1], due[2]), f'{what}{", by registers" * bool(before)}')

    one = told(1, 'roverivet')
    for words, data in ((('traces/sample.txt',), None), ((str(binary),), None), ((), SAMPLE), (('-',), (TOP / 'traces' / 'sample.txt').read_bytes())):
        does(words, data, (whole, one, 0), f'export {" ".join(words)}')
    for name in ATTRIBUTES:
        does(('traces/sample.txt', '--attribute', name), None, (csv(sample_rows(), [name]), one, 0), f'--attribute {name!r}')
    does(('traces/sample.txt', '--attribute', 'readable octets'), None, (csv(sample_rows(), ['Readable Octets']), one, 0), 'a name in lower case')
    does(('--text',), b'tick mask=001 x12\nraw 0102\n', (csv([[0] * 9] * 13), told(13, 'roverivet'), 0), 'a cut tail is a refusal')
    does(('--binary',), b'half', (csv([[0] * 9] * 13), one, 0), 'four bytes')
    does((), b'', (csv([[0] * 9] * 13), b'', 0), 'no record')
    start = startfile.start_bytes((TOP / 'traces' / 'registers.start').read_bytes())
    does(('--start', 'traces/registers.start'), b'', (csv(rows_of(start)), b'', 0), '--start')
    does(('--start', 'traces/registers.start', '--attribute', 'Runts'), b'', (csv(rows_of(start), ['Runts']), b'', 0), '--start, one attribute')
    rows, refused = read_by('run', text.assembled((TOP / 'traces' / 'counter-wraps.txt').read_bytes(), 'wraps'),
                            startfile.start_bytes((TOP / 'traces' / 'counter-wraps.start').read_bytes()))
    does(('traces/counter-wraps.txt',), None, (csv(rows), told(refused, 'roverivet'), 0), 'the start file that the trace names')
    for wrong in ('Readable', 'readable-octets', '', 'all', '1'):
        ran = roverivet_command('export', 'traces/sample.txt', '--attribute', wrong)
        said = ran.stderr.decode()
        checks.check((ran.returncode, ran.stdout) == (2, b'') and f'{wrong!r} is none of {", ".join(ATTRIBUTES)}' in said, f'--attribute {wrong!r}', said)
    print('./roverivet export, by the program and by the registers of another', flush=True)


def verb_ends(checks, folder):
    path = folder / 'big.bin'
    path.write_bytes(generate.trace(8, 20_000))
    with open('/dev/full', 'wb') as full:
        ran = roverivet_command('export', str(path), stdout=full)
    checks.check(ran.returncode == 2 and ran.stderr.endswith(b'roverivet: cannot write: No space left on device\n'), 'export to a full device', ran.stderr)
    process = subprocess.Popen([sys.executable, str(TOP / 'roverivet'), 'export', '-'], stdin=subprocess.PIPE, stdout=subprocess.PIPE, stderr=subprocess.PIPE)
    process.stdout.close()
    process.stdin.write(path.read_bytes())
    process.stdin.close()
    checks.equal(process.wait(SECONDS), -signal.SIGPIPE, 'export ends quietly when its reader leaves')
    checks.check(process.stderr.read().endswith(b' refused\n'), 'and has told the refusals')
    process.stderr.close()


def client(checks):
    """chip.attribute gives what the model's registers hold."""
    for seed in SEEDS[:3]:
        data, start = generate.trace(seed, 400), generate.start(seed)
        data = data[:len(data) - len(data) % SIZE]
        with roverivet.Chip(start) as chip:
            chip.program.ask(data)
            found = [chip.attribute(name) for name in ATTRIBUTES]
        checks.equal([list(row) for row in found], [list(PORTS)] * 13, f'seed {seed}: the nine ports')
        checks.equal([list(row.values()) for row in found], read_by('model', data, start)[0], f'seed {seed}: chip.attribute')


def main():
    need_program()
    checks = Checks()
    if checks.check(export.usable(), f'there is a program {export.EXPORT}'):
        for part in (same_counters, every_place, limits, lengths, in_pieces, any_bytes, counted, used_badly, closed_and_full, client):
            part(checks)
        with tempfile.TemporaryDirectory() as name:
            verb(checks, Path(os.path.realpath(name)))
            verb_ends(checks, Path(name))
    return checks.end()


if __name__ == '__main__':
    sys.exit(main())
