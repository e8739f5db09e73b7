#!/usr/bin/env -S python3 -B
"""Holds the sum of differences of many readings to Q-14: its own rows, Python's numbers, and the credits of whole runs.

    tests/totals.py             what the gate runs
    tests/totals.py --edge      the last sum that 64 bits hold, and one more: 17 GB of readings, four times, in some minutes

The program totals, its verb, the client's class Total and the model add up the same readings. What is due is worked out
here with Python's own numbers, which have no end; the rows of VECTORS are by hand. Then generated runs are polled at
random points through the registers, with counters that begin shortly before 2^32. The sums of those readings must be the
credits between the first poll and the last, which the model counts in 64 bits and apart from its counters.
"""

import contextlib
import io
import os
import random
import signal
import struct
import subprocess
import sys
import tempfile
from pathlib import Path

from checks import Checks, TOP, need_program, roverivet_command
from export import finished, started

import compare
import generate
import program
import roverivet
from roverivet import ATTRIBUTES, BANKS, BURST, C_READ, PORTS, PULSE, RESET, SIZE, TICK, Total
from tools import build, text, totals
from tools.watch import READ, select

END = 1 << 32
BUFFER = 65536  # bytes that totals reads at a time
MANY = 4_000_000  # readings, enough for a sum beyond 53 bits
SECONDS = 60
SEEDS, RECORDS = range(1400, 1412), 4000
ARGUMENT = b'totals: expected no argument, the readings come on standard input\n'

# the first four are Q-14's; the others by hand
VECTORS = [
    ((4294967295, 2, 1), 4294967298), ((7,), 0), ((0, 4294967295, 0), 4294967296), ((), 0),
    ((0,), 0), ((4294967295,), 0), ((5, 5), 0), ((5, 5, 5), 0), ((0, 1), 1), ((1, 0), 4294967295), ((4294967295, 0), 1),
    ((0, 4294967295), 4294967295), ((2147483648, 0), 2147483648), ((10, 5, 10), 4294967296), ((3, 2, 1, 0), 12884901885),
    ((255, 256), 1), ((256, 255), 4294967295), ((16777216, 65536, 256, 1), 12868124673), ((4294967295, 3, 4294967295, 3), 4294967300),
]


def pairs(readings):
    return zip(readings, readings[1:])


def true_sum(readings):
    return sum((later - earlier) % END for earlier, later in pairs(readings))


# pollers that are wrong
WRONG = {
    'last minus first': lambda some: (some[-1] - some[0]) % END if some else 0,
    'drops a difference when the later reading is the smaller': lambda some: sum(max(later - earlier, 0) for earlier, later in pairs(some)),
    'adds modulo 2^32': lambda some: true_sum(some) % END,
    'adds the first reading': lambda some: true_sum(some) + sum(some[:1]),
    'later and earlier exchanged': lambda some: sum((earlier - later) % END for earlier, later in pairs(some)),
    'wraps at 2^32 - 1': lambda some: sum((later - earlier) % (END - 1) for earlier, later in pairs(some)),
    'takes a wrap for no credit more': lambda some: sum(later if later < earlier else later - earlier for earlier, later in pairs(some)),
}


def spelt(readings):
    return struct.pack(f'<{len(readings)}I', *readings)


def program_words(*words):
    return [*roverivet.starting(totals.TOTALS), *words]


def model_words():
    return [str(program.model()), '--totals']


def output(words, data):
    """(what it printed, what it said, status) of a program."""
    process = started(words, None)
    came, said = process.communicate(data, timeout=300)
    return came, said, process.returncode


def due_of(data):
    """What is due for any bytes."""
    if len(data) % 4:
        words = f'are {len(data) % 4} bytes' if len(data) % 4 > 1 else 'is 1 byte'
        return b'', f'totals: behind the last whole reading {words} more\n'.encode(), 0
    return b'%d\n' % true_sum(struct.unpack(f'<{len(data) // 4}I', data)), b'', 0


def by_class(readings):
    one = Total()
    for reading in readings:
        one.add(reading)
    return one.total


# ---- rows and lists


def rows(checks):
    """Each row by the program, the model, the verb and the class; and no wrong poller has them all right."""
    for readings, due in VECTORS:
        what, data = f'{readings[:4]}', spelt(readings)
        checks.equal(true_sum(readings), due, f"{what}: Python's own numbers")
        for who, words in (('program', program_words()), ('model', model_words())):
            checks.equal(output(words, data), (b'%d\n' % due, b'', 0), f'{what}: {who}')
        checks.equal(by_class(readings), due, f'{what}: class')
        ran = roverivet_command('totals', data=''.join(f'{reading}\n' for reading in readings).encode())
        checks.equal((ran.stdout, ran.stderr, ran.returncode), (b'%d\n' % due, b'', 0), f'{what}: verb')
    for name, wrong in WRONG.items():
        checks.check(any(wrong(readings) != due for readings, due in VECTORS), f'the rows tell a poller that is wrong: {name}')
    print(f'{len(VECTORS)} rows, {len(WRONG)} wrong pollers told apart', flush=True)


def some_readings(draw):
    """Readings anywhere, in small steps, backwards, or at the ends of the range."""
    count, what = draw.choice((2, 3, 10, 100, 3000)), draw.randrange(4)
    if what == 0:
        return [draw.randrange(END) for _ in range(count)]
    if what == 1:
        return [draw.choice((0, 1, 2, 255, 256, 2**31 - 1, 2**31, END - 2, END - 1)) for _ in range(count)]
    steps = [draw.randrange(2000) if what == 2 else END - draw.randrange(1, 5) for _ in range(count)]
    reading, found = draw.choice((0, END - 1, END - 5000, draw.randrange(END))), []
    for step in steps:
        found.append(reading := (reading + step) % END)
    return found


def lists(checks):
    draw, told = random.Random('lists'), set()
    some = [some_readings(draw) for _ in range(120)] + [[draw.randrange(END) for _ in range(100_000)]]
    for turn, readings in enumerate(some):
        due = (b'%d\n' % true_sum(readings), b'', 0)
        checks.equal(output(program_words(), spelt(readings)), due, f'list {turn}: program')
        checks.equal(output(model_words(), spelt(readings)), due, f'list {turn}: model')
        checks.equal(by_class(readings), true_sum(readings), f'list {turn}: class')
        told |= {name for name, wrong in WRONG.items() if wrong(readings) != true_sum(readings)}
    checks.equal(told, set(WRONG), 'the lists tell every wrong poller')
    data, due = struct.pack(f'<{MANY}I', *range(MANY, 0, -1)), (b'%d\n' % ((MANY - 1) * (END - 1)), b'', 0)
    checks.equal((output(program_words(), data), output(model_words(), data)), (due, due), f'{MANY:,} readings, each one less than the one before')
    print(f'{len(some)} random lists, and one of {MANY:,} readings', flush=True)


def edge(checks):
    """65,537 times from 65,535 down to 0 makes 65,535 * (65,537 * 2^32 - 1): 2^32 + 65,534 below 2^64 - 1."""
    block, does_not_fit = spelt(range(65535, -1, -1)), b'totals: the sum reaches 2^64 and does not fit in 64 bits\n'
    for who, words in (('program', program_words()), ('model', model_words())):
        for more, due in (((65535, 65534), (b'18446744073709551615\n', b'')), ((65535, 65534, 65535), (b'', does_not_fit))):
            process = started(words, None)
            for _ in range(65537):
                process.stdin.write(block)
            checks.equal((process.communicate(spelt(more)), process.returncode), (due, 0), f'{who}: {65537 * 65536 + len(more):,} readings')


# ---- any input


def lengths(checks):
    draw = random.Random('lengths')
    some = [*range(0, 100), *(turn * BUFFER + more for turn in (1, 2) for more in range(-5, 6)), 200_000, 200_003]
    for length in some:
        data = draw.randbytes(length)
        for who, words in (('program', program_words()), ('model', model_words())):
            checks.equal(output(words, data), due_of(data), f'{length} bytes: {who}')
    print(f'{len(some)} lengths of input, 0 to 99 and around the size of a reading', flush=True)


def in_pieces(checks):
    """The input in pieces gives the same, also where they part the bytes of a reading."""
    draw = random.Random('pieces')
    for seed in range(12):
        data = draw.randbytes(draw.choice((4000, 70_000, 300_000)) + seed % 4)
        for who, words in (('program', program_words()), ('model', model_words())):
            cut = compare.run(words, compare.pieces(data, seed))
            checks.equal((cut.lines, cut.message.encode(), cut.status), due_of(data), f'pieces {seed}: {who}')
    for size in (1, 2, 3, 5, 7):
        data = draw.randbytes(1001)
        cut = compare.run(program_words(), (data[at:at + size] for at in range(0, len(data), size)))
        checks.equal((cut.lines, cut.message.encode(), cut.status), due_of(data), f'pieces of {size} bytes')


def closed_and_full(checks):
    """Outputs that fail, readers that leave and no input: the program ends, by itself and soon."""
    data = random.Random('closed').randbytes(500_000)
    for words in ((), ('x',)):
        due = (b'', ARGUMENT, 0) if words else (b'0\n', b'', 0)
        checks.equal(output(program_words(*words), b''), due, f'input that ends at once, {len(words)} arguments')
    with open('/dev/full', 'wb') as full:
        checks.check(finished(started(program_words(), None, stdout=full), data), 'totals ends at a full device')
    process = started(program_words(), None)
    process.stdout.close()
    checks.check(finished(process, data), 'totals ends when its reader leaves')
    process = started(program_words(), None, stdin=subprocess.DEVNULL)
    checks.equal(process.communicate(timeout=SECONDS), (b'0\n', b''), 'no input at all')
    process = subprocess.Popen(['sh', '-c', 'exec "$@" <&-', 'sh', *program_words()], stdout=subprocess.PIPE, stderr=subprocess.PIPE)
    process.communicate(timeout=SECONDS)
    checks.check(process.returncode is not None, 'totals ends with a closed standard input')
    for words in (('x',), ('',), ('-',), ('--help',), ('a', 'b'), ('a' * 5000,)):
        checks.equal(output(program_words(*words), spelt((1, 2))), (b'', ARGUMENT, 0), f'the arguments {[word[:9] for word in words]}')


# ---- the verb

# a text, and its sum
TEXTS = [
    (b'', 0), (b'\n\n', 0), (b'# nothing\n', 0), (b'7', 0), (b'7\n8', 1), (b'7\r\n\r\n8\r\n', 1), (b' 7 \n\t8\t# a remark\n#9\n   # 10\n', 1),
    (b'\xef\xbb\xbf7\n8\n', 1), (b'0000000007\n8\n', 1), (b'7#8\n9##\n', 2), ('7 # é ٣\n8\n'.encode(), 1), (b'#' + b'x' * 900_000 + b'\n7\n8\n', 1),
    (b' ' * 900_000 + b'7\n8\n', 1),
]
EXPECTED = 'expected a reading, a decimal number up to 4294967295, found '
BINARY = 'expected text, found the byte {}: is this a binary file?'

# a text that is none, and what is said of it
BAD = [
    (b'x\n', f'1:1: {EXPECTED}x'), (b'7\n8 9\n', f'2:1: {EXPECTED}8 9'), (b'\n\n  -1\n', f'3:3: {EXPECTED}-1'), (b'+7\n', f'1:1: {EXPECTED}+7'),
    (b'1_000\n', f'1:1: {EXPECTED}1_000'), (b'4294967295\n4294967296\n', f'2:1: {EXPECTED}4294967296'), (b'00000000007\n', f'1:1: {EXPECTED}00000000007'),
    (b'7.0\n', f'1:1: {EXPECTED}7.0'), (b'1e3\n', f'1:1: {EXPECTED}1e3'), (b'0x10\n', f'1:1: {EXPECTED}0x10'), (b'4,294\n', f'1:1: {EXPECTED}4,294'),
    ('٣\n'.encode(), f'1:1: {EXPECTED}٣'), ('７\n'.encode(), f'1:1: {EXPECTED}７'), ('\u00a07\n'.encode(), f'1:1: {EXPECTED}\\xa07'),
    (b'7\0\n', f'1:1: {EXPECTED}7\\x00'), (b'7\x0c8\n', f'1:1: {EXPECTED}7\\x0c8'), (b'7\r8\n', f'1:1: {EXPECTED}7\\x0d8'),
    (b'7 => 8\n', f'1:1: {EXPECTED}7 => 8'), (b'7\ncaf\xe9\n', f'2:4: {BINARY.format("e9")}'), (b'7 # \xff\n', f'1:5: {BINARY.format("ff")}'),
    ('7\n'.encode('utf-16'), f'1:1: {BINARY.format("ff")}'),
    (b'9' * 900_000 + b'\n', f'1:1: {EXPECTED}{"9" * 37}...'), (b'7\n' + b'9' * 3_000_000, '2:1: expected a line of up to 1000000 bytes'),
    (b'7\n#' + b'x' * 3_000_000, '2:1: expected a line of up to 1000000 bytes'), (b'1\n' * 40_000 + b'-\n', f'40001:1: {EXPECTED}-'),
]

# what the program printed and said, its status, whether it took all of its input; and what the verb makes of it
SAID = [
    (('4294967298\n', '', 0, True), 4294967298), (('0\n', '', 0, True), 0), (('18446744073709551615\n', '', 0, True), 2**64 - 1),
    (('', 'totals: the sum reaches 2^64 and does not fit in 64 bits\n', 0, True), None),
    (('', 'totals: the sum reaches 2^64 and does not fit in 64 bits\n', 0, False), None),
    *((case, 'ended') for case in (
        ('18446744073709551616\n', '', 0, True), ('', '', 0, True), ('7', '', 0, True), ('07\n', '', 0, True), ('-7\n', '', 0, True),
        ('7\n8\n', '', 0, True), ('7\n', 'x\n', 0, True), ('7\n', '', 1, True), ('7\n', '', 0, False), ('\u0667\n', '', 0, True),
        ('', 'totals: behind the last whole reading is 1 byte more\n', 0, True),
        ('7\n', 'totals: the sum reaches 2^64 and does not fit in 64 bits\n', 0, True))),
]


def verb(checks, folder):
    path = folder / 'readings'
    for data, due in TEXTS:
        path.write_bytes(data)
        for words, given in (((str(path),), None), (('-',), data)):
            ran = roverivet_command('totals', *words, data=given)
            checks.equal((ran.stdout, ran.stderr, ran.returncode), (b'%d\n' % due, b'', 0), f'totals {words[0][:1]} of {data[:30]!r}')
    for turn, (data, said) in enumerate(BAD):
        path.write_bytes(data)
        words, given, name = ((str(path),), None, str(path)) if turn % 2 else ((), data, 'standard input')
        ran = roverivet_command('totals', *words, data=given)
        checks.equal((ran.stdout, ran.stderr.decode(), ran.returncode), (b'', f'roverivet: {name}:{said}\n', 2), f'totals of {data[:30]!r}')
    for name, said in (('none', 'No such file or directory'), ('.', 'Is a directory'), ('/proc/self/mem', 'Input/output error')):
        ran = roverivet_command('totals', name, cwd=folder)
        checks.equal((ran.stdout, ran.stderr.decode(), ran.returncode), (b'', f'roverivet: {name}: {said}\n', 2), f'totals {name}')
    ran = roverivet_command('totals', data=b'1\n3\n', env={**os.environ, 'ROVERIVET_RUN': str(folder / 'none')})
    checks.equal((ran.stdout, ran.stderr, ran.returncode), (b'2\n', b'', 0), 'totals has nothing to do with ROVERIVET_RUN')
    print(f'./roverivet totals: {len(TEXTS)} texts, {len(BAD)} that are none', flush=True)


def made_of(case):
    try:
        return totals.sum_in(*case)
    except roverivet.Ended:
        return 'ended'


def verb_ends(checks, folder):
    for case, due in SAID:
        checks.equal(made_of(case), due, f'the verb, for a program that gives {case}')
    path = folder / 'many'
    path.write_text('7\n8\n' * 200_000)
    with open('/dev/full', 'wb') as full:
        ran = roverivet_command('totals', str(path), stdout=full)
    checks.equal((ran.returncode, ran.stderr), (2, b'roverivet: cannot write: No space left on device\n'), 'totals to a full device')
    process = subprocess.Popen([sys.executable, str(TOP / 'roverivet'), 'totals'], stdin=subprocess.PIPE, stdout=subprocess.PIPE, stderr=subprocess.PIPE)
    process.stdout.close()
    process.stdin.write(path.read_bytes())
    process.stdin.close()
    checks.equal((process.wait(SECONDS), process.stderr.read()), (-signal.SIGPIPE, b''), 'totals ends quietly when its reader leaves')
    process.stderr.close()


# ---- whole runs

NAMES = [('Transmit Collisions',), ('Total Octets',), *((port, name) for port in PORTS for name in ATTRIBUTES)]
MOVING = ('Readable Frames', 'Readable Octets', 'Collisions', 'Runts', 'Source Address Changes')


def register_of(names):
    return (0, 12 + NAMES.index(names)) if len(names) == 1 else (BANKS[PORTS.index(names[0])], ATTRIBUTES.index(names[1]))


def near_the_end(draw):
    """A start file whose counters will wrap soon."""
    def row():
        return [END - 1 - draw.randrange(3000 if name == 'Readable Octets' else 12) for name in ATTRIBUTES]
    values = [value for _ in PORTS for value in (*row(), draw.randbytes(6))]
    return struct.pack('<' + '13I6s' * 9 + '2I', *values, END - 1 - draw.randrange(12), END - 1 - draw.randrange(9000))


def chosen(draw):
    """Counters to poll: the two sums, some that move at AUI, which is always up, and any."""
    return NAMES[:2] + draw.sample([('AUI', name) for name in MOVING], 3) + draw.sample(NAMES[2:], 8)


def whole_records(seed):
    return [piece for piece in text.pieces(generate.trace(seed, RECORDS)) if len(piece) == SIZE]


def stays(piece):
    """Whether a record leaves the byte sequence as it is, whatever the chip's state."""
    return piece[0] in (BURST, PULSE, TICK, C_READ) or roverivet.refusal(piece) is not None


def polled(draw, seed):
    """A generated run with polls put in, and other records between their bytes: (records, {names: [places of four reads]})."""
    left, records = whole_records(seed)[::-1], []
    polls = {names: [] for names in chosen(draw)}
    while left:
        for _ in range(min(len(left), draw.randrange(120))):
            records.append(left.pop())
        for names in draw.sample(sorted(polls), draw.randint(1, 5)):
            records += select(*register_of(names))
            places = []
            for _ in range(4):
                while places and left and stays(left[-1]) and draw.random() < 0.4:
                    records.append(left.pop())
                places.append(len(records))
                records.append(READ)
            polls[names].append(places)
    return records, polls


def credits(records, start, folder):
    """{names: true number of credits since power-up} by the model."""
    path = folder / 'start'
    path.write_bytes(start)
    ran = subprocess.run([str(program.model()), '--credits', str(path)], input=b''.join(records), capture_output=True, timeout=300)
    lines = [line.rpartition(' = ') for line in ran.stdout.decode().splitlines()]
    spoken = {' '.join([names[0].lower(), *names[1:]]) if len(names) > 1 else names[0]: names for names in NAMES}
    return {spoken[name]: int(value) for name, _, value in lines}


def runs(checks, folder):
    """Runs that are polled through registers: the sum is the credits between the first byte of the first poll and that of the last."""
    wraps, resets, between, moved = 0, 0, 0, set()
    for seed in SEEDS:
        draw = random.Random(f'polls {seed}')
        start = near_the_end(draw)
        records, polls = polled(draw, seed)
        answers = roverivet.answers(b''.join(records), start)
        known = {}
        for names, places in polls.items():
            if len(places) < 2:
                continue
            what = f'seed {seed}: {" ".join(names)}'
            checks.check(all(answers[place].word == 'val' for four in places for place in four), f'{what}: every byte was read')
            readings = [sum(answers[place].value << 8 * at for at, place in enumerate(four)) for four in places]
            first, last = places[0][0], places[-1][0]
            for place in (first, last):
                if place not in known:
                    known[place] = credits(records[:place], start, folder)
            due = known[last][names] - known[first][names]
            checks.equal(output(program_words(), spelt(readings)), (b'%d\n' % due, b'', 0), f'{what}: the program, from {len(readings)} polls')
            checks.equal(by_class(readings), due, f'{what}: the class')
            wraps += sum(later < earlier for earlier, later in pairs(readings))
            resets += sum(record[0] == RESET for record in records[first:last] if not roverivet.refusal(record))
            between += sum(four[-1] - four[0] > 3 for four in places)
            moved |= {names[-1]} if due else set()
    checks.check(wraps >= 30 and resets >= 30 and between >= 100, 'wraps, resets and records between bytes are polled', f'{wraps}, {resets}, {between}')
    checks.check(moved >= {'Transmit Collisions', 'Total Octets', *MOVING}, 'the counters that are polled move', f'{sorted(moved)}')
    print(f'{len(SEEDS)} runs polled through registers: {wraps} wraps, {resets} resets, {between} polls with records between their bytes', flush=True)


def runs_of_the_class(checks, folder):
    """The class polls a chip by itself, and then another: each chain is the credits of its chip."""
    wraps = 0
    for seed in SEEDS[:4]:
        draw = random.Random(f'class {seed}')
        some = [Total(None, *names) for names in chosen(draw)]
        dues = {one.name: [] for one in some}
        for turn in range(2):
            start, left = near_the_end(draw), whole_records(seed + 100 * turn)
            with roverivet.Chip(start) as chip, contextlib.redirect_stderr(io.StringIO()) as told:
                sent, points = [], {}
                chip.program.tally = lambda batch, _: sent.append(batch)
                while left:
                    step = draw.randrange(1, 200)
                    chip.program.ask(b''.join(left[:step]))
                    del left[:step]
                    for one in draw.sample(some, 5) if left and points else some:
                        before = one.last if one.chip is chip else None
                        one.poll(chip)
                        wraps += before is not None and one.last < before
                        points.setdefault(one.name, []).append(len(sent))
                for one in some:
                    first, last = (credits(sent[:points[one.name][at]], start, folder) for at in (0, -1))
                    names = next(names for names in NAMES if roverivet.REGISTERS[register_of(names)].name == one.name)
                    dues[one.name].append(last[names] - first[names])
            checks.equal(told.getvalue().count('a new chain begins'), turn * len(some), f'seed {seed}: what is said of chip {turn + 1}')
        for one in some:
            checks.equal([*one.chains, one.total], dues[one.name], f'seed {seed}: {one.name}, two chains')
    checks.check(wraps >= 20, 'the class has polled wraps', f'{wraps}')
    print(f'the class: two chips after each other, polled by itself, {wraps} wraps', flush=True)


def main(words):
    need_program()
    checks = Checks()
    there = checks.check(build.usable('totals', replaced=False), f'there is a program {totals.TOTALS}')
    if there and words == ['--edge']:
        edge(checks)
    elif there:
        for part in (rows, lists, lengths, in_pieces, closed_and_full):
            part(checks)
        with tempfile.TemporaryDirectory() as name:
            for part in (verb, verb_ends, runs, runs_of_the_class):
                part(checks, Path(os.path.realpath(name)))
    return checks.end()


if __name__ == '__main__':
    sys.exit(main(sys.argv[1:]))
