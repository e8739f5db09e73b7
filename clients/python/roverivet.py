"""Drives the proved model of one IMR+ repeater (Am79C981) with its HIMIB (Am79C987) from a test harness.

    import roverivet
    with roverivet.Chip() as chip:
        for _ in range(4):
            chip.pulse('TP0+TP1')
        chip.burst('TP0', d=1000, n=64)          # Answer: rep, data to TP1 and AUI
        chip.read_counter('TP0', 'Readable Frames')

A refused record raises Refused, with document 01's number and the reason found in the record, and so does a short event
limit outside 75 to 81: Chip(short_limit=74) raises it with 13, and starts nothing. An answer that is
missing, surplus, out of order, or that no record of its kind can have raises Ended. A chip is for one thread at a
time. Nothing here models the chip: the answers are the program's. What stands here is the record's layout, the
names of ports, registers and commands, and the refusals, for their reasons.

Standard library only. Uses crates/run/out/run of the repository that this file stands in, or the program that the
environment variable ROVERIVET_RUN names. A program other than the proved one, and one that is older than its
sources, is named on standard error.
"""

import os
import re
import select
import struct
import subprocess
import sys
import tempfile
import time
import weakref
from pathlib import Path
from typing import NamedTuple

# ---- names

PORTS = ('TP0', 'TP1', 'TP2', 'TP3', 'TP4', 'TP5', 'TP6', 'TP7', 'AUI')
KINDS = ('', 'burst', 'pulse', 'tick', 'c-write', 'd-write', 'c-read', 'd-read', 'reset')
BURST, PULSE, TICK, C_WRITE, D_WRITE, C_READ, D_READ, RESET = range(1, 9)
FLAGS = ('fcs-bad', 'rate-error', 'collision-signal', 'loopback-missing', 'sqe-test')
COLLISION_SIGNAL = 1 << FLAGS.index('collision-signal')
ATTRIBUTES = ('Readable Frames', 'Readable Octets', 'FCS Errors', 'Alignment Errors', 'Frames Too Long',
              'Short Events', 'Runts', 'Collisions', 'Late Events', 'Very Long Events',
              'Data Rate Mismatches', 'Auto Partitions', 'Source Address Changes')
CHANGES = {0: 'TP partition', 1: 'AUI partition', 2: 'TP link', 3: 'AUI loopback error', 4: 'SQE Test',
           6: 'TP source address', 7: 'AUI source address'}
TP_CHANGES = (0, 2, 6)
BANKS = (16, 17, 18, 19, 20, 21, 22, 23, 31)
ADDRESS = 14
S, G = (0, 30), (0, 31)


class Register(NamedTuple):
    name: str
    size: int
    access: str


def _registers():
    table = {(0, 12): Register('Transmit Collisions', 4, 'r'), (0, 13): Register('Total Octets', 4, 'r'),
             (0, 28): Register('Version', 1, 'r'), S: Register('S', 1, 'w'), G: Register('G', 1, 'rw')}
    for place, name in CHANGES.items():
        table[1, place] = Register(name + ' change', 1, 'r')
        table[2, place] = Register(name + ' interrupt enable', 1, 'rw')
    for port, bank in zip(PORTS, BANKS):
        for place, name in enumerate(ATTRIBUTES):
            table[bank, place] = Register(f'{name} of {port}', 4, 'r')
        table[bank, ADDRESS] = Register(f'Last Source Address of {port}', 6, 'rw')
    return table


def _commands():
    table = {0x1F: ('set', 'alternate partition algorithm for AUI'),
             0x10: ('set', 'alternate partition algorithm for TP'),
             0x2F: ('set', 'disable AUI'), 0x3F: ('set', 'enable AUI'),
             0x8F: ('get', 'AUI status, clearing B, S and L'), 0x8B: ('get', 'AUI status, clearing S and L'),
             0x8D: ('get', 'AUI status, clearing B'), 0x89: ('get', 'AUI status, clearing nothing'),
             0x80: ('get', 'TP partition'), 0xA0: ('get', 'TP bit rate errors, clearing them'),
             0xD0: ('get', 'TP link'), 0xF0: ('get', 'MJLP, clearing it'), 0xFF: ('get', 'version')}
    for top, words in ((0x20, 'disable TP{}'), (0x30, 'enable TP{}'), (0x40, 'link test off for TP{}'),
                       (0x50, 'link test on for TP{}')):
        for port in range(8):
            table[top + port] = ('set', words.format(port))
    return table


REGISTERS = _registers()
COMMANDS = _commands()
UNLISTED = Register('an unlisted register', 1, '')

# ---- sets of ports


def ports_of(mask):
    """The names of a mask's ports, in the order of their bits; bits above AUI have no name."""
    return tuple(name for bit, name in enumerate(PORTS) if mask >> bit & 1)


def mask_of(ports):
    """The mask of 'TP0+TP1', 'tp0-3+aui', 'none', an iterable of names, or a number."""
    if isinstance(ports, int):
        return ports
    if not isinstance(ports, str):
        ports = '+'.join(ports) or 'none'
    if ports.lower() == 'none':
        return 0
    mask = 0
    for part in ports.split('+'):
        named = re.fullmatch(r'(?:tp([0-7])(?:-(?:tp)?([0-7]))?|(aui))', part, re.ASCII | re.IGNORECASE)
        if not named:
            raise ValueError(f'{part!r} is no port: expected tp0 to tp7, a range as tp0-3, aui or none')
        first, last, aui = named.groups()
        bits = (8,) if aui else range(int(first), int(last or first) + 1)
        if not bits:
            raise ValueError(f'{part!r} runs backwards: expected the lower port first')
        for bit in bits:
            if mask >> bit & 1:
                raise ValueError(f'{PORTS[bit].lower()} is named twice')
            mask |= 1 << bit
    return mask


def address_of(address):
    """Six octets from '02:00:00:00:00:01' or from six bytes."""
    if isinstance(address, str):
        if not re.fullmatch(r'[0-9a-fA-F]{2}([:-][0-9a-fA-F]{2}){5}', address):
            raise ValueError(f'{address!r} is no address: expected six hex octets as 02:00:00:00:00:01')
        return bytes.fromhex(address.replace(':', '').replace('-', ''))
    if len(address) != 6:
        raise ValueError(f'an address has six octets, not {len(address)}')
    return bytes(address)


# ---- records

SIZE = 32
LAYOUT = struct.Struct('<BBHIIBBHII6sH')


class Record(NamedTuple):
    """One record's fields. `rest` and `end` are bytes 14-15 and 30-31, which are zero in a good record."""
    kind: int
    flags: int = 0
    mask: int = 0
    d: int = 0
    n: int = 0
    k: int = 0
    byte: int = 0
    rest: int = 0
    c: int = 0
    x: int = 0
    sa: bytes = bytes(6)
    end: int = 0

    def pack(self):
        try:
            return LAYOUT.pack(*self)
        except struct.error as error:
            raise ValueError(f'a field does not fit in its bytes: {error}') from None

    @classmethod
    def unpack(cls, piece):
        return cls._make(LAYOUT.unpack(piece))


USED = {BURST: ('flags', 'mask', 'd', 'n', 'k', 'c', 'x', 'sa'), PULSE: ('mask',),
        C_WRITE: ('byte',), D_WRITE: ('byte',)}
FIELDS = {'flags': 'flags', 'mask': 'a mask', 'd': 'a duration', 'n': 'octets', 'k': 'dribble bits',
          'byte': 'a written byte', 'rest': 'something in bytes 14 and 15', 'c': 'a start of collision',
          'x': 'a length of collision', 'sa': 'a source address', 'end': 'something in bytes 30 and 31'}

# ---- refusals

REFUSALS = {1: 'a burst without activity', 2: 'a number out of range', 3: 'a port that is not there',
            4: 'an unlisted command', 5: 'an unlisted register', 6: 'the wrong direction for the register',
            7: 'a C write that selects neither P nor R', 8: 'a malformed record',
            9: 'a piece that is not 32 bytes long', 10: 'an octet check about too many frames',
            13: 'a short event limit outside 75 to 81, at power-up'}


def refusal(piece, selected=None):
    """(number, reason) that document 01 turns a piece away with, the first in the paper's order, or None.

    `selected` is (P, R); without it only what the record shows by itself is judged. It serves to give a
    reason, never to answer in the program's place.
    """
    if len(piece) != SIZE:
        return 9, f'{len(piece)} byte{"s" * (len(piece) != 1)} where a record has {SIZE}'
    record = Record.unpack(piece)
    found = _malformed(record) or _out_of_range(record)
    if not found and selected and record.kind in (D_WRITE, D_READ):
        found = _register_refusal(record, selected)
    return found


def _malformed(record):
    if not 1 <= record.kind <= 8:
        return 8, f'unknown kind {record.kind}'
    name = KINDS[record.kind]
    if record.kind == BURST and record.flags >> 5:
        return 8, f'burst with a flag bit above 4 (flags {record.flags:02x})'
    for field, words in FIELDS.items():
        if field not in USED.get(record.kind, ()) and getattr(record, field) not in (0, bytes(6)):
            return 8, f'{name} with {words}'
    return None


def _out_of_range(r):
    if r.kind == BURST and r.mask >> 9:
        return 3, f'burst with a mask bit above 8 (mask {r.mask:04x})'
    if r.kind == PULSE and r.mask >> 8:
        return 3, f'pulse with a mask bit above 7 (mask {r.mask:04x})'
    if r.kind == C_WRITE and r.byte >> 5 not in (0, 7):
        return 7, f'C write of {r.byte:02x}, whose top three bits are {r.byte >> 5:03b}'
    if r.kind != BURST:
        return None
    if not 1 <= r.d <= 1_000_000:
        return 2, f'duration {r.d}, not 1 to 1,000,000'
    if r.k > 7:
        return 2, f'{r.k} dribble bits, more than 7'
    if 8 * r.n + r.k > r.d:
        return 2, f'{r.n} octets and {r.k} bits do not fit in {r.d} bit times'
    if r.c + r.x > r.d:
        return 2, f'the collision ends at {r.c + r.x}, after the burst ({r.d})'
    if not r.mask and not r.flags & COLLISION_SIGNAL:
        return 1, 'burst with no active port and no collision signal'
    return None


def _register_refusal(record, selected):
    bank, place = selected
    register = REGISTERS.get(selected)
    if not register:
        return 5, f'P {bank} R {place} is not listed'
    reading = record.kind == D_READ
    if ('r' if reading else 'w') not in register.access:
        return 6, f'{register.name} (P {bank} R {place}) is {"write" if reading else "read"}-only'
    if not reading and selected in (S, G) and record.byte not in COMMANDS:
        return 4, f'{record.byte:02x} is no listed command'
    return None


class Refused(Exception):
    """The program turned a record away: document 01's number, and the reason found in the record. Or no chip was powered up: 13."""

    def __init__(self, number, reason):
        super().__init__(number, reason)
        self.number, self.reason = number, reason

    def __str__(self):
        return f'refused {self.number}: {self.reason}'


# ---- answers

LINE = re.compile(r'([1-9][0-9]*) (?:(rep|jam|nil) ([0-9a-f]{3})|(val) ([0-9a-f]{2})|(ref) ([0-9]+)|(ok))',
                  re.ASCII)


class Answer(NamedTuple):
    """One printed line. `value` is the output mask, the byte read or the refusal's number, else 0."""
    number: int
    word: str
    value: int

    @property
    def outputs(self):
        return ports_of(self.value) if self.word in ('rep', 'jam', 'nil') else ()

    @property
    def words(self):
        """The line without its number."""
        shape = {'rep': ' {:03x}', 'jam': ' {:03x}', 'nil': ' {:03x}', 'val': ' {:02x}', 'ref': ' {}'}
        return self.word + shape.get(self.word, '').format(self.value)


def answer_of(line):
    found = LINE.fullmatch(line)
    if not found:
        raise ValueError(f'the program printed {line!r}, which is no answer')
    number, word, outputs, val, byte, ref, refused, ok = found.groups()
    if word:
        return Answer(int(number), word, int(outputs, 16))
    if val:
        return Answer(int(number), val, int(byte, 16))
    return Answer(int(number), ref or ok, int(refused or 0))


# what a kind of record can be answered with: words, and numbers of refusals
ANSWERS = {BURST: (('rep', 'jam', 'nil'), (8, 3, 2, 1)), PULSE: (('ok',), (8, 3)), TICK: (('ok',), (8,)),
           C_WRITE: (('ok',), (8, 7)), D_WRITE: (('ok',), (8, 5, 6, 4)), C_READ: (('val',), (8,)),
           D_READ: (('val',), (8, 5, 6)), RESET: (('ok',), (8,))}


def impossible(piece, answer):
    """Why no record of this kind can have this answer, or nothing."""
    if len(piece) != SIZE:
        name, words, refusals = f'piece of {len(piece)} bytes', (), (9,)
    elif piece[0] not in ANSWERS:
        name, words, refusals = f'record of unknown kind {piece[0]}', (), (8,)
    else:
        name, (words, refusals) = KINDS[piece[0]], ANSWERS[piece[0]]
    fine = answer.value in refusals if answer.word == 'ref' else answer.word in words
    if fine and answer.word in ('rep', 'jam', 'nil'):
        fine = not answer.value >> 9 and (answer.word != 'nil' or not answer.value)
    elif fine and answer.word == 'val' and piece[0] == C_READ:
        fine = not answer.value & 0x3F
    return '' if fine else f'the program answered {answer.words} to record {answer.number}, and no {name} can have that answer'


# ---- the program

HERE = Path(__file__).resolve().parent.parent.parent


def built(name):
    """Where rt leaves a program that it proved and built."""
    return HERE / 'crates' / name / 'out' / name


PROGRAM = built('run')
CHECKED = PROGRAM.parent / 'run.checked'  # touched when the sources were last found proved
SOURCES = ('src', 'specs', 'proofs')


class Missing(Exception):
    """The program is not there, or this machine has nothing to start it with."""


class Ended(Exception):
    """The program ended, fell silent, or printed something else than the answers that were due."""


def other():
    """The program that ROVERIVET_RUN names in place of the proved one, or None."""
    named = os.environ.get('ROVERIVET_RUN')
    return None if not named or (os.path.exists(named) and PROGRAM.exists() and os.path.samefile(named, PROGRAM)) else named


def is_fresh():
    """Whether the proved program is there and nothing that it is made of is younger."""
    if not PROGRAM.exists():
        return False
    built = max(path.stat().st_mtime for path in (PROGRAM, CHECKED) if path.exists())
    return all(moment <= built for moment in _source_times())


def _source_times():
    """When each file was changed that the program is made of."""
    if (HERE / 'crates.txt').exists():
        yield (HERE / 'crates.txt').stat().st_mtime
    folders = [str(path / name) for path in HERE.glob('crates/*') for name in SOURCES if (path / name).is_dir()]
    while folders:
        with os.scandir(folders.pop()) as entries:
            for entry in entries:
                if entry.is_dir():
                    folders.append(entry.path)
                else:
                    yield entry.stat().st_mtime


_said = set()
assured = False  # whether ./roverivet has made sure, in this process, that the program is what its sources prove


def _say_once(words):
    """One line on standard error, once in a process."""
    if words not in _said:
        _said.add(words)
        print(f'roverivet: {words}', file=sys.stderr, flush=True)


def _name_program():
    """Names a program that is not the proved one, or that is older than its sources."""
    if other():
        _say_once(f'the answers are those of {other()} (ROVERIVET_RUN), and not of the proved program')
    elif not assured and not is_fresh():
        _say_once('crates/run/out/run is older than its sources, so it is not what they prove: ./roverivet build')


def command():
    """The words that start the program: ROVERIVET_RUN's, or crates/run/out/run."""
    named = os.environ.get('ROVERIVET_RUN')
    if named:
        if not os.access(named, os.X_OK) or os.path.isdir(named):
            raise Missing(f'ROVERIVET_RUN names {named}, which is no program')
        return [os.path.abspath(named)]
    if not os.access(PROGRAM, os.X_OK):
        raise Missing('the proved program crates/run/out/run is not built: ./roverivet build')
    return starting(PROGRAM)


def starting(path):
    """The words that start a program of the toolchain, which compiles for x86-64 alone."""
    machine = os.uname().machine
    if machine != 'x86_64':
        raise Missing(f'programs are for x86-64, and this machine is {machine}')
    return [str(path)]


# ---- power-up

START_SIZE, LONG_START_SIZE = 530, 535  # bytes of a start file: without a short event limit, and with one and a 0 behind it
SHORT_LIMIT, SHORT_LIMITS = 78, range(75, 82)  # the limit where nothing is said, and all that there are


def start_fault(data):
    """Why some bytes are no start file, or nothing."""
    if len(data) not in (START_SIZE, LONG_START_SIZE):
        return f'a start file has {START_SIZE} or {LONG_START_SIZE} bytes, this has {len(data)}'
    if len(data) == LONG_START_SIZE and data[-1]:
        return f'byte {LONG_START_SIZE - 1} of a start file has to be 0, here it is {data[-1]}'
    return ''


def limit_of(start):
    """The short event limit that the bytes of a start file name, or None."""
    return int.from_bytes(start[START_SIZE:-1], 'little') if len(start) == LONG_START_SIZE else None


def no_limit(shown):
    """The refusal of what is no short event limit."""
    return Refused(13, f'short event limit {shown} is outside {SHORT_LIMITS[0]} to {SHORT_LIMITS[-1]}')


def start_given(start=None, short_limit=None):
    """The bytes that power-up is given, or None: a start file, by its path or by its bytes, and a short event limit beside it.

    Raises Refused with 13 for a limit outside 75 to 81, ValueError for what is no start file, and for one that names another limit.
    """
    if short_limit is not None and (isinstance(short_limit, bool) or not isinstance(short_limit, int)):
        raise TypeError(f'short_limit: expected a whole number, found {short_limit!r:.40}')
    if short_limit is not None and short_limit not in SHORT_LIMITS:
        raise no_limit(short_limit if short_limit.bit_length() < 128 else f'of {short_limit.bit_length()} bits')
    if start is None:
        return None if short_limit is None else bytes(START_SIZE) + _limit_bytes(short_limit)
    where, data = '', start
    if not isinstance(start, (bytes, bytearray)):
        with open(start, 'rb') as file:
            where, data = f'{start}: ', file.read()
    if start_fault(data):
        raise ValueError(where + start_fault(data))
    named = limit_of(data)
    if short_limit is not None and named not in (None, short_limit):
        raise ValueError(f'{where}short_limit is {short_limit}, and the start file names the short event limit {named}')
    if named is not None and named not in SHORT_LIMITS:
        raise no_limit(named)
    return bytes(data) if short_limit is None else bytes(data[:START_SIZE]) + _limit_bytes(short_limit)


def _limit_bytes(limit):
    return limit.to_bytes(4, 'little') + b'\0'


def _start_words(start):
    """(words, file): the argument for a start file given as a path or as its bytes."""
    if start is None:
        return [], None
    file = tempfile.TemporaryFile()
    try:
        file.write(start_given(start))
        file.flush()
    except BaseException:
        file.close()
        raise
    return [f'/dev/fd/{file.fileno()}'], file


def launch(start=None, **pipes):
    """Starts the program as a process; `pipes` go to subprocess.Popen."""
    words, file = _start_words(start)
    try:
        begun = command()
        _name_program()
        return subprocess.Popen(begun + words, bufsize=0, pass_fds=[file.fileno()] if file else (), **pipes)
    finally:
        if file:
            file.close()


def answers(data, start=None, patience=60, short_limit=None):
    """The program's answers to a whole trace, as a list of Answer."""
    with Running(start_given(start, short_limit), patience) as program:
        whole = len(data) - len(data) % SIZE
        found = program.ask(data[:whole])
        return found + (program.finish(data[whole:]) if data[whole:] else [])


_running = weakref.WeakSet()


def _close_in_child():
    """A fork keeps no hold on a program, so that the program ends with its harness."""
    for one in list(_running):
        one.let_go()


os.register_at_fork(after_in_child=_close_in_child)


class Running:
    """The program, started and kept. It ends when its standard input closes, thus with its harness too.

    With `strict` an answer that no record of its kind can have is an error; explain tells such answers instead.
    """

    BATCH = 1000  # records written before their answers are read: fewer bytes than a pipe holds

    def __init__(self, start=None, patience=60, strict=True):
        self.process = launch(start, stdin=subprocess.PIPE, stdout=subprocess.PIPE)
        self.patience, self.strict, self.asked, self.came, self.between = patience, strict, 0, b'', True
        self.tally, self.trouble = None, None  # who is told each answer; the record and the words of the first error
        self.ready = select.poll()
        self.ready.register(self.process.stdout, select.POLLIN)
        _running.add(self)

    def ask(self, data):
        """The answers to some whole records, in their order."""
        if self.process.stdin.closed:
            raise Ended('the program has ended: its input was closed')
        if not self.between:
            raise Ended('an earlier call has failed or was cut short, so answers would be taken for others')
        found, self.between = [], False
        try:
            self._nothing_came()
            for at in range(0, len(data), SIZE * self.BATCH):
                found += self._batch(data[at:at + SIZE * self.BATCH])
        except Ended as error:
            self.trouble = self.trouble or (self.asked + 1, str(error))
            raise
        self.between = True
        return found

    def finish(self, piece=b''):
        """Sends a last piece, of any length, closes the input and gives the answers that still came."""
        self.between = False
        self._nothing_came()
        self._write(piece)
        self.process.stdin.close()
        found = [self._answer(piece[at:at + SIZE]) for at in range(0, len(piece), SIZE)]
        self.between = True
        if self.tally:
            self.tally(piece, found)
        self.close()
        return found

    def _batch(self, batch):
        self._write(batch)
        pieces = (batch[at:at + SIZE] for at in range(0, len(batch), SIZE))
        found = [self._answer(piece if len(piece) == SIZE else None) for piece in pieces]
        if self.tally:
            self.tally(batch, found)
        return found

    def _write(self, batch):
        try:
            while batch:
                batch = batch[self.process.stdin.write(batch):]
        except (OSError, ValueError):
            raise Ended(f'the program has ended{self._status()}') from None

    def _nothing_came(self):
        """No answer may be there before its record is."""
        if not self.came and self.ready.poll(0):
            self.came = os.read(self.process.stdout.fileno(), 65536)
            if not self.came:
                raise Ended(f'the program has ended{self._status()}')
        if self.came:
            line = self.came.split(b'\n', 1)[0].decode('ascii', 'replace')
            raise Ended(f'the program printed {line[:40]!r} before it was given record {self.asked + 1}')

    def _answer(self, piece=None):
        """The next answer; `piece` is its record, if it shall be held to that."""
        latest = time.monotonic() + self.patience
        while b'\n' not in self.came:
            left = latest - time.monotonic()
            if left <= 0 or not self.ready.poll(1000 * left):
                raise Ended(f'the program gave no answer to record {self.asked + 1} in {self.patience} s')
            more = os.read(self.process.stdout.fileno(), 65536)
            if not more:
                raise Ended(f'the program ended before its answer to record {self.asked + 1}{self._status()}')
            self.came += more
        line, self.came = self.came.split(b'\n', 1)
        try:
            answer = answer_of(line.decode('ascii', 'replace'))
        except ValueError as error:
            raise Ended(str(error)) from None
        self.asked += 1
        if answer.number != self.asked:
            raise Ended(f'the program answered record {answer.number} when record {self.asked} was due')
        wrong = impossible(piece, answer) if self.strict and piece is not None else ''
        if wrong:
            raise Ended(wrong)
        return answer

    def _status(self):
        try:
            return f', status {self.process.wait(1)}'
        except subprocess.TimeoutExpired:
            return ''

    def _close(self, pipe):
        try:
            pipe.close()
        except OSError:
            pass

    def let_go(self):
        """Closes this process's ends of the pipes and waits for nobody."""
        self._close(self.process.stdin)
        self._close(self.process.stdout)
        self.process.returncode = self.process.returncode or 0

    def close(self):
        """Ends the program: closes its input and, if that is not enough, kills it.

        An answer that nobody asked for, or a bad end, is an error, if no error came before.
        """
        self._close(self.process.stdin)
        more = self._rest() if self.between else b''
        self._close(self.process.stdout)
        try:
            status = self.process.wait(5)
        except subprocess.TimeoutExpired:
            self.process.kill()
            status = self.process.wait()
        _running.discard(self)
        fine, self.between = not self.between or not (more or status), False
        if not fine:
            told = more.split(b'\n', 1)[0].decode('ascii', 'replace')[:40]
            words = f'the program printed {told!r} after its last answer' if more else f'the program ended with status {status}'
            self.trouble = (self.asked, words)
            raise Ended(words)

    def _rest(self):
        """What the program prints before it ends, or until there is something."""
        try:
            while not self.came and self.ready.poll(5000):
                self.came = os.read(self.process.stdout.fileno(), 65536)
                if not self.came:
                    break
        except (OSError, ValueError):
            pass
        return self.came

    def __enter__(self):
        return self

    def __exit__(self, kind, *_):
        self.between = self.between and kind is None
        self.close()


# ---- what a test says beforehand


class Unmet(AssertionError):
    """A refusal that was not declared, a declared one that did not come, or an expectation that failed."""


class Fault(NamedTuple):
    """What keeps an attempt from being green: the record that it came with, and why."""
    record: int
    words: str

    def __str__(self):
        return f'record {self.record}: {self.words}'


class Judge:
    """Holds answers to what a test said of them beforehand. A fault stays, whatever the test does about it afterwards.

    A refusal is a fault unless it was declared: all of them by `allowed`, or those of some numbers by `declare`.
    """

    MOST = 100  # faults that are kept

    def __init__(self, allowed=False):
        self.allowed, self.declared, self.came = allowed, None, False
        self.expected, self.faults = 0, []

    def take(self, answers):
        """Answers, in their order."""
        for answer in answers:
            if answer.word == 'ref':
                self._refused(answer)

    def _refused(self, answer):
        if self.declared is None:
            if not self.allowed:
                self.fault(answer.number, f'refused {answer.value}, which was not declared')
        elif self.declared and answer.value not in self.declared:
            self.fault(answer.number, f'refused {answer.value}, and {_numbers(self.declared)} was declared')
        else:
            self.came = True

    def declare(self, numbers=()):
        """A refusal with one of these numbers is due, with any number where there is none. Ends what was declared before."""
        self.declared, self.came = tuple(numbers), False

    def withdraw(self, record):
        """Ends what was declared; one that did not come by this record is a fault. Gives that fault, or None."""
        due, came, self.declared, self.came = self.declared, self.came, None, False
        return None if due is None or came else self.fault(record, f'no refusal came, and {_numbers(due)} was declared')

    def hold(self, record, found, due, what=''):
        """Whether something found is what was expected of it; if not, it is a fault."""
        self.expected += 1
        met = found == due
        if not met:
            self.fault(record, f'{what + ": " if what else ""}expected {due}, came {found}')
        return met

    def fault(self, record, words):
        fault = Fault(record, words)
        if len(self.faults) < self.MOST:
            self.faults.append(fault)
        return fault


def _numbers(declared):
    return f'refusal {" or ".join(map(str, declared))}' if declared else 'a refusal'


# ---- the chip


class Status(NamedTuple):
    """What a C read gave."""
    interrupt: bool
    interface_error: bool


class Chip:
    """One chip pair at power-up, its counters and addresses 0 or those of `start` (a path, or the bytes of a start file).

    `short_limit` is the short event limit, 75 to 81. Without it the limit is the start file's, or 78 where that names none. A
    limit outside is refused with 13, and no chip is started; beside a start file that names another it is a ValueError.

    With `log`, the connection is an attempt of the test `name` in that file (roverivet_log.py). It is green if a
    with block in the test ends without an exception, or if the harness calls `passed` before it closes the chip.
    """

    def __init__(self, start=None, patience=60, log=None, name=None, short_limit=None):
        self.attempt, self.claim, self.selected = None, None, (0, 0)
        start = start_given(start, short_limit)
        self.program = Running(start, patience)
        if log is not None:
            self._begin(log, name, start)

    def _begin(self, log, name, start):
        import roverivet_log
        try:
            self.attempt = roverivet_log.begun(log, name, start)
        except BaseException:
            self.program.close()
            raise
        self.program.tally = self.attempt.take

    def passed(self):
        """The harness says that the test passed."""
        self.claim = self.claim or ('green', '')

    def failed(self, reason=''):
        """The harness says that the test failed, whatever it says afterwards."""
        self.claim = ('red', str(reason))

    # records

    def send(self, piece):
        """One piece of bytes as it is. Gives its Answer, or raises Refused."""
        if len(piece) != SIZE:
            raise ValueError(f'a record has {SIZE} bytes, not {len(piece)}: the records after it would be cut elsewhere')
        answer = self.program.ask(piece)[0]
        if answer.word == 'ref':
            due = refusal(piece, self.selected) or (0, '')
            reason = due[1] if due[0] == answer.value else REFUSALS.get(answer.value, 'a number that document 01 has not')
            raise Refused(answer.value, reason)
        return answer

    def burst(self, ports, d, n=0, k=0, c=0, x=0, sa=bytes(6), fcs_bad=False, rate_error=False,
              collision_signal=False, loopback_missing=False, sqe_test=False):
        """Activity from idle to idle. Gives the Answer: its word, its output mask, its `outputs` by name."""
        given = (fcs_bad, rate_error, collision_signal, loopback_missing, sqe_test)
        flags = sum(1 << bit for bit, flag in enumerate(given) if flag)
        return self.send(Record(BURST, flags, mask_of(ports), d, n, k, c=c, x=x, sa=address_of(sa)).pack())

    def pulse(self, ports):
        self.send(Record(PULSE, mask=mask_of(ports)).pack())

    def tick(self, times=1):
        """`times` milliseconds."""
        for answer in self.program.ask(Record(TICK).pack() * times):
            if answer.word != 'ok':
                raise Ended(f'a tick was answered {answer.word}')

    def c_write(self, byte):
        self.send(Record(C_WRITE, byte=byte).pack())
        bank, place = self.selected
        self.selected = (bank, byte & 31) if byte >> 5 else (byte & 31, place)

    def d_write(self, byte):
        self.send(Record(D_WRITE, byte=byte).pack())

    def c_read(self):
        value = self.send(Record(C_READ).pack()).value
        return Status(bool(value & 0x80), bool(value & 0x40))

    def d_read(self):
        return self.send(Record(D_READ).pack()).value

    def reset(self):
        self.send(Record(RESET).pack())
        self.selected = (0, 0)

    # what firmware makes of them

    def select(self, bank, place):
        """P and R: two C writes, which also restart the byte sequence."""
        if not (0 <= bank < 32 and 0 <= place < 32):
            raise ValueError(f'P {bank} R {place}: both are 0 to 31')
        self.c_write(bank)
        self.c_write(0xE0 | place)

    def read(self, bank, place):
        """A whole register, from its first byte, as bytes."""
        self.select(bank, place)
        return bytes(self.d_read() for _ in range(REGISTERS.get((bank, place), UNLISTED).size))

    def write(self, bank, place, data):
        self.select(bank, place)
        for byte in data:
            self.d_write(byte)

    def set(self, byte):
        """A Set command, through S."""
        self.write(*S, [byte])

    def get(self, byte):
        """A Get command, through G, and the byte that it gives."""
        self.write(*G, [byte])
        return self.d_read()

    def read_counter(self, port, attribute):
        return int.from_bytes(self.read(_bank(port), _place(ATTRIBUTES, attribute)), 'little')

    def attribute(self, name):
        """One attribute of all nine ports, {port: value}. Like `read` it leaves P and R at the last register that it read."""
        return {port: self.read_counter(port, name) for port in PORTS}

    def transmit_collisions(self):
        return int.from_bytes(self.read(0, 12), 'little')

    def total_octets(self):
        return int.from_bytes(self.read(0, 13), 'little')

    def read_address(self, port):
        return self.read(_bank(port), ADDRESS)

    def write_address(self, port, address):
        self.write(_bank(port), ADDRESS, address_of(address))

    def enable_interrupts(self, enables):
        """{change: byte}: `enables` maps R 0-4, 6, 7 or their names in CHANGES to the bits to enable."""
        for change, byte in enables.items():
            self.write(2, _change(change), [byte])

    def changes(self):
        """Reads, and thereby clears, all change bits. Gives {name of the change: its ports}."""
        found = {}
        for place, name in CHANGES.items():
            byte = self.read(1, place)[0]
            ports = ports_of(byte) if place in TP_CHANGES else ('AUI',) if byte else ()
            if ports:
                found[name] = ports
        return found

    def partitioned(self):
        """The ports that are partitioned, by the Gets that clear nothing."""
        connected = self.get(0x80) | (self.get(0x89) >> 7) << 8
        return ports_of(~connected & 0x1FF)

    def link_passing(self):
        """The TP ports whose link passes."""
        return ports_of(self.get(0xD0))

    def close(self):
        self._close(sys.exc_info()[1], False)

    def __enter__(self):
        return self

    def __exit__(self, kind, error, _):
        self._close(error, True)

    def _close(self, error, within):
        try:
            self.program.__exit__(type(error) if error is not None else None)
        finally:
            if self.attempt:
                import roverivet_log
                roverivet_log.ended(self.attempt, self.program, self.claim, error, within)


# ---- true totals


class DoesNotFit(OverflowError):
    """The sum of differences reaches 2^64."""


class Total:
    """The true total of one counter from many polls: the sum of differences, each reading minus the one before it modulo 2^32.

        octets = roverivet.Total(chip, 'TP0', 'Readable Octets')    # or (chip, 'Total Octets'), (chip, 'Transmit Collisions')
        octets.poll()                                               # reads the counter's register, gives the total
        frames = roverivet.Total()
        frames.add(4294967295)                                      # takes a reading made elsewhere, gives the total

    `total` is the number of credits from the first reading of a chain to its last, if two things hold:

    - Fewer than 2^32 credits fell between two readings in a row. Of an octet counter octets are counted, and not the frames
      that brought them. No reading can show that there were more: docs/REFERENCE.md says how often to poll.
    - The sum is below 2^64. Where it is not, `add`, `poll` and `total` raise DoesNotFit until another chain begins.

    Resets do not matter, since counters survive them. With a power-up another chain begins: call `power_up`, or poll another
    chip, since that one was powered up by itself. The total is then 0 again. `chains` keeps the totals of the chains before,
    None for one that did not fit, and `notes` what was said of each new chain, on standard error too.
    """

    def __init__(self, chip=None, *counter):
        if chip is not None and not counter:
            raise ValueError(f'expected a counter to poll: {COUNTER}')
        self.chip, self.register = chip, _counter(counter) if counter else None
        self.name = REGISTERS[self.register].name if counter else 'a counter'
        self.chains, self.notes, self.readings = [], [], 0
        self._begin()

    def _begin(self):
        self.last, self.fits, self._total = None, True, 0

    @property
    def total(self):
        if not self.fits:
            raise DoesNotFit(f'{self.name}: the sum reaches 2^64 and does not fit in 64 bits')
        return self._total

    def add(self, reading):
        """One more reading of this chain."""
        where = f'reading {self.readings + 1} of {self.name}'
        if isinstance(reading, bool) or not isinstance(reading, int):
            raise TypeError(f'{where}: expected a whole number, found {reading!r:.40}')
        if not 0 <= reading < 1 << 32:
            found = reading if reading.bit_length() < 99 else 'a longer number'
            raise ValueError(f'{where}: expected 0 to 4294967295, found {found}')
        sum_now = self.total + (0 if self.last is None else (reading - self.last) % (1 << 32))
        self.fits, self._total, self.last, self.readings = not sum_now >> 64, sum_now, reading, self.readings + 1
        return self.total

    def poll(self, chip=None):
        """Reads the counter and adds the reading. With a chip other than the last one another chain begins."""
        chip = self.chip if chip is None else chip
        if chip is None or self.register is None:
            raise ValueError(f'{self.name}: expected a chip and a counter to poll, as Total(chip, "TP0", "Runts")')
        reading = int.from_bytes(chip.read(*self.register), 'little')
        if chip is not self.chip:
            self.power_up(chip)
        return self.add(reading)

    def power_up(self, chip=None):
        """Another chain begins with the next reading, of this chip if one is named. Gives the words that are said of it."""
        note = ''
        if self.last is not None:
            so_far = f'the total so far, {self._total},' if self.fits else 'the total so far, which did not fit,'
            note = f'{self.name}: a power-up: a new chain begins with the next reading; {so_far} belongs to the chain before'
            self.chains.append(self._total if self.fits else None)
            self.notes.append(note)
            print(f'roverivet: {note}', file=sys.stderr, flush=True)
        self.chip = self.chip if chip is None else chip
        self._begin()
        return note


COUNTER = "a port and an attribute, 'Transmit Collisions' or 'Total Octets'"


def _counter(words):
    """(P, R) of a counter by its names."""
    if len(words) == 2:
        return _bank(words[0]), _place(ATTRIBUTES, words[1])
    if len(words) != 1:
        raise ValueError(f'expected {COUNTER}, found {len(words)} names')
    return 0, 12 + _place([REGISTERS[0, place].name for place in (12, 13)], words[0])


def _place(names, name):
    for place, one in enumerate(names):
        if one.lower() == name.lower():
            return place
    raise ValueError(f'{name!r} is none of {", ".join(names)}')


def _bank(port):
    return BANKS[_place(PORTS, port)]


def _change(change):
    return change if isinstance(change, int) else list(CHANGES)[_place(CHANGES.values(), change)]
