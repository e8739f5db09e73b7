"""What each record of a trace did, as the program `tell` says it: one line for each record, and nothing else is asked.

A line is the one that `run` prints, and behind it 28 words of three hexadecimal digits, each with a space in front
(docs/REFERENCE.md, 'What tell prints'). `telling_of` reads a line, `watched` gives a Seen for each record of a trace, as
tools/watch.py does by reading registers: there the two are held against each other (tests/tell.py).

What no line tells is followed as in tools/watch.py: the byte place of a D access and the last Get (`Host`).
"""

import functools
import itertools
import queue
import re
import subprocess
import threading
from typing import NamedTuple

import roverivet
from roverivet import ATTRIBUTES, Answer, BURST, C_WRITE, CHANGES, D_READ, D_WRITE, FLAGS, PORTS, RESET, SIZE
from tools import build, watch
from tools.watch import Host, Seen, State

TELL = build.path_of('tell')
WORDS = 28
TAIL = 4 * WORDS
LINE = re.compile(rb'[a-z0-9 ]+?(?: [0-9a-f]{3}){28}\n')  # behind the number
BATCH = 1024  # records that are sent at a time
LOOPBACK, SQE = (1 << FLAGS.index(name) for name in ('loopback-missing', 'sqe-test'))
KEPT = 1 << 16  # readings of lines that are kept at most
UP = State(0x1FF, 0, 0x1FF)
_new = tuple.__new__  # the quickest way to a named tuple
_serials = itertools.count()


class Left(NamedTuple):
    """The words of a line: what the record left, and whose counters it moved."""
    enabled: int
    passing: int
    partitioned: int
    changes: dict       # {R of P 1: its bits}
    interrupt: bool
    interface_error: bool
    selected: tuple     # (P, R)
    moved: dict         # {port: [attribute whose counter moved, ...]}
    transmit_collisions: bool
    total_octets: bool


class Telling(NamedTuple):
    """One line: the answer, and what the record left."""
    answer: Answer
    left: Left


def left_of(tail):
    """The 28 words of a line."""
    words = _numbers(tail)
    if len(tail) != TAIL or len(words) != WORDS:
        raise ValueError(f'tell printed {tail!r} behind an answer')
    return Left(*words[:3], dict(zip(CHANGES, words[3:10])), bool(words[10] & 0x80), bool(words[10] & 0x40),
                (words[11], words[12]), moved_in(words[13:26]), bool(words[26]), bool(words[27]))


def moved_in(masks):
    """{port: [attribute whose counter moved, ...]} from the masks of the thirteen counters."""
    moved = {port: [name for name, mask in zip(ATTRIBUTES, masks) if mask >> place & 1] for place, port in enumerate(PORTS)}
    return {port: names for port, names in moved.items() if names}


def telling_of(line):
    """A line, as bytes without its newline."""
    return Telling(roverivet.answer_of(line[:-TAIL].decode('ascii')), left_of(line[-TAIL:]))


# ---- the program


def usable():
    """Whether `tell` is there and is the program that is asked for; it is proved and built if need be."""
    return build.usable('tell')


class Teller:
    """The program `tell`, started and kept. `take` gives it a record and tells what that did."""

    def __init__(self, start=None):
        words, file = roverivet._start_words(start)
        try:
            self.process = subprocess.Popen(roverivet.starting(TELL) + words, stdin=subprocess.PIPE, stdout=subprocess.PIPE, bufsize=1 << 16,
                                            pass_fds=[file.fileno()] if file else ())
        finally:
            if file:
                file.close()
        self.number, self.host, self.state, self.kept = 0, Host(), UP, {}

    def take(self, piece):
        self.send(piece)
        return next(self.seens([piece]))

    def send(self, data):
        try:
            self.process.stdin.write(data)
            self.process.stdin.flush()
            if len(data) % SIZE:
                self.process.stdin.close()
        except (OSError, ValueError):
            raise roverivet.Ended('the program tell has ended') from None

    def feed(self, batches):
        """Sends what comes from a queue until that is None; a program that has ended shows in its lines."""
        try:
            for batch in iter(batches.get, None):
                self.send(b''.join(batch))
            self.process.stdin.close()
        except (roverivet.Ended, OSError):
            pass

    def seens(self, pieces):
        """The next lines, as what happened to the records that they are for."""
        readline, host, kept, read = self.process.stdout.readline, self.host, self.kept, self._read
        for piece in pieces:
            line, before, selected = readline(), self.state, host.selected
            count = self.number = self.number + 1
            number, _, rest = line.partition(b' ')
            found = kept.get((piece, rest, before, selected))
            if found is None:
                found = read(piece, line, before, selected)
            serial, said, steps, self.state, chosen, more = found
            place = host.take(piece[0], piece[13]) if steps else 0
            if host.selected != chosen or number != b'%d' % count:
                raise roverivet.Ended(f'record {count}: tell printed {line!r}, and P {host.selected[0]} R {host.selected[1]} is selected')
            got = host.got
            yield _new(Seen, (count, piece, _new(Answer, (count, *said)), selected, place, got, before, *more, (serial, place, got)))

    def _read(self, piece, line, before, selected):
        """What is the same each time that this record gets this line at this selection; the last ones are kept."""
        rest = line.partition(b' ')[2]
        try:
            if not LINE.fullmatch(rest):
                raise ValueError
            word, value = _said(rest[:-TAIL - 1])
        except ValueError:
            raise roverivet.Ended(f'record {self.number}: tell printed {line!r}') from None
        kind = piece[0] if len(piece) == SIZE and word != 'ref' else 0
        after, (moved, addresses, transmit) = _state(rest[-113:-101]), _moved(rest[-61:-1])
        changed = _changed(kind, piece[1] if kind == BURST else 0, value, before, after, addresses)
        if len(self.kept) == KEPT:
            self.kept.clear()
        found = self.kept[piece, rest, before, selected] = (
            next(_serials), (word, value), kind in (C_WRITE, D_WRITE, D_READ, RESET), after, _selected(rest[-69:-61]),
            (after, changed, moved, transmit))
        return found

    def close(self):
        for pipe in (self.process.stdin, self.process.stdout):
            try:
                pipe.close()
            except OSError:
                pass
        self.process.wait()

    def __enter__(self):
        return self

    def __exit__(self, *_):
        self.close()


def _changed(kind, flags, outputs, before, after, addresses):
    """The change bits that a record set: those of the states that changed, and of a burst's flags."""
    if kind == RESET or (before is after and not flags and not addresses):
        return {}
    cut, link = before.connected ^ after.connected, before.passing ^ after.passing
    bits = (cut & 0xFF, cut >> 8 << 7, link, 0x80 * bool(flags & LOOPBACK and outputs >> 8), 0x80 * bool(flags & SQE),
            addresses & 0xFF, addresses >> 8 << 7)
    return {register: byte for register, byte in zip(CHANGES, bits) if byte}


# ---- parts of a line, which are mostly those of lines before


@functools.lru_cache(4096)
def _said(said):
    return roverivet.answer_of('1 ' + said.decode('ascii'))[1:]


@functools.lru_cache(4096)
def _state(masks):
    enabled, passing, partitioned = _numbers(masks)
    return State(0x1FF & ~partitioned, passing, enabled)


@functools.lru_cache(4096)
def _selected(words):
    return tuple(_numbers(words))


@functools.lru_cache(4096)
def _moved(words):
    """The counters that moved but for Readable Octets, the ports whose address changed, whether Transmit Collisions moved."""
    *masks, transmit, _ = _numbers(words)
    moved = {port: [name for name in names if name != 'Readable Octets'] for port, names in moved_in(masks).items()}
    return moved, masks[12], bool(transmit)


def _numbers(words):
    return [int(word, 16) for word in words.split()]


def chip(start=None):
    """Something to give one record after the other: `tell`, or two copies of the program that is asked for."""
    return Teller(start) if usable() else watch.Watch(start)


def watched(pieces, start=None):
    """Seen for each piece of a trace: by `tell`, or by reading registers where another program is named."""
    if not usable():
        yield from watch.watched(pieces, start)
        return
    with Teller(start) as teller:
        sent = queue.SimpleQueue()
        threading.Thread(target=teller.feed, args=(sent,), daemon=True).start()
        waiting = []
        for batch in _batches(pieces):
            sent.put(batch)
            yield from teller.seens(waiting)
            waiting = batch
        sent.put(None)
        yield from teller.seens(waiting)


def _batches(pieces):
    some = iter(pieces)
    while batch := list(itertools.islice(some, BATCH)):
        yield batch
