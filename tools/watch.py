"""What each record of a trace did, by the program's own answers.

Two copies of the program run side by side. The first gets the trace as it is; its answers are the run's.
The second gets the same records, and after each of them questions: the Gets that clear nothing (80, 89,
D0), all change registers, and after a burst the low bytes of the active ports' counters. Then P and R are
put back, and an address that was half written is written that far again. None of this touches a port or an
attribute, so the second copy tells what the first one holds inside; a differing answer raises Disturbed.

Two things are followed here and not asked, because no register tells them: the selection (P, R, the byte
place and the last Get, `Host`) and which ports are enabled (`State.enabled`, from accepted commands and resets).
"""

import functools
from typing import NamedTuple

import roverivet
from roverivet import (ADDRESS, ATTRIBUTES, BANKS, BURST, C_READ, C_WRITE, CHANGES, COLLISION_SIGNAL, D_READ,
                       D_WRITE, PORTS, REGISTERS, RESET, Record, Running, SIZE, UNLISTED)

COUNTED = [place for place, name in enumerate(ATTRIBUTES) if name != 'Readable Octets']  # each moves by 0 or 1
GETS = (0x80, 0x89, 0xD0)


class Disturbed(roverivet.Ended):
    """The copy that was asked questions answered the trace otherwise than the copy that was not."""


class State(NamedTuple):
    """Masks of the ports that are connected, that pass the link test (TP) and that are enabled."""
    connected: int
    passing: int
    enabled: int


class Seen(NamedTuple):
    """One record: its answer, the register it met, the states around it, and what it set and credited."""
    number: int
    piece: bytes
    answer: roverivet.Answer
    selected: tuple
    place: int          # which byte of its register a D access met, from 1; else 0
    got: int            # the Get whose answer G holds, or None
    before: State
    after: State
    changed: dict       # {R of P 1: the bits that this record set}
    credits: dict       # {port: [attribute that it raised, ...]}
    transmit_collision: bool
    key: object = None  # where it is not None: two with the same key differ in their numbers alone

    @property
    def record(self):
        return _unpacked(self.piece) if len(self.piece) == SIZE else None


_unpacked = functools.lru_cache(4096)(Record.unpack)


class Host:
    """P, R, the byte place and the Get that G holds the answer of, followed from the accepted records."""

    def __init__(self):
        self.reset()

    def reset(self):
        self.selected, self.place, self.direction, self.written, self.got = (0, 0), 0, None, [], None

    def take(self, kind, byte):
        """One accepted record. Gives the byte of its register that a D access met, from 1, else 0."""
        if kind == C_WRITE:
            bank, register = self.selected
            self.selected = (bank, byte & 31) if byte >> 5 else (byte & 31, register)
            self.place, self.written = 0, []
        elif kind == RESET:
            self.reset()
        elif kind in (D_READ, D_WRITE):
            return self._access(kind, byte)
        return 0

    def _access(self, kind, byte):
        if self.direction != kind:
            self.place, self.written = 0, []
        met = self.place + 1
        self.direction, self.place = kind, met % REGISTERS.get(self.selected, UNLISTED).size
        if kind == D_WRITE and self.selected[1] == ADDRESS and self.selected[0] in BANKS:
            self.written = (self.written + [byte])[:self.place]
        if kind == D_WRITE and self.selected in (roverivet.S, roverivet.G) and byte >> 7:
            self.got = byte
        return met

    def again(self):
        """The records that bring the chip back to this selection, a half-written address included."""
        bank, register = self.selected
        return [write(C_WRITE, bank), write(C_WRITE, 0xE0 | register)] + [write(D_WRITE, b) for b in self.written]


def write(kind, byte):
    return Record(kind, byte=byte).pack()


def select(bank, register):
    return [write(C_WRITE, bank), write(C_WRITE, 0xE0 | register)]


READ = Record(D_READ).pack()


class Watch:
    """The two copies. `take` gives each record to both and tells what it did."""

    def __init__(self, start=None):
        self.run, self.asked = Running(start, strict=False), Running(start, strict=False)
        self.host, self.number = Host(), 0
        self.low = {}
        self.enabled = 0x1FF
        told = self._ask(b'', range(len(PORTS)))
        self.state = told[0]

    def take(self, piece):
        self.number += 1
        if len(piece) != SIZE:
            answer, other = self.run.finish(piece)[0], self.asked.finish(piece)[0]
            self._agree(piece, answer, other)
            return Seen(self.number, piece, answer, self.host.selected, 0, None, self.state, self.state, {}, {}, False)
        answer, selected, place = self.run.ask(piece)[0], self.host.selected, 0
        record = Record.unpack(piece)
        if answer.word != 'ref':
            place = self.host.take(record.kind, record.byte)
            self._follow_enabled(record, selected)
        active = record.mask | (0x100 if record.flags & COLLISION_SIGNAL else 0) if record.kind == BURST else 0
        before = self.state
        told = self._ask(piece, [port for port in range(len(PORTS)) if active >> port & 1], answer, selected, place)
        self.state = told[0]
        return Seen(self.number, piece, answer, selected, place, self.host.got, before, *told)

    def __enter__(self):
        return self

    def __exit__(self, *what):
        try:
            self.run.__exit__(*what)
        finally:
            self.asked.__exit__(*what)

    # the questions

    def _ask(self, piece, ports, *due):
        """Gives the second copy a record and the questions about it: (State, changed, credits, transmit)."""
        questions, reads = [piece] if piece else [], []

        def read(name, records):
            questions.extend(records + [READ])
            reads.append((name, len(questions) - 1))

        for command in GETS:
            read(command, select(*roverivet.G) + [write(D_WRITE, command)])
        for register in CHANGES:
            read(('change', register), select(1, register))
        for port in ports:
            for register in COUNTED:
                read((port, register), select(BANKS[port], register))
        read('transmit', select(0, 12))
        answers = self.asked.ask(b''.join(questions + self.host.again()))
        if piece:
            self._agree(piece, due[0], answers[0], *due[1:])
        values = {name: answers[at].value for name, at in reads}
        return self._state(values), {r: values['change', r] for r in CHANGES if values['change', r]}, \
            *self._raised(values, ports)

    def _state(self, values):
        return State(values[0x80] | values[0x89] >> 7 << 8, values[0xD0], self.enabled)

    def _raised(self, values, ports):
        """The counters whose low byte moved, by port, and whether Transmit Collisions did."""
        raised = {}
        for port in ports:
            for register in COUNTED:
                if self.low.get((port, register), values[port, register]) != values[port, register]:
                    raised.setdefault(PORTS[port], []).append(ATTRIBUTES[register])
                self.low[port, register] = values[port, register]
        transmit = self.low.get('transmit', values['transmit']) != values['transmit']
        self.low['transmit'] = values['transmit']
        return raised, transmit

    def _follow_enabled(self, record, selected):
        if record.kind == RESET:
            self.enabled = 0x1FF
        elif record.kind == D_WRITE and selected in (roverivet.S, roverivet.G) and record.byte >> 4 in (2, 3):
            port = 1 << (8 if record.byte & 15 == 15 else record.byte & 7)
            self.enabled = self.enabled | port if record.byte >> 4 == 3 else self.enabled & ~port

    def _agree(self, piece, answer, other, selected=(0, 0), place=0):
        """Both copies must answer alike, but for what the questions themselves move: P 1, G, a copy in use."""
        mine, its = (answer.word, answer.value), (other.word, other.value)
        if answer.word == 'val' and piece[0] == C_READ:
            mine, its = (mine[0], mine[1] & 0x40), (its[0], its[1] & 0x40)
        elif answer.word == 'val' and (selected[0] == 1 or selected == roverivet.G or place > 1):
            mine, its = mine[0], its[0]
        if mine != its:
            raise Disturbed(f'record {self.number}: the run answered {answer.word} {answer.value:x}, and a second '
                            f'run with reads between the records {other.word} {other.value:x}')


def watched(pieces, start=None):
    """Seen for each piece of a trace."""
    with Watch(start) as watch:
        for piece in pieces:
            yield watch.take(piece)
