#!/usr/bin/env python3
"""Traces from a seed: random, heavy on boundaries, and stateful enough to reach what lies deep.

    generate.py SEED SIZE [--start FILE] > TRACE      about SIZE records; FILE gets the seed's start file
    generate.py --sheet NAME > TRACE                  a fixed sweep: registers, commands, kinds, damage, refusals, limits

A trace is a list of scenes: links come up, ports collide 31 or 32 times, a register is read while bursts fall
between its bytes, and so on. The maker keeps a rough idea of the chip's state, only to choose scenes that bite;
what the right answers are it does not know. Every third seed has a short event limit of its own, all seven in turn,
and its bursts lie at that limit.
"""

import argparse
import random
import struct
import sys

import record as rec
from record import AUI

ALL = 0x1FF
BANKS = [*range(16, 24), 31]
CHANGES = [0, 1, 2, 3, 4, 6, 7]
SETS = [0x1F, 0x10, 0x2F, 0x3F] + [high | port for high in (0x20, 0x30, 0x40, 0x50) for port in range(8)]
GETS = [0x8F, 0x8B, 0x8D, 0x89, 0x80, 0xA0, 0xD0, 0xF0, 0xFF]
LISTED = SETS + GETS
UNLISTED = [byte for byte in range(256) if byte not in LISTED]

D_EDGES = [1, 8, 77, 78, 79, 511, 512, 513, 551, 552, 553, 1000, 13000, 65535, 65536, 65537, 999999, 1000000]
N_EDGES = [0, 9, 62, 63, 64, 65, 1517, 1518, 1519, 1520]
C_EDGES = [0, 1, 100, 511, 512, 513, 514]
X_SHORT = [0, 1, 300, 1000, 1023, 1024]
COUNTER_EDGES = [0, 1, 0xFF, 0xFFFF, 0xFFFFFF, 0xFFFFFFFF, 0xFFFFFFFE, 0xFFFFFF00, 0xFFFFFA12, 0x7FFFFFFF]

LIMITS = range(75, 82)  # short event limits
USUAL = 78
REFUSED = [0, 1, 74, 82, 255, 256 + 75, 256 + 78, 256 + 81, 65536 + 78, 2**24 + 78, 2**31 + 78, 2**32 - 178, 2**32 - 1]  # numbers that are none


def limit_of(seed):
    """The short event limit that the seed's start file names, or None."""
    return LIMITS[seed // 3 % len(LIMITS)] if seed % 3 == 2 else None


def limited(content, limit, last=0):
    """A start file of 535 bytes: these 530, or zeros, with a limit; `last` is the byte behind it."""
    return (content or bytes(530)) + struct.pack('<IB', limit, last)


def start(seed):
    """The seed's start file (530 bytes, or 535 with a limit), or None where the counters begin at zero."""
    if seed % 3 == 0:
        return None
    chooser = random.Random(f'start {seed}')

    def counter():
        return chooser.choice(COUNTER_EDGES) if chooser.random() < 0.7 else chooser.getrandbits(32)

    parts = []
    for _ in range(9):
        parts.append(struct.pack('<13I', *(counter() for _ in range(13))))
        parts.append(chooser.randbytes(6) if chooser.random() < 0.7 else bytes(6))
    parts.append(struct.pack('<2I', counter(), counter()))
    content, limit = b''.join(parts), limit_of(seed)
    return content if limit is None else limited(content, limit)


class Maker:
    def __init__(self, seed):
        self.seed = seed
        self.limit = limit_of(seed) or USUAL
        self.random = random.Random(seed)
        self.records = []
        self.at_power_up()
        self.last = [rec.NOBODY] * 9

    # ---- a rough idea of the state

    def at_power_up(self):
        self.enabled = ALL
        self.passing = 0
        self.tested = 0xFF
        self.partitioned = 0
        self.alternate = 0
        self.p = self.r = 0

    def sendable(self):
        return self.enabled & (self.passing | AUI)

    def listened(self):
        return self.sendable() & ~self.partitioned

    # ---- choices

    def chance(self, part):
        return self.random.random() < part

    def below(self, limit):
        return int(self.random.random() * limit)

    def pick(self, choices):
        return choices[int(self.random.random() * len(choices))]

    def port_of(self, mask):
        """One port of a mask, as a bit; a random one where the mask is empty."""
        bits = [1 << place for place in range(9) if mask >> place & 1]
        return self.pick(bits) if bits else 1 << self.below(9)

    def some_of(self, mask, least):
        """At least so many ports of a mask, if it has them."""
        bits = [1 << place for place in range(9) if mask >> place & 1]
        self.random.shuffle(bits)
        many = len(bits) if self.chance(0.15) else least if self.chance(0.6) else self.random.randint(least, max(least, len(bits)))
        return sum(bits[:many])

    def source(self, port):
        """An address for a port: the same again, one that differs in a single byte, or any."""
        old = self.last[port]
        what = self.random.random()
        if what < 0.35:
            return old
        if what < 0.7:
            at = self.below(6)
            new = bytearray(old)
            new[at] ^= 1 << self.below(8)
            self.last[port] = bytes(new)
        else:
            self.last[port] = self.random.randbytes(6)
        return self.last[port]

    # ---- single records

    def add(self, record):
        self.records.append(record)

    def burst(self, mask, d=None, n=None, k=None, c=None, x=None, flags=0, source=None):
        """A burst within range; what isn't given is chosen, mostly at an edge."""
        if d is None:
            d = self.edge_of_d() if self.chance(0.5) else 1 + self.below(self.pick([100, 2000, 14000, 70000]))
        if k is None:
            k = 0 if self.chance(0.6) else self.below(8)
        k = min(k, d)
        if n is None:
            n = self.pick(N_EDGES) if self.chance(0.7) else d // 8
        n = min(n, (d - k) // 8)
        if c is None:
            c = 0 if self.chance(0.5) else self.pick(C_EDGES)
        if x is None:
            x = 0 if self.chance(0.5) else self.pick(X_SHORT) if self.chance(0.9) else d
        c = min(c, d)
        x = min(x, d - c)
        if source is None:
            source = self.source((mask & -mask).bit_length() - 1 if mask & ALL else 8)
        self.add(rec.burst(mask, d, n, k, c, x, flags, source))
        self.passing |= mask & 0xFF

    def edge_of_d(self):
        """A d of the list; those around the short event limit follow it."""
        d = self.pick(D_EDGES)
        return d + self.limit - USUAL if abs(d - USUAL) <= 1 else d

    def frame(self, port, n=None, flags=0):
        """A burst of one port whose d leaves room for every edge of n."""
        self.burst(port, d=self.pick([13000, 13000, 12160, 65536, 65537]), n=n, flags=flags)

    def flags(self, likely):
        flags = 0
        for bit in (rec.FCS_BAD, rec.RATE_ERROR, rec.AUI_COLLISION, rec.LOOPBACK_MISSING, rec.SQE_TEST):
            if self.chance(likely):
                flags |= bit
        return flags

    def any_burst(self):
        mask = self.port_of(self.sendable()) if self.chance(0.7) else self.random.getrandbits(9)
        flags = self.flags(0.2)
        if mask == 0:
            flags |= rec.AUI_COLLISION
        self.burst(mask, flags=flags)

    def ticks(self, many):
        self.records.extend([rec.TICK_RECORD] * many)
        if many >= 100:
            self.passing &= ~self.tested

    def pulse(self, mask):
        self.add(rec.PULSES[mask & 0xFF])

    # ---- the host

    def select(self, p, r):
        """C writes to a register; one that seems to stand is sometimes left out."""
        words = [(p, self.p), (0xE0 + r, 0xE0 + self.r)]
        if self.chance(0.3):
            words.reverse()
        for byte, standing in words:
            if byte != standing or self.chance(0.3):
                self.add(rec.C_WRITES[byte])
        self.p, self.r = p, r

    def write(self, p, r, byte):
        self.select(p, r)
        self.add(rec.D_WRITES[byte])

    def read(self, p, r, many=1):
        self.select(p, r)
        self.records.extend([rec.D_READ_RECORD] * many)

    def command(self, byte, wrong=0.1):
        through_get = (byte >= 0x80) != self.chance(wrong)
        self.write(0, 31 if through_get else 30, byte)
        port = 1 << (byte & 7)
        if byte in (0x2F, 0x3F):
            port = AUI
        high = byte >> 4
        if high == 2:
            self.enabled &= ~port
            self.partitioned &= ~port
        if high == 3 and not self.enabled & port:
            self.enabled |= port
            self.passing &= ~(port & self.tested)
        if high == 4:
            self.tested &= ~port
            self.passing |= port
        if high == 5:
            self.tested |= port
        if byte == 0x1F:
            self.alternate |= AUI
        if byte == 0x10:
            self.alternate |= 0xFF

    def get(self, byte):
        """A Get and the reading of its answer."""
        self.command(byte, wrong=0.05)
        self.read(0, 31)

    def look(self):
        """Partition and link of all ports, as the Gets and the change bits have them."""
        for byte in self.random.sample([0x80, 0x89, 0xD0], 3):
            self.get(byte)
        if self.chance(0.5):
            self.add(rec.C_READ_RECORD)
            for r in self.random.sample(CHANGES, 3):
                self.read(1, r)

    def counter(self, bank, r):
        self.read(bank, r, 4)

    def between(self):
        """Something that must not disturb a byte sequence."""
        what = self.below(8)
        if what == 0:
            self.any_burst()
        elif what == 1:
            bank = self.p
            port = 8 if bank == 31 else bank & 7
            self.burst(1 << port, d=13000, n=self.pick([64, 1518]), k=0, x=0, flags=0)
        elif what == 2:
            self.pulse(self.below(256))
        elif what == 3:
            self.ticks(1)
        elif what == 4:
            self.add(rec.C_READ_RECORD)
        elif what == 5:
            self.add(rec.C_WRITES[0x20 + self.below(0xC0)])
        elif what == 6:
            self.refused()
        elif self.r != 14 and self.p in BANKS:
            self.add(rec.D_WRITES[self.below(256)])
        else:
            self.add(rec.burst(0, 100))

    # ---- scenes

    def links(self):
        mask = self.pick([0xFF, 0xFF, 0x0F, 1 << self.below(8), self.below(256)])
        way = self.below(4)
        if way == 0:
            for _ in range(4):
                self.pulse(mask)
            self.passing |= mask & self.tested
        elif way == 1:
            for turn in range(5):
                self.pulse(mask if turn == 3 else mask | self.below(256))
                if self.chance(0.5):
                    self.get(0xD0)
            self.passing |= mask
        elif way == 2:
            self.burst(mask or 1)
        else:
            self.command(0x40 | self.below(8))
        if self.chance(0.3):
            self.look()

    def frames(self):
        for _ in range(1 + self.below(6)):
            port = self.port_of(self.listened())
            if self.chance(0.6):
                self.frame(port, flags=self.pick([0, 0, 0, rec.FCS_BAD, rec.FCS_BAD, rec.RATE_ERROR, rec.SQE_TEST, rec.LOOPBACK_MISSING]))
            else:
                self.burst(port, flags=self.flags(0.15))
        if self.chance(0.3):
            self.counter(self.pick(BANKS), self.below(13))

    def edge(self):
        """One row of the boundary sheet, and the reading of the counters that it decides."""
        port = self.port_of(self.listened())
        other = self.port_of(self.listened() & ~port)
        row = self.below(9)
        if row == 0:
            self.burst(port, d=self.pick([self.limit - 1, self.limit]), n=9, k=0)
        elif row == 1:
            self.burst(port, d=13000, n=self.pick([63, 64, 1518, 1519]), flags=self.pick([0, 1]))
        elif row == 2:
            self.burst(port, d=13000, n=64, k=self.pick([0, 3, 7]), flags=self.pick([0, 1]))
        elif row == 3:
            self.burst(port | other, d=2000, c=self.pick([512, 513]), x=1)
        elif row == 4:
            self.burst(port | (other if self.chance(0.5) else 0), d=self.pick([65536, 65537]), x=0)
            self.get(0xF0)
        elif row == 5:
            if self.chance(0.3):
                self.long_collision()
                port = self.port_of(self.listened())
            self.burst(port | self.partitioned, d=self.pick([552, 553]), flags=rec.RATE_ERROR)
        elif row == 6:
            self.burst(port | other, d=4000, c=0, x=self.pick([1024, 1025]))
            self.look()
        elif row == 7:
            self.burst(AUI, d=self.pick([553, 2000]), c=self.pick([512, 513]), flags=rec.AUI_COLLISION | self.pick([0, rec.RATE_ERROR]))
            port = AUI
        else:
            self.burst(port, d=self.pick([512, 513, 1, 1000000]), k=self.pick([0, 1, 7]))
        bank = BANKS[(port & -port).bit_length() - 1]
        for r in self.random.sample(range(13), 3):
            self.counter(bank, r)

    def collide(self, mask, flags=0):
        self.burst(mask, d=self.pick([100, 600, 2000]), x=self.pick(X_SHORT), flags=flags)

    def event(self, mask):
        """What may or may not touch the counts, the idle time and the pulses of these ports."""
        port = self.port_of(mask)
        place = port.bit_length() - 1
        other = self.port_of(self.listened() & ~mask)
        d = self.pick([1, 100, 512, 513, 2000])
        what = self.below(16)
        if what == 0:
            self.burst(other, d=d, flags=rec.RATE_ERROR)
        elif what == 1:
            self.burst(other, d=d, x=0)
        elif what == 2:
            self.burst(port, d=d, x=0)
        elif what == 3:
            self.burst(self.partitioned or ALL & ~self.sendable() or other, d=d, x=0)
        elif what == 4:
            self.ticks(self.pick([1, 100]))
            self.burst(self.pick([mask, mask & 0xFF]) or port, d=d, x=0)
        elif what == 5:
            self.ticks(100)
            self.burst(AUI | mask, d=d, x=0)
        elif what == 6:
            self.command(0x2F if port == AUI else 0x20 | place)
            self.command(0x3F if port == AUI else 0x30 | place)
            if self.chance(0.5):
                self.burst(port, d=d, x=0)
        elif what == 7:
            self.command(0x3F if port == AUI else self.pick([0x30, 0x50]) | place)
        elif what == 8 and port != AUI:
            self.command(0x40 | place)
            self.command(0x50 | place)
        elif what == 9:
            self.command(self.pick([0x40, 0x50, 0x30]) | self.below(8))
        elif what == 10:
            self.refused()
        elif what == 11:
            self.burst(self.pick([0, AUI]), d=d, flags=rec.AUI_COLLISION)
        elif what == 12:
            self.pulse(mask)
        elif what == 13:
            self.pulse(self.pick([0, self.below(256)]))
        elif what == 14 and self.chance(0.3):
            self.add(rec.RESET_RECORD)
            self.at_power_up()
        else:
            self.commands()

    def colliding(self):
        """Mask and flags of bursts that collide: AUI alone by its signal, or two ports and more."""
        if self.chance(0.25) and self.listened() & AUI:
            return self.pick([0, AUI]), rec.AUI_COLLISION
        if not self.listened() & (self.listened() - 1):
            self.burst(0xFF, d=100, x=0)
        return self.some_of(self.listened(), 2), 0

    def collisions(self):
        """31 collisions, 32 collisions; with an event after some of them, as if it had kept or cleared the count."""
        mask, flags = self.colliding()
        early = self.pick([0, 1, 5, 16, 30, 31])
        runs = [early] if early else []
        runs += [31 - early, 1]
        if early:
            runs += [early - 1, 1]
        for turn, run in enumerate(runs):
            for _ in range(run):
                self.collide(mask, flags)
            if early and turn == 0:
                self.event(mask or AUI)
            elif self.chance(0.8):
                self.look()
        self.partitioned |= (mask or AUI) & self.sendable()
        for bank in self.random.sample(BANKS, 2):
            self.counter(bank, 11)

    def fragments(self):
        """31 collisions with short clean bursts among them, often one of 512 or 513 at the end, and the collision that tells."""
        if self.chance(0.3):
            self.command(self.pick([0x10, 0x1F]))
        mask, flags = self.colliding()
        ports = mask or AUI

        def clean(d):
            """From one of the ports, or sent to all of them."""
            sender = self.port_of(ports) if self.chance(0.5) else self.port_of(self.listened() & ~ports)
            self.burst(sender, d=d, x=0)

        short = {self.below(31) for _ in range(self.pick([0, 1, 1, 4]))}
        for turn in range(31):
            self.collide(mask, flags)
            if turn in short:
                clean(self.pick([1, 77, 100, 511, 512]))
        last = self.pick([0, 512, 512, 513])
        if last:
            clean(last)
        for run in [1, 30, 1] if last > 512 else [1]:
            for _ in range(run):
                self.collide(mask, flags)
            self.look()
        self.partitioned |= ports & self.sendable()

    def long_collision(self):
        mask = self.some_of(self.listened(), 2)
        flags = 0
        if self.chance(0.3):
            mask, flags = self.pick([0, AUI]), rec.AUI_COLLISION
        self.burst(mask, d=5000, c=self.pick([0, 512, 513]), x=1024, flags=flags)
        if self.chance(0.6):
            self.look()
            self.burst(mask, d=5000, c=self.pick([0, 512, 513]), x=self.pick([1025, 1026, 4000]), flags=flags)
            self.partitioned |= (mask or AUI) & self.sendable()
        self.look()

    def reconnect(self):
        """Bursts to and from partitioned ports, at and around 512."""
        if self.chance(0.3):
            self.command(self.pick([0x10, 0x1F]))
        if not self.partitioned:
            self.long_collision()
        mask = self.port_of(self.partitioned) if self.chance(0.7) else self.partitioned
        heard = self.port_of(self.listened())
        for _ in range(1 + self.below(4)):
            way = self.below(6)
            d = self.pick([511, 512, 512, 513, 513, 600, 2000])
            flags = rec.RATE_ERROR if self.chance(0.1) else 0
            if way <= 1:
                self.burst(mask, d=d, x=0, flags=flags)
                if d > 512 and not self.alternate & mask:
                    self.partitioned &= ~mask
            elif way <= 3:
                self.burst(heard, d=d, x=0, flags=flags)
                if d > 512 and not flags:
                    self.partitioned = 0
            elif way == 4:
                self.burst(heard | mask, d=d, flags=flags)
            else:
                self.burst(self.pick([heard & ~AUI, 0]), d=d, flags=rec.AUI_COLLISION)
            self.look()

    def silence(self):
        """99 ticks, 100 ticks; with an event after some of them, as if it had kept or zeroed the idle time."""
        mask = self.pick([0xFF, 1 << self.below(8), self.below(256)])
        if self.chance(0.6):
            self.burst(mask or 1, x=0)
        early = self.pick([0, 0, 1, 50, 98, 99])
        self.ticks(early)
        if early:
            self.event(mask or 1)
        for run in (99 - early, 1, max(early - 1, 0), 1):
            self.ticks(run)
            if self.chance(0.8):
                self.look()
        self.passing &= ~self.tested

    def half_passed(self):
        """Fewer than four pulses in fail, an event, and pulses again, one by one."""
        mask = self.pick([0xFF, 1 << self.below(8), self.below(256) | 1])
        if self.chance(0.7):
            self.ticks(100)
        early = self.pick([1, 2, 3])
        for _ in range(early):
            self.pulse(mask)
        if self.chance(0.4):
            self.ticks(self.pick([1, 99, 100]))
        else:
            self.event(mask)
        for _ in range(4):
            self.pulse(mask)
            self.get(0xD0)
        self.passing |= mask

    def sequence(self):
        """A register of four or six bytes read, with other things between its bytes."""
        bank = self.pick(BANKS)
        p, r = self.pick([(bank, 14), (bank, 1), (bank, self.below(13)), (0, 12), (0, 13)])
        self.select(p, r)
        disturbed = self.chance(0.7)
        for _ in range(self.pick([1, 3, 4, 5, 6, 7, 9])):
            self.add(rec.D_READ_RECORD)
            if disturbed and self.chance(0.35):
                self.between()
            if self.chance(0.04):
                self.add(rec.C_WRITES[self.pick([p, 0xE0 + r])])

    def address(self):
        """An address written: whole, in part, with turns, with other things between."""
        bank = self.pick(BANKS)
        port = 8 if bank == 31 else bank - 16
        self.select(bank, 14)
        new = self.random.randbytes(6)
        turning = self.chance(0.4)
        for at in range(self.pick([2, 5, 6, 6, 6, 6, 7, 12])):
            self.add(rec.D_WRITES[new[at % 6]])
            if self.chance(0.15):
                self.between()
            if turning and self.chance(0.25):
                self.records.extend([rec.D_READ_RECORD] * (1 + self.below(6)))
        if self.chance(0.2):
            self.add(rec.C_WRITES[self.pick([bank, 0xEE])])
        if self.chance(0.2):
            self.add(rec.D_WRITES[self.below(256)])
        self.last[port] = new
        self.read(bank, 14, self.pick([1, 6, 6, 7]))
        if self.chance(0.6):
            self.burst(1 << port, d=1000, n=64, k=0, x=0, source=self.pick([new, self.source(port)]))
            self.read(1, self.pick([6, 7]))
            self.counter(bank, 12)

    def turns(self):
        """Reading and writing by turns, at every place."""
        bank = self.pick(BANKS)
        self.select(bank, 14)
        for _ in range(4):
            self.records.extend([rec.D_READ_RECORD] * self.below(6))
            self.records.extend(rec.D_WRITES[self.below(256)] for _ in range(self.below(7)))
        self.read(bank, 14, 6)

    def commands(self):
        for _ in range(1 + self.below(6)):
            if self.chance(0.12):
                self.write(0, self.pick([30, 31]), self.pick(UNLISTED))
            elif self.chance(0.5):
                self.command(self.pick(SETS))
            else:
                self.get(self.pick(GETS))
        if self.chance(0.4):
            self.add(rec.C_READ_RECORD)
        if self.chance(0.4):
            self.look()

    def switching(self):
        """Disable, enable, link test off and on, of one port, in any order and repeated."""
        port = self.port_of(self.partitioned & 0xFF or 0xFF).bit_length() - 1
        aui = self.chance(0.15)
        for _ in range(2 + self.below(5)):
            byte = self.pick([0x2F, 0x3F]) if aui else self.pick([0x20, 0x30, 0x40, 0x50]) | port
            self.command(byte)
            what = self.below(5)
            if what == 0:
                for _ in range(self.pick([1, 4])):
                    self.pulse(1 << port)
            elif what == 1:
                self.burst(AUI if aui else 1 << port, flags=self.pick([0, rec.AUI_COLLISION, rec.SQE_TEST, rec.LOOPBACK_MISSING]))
            elif what == 2:
                self.ticks(self.pick([1, 99, 100]))
            if self.chance(0.7):
                self.look()

    def interrupts(self):
        for _ in range(1 + self.below(3)):
            self.write(2, self.pick(CHANGES), self.pick([0xFF, 0x80, 0x7F, 0, self.below(256)]))
        for _ in range(1 + self.below(3)):
            self.add(rec.C_READ_RECORD)
            self.pick([self.frames, self.links, self.status, self.long_collision])()
            self.add(rec.C_READ_RECORD)
            r = self.pick(CHANGES)
            if self.chance(0.4):
                self.write(1, r, self.below(256))
            if self.chance(0.2):
                self.read(1, 5)
            self.read(1, r)
            if self.chance(0.3):
                self.read(1, r)
            if self.chance(0.3):
                self.read(2, self.pick(CHANGES))

    def alone(self):
        """A single change register enabled, so that the interrupt bit hangs on it."""
        for r in CHANGES:
            self.read(1, r)
        r = self.pick(CHANGES)
        for other in CHANGES:
            self.write(2, other, 0xFF if other == r else 0)
        if r in (6, 7):
            self.burst(AUI if r == 7 else self.port_of(self.listened() & 0xFF), d=1000, n=64, x=0)
        elif r in (3, 4):
            self.status()
        elif r == 2:
            self.links()
        else:
            self.burst(AUI if r == 1 else self.some_of(self.listened() & 0xFF, 2), d=5000, x=1025, c=0, flags=rec.AUI_COLLISION if r == 1 else 0)
        self.add(rec.C_READ_RECORD)
        if self.chance(0.5):
            self.write(0, 30, 0x89)
        self.add(rec.C_READ_RECORD)
        self.read(1, r, 2)
        self.add(rec.C_READ_RECORD)

    def status(self):
        """B, S, L, M and the rate errors, and Gets that clear some of them."""
        for _ in range(1 + self.below(3)):
            flags = self.pick([rec.SQE_TEST, rec.LOOPBACK_MISSING, rec.RATE_ERROR, 0x1A, 0x18])
            self.burst(self.port_of(self.listened()), d=self.pick([600, 65536, 65537]), flags=flags)
        if self.chance(0.3):
            self.burst(AUI, flags=rec.RATE_ERROR | self.pick([0, rec.AUI_COLLISION]))
        for _ in range(1 + self.below(4)):
            self.get(self.pick([0x8F, 0x8B, 0x8D, 0x89, 0xA0, 0xF0]))
        if self.chance(0.4):
            self.read(1, self.pick([3, 4]))

    def reset(self):
        if self.chance(0.5):
            self.status()
        if self.chance(0.3):
            self.select(self.pick(BANKS), 14)
            self.add(self.pick([rec.D_READ_RECORD, rec.D_WRITES[0x5A]]))
        self.add(rec.RESET_RECORD)
        self.at_power_up()
        if self.chance(0.5):
            self.add(rec.D_READ_RECORD)
        if self.chance(0.5):
            self.read(0, 31)
        if self.chance(0.5):
            self.look()
            for byte in (0x8F, 0xA0, 0xF0):
                self.get(byte)
        self.links()

    def refused(self):
        """One record that is turned away, for one cause or for several."""
        what = self.below(7)
        if what == 0:
            self.add(damaged(self.pick(self.records[-20:] or [rec.TICK_RECORD]), self.random))
        elif what == 1:
            kind = self.random.choice([0, 9, 10, 255, 9 + self.below(247)])
            self.add(bytes([kind]) + rec.TICK_RECORD[1:])
        elif what == 2:
            self.add(rec.C_WRITES[0x20 + self.below(0xC0)])
        elif what == 3:
            self.add(rec.LAYOUT.pack(rec.PULSE, 0, 1 << 8 + self.below(8) | self.below(256), 0, 0, 0, 0, 0, 0, 0, rec.NOBODY, 0))
        else:
            self.add(bad_burst(self.random))

    def registers(self):
        """Registers taken blindly: most are not listed or not for this use."""
        for _ in range(1 + self.below(5)):
            p = self.pick([0, 1, 2, 16 + self.below(8), 31, self.below(32)])
            r = self.pick([self.below(32), self.below(16)])
            self.select(p, r)
            self.add(rec.D_READ_RECORD if self.chance(0.6) else rec.D_WRITES[self.below(256)])

    def anything(self):
        """Kinds by chance alone."""
        for _ in range(10):
            kind = self.below(9)
            if kind <= 1:
                self.any_burst()
            elif kind == 2:
                self.pulse(self.below(256))
            elif kind == 3:
                self.ticks(1)
            elif kind == 4:
                self.add(rec.C_WRITES[self.below(32) | self.pick([0, 0xE0])])
                self.p = self.r = -1
            elif kind == 5:
                self.add(rec.D_WRITES[self.pick(LISTED)])
            elif kind == 6:
                self.add(rec.C_READ_RECORD)
            elif kind == 7:
                self.add(rec.D_READ_RECORD)
            else:
                self.refused()

    def bank(self, bank):
        for r in range(13):
            self.counter(bank, r)
        self.read(bank, 14, 6)

    def everything(self):
        """The whole of what a host can see."""
        self.add(rec.C_READ_RECORD)
        self.records.extend([rec.C_WRITES[0], rec.C_WRITES[0xFF], rec.D_READ_RECORD])
        self.p, self.r = 0, 31
        for byte in GETS:
            self.get(byte)
        for r in CHANGES:
            self.read(1, r)
            self.read(2, r)
        self.counter(0, 12)
        self.counter(0, 13)
        self.read(0, 28)
        for bank in BANKS:
            self.bank(bank)

    SCENES = [
        links, links, frames, frames, edge, edge, edge, collisions, collisions, fragments, long_collision, reconnect, reconnect,
        silence, silence, half_passed, half_passed, sequence, sequence, address, turns, commands, switching, switching, interrupts, alone, status,
        status, refused, refused, registers, anything,
    ]

    def trace(self, size):
        # Half of the traces begin with all links up, and each has a taste for some scenes.
        if self.chance(0.5):
            self.records.extend([rec.PULSES[255]] * 4)
            self.passing = 0xFF
        scenes = self.random.sample(self.SCENES, 12) + [self.pick(self.SCENES)] * 6
        while len(self.records) < size - 700:
            self.pick(scenes)(self)
            if self.chance(0.02):
                self.reset()
            if self.chance(0.04):
                self.bank(self.pick(BANKS))
        self.everything()
        if self.seed % 4 == 0:
            self.select(31, 14)
            self.add(rec.D_READ_RECORD)
        tail = self.pick([rec.TICK_RECORD, rec.burst(1, 100), bytes(32), self.random.randbytes(32)])
        return b''.join(self.records) + tail[: self.seed % 32]


def damaged(record, chooser):
    """The record with one must-be-zero byte that isn't zero (a burst now and then with other faults as well)."""
    kind = record[0] if 1 <= record[0] <= 8 and chooser.random() < 0.5 else chooser.randint(1, 8)
    changed = bytearray(record if record[0] == kind else rec.LAYOUT.pack(kind, *[0] * 9, rec.NOBODY, 0))
    if kind == rec.C_WRITE and chooser.random() < 0.3:
        changed[13] = 0x40
    if kind == rec.BURST and chooser.random() < 0.2:
        changed[3] |= 2
    at = chooser.choice([at for at in range(1, 32) if rec.must_be_zero(kind, at)])
    bits = rec.must_be_zero(kind, at)
    changed[at] |= chooser.choice([bit for bit in (1, 2, 4, 8, 16, 32, 64, 128) if bits & bit])
    return bytes(changed)


def bad_burst(chooser):
    """A burst with one fault or several, of those that get 3, 2 or 1."""
    faults = {chooser.randrange(9)}
    while chooser.random() < 0.25:
        faults.add(chooser.randrange(9))
    flags, mask, d, n, k, c, x = 0, chooser.choice([1, 3, AUI]), 1000, 64, 0, 100, 300
    if chooser.random() < 0.3:
        flags, mask = rec.AUI_COLLISION, 0
    if 0 in faults:
        mask |= 1 << chooser.randint(9, 15)
    if 1 in faults:
        d, n, c, x = 0, 0, 0, 0
    if 2 in faults:
        d = chooser.choice([1_000_001, 1_000_008, 0xFFFFFFFF])
    if 3 in faults:
        k = chooser.choice([8, 9, 255])
    if 4 in faults:
        over = d // 8 + 1
        n, k = chooser.choice([(over, 0), (d // 8, d % 8 + 1), (0x20000000, 0), (0x20000000 + 64, 0), (0xFFFFFFFF, 7)])
        k = min(k, 7)
    if 5 in faults:
        c, x = chooser.choice([(d, 1), (0, d + 1), (500, d - 499)]) if d < 0xFFFFFFFF else (d, d)
        c, x = max(c, 0), max(x, 1)
    if 6 in faults:
        c, x = chooser.choice([(0xFFFFFFFF, 1), (0x80000000, 0x80000000), (0xFFFFFFFF, 0xFFFFFFFF), (200, 0xFFFFFFFF)])
    if 7 in faults:
        flags, mask = 0, mask & ~ALL
    if 8 in faults:
        flags, mask = flags & ~rec.AUI_COLLISION, 0
    return rec.burst(mask, d, n, k, c, x, flags)


# ---- sheets: fixed sweeps that need no chance

def registers_sheet():
    """Every P and R, read and written, after a little traffic on each port."""
    records = [rec.PULSES[255]] * 4
    for place in range(9):
        records.append(rec.burst(1 << place, 1000, 64, source=bytes([2, 0, 0, 0, 0, place])))
    for p in range(32):
        records.append(rec.C_WRITES[p])
        for r in range(32):
            records += [rec.C_WRITES[0xE0 + r], rec.D_READ_RECORD, rec.D_WRITES[0x89], rec.D_READ_RECORD]
    return records


def commands_sheet():
    """Every byte through S and through G, with the state behind it read each time."""
    records = [rec.PULSES[255]] * 4 + [rec.burst(3, 5000, x=1025), rec.burst(AUI, 70000, flags=0x1A), rec.burst(4, 70000, flags=0x1A)]
    seen = [rec.C_READ_RECORD, rec.C_WRITES[0xFF]]
    for byte in (0x80, 0xD0, 0x89):
        seen += [rec.D_WRITES[byte], rec.D_READ_RECORD]
    for r in (30, 31):
        for byte in range(256):
            records += [rec.C_WRITES[0], rec.C_WRITES[0xE0 + r], rec.D_WRITES[byte], rec.C_WRITES[0xFF], rec.D_READ_RECORD, *seen]
            records.append(rec.burst(1 << byte % 9, 600, flags=0x1A))
    return records


def kinds_sheet():
    """Every kind with all else zero, and every C write."""
    records = [bytes([kind]) + bytes(31) for kind in range(256)]
    records += [rec.C_WRITES[byte] for byte in range(256)]
    return records


def damage_sheet():
    """Every bit of every byte set alone, in a sound record of each kind."""
    sound = [rec.burst(1, 1000, 64, 0, 100, 300), rec.PULSES[1], rec.TICK_RECORD, rec.C_WRITES[0x10], rec.D_WRITES[0x80],
             rec.C_READ_RECORD, rec.D_READ_RECORD, rec.RESET_RECORD]
    records = []
    for record in sound:
        for at in range(1, 32):
            for bit in range(8):
                changed = bytearray(record)
                changed[at] ^= 1 << bit
                records.append(bytes(changed))
    return records


def refusals_sheet():
    """Each range of a burst at its last good value and one past it."""
    records = [rec.PULSES[255]] * 4
    for d in (0, 1, 999_999, 1_000_000, 1_000_001, 0xFFFFFFFF):
        records.append(rec.burst(1, d))
    for k in range(256):
        records.append(rec.burst(1, 1000, 0, k))
    for d in (1, 7, 8, 9, 15, 16, 1000):
        for n in (0, d // 8, d // 8 + 1, 0x1FFFFFFF, 0x20000000, 0xFFFFFFFF):
            records += [rec.burst(1, d, n, k) for k in range(9)]
    for d in (1, 1000, 1_000_000):
        edges = (0, 1, d - 1, d, d + 1, 0x7FFFFFFF, 0x80000000, 0xFFFFFFFF)
        records += [rec.burst(1, d, c=c, x=x) for c in edges for x in edges]
    for bit in range(16):
        records += [rec.burst(1 << bit, 100), rec.LAYOUT.pack(rec.PULSE, 0, 1 << bit, 0, 0, 0, 0, 0, 0, 0, rec.NOBODY, 0)]
    for flags in range(256):
        records += [rec.burst(0, 100, flags=flags), rec.burst(0, 0, flags=flags), rec.burst(0x200, 0, flags=flags)]
    return records


def limits_sheet():
    """Bursts of every d around the limits, on each port, by themselves and in collisions, with their counters; and all of it again after a reset."""
    records = []
    for _ in range(2):
        records += [rec.PULSES[255]] * 4
        for d in range(LIMITS[0] - 2, LIMITS[-1] + 3):
            for place, bank in enumerate(BANKS):
                other = 1 << (place + 1) % 9
                records += [rec.burst(1 << place, d, 9), rec.burst(1 << place, d, 9, 1, flags=rec.FCS_BAD | rec.RATE_ERROR),
                            rec.burst(1 << place | other, d, 9), rec.burst(AUI, d, flags=rec.AUI_COLLISION),
                            rec.burst(1 << place, 8 * d, d)]
                records.append(rec.C_WRITES[bank])
                for r in (0, 4, 5, 6, 7):
                    records += [rec.C_WRITES[0xE0 + r], rec.D_READ_RECORD]
                records.append(rec.burst(1 << place, 1000, 64))
        records.append(rec.RESET_RECORD)
    return records


SHEETS = {
    'registers': registers_sheet,
    'commands': commands_sheet,
    'kinds': kinds_sheet,
    'damage': damage_sheet,
    'refusals': refusals_sheet,
    'limits': limits_sheet,
}


def trace(seed, size):
    return Maker(seed).trace(size)


def sheet(name):
    return b''.join(SHEETS[name]())


def main():
    parser = argparse.ArgumentParser(description='Writes a trace of records to standard output.')
    parser.add_argument('seed', type=int, nargs='?', help='the seed')
    parser.add_argument('size', type=int, nargs='?', help='about how many records')
    parser.add_argument('--start', metavar='FILE', help="write the seed's start file here (nothing if it has none)")
    parser.add_argument('--sheet', choices=SHEETS, help='a fixed sweep in place of a seed')
    words = parser.parse_args()
    if words.sheet:
        sys.stdout.buffer.write(sheet(words.sheet))
        return
    if words.seed is None or words.size is None:
        parser.error('give a seed and a size, or --sheet NAME')
    content = start(words.seed)
    if words.start and content is not None:
        with open(words.start, 'wb') as file:
            file.write(content)
    sys.stdout.buffer.write(trace(words.seed, words.size))


if __name__ == '__main__':
    main()
