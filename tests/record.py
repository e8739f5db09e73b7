"""The 32-byte record of document 01: how to make one, and what one says in words."""

import struct

BURST, PULSE, TICK, C_WRITE, D_WRITE, C_READ, D_READ, RESET = range(1, 9)
FCS_BAD, RATE_ERROR, AUI_COLLISION, LOOPBACK_MISSING, SQE_TEST = 1, 2, 4, 8, 16
AUI = 1 << 8
SIZE = 32

# kind, flags, mask, d, n, k, written byte, bytes 14-15, c, x, source address, bytes 30-31
LAYOUT = struct.Struct('<BBHIIBBHII6sH')
NOBODY = bytes(6)


def burst(mask, d, n=0, k=0, c=0, x=0, flags=0, source=NOBODY):
    return LAYOUT.pack(BURST, flags, mask, d, n, k, 0, 0, c, x, source, 0)


def _plain(kind, mask=0, written=0):
    return LAYOUT.pack(kind, 0, mask, 0, 0, 0, written, 0, 0, 0, NOBODY, 0)


TICK_RECORD = _plain(TICK)
C_READ_RECORD = _plain(C_READ)
D_READ_RECORD = _plain(D_READ)
RESET_RECORD = _plain(RESET)
PULSES = [_plain(PULSE, mask=mask) for mask in range(256)]
C_WRITES = [_plain(C_WRITE, written=byte) for byte in range(256)]
D_WRITES = [_plain(D_WRITE, written=byte) for byte in range(256)]

# Which bits of which byte a kind has a use for.
USED = {kind: {0: 0xFF} for kind in range(1, 9)}
USED[BURST].update({1: 0x1F, **{at: 0xFF for at in [*range(2, 13), *range(16, 30)]}})
USED[PULSE].update({2: 0xFF, 3: 0xFF})
USED[C_WRITE][13] = 0xFF
USED[D_WRITE][13] = 0xFF


def must_be_zero(kind, at):
    """The bits of this byte that a record of this kind must leave zero."""
    return 0xFF & ~USED[kind].get(at, 0)


def ports(mask):
    names = [f'TP{place}' for place in range(8) if mask >> place & 1]
    if mask & AUI:
        names.append('AUI')
    names += [f'bit {place}' for place in range(9, 16) if mask >> place & 1]
    return ' '.join(names) or 'no port'


FLAG_WORDS = ['FCS bad', 'rate error', 'AUI collision signal', 'loopback missing', 'SQE Test seen']
KIND_WORDS = ['', 'burst', 'link pulse', 'tick', 'C write', 'D write', 'C read', 'D read', 'reset']


def words(record):
    """One line that says what a record holds."""
    if len(record) != SIZE:
        return f'a piece of {len(record)} bytes: {record.hex(" ")}'
    kind, flags, mask, d, n, k, written, _, c, x, source, _ = LAYOUT.unpack(record)
    if not 1 <= kind <= 8:
        return f'unknown kind {kind}: {record.hex(" ")}'
    said = [KIND_WORDS[kind]]
    if kind == BURST:
        said += [f'on {ports(mask)}', f'd {d}', f'n {n}', f'k {k}', f'c {c}', f'x {x}', f'source {source.hex(":")}']
        said += [word for place, word in enumerate(FLAG_WORDS) if flags >> place & 1]
    if kind == PULSE:
        said.append(f'on {ports(mask)}')
    if kind in (C_WRITE, D_WRITE):
        said.append(f'{written:02x}h')
    stray = [at for at in range(1, SIZE) if record[at] & must_be_zero(kind, at)]
    said += [f'byte {at} is {record[at]:02x}h' for at in stray]
    return ', '.join(said)

# Document 01's sample: its records and its ten lines.
SAMPLE = b''.join([
    *[PULSES[3]] * 4,
    burst(1, 1000, 64),
    C_WRITES[0x10],
    C_WRITES[0xE0],
    D_READ_RECORD,
    burst(3, 600, c=100, x=300),
    LAYOUT.pack(TICK, 0, 1, 0, 0, 0, 0, 0, 0, 0, NOBODY, 0),
])
SAMPLE_LINES = b'''\
1 ok
2 ok
3 ok
4 ok
5 rep 102
6 ok
7 ok
8 val 01
9 jam 103
10 ref 8
'''
