"""Records as text that people write and read back.

A line is a kind and its fields; `#` starts a comment; a last word x100 repeats the record.

    burst tp0 d=1000 n=64 sa=02:00:00:00:00:01      pulse tp0-3
    burst tp0+tp1 d=600 c=100 x=300                 tick x100
    burst none d=600 collision-signal               reset
    c-write P=16        c-write R=0                 d-write 8f
    c-read              d-read                      tick mask=001
    raw 09000000 0000...                            (any bytes, in hex; fewer than 32 only at the end)

Durations, octets and counts are decimal, bytes and masks hexadecimal. Both ways are exact: what
`text_of` writes, `bytes_of` turns into the same bytes, for every input.

Behind `=>` may stand the answer that is expected of a record, for `check`:

    burst tp0 d=600 n=64 => rep 102                 tick x100 => ok
    d-read => val 03                                d-read mask=001 => ref 8        (=> ref: any refusal)

Before the first record a line may name a start file, from the folder of this file on, or allow refusals of
records that have no answer of their own:

    start = FILE                                    refusals = allowed
"""

import functools
import itertools
import functools
import re
from typing import NamedTuple

import roverivet
from roverivet import BURST, C_WRITE, D_WRITE, FLAGS, KINDS, PULSE, Record, SIZE

MOST = 1_000_000  # repeats that one line may ask for
PORT_LIST = 'ports (tp0, tp0+tp1, tp0-3, aui, none) or mask=HEX'
NUMBERS = {'d': 0xFFFFFFFF, 'n': 0xFFFFFFFF, 'k': 0xFF, 'c': 0xFFFFFFFF, 'x': 0xFFFFFFFF}
KEPT = 200  # lines of fewer signs are kept, since traces say the same ones often
VALUES = {'ok': '', 'rep': '[0-9a-f]{3}', 'jam': '[0-9a-f]{3}', 'nil': '[0-9a-f]{3}', 'val': '[0-9a-f]{2}', 'ref': '[0-9]{0,2}'}
DUE_LIST = 'ok, rep, jam or nil and three hex digits, val and two, ref, or ref and a number'
SETTING = re.compile(r'[ \t]*(start|refusals)[ \t]*=(?!>)[ \t]*(.*?)[ \t\r\n]*', re.IGNORECASE)


class Due(NamedTuple):
    """An answer that is expected. `value` is None for any refusal."""
    word: str
    value: int

    def met(self, answer):
        return answer.word == self.word and self.value in (None, answer.value)

    def __str__(self):
        return roverivet.Answer(0, self.word, self.value).words if self.value is not None else f'any {self.word}'


class Line(NamedTuple):
    """A line with a record: its number, the record, how many times, and the answer expected of each, or None."""
    number: int
    record: bytes
    times: int
    due: Due


class TextError(Exception):
    """What a line should have had, and where: `name:line:column: reason`."""

    def __init__(self, name, line, column, reason):
        super().__init__(f'{name}:{line}:{column}: {reason}')
        self.line, self.column, self.reason = line, column, reason


class _Wrong(Exception):
    def __init__(self, column, reason):
        super().__init__(reason)
        self.column, self.reason = column, reason


# ---- text to bytes


def bytes_of(lines, name='text', settings=None):
    """Yields a Line for each line that has a record. `lines` are bytes or text.

    A piece of fewer than 32 bytes can only be the last, since the records after it would be cut elsewhere.
    What is set at the head goes to the dictionary `settings`; without one, nothing can be set.
    """
    short, begun = None, False
    for number, line in enumerate(lines, 1):
        try:
            line = decoded(line, name, number)
            if not begun and settings is not None and _set(line, settings):
                continue
            found = record_of(line)
            if found and short:
                raise _Wrong(1, f'expected nothing after the piece of {short[1]} bytes in line {short[0]}')
        except _Wrong as wrong:
            raise TextError(name, number, wrong.column, wrong.reason) from None
        if found:
            begun = True
            yield Line(number, *found)
            short = (number, len(found[0])) if len(found[0]) < SIZE else None


def _set(line, settings):
    """Whether a line sets something; it goes to `settings`."""
    found = SETTING.fullmatch(line.split('#', 1)[0])
    if not found:
        return False
    name, value = found[1].lower(), found[2]
    if name in settings:
        raise _Wrong(found.start(1) + 1, f'{name} is set already')
    if name == 'refusals' and value.lower() != 'allowed':
        raise _Wrong(found.start(2) + 1, f'expected refusals = allowed, found {_shown(value)}')
    if not value:
        raise _Wrong(found.start(2) + 1, 'expected the name of a start file')
    settings[name] = value
    return True


def assembled(text, name='text'):
    """All the bytes of a text."""
    lines = text.split(b'\n' if isinstance(text, bytes) else '\n')
    return b''.join(line.record * line.times for line in bytes_of(lines, name, {}))


def decoded(line, name, number):
    """A line as text, whether it came as text or as bytes."""
    if isinstance(line, str):
        return line
    try:
        return line.decode('utf-8-sig' if number == 1 else 'utf-8')
    except UnicodeDecodeError as error:
        column = len(line[:error.start].decode('utf-8')) + 1
        raise TextError(name, number, column, f'expected text, found the byte {line[error.start]:02x}: is this a '
                                              'binary file?') from None


def record_of(line):
    """(bytes, times, the answer expected or None) of one line, or None if it has no record."""
    body = line.split('#', 1)[0]
    return _record(body) if len(body) < KEPT else _record.__wrapped__(body)


@functools.lru_cache(4096)
def _record(body):
    said, arrow, due = body.partition('=>')
    words = [(found.start() + 1, found.group()) for found in re.finditer(r'[^ \t\r\n]+', said)]
    if not words:
        if arrow:
            raise _Wrong(len(said) + 1, 'expected a record before =>')
        return None
    column, kind = words.pop(0)
    after = len(said.rstrip()) + 1
    times = _times(words)
    if kind.lower() == 'raw':
        record = _raw(words, after, times)
    elif kind.lower() in KINDS[1:]:
        record = _named(KINDS.index(kind.lower()), words, after)
    elif SETTING.fullmatch(body):
        raise _Wrong(column, f'{kind.lower()} can only be set before the first record of a file')
    else:
        raise _Wrong(column, f'expected {", ".join(KINDS[1:])} or raw, found {_shown(kind)}')
    return record, times, _due(due, len(said) + 3) if arrow else None


def _due(words, column):
    """The answer that stands behind =>."""
    word, _, value = ' '.join(words.lower().split()).partition(' ')
    if word not in VALUES or not re.fullmatch(VALUES[word], value):
        said = words.strip()
        raise _Wrong(column + len(words) - len(words.lstrip()) if said else column,
                     f'expected {DUE_LIST}' + (f', found {_shown(said)}' if said else ''))
    if word == 'ref':
        return Due(word, int(value) if value else None)
    return Due(word, int(value, 16) if value else 0)


def _times(words):
    found = words and re.fullmatch(r'x([0-9]+)', words[-1][1], re.ASCII | re.IGNORECASE)
    if not found:
        return 1
    column = words.pop()[0]
    if len(found.group(1)) > 7 or not 1 <= int(found.group(1)) <= MOST:
        raise _Wrong(column, f'expected x1 to x{MOST}, found {_shown(found.group())}')
    return int(found.group(1))


def _raw(words, after, times):
    for column, word in words:
        if not re.fullmatch(r'([0-9a-fA-F]{2})+', word):
            raise _Wrong(column, f'expected bytes in hex, two digits each, found {_shown(word)}')
    piece = bytes.fromhex(''.join(word for _, word in words))
    if not 1 <= len(piece) <= SIZE:
        raise _Wrong(words[0][0] if words else after, f'expected 1 to {SIZE} bytes in hex, found {len(piece)}')
    if len(piece) < SIZE and times > 1:
        raise _Wrong(words[0][0], f'expected {SIZE} bytes to repeat, found {len(piece)}')
    return piece


def _named(kind, words, after):
    fields, flags = {}, 0
    if kind in (C_WRITE, D_WRITE):
        fields['byte'] = _written(kind, words, after)
    elif kind in (BURST, PULSE):
        fields['mask'] = _ports(words, after)
    for column, word in words:
        if word.lower() in FLAGS:
            bit = 1 << FLAGS.index(word.lower())
            if flags & bit:
                raise _Wrong(column, f'{word} is there twice')
            flags |= bit
        else:
            name, value = _field(column, word)
            if name in fields:
                raise _Wrong(column, f'{name} is there twice')
            fields[name] = value
    if kind == BURST and 'd' not in fields:
        raise _Wrong(after, 'expected d=, the duration of the burst')
    return Record(kind, flags, **fields).pack()


def _written(kind, words, after):
    """The byte of a C or D write: P=16 or R=0 (C write only), or two hex digits."""
    expected = 'P=0 to P=31, R=0 to R=31 or a byte in hex' if kind == C_WRITE else 'a byte in hex, as 8f'
    if not words:
        raise _Wrong(after, f'expected {expected}')
    column, word = words.pop(0)
    chosen = re.fullmatch(r'([pr])=([0-9]{1,2})', word, re.ASCII | re.IGNORECASE)
    if chosen and kind == C_WRITE and int(chosen.group(2)) < 32:
        return int(chosen.group(2)) | (0xE0 if chosen.group(1) in 'rR' else 0)
    if re.fullmatch(r'[0-9a-fA-F]{2}', word):
        return int(word, 16)
    raise _Wrong(column, f'expected {expected}, found {_shown(word)}')


def _ports(words, after):
    if not words:
        raise _Wrong(after, f'expected {PORT_LIST}')
    column, word = words.pop(0)
    if word.lower().startswith('mask='):
        return _field(column, word)[1]
    try:
        return roverivet.mask_of(word)
    except ValueError as error:
        raise _Wrong(column, f'expected {PORT_LIST}: {_shown(str(error))}') from None


def _field(column, word):
    name, sign, value = word.partition('=')
    name = name.lower()
    if sign and name in NUMBERS:
        if re.fullmatch(r'[0-9]{1,10}', value) and int(value) <= NUMBERS[name]:
            return name, int(value)
        raise _Wrong(column, f'expected {name}= and a decimal number up to {NUMBERS[name]}, found {_shown(word)}')
    if sign and name == 'mask':
        if re.fullmatch(r'[0-9a-fA-F]{1,4}', value):
            return name, int(value, 16)
        raise _Wrong(column, f'expected mask= and up to four hex digits, found {_shown(word)}')
    if sign and name == 'byte':
        if re.fullmatch(r'[0-9a-fA-F]{2}', value):
            return name, int(value, 16)
        raise _Wrong(column, f'expected byte= and two hex digits, found {_shown(word)}')
    if sign and name == 'sa':
        try:
            return name, roverivet.address_of(value)
        except ValueError:
            raise _Wrong(column, f'expected sa= and six hex octets as 02:00:00:00:00:01, found {_shown(word)}') from None
    raise _Wrong(column, f'expected a field (d= n= k= c= x= sa= mask= byte=), a flag ({" ".join(FLAGS)}) '
                         f'or a last xN, found {_shown(word)}')


def _shown(word):
    word = ''.join(sign if sign.isprintable() else f'\\x{ord(sign):02x}' for sign in word[:41])
    return word if len(word) <= 40 else word[:37] + '...'


# ---- bytes to text


def pieces(data):
    """The records of some bytes, the last one perhaps short."""
    return [data[at:at + SIZE] for at in range(0, len(data), SIZE)]


def text_of(some):
    """Yields the lines, without their ends, for records one after the other; equal neighbours share a line."""
    for piece, same in itertools.groupby(some):
        count = sum(1 for _ in same)
        line, remark = described(piece), remark_on(piece)
        for part in [MOST] * (count // MOST) + [count % MOST] * (count % MOST > 0):
            yield line + (f' x{part}' if part > 1 else '') + (f'  # {remark}' if remark else '')


@functools.lru_cache(4096)
def described(piece):
    """One piece as text: by its fields' names where they can say it all, else in hex."""
    if len(piece) == SIZE:
        record = Record.unpack(piece)
        if 1 <= record.kind <= 8 and not record.flags >> 5 and not record.rest and not record.end:
            return _by_name(record)
    return 'raw ' + ' '.join(piece[at:at + 4].hex() for at in range(0, len(piece), 4))


def remark_on(piece):
    """Why a piece is turned away whatever the chip's state, or nothing."""
    found = roverivet.refusal(piece)
    return f'refused {found[0]}: {found[1]}' if found else ''


def _by_name(record):
    words = [KINDS[record.kind]]
    if record.kind in (BURST, PULSE):
        words.append(ports_text(record.mask))
    elif record.mask:
        words.append(f'mask={record.mask:03x}')
    if record.kind in (C_WRITE, D_WRITE):
        words.insert(1, _written_text(record))
    if record.kind == BURST:
        words.append(f'd={record.d}')
    for name in ('d', 'n', 'k', 'c', 'x'):
        if getattr(record, name) and not (name == 'd' and record.kind == BURST):
            words.append(f'{name}={getattr(record, name)}')
    if any(record.sa):
        words.append('sa=' + record.sa.hex(':'))
    if record.byte and record.kind not in (C_WRITE, D_WRITE):
        words.append(f'byte={record.byte:02x}')
    return ' '.join(words + [name for bit, name in enumerate(FLAGS) if record.flags >> bit & 1])


def _written_text(record):
    if record.kind == C_WRITE and record.byte >> 5 in (0, 7):
        return f'{"R" if record.byte >> 5 else "P"}={record.byte & 31}'
    return f'{record.byte:02x}'


def ports_text(mask):
    """tp0+tp1, tp0-3+aui, none; a mask with bits above AUI by its number."""
    if mask >> 9:
        return f'mask={mask:03x}'
    parts, bit = [], 0
    while bit < 8:
        end = bit
        while end < 8 and mask >> end & 1:
            end += 1
        parts += [f'tp{bit}-{end - 1}'] if end - bit > 2 else [f'tp{one}' for one in range(bit, end)]
        bit = max(end, bit + 1)
    return '+'.join(parts + ['aui'] * (mask >> 8)) or 'none'
