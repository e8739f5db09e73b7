"""Start files as text: the counters and addresses that the chip has at power-up, and its short event limit.

    tp0 Readable Octets = 4294967295
    aui address = 02:00:00:00:00:01
    Transmit Collisions = 7
    Total Octets = 9
    Short Event limit = 75

A counter or address that is not named is 0. Without a line for the limit the file has 530 bytes, and the limit is 78;
with one it has 535. docs/REFERENCE.md, 'Start files', has the bytes of the file itself.
"""

import re
import struct

import roverivet
from roverivet import ATTRIBUTES, PORTS
from tools.text import TextError, decoded

LAYOUT = struct.Struct('<' + '13I6s' * 9 + '2I')
LIMIT = struct.Struct('<IB')  # the limit, and a 0
WHOLE = ('Transmit Collisions', 'Total Octets')
LIMIT_NAME = 'Short Event limit'
ROW = 14  # values of one port: thirteen counters and the address


class NoLimit(TextError):
    """A short event limit that four bytes do not hold. `shown` is the number as it stands there, or how it begins."""

    def __init__(self, name, line, column, shown):
        self.shown, refused = shown, roverivet.no_limit(shown)
        super().__init__(name, line, column, f'{refused.reason} (refused {refused.number})')


def places():
    """{(port or '', name) in lower case: place in the unpacked file}."""
    found = {}
    for at, port in enumerate(PORTS):
        for place, name in enumerate(ATTRIBUTES + ('address',)):
            found[port.lower(), name.lower()] = ROW * at + place
    for at, name in enumerate((*WHOLE, LIMIT_NAME)):
        found['', name.lower()] = ROW * len(PORTS) + at
    return found


PLACES = places()


def start_bytes(text, name='start file'):
    """The bytes of a text: 530, or 535 where it names a short event limit."""
    values = [0] * (ROW * len(PORTS) + len(WHOLE)) + [None]
    for at in range(ROW - 1, ROW * len(PORTS), ROW):
        values[at] = bytes(6)
    given = {}
    for number, line in enumerate(text.split(b'\n' if isinstance(text, bytes) else '\n'), 1):
        found = _line(decoded(line, name, number), name, number)
        if found:
            place, value, column = found
            if place in given:
                raise TextError(name, number, column, f'this value is given in line {given[place]} already')
            given[place], values[place] = number, value
    *values, limit = values
    return LAYOUT.pack(*values) + (LIMIT.pack(limit, 0) if limit is not None else b'')


def _line(line, name, number):
    body = line.split('#', 1)[0]
    if not body.strip():
        return None
    column = len(body) - len(body.lstrip()) + 1
    left, sign, right = body.partition('=')
    words = left.lower().split()
    port = words.pop(0) if words and words[0] in (p.lower() for p in PORTS) else ''
    place = PLACES.get((port, ' '.join(words)))
    if not sign or place is None:
        raise TextError(name, number, column, 'expected PORT COUNTER = NUMBER, PORT address = SIX OCTETS, Transmit Collisions = NUMBER, '
                        f'Total Octets = NUMBER or {LIMIT_NAME} = NUMBER, found {body.strip()[:40]}')
    value, at = right.strip(), len(left) + 2 + len(right) - len(right.lstrip())
    if words == ['address']:
        try:
            return place, roverivet.address_of(value), column
        except ValueError as error:
            raise TextError(name, number, at, str(error)) from None
    if place == PLACES['', LIMIT_NAME.lower()]:
        return place, _limit(value, name, number, at), column
    if not re.fullmatch(r'[0-9]{1,10}', value) or int(value) > 0xFFFFFFFF:
        raise TextError(name, number, at, f'expected a decimal number up to 4294967295, found {value[:40]}')
    return place, int(value), column


def _limit(value, name, number, at):
    """A short event limit, which is translated, whether or not power-up takes it."""
    if not re.fullmatch(r'[0-9]+', value):
        raise TextError(name, number, at, f'expected a decimal number, found {value[:40]}')
    limit = limit_in(value)
    if isinstance(limit, str):
        raise NoLimit(name, number, at, limit)
    return limit


def limit_in(digits):
    """The number that some decimal digits are, or where four bytes do not hold it the digits themselves, the first of them if there are many."""
    digits = digits.lstrip('0') or '0'
    if len(digits) <= 10 and int(digits) <= 0xFFFFFFFF:
        return int(digits)
    return digits if len(digits) <= 40 else digits[:37] + '...'


def start_text(data):
    """The lines that give these bytes, 530 or 535."""
    values = LAYOUT.unpack(data[:LAYOUT.size])
    names = [(f'{port.lower()} {name}') for port in PORTS for name in ATTRIBUTES + ('address',)] + list(WHOLE)
    for name, value in zip(names, values):
        if isinstance(value, bytes) and any(value):
            yield f'{name} = {value.hex(":")}'
        elif value and not isinstance(value, bytes):
            yield f'{name} = {value}'
    limit = roverivet.limit_of(data)
    if limit is not None:
        yield f'{LIMIT_NAME} = {limit}'
