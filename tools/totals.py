"""Readings of one counter as text, one decimal number a line, in the order in which they were read:

    4294967295      # the first poll
    2               # the counter has wrapped
    1

`#` starts a remark, and empty lines are fine. What is printed is the sum of their differences, each later reading
minus the one before it modulo 2^32: here 3 + 4294967295 = 4294967298. That is the true number of credits from the
first reading to the last, if between two readings in a row there were fewer than 2^32 of them (octets of an octet
counter). No reading can show that there were more. Resets do not matter; behind a power-up start a new file. A sum
that reaches 2^64 is a finding. docs/REFERENCE.md, 'True totals', says how often to poll.
"""

import os
import re
import struct
import subprocess

import roverivet
from roverivet import Ended
from tools import build, export, inputs, text
from tools.text import TextError

TOTALS = build.path_of('totals')
AT_ONCE, WIDE = 16384, 4  # readings that are written at a time, and the bytes of one
MOST = 0xFFFFFFFF
BLANKS = ' \t\r\n'
DOES_NOT_FIT = 'the sum reaches 2^64 and does not fit in 64 bits'
SUM = re.compile(r'(0|[1-9][0-9]{0,19})\n')


def readings(lines, name):
    """The readings of a text, as they come."""
    for number, line in enumerate(lines, 1):
        line = text.decoded(line, name, number).split('#', 1)[0]
        word = line.strip(BLANKS)
        if not word:
            continue
        if not re.fullmatch(r'[0-9]{1,10}', word) or int(word) > MOST:
            raise TextError(name, number, line.index(word) + 1,
                            f'expected a reading, a decimal number up to {MOST}, found {text._shown(word)}')
        yield int(word)


def blocks(some):
    """The bytes of readings, some thousand of them at a time."""
    held = []
    for reading in some:
        held.append(reading)
        if len(held) == AT_ONCE:
            yield struct.pack(f'<{AT_ONCE}I', *held)
            held.clear()
    if held:
        yield struct.pack(f'<{len(held)}I', *held)


def summed(path, number, progress):
    """The sum of differences of the readings in an open file, or None where 64 bits do not hold it."""
    process = subprocess.Popen(roverivet.starting(TOTALS), stdin=subprocess.PIPE,
                               stdout=subprocess.PIPE, stderr=subprocess.PIPE)
    try:
        with os.fdopen(number, 'rb') as file:
            name = inputs.shown(path)
            whole = export.fed(process, blocks(readings(inputs.lines_of(file, name), name)), progress, WIDE)
        said, told = (some.decode('ascii', 'replace') for some in process.communicate())
    except BaseException:
        process.kill()
        process.wait()
        raise
    return sum_in(said, told, process.returncode, whole)


def sum_in(said, told, status, whole):
    """The sum that the program printed, or None."""
    if not status and not said and told == f'totals: {DOES_NOT_FIT}\n':
        return None
    if status or not whole:
        raise Ended(f'the program totals ended before its input did, status {status}: {told.strip()[:80]}')
    found = SUM.fullmatch(said)
    if told or not found or int(found[1]) >> 64:
        raise Ended(f'the program totals printed {said[:80]!r} and said {told[:80]!r}')
    return int(found[1])
