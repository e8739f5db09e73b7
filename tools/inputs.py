"""Traces and start files as the verbs read them: text or records, known by their first bytes."""

import hashlib
import os
import re
import stat
import tempfile

import roverivet
from roverivet import SIZE
from tools import startfile, text
from tools.progress import Progress

BLOCK = 2048 * SIZE
LONGEST = 1_000_000  # bytes of one line of text
CONTROL = re.compile(rb'[\x00-\x08\x0e-\x1a\x1c-\x1f\x7f]')
UTF_16 = (b'\xff\xfe', b'\xfe\xff')


class Bad(Exception):
    """Bad usage, input or output, in words for the user."""


def shown(path):
    return 'standard input' if path == '-' else path


def is_text(head):
    """Whether a file that begins with these bytes is text: no control character among its first 32."""
    return bool(head) and (head.startswith(UTF_16) or not CONTROL.search(head[:SIZE]))


# ---- reading


def opened(path):
    """The number of an open file."""
    try:
        number = os.dup(0) if path == '-' else os.open(path, os.O_RDONLY | os.O_CLOEXEC)
        if stat.S_ISDIR(os.fstat(number).st_mode):
            os.close(number)
            raise Bad(f'{path}: Is a directory')
        return number
    except OSError as error:
        raise Bad(f'{shown(path)}: {error.strerror}') from None


def more(number, path, size=BLOCK):
    try:
        return os.read(number, size)
    except OSError as error:
        raise Bad(f'{shown(path)}: {error.strerror}') from None


def head_of(number, path):
    """The first bytes of a file: enough to know whether it is text."""
    head = b''
    while len(head) < SIZE and (not head or is_text(head)):
        block = more(number, path)
        if not block:
            break
        head += block
    return head


def read_all(path):
    number, blocks = opened(path), []
    while block := more(number, path):
        blocks.append(block)
    os.close(number)
    return b''.join(blocks)


def lines_of(file, name):
    """The lines of a file, read one at a time."""
    for number in range(1, 1 << 62):
        try:
            line = file.readline(LONGEST + 1)
        except OSError as error:
            raise Bad(f'{name}: {error.strerror}') from None
        if not line:
            return
        if len(line) > LONGEST:
            raise text.TextError(name, number, 1, f'expected a line of up to {LONGEST} bytes')
        yield line


# ---- traces


class Records:
    """A trace in binary, read as it comes."""

    is_text, count, settings = False, None, {}

    def __init__(self, path, number, head):
        self.path, self.name, self.number, self.head = path, shown(path), number, head

    def blocks(self):
        """Its bytes, as they come."""
        if self.head:
            yield self.head
        while block := more(self.number, self.path):
            yield block
        os.close(self.number)

    def pieces(self):
        left = b''
        for block in self.blocks():
            block = left + block
            whole = len(block) - len(block) % SIZE
            yield from text.pieces(block[:whole])
            left = block[whole:]
        if left:
            yield left


class Text:
    """A trace as text. It is read through once before anything is made of it, so that a mistake is told first."""

    is_text, number, head = True, None, b''

    def __init__(self, path, number, head, progress):
        self.path, self.name, self.settings, self.count = path, shown(path), {}, 0
        self.file = self._kept(number, head)
        self.first = self.file.tell()
        progress.stage('lines read')
        for line in text.bytes_of(lines_of(self.file, self.name), self.name, self.settings):
            self.count += line.times
            progress.add()

    def _kept(self, number, head):
        """The file itself if it can be read twice, else a copy of what it has."""
        if stat.S_ISREG(os.fstat(number).st_mode):
            os.lseek(number, -len(head), os.SEEK_CUR)
            return os.fdopen(number, 'rb')
        copy = tempfile.TemporaryFile()
        copy.write(head)
        while block := more(number, self.path):
            copy.write(block)
        os.close(number)
        copy.seek(0)
        return copy

    def digest(self):
        """The hash of the text itself."""
        self.file.seek(self.first)
        found = hashlib.sha256()
        while block := self.file.read(BLOCK):
            found.update(block)
        return found.hexdigest()

    def lines(self):
        """A Line for each of its lines that has a record."""
        self.file.seek(self.first)
        return text.bytes_of(lines_of(self.file, self.name), self.name, {})

    def blocks(self):
        """The bytes of its records, some thousand records at a time."""
        held = bytearray()
        for line in self.lines():
            for at in range(0, line.times, 2048):
                held += line.record * min(2048, line.times - at)
                if len(held) >= BLOCK:
                    yield bytes(held)
                    held.clear()
        if held:
            yield bytes(held)

    def pieces(self):
        for line in self.lines():
            for _ in range(line.times):
                yield line.record


def trace(path, as_text=False, as_binary=False, progress=Progress('')):
    """The trace in a file. It is text by its name, by its first bytes, or if the caller says so."""
    number = opened(path)
    head = b'' if as_text or as_binary else head_of(number, path)
    if as_text or (not as_binary and (path.endswith('.txt') or is_text(head))):
        return Text(path, number, head, progress)
    return Records(path, number, head)


def records(path, as_binary=False):
    """A trace that has to be binary."""
    number = opened(path)
    head = b'' if as_binary else head_of(number, path)
    if is_text(head):
        raise Bad(f'{shown(path)}: this looks like text, and records are expected; --binary takes it for records')
    return Records(path, number, head)


# ---- start files


def is_start_text(data):
    """Whether a start file is text. One of 530 or 535 bytes is only if all of it is, since counters may be any bytes."""
    if len(data) not in (roverivet.START_SIZE, roverivet.LONG_START_SIZE):
        return is_text(data)
    return not CONTROL.search(data) and data.isascii()


def start_of(path, as_text=False):
    """A start file's bytes, text or binary, or None. What it says of the short event limit is not judged."""
    if path is None:
        return None
    data = read_all(path)
    if as_text or path.endswith('.txt') or is_start_text(data):
        return startfile.start_bytes(data, shown(path))
    if roverivet.start_fault(data):
        raise Bad(f'{shown(path)}: {roverivet.start_fault(data)}')
    return data


def start_for(one, given, limit=None):
    """What power-up is given: the start file that is given by hand, or else the one that a trace names, and a limit beside it."""
    return powered(start_path(one.path, one.settings, given), limit)


def start_path(path, settings, given):
    """The start file that is given by hand, or else the one that the trace of this path names, which stands beside it."""
    named = settings.get('start')
    if given or not named:
        return given
    return os.path.join(os.path.dirname(path), named) if path != '-' else named


def powered(path, limit=None):
    """The bytes that power-up is given, or None: a start file's, and beside it a short event limit in decimal digits.

    Raises Refused with 13 for a limit outside 75 to 81, of the digits first.
    """
    number = limit_taken(limit)
    try:
        start = start_of(path)
        named = roverivet.limit_of(start) if start is not None else None
    except startfile.NoLimit as error:
        if number is None:
            raise roverivet.no_limit(error.shown) from None
        named = error.shown
    if number is not None and named not in (None, number):
        raise Bad(f'--short-limit {number}: {shown(path)} names another, the short event limit {named}')
    return roverivet.start_given(start, number)


def limit_taken(limit):
    """The short event limit that some digits are, or None for none of them. Raises Refused with 13."""
    if limit is None:
        return None
    number = startfile.limit_in(limit)
    if number not in roverivet.SHORT_LIMITS:
        raise roverivet.no_limit(number)
    return number


def settings_of(path):
    """What a text sets before its first record, if it is a file that can be read twice and has no mistake so far."""
    settings = {}
    if path != '-' and os.path.isfile(path):
        try:
            with open(path, 'rb') as file:
                next(text.bytes_of(lines_of(file, path), path, settings), None)
        except (Bad, text.TextError, OSError):
            pass
    return settings


# ---- output


def output(path):
    """A file to write bytes to; '-' is standard output."""
    try:
        return open(path, 'wb') if path != '-' else os.fdopen(os.dup(1), 'wb')
    except OSError as error:
        raise Bad(f'{path}: {error.strerror}') from None
