"""The run log: every attempt of a test, one JSON object a line, only ever appended to.

An attempt has a line when it begins, with the verdict `running`, and one when it ends. What has no second line was
aborted. Each line carries the hash of the line before it, so that a line taken out shows, and beside the log stands
FILE.end with the number of its lines and the hash of the last, so that lines taken from the end show too.
`./roverivet verdict` reads logs.
"""

import datetime
import errno
import fcntl
import hashlib
import json
import os
import sys
import uuid

import roverivet_version

FIRST = '0' * 64  # what stands for the hash before the first line
CLEANING = ('_callTearDown', '_callCleanup', 'doCleanups', 'doClassCleanups', 'doModuleCleanups')  # of unittest
VERDICTS = ('running', 'green', 'red', 'aborted', 'unsaid', 'answered')
FIELDS = {'line': int, 'time': str, 'test': str, 'attempt': str, 'verdict': str, 'version': dict, 'trace': (str, type(None)),
          'text': (str, type(None)), 'start': (str, type(None)), 'records': int, 'refusals': dict, 'first_failing': (int, type(None)),
          'reason': str, 'before': str}
LATER = {'expected': int, 'faults': list, 'said_by': (str, type(None))}  # which lines of older logs have not


def hashed(data):
    return hashlib.sha256(data).hexdigest()


# ---- a line


def append(path, entry):
    """Adds a line under a lock, in one write, and waits until it is on the disk."""
    number = os.open(path, os.O_RDWR | os.O_APPEND | os.O_CREAT | os.O_CLOEXEC, 0o666)
    try:
        fcntl.flock(number, fcntl.LOCK_EX)
        last, whole = _last_line(number)
        count = _count(number, last)
        line = json.dumps({'line': count + 1, 'time': now(), **entry, 'before': hashed(last) if last is not None else FIRST}).encode()
        data = (b'' if whole else b'\n') + line + b'\n'
        if os.write(number, data) != len(data):
            raise OSError(errno.ENOSPC, 'the line was not written whole', path)
        os.fsync(number)
        _put_end(path, count, last, hashed(line))
    finally:
        os.close(number)


def now():
    return datetime.datetime.now(datetime.timezone.utc).strftime('%Y-%m-%dT%H:%M:%S.%fZ')


def _last_line(number):
    """(the last line without its end, or None, and whether it has an end)."""
    size, came = os.lseek(number, 0, os.SEEK_END), b''
    if not size:
        return None, True
    while size and b'\n' not in came[:-1]:
        step = min(size, 4096)
        size -= step
        came = os.pread(number, step, size) + came
    return came.removesuffix(b'\n').rsplit(b'\n', 1)[-1], came.endswith(b'\n')


def _count(number, last):
    """How many lines there are: as the last one says, or counted if it is damaged."""
    try:
        return 0 if last is None else int(json.loads(last)['line'])
    except (ValueError, KeyError, TypeError):
        with os.fdopen(os.dup(number), 'rb') as file:
            file.seek(0)
            return sum(1 for _ in file)


# ---- the end beside it


def end_of(path):
    """(lines, hash of the last) by the file beside a log, or None."""
    try:
        with open(f'{path}.end', encoding='ascii') as file:
            lines, digest = file.read().split()
            return int(lines), digest
    except FileNotFoundError:
        return None
    except (OSError, ValueError):
        return 0, 'damaged'


def _put_end(path, count, last, digest):
    """Moves the end on. An end that does not fit the log as it was stays, so that it is found."""
    known = end_of(path)
    if known is None or known == (count, hashed(last) if last is not None else FIRST) or _holds(path, known):
        with open(f'{path}.end.new', 'w', encoding='ascii') as file:
            file.write(f'{count + 1} {digest}\n')
        os.replace(f'{path}.end.new', f'{path}.end')


def _holds(path, end):
    """Whether a log still has the line that its end speaks of."""
    with open(path, 'rb') as file:
        return any(number == end[0] and hashed(line.removesuffix(b'\n')) == end[1] for number, line in enumerate(file, 1))


# ---- an attempt


class Attempt:
    """One attempt of a test. What it asked and was answered is added up by `take`."""

    def __init__(self, path, test, start=None, text=None, judge=None):
        self.path, self.process, self.over, self.judge = os.path.abspath(path), os.getpid(), False, judge
        self.digest, self.records, self.refusals = hashlib.sha256(), 0, {}
        self.fixed = {'test': test, 'attempt': uuid.uuid4().hex, 'start': hashed(start) if start is not None else None, 'text': text,
                      'version': roverivet_version.version()}
        self._write('running', None, '', None, None)

    def take(self, data, answers):
        self.digest.update(data)
        self.records += len(answers)
        if self.judge:
            self.judge.take(answers)
        for answer in answers:
            if answer.word == 'ref':
                self.refusals[str(answer.value)] = self.refusals.get(str(answer.value), 0) + 1

    def end(self, verdict, first_failing=None, reason='', said_by=None):
        """The second line, once, and only from the process that wrote the first. No attempt with a fault is green."""
        if not self.over and self.process == os.getpid():
            self.over = True
            if self.judge and self.judge.faults and verdict != 'aborted':
                verdict, first_failing, reason = 'red', *self.judge.faults[0]
            self._write(verdict, first_failing, reason, self.digest.hexdigest(), said_by)

    def _write(self, verdict, first_failing, reason, trace, said_by):
        faults = [fault._asdict() for fault in self.judge.faults] if self.judge else []
        append(self.path, {**self.fixed, 'verdict': verdict, 'trace': trace, 'records': self.records, 'refusals': self.refusals,
                           'expected': self.judge.expected if self.judge else 0, 'faults': faults, 'said_by': said_by,
                           'first_failing': first_failing, 'reason': reason})


# ---- a client's connection


def begun(path, name, start):
    """The attempt that a chip's connection is, named as its test is; `start` is what power-up was given, as bytes, or None."""
    return Attempt(path, name or _test()[0] or os.path.basename(sys.argv[0]) or 'python', start)


def ended(attempt, program, claim, error, within):
    """Writes how a connection ended: `claim` is what the harness said of it, `within` whether a with block ended."""
    trouble = program.trouble
    if trouble:
        attempt.end('red', trouble[0], trouble[1])
    elif error is not None:
        attempt.end(_verdict_of(error), program.asked or None, f'{type(error).__name__}: {error}'[:500])
    elif claim and claim[0] == 'red':
        attempt.end('red', program.asked or None, claim[1])
    elif not attempt.records:
        attempt.end('unsaid', None, 'no record was sent')
    elif claim or (within and not _test()[1]):
        attempt.end('green')
    else:
        attempt.end('unsaid', None, 'closed outside a with block of the test, and without passed() or failed()')


def _verdict_of(error):
    if type(error).__name__ in ('SkipTest', 'Skipped'):
        return 'unsaid'
    return 'red' if isinstance(error, Exception) else 'aborted'


def _test():
    """(the name of the test that runs, if a harness that is known runs one, and whether that cleans up after it)."""
    named, _, phase = os.environ.get('PYTEST_CURRENT_TEST', '').rpartition(' ')
    cleaning, frame = phase == '(teardown)', sys._getframe()
    while frame:
        if frame.f_globals.get('__name__') == 'unittest.case':
            cleaning = cleaning or frame.f_code.co_name in CLEANING
            if frame.f_code.co_name == 'run':
                named = named or frame.f_locals['self'].id()
        frame = frame.f_back
    return named, cleaning
