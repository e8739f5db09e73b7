"""Runs texts of records from power-up and holds each answer to the one that is expected of it."""

import itertools
import os
import time
from typing import NamedTuple

import roverivet
import roverivet_log
from roverivet import Ended, HERE, Refused, Running, SIZE
from tools import explain, inputs, watch
from tools.inputs import Bad
from tools.text import TextError

MOST = 1000  # failures of a file that are told one by one
NO_REFUSAL = 'no refusal'


class LogError(Exception):
    """The log cannot be written, so nothing may go on as if it were."""


class Failure(NamedTuple):
    """Neighbours of one line that failed alike: their first and last number, the line, what was due and what came."""
    first: int
    last: int
    line: int
    due: str
    came: str
    words: str = ''

    @property
    def said(self):
        return f'expected {self.due}, came {self.came}'


class Result:
    """What became of one file. `trouble` is why it was not run to its end; `bad` if the file itself is to blame."""

    def __init__(self, name):
        self.name, self.records, self.failed, self.failures = name, 0, 0, []
        self.trouble, self.bad, self.began, self.seconds = '', False, time.monotonic(), 0.0

    @property
    def passed(self):
        return not self.failed and not self.trouble

    @property
    def summary(self):
        if self.trouble:
            return self.trouble if self.trouble.startswith(f'{self.name}:') else f'{self.name}: {self.trouble}'
        return f'{self.name}: {f"{self.failed} of " if self.failed else ""}{self.records} record{"s" * (self.records != 1)}'

    def told(self):
        """The failures: place, what was expected, what came, and beneath it the words of explain."""
        for one in self.failures:
            yield f'{self.name}:{one.line}: {one.said}'
            numbers = f'{one.first}' if one.first == one.last else f'{one.first}-{one.last}'
            yield f'    {numbers} {one.words}' if one.words else f'    record {numbers}'
        left = self.failed - sum(one.last - one.first + 1 for one in self.failures)
        if left:
            yield f'{self.name}: {left} more'

    def take(self, line, answer, allowed):
        """One record's answer."""
        self.records += 1
        due = wrong(line, answer, allowed)
        if not due:
            return
        self.failed += 1
        last = self.failures[-1] if self.failures else None
        if last and (last.last + 1, last.line, last.due, last.came) == (self.records, line.number, due, answer.words):
            self.failures[-1] = last._replace(last=self.records)
        elif len(self.failures) < MOST:
            self.failures.append(Failure(self.records, self.records, line.number, due, answer.words))


def wrong(line, answer, allowed):
    """What was expected of an answer that is not as it should be, or nothing."""
    if line.due and not line.due.met(answer):
        return str(line.due)
    if roverivet.impossible(line.record, answer):
        known = len(line.record) == SIZE and line.record[0] in roverivet.ANSWERS
        return ' or '.join(roverivet.ANSWERS[line.record[0]][0]) if known else 'a refusal'
    if not line.due and answer.word == 'ref' and not allowed:
        return NO_REFUSAL
    return ''


def powered_first(paths, given, limit, log=None):
    """Raises the first refusal of a short event limit before any file is run. What can be read only once is left for its turn."""
    refusals = []
    for path in paths:
        start = inputs.start_path(path, inputs.settings_of(path), given)
        try:
            inputs.powered(start if start and os.path.isfile(start) else None, limit)
        except (Bad, TextError):
            pass  # which is told when it is the file's turn
        except Refused as error:
            refusals.append(not_powered(path, error, log, len(paths) > 1 and not given and limit is None))
    if refusals:
        raise refusals[0]


def not_powered(path, error, log, named):
    """The refusal that a file got at power-up, which is a red attempt in the log. It has the file's name in front if that is wanted."""
    result = Result(inputs.shown(path))
    result.trouble, result.bad = f'{error.reason} (refused {error.number})', True
    if log:
        ended(begun(log, path, None, None), result)
    return Refused(error.number, f'{result.name}: {error.reason}') if named else error


def checked(path, given, allowed, progress, log=None, limit=None, several=False):
    """The Result of one file, with the start file that is given by hand, or else its own, and a short event limit beside it."""
    result, attempt = Result(inputs.shown(path)), None
    try:
        one = inputs.trace(path, as_text=True, progress=progress)
        if not one.count:
            raise Bad(f'{result.name}: there is no record to check')
        start = inputs.start_for(one, given, limit)
        attempt = log and begun(log, path, start, one.digest())
        progress.stage('records', one.count)
        _run(result, one, start, allowed or 'refusals' in one.settings, progress, attempt)
        _explain(result, one, start)
    except (Bad, TextError) as error:
        result.trouble, result.bad = str(error), True
    except Refused as error:
        raise not_powered(path, error, log, several and not given)
    except Ended as error:
        result.trouble = str(error)
    result.seconds = time.monotonic() - result.began
    if log:
        ended(attempt or begun(log, path, None, None), result)
    return result


def begun(log, path, start, digest):
    """The attempt that this run of a file is, in the log."""
    try:
        return roverivet_log.Attempt(log, test_name(path), start, digest)
    except OSError as error:
        raise LogError(f'{log}: {error.strerror}') from None


def ended(attempt, result):
    first = result.failures[0] if result.failures else None
    reason = f'{result.name}:{first.line}: {first.said}' if first else result.trouble
    number = first.first if first else result.records + 1 if result.trouble and not result.bad else None
    try:
        attempt.end('green' if result.passed else 'red', number, reason)
    except OSError as error:
        raise LogError(f'{attempt.path}: {error.strerror}') from None


def test_name(path):
    """The same name for a file however it is called: from the repository's top, or in full."""
    if path == '-':
        return inputs.shown(path)
    full = os.path.realpath(path)
    return os.path.relpath(full, HERE) if full.startswith(f'{HERE}{os.sep}') else full


def _run(result, one, start, allowed, progress, attempt):
    with Running(start, strict=False) as program:
        program.tally = attempt.take if attempt else None
        for batch in _batches(one.lines()):
            data = b''.join(line.record for line in batch)
            whole = len(data) - len(data) % SIZE
            answers = program.ask(data[:whole])
            if whole < len(data):
                answers += program.finish(data[whole:])
            for line, answer in zip(batch, answers):
                result.take(line, answer, allowed)
            progress.add(len(batch))


def _batches(lines):
    """Lists of lines, one for each record."""
    every = itertools.chain.from_iterable(itertools.repeat(line, line.times) for line in lines)
    while batch := list(itertools.islice(every, Running.BATCH)):
        yield batch


def _explain(result, one, start):
    """Gives each failure explain's words, from a run of their own."""
    if not result.failures:
        return
    wanted = {failure.first: at for at, failure in enumerate(result.failures)}
    try:
        for seen in watch.watched(itertools.islice(one.pieces(), max(wanted)), start):
            if seen.number in wanted:
                failure = result.failures[wanted[seen.number]]
                words = explain.told(seen)
                if seen.answer.words != failure.came:
                    words += f' (and when it was run once more, {seen.answer.words})'
                result.failures[wanted[seen.number]] = failure._replace(words=words)
    except Ended as error:
        at = next(at for at, failure in enumerate(result.failures) if not failure.words)
        result.failures[at] = result.failures[at]._replace(words=f'cannot be explained: {error}')
