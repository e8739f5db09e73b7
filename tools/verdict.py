"""What logs say of each test: green only if every attempt since the named point was green, by the proved program.

flaky      failed or was aborted, and then passed
red        failed
aborted    began and did not end
unsaid     ended, and nobody said whether it passed
unproved   passed, with a program that is not the proved one, or is older than its sources
"""

import datetime
import json
from typing import NamedTuple

import roverivet_log
from roverivet_log import FIELDS, FIRST, VERDICTS, hashed
from tools.inputs import Bad, read_all, shown


class Attempt(NamedTuple):
    """An attempt as its lines tell it: where its last line stands, when it began, what became of it."""
    place: str
    moment: str
    test: str
    state: str
    first_failing: int
    reason: str
    commit: str

    def __str__(self):
        record = f', record {self.first_failing}' if self.first_failing else ''
        return f'{self.place}: {self.moment} {self.state}{record}{": " + self.reason if self.reason else ""}'


# ---- reading a log


class Log:
    """The lines of a log, and what is wrong with them."""

    def __init__(self, path):
        self.name, self.findings, self.lines = shown(path), [], []
        data = read_all(path)
        if not data:
            self.findings.append(f'{self.name}: the log is empty')
        before, number = (FIRST, 0), 0
        for number, line in enumerate(data.removesuffix(b'\n').split(b'\n') if data else (), 1):
            before = (hashed(line), self._take(number, line, *before))
        if data and not data.endswith(b'\n'):
            self.findings.append(f'{self.name}:{number}: the log is cut within this line')
        self._compare(path, data)

    def _take(self, number, line, before, count):
        """One line, behind one that has this hash and calls itself this. Gives what this one calls itself."""
        try:
            entry = json.loads(line)
            wrong = [name for name, kind in FIELDS.items() if name not in entry or not isinstance(entry[name], kind)] if isinstance(entry, dict) else ['all']
        except ValueError:
            wrong = ['all']
        if wrong or entry['verdict'] not in VERDICTS or not _moment(entry['time']):
            self.findings.append(f'{self.name}:{number}: this is no line of a log')
            return count + 1
        if entry['before'] != before or entry['line'] != count + 1:
            self.findings.append(f'{self.name}:{number}: a line before this one was taken out, put in or altered')
        self.lines.append((number, entry))
        return entry['line']

    def _compare(self, path, data):
        """Lines that were taken from the end show by the file beside the log."""
        end = roverivet_log.end_of(path) if path != '-' else None
        if end:
            lines = data.split(b'\n')
            if len(lines) <= end[0] or hashed(lines[end[0] - 1]) != end[1]:
                self.findings.append(f'{self.name}: the log ends before line {end[0]}, of which {self.name}.end speaks')

    def attempts(self):
        """(moment, whether its first line is there, Attempt) in the order of their first lines."""
        found = {}
        for number, entry in self.lines:
            known = found.get(entry['attempt'])
            if entry['verdict'] == 'running':
                if known:
                    self.findings.append(f'{self.name}:{number}: this attempt began already')
            elif not known or known[-1][1]['verdict'] != 'running':
                self.findings.append(f'{self.name}:{number}: this attempt {"ended already" if known else "did not begin"}')
            found.setdefault(entry['attempt'], []).append((number, entry))
        for lines in found.values():
            number, last = lines[-1]
            yield Attempt(f'{self.name}:{number}', last['time'], last['test'], _state(last), last['first_failing'], last['reason'],
                          str(last['version'].get('commit')))


def _state(entry):
    if entry['verdict'] == 'running':
        return 'aborted'
    if entry['verdict'] == 'answered':
        return 'unsaid'
    return 'unproved' if entry['verdict'] == 'green' and entry['version'].get('proved') is not True else entry['verdict']


def _moment(words):
    try:
        found = datetime.datetime.fromisoformat(words.replace('Z', '+00:00'))
    except ValueError:
        return None
    return found if found.tzinfo else found.replace(tzinfo=datetime.timezone.utc)


# ---- the verdict


def told(paths, since, say):
    """Says of each test what became of it; gives whether all is green and no log is damaged."""
    logs = [Log(path) for path in paths]
    attempts = sorted((one for log in logs for one in counted(log)), key=lambda one: one[0])
    attempts = [one for _, one in attempts]
    if since is not None:
        attempts = after(attempts, since)
    findings = [finding for log in logs for finding in log.findings]
    for finding in findings:
        say(f'FINDING {finding}')
    tests = {}
    for one in attempts:
        tests.setdefault(one.test, []).append(one)
    green = 0
    for name, tried in sorted(tests.items()):
        state, lines = judged(tried)
        green += state == 'green'
        say(f'{state} {name}: {len(tried)} attempt{"s" * (len(tried) != 1)}')
        for line in lines:
            say(f'    {line}')
    if not tests:
        say('no attempt' + (f' since {since}' if since else ''))
    say(f'{green} green, {len(tests) - green} not green' + (f', {len(findings)} finding{"s" * (len(findings) != 1)}' if findings else ''))
    return green == len(tests) > 0 and not findings


def counted(log):
    """(moment, Attempt) of a log; a clock that was put back does not bring an attempt before those above it."""
    latest = ''
    for one in log.attempts():
        latest = max(latest, one.moment)
        yield latest, one


def after(attempts, since):
    """The attempts from the first one on that is of this commit, or not before this time."""
    moment = _moment(since)
    if moment:
        first = next((at for at, one in enumerate(attempts) if _moment(one.moment) >= moment), len(attempts))
    elif len(since) < 6:
        raise Bad(f'--since {since}: expected a time, or six digits of a commit or more')
    else:
        first = next((at for at, one in enumerate(attempts) if one.commit.startswith(since)), None)
        if first is None:
            raise Bad(f'--since {since}: neither a time, nor a commit that a line of the logs has')
    return attempts[first:]


def judged(tried):
    """(the word for a test, the lines that show it)."""
    bad = next((at for at, one in enumerate(tried) if one.state != 'green'), None)
    if bad is None:
        return 'green', []
    later = next((one for one in tried[bad:] if one.state == 'green'), None)
    return ('flaky', [tried[bad], later]) if later else (tried[-1].state, [tried[-1]])
