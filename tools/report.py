"""What `check` found, as lines for people, as TAP, and as JUnit's XML."""

import html
import re

NO_XML = re.compile('[^\t\n\r\x20-\ud7ff\ue000-\ufffd\U00010000-\U0010ffff]')


def plain(results, say):
    """Tells each result as it comes; gives them as a list."""
    found = []
    for result in results:
        for line in result.told():
            say(line)
        say(f'{"passed" if result.passed else "FAILED"} {result.summary}')
        found.append(result)
    say(last_line(found))
    return found


def tap(results, say, count, version):
    """The same in the Test Anything Protocol."""
    found = []
    say('TAP version 13')
    say(f'1..{count}')
    for line in version:
        say(f'# {line}')
    for number, result in enumerate(results, 1):
        say(f'{"ok" if result.passed else "not ok"} {number} - {result.name.replace("#", "_")}')
        for line in result.told():
            say(f'# {line}')
        if result.trouble:
            say(f'# {result.trouble}')
        found.append(result)
    say(f'# {last_line(found)}')
    return found


def last_line(results):
    passed = sum(result.passed for result in results)
    return f'{passed} passed, {len(results) - passed} failed'


def junit(results, version):
    """The text of a JUnit file."""
    bad = sum(result.bad for result in results)
    failed = sum(not result.passed for result in results) - bad
    counts = f'tests="{len(results)}" failures="{failed}" errors="{bad}" time="{sum(r.seconds for r in results):.3f}"'
    lines = ['<?xml version="1.0" encoding="UTF-8"?>', f'<testsuites {counts}>', f'<testsuite name="roverivet check" {counts}>', '<properties>']
    for line in version:
        name, _, value = line.partition(': ')
        lines.append(f'<property name={_attribute(name)} value={_attribute(value)}/>')
    lines.append('</properties>')
    for result in results:
        head = f'<testcase classname="roverivet" name={_attribute(result.name)} time="{result.seconds:.3f}"'
        if result.passed:
            lines.append(f'{head}/>')
            continue
        kind = 'error' if result.bad else 'failure'
        message = result.trouble or result.failures[0].said
        told = '\n'.join([*result.told(), result.summary])
        lines += [f'{head}>', f'<{kind} message={_attribute(message)}>{html.escape(_clean(told))}</{kind}>', '</testcase>']
    return '\n'.join(lines + ['</testsuite>', '</testsuites>', ''])


def _clean(words):
    return NO_XML.sub('\ufffd', words)


def _attribute(words):
    return f'"{html.escape(_clean(words))}"'
