#!/usr/bin/env -S python3 -B
"""Holds docs/DECISIONS.md to the program and to the repository: each 'Seen by' is run, or what it names is there.

    tests/decisions.py [NUMBER..]

Below a 'Seen by' may stand a block of records in the text form, each with the answer that document 01 and the choice
give it; no answer comes from a run. A record without one is answered ok, and a record that is repeated is answered
alike each time. Every block starts at power-up, with the block 'start' above it as its start file if there is one.

    ```records
    pulse tp0 x4
    burst tp0 d=600 n=64    => rep 100
    ```

Where no run can show a choice, 'Seen by' names what does: a definition, theorem or function of a crate, an edit, a
file, or a test, which then has to be in the gate. What nobody can see stands below, with the reason.
"""

import re
import sys

from checks import Checks, TOP, need_program
from all import listed
from documents import missing_now, names_in

import roverivet
from tools import startfile, text

PAGE = TOP / 'docs' / 'DECISIONS.md'
KEYS = ['Point', 'Choice', 'Why', 'Seen by']
# entry: why neither a run nor a name can show it
UNSEEN = {
    9: 'a mask with a bit above 8 is refused with 3, so that no burst with one comes to the repeater',
    35: 'the numbers wrap after 2^64 records',
}
# entry: constants of which the code has one each
ONCE = {37: ('SHORT_BELOW', 'PARTITIONS_AT', 'LATE_ABOVE', 'LASTING_ABOVE', 'JABBER_ABOVE')}


class Entry:
    """One decision: its number and title, its lines by their keys, and its blocks as (line, kind, lines)."""

    def __init__(self, number, title):
        self.number, self.title, self.fields, self.blocks = number, title, {}, []

    def __str__(self):
        return f'docs/DECISIONS.md: {self.number}. {self.title}'


def entries():
    """Every entry of the page, in its order."""
    found, current, block = [], None, None
    for number, line in enumerate(PAGE.read_text().splitlines(), 1):
        head, item = re.fullmatch(r'### (\d+)\. (.+)', line), re.fullmatch(r'- ([A-Z][a-z ]+): (.+)', line)
        if block is not None:
            if line == '```':
                block = None
            else:
                block.append(line)
        elif head:
            current = Entry(int(head[1]), head[2])
            found.append(current)
        elif line.startswith('#'):
            current = None
        elif current and line.startswith('```'):
            block = []
            current.blocks.append((number, line.removeprefix('```'), block))
        elif current and item:
            current.fields[item[1]] = item[2]
        elif current and line.strip() and current.fields:
            current.fields[list(current.fields)[-1]] += ' ' + line.strip()
    return found


def printed(answer):
    """An answer as the program prints it, without its number."""
    shown = {'ok': '', 'val': f' {answer.value:02x}', 'ref': f' {answer.value}'}
    return answer.word + shown.get(answer.word, f' {answer.value:03x}')


def records(lines, name, first):
    """(line number, record, answer) for each record of a block."""
    for number, line in enumerate(lines, first):
        body, arrow, due = line.partition('#')[0].partition('=>')
        for one in text.bytes_of([body], f'{name}:{number}'):
            yield from [(number, one[1], due.strip() if arrow else 'ok')] * one[2]


def run(checks, entry):
    """Runs the blocks of an entry; gives how many records they had."""
    given, count = None, 0
    for at, kind, lines in entry.blocks:
        where = f'docs/DECISIONS.md:{at}'
        if kind == 'start':
            given = startfile.start_bytes('\n'.join(lines), where)
            continue
        checks.equal(kind, 'records', f'{where}: the kind of block')
        due = list(records(lines, 'docs/DECISIONS.md', at + 1))
        checks.check(any('=>' in line for line in lines), f'{where}: some answer is expected')
        answers = roverivet.answers(b''.join(record for _, record, _ in due), given)
        checks.equal(len(answers), len(due), f'{where}: a line for each record')
        for (line, _, expected), answer in zip(due, answers):
            checks.equal(printed(answer), expected, f'{entry}: line {line}: {PAGE.read_text().splitlines()[line - 1]}')
        given, count = None, count + len(due)
    return count


def named(checks, entry):
    """Looks up what 'Seen by' names, and all that an entry names that has nothing to run; gives how many names 'Seen by' has."""
    seen = names_in(entry.fields.get('Seen by', ''))
    names = seen if entry.blocks else names_in(' '.join(entry.fields.values()))
    gate = [f'{name}.py' for name in listed()]
    for name in names:
        reason = missing_now(name)
        checks.check(reason is None, f'{entry}: {name}', reason)
        if name.startswith('tests/') and name.endswith('.py'):
            checks.check(name.removeprefix('tests/') in gate, f'{entry}: {name} is run by the gate')
    return len(seen)


def once(checks, entry):
    for name in ONCE.get(entry.number, ()):
        places = [path for path in TOP.glob('crates/*/src/**/*.rt') for _ in re.findall(rf'\bconst {name}\b', path.read_text())]
        checks.equal(len(places), 1, f'{entry}: the code has {name} once')


def main(wanted):
    need_program()
    checks, listed, ran, looked = Checks(), entries(), 0, 0
    checks.equal([entry.number for entry in listed], list(range(1, len(listed) + 1)), 'docs/DECISIONS.md: the numbers of its entries')
    checks.check(set(UNSEEN) <= {entry.number for entry in listed}, 'every entry that nobody can see is there')
    for entry in listed:
        if wanted and str(entry.number) not in wanted:
            continue
        checks.equal([key for key in entry.fields if key in KEYS], KEYS, f'{entry}: its lines')
        try:
            count, names = run(checks, entry), named(checks, entry)
        except (roverivet.Ended, ValueError, OSError, text.TextError) as error:
            checks.check(False, str(entry), str(error))
            continue
        once(checks, entry)
        if entry.number in UNSEEN:
            checks.check(not count and not names, f'{entry}: nobody can see it')
            checks.check(entry.fields['Seen by'].startswith('nobody'), f'{entry}: it says so')
        else:
            checks.check(count or names, f'{entry}: it is run, or names what shows it')
        ran, looked = ran + count, looked + names
    print(f'{len(listed)} decisions: {ran} records run, {looked} names that show one, {len(UNSEEN)} that nobody can see')
    return checks.end()


if __name__ == '__main__':
    sys.exit(main(sys.argv[1:]))
