#!/usr/bin/env -S python3 -B
"""Compares crates/every_command/stdout, which the program `every_command` must print, with what commands_expected.py works out. The last line is 'N passed, M failed'."""
import pathlib
import sys

import commands_expected

STORED = pathlib.Path(__file__).resolve().parent.parent / 'crates' / 'every_command' / 'stdout'


def wrongs():
    """One text for each comparison, empty where it holds."""
    found = STORED.read_text(encoding='ascii').split('\n')
    wanted = list(commands_expected.lines()) + ['']
    for number, line in enumerate(wanted):
        here = found[number] if number < len(found) else 'no such line'
        yield '' if here == line else f"{STORED.name}, line {number + 1}: wanted '{line}', found '{here}'"
    yield '' if len(found) == len(wanted) else f'{STORED.name}: {len(found) - 1} lines, wanted {len(wanted) - 1}'
    listed = commands_expected.commands()
    yield '' if set(listed) == commands_expected.manual() else "document 01's table and the manuals' do not name the same bytes"
    yield '' if len(listed) == 45 else f'{len(listed)} bytes are listed, wanted 45'


def main():
    results = list(wrongs())
    failed = [text for text in results if text]
    for text in failed:
        print(text)
    print(f'{len(results) - len(failed)} passed, {len(failed)} failed')
    return 1 if failed else 0


if __name__ == '__main__':
    sys.exit(main())
