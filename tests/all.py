#!/usr/bin/env -S python3 -B
"""Runs the tests of tests/GATE, two at a time, and adds up their last lines.

    tests/all.py [NAME..]       all of them, or only those that are named
    tests/all.py --jobs N       N at a time

What a test prints stays together, and comes in the order of the list. Tests share no folder but target/, where each
has names of its own.
"""

import argparse
import concurrent.futures
import re
import subprocess
import sys
import time
from pathlib import Path

HERE = Path(__file__).resolve().parent
LAST = re.compile(r'([0-9]+) passed, ([0-9]+) failed')


def listed():
    """The tests of the list, in its order."""
    lines = (line.split('#', 1)[0].strip() for line in (HERE / 'GATE').read_text().splitlines())
    return [line.removesuffix('.py') for line in lines if line]


def tried(name):
    """(what a test printed, how many checks passed and failed). One with no last line, or a bad status, has failed."""
    began = time.monotonic()
    ran = subprocess.run([sys.executable, '-B', str(HERE / f'{name}.py')], stdin=subprocess.DEVNULL, stdout=subprocess.PIPE,
                         stderr=subprocess.STDOUT, text=True, errors='replace')
    last = LAST.fullmatch((ran.stdout.splitlines() or [''])[-1])
    passed, failed = (int(last[1]), int(last[2])) if last else (0, 0)
    if not failed and (ran.returncode or not passed):
        failed = 1
    return f'\ngate: {name}\n{ran.stdout}gate: {name}: {passed} passed, {failed} failed ({time.monotonic() - began:.0f} s)', passed, failed


def main():
    parser = argparse.ArgumentParser(description=__doc__.split('\n')[0])
    parser.add_argument('names', metavar='NAME', nargs='*', help='a test of the list')
    parser.add_argument('--jobs', type=int, default=2, help='how many at a time (2)')
    args = parser.parse_args()
    names = [name.removesuffix('.py') for name in args.names] or listed()
    strange = [name for name in names if name not in listed()]
    if strange or args.jobs < 1:
        parser.error(f'{strange[0]} is no test of tests/GATE' if strange else 'expected one job or more')
    passed = failed = 0
    with concurrent.futures.ThreadPoolExecutor(args.jobs) as pool:
        for printed, fine, wrong in pool.map(tried, names):
            print(printed, flush=True)
            passed, failed = passed + fine, failed + wrong
    print(f'{passed} passed, {failed} failed')
    return 1 if failed or not passed else 0


if __name__ == '__main__':
    sys.exit(main())
