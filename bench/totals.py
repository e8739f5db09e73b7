#!/usr/bin/env python3
"""Measures the program totals: the readings of one counter beside a plain loop in Rust, the model's --totals.

    totals.py [--readings N] [--rounds N] [--without-counts]

See README.md.
"""

import argparse
import random
import shutil
import struct
import tempfile
from pathlib import Path

import bench
import program
import roverivet

END = 1 << 32
BLOCK = 10_000  # readings that are said over and over
TIMES = 20  # for its time, a list is read so often


def steps(chooser):
    """A busy octet counter, polled every second or so; it wraps about once in a block."""
    reading, found = 0, []
    for _ in range(BLOCK):
        found.append(reading := (reading + chooser.randrange(900_000)) % END)
    return found


def anything(chooser):
    return [chooser.randrange(END) for _ in range(BLOCK)]


LISTS = {'steps': steps, 'anything': anything}


def written(path, name, readings):
    block = struct.pack(f'<{BLOCK}I', *LISTS[name](random.Random(name)))
    with open(path, 'wb') as file:
        for at in range(0, readings, BLOCK):
            file.write(block[:4 * min(BLOCK, readings - at)])
    return path


def measure(cost, begun, folder, readings):
    """(list, ours, theirs) a reading, start-up taken off."""
    for name in LISTS:
        spent = cost(written(folder / 'readings', name, readings))
        yield (name, *((spent[who] - begun[who]) / readings for who in ('program', 'model')))


def main():
    parser = argparse.ArgumentParser(description='Measures the program totals against a plain loop in Rust.')
    parser.add_argument('--readings', type=int, default=1_000_000, help='readings in each list (default 1,000,000)')
    parser.add_argument('--rounds', type=int, default=9, help='runs of each, of which the best counts (default 9)')
    parser.add_argument('--without-counts', action='store_true', help='no counting of instructions')
    words = parser.parse_args()
    totals = program.command(roverivet.built('totals'))
    with tempfile.TemporaryDirectory(prefix='bench.') as name:
        folder = Path(name)
        empty = folder / 'empty'
        empty.write_bytes(b'')
        contestants = {'program': totals, 'model': [str(program.model()), '--totals']}

        def time(path):
            return {who: spent * 1e9 for who, spent in bench.best(contestants, path, words.rounds).items()}

        def instructions(path):
            return {who: bench.counted(each, path, folder) for who, each in contestants.items()}

        many = words.readings * TIMES
        bench.show(f'processor time a reading ({many:,} readings, best of {words.rounds}, start-up taken off)', 'ns',
                   measure(time, time(empty), folder, many))
        if words.without_counts:
            return
        if shutil.which('valgrind') is None:
            print('\ninstructions: not counted, there is no valgrind on the path')
            return
        bench.show(f'instructions a reading (callgrind, {words.readings:,} readings, start-up taken off)', '  ',
                   measure(instructions, instructions(empty), folder, words.readings))


if __name__ == '__main__':
    main()
