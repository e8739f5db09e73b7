#!/usr/bin/env python3
"""Measures the program export: a whole trace beside the model in plain Rust, and one attribute beside nine banks.

    export.py [--records N] [--rounds N] [--without-counts]

See README.md.
"""

import argparse
import shutil
import tempfile
from pathlib import Path

import bench
import program
import record as rec
import roverivet

FEW = 10_000
READS = b''.join(b''.join([rec.C_WRITES[bank], rec.C_WRITES[0xE0 + 1], *[rec.D_READ_RECORD] * 4]) for bank in bench.BANKS)


def measure_attribute(export, run, folder):
    """Readable Octets of all ports behind the same trace: a line more of export, and 54 records more of run."""
    path, longer = bench.written(folder / 'trace', 'mixed', FEW), folder / 'longer'
    longer.write_bytes(path.read_bytes() + READS)
    line = (bench.counted([*export, 'all'], path, folder) - bench.counted([*export, '1'], path, folder)) / 12
    banks = bench.counted(run, longer, folder) - bench.counted(run, path, folder)
    print('\none attribute over the nine ports, in instructions, printing included')
    print(f'from the stretch {line:,.0f}, through nine banks {banks:,}, ratio {banks / line:.2f}')


def main():
    parser = argparse.ArgumentParser(description='Measures the program export against the model of document 01.')
    parser.add_argument('--records', type=int, default=1_000_000, help='records in each trace (default 1,000,000)')
    parser.add_argument('--rounds', type=int, default=9, help='runs of each, of which the best counts (default 9)')
    parser.add_argument('--without-counts', action='store_true', help='no counting of instructions')
    words = parser.parse_args()
    export, run = (program.command(roverivet.built(name)) for name in ('export', 'run'))
    with tempfile.TemporaryDirectory(prefix='bench.') as name:
        folder = Path(name)
        contestants = {'program': [*export, 'all'], 'model': [str(program.model()), '--export', 'all']}
        bench.measure_time(contestants, folder, words.records, words.rounds)
        if words.without_counts:
            return
        if shutil.which('valgrind') is None:
            print('\ninstructions: not counted, there is no valgrind on the path')
            return
        bench.measure_instructions(contestants, folder, folder / 'empty')
        measure_attribute(export, run, folder)


if __name__ == '__main__':
    main()
