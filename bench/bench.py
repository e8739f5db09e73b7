#!/usr/bin/env python3
"""Measures a program against the model in plain Rust, on the same traces in the same run.

    bench.py [PROGRAM] [--records N] [--rounds N] [--without-counts] [--without-memory]

PROGRAM is crates/run/out/run unless named; the word 'model' measures the model against itself. See README.md.
"""

import argparse
import os
import random
import re
import shutil
import subprocess
import sys
import tempfile
import threading
from pathlib import Path

TESTS = Path(__file__).resolve().parent.parent / 'tests'
sys.path.insert(0, str(TESTS))

import program
import record as rec

COUNTED = 100_000
FEW = 1_000
MANY = 10_000_000
BLOCK = 10_000
UP = [rec.PULSES[255]] * 4
BANKS = [*range(16, 24), 31]


# ---- the four traces: a block of records, said over and over

def tick_block(chooser):
    return [rec.TICK_RECORD] * BLOCK


def a_burst(chooser):
    """Mostly good frames of one port; now and then a runt, a bad frame or a collision, too few to partition."""
    port = chooser.randrange(9)
    source = bytes([2, 0, 0, 0, 0, port])
    what = chooser.random()
    if what < 0.8:
        n = chooser.choice([64, 64, 200, 590, 1518])
        return rec.burst(1 << port, 8 * n + 64, n, source=source)
    if what < 0.9:
        return rec.burst(1 << port, 400, 40, source=source)
    if what < 0.95:
        return rec.burst(1 << port, 1000, 100, k=3, flags=rec.FCS_BAD, source=source)
    return rec.burst(1 << port | 1 << (port + 1) % 9, 600, c=100, x=96)


def burst_block(chooser):
    return [a_burst(chooser) for _ in range(BLOCK)]


def a_reading(chooser):
    """A counter read as a manager reads it: bank, register, four bytes."""
    return [rec.C_WRITES[chooser.choice(BANKS)], rec.C_WRITES[0xE0 + chooser.randrange(13)], *[rec.D_READ_RECORD] * 4]


def host_block(chooser):
    block = []
    while len(block) < BLOCK:
        block += a_reading(chooser)
    return block[:BLOCK]


def mixed_block(chooser):
    """Traffic, time and a polling manager: four tenths bursts, three tenths ticks, the rest pulses and readings."""
    block = []
    while len(block) < BLOCK:
        what = chooser.random()
        if what < 0.55:
            block.append(a_burst(chooser))
        elif what < 0.9:
            block.append(rec.TICK_RECORD)
        elif what < 0.95:
            block.append(rec.PULSES[255])
        else:
            block += a_reading(chooser)
    return block[:BLOCK]


TRACES = {'ticks': tick_block, 'bursts': burst_block, 'host reads': host_block, 'mixed': mixed_block}


def written(path, name, records):
    """A trace of exactly so many records, all links up at its beginning."""
    block = TRACES[name](random.Random(name))
    with open(path, 'wb') as file:
        left = records
        for part in (UP, *[block] * (records // BLOCK + 1)):
            part = part[:left]
            file.write(b''.join(part))
            left -= len(part)
    return path


# ---- time

def seconds(words, path):
    """The processor time of one run, so that what else the machine does weighs little."""
    with open(path, 'rb') as trace:
        child = subprocess.Popen(words, stdin=trace, stdout=subprocess.DEVNULL)
    _, status, used = os.wait4(child.pid, 0)
    child.returncode = os.waitstatus_to_exitcode(status)
    if child.returncode != 0:
        program.give_up(f'{words[-1]} ended with status {child.returncode}')
    return used.ru_utime + used.ru_stime


def best(contestants, path, rounds):
    """The best time of each, the contestants taking turns."""
    times = {name: [] for name in contestants}
    for _ in range(rounds):
        for name, words in contestants.items():
            times[name].append(seconds(words, path))
    return {name: min(each) for name, each in times.items()}


def show(title, unit, rows):
    print(f'\n{title}')
    print(f'{"trace":12}{"program":>14}{"model":>14}{"ratio":>8}')
    for name, ours, theirs in rows:
        print(f'{name:12}{ours:>11.1f} {unit}{theirs:>11.1f} {unit}{ours / theirs:>8.2f}', flush=True)


def measure_time(contestants, folder, records, rounds):
    empty = folder / 'empty'
    empty.write_bytes(b'')
    begun = best(contestants, empty, rounds)
    rows = []
    for name in TRACES:
        spent = best(contestants, written(folder / 'trace', name, records), rounds)
        ours, theirs = ((spent[who] - begun[who]) / records * 1e9 for who in ('program', 'model'))
        rows.append((name, ours, theirs))
    show(f'processor time a record ({records:,} records, best of {rounds}, start-up taken off)', 'ns', rows)


# ---- instructions

def watched(tool, words, path):
    """What valgrind says on standard error of a run under one of its tools."""
    with open(path, 'rb') as trace:
        done = subprocess.run(
            ['valgrind', *tool, *words], stdin=trace, stdout=subprocess.DEVNULL, stderr=subprocess.PIPE, text=True)
    if done.returncode != 0:
        program.give_up(f'valgrind ended with status {done.returncode}: {done.stderr[-500:]}')
    return done.stderr


def counted(words, path, folder):
    said = watched(['--tool=callgrind', f'--callgrind-out-file={folder / "callgrind"}'], words, path)
    return int(re.search(r'Collected : (\d+)', said).group(1))


def measure_instructions(contestants, folder, empty):
    begun = {who: counted(words, empty, folder) for who, words in contestants.items()}
    rows = []
    for name in TRACES:
        path = written(folder / 'trace', name, COUNTED)
        ours, theirs = (
            (counted(contestants[who], path, folder) - begun[who]) / COUNTED for who in ('program', 'model'))
        rows.append((name, ours, theirs))
    show(f'instructions a record (callgrind, {COUNTED:,} records, start-up taken off)', '  ', rows)


# ---- stack

def deepest(words, path, folder):
    """The most stack in bytes."""
    snapshots = folder / 'massif'
    watched(['--tool=massif', '--stacks=yes', '--heap=no', '--detailed-freq=1000', f'--massif-out-file={snapshots}'], words, path)
    return max(map(int, re.findall(r'mem_stacks_B=(\d+)', snapshots.read_text())))


def measure_stack(contestants, folder, empty):
    path = written(folder / 'trace', 'bursts', FEW)
    print('\nstack at its deepest: no input, and bursts')
    for who, words in contestants.items():
        none, bursts = deepest(words, empty, folder), deepest(words, path, folder)
        print(f'{who:12}{none:>8,} B{bursts:>10,} B', flush=True)


def measure_counts(contestants, folder):
    if shutil.which('valgrind') is None:
        print('\ninstructions a record, and stack: not counted, there is no valgrind on the path')
        return
    empty = folder / 'empty'
    empty.write_bytes(b'')
    measure_instructions(contestants, folder, empty)
    measure_stack(contestants, folder, empty)


# ---- memory

def peak(words, records):
    """The most memory a program ever had resident, in kB, after so many records and before its input ends.

    Read while the program waits for more: the figure that wait() hands over would count the Python that started it.
    """
    block = b''.join(mixed_block(random.Random('memory')))
    child = subprocess.Popen(words, bufsize=0, stdin=subprocess.PIPE, stdout=subprocess.PIPE)

    def feed():
        left = records * rec.SIZE
        while left > 0:
            child.stdin.write(block[:left])
            left -= len(block)

    feeder = threading.Thread(target=feed)
    feeder.start()
    lines = 0
    while lines < records:
        chunk = child.stdout.read(1 << 16)
        if not chunk:
            program.give_up(f'{words[-1]} ended after {lines} of {records} records')
        lines += chunk.count(b'\n')
    feeder.join()
    status = Path('/proc', str(child.pid), 'status').read_text()
    child.stdin.close()
    child.wait()
    child.stdout.close()
    return int(re.search(r'VmHWM:\s*(\d+) kB', status).group(1))


def measure_memory(contestants):
    if not Path('/proc/self/status').is_file():
        print('\nresident memory: not measured, there is no /proc here')
        return
    print(f'\nresident memory at its peak: ten records, and {MANY:,}')
    for who, words in contestants.items():
        few, many = peak(words, 10), peak(words, MANY)
        print(f'{who:12}{few:>8,} kB{many:>8,} kB', flush=True)


def main():
    parser = argparse.ArgumentParser(description='Measures a program against the model of document 01.')
    parser.add_argument('program', nargs='?', default=str(program.PROVED), help="a path, or 'model' (default: crates/run/out/run)")
    parser.add_argument('--records', type=int, default=1_000_000, help='records in each trace (default 1,000,000)')
    parser.add_argument('--rounds', type=int, default=9, help='runs of each, of which the best counts (default 9)')
    parser.add_argument('--without-counts', action='store_true', help='no counting of instructions and stack')
    parser.add_argument('--without-memory', action='store_true', help='no measuring of memory')
    words = parser.parse_args()
    contestants = {'program': program.named(words.program), 'model': [str(program.model())]}
    with tempfile.TemporaryDirectory(prefix='bench.') as name:
        folder = Path(name)
        measure_time(contestants, folder, words.records, words.rounds)
        if not words.without_counts:
            measure_counts(contestants, folder)
        if not words.without_memory:
            measure_memory(contestants)


if __name__ == '__main__':
    main()
