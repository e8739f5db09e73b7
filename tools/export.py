"""Counters after a trace as CSV, a line for each attribute with a value for each port: as the program `export` prints them.

Where ROVERIVET_RUN names another program, or there is nothing to build `export` with, the records go to that program, and
the counters are read through the registers behind them.
"""

import re
import subprocess

import roverivet
from roverivet import ATTRIBUTES, BANKS, Ended, PORTS, Running, SIZE
from tools import build
from tools.watch import READ, select

EXPORT = build.path_of('export')
HEADER = ','.join(['attribute', *(port.lower() for port in PORTS)])
REFUSED = re.compile(r'export: ([1-9][0-9]*) records? refused\n')
VALUES = re.compile(r'(?:,(?:0|[1-9][0-9]{0,9})){9}')


def usable(progress=None):
    """Whether `export` is there and is the program that is asked for; it is proved and built if need be."""
    return build.usable('export', progress)


def exported(one, start, names, progress):
    """(lines of CSV, how many records were refused) for one attribute, or for all in the order of their registers."""
    found = by_program if usable() else by_registers
    return found(one, start, names, progress)


# ---- by the program


def by_program(one, start, names, progress):
    word = 'all' if len(names) == len(ATTRIBUTES) else str(ATTRIBUTES.index(names[0]))
    more, file = roverivet._start_words(start)
    try:
        process = subprocess.Popen(roverivet.starting(EXPORT) + [word] + more, stdin=subprocess.PIPE,
                                   stdout=subprocess.PIPE, stderr=subprocess.PIPE, pass_fds=[file.fileno()] if file else ())
    finally:
        if file:
            file.close()
    try:
        whole = fed(process, one.blocks(), progress)
        said, told = (some.decode('ascii', 'replace') for some in process.communicate())
    except BaseException:
        process.kill()
        process.wait()
        raise
    if process.returncode or not whole:
        raise Ended(f'the program export ended before its input did, status {process.returncode}: {told.strip()[:80]}')
    return lines_of(said, names), refused_in(told)


def fed(process, blocks, progress, size=SIZE):
    """Writes blocks to a program, which prints nothing before their end; whether all was taken. Counts pieces of a size."""
    whole = True
    try:
        for block in blocks:
            process.stdin.write(block)
            progress.add(len(block) // size)
        process.stdin.close()
    except BrokenPipeError:
        whole = False
    process.stdin = None  # communicate has nothing to write
    return whole


def lines_of(said, names):
    """The lines that the program printed, each of the form that is due."""
    lines = said.split('\n')
    if lines[:1] != [HEADER] or lines[-1] or len(lines) != len(names) + 2:
        raise Ended(f'the program export printed {said[:80]!r}')
    for line, name in zip(lines[1:], names):
        if not line.startswith(name) or not VALUES.fullmatch(line[len(name):]):
            raise Ended(f'the program export printed {line[:80]!r} for {name}')
    return lines[:-1]


def refused_in(told):
    found = REFUSED.fullmatch(told)
    if told and not found:
        raise Ended(f'the program export said {told[:80]!r}')
    return int(found[1]) if found else 0


# ---- by the registers


def by_registers(one, start, names, progress):
    with Running(start) as program:
        refused, left = 0, b''
        for block in one.blocks():
            block = left + block
            whole = len(block) - len(block) % SIZE
            refused += refusals(program.ask(block[:whole]))
            left = block[whole:]
            progress.add(whole // SIZE)
        lines = [HEADER] + [','.join([name, *(str(counter(program, bank, ATTRIBUTES.index(name))) for bank in BANKS)]) for name in names]
        refused += refusals(program.finish(left)) if left else 0
    return lines, refused


def refusals(answers):
    return sum(answer.word == 'ref' for answer in answers)


def counter(program, bank, register):
    answers = program.ask(b''.join(select(bank, register) + [READ] * 4))
    return sum(answer.value << 8 * place for place, answer in enumerate(answers[2:]))
