#!/usr/bin/env -S python3 -B
"""Holds the stack that a burst takes to the figures below, by the code of the built programs.

    tests/frames.py                    the figures, and the reader by itself
    tests/frames.py --tell [PROGRAM]   what each function of a program takes, the deepest first; run, or another program's name, or a path

A frame is all that a function holds of the stack: its return address, what it pushes, and what it takes. A depth goes
from the entry of a function down, along the calls that hold most. What the C library takes below a call of it is not
counted, only the return address. How it is read: stack.py. Nothing is timed and nothing is run.

A path that holds more than its figure is a failure, and the functions that grew are named. One that holds less passes.
The last line is 'N passed, M failed'."""

import sys
import tempfile
from collections import namedtuple
from pathlib import Path

from checks import Checks, TOP
import roverivet
import stack

BUFFERS = 2 * 65_536

# In bytes: from a function down to the deepest, each function with what it holds there. The figure is the sum. To set one anew, put the path here that
# the test prints. With `beside` the first function's frame alone is held, without so many bytes of buffers.
Figure = namedtuple('Figure', 'what program path beside', defaults=(None,))
FIGURES = [
    Figure('the frame that the burst is compiled into, beside its two buffers', 'run', 'run::run_from 5,408', BUFFERS),
    Figure('the step by itself', 'one_step', 'himib::step 3,072 > access::accept 336'),
    Figure("the repeater's burst by itself", 'every_command', 'repeater::Repeater::burst 368'),
    Figure('the program', 'run', 'run::main+start 19,136 > run::run_from 136,480 > std::io::stdio::StdoutWrite::write_all 128 > std_io::io::error::Error::from_bytes 592'),
]
SLACK = 10  # per cent that a figure may be above what is found before the test says so


# ---- figures

def told(path):
    return ' > '.join(f'{name} {held:,}' for name, held in path)


def noted(text):
    """The path that a figure has."""
    words = [word.rsplit(' ', 1) for word in text.split(' > ')]
    return [(name, int(held.replace(',', ''))) for name, held in words]


def found_for(figure, program):
    """The path in the program that a figure is about."""
    start = program.called(noted(figure.path)[0][0])
    if figure.beside is None:
        return program.depth(start).path
    return [(program.functions[start].name, program.frame(start).bytes - figure.beside)]


def total(path):
    return sum(held for _, held in path)


def grown(path, before):
    """What is to be said of each function that holds more than its figure, or that has none."""
    old = dict(before)
    for name, held in path:
        if name not in old:
            yield f'{name} was not on the path: it holds {held:,}'
        elif held > old[name]:
            yield f'{name} grew by {held - old[name]:,}: it holds {held:,}, and its figure is {old[name]:,}'


def judged(figure, program):
    """Whether the program keeps within a figure, and lines on it: the path that was found is the last."""
    path, before = found_for(figure, program), noted(figure.path)
    most, had = total(path), total(before)
    lines = [f'{figure.what}: {most:,} bytes, and the figure is {had:,}']
    if most > had:
        lines += grown(path, before)
    elif had * 100 > most * (100 + SLACK):
        lines.append(f'the figure is more than {SLACK} per cent above that: it can be set anew')
    return most <= had, [*lines, f'{program.name}: {told(path)}']


def hold(checks):
    """The figures, against the programs that are built."""
    for figure in FIGURES:
        try:
            fine, lines = judged(figure, stack.program(roverivet.built(figure.program)))
        except stack.Unread as error:
            checks.check(False, f'{figure.what}: it cannot be told', str(error), 'frames.py --tell PROGRAM lists the functions that a program has')
            continue
        if checks.check(fine, *lines):
            print(*lines, sep='\n       ', flush=True)


# ---- the reader by itself, on code made by hand

# What it is, its bytes, and its frame with the return address.
SHEET = [
    ('nothing', 'c3', 8),
    ('pushes and a small frame', '55 4157 4883ec18 31c0 4883c418 415f 5d c3', 8 + 16 + 24),
    ('a frame of four bytes', '4881ec38090000 4881c438090000 c3', 8 + 0x938),
    ('a frame of 128, given back by taking -128', '4881ec80000000 4883ec80 c3', 8 + 128),
    ('a push for alignment', '50 59 c3', 16),
    ('a frame taken and given back as addresses', '488d6424e8 488d642418 c3', 8 + 24),
    ('three pages probed by a loop, and more', '4989e3 4981eb00300000 4881ec00100000 48c7042400000000 4c39dc 75ec 4881ec780b0000 4881c4783b0000 c3', 8 + 0x3b78),
    ('four steps of 3,072 bytes probed by a loop, and more', '4989e3 4981eb00300000 4881ec000c0000 48c7042400000000 4c39dc 75ec 4881ec780b0000 4881c4783b0000 c3', 8 + 0x3b78),
    ('the same, by the other form', '4c8d9c2400d0ffff 4881ec00100000 48c7042400000000 4c39dc 75ec 4883ec08 4881c408300000 c3', 8 + 0x3008),
    ('two pages probed one by one', '4881ec00100000 48c7042400000000 4881ec00100000 48c7042400000000 4881c400200000 c3', 8 + 0x2000),
    ('pushes behind a test, and two ways out', '4885ff 740a 53 4883ec20 4883c420 5b c3', 8 + 8 + 32),
    ('an aligned frame, up to 31 bytes more', '55 4889e5 4883e4e0 4883ec40 4889ec 5d c3', 8 + 8 + 31 + 64),
    ('the same, given back by an address', '55 4889e5 53 4883e4e0 4883ec40 488d65f8 5b 5d c3', 8 + 8 + 8 + 31 + 64),
    ('a frame kept in rbp', '55 4889e5 4883ec10 c9 c3', 8 + 8 + 16),
    ('rbp in other use on one of two ways', '55 4885ff 7403 4889e5 5d c3', 8 + 8),
    ('bytes below the stack pointer', '48897c24f8 488b4424f8 c3', 8 + 8),
    ('the same by rbp', '55 4889e5 48897df0 5d c3', 8 + 8 + 16),
    ('a list below the stack pointer, by an index', '88443cf0 c3', 8 + 128),
    ('the same by its address', '488d4424f0 c3', 8 + 128),
    ('a jump by a table, and its two targets', '4883ec28 ffe0 4883c428 c3 6690 4883c428 c3', 8 + 40),
    ('a loop', '53 ffc8 75fc 5b c3', 16),
    ('padding that is jumped over', 'eb03 0f1f00 c3', 8),
    ('the second byte of rax, which has the number of rsp', 'b401 80c401 c3', 8),
    ('an instruction that has the bytes of another in it', 'b84881ec7f c3', 8),
    ('a stop in place of a return', '4883ec18 0f0b', 8 + 24),
]
# What must not be read, and what is said of it.
STRANGE = [
    ('a frame of some register', '4829c4 c3', 'alters rsp'),
    ('another stack', '4889c4 c3', 'alters rsp'),
    ('rsp by exchange', '4887e0 c3', 'alters rsp'),
    ('rsp by exchange with rax', '4894 c3', 'alters rsp'),
    ('rsp from the stack', '5c c3', 'alters rsp'),
    ('rsp as a number', '48c7c400000000 c3', 'alters rsp'),
    ('rsp from rbp, which is anything', '4889ec c3', 'rbp'),
    ('rsp from rbp, which was written since', '55 4889e5 31ed 4889ec 5d c3', 'rbp'),
    ('rsp from rbp, which is one of two places', '4885ff 7407 50 4889e5 50 eb05 50 50 4889e5 4889ec 0f0b', 'rbp'),
    ('ways that do not agree', '4885ff 7401 50 0f0b', 'ways meet'),
    ('a loop that takes more at each turn', '4883ec08 ffc8 75f8 0f0b', 'ways meet'),
    ('a return with something held', '50 c3', '8 bytes still held'),
    ('more given back than was taken', '58 58 c3', 'more off the stack'),
    ('a call by a register', 'ffd0 c3', 'a call of what'),
    ('a call of nothing', 'e800010000 c3', 'no function'),
    ('a jump out to nothing', 'e900010000', 'no function'),
    ('a jump out with something held', '50 e9 @-1', '8 bytes still held'),
    ('an instruction that is not known', 'c5f877 c3', 'opcode c5'),
    ('an instruction that is cut', '4881ec0000', 'cut'),
    ('no end', '31c0', 'behind its end'),
    ('code that nothing leads to', 'c3 31c0 c3', 'nothing is known to lead there'),
]


def made(codes):
    """A program of functions made by hand, 256 bytes from one to the next; a word such as @1 is the way to the function of that number."""
    functions = []
    for place, (name, code) in enumerate(codes.items()):
        start, data = 0x1000 + 256 * place, b''
        for word in code.split():
            data += (0x1000 + 256 * int(word[1:]) - start - len(data) - 4).to_bytes(4, 'little', signed=True) if word[0] == '@' else bytes.fromhex(word)
        functions.append(stack.Function(name, start, data))
    return stack.Program('made', functions, [range(0x1000 - 256, 0x1000)])


def refusal(work):
    """What is said where something cannot be read."""
    try:
        work()
    except stack.Unread as error:
        return str(error)
    return 'it was read'


def read(checks):
    """Frames, one at a time."""
    for what, code, size in SHEET:
        try:
            checks.equal(made({'one': code}).frame(0x1000).bytes, size, f'the frame of code made by hand: {what}')
        except stack.Unread as error:
            checks.check(False, f'code made by hand: {what}', str(error))
    for what, code, reason in STRANGE:
        said = refusal(lambda: made({'odd::one': code}).frame(0x1000))
        checks.check(reason in said and said.startswith('odd::one+0x'), f'code that is not to be read: {what}', said)


CALLS = {'first': '50 e8 @1 58 e9 @2', 'second': '53 4883ec20 e8 @2 4883c420 5b c3', 'third': '4883ec68 4883c468 c3', 'reads': '50 e8 @-1 58 c3'}


def called(checks):
    """Depths and paths over functions that call each other."""
    program = made(CALLS)
    for name, path in (('first', 'first 16 > second 48 > third 112'), ('second', 'second 48 > third 112'), ('third', 'third 112'), ('reads', 'reads 16 > libc 8')):
        depth = program.depth(program.called(name))
        checks.equal((told(depth.path), depth.bytes), (path, total(depth.path)), f'the depth of {name}')
    jumps = made({'first': 'e9 @1', 'second': '4883ec28 4883c428 c3'})
    checks.equal(told(jumps.depth(0x1000).path), 'first 0 > second 48', 'a jump to another function takes nothing for itself')
    round_about = made({'first': '50 e8 @1 58 c3', 'second': '50 e8 @0 58 c3'})
    checks.check('first calls itself' in refusal(lambda: round_about.depth(0x1000)), 'functions that call each other in a circle have no depth')
    checks.check('no function of the name fourth' in refusal(lambda: program.called('fourth')), 'a name that is not there')

    # The judgement: as it is, one function larger, one on the path that was not, and a figure far above.
    figure = Figure('by hand', 'made', 'first 16 > second 48 > third 112')
    checks.equal(judged(figure, program), (True, ['by hand: 176 bytes, and the figure is 176', 'made: first 16 > second 48 > third 112']), 'within its figure')
    fine, lines = judged(figure, made({**CALLS, 'second': '53 4883ec28 e8 @2 4883c428 5b c3'}))
    checks.equal((fine, lines[1:]), (False, ['second grew by 8: it holds 56, and its figure is 48', 'made: first 16 > second 56 > third 112']), 'one that grew')
    fine, lines = judged(figure, made({**CALLS, 'third': '50 e8 @4 58 c3', 'new': '4883ec78 4883c478 c3'}))
    checks.equal((fine, lines[1:-1]), (False, ['new was not on the path: it holds 128']), 'one that came to it')
    fine, lines = judged(Figure('by hand', 'made', 'first 100 > second 48 > third 112'), program)
    checks.check(fine and 'set anew' in lines[1], 'a figure far above what is found is told', *lines)
    fine, lines = judged(Figure('by hand', 'made', 'third 12', 100), made({**CALLS, 'third': '4883ec70 4883c470 c3'}))
    checks.equal((fine, lines[1:-1]), (False, ['third grew by 8: it holds 20, and its figure is 12']), 'a frame beside its buffers')


# ---- the same on copies of the real program

def enlarged(data, function, more):
    """A copy of a program in which one function takes more and gives as much back, or None where its numbers leave no room for that."""
    copy, at, found = bytearray(data), 0, []
    while at < len(function.code):
        found.append(stack.instruction(function.code, at))
        at += found[-1].size
    moves = [i for i in found if i.op in stack.BY_NUMBER and i.mod == 3 and i.rm == stack.RSP]
    takes = [i for i in moves if i.reg == stack.SUB and i.value not in (-128, 3072, 4096)][:1]
    gives = [i for i in moves if i.reg == stack.ADD]
    gives = [i for i in gives if i.value == max(each.value for each in gives)]
    for i in takes + gives:
        size = 4 if i.op == 0x81 else 1
        if i.value + more >= 1 << 8 * size - 1:
            return None
        end = function.offset + i.at + i.size
        copy[end - size:end] = (i.value + more).to_bytes(size, 'little')
    return bytes(copy) if takes and gives else None


def copies(checks, folder):
    """A copy of a program with one larger frame is told by the function's name; what is no program is turned away."""
    tried = 0
    for figure in FIGURES:
        copy = folder / figure.program
        try:
            program = stack.program(roverivet.built(figure.program))
            path = found_for(figure, program)
            name, held = max(path, key=lambda each: each[1])
            copy.write_bytes(enlarged(roverivet.built(figure.program).read_bytes(), program.functions[program.called(name)], 8) or b'')
            fine, lines = judged(figure._replace(path=told(path)), stack.program(copy))
        except stack.Unread:
            continue  # no such copy can be made; what cannot be read of the program itself is told by hold
        tried += 1
        wanted = f'{name} grew by 8: it holds {held + 8:,}, and its figure is {held:,}'
        checks.check(not fine and lines[1:-1] == [wanted], f'{figure.what}, in a copy with a larger frame', *lines)
    checks.check(tried, 'some frame was made larger in a copy')
    head = b'\x7fELF\x02\x01' + bytes(12)
    for what, data, reason in (('a text', b'#!/bin/sh\n', 'no ELF file for x86-64'), ('a program for another machine', head + b'\xb7' + bytes(99), 'no ELF file for x86-64'),
                               ('a program of 32 bits', b'\x7fELF\x01\x01' + bytes(12) + b'\x3e' + bytes(99), 'no ELF file for x86-64'),
                               ('a program that is cut', head + b'\x3e' + bytes(21) + b'\xff' * 24, 'damaged')):
        (folder / 'other').write_bytes(data)
        checks.check(reason in refusal(lambda: stack.program(folder / 'other')), f'{what} is turned away')
    checks.check('there is no program none' in refusal(lambda: stack.program(folder / 'none')), 'a program that is not there')


# ---- for people

def tell(path):
    program = stack.program(path)
    rows, strange = [], []
    for start, function in program.functions.items():
        try:
            rows.append((program.depth(start), program.frame(start).bytes, function.name))
        except stack.Unread as error:
            strange.append(f'not read: {error}')
    print(f'{"frame":>9}{"depth":>9}  function, and its deepest path')
    for depth, held, name in sorted(rows, key=lambda row: -row[0].bytes):
        print(f'{held:>9,}{depth.bytes:>9,}  {name if len(depth.path) == 1 else told(depth.path)}')
    print(*strange, sep='\n')


def main(words):
    if words[:1] == ['--tell'] and len(words) < 3:
        try:
            named = Path(*words[1:] or ['run'])
            tell(named if named.is_file() else roverivet.built(named.name))
        except stack.Unread as error:
            sys.exit(f'frames.py: {error}')
        return 0
    if words:
        sys.exit('frames.py: use: frames.py [--tell [PROGRAM]]')
    checks = Checks()
    read(checks)
    called(checks)
    with tempfile.TemporaryDirectory(prefix='frames.') as folder:
        copies(checks, Path(folder))
    hold(checks)
    return checks.end()


if __name__ == '__main__':
    sys.exit(main(sys.argv[1:]))
