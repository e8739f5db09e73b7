#!/usr/bin/env -S python3 -B
"""Random and damaged input for the program, asm and dis: no crash, no hang, an answer for every record.

    tests/robust.py [SEED]

At least 100,000 inputs in about a minute. An answer is held to what document 01 refuses by the record alone;
the rest of the answers is other tests' work.
"""

import itertools
import random
import signal
import subprocess
import sys
import tempfile
import threading
from pathlib import Path

from checks import Checks, TOP, ended, need_program

import roverivet
from roverivet import KINDS, Record, SIZE
from tools import explain, picture, startfile, text, totals, watch
from tools.text import TextError

SECONDS = 60  # that any one process may take
EDGES = (0, 1, 2, 7, 8, 9, 63, 64, 74, 75, 77, 78, 80, 81, 511, 512, 513, 552, 553, 600, 1024, 1025, 1518, 1519, 65536, 65537,
         999_999, 1_000_000, 1_000_001, 2**31, 2**32 - 1)


# ---- random input


def some_record(draw):
    """A record that is often good: a kind, and its own fields near their limits."""
    kind = draw.randrange(1, 9)
    if kind == 1:
        d = draw.choice(EDGES)
        return Record(1, draw.randrange(32) if draw.random() < 0.4 else 0, draw.randrange(512), d, draw.choice((0, 63, 64, d // 8)),
                      draw.choice((0, 0, 3, 7, 8)), c=draw.choice((0, 0, 512, 513)), x=draw.choice((0, 0, 300, 1025)),
                      sa=draw.choice((bytes(6), b'\x02\0\0\0\0\x01', b'\xff' * 6))).pack()
    if kind == 2:
        return Record(2, mask=draw.randrange(256)).pack()
    if kind == 4:
        return Record(4, byte=draw.choice((0, 1, 2, 16, 23, 31, 0xE0, 0xE1, 0xE4, 0xEE, 0xFC, 0xFE, 0xFF, draw.randrange(256)))).pack()
    if kind == 5:
        return Record(5, byte=draw.choice((0x20, 0x30, 0x40, 0x50, 0x80, 0x8F, 0xA0, 0xD0, 0xF0, 0xFF, draw.randrange(256)))).pack()
    return Record(kind).pack()


def damaged(draw, data):
    """Some bytes with up to three of them changed."""
    data = bytearray(data)
    for _ in range(draw.randrange(4) if data else 0):
        data[draw.randrange(len(data))] = draw.choice((0, 1, 0x80, 0xFF, draw.randrange(256)))
    return bytes(data)


def any_record(draw):
    chance = draw.random()
    return draw.randbytes(SIZE) if chance < 0.1 else damaged(draw, some_record(draw)) if chance < 0.5 else some_record(draw)


# ---- the program


def printed(data, lengths=None):
    """(output, status) of the program for some bytes, written whole or in pieces of the given lengths."""
    process = roverivet.launch(stdin=subprocess.PIPE, stdout=subprocess.PIPE, stderr=subprocess.DEVNULL)
    watchdog = threading.Timer(SECONDS, process.kill)
    watchdog.start()
    threading.Thread(target=write_pieces, args=(process.stdin, data, lengths), daemon=True).start()
    with process.stdout:
        output = bytearray()
        while block := process.stdout.read(65536):
            output += block
    status = process.wait()
    watchdog.cancel()
    return bytes(output), status


def write_pieces(pipe, data, lengths):
    at = 0
    try:
        while at < len(data):
            step = next(lengths) if lengths else len(data)
            part = data[at:at + step]
            while part:
                wrote = pipe.write(part)
                at, part = at + wrote, part[wrote:]
        pipe.close()
    except OSError:
        pass


def wrong_answer(data, output, status):
    """What is wrong with the answers to a trace, or nothing."""
    pieces, lines = text.pieces(data), output.decode('ascii', 'replace').split('\n')
    if status or lines.pop() != '' or len(lines) != len(pieces):
        return f'{len(lines)} lines for {len(pieces)} records, status {status}'
    for number, (piece, line) in enumerate(zip(pieces, lines), 1):
        try:
            answer = roverivet.answer_of(line)
        except ValueError as error:
            return str(error)
        due = roverivet.refusal(piece)
        if answer.number != number or (due and (answer.word, answer.value) != ('ref', due[0])):
            return f'record {number}, {text.described(piece)}: {line}, and document 01 has {due}'
        if not due and answer.word == 'ref' and answer.value not in (4, 5, 6):
            return f'record {number}, {text.described(piece)}: {line}, and document 01 does not'
    return ''


def traces_in_pieces(checks, draw):
    tried = 0
    for turn in range(50):
        data = b''.join(any_record(draw) for _ in range(1200)) + draw.randbytes(draw.randrange(SIZE))
        longest = draw.choice((1, 7, 31, 32, 33, 100, 4096))
        lengths = [draw.randint(1, longest) for _ in range(1000)]
        wrong = wrong_answer(data, *printed(data, itertools.cycle(lengths)))
        checks.check(not wrong, f'trace {turn} in pieces of up to {longest} bytes', wrong)
        tried += len(text.pieces(data))
    print(f'run: 50 traces in odd pieces, {tried} records', flush=True)
    return tried


def every_length(checks, draw):
    lengths = list(range(0, 131)) + [65536 + more for more in (-33, -32, -31, -1, 0, 1, 31, 32, 33)] + [200_000, 200_001]
    for length in lengths:
        data = (b''.join(any_record(draw) for _ in range(length // SIZE)) + draw.randbytes(SIZE))[:length]
        wrong = wrong_answer(data, *printed(data))
        checks.check(not wrong, f'{length} bytes', wrong)
    print(f'run: {len(lengths)} lengths of input, 0 to 130 and around the size of a block', flush=True)
    return len(lengths)


def answered_at_once(checks, draw):
    """In lock-step every answer comes before the next record, also when a record comes in two pieces."""
    with roverivet.Running() as program:
        for turn in range(2000):
            record = any_record(draw)
            cut = draw.randrange(SIZE)
            program._write(record[:cut])
            checks.check(program.ask(record[cut:])[0].number == turn + 1, f'record {turn + 1} answered at once')
    print('run: 2000 records in lock-step, each in two pieces', flush=True)
    return 2000


def closed_and_full(checks, draw):
    """Outputs that fail and readers that leave: the program ends, by itself and soon."""
    data = b''.join(any_record(draw) for _ in range(20_000))
    with open('/dev/full', 'wb') as full:
        process = roverivet.launch(stdin=subprocess.PIPE, stdout=full, stderr=subprocess.DEVNULL)
        threading.Thread(target=write_pieces, args=(process.stdin, data, None), daemon=True).start()
        checks.check(finished(process), 'the program ends at a full device')
    for reads in (0, 1, 1000):
        process = roverivet.launch(stdin=subprocess.PIPE, stdout=subprocess.PIPE, stderr=subprocess.DEVNULL)
        threading.Thread(target=write_pieces, args=(process.stdin, data, None), daemon=True).start()
        process.stdout.read(reads) if reads else None
        process.stdout.close()
        checks.check(finished(process), f'the program ends when its reader leaves after {reads} bytes')
    process = roverivet.launch(stdin=subprocess.DEVNULL, stdout=subprocess.PIPE)
    checks.equal((process.stdout.read(), process.wait(SECONDS)), (b'', 0), 'no input at all')
    process.stdout.close()
    print('run: a full device, readers that leave, no input', flush=True)
    return 5


NO_START = b'run: the start file does not have 530 bytes, or 535 with a 0 at the end\n'


def no_start(checks, draw):
    """Start files that are none, and limits that are none: a message, no answer, and an end, whether records come or the input stays open."""
    starts = [(bytes(size), NO_START) for size in (0, 1, 529, 531, 532, 533, 534, 536, 1060, 5300)]
    starts += [(draw.randbytes(534) + bytes([last]), NO_START) for last in (1, 78, 128, 255)]
    for limit in (0, 1, 74, 82, 255, 331, 334, 337, 65536 + 78, 2**24 + 78, 2**31 + 78, 2**32 - 1, *(draw.randrange(256, 2**32) for _ in range(5))):
        starts.append((draw.randbytes(530) + limit.to_bytes(4, 'little') + b'\0', b'run: short event limit %d is outside 75 to 81 (refused 13)\n' % limit))
    data = b''.join(any_record(draw) for _ in range(100))
    for start, due in starts:
        for given in (data, b''):
            with tempfile.NamedTemporaryFile() as file:
                file.write(start)
                file.flush()
                process = subprocess.Popen(roverivet.command() + [file.name], stdin=subprocess.PIPE, stdout=subprocess.PIPE, stderr=subprocess.PIPE, bufsize=0)
                watchdog = threading.Timer(SECONDS, process.kill)
                watchdog.start()
                if given:
                    threading.Thread(target=write_pieces, args=(process.stdin, given, None), daemon=True).start()
                came, told = process.stdout.read(), process.stderr.read()  # with nothing given the input stays open until it ends by itself
                checks.equal((came, told, process.wait(SECONDS)), (b'', due, 0), f'a start file of {len(start)} bytes that ends in {start[-5:].hex()}')
                watchdog.cancel()
                for pipe in (process.stdout, process.stderr) if given else (process.stdin, process.stdout, process.stderr):
                    pipe.close()
    print(f'run: {len(starts)} start files that it does not take, each with a message and no answer', flush=True)
    return 2 * len(starts)


def start_files(checks, draw):
    """Start files of both sizes, both ways; and texts of them that are damaged: bytes, or a mistake at its place."""
    taken = 0
    for turn in range(2000):
        whole = bytes(draw.choice((0, 0, 0, 255, draw.randrange(256))) for _ in range(530))
        if turn % 2:
            whole += draw.choice((75, 78, 81, 0, 74, 334, 2**32 - 1, draw.randrange(2**32))).to_bytes(4, 'little') + b'\0'
        lines = '\n'.join(startfile.start_text(whole))
        back = startfile.start_bytes(lines)
        if back != whole or turn % 500 == 0:
            checks.equal(back, whole, f'dis and asm of the start file {whole.hex()}')
        some = lines.split('\n')[-draw.randrange(1, 4):]
        source = damaged(draw, '\n'.join(some).encode())
        source += draw.choice((b'', b'0', b'99999999999', b'\nShort Event limit = 75', b'\nShort Event limit = 4294967374'))
        try:
            made = startfile.start_bytes(source, 'some')
            fine, taken = len(made) in (530, 535) and startfile.start_bytes('\n'.join(startfile.start_text(made))) == made, taken + 1
        except TextError as error:
            lines = source.split(b'\n')
            fine = 1 <= error.line <= len(lines) and 1 <= error.column <= len(lines[error.line - 1]) + 1 and error.reason
        if not fine or turn % 500 == 0:
            checks.check(fine, f'asm of the start file {source!r}')
    checks.check(50 < taken < 1950, f'{taken} of 2000 texts of start files were taken')
    print(f'dis: 2000 start files, both ways; asm: 2000 damaged ones, {taken} taken and the others told where they are wrong', flush=True)
    return 4000


def finished(process):
    try:
        process.wait(SECONDS)
        return True
    except subprocess.TimeoutExpired:
        process.kill()
        process.wait()
        return False


HALF = '''
import sys, os
sys.path.insert(0, sys.argv[1])
import roverivet
program = roverivet.Running()
print(program.process.pid, flush=True)
record = roverivet.Record(3).pack()
while True:
    program._write(record * 1000)
    [program._answer() for _ in range(500)]
'''


def harness_dies(checks):
    """A harness killed in the middle of its work leaves no process behind."""
    for turn in range(5):
        harness = subprocess.Popen([sys.executable, '-B', '-c', HALF, str(TOP / 'clients' / 'python')], stdout=subprocess.PIPE,
                                   stderr=subprocess.DEVNULL)
        pid = int(harness.stdout.readline())
        try:
            harness.wait(0.05 * turn + 0.01)
        except subprocess.TimeoutExpired:
            pass
        harness.kill()
        harness.wait()
        harness.stdout.close()
        checks.check(ended(pid), f'turn {turn}: the program ended with the harness that was killed')
    print('run: five harnesses killed half way', flush=True)
    return 5


def watched(checks, draw):
    """Reads between the records disturb nothing, and no answer is a finding, whatever the trace does."""
    tried = 0
    for turn in range(10):
        host = [Record(4, byte=byte).pack() for byte in (0, 1, 16, 0xE0, 0xEE, 0xFE, 0xFF)]
        host += [Record(5, byte=byte).pack() for byte in (0x20, 0x8F)] + [Record(7).pack()] * 6
        pieces = [draw.choice(host + [any_record(draw)] * 8) for _ in range(300)] + [draw.randbytes(turn)] * (turn > 0)
        bits, seen = picture.Bits(), None
        try:
            for seen in watch.watched(pieces):
                bits.take(seen)
                checks.check(not explain.finding(seen), f'explain: {text.described(seen.piece)}', explain.told(seen))
        except roverivet.Ended as error:
            checks.check(False, f'explain: trace {turn} after record {seen.number if seen else 0}', str(error))
        tried += len(pieces)
    print(f'explain and view: 10 random traces, {tried} records, nothing disturbed and no finding', flush=True)
    return tried


# ---- asm and dis


def both_ways(checks, draw):
    """dis of any bytes, and asm of what it wrote."""
    for turn in range(25_000):
        count = draw.choice((0, 1, 1, 1, 2, 5))
        data = b''.join(any_record(draw) for _ in range(count)) + draw.randbytes(draw.choice((0, 0, draw.randrange(SIZE))))
        lines = '\n'.join(text.text_of(text.pieces(data)))
        back = text.assembled(lines)
        if back != data or turn % 1000 == 0:
            checks.equal(back, data, f'dis and asm of {data.hex()}')
    print('dis: 25,000 random inputs, both ways', flush=True)
    return 25_000


WORDS = [*KINDS[1:], *roverivet.FLAGS, 'raw', 'tp0', 'tp0-3', 'tp7+aui', 'none', 'd=600', 'n=64', 'k=3', 'c=1', 'x=2', 'x3',
         'x0', 'sa=02:00:00:00:00:01', 'mask=1ff', 'byte=5a', 'P=16', 'R=0', '8f', '00', '#', 'x', '=', 'd=', 'é', '\t', 'tp',
         '0102030405', '\x00', '=>', '=> ok', '=> ref 8', '=> rep 102', 'start = x', 'refusals = allowed']


def some_text(draw):
    chance = draw.random()
    if chance < 0.2:
        return draw.randbytes(draw.randrange(60))
    if chance < 0.6:
        words = [' '.join(draw.choice(WORDS) for _ in range(draw.randrange(6))) for _ in range(draw.randrange(4))]
        return '\n'.join(words).encode()
    lines = text.text_of([any_record(draw) for _ in range(draw.randrange(4))])
    return damaged(draw, '\n'.join(lines).encode())


def any_text(checks, draw):
    """asm of anything: bytes that dis turns into text for the same bytes, or an error at a place in the text."""
    taken = 0
    for turn in range(30_000):
        source = some_text(draw)
        try:
            made = text.assembled(source, 'some.txt')
            fine = text.assembled('\n'.join(text.text_of(text.pieces(made)))) == made
            taken += 1
        except TextError as error:
            lines = source.split(b'\n')
            fine = 1 <= error.line <= len(lines) and 1 <= error.column <= len(lines[error.line - 1]) + 1 and error.reason
        except Exception as error:  # what must never come is told with its input
            fine = False
            print(f'{type(error).__name__}: {error}')
        if not fine or turn % 1000 == 0:
            checks.check(fine, f'asm of {source!r}')
    checks.check(1000 < taken < 29_000, f'{taken} of 30,000 texts were taken')
    print(f'asm: 30,000 random texts, {taken} taken and the others told where they are wrong', flush=True)
    return 30_000


SIGNS = ['7', '0', '4294967295', '4294967296', '99999999999', '00', '-1', '+', '_', '.', '\u0663', '\uff17', 'x', '#', '# 7', ' ', '\t', '\r', '\0',
         '\xa0', '\x0c']


def any_readings(checks, draw):
    """totals of anything: numbers up to 2^32 - 1, one for each line that has something, or an error at the first line that has none."""
    taken = 0
    for turn in range(20_000):
        lines = [''.join(draw.choice(SIGNS[:3] if draw.random() < 0.8 else SIGNS) for _ in range(draw.choice((0, 1, 1, 1, 2))))
                 for _ in range(draw.randrange(5))]
        said = [line.split('#')[0].strip(' \t\r') for line in lines]
        good = [not word or word.isascii() and word.isdigit() and len(word) <= 10 and int(word) < 2**32 for word in said]
        try:
            found = list(totals.readings((line.encode() + b'\n' for line in lines), 'some'))
            fine, taken = all(good) and found == [int(word) for word in said if word], taken + 1
        except TextError as error:
            fine = not all(good) and error.line == good.index(False) + 1 and error.column <= len(lines[error.line - 1])
        if not fine or turn % 1000 == 0:
            checks.check(fine, f'totals of {lines!r}')
    checks.check(1000 < taken < 19_000, f'{taken} of 20,000 texts were taken')
    print(f'totals: 20,000 random texts, {taken} taken and the others told where they are wrong', flush=True)
    return 20_000


def commands(checks, draw):
    """The commands themselves on random files, full devices and readers that leave."""
    command = [sys.executable, str(TOP / 'roverivet')]
    with tempfile.TemporaryDirectory() as folder:
        path = Path(folder) / 'input'
        for turn in range(15):
            verb = ('asm', 'dis', 'run', 'explain', 'totals')[turn % 5]
            texts = verb in ('asm', 'totals')
            path.write_bytes(some_text(draw) if texts else b''.join(any_record(draw) for _ in range(20)) + draw.randbytes(turn))
            form = [] if texts else ['--binary']
            result = subprocess.run(command + [verb, *form, str(path)], capture_output=True, timeout=SECONDS)
            checks.check(result.returncode in ((0, 2) if texts else (0,)) and b'Traceback' not in result.stderr,
                         f'{verb} of random input', f'status {result.returncode}', result.stderr.decode('utf-8', 'replace')[-300:])
        path.write_bytes(b''.join(any_record(draw) for _ in range(20_000)))
        for verb in ('dis', 'run', 'explain'):
            with open('/dev/full', 'wb') as full:
                result = subprocess.run(command + [verb, str(path)], stdout=full, stderr=subprocess.PIPE, timeout=SECONDS)
            checks.equal((result.returncode, result.stderr), (2, b'roverivet: cannot write: No space left on device\n'),
                         f'{verb} to a full device')
            process = subprocess.Popen(command + [verb, str(path)], stdout=subprocess.PIPE, stderr=subprocess.PIPE)
            process.stdout.read(10)
            process.stdout.close()
            checks.check(finished(process) and process.returncode == -signal.SIGPIPE and process.stderr.read() == b'',
                         f'{verb} ends quietly when its reader leaves', f'status {process.returncode}')
            process.stderr.close()
    print('commands: random files, full devices, readers that leave', flush=True)
    return 21


def main(words):
    if len(words) > 1 or (words and not words[0].isdigit()):
        print(__doc__.strip(), file=sys.stderr)
        return 2
    need_program()
    seed = int(words[0]) if words else 1516
    checks, draw = Checks(), random.Random(seed)
    print(f'seed {seed}')
    tried = traces_in_pieces(checks, draw) + every_length(checks, draw) + answered_at_once(checks, draw)
    tried += closed_and_full(checks, draw) + no_start(checks, draw) + harness_dies(checks) + watched(checks, draw) + start_files(checks, draw)
    tried += both_ways(checks, draw) + any_text(checks, draw) + any_readings(checks, draw) + commands(checks, draw)
    checks.check(tried >= 100_000, f'{tried} inputs, fewer than 100,000')
    print(f'{tried} inputs')
    return checks.end()


if __name__ == '__main__':
    sys.exit(main(sys.argv[1:]))
