#!/usr/bin/env python3
"""Holds the proved program against the model, record by record, on traces made from seeds.

    compare.py [PROGRAM] [--traces N] [--records N] [--first SEED] [--without-start]

PROGRAM is crates/run/out/run unless named; the word 'model' tries the script on the model itself. Besides equal
lines it asks that the traces reach everything in the model's list. A trace that fails is kept in target/compare/.
"""

import argparse
import collections
import random
import select
import subprocess
import sys
import tempfile
import threading
from pathlib import Path

import generate
import program
import record as rec

KEPT = program.ROOT / 'target' / 'compare'
PATIENCE = 300  # seconds until a program that hangs is ended
ENOUGH = 20  # failed traces, after which the rest is left out
JUDGED = 500  # traces, from which on everything must be reached

# What only high counters or another short event limit reach, and so only traces with a start file.
STARTED = ('wrap.', 'read.bytes4.place2', 'read.bytes4.place3', *(f'edge.limit{limit}.' for limit in generate.LIMITS if limit != generate.USUAL),
           'reset.limit', 'refusal.13')

Outcome = collections.namedtuple('Outcome', 'lines message status')


def pieces(data, seed):
    """The data cut at odd places: small pieces first, then larger ones."""
    chooser = random.Random(f'pieces {seed}')
    at = 0
    while at < len(data):
        if at < 4000:
            size = chooser.choice([1, 2, 5, 31, 32, 33, 63, 64, 65])
        else:
            size = chooser.choice([31, 33, 997, 4096, 20011, 65535, 65536, 65537])
        yield data[at : at + size]
        at += size


def run(words, parts):
    """Runs a program on the parts of its input, written to a pipe one by one."""
    with tempfile.TemporaryFile() as errors:
        child = subprocess.Popen(words, bufsize=0, stdin=subprocess.PIPE, stdout=subprocess.PIPE, stderr=errors)
        guard = threading.Timer(PATIENCE, child.kill)
        guard.daemon = True
        guard.start()

        def feed():
            try:
                for part in parts:
                    child.stdin.write(part)
                child.stdin.close()
            except BrokenPipeError:
                pass

        feeder = threading.Thread(target=feed)
        feeder.start()
        chunks = []
        while chunk := child.stdout.read(1 << 16):
            chunks.append(chunk)
        feeder.join()
        status = child.wait()
        guard.cancel()
        child.stdout.close()
        errors.seek(0)
        return Outcome(b''.join(chunks), errors.read().decode(errors='replace'), status)


def record_at(data, place):
    return data[rec.SIZE * place : rec.SIZE * place + rec.SIZE]


def selection(data, place):
    """For a D access: which register the C writes before it have selected."""
    if record_at(data, place)[:1] not in (bytes([rec.D_WRITE]), bytes([rec.D_READ])):
        return ''
    p = r = 0
    for earlier in range(place):
        piece = record_at(data, earlier)
        if piece == rec.RESET_RECORD:
            p = r = 0
        elif piece == rec.C_WRITES[piece[13]]:
            top, number = piece[13] >> 5, piece[13] & 31
            p, r = (number if top == 0 else p), (number if top == 7 else r)
    return f', of P {p} R {r}'


class Comparison:
    def __init__(self, words, folder):
        self.program = program.named(words.program)
        self.model = [str(program.model())]
        self.words = words
        self.passed = 0
        self.failed = 0
        self.records = 0
        self.reached = collections.Counter()
        self.folder = folder

    # ---- one result

    def tell(self, name, fault):
        if fault is None:
            self.passed += 1
        else:
            self.failed += 1
            print(f'FAILED {name}: {fault}', flush=True)

    def keep(self, name, data, start):
        KEPT.mkdir(parents=True, exist_ok=True)
        trace = KEPT / f'{name}.trace'
        trace.write_bytes(data)
        again = f'< {trace}'
        if start is not None:
            (KEPT / f'{name}.start').write_bytes(start)
            again = f'{KEPT / name}.start {again}'
        return f'kept; to run it again: PROGRAM {again}'

    def difference(self, data, got, want):
        """The first record at which the program and the model part, in words."""
        ours, theirs = got.lines.split(b'\n'), want.split(b'\n')
        place = next((at for at, pair in enumerate(zip(ours, theirs)) if pair[0] != pair[1]), min(len(ours), len(theirs)))
        piece = record_at(data, place)
        said = [line.decode(errors='replace') if line else 'nothing' for line in
                (ours[place] if place < len(ours) else b'', theirs[place] if place < len(theirs) else b'')]
        lines = [f'record {place + 1}: {rec.words(piece) if piece else "there is none"}{selection(data, place)}',
                 f'program: {said[0]}', f'model:   {said[1]}']
        for earlier in range(max(place - 3, 0), place):
            lines.append(f'before it, {earlier + 1}: {rec.words(record_at(data, earlier))}')
        if got.status != 0:
            lines.append(f'the program ended with status {got.status}')
        if got.message:
            lines.append(f"the program's message: {got.message[:500].strip()}")
        return '\n  '.join(lines)

    # ---- kinds of checks

    def compare(self, name, data, start=None, with_reached=True, whole=False):
        """Both on the same records. Where the input is not cut into pieces it is written at once."""
        words = []
        if start is not None:
            path = self.folder / 'start'
            path.write_bytes(start)
            words = [str(path)]
        reported = ['--reached'] if with_reached else []
        want = run(self.model + reported + words, [data])
        if want.status != 0:
            program.give_up(f'the model failed on {name}: {want.message[-500:]}')
        self.add_reached(want.message.splitlines())
        got = run(self.program + words, [data] if whole else pieces(data, name))
        self.records += len(data) // rec.SIZE
        fault = None
        if got.lines != want.lines or got.status != 0:
            fault = f'{self.difference(data, got, want.lines)}\n  {self.keep(name, data, start)}'
        self.tell(name, fault)

    def add_reached(self, lines):
        for line in lines:
            _, thing, times = line.split()
            self.reached[thing] += int(times)

    def sample(self):
        for name, words in (('program', self.program), ('model', self.model)):
            got = run(words, pieces(rec.SAMPLE, 'sample'))
            fault = None if got.lines == rec.SAMPLE_LINES else self.difference(rec.SAMPLE, got, rec.SAMPLE_LINES)
            self.tell(f"document 01's sample, {name}", fault)

    def nothing(self):
        got = run(self.program, [])
        self.tell('empty input', None if got.lines == b'' and got.status == 0 else f'printed {got.lines[:80]}')

    def model_tests(self):
        done = subprocess.run([str(program.model_tests())], capture_output=True, text=True)
        self.tell("the model's own tests", None if done.returncode == 0 else done.stdout + done.stderr)

    def line(self, child):
        """What a program prints, up to the end of a line or of its patience."""
        answer = b''
        while not answer.endswith(b'\n'):
            ready, _, _ = select.select([child.stdout], [], [], PATIENCE)
            more = child.stdout.read(1 << 16) if ready else b''
            if not more:
                break
            answer += more
        return answer

    def lock_step(self):
        """A record is answered before the next one is sent."""
        data = generate.trace(1, 1000)
        data = data[: len(data) - len(data) % rec.SIZE]
        want = run(self.model, [data]).lines.splitlines()
        for name, words in (('program', self.program), ('model', self.model)):
            child = subprocess.Popen(words, bufsize=0, stdin=subprocess.PIPE, stdout=subprocess.PIPE)
            fault = None
            for at, line in enumerate(want):
                child.stdin.write(record_at(data, at))
                answer = self.line(child)
                if answer != line + b'\n':
                    fault = f'record {at + 1} was answered with {answer[:80]}, not with {line}'
                    break
            child.stdin.close()
            if fault:
                child.kill()
            child.wait()
            child.stdout.close()
            self.tell(f'record by record, {name}', fault)

    def bad_starts(self):
        """A start file of another size, one of 535 bytes whose last is not 0, none at all, a folder: a message, and nothing is run."""
        files = {str(size): bytes(size) for size in (0, 1, 529, 531, 534, 536, 1060)}
        files |= {f'535-{last}': generate.limited(None, generate.USUAL, last) for last in (1, 78, 128, 255)}
        for name, content in files.items():
            (self.folder / name).write_bytes(content)
        for name in (*files, 'missing', '.'):
            for who, words in (('program', self.program), ('model', self.model)):
                got = run([*words, str(self.folder / name)], [rec.SAMPLE])
                fault = None
                if got.lines != b'':
                    fault = f'the records were run: {got.lines[:80]}'
                elif not got.message:
                    fault = 'there was no message on standard error'
                self.tell(f"start file '{name}', {who}", fault)

    def limits(self):
        """Every d around the limits, at each limit; and a file that names the usual one is as good as one that names none."""
        data = generate.sheet('limits')
        for limit in generate.LIMITS:
            self.compare(f'limit-{limit}', data, generate.limited(generate.start(1), limit))
        path = self.folder / 'unsaid'
        for name, content in (('none', None), ('zeros', bytes(530)), ('counters', generate.start(1))):
            path.write_bytes(content or b'')
            want = run(self.program + ([str(path)] if content else []), [data])
            path.write_bytes(generate.limited(content, generate.USUAL))
            got = run([*self.program, str(path)], [data])
            self.tell(f'limit 78 said and unsaid, {name}', None if got == want else self.difference(data, got, want.lines))

    def refused_limits(self):
        """A number that is no limit: the message with 13 at power-up, with records and without, and no line."""
        path = self.folder / 'refused'
        for number in generate.REFUSED:
            path.write_bytes(generate.limited(generate.start(1), number))
            due = Outcome(b'', f'run: short event limit {number} is outside 75 to 81 (refused 13)\n', 0)
            for who, words in (('program', self.program), ('model', self.model)):
                for what, parts in (('the sample', [rec.SAMPLE]), ('no record', []), ('a piece', [b'\x01'])):
                    got = run([*words, str(path)], parts)
                    self.tell(f'limit {number}, {what}, {who}', None if got == due else f'came {got}')
            said = run([*self.model, '--reached', str(path)], []).message.splitlines()
            self.add_reached(line for line in said if line.startswith('reached '))

    def seeds(self):
        many = self.words.traces
        for turn in range(many):
            if self.failed >= ENOUGH:
                print(f'compare: {turn} of {many} traces; stopped after {self.failed} failures', flush=True)
                break
            seed = self.words.first + turn
            start = None if self.words.without_start else generate.start(seed)
            self.compare(f'seed-{seed}', generate.trace(seed, self.words.records), start, whole=seed % 4 == 3)
            if (turn + 1) % 100 == 0 or turn + 1 == many:
                print(f'compare: {turn + 1} of {many} traces, {self.records:,} records, {self.failed} failed', flush=True)

    def long(self):
        """Over a million records, for the record's number and for what gathers up."""
        block = generate.trace(7, 1500)[: 1000 * rec.SIZE]
        self.compare('long', block * 1001, with_reached=False, whole=True)

    def all_reached(self):
        print(f'compare: {sum(times > 0 for times in self.reached.values())} of {len(self.reached)} things reached')
        if self.words.traces < JUDGED:
            print(f'compare: not judged, with fewer than {JUDGED} traces')
            return
        missing = sorted(thing for thing, times in self.reached.items() if times == 0)
        if self.words.without_start:
            missing = [thing for thing in missing if not thing.startswith(STARTED)]
        self.tell('what was reached', None if not missing else 'never: ' + ' '.join(missing))

    def everything(self):
        self.model_tests()
        self.sample()
        self.nothing()
        self.lock_step()
        if not self.words.without_start:
            self.bad_starts()
            self.refused_limits()
            self.limits()
        for name in generate.SHEETS:
            self.compare(f'sheet-{name}', generate.sheet(name))
            if not self.words.without_start:
                self.compare(f'sheet-{name}-started', generate.sheet(name), generate.start(1))
        print(f'compare: sample, lock-step and sheets done, {self.failed} failed', flush=True)
        self.seeds()
        self.long()
        self.all_reached()
        print(f'{self.passed} passed, {self.failed} failed')
        return 1 if self.failed else 0


def main():
    parser = argparse.ArgumentParser(description='Compares a program with the model of document 01.')
    parser.add_argument('program', nargs='?', default=str(program.PROVED), help="a path, or 'model' (default: crates/run/out/run)")
    parser.add_argument('--traces', type=int, default=800, help='how many seeds (default 800)')
    parser.add_argument('--records', type=int, default=3500, help='about how many records a trace (default 3500)')
    parser.add_argument('--first', type=int, default=0, help='the first seed (default 0)')
    parser.add_argument('--without-start', action='store_true', help='no start files, so no wrapping of counters')
    words = parser.parse_args()
    with tempfile.TemporaryDirectory(prefix='compare.') as folder:
        status = Comparison(words, Path(folder)).everything()
    sys.exit(status)


if __name__ == '__main__':
    main()
