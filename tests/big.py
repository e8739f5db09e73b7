#!/usr/bin/env -S python3 -B
"""Long traces and slow ones: asm, run, export and totals in constant memory, and a line on a terminal that tells how far a verb is."""

import os
import re
import subprocess
import sys
import tempfile
import threading
import time
from pathlib import Path

from checks import Checks, TOP, need_program
import liars

COMMAND = [sys.executable, '-B', str(TOP / 'roverivet')]
MANY, FEW = 1_000_000, 1_000
LINES = [b'tick\n', b'd-read => ref 5\n', b'pulse tp0+tp3\n', b'burst tp0 d=600 n=64 sa=02:00:00:00:00:01\n', b'c-write P=16\n', b'reset\n',
         b'burst tp1-3 d=700 c=5 x=9  # a collision\n', b'c-read\n']
SLEEP = "end='\\n' if piece[0] != 3 or __import__('time').sleep(3) is None else ''"  # a tick takes three seconds


def peak(words, **files):
    """The most memory in kB that a command and what it started ever had, and its status."""
    child = subprocess.Popen(COMMAND + words, **files)
    _, status, used = os.wait4(child.pid, 0)
    child.returncode = os.waitstatus_to_exitcode(status)
    return used.ru_maxrss, child.returncode


def memory(checks, folder):
    """A thousand times the records, and no more memory."""
    for name, count in (('few', FEW), ('many', MANY)):
        with open(folder / f'{name}.txt', 'wb') as file:
            for _ in range(count // 8):
                file.writelines(LINES)
        (folder / f'{name}.readings').write_bytes(b'7\n8\n' * (count // 2))
    for verb in ('asm', 'run', 'export', 'totals'):
        found = {}
        for name in ('few', 'many'):
            with open(folder / f'{name}.{verb}', 'wb') as out, open(folder / f'{name}.{verb}.said', 'wb') as said:
                feeder = subprocess.Popen(['cat', str(folder / f'{name}.{"readings" if verb == "totals" else "txt"}')], stdout=subprocess.PIPE)
                words, source = ([str(folder / f'{name}.txt')], None) if verb == 'asm' else ([], feeder.stdout)
                found[name], status = peak([verb, *words], stdin=source, stdout=out, stderr=said)
                feeder.stdout.close()
                feeder.wait()
            checks.equal(status, 0, f'{verb} of {name} records')
        checks.check(found['many'] < found['few'] + 16_000, f'{verb}: {MANY} records in constant memory', f'{found} kB')
    checks.equal((folder / 'many.asm').stat().st_size, 32 * MANY, 'asm made every record')
    with open(folder / 'many.run', 'rb') as file:
        file.seek(-20, os.SEEK_END)
        checks.equal(file.read().splitlines()[-1].split()[0], b'%d' % MANY, 'run answered every record')
    checks.equal((folder / 'many.export.said').read_text(), f'roverivet: {MANY // 8} records refused\n', 'export took every record')
    checks.equal((folder / 'many.totals').read_text(), f'{MANY // 2 + (MANY // 2 - 1) * (2**32 - 1)}\n', 'totals took every reading')
    print(f'asm, run, export and totals: {MANY:,} records or readings in constant memory', flush=True)


class Terminal:
    """A command whose standard error is a terminal, and perhaps its output too."""

    def __init__(self, words, stdout=subprocess.DEVNULL, stdin=subprocess.PIPE, env=None, terminal=True):
        self.master, slave = os.openpty() if terminal else os.pipe()
        self.process = subprocess.Popen(words, stdin=stdin, stdout=slave if stdout is None else stdout, stderr=slave, cwd=TOP, env=env)
        os.close(slave)
        self.said = b''
        self.reader = threading.Thread(target=self._read, daemon=True)
        self.reader.start()

    def _read(self):
        try:
            while block := os.read(self.master, 4096):
                self.said += block
        except OSError:  # a terminal whose other side is closed
            pass

    def end(self, data=b''):
        """Gives the input that was waited for; what was said on the terminal, and the status."""
        try:
            self.process.communicate(data, timeout=60)
        except BrokenPipeError:
            self.process.wait(60)
        self.reader.join(20)
        os.close(self.master)
        return self.said.decode(), self.process.returncode


def progress(checks, folder):
    """Every verb, kept waiting for three seconds, with a terminal and without."""
    log, slow = folder / 'one.log', liars.written(folder, liars.script(f'{liars.GOOD}, {SLEEP}'))
    subprocess.run(COMMAND + ['check', '--log', str(log), 'traces/sample.txt'], cwd=TOP, stdout=subprocess.DEVNULL, check=True)
    waits = {'asm': ([], b'tick\n'), 'dis': ([], bytes([3]) + bytes(31)), 'run': ([], b'tick\n'), 'check': (['-'], b'tick\n'), 'explain': ([], b'tick\n'),
             'export': ([], b'tick\n'), 'totals': ([], b'7\n'), 'view': (['-o', str(folder / 'x.svg')], b'tick\n'), 'verdict': (['-'], log.read_bytes())}
    started = []
    for verb, (more, data) in waits.items():
        for terminal in (True, False):
            started.append((f'{verb}{"" if terminal else ", no terminal"}', verb, data, terminal, Terminal(COMMAND + [verb, *more], terminal=terminal)))
    for verb in ('talk', 'build'):
        for terminal in (True, False):
            one = Terminal(COMMAND + [verb], env={**os.environ, 'ROVERIVET_RUN': str(slow)}, terminal=terminal)
            if verb == 'talk':
                one.process.stdin.write(b'tick\n')
                one.process.stdin.flush()
            started.append((f'{verb}{"" if terminal else ", no terminal"}', verb, b'', terminal, one))
    quick = Terminal(COMMAND + ['run', 'traces/sample.txt'])
    both = Terminal(COMMAND + ['run', '--text', '-'], stdout=None, env={**os.environ, 'ROVERIVET_RUN': str(slow)})
    checks.equal(quick.end(), ('', 0), 'a verb that is quick tells nothing')
    time.sleep(4)
    for what, verb, data, terminal, one in started:
        said, status = one.end(data)
        said = said.replace(liars.named(slow), '').replace(liars.named(slow).replace('\n', '\r\n'), '')
        told = re.search(rf'\rroverivet {verb}: .*\b[2-9] s\x1b\[K', said) is not None
        checks.check(status == 0 and (told and said.endswith('\r\x1b[K') if terminal else said == ''), f'progress: {what}', f'status {status}, said {said!r}')
    said, status = both.end(b'tick\npulse tp0\n')
    lines = [line for line in re.sub(r'\rroverivet run: [^\x1b]*\x1b\[K', '', said).replace('\r\x1b[K', '').splitlines() if line]
    checks.equal((lines[1:], status), (['1 ok', '2 ok'], 0), 'answers on the same terminal stay whole')
    print(f'progress: {len(waits) + 2} verbs, told on a terminal and nowhere else', flush=True)


def main():
    need_program()
    checks = Checks()
    with tempfile.TemporaryDirectory() as name:
        progress(checks, Path(os.path.realpath(name)))
        memory(checks, Path(name))
    return checks.end()


if __name__ == '__main__':
    sys.exit(main())
