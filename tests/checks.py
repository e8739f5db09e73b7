"""What the tests share: the places, the count of checks, and the last line 'N passed, M failed'."""

import os
import subprocess
import sys
import time
from pathlib import Path

sys.dont_write_bytecode = True
TOP = Path(__file__).resolve().parents[1]
sys.path[:0] = [str(TOP), str(TOP / 'clients' / 'python')]


class Checks:
    """Counts what was tried; a failure is told at once, in full."""

    def __init__(self):
        self.passed = self.failed = 0

    def check(self, fine, what, *more):
        if fine:
            self.passed += 1
        else:
            self.failed += 1
            print(f'FAILED {what}', *more, sep='\n       ', flush=True)
        return fine

    def equal(self, found, expected, what):
        return self.check(found == expected, what, f'expected {expected!r}', f'found    {found!r}')

    def end(self):
        print(f'{self.passed} passed, {self.failed} failed', flush=True)
        return 1 if self.failed or not self.passed else 0


def roverivet_command(*words, data=None, cwd=TOP, **more):
    """Runs ./roverivet and gives its CompletedProcess, output as bytes."""
    return subprocess.run([sys.executable, str(TOP / 'roverivet'), *words], input=data, cwd=cwd,
                          stdout=more.pop('stdout', subprocess.PIPE), stderr=subprocess.PIPE, timeout=120, **more)


def need_program():
    """Builds the programs if needed; ends with status 3 when there is none."""
    from tools import build, telling
    import roverivet
    try:
        build.ensure()
        telling.usable()
    except roverivet.Missing as error:
        print(f'{os.path.basename(sys.argv[0])}: {error}', file=sys.stderr)
        print('0 passed, 1 failed')
        sys.exit(3)


def ended(pid, seconds=10):
    """Whether a process is gone, or only waits to be collected, within some seconds."""
    until = time.monotonic() + seconds
    while time.monotonic() < until:
        try:
            if Path(f'/proc/{pid}/stat').read_text().rsplit(')', 1)[1].split()[0] == 'Z':
                return True
        except (FileNotFoundError, ProcessLookupError):
            return True
        time.sleep(0.05)
    return False
