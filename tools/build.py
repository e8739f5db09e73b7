"""Proves and builds the program that a verb needs, when it is missing or older than what it is made of."""

import os
import shutil
import subprocess
import sys
import time

import roverivet
from roverivet import CHECKED, HERE, Missing, PROGRAM
from tools.progress import Progress


def ensure(progress=None):
    """Leaves a program that can be started, or raises Missing."""
    if os.environ.get('ROVERIVET_RUN') or roverivet.is_fresh():
        roverivet.command()
        roverivet.assured = True
        return
    if not (HERE / 'crates.txt').exists():
        raise Missing(f'there is no {PROGRAM.relative_to(HERE)}, and no crates.txt to build it from')
    if not shutil.which('rt'):
        raise Missing('the program must be proved and built first, and there is no rt on the path')
    state = 'older than its sources' if PROGRAM.exists() else 'not built yet'
    print(f'roverivet: {shown("run")} is {state}: proving it first, then building it (rt run in crates/run); '
          'this takes minutes', file=sys.stderr, flush=True)
    began = time.time()
    if proved('run', progress or Progress('build')):
        raise Missing('rt run in crates/run failed: the program is not proved, so it is not run')
    CHECKED.touch()
    os.utime(CHECKED, (began, began))
    roverivet.command()
    roverivet.assured = True


# ---- the other programs


path_of = roverivet.built


def shown(name):
    return path_of(name).relative_to(HERE)


def usable(name, progress=None, replaced=True):
    """Whether the program crates/NAME/out/NAME is there, and is one of those that are asked for. Proves and builds it where it
    is missing or older than its sources, if there is anything to build it with. `replaced` says whether the program that
    ROVERIVET_RUN names is asked in its place."""
    if replaced and os.environ.get('ROVERIVET_RUN'):
        return False
    checked = path_of(name).with_suffix('.checked')  # touched when the sources were last found proved
    if is_fresh(path_of(name), checked):
        return True
    if not shutil.which('rt') or not (HERE / 'crates.txt').exists():
        return False
    print(f'roverivet: {shown(name)} is missing or older than its sources: proving it first, then building it '
          f'(rt run in crates/{name})', file=sys.stderr, flush=True)
    began = time.time()
    if proved(name, progress or Progress('build')):
        raise Missing(f'rt run in crates/{name} failed: the program is not proved, so it is not run')
    checked.touch()
    os.utime(checked, (began, began))
    return True


def need(name, progress=None):
    """Leaves a program crates/NAME/out/NAME whose place no other can take, or raises Missing."""
    if not usable(name, progress, replaced=False):
        lacking = 'rt on the path' if (HERE / 'crates.txt').exists() else 'crates.txt to build it from'
        raise Missing(f'{shown(name)} must be proved and built first, and there is no {lacking}')


def is_fresh(program, checked):
    if not os.access(program, os.X_OK):
        return False
    built = max(path.stat().st_mtime for path in (program, checked) if path.exists())
    return all(path.stat().st_mtime <= built for folder in ('src', 'specs', 'proofs')
               for path in HERE.glob(f'crates/*/{folder}/**/*') if path.is_file())


# ---- the checker


def proved(name, progress):
    """Has rt prove and build a program, passes on to standard error what rt prints, and gives its status.

    rt then runs the program, too: on nothing, with the arguments that the crate's file has for it, and what that prints is dropped."""
    progress.stage('lines of the checker')
    given = HERE / 'crates' / name / 'args'
    words = ['--', *given.read_text().splitlines()] if given.exists() else []
    with subprocess.Popen(['rt', 'run', *words], cwd=given.parent, stdin=subprocess.DEVNULL, stdout=subprocess.DEVNULL,
                          stderr=subprocess.PIPE) as process:
        for line in process.stderr:
            with progress.aside():
                sys.stderr.buffer.write(line)
                sys.stderr.flush()
            progress.add()
    return process.returncode
