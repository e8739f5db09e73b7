"""How to start a program on this machine, and how to build the model."""

import os
import shutil
import subprocess
import sys
import tempfile
from pathlib import Path

from checks import TOP as ROOT

import roverivet

PROVED = roverivet.PROGRAM
SOURCE = ROOT / 'tests' / 'model' / 'model.rs'
BUILT = ROOT / 'target' / 'model'



def give_up(reason):
    sys.exit(f'{Path(sys.argv[0]).name}: {reason}')


def command(path):
    """The words that start the program at this path."""
    path = Path(path).resolve()
    if not path.is_file():
        give_up(f'there is no program {path}; prove and build it first, or name another one')
    try:
        return roverivet.starting(path) if path.is_relative_to(ROOT / 'crates') else [str(path)]
    except roverivet.Missing as error:
        give_up(error)


def rust(source, out, *words):
    """Compiles one Rust file, if what was compiled before is older than it."""
    rustc = shutil.which('rustc')
    if rustc is None:
        give_up('there is no rustc on the path to build the model with')
    if out.is_file() and out.stat().st_mtime > source.stat().st_mtime:
        return out
    out.parent.mkdir(parents=True, exist_ok=True)
    with tempfile.TemporaryDirectory(dir=out.parent) as folder:  # two tests may want it at once
        done = subprocess.run([rustc, '--edition', '2021', *words, '-o', str(Path(folder) / out.name), str(source)])
        if done.returncode != 0:
            give_up(f'rustc refused {source.name}')
        os.replace(Path(folder) / out.name, out)
    return out


def model():
    """The model, built as it is measured: optimised."""
    return rust(SOURCE, BUILT / 'model', '-O')


def model_tests():
    """The model's own tests, as a program."""
    return rust(SOURCE, BUILT / 'paper', '--test')


def named(word):
    """The program that a user names: a path, or the word 'model'."""
    return [str(model())] if word == 'model' else command(word)
