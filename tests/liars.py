"""Programs that answer wrongly, to be put in the place of the proved one, and what each of them does wrong."""

import os
import sys

from checks import TOP, roverivet_command

# A program in Python. `answer` is what it prints for a record, `first` before all of them, `last` after them.
SCRIPT = '''#!{python}
import os, sys
os.dup2(os.open(os.devnull, os.O_WRONLY), 2)
words = {{1: 'nil 000', 6: 'val 00', 7: 'val 00'}}
number = 0
sys.stdout.write({first!r})
sys.stdout.flush()
while len(piece := sys.stdin.buffer.read(32)) == 32:
    number += 1
    print({answer}, flush=True)
sys.stdout.write({last!r})
sys.exit({status})
'''
GOOD = "number, words.get(piece[0], 'ok')"
ALWAYS_OK = "number, 'ok'"


def script(answer=GOOD, first='', last='', status=0):
    return SCRIPT.format(python=sys.executable, answer=answer, first=first, last=last, status=status)


# What is wrong with the order or the number of answers: every verb and every client finds it.
UNORDERED = {
    'does nothing': '#!/bin/sh\nexit 0\n',
    'is silent': '#!/bin/sh\ncat > /dev/null\n',
    'dies': '#!/bin/sh\nexit 7\n',
    'leaves out the last answer': script("number, 'ok') if number < 4 else print(end=''"),
    'prints an answer too many at the end': script(last='5 ok\n'),
    'prints half an answer at the end': script(last='5 o'),
    'answers before it is asked': script(first='1 ok\n'),
    'counts from 2': script("number + 1, 'ok'"),
    'answers everything as record 1': script("1, 'ok'"),
    'prints something else': script("'hello'"),
    'prints an answer and more': script("number, 'ok', 'ok'"),
    'prints without an end': '#!/bin/sh\ncat > /dev/null &\nexec yes 1 ok\n',
    'ends with a status': script(status=4),
}

# These are waited for, a minute long where nobody says otherwise.
PATIENT = ('is silent', 'leaves out the last answer')

# What is wrong with an answer itself, for the records that it answers: check, explain and the clients find it.
IMPOSSIBLE = {
    'ok to a burst': ('ok', 'burst tp0 d=600 n=64'),
    'a mask of ten ports': ('rep 200', 'burst tp0 d=600 n=64'),
    'nil to a port': ('nil 001', 'burst tp0 d=600 n=64'),
    'a command refused to a burst': ('ref 4', 'burst tp0 d=600 n=64'),
    'data to a tick': ('rep 001', 'tick'),
    'a port refused to a tick': ('ref 3', 'tick'),
    'an unknown refusal': ('ref 11', 'tick'),
    'a byte for a pulse': ('val 00', 'pulse tp0'),
    'a register refused to a C read': ('ref 5', 'c-read'),
    'bits of a C read that are not there': ('val 01', 'c-read'),
    'ok to a D read': ('ok', 'd-read'),
    'a cut record': ('ref 9', 'reset'),
    'a byte for a C write': ('val 10', 'c-write P=16'),
    'a command refused to a C write': ('ref 4', 'c-write P=16'),
    'a selection refused to a D write': ('ref 7', 'd-write 80'),
    'a limit refused to a burst': ('ref 13', 'burst tp0 d=77'),
    'a limit refused to a reset': ('ref 13', 'reset'),
    'ok to an unknown kind': ('ok', 'raw 09' + '00' * 31),
}


def quick(answer):
    """A program that gives one answer, whatever it is asked."""
    return f'#!/bin/sh\nhead -c 32 > /dev/null\necho 1 {answer}\ncat > /dev/null\n'


def written(folder, source):
    """The program's file."""
    path = folder / 'liar'
    path.write_text(source)
    path.chmod(0o755)
    return path


def named(path):
    """The line by which a program is named that is not the proved one."""
    return f'roverivet: the answers are those of {path} (ROVERIVET_RUN), and not of the proved program\n'


def command(folder, source, *words, data=None):
    """Runs ./roverivet with a program in place of the proved one: (output, what was said besides its name, status)."""
    path = written(folder, source)
    ran = roverivet_command(*words, data=data, env={**os.environ, 'ROVERIVET_RUN': str(path)})
    said = ran.stderr.decode()
    return ran.stdout.decode(), said.replace(named(path), '', 1) if said.count(named(path)) == 1 else f'NOT NAMED ONCE {said}', ran.returncode


def environment(path):
    return {**os.environ, 'ROVERIVET_RUN': str(path), 'PYTHONPATH': str(TOP / 'clients' / 'python')}
