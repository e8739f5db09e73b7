#!/usr/bin/env -S python3 -B
"""Does what docs/TUTORIAL.md says: writes its files, runs its commands and compares what they print.

    tests/tutorial.py [--show]     --show prints what each command printed, for writing the page
"""

import re
import shutil
import subprocess
import sys

from checks import Checks, TOP, need_program

PAGE = TOP / 'docs' / 'TUTORIAL.md'
FOLDER = TOP / 'target' / 'tutorial'
TIME = re.compile(r'\d{4}-\d\d-\d\dT[\d:.]+Z')
BLOCK = re.compile(r'^```(\w+)(?: file=(\S+))?\n(.*?)^```$', re.DOTALL | re.MULTILINE)


def steps(page):
    """('file', name, content) or ('command', words, expected output) in the page's order, with their lines."""
    for block in BLOCK.finditer(page):
        language, name, body = block.groups()
        line = page.count('\n', 0, block.start()) + 2
        if name:
            yield line, 'file', name, body
        elif language == 'console':
            for part in re.split(r'^\$ ', body, flags=re.MULTILINE)[1:]:
                words, _, output = part.partition('\n')
                yield line, 'command', words, output


def main(words):
    need_program()
    checks, page, done = Checks(), PAGE.read_text(), {'file': 0, 'command': 0}
    checks.equal(page.count('\n```') % 2, 0, 'every block of the page is closed')
    checks.check(not FOLDER.exists() or not any(FOLDER.iterdir()), f'{FOLDER.relative_to(TOP)} is empty or not there: remove it first')
    if checks.failed:
        return checks.end()
    try:
        for line, kind, name, body in steps(page):
            done[kind] += 1
            if kind == 'file':
                checks.check(f'`{name}`' in page, f'docs/TUTORIAL.md:{line}: the page names the file {name}')
                (TOP / name).write_text(body)
                continue
            ran = subprocess.run(['sh', '-c', name], cwd=TOP, stdin=subprocess.DEVNULL, stdout=subprocess.PIPE,
                                 stderr=subprocess.DEVNULL if name.endswith('build') else subprocess.STDOUT, text=True, timeout=3600)
            if words == ['--show']:
                print(f'$ {name}\n{ran.stdout}', end='')
            checks.equal(TIME.sub('TIME', ran.stdout), TIME.sub('TIME', body), f'docs/TUTORIAL.md:{line}: {name}')
            checks.equal(ran.returncode, 0, f'docs/TUTORIAL.md:{line}: status of {name}')
        checks.check((FOLDER / 'partition.html').stat().st_size > 5000, 'the picture is there')
    finally:
        shutil.rmtree(FOLDER, ignore_errors=True)
    print(f'{done["file"]} files written, {done["command"]} commands run and compared')
    return checks.end()


if __name__ == '__main__':
    sys.exit(main(sys.argv[1:]))
