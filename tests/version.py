#!/usr/bin/env -S python3 -B
"""What ./roverivet --version says: rules, commit, the sum of what is proved, toolchain and program, with git and without."""

import os
import re
import shutil
import subprocess
import sys
import tempfile
from pathlib import Path

from checks import Checks, TOP, need_program, roverivet_command
import liars

import roverivet
import roverivet_version

NAMES = ['rules', 'change requests', 'commit', 'proofs', 'toolchain', 'program']


def version(where=TOP, **environment):
    """{name: value} of the lines."""
    ran = subprocess.run([sys.executable, '-B', str(where / 'roverivet'), '--version'], capture_output=True, text=True, timeout=60,
                         env={**os.environ, **environment})
    return dict(line.split(': ', 1) for line in ran.stdout.splitlines()), ran.returncode, ran.stderr


def printed(*words, cwd=TOP):
    return subprocess.run(words, cwd=cwd, capture_output=True, text=True, timeout=60).stdout.strip()


def here(checks):
    """The lines of this repository, each beside what another command says of the same thing."""
    found, status, said = version()
    checks.equal((list(found), status, said), (NAMES, 0, ''), 'the lines, in their order')
    checks.equal((found['rules'], found['change requests']), ('document 01', ', '.join(roverivet_version.REQUESTS) or 'none'), 'the rules that are in')
    commit = printed('git', 'rev-parse', 'HEAD') if (TOP / '.git').exists() and shutil.which('git') else ''
    checks.check(found['commit'].split(',')[0] == commit or not commit and found['commit'].startswith('not known, '), 'the commit', found['commit'])
    summed = printed('sh', '-c', 'find crates.txt crates/*/src crates/*/specs crates/*/proofs -type f 2>/dev/null | LC_ALL=C sort | xargs -d "\\n" sha256sum | sha256sum')
    checks.equal(found['proofs'], f'sum {summed[:16]}', 'the sum of what is proved')
    checks.equal(found['toolchain'], printed('rt', 'version').split('\n')[0], 'the toolchain')
    checks.check(re.fullmatch(r'crates/run/out/run, sha256 [0-9a-f]{16}, proved', found['program']), 'the program', found['program'])
    whole = printed('sha256sum', str(roverivet.PROGRAM))
    checks.check(whole.startswith(found['program'].split()[2].rstrip(',')), 'its hash', whole)


def requests(checks):
    """A change request that has landed has a note, and one with a note is named."""
    notes = {path.stem.upper() for path in (TOP / 'docs' / 'changes').glob('[qQ]-*.md')}
    checks.equal(sorted(roverivet_version.REQUESTS), sorted(notes), 'the change requests of --version are those with a note in docs/changes')


def elsewhere(checks, folder):
    """Copies: without git, in somebody else's clone, not built, and with another program."""
    copy = folder / 'copy'
    copy.mkdir()
    for name in ('roverivet', 'tools', 'clients', '.ci'):
        (shutil.copytree if (TOP / name).is_dir() else shutil.copy)(TOP / name, copy / name)
    found, status, _ = version(copy, PATH=without('git'))
    checks.equal((found['commit'], status), ('not known, there is no git on the path', 0), 'without git')
    checks.equal((found['proofs'], found['program']),
                 ('not known, no program here was proved from what is here', 'crates/run/out/run, which is not there'), 'not built')
    checks.check(version(copy, PATH=without('rt'))[0]['toolchain'].startswith('no rt on the path, last proved with '), 'without rt')
    if shutil.which('git'):
        checks.equal(version(copy)[0]['commit'], 'not known, this is no clone by git', 'no clone')
        printed('git', 'init', cwd=folder)
        checks.equal(version(copy)[0]['commit'], 'not known, this is no clone by git', 'within the clone of something else')
        git = ('git', '-c', 'user.name=x', '-c', 'user.email=x@example.org')
        printed('git', 'init', cwd=copy)
        checks.equal(version(copy)[0]['commit'], 'not known, there is no commit yet', 'no commit yet')
        printed(*git, 'add', '.', cwd=copy)
        printed(*git, 'commit', '-m', 'all', cwd=copy)
        commit = printed('git', 'rev-parse', 'HEAD', cwd=copy)
        checks.equal(version(copy)[0]['commit'], commit, 'a clone of its own')
        (copy / 'tools' / '__init__.py').write_text('')
        checks.equal(version(copy)[0]['commit'], f'{commit}, with changes that are not committed', 'with a change')
    path = liars.written(folder, liars.script())
    program = version(ROVERIVET_RUN=str(path))[0]['program']
    checks.check(program.startswith(f'{path}, sha256 ') and program.endswith(', not the proved one'), 'another program', program)


def without(name):
    """The path without the folders that have this program."""
    parts = os.environ['PATH'].split(os.pathsep)
    return os.pathsep.join(part for part in parts if not os.access(os.path.join(part, name), os.X_OK)) or os.devnull


def reports(checks):
    """TAP carries the version."""
    lines = [f'# {name}: {value}' for name, value in version()[0].items()]
    output = roverivet_command('check', '--tap', 'traces/sample.txt').stdout.decode().splitlines()
    checks.equal(output[2:8], lines, 'TAP has the lines of --version')


def main():
    need_program()
    checks = Checks()
    here(checks)
    requests(checks)
    with tempfile.TemporaryDirectory() as name:
        elsewhere(checks, Path(os.path.realpath(name)))
    reports(checks)
    print('version: here, and in copies without git, toolchain or program')
    return checks.end()


if __name__ == '__main__':
    sys.exit(main())
