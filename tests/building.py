#!/usr/bin/env -S python3 -B
"""When ./roverivet proves and builds: a copy of it beside a toolchain that only notes that it was asked."""

import os
import shutil
import subprocess
import sys
import tempfile
import time
from pathlib import Path

from checks import Checks, TOP

RT = '''#!/bin/sh
name=$(basename "$PWD")
echo "$name: $*" >> "$(dirname "$0")/asked"
[ ! -e "$(dirname "$0")/broken" ] || exit 1
mkdir -p out && cp src/main.rt "out/$name" && chmod +x "out/$name"
[ "$1" != run ] || echo 'what the program prints'
'''
ELSEWHERE = '''
import os, runpy, sys
here = os.uname()
os.uname = lambda: os.uname_result((*here[:4], 'some other'))
sys.argv = sys.argv[1:]
runpy.run_path(sys.argv[0], run_name='__main__')
'''
PROGRAM = '#!/bin/sh\nhead -c 32 > /dev/null\necho 1 ok\n'
EXPORT = '#!/bin/sh\ncat > /dev/null\necho attribute,tp0,tp1,tp2,tp3,tp4,tp5,tp6,tp7,aui\necho Runts,1,2,3,4,5,6,7,8,9\necho "export: 2 records refused" >&2\n'
TOTALS = '#!/bin/sh\nif [ "$(wc -c)" -gt 8 ]; then echo "totals: the sum reaches 2^64 and does not fit in 64 bits" >&2; else echo 12; fi\n'
PROVING = 'proving it first, then building it (rt run in crates/run); this takes minutes'


def make(folder):
    """A repository and a toolchain, both small and false."""
    for name in ('roverivet', 'tools', 'clients'):
        copy = shutil.copytree if (TOP / name).is_dir() else shutil.copy
        copy(TOP / name, folder / 'repository' / name)
    files = {'repository/crates.txt': 'run:\n', 'repository/crates/run/src/main.rt': PROGRAM,
             'repository/crates/export/src/main.rt': EXPORT, 'repository/crates/export/args': '1\nsome start\n',
             'repository/crates/totals/src/main.rt': TOTALS, 'kit/bin/rt': RT}
    for name, content in files.items():
        (folder / name).parent.mkdir(parents=True, exist_ok=True)
        (folder / name).write_text(content)
        (folder / name).chmod(0o755)


def main():
    checks = Checks()
    with tempfile.TemporaryDirectory() as name:
        folder = Path(name)
        (folder / 'repository').mkdir()
        make(folder)
        asked, source = folder / 'kit' / 'bin' / 'asked', folder / 'repository' / 'crates' / 'run' / 'src' / 'main.rt'
        tools = {key: value for key, value in os.environ.items() if key != 'ROVERIVET_RUN'}

        def run(*words, path=f'{folder}/kit/bin:{os.environ["PATH"]}', data='tick\n', by=(), **more):
            asked.unlink(missing_ok=True)
            ran = subprocess.run([sys.executable, '-B', *by, str(folder / 'repository' / 'roverivet'), *words], input=data, text=True,
                                 capture_output=True, cwd=folder, env={**tools, **more, 'PATH': path}, timeout=60)
            return ran.returncode, ran.stdout, ran.stderr.strip(), asked.read_text() if asked.exists() else ''

        def later():
            moment = time.time() + 5
            os.utime(source, (moment, moment))

        checks.equal(run('run', '--text'), (0, '1 ok\n', f'roverivet: crates/run/out/run is not built yet: {PROVING}', 'run: run\n'),
                     'not built yet')
        checks.equal(run('run', '--text'), (0, '1 ok\n', '', ''), 'built, and not asked again')
        checks.equal(run('run', '--text', by=('-c', ELSEWHERE)),
                     (3, '', 'roverivet: programs are for x86-64, and this machine is some other', ''), 'not started on a machine of another kind')
        later()
        checks.equal(run('run', '--text')[2:], (f'roverivet: crates/run/out/run is older than its sources: {PROVING}', 'run: run\n'),
                     'a source is younger')
        past = time.time() - 5
        os.utime(source, (past, past))
        checks.equal(run('build'), (0, 'ready: the program answers records\n', '', ''), 'build with nothing to do')
        other = 'crates/export/out/export is missing or older than its sources: proving it first, then building it (rt run in crates/export)'
        printed = 'attribute,tp0,tp1,tp2,tp3,tp4,tp5,tp6,tp7,aui\nRunts,1,2,3,4,5,6,7,8,9\n'
        checks.equal(run('export', '--text', '--attribute', 'Runts'), (0, printed, f'roverivet: {other}\nroverivet: 2 records refused', 'export: run -- 1 some start\n'),
                     'the program that export needs')
        checks.equal(run('export', '--text', '--attribute', 'Runts'), (0, printed, 'roverivet: 2 records refused', ''), 'and not asked again')
        checks.equal(run('export', '--text', '--attribute', 'Collisions')[::2], (1, "roverivet: the program export printed 'Runts,1,2,3,4,5,6,7,8,9' for Collisions"),
                     'a line for another attribute')
        checks.equal(run('export', '--text')[0], 1, 'too few lines')
        other = 'crates/totals/out/totals is missing or older than its sources: proving it first, then building it (rt run in crates/totals)'
        checks.equal(run('totals', data='5\n17\n'), (0, '12\n', f'roverivet: {other}', 'totals: run\n'), 'the program that totals needs')
        checks.equal(run('totals', data='5\n17\n', ROVERIVET_RUN=str(folder / 'none')), (0, '12\n', '', ''), 'whose place no other program takes')
        checks.equal(run('totals', data='5\n4\n3\n'),
                     (1, '', 'roverivet: standard input: the sum reaches 2^64 and does not fit in 64 bits', ''), 'a sum that does not fit')
        checks.equal(run('totals', data='5\n-4\n3\n')[:2], (2, ''), 'a line that is no reading')
        later()
        (folder / 'kit' / 'bin' / 'broken').touch()
        status, output, said, _ = run('run', '--text')
        checks.equal((status, output, said.splitlines()[-1]),
                     (3, '', 'roverivet: rt run in crates/run failed: the program is not proved, so it is not run'), 'what is not proved is not run')
        status, output, said, _ = run('export', '--text')
        checks.equal((status, output, said.splitlines()[-1]),
                     (3, '', 'roverivet: rt run in crates/export failed: the program is not proved, so it is not run'), 'nor is an export that is not proved')
        status, output, said, _ = run('totals', data='5\n')
        checks.equal((status, output, said.splitlines()[-1]),
                     (3, '', 'roverivet: rt run in crates/totals failed: the program is not proved, so it is not run'), 'nor is a totals that is not proved')
        bare = os.pathsep.join(part for part in os.environ['PATH'].split(os.pathsep)
                               if not os.access(os.path.join(part, 'rt'), os.X_OK))
        checks.equal(run('run', '--text', path=bare),
                     (3, '', 'roverivet: the program must be proved and built first, and there is no rt on the path', ''), 'no rt')
        first = 'roverivet: crates/totals/out/totals must be proved and built first, and there is no'
        checks.equal(run('totals', data='5\n', path=bare), (3, '', f'{first} rt on the path', ''), 'no rt for totals')
        checks.equal(run('asm', path=bare)[0], 0, 'asm needs no program')
        (folder / 'repository' / 'crates.txt').unlink()
        for name in ('run', 'totals'):
            shutil.rmtree(folder / 'repository' / 'crates' / name / 'out')
        checks.equal(run('explain', '--text')[::2],
                     (3, 'roverivet: there is no crates/run/out/run, and no crates.txt to build it from'), 'nothing to build from')
        checks.equal(run('totals', data='5\n')[::2], (3, f'{first} crates.txt to build it from'), 'nothing to build totals from')
    print('building: missing, present, on another machine, older than its sources, not proved, no toolchain')
    return checks.end()


if __name__ == '__main__':
    sys.exit(main())
