"""Which model this is: the rules that are in, the commit, the sum of the proofs, the toolchain, the program."""

import functools
import hashlib
import shutil
import subprocess
from pathlib import Path

import roverivet
from roverivet import HERE, PROGRAM, SOURCES

RULES = 'document 01'
REQUESTS = ('Q-2', 'Q-4', 'Q-6', 'Q-9', 'Q-14')  # the change requests that have landed, as 'Q-2': each landing adds its own


def version():
    """The whole of it, for a log. `proved` says whether the answers come from the proved program as its sources are now."""
    commit, changed = _commit()
    path, fresh = roverivet.other() or str(PROGRAM), roverivet.is_fresh()
    return {'rules': RULES, 'requests': list(REQUESTS), 'commit': commit, 'changed': changed, 'sum': proof_sum() if fresh else None, 'toolchain': _toolchain(),
            'program': roverivet.other() or str(PROGRAM.relative_to(HERE)), 'sha256': _sha256(path), 'proved': not roverivet.other() and fresh}


def lines():
    """The same for people, a line each."""
    all_of_it = version()
    yield f'rules: {RULES}'
    yield f'change requests: {", ".join(REQUESTS) or "none"}'
    yield f'commit: {all_of_it["commit"]}{", with changes that are not committed" if all_of_it["changed"] else ""}'
    yield f'proofs: {all_of_it["sum"] and "sum " + all_of_it["sum"] or "not known, no program here was proved from what is here"}'
    yield f'toolchain: {all_of_it["toolchain"]}'
    yield f'program: {all_of_it["program"]}, {_state(all_of_it)}'


def _state(all_of_it):
    if all_of_it['sha256'] is None:
        return 'which is not there'
    told = 'proved' if all_of_it['proved'] else 'not the proved one' if roverivet.other() else 'older than its sources'
    return f'sha256 {all_of_it["sha256"][:16]}, {told}'


@functools.cache
def proof_sum():
    """The sum of what a fresh program was proved from, or None: of the lines of `sha256sum`, by path, for crates.txt and the crates' code, definitions and proofs."""
    files = [path for name in SOURCES for path in HERE.glob(f'crates/*/{name}/**/*') if path.is_file()]
    if not files:
        return None
    names = sorted(str(path.relative_to(HERE)) for path in (*files, HERE / 'crates.txt') if path.is_file())
    lines = (f'{_sha256(HERE / name)}  {name}\n' for name in names)
    return hashlib.sha256(''.join(lines).encode()).hexdigest()[:16]


@functools.cache
def _commit():
    """(the commit, or why there is none, and whether files differ from it)."""
    if not shutil.which('git'):
        return 'not known, there is no git on the path', False
    top = _printed('git', 'rev-parse', '--show-toplevel')
    if not top or Path(top).resolve() != HERE:
        return 'not known, this is no clone by git', False
    return _printed('git', 'rev-parse', 'HEAD') or 'not known, there is no commit yet', bool(_printed('git', 'status', '--porcelain', '-uno'))


@functools.cache
def _toolchain():
    here = _printed('rt', 'version') if shutil.which('rt') else ''
    last = HERE / '.ci' / 'toolchain'
    return here.split('\n')[0] or 'no rt on the path' + (f', last proved with {last.read_text().strip()}' if last.exists() else '')


def _printed(*words):
    try:
        ran = subprocess.run(words, cwd=HERE, stdin=subprocess.DEVNULL, capture_output=True, text=True, timeout=60)
        return ran.stdout.strip() if not ran.returncode else ''
    except (OSError, subprocess.TimeoutExpired):
        return ''


def _sha256(path):
    try:
        return hashlib.sha256(Path(path).read_bytes()).hexdigest()
    except OSError:
        return None
