#!/usr/bin/env -S python3 -B
"""Brings the must-fail edits, and the wrong rules of tests/planted.py, to the spelling of today's Rattle, each with the meaning it had.

Run once at the top, after the kit's port.py and tools/respell.py, which turn neither. What an edit or a rule replaces is turned word by word: the names by
respell's table, paths, operators and projections as port.py writes them. BY_HAND has what that cannot say: an import line that is merged today, a contract,
the proof of a function. With --look nothing is written, and each text is listed that does not stand once in its file.
"""

import ast
import io
import re
import subprocess
import sys
import tarfile
import tempfile
import tokenize
from pathlib import Path

import respell

TOP = respell.TOP
LANDED, PORTED = 'a4650fa', 'c429661'
KIT = {
    'getD': 'get_or', 'bitAnd': 'bit_and', 'bitOr': 'bit_or', 'bitXor': 'bit_xor', 'trailingZeros': 'count_trailing_zeros', 'and-true': 'and_true',
    'and-first': 'and_first',
}
# Modules that are the prelude's words today.
IN_PRELUDE = ('lib.Dec', 'lib.ListN', 'mathlib.Core.Bool', 'mathlib.Core.List', 'mathlib.Core.Path', 'Prim.Native.Nat')
WORD = r"[A-Za-z_Ͱ-Ͽ][\w'′-]*"
PROJECTION = re.compile(rf'(?<=[^\s(=;,]) \.(?:«(\w+)»|(\w+))')
ATOM = rf'(?:{WORD}(?:\.\w+)*|\d+|\((?:[^()]|\([^()]*\))*\))'
OPERATORS = set('= ; , + - * / % ^ && || ≡ ≢ ∷ ++ < ≤ × → λ in ∙ :'.split())


PRELUDE = 'Rattle.std.specs.Prelude.{ℕ,'
BYTE_OF = '58 * ((9 * r + i / 58) / 13) + 4 * ((9 * r + i / 58) % 13)'
# By the edit, its file and its old text: what stands there instead, as pairs of an old and a new text.
BY_HAND = {
    ('answer/mask_in_upper_case', 'src/lib.rt', "    b'a',"): [("b'9', b'a',", "b'9', b'A',")],
    ('lent/record_not_stored_back', 'src/lib.rt', '    ensures { λ r. ⌜ together r (now (host .exit)) ≡ requested request (chipOf chip) (now (host .entry)) ⌝ }'): [
        ('    ensures { together result host.new ≡ requested request (chip_of chip) host.old }',
         '    ensures { together result host.old ≡ requested request (chip_of chip) host.old }')],
    ('record/sum_wraps', 'specs/Refusals.antt', 'use Prim.Native.Nat.{ℕ, _+_, _*_, _/_, _^_}'): [(PRELUDE, PRELUDE + ' ◌%◌,')],
    ('store/burst_seen_by_itself', 'specs/Door.antt', 'use mathlib.Core.Bool.{Bool, cond}'): [(PRELUDE, PRELUDE + ' false,')],
    ('start/laid_out_by_port', 'specs/Start.antt', 'use Prim.Native.Nat.{ℕ, zero, suc, _+_, _*_}'): [(PRELUDE, PRELUDE + ' ◌/◌, ◌%◌,')],
    ('start/laid_out_by_port', 'src/lib.rt', 'ghost use Prim.Native.Nat.{_+_, _≤_};'): [
        ('ghost use Rattle.std.specs.Prelude.{◌+◌,', 'ghost use Rattle.std.specs.Prelude.{◌+◌, ◌*◌, ◌/◌, ◌%◌, ◌<◌,')],
    ('start/laid_out_by_port', 'src/lib.rt', 'fn counters_from(s: &[u8], i: usize) -> [u32; 13]'): [
        ('fn counters_from(s: &[u8], i: usize) -> [u32; 13]',
         f'fn byte_of(i: usize, r: usize) -> usize requires place {{ i < 530 }} requires register {{ r < 13 }} ensures {{ result ≡ {BYTE_OF} }} {{ {BYTE_OF} }} '
         'fn counters_from(s: &[u8], i: usize) -> [u32; 13]')],
    ('start/laid_out_by_port', 'src/lib.rt', '    requires { ⌜ i + countersSize ≤ length (now s) ⌝ }'): [
        ('    requires { i + counters_size ≤ length s.now }', '    requires room { i + counters_size ≤ length s.now } requires whole { length s.now ≡ start_size }')],
    ('start/laid_out_by_port', 'src/lib.rt', '    requires { ⌜ i + portSize ≤ length (now s) ⌝ }'): [
        ('    requires { i + port_size ≤ length s.now }', '    requires room { i + port_size ≤ length s.now } requires whole { length s.now ≡ start_size }')],
}
# A model of this edit lacked a field, so that nothing but that refused it.
LACKING = 'total_octets = p.chip.core.kept.total_octets })', 'total_octets = p.chip.core.kept.total_octets; choices = t.after.chip.core.kept.choices })'
RULES_BY_HAND = {
    '            bytes[24],\n            bytes[25],': 'bytes[24], bytes[25],',
    '            bytes[25],': 'bytes[25],',
    '            bytes[29],\n': 'bytes[29],',
    '            bytes[29],\n            bytes[30],\n': 'bytes[29], bytes[30],',
    'ensures { λ r. ⌜ r ≡ ltb d (8 * n + k) ⌝ }': 'ensures { result ≡ ltb d (8 * n + k) }',
    'ensures { λ r. ⌜ r ≡ ltb d (8 * n) ⌝ }': 'ensures { result ≡ ltb d (8 * n) }',
    '    ensures { λ r. ⌜ r ≡ interrupt + cond error 64 0 ⌝ }': '    ensures { result ≡ interrupt + cond error 64 0 }',
    '    ensures { λ r. ⌜ r ≡ interrupt + cond error 32 0 ⌝ }': '    ensures { result ≡ interrupt + cond error 32 0 }',
    'use mathlib.Core.Bool.{Bool, cond}': PRELUDE,
    'use mathlib.Core.Bool.{Bool, false, cond}': PRELUDE + ' false,',
    'use Prim.Native.Nat.{ℕ}': PRELUDE,
    'use Prim.Native.Nat.{ℕ, _/_, _%_}': PRELUDE + ' ◌/◌, ◌%◌,',
    'use mathlib.Core.List.{List, _∷_, _++_}': 'List, ◌∷◌, ◌++◌',
    'use mathlib.Core.List.{List, [], _∷_, _++_}': 'List, [], ◌∷◌, ◌++◌',
    'use Prim.Native.Nat.{ℕ, _-_}': PRELUDE,
    'use Prim.Native.Nat.{ℕ, _-_, _%_}': PRELUDE + ' ◌%◌,',
    'use mathlib.Core.Bool.{false}': 'use Rattle.std.specs.Prelude.{false}',
    'use mathlib.Core.Bool.{true, false}': 'use Rattle.std.specs.Prelude.{true, false}',
    'leb shortFrom (choices': 'nat_le short_from choices',
    'leb 74 (choices': 'nat_le 74 choices',
    'burst/proofs/Effect/reconnecting/Proof.antt': 'burst/proofs/Effect/reconnecting/Answers.antt',
    'both-set (reconnectingAt (a .self) (a .lasting) (a .alternate)) (dataTo (a .self)) (a .lasting) _ (omega arith) (c .«data» .ensures)':
        'both_set (reconnecting_at a.self a.lasting a.alternate) (data_to a.self) a.lasting _ (omega arith) c.«data».ensures',
    '(λ i. simp (c .before .if1 .taken))': '(λ i. simp c.if-alternate.true)',
    '(λ i. simp and-true)': '(λ i. simp and-true)',
}
# The proofs of functions that edits went along with, in their old form: dropped, and today's form put at the end.
OLD_PROOFS = 'proofs/Effect/reconnecting/Proof.antt', 'proofs/counters_from/Proof.antt'
OWN_PROOFS = {
    'burst/alternate_ignored': [
        ('proofs/Effect/reconnecting/Answers.antt',
         '    both_set (reconnecting_at a.self a.lasting a.alternate) (data_to a.self) a.lasting _ (omega arith) c.«data».ensures',
         '    same_set (reconnecting_at a.self a.lasting a.alternate) _ (omega arith)'),
        ('proofs/Effect/reconnecting/Answers.antt', '    (λ i. simp c.if-alternate.true)', '    (λ i. simp and-true)')],
    'start/laid_out_by_port': [
        ('proofs/counters_from/Invariants.antt', 'use Prim.Native.Nat.{◌≤◌, ◌-◌, ◌+◌, ◌*◌}', 'use Prim.Native.Nat.{◌≤◌, ◌-◌, ◌+◌, ◌*◌, ◌/◌, ◌%◌}'),
        ('proofs/counters_from/Invariants.antt', 'number_from l.s (l.i + 4 * k)', 'number_from l.s (58 * ((9 * k + l.i / 58) / 13) + 4 * ((9 * k + l.i / 58) % 13))'),
        ('proofs/counters_from/Answers.antt', 'c.number_from.ensures)', '(c.number_from.ensures ∙ rw c.byte_of.ensures))')],
}


def tree(commit, folder):
    packed = subprocess.run(['git', 'archive', commit, 'crates'], cwd=TOP, stdout=subprocess.PIPE, check=True).stdout
    with tarfile.open(fileobj=io.BytesIO(packed)) as held:
        held.extractall(folder, filter='data')


def names():
    """The old names of definitions, lemmas and fields, with today's."""
    table = {}
    with tempfile.TemporaryDirectory() as made:
        for commit in LANDED, PORTED:
            respell.TOP = Path(made) / commit
            tree(commit, respell.TOP)
            turned, found = respell.renamed()
            if commit == LANDED:
                table = {name: respell.snake(name) for name in found if '-' in name.strip('-')}
            table |= turned
    respell.TOP = TOP
    return {old: new for old, new in table.items() if old not in respell.LEMMAS} | KIT


def head_of(text, end):
    """Where the application begins that ends at this place: back to an opening bracket or an operator."""
    at, depth = end, 0
    while at:
        one = text[at - 1]
        if one == ')':
            depth += 1
        elif one == '(':
            if not depth:
                break
            depth -= 1
        elif not depth and one == '\n':
            break
        elif not depth and one == ' ':
            word = re.search(r'(\S*) $', text[:at])[1]
            if word in OPERATORS or word.endswith((';', ',')) or not word:
                break
        at -= 1
    return at


def tight(text):
    """Projections as they are written today: `(c .kept .g)` is `c.kept.g`, and `(f x .y)` is `(f x).y`."""
    while True:
        found = PROJECTION.search(text)
        if not found:
            return text
        begin, field = head_of(text, found.start()), found[1] or found[2]
        head = text[begin:found.start()]
        one = re.fullmatch(rf'{WORD}(?:\.\w+)*|\([^()]*(?:\([^()]*(?:\([^()]*\)[^()]*)*\)[^()]*)*\)(?:\.\w+)*', head)
        new = (head if one else f'({head})') + '.' + field
        rest = text[found.end():]
        more = PROJECTION.match(text, found.end())
        if not more and begin and text[begin - 1] == '(' and rest.startswith(')') and not re.match(r'\)\.', rest):
            begin, rest = begin - 1, rest[1:]
        text = text[:begin] + new + rest


def spelt(text, table):
    """Words and paths."""
    text = re.sub(r'Rattle·(\w+)·(specs|proofs)\.\2', r'Rattle.\1.\2', text)
    text = re.sub(r'Rattle·(\w+)', r'Rattle.\1', text)
    text = text.replace('the-variants', 'TheVariants').replace('Bool·beq', 'beq').replace('Answer.Answer.Refused', 'Answer.TheVariants.Refused')
    for module in IN_PRELUDE:
        text = re.sub(rf'\b{re.escape(module)}\.(?=[a-z_])', 'Rattle.std.specs.Prelude.', text)
    text = re.sub(r'(?<=Prelude\.)_(\S+?)_(?=\s)', r'◌\1◌', text)
    return re.sub(r"[A-Za-z_Ͱ-Ͽ][A-Za-z0-9_Ͱ-Ͽ'′·-]*", lambda m: table.get(m[0], m[0]), text)


def native(text, today):
    """Comparisons and places as those files have them that speak of machine numbers."""
    words = set(re.findall(r'[^\s{},]+', ' '.join(re.findall(r'use Rattle\.std\.specs\.Prelude\.\{([^}]*)\}', today))))
    for old, new in ('ltb', 'nat_lt'), ('leb', 'nat_le'), ('set', 'slice_set'):
        if old not in words and new in words:
            text = re.sub(rf'(?<![.\w]){old}\b', new, text)
    if 'get_or' not in words and 'slice_index' in words:
        text = re.sub(rf'(?<![.\w])get_or ({ATOM}) ({ATOM}) 0', r'slice_index \1 \2', text)
    if 'eqb' not in words and '◌==◌' in words:
        text = re.sub(rf'(?<![.\w])eqb ({ATOM}) ({ATOM})', lambda m: ' == '.join(p[1:-1] if p[0] == '(' else p for p in m.groups()), text)
    return text


def turned(text, path, table, today):
    text = spelt(text, table)
    if path.endswith('.antt'):
        text = native(re.sub(r'«(\w+)»', r'\1', tight(text)), today)
    return text


def remark(text, table):
    """A comment: the definitions and lemmas that it names."""
    return re.sub(r"[A-Za-z][A-Za-z0-9_-]*", lambda m: table.get(m[0], m[0]) if re.search(r'[a-z][A-Z]|-', m[0]) else m[0], text)


def held_by(folder, path, texts):
    if path not in texts:
        at = folder / path
        texts[path] = at.read_text() if at.is_file() else ''
    return texts[path]


def replaced(folder, changes):
    """The changes whose old text does not stand once, each after those before it."""
    texts, wrong = {}, []
    for path, old, new in changes:
        text = held_by(folder, path, texts)
        if text.count(old) != 1:
            wrong.append(f'{path} has {text.count(old)} times: {old}')
        texts[path] = text.replace(old, new, 1)
    return wrong


def edits(table, look):
    wrong = 0
    for file in sorted((TOP / 'crates').glob('*/must-fail/*.edit')):
        crate, name = file.parent.parent, f'{file.parent.parent.name}/{file.stem}'
        was = subprocess.run(['git', 'show', f'{LANDED}:{file.relative_to(TOP)}'], cwd=TOP, stdout=subprocess.PIPE, text=True, check=True).stdout
        lines, changes, path, old, today = [], [], '', '', ''
        for line in was.splitlines():
            if line.startswith('file: '):
                path = line[6:].strip()
                today = (crate / path).read_text() if (crate / path).is_file() else ''
                lines += [line] if path not in OLD_PROOFS else []
            elif line.startswith('old: '):
                old = line[5:]
            elif not line.startswith('new:'):
                lines.append(remark(line, table))
            elif path not in OLD_PROOFS:
                new = line[4:].removeprefix(' ')
                for pair in BY_HAND.get((name, path, old)) or [(turned(old, path, table, today), turned(new, path, table, today).replace(*LACKING))]:
                    changes.append((path, *pair))
                    lines += [f'old: {pair[0]}', f'new: {pair[1]}' if pair[1] else 'new:']
        for path, *pair in OWN_PROOFS.get(name, ()):
            changes.append((path, *pair))
            lines += [f'file: {path}', f'old: {pair[0]}', f'new: {pair[1]}']
        bad = replaced(crate, changes)
        wrong += bool(bad)
        for line in bad:
            print(f'{name}: {line}')
        if not look:
            file.write_text('\n'.join(lines) + '\n')
    print(f'{wrong} edits have a text that does not stand once')


def rules(table, look):
    """The texts of tests/planted.py: a text goes by the file that it stands in."""
    path = TOP / 'tests' / 'planted.py'
    was = subprocess.run(['git', 'show', f'{LANDED}:tests/planted.py'], cwd=TOP, stdout=subprocess.PIPE, text=True, check=True).stdout
    held = {}
    exec(compile(was, str(path), 'exec'), held)
    files = {text: file for rule in held['RULES'] for file, *texts in rule.changes for text in texts if file.endswith('.antt')}

    def said(text):
        if text in RULES_BY_HAND:
            return RULES_BY_HAND[text]
        file = files.get(text) or next((files[whole] for whole in files if text and '«' in text and text in whole), None)
        if file is None:
            return text
        return turned(text, file, table, (TOP / 'crates' / file).read_text() if (TOP / 'crates' / file).is_file() else '')

    lines, done = was.splitlines(keepends=True), []
    for token in tokenize.generate_tokens(io.StringIO(was).readline):
        if token.type == tokenize.STRING and not token.string.startswith(('"""', 'f')) and said(ast.literal_eval(token.string)) != ast.literal_eval(token.string):
            quote = token.string[0]
            new = said(ast.literal_eval(token.string)).replace('\\', '\\\\').replace('\n', '\\n').replace(quote, '\\' + quote)
            done.append((token.start, token.end, quote + new + quote))
    for (row, begin), (last, end), new in reversed(done):
        assert row == last
        lines[row - 1] = lines[row - 1][:begin] + new + lines[row - 1][end:]
    now = ''.join(lines)
    exec(compile(now, str(path), 'exec'), held)
    for rule in held['RULES']:
        for line in held['misplaced'](rule, TOP / 'crates'):
            print(f'tests/planted.py: {rule.name}: {line}')
    if not look:
        path.write_text(now)


def main():
    table, look = names(), '--look' in sys.argv
    edits(table, look)
    rules(table, look)


if __name__ == '__main__':
    main()
