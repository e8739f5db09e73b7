#!/usr/bin/env -S python3 -B
"""The verbs of ./roverivet: what they say, and exit statuses that mean something."""

import json
import os
import subprocess
import sys
import tempfile
from pathlib import Path

from checks import Checks, TOP, need_program, roverivet_command
from record import SAMPLE_LINES
import liars

VERBS = ('build', 'asm', 'dis', 'run', 'check', 'explain', 'export', 'talk', 'totals', 'view')

EXPLAINED = '''1-3 pulse tp0+tp1: ok
4 pulse tp0+tp1: ok; link passes: TP0 TP1
5 burst tp0 d=1000 n=64: one heard (TP0), data to TP1 AUI; Readable Frames +1 TP0
6 c-write P=16: selects Readable Frames of TP0 (P 16 R 0)
7 c-write R=0: selects Readable Frames of TP0 (P 16 R 0)
8 d-read: 01, byte 1 of 4 of Readable Frames of TP0
9 burst tp0+tp1 d=600 c=100 x=300: two heard, jam to TP0 TP1 AUI; Collisions +1 TP0 TP1; Transmit Collisions +1
10 refused 8: tick with a mask
'''

# records and their words, for kinds that the sample has not
WORDS = [
    ('pulse tp0 x4\nburst aui d=70000 n=64 rate-error loopback-missing',
     '5 burst aui d=70000 n=64 rate-error loopback-missing: one heard (AUI), jam to TP0; Readable Frames +1 AUI; '
     'Very Long Events +1 AUI; Data Rate Mismatches +1 AUI'),
    ('burst none d=3000 c=600 x=1025 collision-signal',
     '1 burst none d=3000 c=600 x=1025 collision-signal: one heard (AUI), jam to nobody; Collisions +1 AUI; '
     'Late Events +1 AUI; Auto Partitions +1 AUI; now partitioned: AUI'),
    ('burst tp5 d=600', '1 burst tp5 d=600: none heard, nothing goes out; link passes: TP5'),
    ('c-write R=31\nd-write 80\nd-read', '3 d-read: ff, no TP port partitioned'),
    ('c-write R=31\nd-write 27', '2 d-write 27: Set: disable TP7, through G: interface error; now disabled: TP7'),
    ('c-write R=31\nd-write 27\nc-read', '3 c-read: 40, interface error'),
    ('c-write R=30\nd-write 8b', '2 d-write 8b: Get: AUI status, clearing S and L, through S: interface error'),
    ('pulse tp3 x4\nc-write P=1\nc-write R=2\nd-read', '7 d-read: 08, TP link change TP3, cleared now'),
    ('c-write P=2\nc-write R=2\nd-write ff', '3 d-write ff: TP link interrupt enable = ff'),
    ('c-write P=2\nc-write R=2\nd-write ff\npulse tp3 x4\nc-read', '8 c-read: 80, interrupt'),
    ('c-write P=31\nc-write R=14\nd-write 0a x6', '8 d-write 0a: byte 6 of 6 of Last Source Address of AUI, which takes effect'),
    ('c-write P=5', '1 c-write P=5: selects no listed register (P 5 R 0)'),
    ('reset', '1 reset: reset'),
    ('c-write R=30\nd-read', '2 refused 6: S (P 0 R 30) is write-only'),
    ('d-read', '1 refused 5: P 0 R 0 is not listed'),
    ('c-write 7f', '1 refused 7: C write of 7f, whose top three bits are 011'),
    ('burst none d=7', '1 refused 1: burst with no active port and no collision signal'),
    ('raw 010203', '1 refused 9: 3 bytes where a record has 32'),
]


def text(result):
    return result.stdout.decode(), result.stderr.decode(), result.returncode


def helps(checks):
    for verb in VERBS:
        shown = roverivet_command(verb, '--help')
        checks.check(shown.returncode == 0 and shown.stdout.startswith(f'usage: roverivet {verb}'.encode()), f'{verb} --help')
    whole = roverivet_command('--help')
    checks.check(whole.returncode == 0 and all(f'    {verb} '.encode() in whole.stdout for verb in VERBS), '--help names all verbs')
    for words in ((), ('bogus',), ('run', 'a', 'b'), ('view', 'traces/sample.txt'), ('talk', 'x'), ('run', '--bogus'), ('totals', 'a', 'b')):
        wrong = roverivet_command(*words)
        checks.check(wrong.returncode == 2 and b'usage:' in wrong.stderr, f'bad usage: {" ".join(words) or "no verb"}')
    print(f'help of {len(VERBS)} verbs, bad usage')


def runs(checks, folder):
    binary = folder / 'sample.bin'
    checks.equal(roverivet_command('asm', 'traces/sample.txt', '-o', str(binary)).returncode, 0, 'asm to a file')
    for words, data in ((('traces/sample.txt',), None), ((str(binary),), None), (('-',), binary.read_bytes()), ((), binary.read_bytes()),
                        (('--text',), (TOP / 'traces' / 'sample.txt').read_bytes()), (('--text', 'traces/LIST'), None)):
        result = roverivet_command('run', *words, data=data)
        if words[-1:] == ('traces/LIST',):
            checks.check(result.returncode == 2 and result.stderr.startswith(b'roverivet: traces/LIST:3:1: expected burst'),
                         'run --text of what is no trace')
        else:
            checks.equal((result.returncode, result.stdout, result.stderr), (0, SAMPLE_LINES, b''), f'run {" ".join(words)}')
    elsewhere = roverivet_command('run', str(binary), cwd=folder)
    checks.equal((elsewhere.returncode, elsewhere.stdout), (0, SAMPLE_LINES), 'run from another folder')
    started = roverivet_command('run', '--start', 'traces/counter-wraps.start', 'traces/counter-wraps.txt')
    checks.check(started.returncode == 0 and b'\n7 val ff\n' in started.stdout, 'run with a start file as text')
    checks.equal(roverivet_command('run', 'traces/counter-wraps.txt').stdout, started.stdout, 'run with the start file that the trace names')
    checks.check(b'\n7 val 00\n' in roverivet_command('run', '--start', '/dev/stdin', 'traces/counter-wraps.txt', data=bytes(530)).stdout,
                 'run with another start file than the trace names')
    start = folder / 'wraps.start'
    roverivet_command('asm', '--start', 'traces/counter-wraps.start', '-o', str(start))
    checks.equal(start.stat().st_size, 530, 'asm of a start file')
    (folder / 'full.start').write_bytes(b'\xff' * 530)
    checks.equal(roverivet_command('run', '--start', str(folder / 'full.start'), data=b'c-write R=13\nd-read\n').stdout, b'1 ok\n2 val ff\n',
                 'run with a start file that has no byte of a control character')
    checks.equal(roverivet_command('run', '--start', str(start), 'traces/counter-wraps.txt').stdout, started.stdout, 'run with a start file')
    for verb in ('run', 'explain', 'export', 'view'):
        more = ('-o', str(folder / 'x.svg')) if verb == 'view' else ()
        checks.equal(text(roverivet_command(verb, 'nothing.bin', *more))[1:], ('roverivet: nothing.bin: No such file or directory\n', 2),
                     f'{verb} of a file that is not there')
        checks.equal(text(roverivet_command(verb, '--start', 'nothing.start', 'traces/sample.txt', *more))[1:],
                     ('roverivet: nothing.start: No such file or directory\n', 2), f'{verb} with a start file that is not there')
        checks.equal(text(roverivet_command(verb, '--start', str(binary), 'traces/sample.txt', *more))[1:],
                     (f'roverivet: {binary}: a start file has 530 or 535 bytes, this has 320\n', 2), f'{verb} with a start file of another size')
    print('run: text, binary, standard input, start files, files that are not there')


def explains(checks):
    checks.equal(text(roverivet_command('explain', 'traces/sample.txt')), (EXPLAINED, '', 0), 'explain the sample')
    for records, due in WORDS:
        words, said, status = text(roverivet_command('explain', '--text', data=records.encode()))
        checks.equal((words.splitlines()[-1:], said, status), ([due], '', 0), f'explain {records.splitlines()[-1]}')
    for row in (TOP / 'traces' / 'LIST').read_text().splitlines():
        if not row.startswith(('#', 'registers', 'commands')):
            name = row.split()[0]
            result = roverivet_command('explain', f'traces/{name}.txt')
            checks.equal((result.returncode, result.stderr, b'FINDING' in result.stdout), (0, b'', False), f'explain {name}: no finding')
    said = [json.loads(line) for line in roverivet_command('explain', '--json', 'traces/sample.txt').stdout.splitlines()]
    checks.equal([(one['number'], one['record'], one['answer'], one['value']) for one in said[3:6]],
                 [(4, 'pulse tp0+tp1', 'ok', 0), (5, 'burst tp0 d=1000 n=64', 'rep', 0x102), (6, 'c-write P=16', 'ok', 0)], 'explain --json: answers')
    checks.equal([(one['page'], one['register'], one['passing'], one['partitioned'], one['changes'], one['credits']) for one in said[3:5]],
                 [(0, 0, ['TP0', 'TP1'], [], {'TP link': 3}, {}), (0, 0, ['TP0', 'TP1'], [], {}, {'TP0': ['Readable Frames']})],
                 'explain --json: what was left')
    checks.equal((len(said), said[9]['answer'], said[9]['value'], said[9]['finding']), (10, 'ref', 8, None), 'explain --json: the refusal')
    print(f'explain: the sample, {len(WORDS)} more, and no finding in any trace by hand')


def talks(checks):
    typed = b'pulse tp0 x4\n\n# a remark\nburst tp0\nburst tp0 d=600 n=64\nd-read\n'
    told = ('1-3 pulse tp0: ok\n4 pulse tp0: ok; link passes: TP0\n'
            '5 burst tp0 d=600 n=64: one heard (TP0), data to AUI; Readable Frames +1 TP0\n'
            '6 refused 5: P 0 R 0 is not listed\n')
    checks.equal(text(roverivet_command('talk', data=typed)), (told, 'roverivet: 4:10: expected d=, the duration of the burst\n', 2), 'talk')
    checks.equal(text(roverivet_command('talk', data=b'pulse tp0\nbur'))[::2], ('1 pulse tp0: ok\n', 2), 'talk with a last line that is cut')
    checks.equal(text(roverivet_command('talk', data=b'pulse tp0'))[::2], ('1 pulse tp0: ok\n', 0), 'talk with a last line that has no end')
    keep = subprocess.Popen([sys.executable, str(TOP / 'roverivet'), 'talk'], stdin=subprocess.PIPE, stdout=subprocess.PIPE, bufsize=0)
    for number, word in ((1, 'tick'), (2, 'reset'), (3, 'tick')):
        keep.stdin.write(word.encode() + b'\n')
        checks.check(keep.stdout.readline().startswith(f'{number} {word}: '.encode()), f'talk answers {word} at once')
    keep.stdin.close()
    checks.equal(keep.wait(20), 0, 'talk ends with its input')
    keep.stdout.close()
    print('talk: line by line, wrong lines told, ends with its input')


def views(checks, folder):
    for words, reason in ((('traces/sample.txt', '-o', 'x.png'), 'x.png: expected a name that ends in .svg or .html'),
                          (('traces/sample.txt', '-o', str(folder / 'none' / 'x.svg')), f'{folder}/none/x.svg: No such file or directory'),
                          (('traces/sample.txt', '--from', '20', '-o', str(folder / 'x.svg')), 'there is no record to show'),
                          (('traces/sample.txt', '--from', '5', '--to', '4', '-o', str(folder / 'x.svg')),
                           '--from 5 --to 4: expected record numbers from 1, the lower first'),
                          (('--text', '-o', str(folder / 'x.svg')), 'more than 1500 columns: name a part of the trace with --from and --to')):
        data = b'tick\npulse none\n' * 800 if words[0] == '--text' else None
        checks.equal(text(roverivet_command('view', *words, data=data))[1:], (f'roverivet: {reason}\n', 2), f'view: {reason}')
    print('view: what it does not take')


# By Q-6: d 76 is a short event at 78, a runt at 75; R 5 and then R 6 of TP0 are read.
LIMITED = b'pulse tp0 x4\nburst tp0 d=76 n=9\nc-write P=16\nc-write R=5\nd-read\nc-write R=6\nd-read\n'
CREDIT = {'short': 'Short Events', 'runt': 'Runts'}
LIMITS = [((), 'short'), (('--short-limit', '78'), 'short'), (('--short-limit', '76'), 'runt'), (('--short-limit', '75'), 'runt'),
          (('--short-limit', '77'), 'short'), (('--short-limit=81',), 'short'), (('--short-limit', '000075'), 'runt'),
          (('--start', 'traces/short-limit-75.start'), 'runt'), (('--start', 'traces/short-limit-81.start'), 'short'),
          (('--start', 'traces/short-limit-75.start', '--short-limit', '75'), 'runt'), (('--start', '75.bin'), 'runt'),
          (('--start', '75.bin', '--short-limit', '75'), 'runt'), (('--start', '530.bin', '--short-limit', '75'), 'runt'), (('--start', '530.bin'), 'short')]
LIMIT_VERBS = ('run', 'check', 'explain', 'export', 'talk', 'view')
NO_LIMITS = ('0', '74', '82', '334', '4294967295', '4294967296', '4294967374', '18446744073709551694', '9' * 40)


def limit_words(verb, folder):
    """The words by which a verb runs LIMITED."""
    return {'talk': ('talk',), 'view': ('view', str(folder / 'limited.txt'), '-o', str(folder / 'limited.svg')),
            'export': ('export', str(folder / 'limited.txt'))}.get(verb, (verb, str(folder / 'limited.txt')))


def limits(checks, folder):
    """--short-limit and start files that name a limit, for every verb that powers up a chip."""
    (folder / 'limited.txt').write_bytes(LIMITED)
    (folder / '75.bin').write_bytes(bytes(530) + b'\x4b\0\0\0\0')
    (folder / '530.bin').write_bytes(bytes(530))
    for words, class_ in LIMITS:
        words = [str(folder / word) if word.endswith('.bin') else word for word in words]
        reads = {'short': ('01', '00'), 'runt': ('00', '01')}[class_]
        due = {'run': ''.join(f'{n} ok\n' for n in range(1, 5)) + f'5 rep 100\n6 ok\n7 ok\n8 val {reads[0]}\n9 ok\n10 val {reads[1]}\n',
               'check': f'passed {folder}/limited.txt: 10 records\n1 passed, 0 failed\n', 'view': ''}
        for verb in LIMIT_VERBS if '75' in words or not words else ('run', 'explain'):
            output, said, status = text(roverivet_command(*limit_words(verb, folder), *words, data=LIMITED if verb == 'talk' else None))
            what = f'{verb} {" ".join(words)}: a {class_}'
            checks.equal((said, status), ('', 0), what)
            if verb in due:
                checks.equal(output, due[verb], what)
            elif verb == 'export':
                rows = [line for line in output.splitlines() if line.startswith(('Short', 'Runts'))]
                checks.equal(rows, [f'{name},{int(CREDIT[class_] == name)}' + ',0' * 8 for name in CREDIT.values()], what)
            else:
                burst = f'5 burst tp0 d=76 n=9: one heard (TP0), data to AUI; {CREDIT[class_]} +1 TP0'
                checks.check(burst in output.splitlines(), what, output)
            if verb == 'view':
                drawn = (folder / 'limited.svg').read_text()
                checks.equal([name for name in CREDIT.values() if f'{name} +1 TP0' in drawn], [CREDIT[class_]], f'{what}, drawn')
    kept = roverivet_command('run', '--start', 'traces/counter-wraps.start', '--short-limit', '75', 'traces/counter-wraps.txt')
    checks.equal((kept.stdout, kept.returncode), (roverivet_command('run', 'traces/counter-wraps.txt').stdout, 0), '--short-limit beside counters')
    checks.equal(roverivet_command('run', '--short-limit', '75', 'traces/counter-wraps.txt').stdout, kept.stdout, 'and beside those that the trace names')
    print(f'limits: {len(LIMITS)} ways to name one, {len(LIMIT_VERBS)} verbs')


def no_limits(checks, folder):
    """Refused with 13 at power-up: a message, nothing on standard output, status 2, and no program is started."""
    marker = folder / 'started'
    env = {**os.environ, 'ROVERIVET_RUN': str(liars.written(folder, f'#!/bin/sh\ntouch {marker}\nexit 0\n'))}
    (folder / 'limited.txt').write_bytes(LIMITED)
    for number in NO_LIMITS:
        named = [folder / 'text.start']
        named[0].write_text(f'Short Event limit = {number}\n')
        if int(number) < 2**32:
            named.append(folder / 'binary.start')
            named[1].write_bytes(bytes(530) + int(number).to_bytes(4, 'little') + b'\0')
        for words in (('--short-limit', number), *(('--start', str(path)) for path in named), ('--short-limit', number, '--start', str(named[-1]))):
            for verb in LIMIT_VERBS if number in ('74', '4294967374') else ('run', 'check'):
                (folder / 'limited.svg').unlink(missing_ok=True)
                ran = roverivet_command(*limit_words(verb, folder), *words, data=LIMITED if verb == 'talk' else None, env=env)
                checks.equal(text(ran), ('', f'{verb}: short event limit {number} is outside 75 to 81 (refused 13)\n', 2), f'{verb} {" ".join(words)}')
    checks.check(not marker.exists() and not (folder / 'limited.svg').exists(), 'no program was started, and nothing was drawn')
    long = roverivet_command('run', '--short-limit', '9' * 5000, data=b'', env=env)
    checks.equal(text(long), ('', f'run: short event limit {"9" * 37}... is outside 75 to 81 (refused 13)\n', 2), 'a number of 5000 digits')
    own = folder / 'own.txt'
    own.write_bytes(b'start = text.start\n' + LIMITED)
    (folder / 'text.start').write_text('Short Event limit = 82\n')
    said = 'short event limit 82 is outside 75 to 81 (refused 13)\n'
    checks.equal(text(roverivet_command('run', str(own), env=env)), ('', f'run: {said}', 2), 'the start file that a trace names')
    checks.equal(text(roverivet_command('check', str(own), env=env)), ('', f'check: {said}', 2), 'the start file that a trace names, checked')
    checks.equal(text(roverivet_command('check', 'traces/sample.txt', str(own), env=env)), ('', f'check: {own}: {said}', 2),
                 'one file of several is named, and none is run')
    for words in (('--short-limit', '82'), ('--start', str(folder / 'text.start'))):
        checks.equal(text(roverivet_command('check', *words, 'traces/sample.txt', str(own), env=env)), ('', f'check: {said}', 2),
                     f'several files with {words[0]}')
    checks.equal(text(roverivet_command('check', '-', data=b'start = %s\ntick\n' % str(folder / 'text.start').encode(), env=env)), ('', f'check: {said}', 2),
                 'checked from standard input')
    for words, reason in ((('--start', 'traces/short-limit-81.start'), 'traces/short-limit-81.start names another, the short event limit 81'),
                          (('--start', str(folder / 'text.start')), f'{folder}/text.start names another, the short event limit 82')):
        for verb in LIMIT_VERBS:
            data = b'' if verb == 'talk' else None
            output, told, status = text(roverivet_command(*limit_words(verb, folder), '--short-limit', '75', *words, data=data, env=env))
            before = f'{folder}/limited.txt: ' if verb == 'check' else ''
            checks.equal((told, status), (f'roverivet: {before}--short-limit 75: {reason}\n', 2), f'{verb} --short-limit 75 {" ".join(words)}')
            checks.check(not output or verb == 'check' and output.endswith('\n0 passed, 1 failed\n'), f'{verb}: and nothing is answered', output)
    for word in ('', 'x', '-5', '+75', '7.5', '75 ', '0x4b', '٧٥', '7_5'):
        for verb in ('run', 'talk', 'check'):
            wrong = roverivet_command(*limit_words(verb, folder), f'--short-limit={word}', data=b'', env=env)
            checks.check((wrong.returncode, wrong.stdout) == (2, b'') and b'usage:' in wrong.stderr and b'argument --short-limit: expected' in wrong.stderr,
                         f'{verb} --short-limit={word!r} is bad usage', wrong.stderr.decode())
    for verb in ('build', 'asm', 'dis', 'totals'):
        checks.equal(roverivet_command(verb, '--short-limit', '75', data=b'').returncode, 2, f'{verb} has no --short-limit')
    checks.check(not marker.exists(), 'no program was started')
    print(f'limits: {len(NO_LIMITS)} numbers refused with 13, two limits that differ, words that are no number')


def findings(checks, folder):
    """Programs that are wrong: missing, lying, dying, printing something else."""
    def with_program(script, *words, data):
        return liars.command(folder, script, *words, data=data)

    words, _, status = with_program(liars.script(liars.ALWAYS_OK), 'explain', '--text', data=b'tick\ntick mask=1\nburst tp0 d=5\n')
    checks.equal((words, status),
                 ('1 tick: ok\n2 tick mask=001: answered ok 0; FINDING: document 01 refuses this with 8: tick with a mask\n'
                  '3 burst tp0 d=5: answered ok 0; FINDING: document 01 accepts this and answers rep or jam or nil\n', 1), 'explain a liar')
    words, _, status = with_program(liars.script("number, 'ref 8'"), 'explain', '--text', data=b'tick\n')
    checks.equal((words, status), ('1 tick: answered ref 8; FINDING: document 01 accepts this and answers ok\n', 1), 'explain a refuser')
    for wrong, reason in (('prints something else', "the program printed 'hello', which is no answer"),
                          ('counts from 2', 'the program answered record 2 when record 1 was due'),
                          ('dies', 'the program ended before its answer to record 1, status 7')):
        _, said, status = with_program(liars.UNORDERED[wrong], 'explain', '--text', data=b'tick\n')
        checks.check(said.strip() in (f'roverivet: {reason}', 'roverivet: the program has ended, status 7') and status == 1,
                     f'explain: {reason}', f'found {said} {status}')
    checks.equal(with_program(liars.UNORDERED['dies'], 'run', '--text', data=b'tick\n')[1:],
                 ('roverivet: the program ended with status 7\n', 1), 'run a program that dies')
    checks.equal(with_program(liars.UNORDERED['is silent'], 'run', '--text', data=b'tick\n')[1:],
                 ('roverivet: the program gave 0 answers to 1 records\n', 1), 'run a program that is silent')
    for verb in ('run', 'explain', 'build'):
        more = () if verb == 'build' else ('traces/sample.txt',)
        none = text(roverivet_command(verb, *more, env={**os.environ, 'ROVERIVET_RUN': str(folder / 'none')}))
        checks.equal(none[1:], (f'roverivet: ROVERIVET_RUN names {folder}/none, which is no program\n', 3), f'{verb} without a program')
    print('findings: programs that lie, die, are silent or are not there')


def forms(checks, folder):
    """Text and records are known by their first bytes, whatever the name and the way they come."""
    source, binary = (TOP / 'traces' / 'sample.txt').read_bytes(), roverivet_command('asm', 'traces/sample.txt').stdout
    looks = 'this looks like text, and records are expected; --binary takes it for records'
    for name in ('trace', 'trace.bin', 'trace.log'):
        (folder / name).write_bytes(source)
        checks.equal(text(roverivet_command('run', str(folder / name))), (SAMPLE_LINES.decode(), '', 0), f'run of a text named {name}')
        checks.equal(text(roverivet_command('dis', str(folder / name))), ('', f'roverivet: {folder / name}: {looks}\n', 2), f'dis of a text named {name}')
    for data, what in ((source, 'text'), (binary, 'records'), (b'\xef\xbb\xbf' + source, 'text with a mark before it'),
                       (source.replace(b'\n', b'\r\n'), 'text from another system')):
        checks.equal(text(roverivet_command('run', data=data)), (SAMPLE_LINES.decode(), '', 0), f'run of {what} from a pipe')
    checks.equal(text(roverivet_command('explain', data=source))[0], EXPLAINED, 'explain of text from a pipe')
    refused = '1 ref 8\n2 ref 9\n'
    odd = b'# 32 signs that can be no record'
    checks.equal(text(roverivet_command('run', '--binary', data=odd + b'!')), (refused, '', 0), 'run --binary of what looks like text')
    checks.equal(text(roverivet_command('dis', '--binary', data=b'half'))[0], 'raw 68616c66  # refused 9: 4 bytes where a record has 32\n', 'dis --binary')
    for data, reason in ((b'hello\n', '1:1: expected burst, pulse, tick'), (b'tick\ncaf\xe9\n', '2:4: expected text, found the byte e9'),
                         ('tick\n'.encode('utf-16'), '1:1: expected text, found the byte ff'), (b'tick\n' * 8 + b'\0\n', '9:1: expected burst')):
        for verb in ('run', 'explain'):
            output, said, status = text(roverivet_command(verb, data=data))
            checks.check((output, status) == ('', 2) and said.startswith(f'roverivet: standard input:{reason}'), f'{verb} of {data[:20]!r}', said)
    output, said, status = text(roverivet_command('asm', data=binary))
    checks.check((output, status) == ('', 2) and said.startswith('roverivet: standard input:1:'), 'asm of records', said)
    checks.equal(text(roverivet_command('run', data=b'')), ('', '', 0), 'run of nothing')
    (folder / 'later.txt').write_bytes(b'this is no record\ntick\nreset\n')
    later = subprocess.run(['sh', '-c', f'(read first; {sys.executable} {TOP / "roverivet"} run) < later.txt'], cwd=folder, capture_output=True, text=True)
    checks.equal((later.stdout, later.returncode), ('1 ok\n2 ok\n', 0), 'run of the rest of a file')
    checks.equal(roverivet_command('run', '--text', '--binary', data=b'').returncode, 2, 'run --text --binary')
    print('text and records known by their first bytes')


def main():
    need_program()
    checks = Checks()
    with tempfile.TemporaryDirectory() as name:
        folder = Path(name)
        helps(checks)
        checks.equal(text(roverivet_command('build'))[0::2], ('ready: the program answers records\n', 0), 'build')
        runs(checks, folder)
        explains(checks)
        talks(checks)
        views(checks, folder)
        limits(checks, folder)
        no_limits(checks, folder)
        findings(checks, folder)
        forms(checks, folder)
    return checks.end()


if __name__ == '__main__':
    sys.exit(main())
