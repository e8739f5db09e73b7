#!/usr/bin/env -S python3 -B
"""Holds the octet check to document 01's bounds, worked out here and by the model.

    tests/octets.py           the stored sheet, and pairs of readings by the thousand, through the proved program
    tests/octets.py --sheet   writes crates/octet_answers/stdin and stdout anew

The program `octet_answers` reads pairs of readings and prints what `difference` and `octet_check` give for them.
Here the same is worked out with Python's own numbers, which have no end, and the model says it a third time.
The last line is 'N passed, M failed'."""

import random
import subprocess
import sys

import program
from checks import Checks, TOP

import roverivet

CRATE = TOP / 'crates' / 'octet_answers'
BUILT = roverivet.built('octet_answers')
END = 1 << 32
AT_ONCE = 4096  # pairs that the program reads
MOST = 2829359
SEEDS = range(4)


def pair(frames, octets, before=(0, 0)):
    """Four readings whose differences are these."""
    return before[0], (before[0] + frames) % END, before[1], (before[1] + octets) % END


def spelt(readings):
    return b''.join(number.to_bytes(4, 'little') for number in readings)


def line(readings):
    """What the paper says of two readings of frames and two of octets."""
    frames, octets = (readings[1] - readings[0]) % END, (readings[3] - readings[2]) % END
    if frames > MOST:
        answer = '10'
    else:
        answer = 'yes' if 64 * frames <= octets <= 1518 * frames else 'no'
    return f'{frames} {octets} {answer}'


def edges(frames):
    """Octets about both bounds, as far as there are such numbers."""
    wanted = {0, 1, END - 1} | {bound * frames + off for bound in (63, 64, 65, 1517, 1518, 1519) for off in (-1, 0, 1)}
    return sorted(octets for octets in wanted if 0 <= octets < END)


def sheet():
    """The pairs of document 01's edges: few frames, many, and the last number that is decided."""
    for frames in (0, 1, 2, 3, 100, 65536, MOST - 1, MOST, MOST + 1, MOST + 2, END // 2, END - 1):
        for octets in edges(frames):
            yield pair(frames, octets)
    yield pair(2, 128, (END - 1, END - 1))
    yield pair(3, 4554, (END - 1, END - 100))
    yield pair(3, 4555, (END - 1, END - 100))


def some(seed):
    """As many pairs as fit, about the bounds and anywhere, from any readings."""
    chooser = random.Random(f'octets {seed}')
    for _ in range(AT_ONCE):
        most = chooser.choice([4, 1000, MOST, MOST + 5, END])
        frames = max(0, chooser.randrange(most) if chooser.randrange(4) else most - 1 - chooser.randrange(4))
        octets = chooser.choice(edges(frames)) if chooser.randrange(3) else chooser.randrange(END)
        yield pair(frames, octets, (chooser.randrange(END), chooser.randrange(END)))


def answers(words, pairs):
    ran = subprocess.run(words, input=b''.join(map(spelt, pairs)), stdout=subprocess.PIPE, timeout=300)
    return ran.stdout.decode('ascii', 'replace').splitlines(), ran.returncode


def compared(checks, who, words, pairs):
    found, status = answers(words, pairs)
    wanted = [line(readings) for readings in pairs]
    wrong = [f'wanted {one}, found {two}' for one, two in zip(wanted, found) if one != two]
    checks.check(status == 0 and found == wanted, f'{who}: {len(pairs)} pairs', f'status {status}, {len(found)} lines', *wrong[:5])


def main(words):
    rows = list(sheet())
    if words == ['--sheet']:
        (CRATE / 'stdin').write_bytes(b''.join(map(spelt, rows)))
        (CRATE / 'stdout').write_text('\n'.join(map(line, rows)) + '\n')
        return 0
    checks = Checks()
    checks.equal((CRATE / 'stdin').read_bytes(), b''.join(map(spelt, rows)), 'crates/octet_answers/stdin has the pairs of the sheet')
    checks.equal((CRATE / 'stdout').read_text().splitlines(), [line(readings) for readings in rows], 'crates/octet_answers/stdout says what the bounds say')
    told = [line(readings).split() for readings in rows]
    for row in ('2 127 no', '2 128 yes', '2 3036 yes', '2 3037 no', '0 0 yes', f'{MOST} {1518 * MOST} yes', f'{MOST + 1} 0 10'):
        checks.check(row.split() in told, f'the sheet has the row {row}')
    checks.equal({answer for _, _, answer in told}, {'yes', 'no', '10'}, 'the sheet has every answer')
    for who, start in (('octet_answers', program.command(BUILT)), ('the model', [str(program.model()), '--octets'])):
        compared(checks, who, start, rows)
        for seed in SEEDS:
            compared(checks, f'{who}, seed {seed}', start, list(some(seed)))
    return checks.end()


if __name__ == '__main__':
    sys.exit(main(sys.argv[1:]))
