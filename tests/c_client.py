#!/usr/bin/env -S python3 -B
"""The C client: the header compiles without a warning, its sample runs, its totals are true, it takes short event limits, and no process is
left behind."""

import random
import shutil
import subprocess
import sys
import tempfile
from pathlib import Path

from checks import Checks, TOP, ended, need_program

# by document 01: one readable frame, 32 collisions, the 32nd partitions both ports
SAMPLE = '''a frame on TP0: rep 102
the last collision: jam 103
Readable Frames of TP0: 1
Collisions of TP0: 32
Auto Partitions of TP1: 1
Collisions of all ports: 32 32 0 0 0 0 0 0 0
Transmit Collisions: 32
P 0 R 0: refused 5
TP partition change: 03
'''

# a harness that asks once, says which process it keeps, and dies or goes on with a program that died
HARNESS = r'''
#include "roverivet.h"
#include <signal.h>
#include <stdlib.h>
int main(int count, char **words)
{
    struct roverivet chip;
    struct roverivet_answer answer;
    unsigned char record[ROVERIVET_SIZE];
    const char *command[] = {words[2], "run", NULL};
    if (count < 3 || roverivet_open(&chip, command, NULL, ROVERIVET_SHORT_LIMIT)) return 9;
    roverivet_record(record, ROVERIVET_TICK);
    if (roverivet_ask(&chip, record, &answer) || strcmp(answer.word, "ok")) return 8;
    printf("%ld\n", (long)chip.pid);
    fflush(stdout);
    if (!strcmp(words[1], "die")) raise(SIGKILL);
    kill(chip.pid, SIGKILL);
    while (!roverivet_ask(&chip, record, &answer)) ;
    roverivet_close(&chip);
    puts("told");
    return 0;
}
'''

# sums the readings of each line of its input; a line may begin with the sum and the reading to go on from, as 'from SUM LAST'
TOTALS = r'''
#include "roverivet.h"
#include <inttypes.h>
#include <stdlib.h>
int main(void)
{
    struct roverivet_total total;
    char line[4096];
    while (fgets(line, sizeof line, stdin)) {
        int status = 0;
        roverivet_total_begin(&total);
        char *word = strtok(line, " \n");
        if (word && !strcmp(word, "from")) {
            total.sum = strtoull(strtok(NULL, " \n"), NULL, 10);
            total.last = (uint32_t)strtoul(strtok(NULL, " \n"), NULL, 10);
            total.begun = 1;
            word = strtok(NULL, " \n");
        }
        for (; word; word = strtok(NULL, " \n"))
            status = roverivet_total_add(&total, (uint32_t)strtoul(word, NULL, 10));
        if (status)
            puts("over");
        else
            printf("%" PRIu64 "\n", total.sum);
    }
    return 0;
}
'''

# opens a chip with a limit and perhaps a start file or a command; says what that gave, and if it is 0 what bursts of the d behind it add to Short Events
# and Runts of TP0, or that the program has ended, and with which status
LIMITS = r'''
#include "roverivet.h"
#include <stdlib.h>
int main(int count, char **words)
{
    struct roverivet chip;
    struct roverivet_answer answer;
    unsigned char record[ROVERIVET_SIZE];
    const char *command[] = {"./roverivet", "run", "--binary", NULL};
    uint32_t value;
    if (count < 4) return 9;
    errno = 0;
    int opened = roverivet_open(&chip, strcmp(words[2], "command") ? NULL : command, strchr(words[2], '/') ? words[2] : NULL,
                                strtoull(words[1], NULL, 10));
    printf("%d%s", opened, errno == EINVAL ? " EINVAL" : "");
    if (opened) return puts("") < 0;
    roverivet_pulse(record, ROVERIVET_TP(0));
    for (int pulse = 0; pulse < 4; pulse++)
        if (roverivet_ask(&chip, record, &answer)) return printf(" ended %d\n", roverivet_close(&chip)) < 0;
    for (int word = 3; word < count; word++) {
        roverivet_burst(record, ROVERIVET_TP(0), (uint32_t)strtoul(words[word], NULL, 10), 9);
        if (roverivet_ask(&chip, record, &answer)) return 8;
        for (unsigned r = 5; r < 7; r++) {
            if (roverivet_counter(&chip, 16, r, &value)) return 7;
            printf(" %u", (unsigned)value);
        }
    }
    puts("");
    return roverivet_close(&chip);
}
'''

# by Q-6: d below the limit is a short event, other bursts of nine octets are runts; a limit outside 75 to 81 is refused with 13
LIMIT_ROWS = [(('75', '-', '74', '75'), '0 1 0 1 1'), (('81', '-', '80', '81'), '0 1 0 1 1'), (('78', '-', '77', '78'), '0 1 0 1 1'),
              (('75', 'traces/short-limit-75.start', '74', '75'), '0 1 0 1 1'), (('81', 'traces/counter-wraps.start', '80', '81'), '0 1 0 1 1'),
              (('78', 'traces/short-limit-75.start', '74'), '0 ended 2'), (('75', 'traces/refused-limit-74.start', '74'), '0 ended 2'),
              (('78', 'command', '77', '78'), '0 1 0 1 1'), (('75', 'command', '74'), '-1 EINVAL'), (('74', 'command', '74'), '13'),
              *((((number, where, '74'), '13') for number in ('0', '74', '82', '334', '4294967295', '4294967374', '18446744073709551615')
                 for where in ('-', 'traces/short-limit-75.start')))]


def limits(checks, harness):
    for words, due in LIMIT_ROWS:
        ran = subprocess.run([harness, *words], cwd=TOP, capture_output=True, text=True, timeout=60)
        checks.equal((ran.returncode, ran.stdout), (0, due + '\n'), f'roverivet_open: limit {" ".join(words)}')
        said = 'names another, the short event limit' if due == '0 ended 2' else ''
        checks.check(said in ran.stderr and bool(said) == bool(ran.stderr), f'roverivet_open: what limit {" ".join(words)} says', ran.stderr)


# Q-14's own rows, and the edges of 64 bits
SUMS = [('', '0'), ('7', '0'), ('4294967295 2 1', '4294967298'), ('0 4294967295 0', '4294967296'), ('5 5', '0'), ('5 4', '4294967295'),
        ('from 18446744073709551612 4294967295 2', '18446744073709551615'), ('from 18446744073709551612 4294967295 3', 'over'),
        ('from 18446744073709551615 9 9', '18446744073709551615'), ('from 18446744073709551615 9 10', 'over'),
        ('from 18446744073709551615 9 10 10', 'over'), ('from 18446744073709551615 9 10 9', 'over')]


def sums(checks, harness):
    """Rows by hand, and random ones by Python's own numbers."""
    draw, rows = random.Random('totals in C'), list(SUMS)
    for _ in range(300):
        readings = [draw.choice((0, 1, 2**31, 2**32 - 1, draw.randrange(2**32))) for _ in range(draw.randrange(40))]
        rows.append((' '.join(map(str, readings)), str(sum((later - earlier) % 2**32 for earlier, later in zip(readings, readings[1:])))))
    ran = subprocess.run([harness], input='\n'.join(row for row, _ in rows) + '\n', capture_output=True, text=True, timeout=60)
    for (row, due), found in zip(rows, ran.stdout.splitlines()):
        checks.equal(found, due, f'the total of {row[:60]}')
    checks.equal((ran.returncode, ran.stdout.count('\n')), (0, len(rows)), 'a total for each row')


def main():
    need_program()
    checks = Checks()
    compiler = shutil.which('cc')
    if not checks.check(compiler, 'there is a C compiler, cc'):
        return checks.end()
    with tempfile.TemporaryDirectory() as folder:
        def compiled(source, name):
            made = subprocess.run([compiler, '-std=c99', '-Wall', '-Wextra', '-Werror', '-pedantic', '-O1',
                                   '-I', str(TOP / 'clients' / 'c'), '-o', f'{folder}/{name}', str(source)],
                                  capture_output=True, text=True)
            return checks.equal((made.returncode, made.stderr), (0, ''), f'{name} compiles without a warning')

        if compiled(TOP / 'clients' / 'c' / 'sample.c', 'sample'):
            ran = subprocess.run([f'{folder}/sample'], cwd=TOP, capture_output=True, text=True, timeout=60)
            checks.equal((ran.returncode, ran.stdout, ran.stderr), (0, SAMPLE, ''), 'the sample')
            print('the sample: a frame, 32 collisions, their counters')
        source = Path(folder) / 'harness.c'
        source.write_text(HARNESS)
        run = TOP / 'roverivet'
        if compiled(source, 'harness'):
            died = subprocess.run([f'{folder}/harness', 'die', str(run)], capture_output=True, text=True, timeout=60)
            checks.equal(died.returncode, -9, 'a harness that dies')
            checks.check(ended(int(died.stdout)), 'leaves no process behind')
            told = subprocess.run([f'{folder}/harness', 'on', str(run)], capture_output=True, text=True, timeout=60)
            checks.equal((told.returncode, told.stdout.splitlines()[1:]), (0, ['told']), 'a program that dies is told, without a signal')
            print('a harness that dies, a program that dies')
        source = Path(folder) / 'totals.c'
        source.write_text(TOTALS)
        if compiled(source, 'totals'):
            sums(checks, f'{folder}/totals')
            print('true totals: rows by hand and random ones')
        source = Path(folder) / 'limits.c'
        source.write_text(LIMITS)
        if compiled(source, 'limits'):
            limits(checks, f'{folder}/limits')
            print(f'short event limits: {len(LIMIT_ROWS)} ways to open a chip')
    return checks.end()


if __name__ == '__main__':
    sys.exit(main())
