#!/usr/bin/env -S python3 -B
"""The Python client: its calls, its refusals, short event limits, an agent that lives on it, true totals, and that it leaves no process behind."""

import contextlib
import io
import os
import signal
import struct
import subprocess
import sys
import tempfile
from pathlib import Path

from checks import Checks, TOP, ended, need_program

import roverivet
from agent import Agent
from roverivet import Chip, DoesNotFit, Refused, Total


def calls(checks):
    """Document 01's sample and its neighbourhood through the client; expected values from document 01."""
    with Chip() as chip:
        for _ in range(4):
            chip.pulse('TP0+TP1')
        answer = chip.burst('TP0', d=1000, n=64)
        checks.equal((answer.number, answer.word, answer.value, answer.outputs), (5, 'rep', 0x102, ('TP1', 'AUI')), 'a frame on TP0')
        checks.equal(chip.read_counter('TP0', 'Readable Frames'), 1, 'Readable Frames of TP0')
        checks.equal(chip.read_counter('tp0', 'readable octets'), 64, 'names in any case')
        answer = chip.burst(['TP0', 'TP1'], d=600, c=100, x=300)
        checks.equal((answer.word, answer.outputs), ('jam', ('TP0', 'TP1', 'AUI')), 'a collision')
        checks.equal((chip.transmit_collisions(), chip.total_octets()), (1, 64), 'the sums')
        checks.equal(chip.attribute('Collisions'), {'TP0': 1, 'TP1': 1, **dict.fromkeys(roverivet.PORTS[2:], 0)}, 'one attribute of all ports')
        checks.equal((chip.attribute('readable octets')['TP0'], chip.selected), (64, (31, 1)), 'and where it leaves P and R')
        checks.equal(chip.changes(), {'TP link': ('TP0', 'TP1')}, 'the change bits')
        checks.equal(chip.changes(), {}, 'are cleared by the read')
        checks.equal((chip.link_passing(), chip.partitioned()), (('TP0', 'TP1'), ()), 'links and partitions')
        chip.burst('TP0', d=600, n=64, sa='02:13:24:35:46:57')
        checks.equal(chip.read_address('TP0'), bytes.fromhex('021324354657'), 'Last Source Address')
        chip.write_address('AUI', bytes(range(6)))
        checks.equal(chip.read_address('AUI'), bytes(range(6)), 'a written address')
        chip.tick(99)
        checks.equal(chip.link_passing(), ('TP0', 'TP1'), '99 ticks')
        chip.tick()
        checks.equal(chip.link_passing(), (), '100 ticks')
        chip.tick(2500)
        checks.equal(chip.get(0xFF), 1, 'a Get after some thousands of records')
        chip.set(0x41)
        checks.equal(chip.link_passing(), ('TP1',), 'a Set: link test off on TP1')
        chip.enable_interrupts({'SQE Test': 0xFF, 2: 0x02})
        checks.equal(chip.c_read(), (True, False), 'an interrupt: the link change of TP1 is enabled')
        chip.burst(0, d=600, collision_signal=True, sqe_test=True)
        checks.equal(chip.changes(), {'TP link': ('TP0', 'TP1'), 'SQE Test': ('AUI',), 'TP source address': ('TP0',)},
                     'changes of several kinds')
        chip.reset()
        checks.equal((chip.read_counter('TP0', 'Readable Frames'), chip.selected), (2, (16, 0)), 'counters survive a reset')
    print('calls: one chip, document 01\'s sample and its neighbourhood')


REFUSALS = [
    (8, 'tick with a mask', lambda chip: chip.send(roverivet.Record(3, mask=1).pack())),
    (8, 'unknown kind 9', lambda chip: chip.send(b'\x09' + bytes(31))),
    (3, 'pulse with a mask bit above 7 (mask 0100)', lambda chip: chip.pulse('AUI')),
    (2, 'duration 0, not 1 to 1,000,000', lambda chip: chip.burst('TP0', d=0)),
    (2, '64 octets and 0 bits do not fit in 511 bit times', lambda chip: chip.burst('TP0', d=511, n=64)),
    (2, 'the collision ends at 601, after the burst (600)', lambda chip: chip.burst('TP0', d=600, c=300, x=301)),
    (1, 'burst with no active port and no collision signal', lambda chip: chip.burst('none', d=600)),
    (7, 'C write of 45, whose top three bits are 010', lambda chip: chip.c_write(0x45)),
    (5, 'P 3 R 1 is not listed', lambda chip: chip.read(3, 1)),
    (6, 'Readable Frames of TP0 (P 16 R 0) is read-only', lambda chip: chip.write(16, 0, [1])),
    (6, 'S (P 0 R 30) is write-only', lambda chip: chip.read(0, 30)),
    (4, '60 is no listed command', lambda chip: chip.set(0x60)),
]


def refusals(checks):
    with Chip() as chip:
        for number, reason, access in REFUSALS:
            try:
                access(chip)
                checks.check(False, f'{reason}: was accepted')
            except Refused as error:
                checks.equal((error.number, error.reason), (number, reason), f'refused {number}: {reason}')
        for wrong in (lambda: chip.burst('TP9', d=5), lambda: chip.burst('TP0', d=5, sa='1:2'), lambda: chip.send(b'12'),
                      lambda: chip.read_counter('TP0', 'Frames'), lambda: chip.burst('TP0', d=2**32),
                      lambda: chip.d_write(256), lambda: chip.read(0, 32), lambda: Chip(start=b'short')):
            try:
                wrong()
                checks.check(False, 'a wrong argument was taken')
            except ValueError as error:
                checks.check(str(error), 'a wrong argument is named')
        checks.equal(chip.get(0xFF), 1, 'the chip still answers')
    print(f'refusals: {len(REFUSALS)} with number and reason')


def start_file(**counters):
    """530 bytes with some counters of TP0, by their place."""
    row = [counters.get(f'r{place}', 0) for place in range(13)]
    return struct.pack('<13I', *row) + bytes(6) + bytes(58 * 8) + struct.pack('<2I', counters.get('collisions', 0), 0)


def shorts(chip, d):
    """What a burst of this d on TP0 adds to Short Events and to Runts."""
    names = ('Short Events', 'Runts')
    before = [chip.read_counter('TP0', name) for name in names]
    chip.burst('TP0', d=d, n=9)
    return tuple(chip.read_counter('TP0', name) - value for name, value in zip(names, before))


def limits(checks):
    """A short event limit by itself, beside a start file, and in one; by Q-6 d below it is a short event, and a reset leaves it."""
    with tempfile.TemporaryDirectory() as folder:
        plain, named = Path(folder) / 'plain', Path(folder) / 'named'
        plain.write_bytes(start_file(r5=7))
        named.write_bytes(start_file(r5=7) + b'\x4b\0\0\0\0')
        ways = [(limit, 0, {'short_limit': limit}) for limit in range(75, 82)]
        ways += [(78, 0, {}), (78, 7, {'start': str(plain)}), (78, 7, {'start': start_file(r5=7) + b'\x4e\0\0\0\0'}), (75, 7, {'start': named}),
                 (75, 7, {'start': named.read_bytes(), 'short_limit': 75}), (75, 7, {'start': str(named), 'short_limit': 75}),
                 (81, 7, {'start': plain, 'short_limit': 81}), (80, 7, {'start': bytearray(start_file(r5=7)), 'short_limit': 80})]
        for limit, events, given in ways:
            with Chip(**given) as chip:
                checks.equal(chip.read_counter('TP0', 'Short Events'), events, f'the counters of {list(given)}')
                for turn in ('at power-up', 'after a reset'):
                    for _ in range(4):
                        chip.pulse('TP0')
                    checks.equal((shorts(chip, limit - 1), shorts(chip, limit)), ((1, 0), (0, 1)), f'limit {limit} {turn}, by {list(given)}')
                    chip.reset()
    records = (roverivet.Record(roverivet.BURST, mask=0x100, d=75, n=9), roverivet.Record(roverivet.C_WRITE, byte=31),
               roverivet.Record(roverivet.C_WRITE, byte=0xE6), roverivet.Record(roverivet.D_READ))
    for limit, due in ((75, 1), (76, 0), (None, 0)):
        found = roverivet.answers(b''.join(record.pack() for record in records), short_limit=limit)
        checks.equal(found[-1].value, due, f'answers with the limit {limit}: Runts of AUI')
    print(f'limits: {len(ways)} ways to give one')


def no_limits(checks):
    """What is no limit is refused with 13, in whatever way it is given, and nothing is started."""
    started, launch = [], roverivet.launch
    roverivet.launch = lambda *words, **more: started.append(words)
    try:
        for number, shown in ((0, '0'), (74, '74'), (82, '82'), (256 + 78, '334'), (2**32 - 1, '4294967295'), (2**32 + 78, '4294967374'), (-1, '-1'),
                              (-78, '-78'), (2**64 + 78, '18446744073709551694'), (10**5000, 'of 16610 bits')):
            ways = [lambda: Chip(short_limit=number), lambda: Chip(start=bytes(530), short_limit=number), lambda: roverivet.answers(b'', short_limit=number)]
            if 0 <= number < 2**32:
                start = bytes(530) + number.to_bytes(4, 'little') + b'\0'
                ways += [lambda: Chip(start=start), lambda: Chip(start=start, short_limit=number), lambda: roverivet.answers(b'', start),
                         lambda: roverivet._start_words(start)]
            for way in ways:
                try:
                    way()
                    checks.check(False, f'limit {shown} was taken')
                except Refused as error:
                    checks.equal((error.number, error.reason, str(error)), (13, f'short event limit {shown} is outside 75 to 81',
                                                                           f'refused 13: short event limit {shown} is outside 75 to 81'), f'limit {shown}')
        named = bytes(530) + b'\x4c\0\0\0\0'
        for given, kind, said in (({'start': named, 'short_limit': 75}, ValueError, 'short_limit is 75, and the start file names the short event limit 76'),
                                  ({'start': bytes(535), 'short_limit': 75}, ValueError, 'short_limit is 75, and the start file names the short event limit 0'),
                                  ({'start': bytes(529)}, ValueError, 'a start file has 530 or 535 bytes, this has 529'),
                                  ({'start': bytes(534), 'short_limit': 75}, ValueError, 'a start file has 530 or 535 bytes, this has 534'),
                                  ({'start': named[:-1] + b'\x01'}, ValueError, 'byte 534 of a start file has to be 0, here it is 1'),
                                  ({'short_limit': '75'}, TypeError, "short_limit: expected a whole number, found '75'"),
                                  ({'short_limit': 75.0}, TypeError, 'short_limit: expected a whole number, found 75.0'),
                                  ({'short_limit': True}, TypeError, 'short_limit: expected a whole number, found True')):
            checks.equal(raised(kind, lambda: Chip(**given)), said, f'a wrong argument: {said}')
        checks.check('No such file' in raised(OSError, lambda: Chip(start='no such file', short_limit=75)), 'a start file that is not there')
    finally:
        roverivet.launch = launch
    checks.equal(started, [], 'nothing was started')
    checks.equal((roverivet.SHORT_LIMIT, list(roverivet.SHORT_LIMITS)), (78, [75, 76, 77, 78, 79, 80, 81]), 'the limits that there are')
    print('limits: what is none, and nothing is started')


def agent(checks):
    """The agent through a bad day of TP0 and TP1. Expected sums by document 01's credits."""
    with Chip(start=start_file(r0=2**32 - 2, r1=2**32 - 100, r7=2**32 - 1)) as chip:
        one = Agent(chip)
        one.initialise()
        checks.equal(one.version, 1, 'the agent finds an IMR+')
        checks.equal(one.refused, ['refused 5: P 0 R 16 is not listed'], 'the manual\'s master enable is turned away')
        checks.equal(one.poll(), False, 'nothing to do after the reset')
        for _ in range(4):
            chip.pulse('TP0-1')
        checks.check(one.poll(), 'an interrupt')
        checks.equal((one.log, one.passing), ([('TP link', ('TP0', 'TP1'))], ('TP0', 'TP1')), 'the links came up')
        checks.equal(one.poll(), False, 'served')
        one.log.clear()
        for _ in range(5):
            chip.burst('TP0', d=1000, n=100)
        for _ in range(31):
            chip.burst('TP0+TP1', d=600, c=100, x=300)
            checks.equal(one.poll(), False, 'collisions alone interrupt nobody')
        chip.burst('TP0+TP1', d=600, c=100, x=300)
        checks.check(one.poll(), 'the 32nd interrupts')
        checks.equal((one.log, one.partitioned), ([('TP partition', ('TP0', 'TP1'))], ('TP0', 'TP1')), 'a partition seen by the agent')
        one.add_up()
        checks.equal(one.moved(), {'TP0 Readable Frames': 5, 'TP0 Readable Octets': 500, 'TP0 Collisions': 32,
                                   'TP0 Auto Partitions': 1, 'TP1 Collisions': 32, 'TP1 Auto Partitions': 1},
                     'sums over counters that wrapped')
        one.log.clear()
        chip.burst('AUI', d=1000, n=64)
        one.poll()
        checks.equal((one.log, one.partitioned), ([('TP partition', ('TP0', 'TP1'))], ()), 'connected again')
        one.add_up()
        checks.equal(one.moved()['AUI Readable Frames'], 1, 'sums go on')
        one.log.clear()
        one.guard('TP0', '02:00:00:00:00:01')
        chip.burst('TP0', d=1000, n=64, sa='02:00:00:00:00:01')
        checks.equal(one.poll(), False, 'the station that belongs there')
        chip.burst('TP0', d=1000, n=64, sa='02:00:00:00:00:66')
        checks.check(one.poll(), 'a foreign source interrupts')
        one.throw_out()
        checks.equal(chip.burst('TP0', d=1000, n=64).word, 'nil', 'its port is disabled')
        checks.equal(chip.burst('TP1', d=1000, n=64).outputs, ('AUI',), 'and not sent to')
    print('agent: initialise, poll, serve, add up over a wrap, guard a port')


# ---- true totals


def raised(kind, action):
    """What an action says that must raise this kind of error."""
    try:
        return f'gave {action()!r}'
    except kind as error:
        return str(error)


def totals(checks):
    """Readings that are given: Q-14's rows, what is no reading, and the end of 64 bits."""
    for readings, due in (((4294967295, 2, 1), 4294967298), ((7,), 0), ((0, 4294967295, 0), 4294967296), ((), 0), ((5, 5), 0)):
        one = Total()
        found = [one.add(reading) for reading in readings]
        checks.equal((one.total, found[-1:]), (due, [due] if readings else []), f'the total of {readings}')
    one = Total(None, 'tp0', 'readable octets')
    one.add(4294967295)
    for wrong, kind, said in ((True, TypeError, 'a whole number, found True'), (1.0, TypeError, 'a whole number, found 1.0'),
                              ('7', TypeError, "a whole number, found '7'"), (None, TypeError, 'a whole number, found None'),
                              (-1, ValueError, '0 to 4294967295, found -1'), (2**32, ValueError, '0 to 4294967295, found 4294967296'),
                              (10**5000, ValueError, '0 to 4294967295, found a longer number')):
        checks.equal(raised(kind, lambda: one.add(wrong)), f'reading 2 of Readable Octets of TP0: expected {said}', f'no reading: {said}')
    checks.equal((one.add(2), one.readings, one.last), (3, 2, 2), 'and nothing was lost')
    one._total = 2**64 - 4
    checks.equal((one.add(5), one.fits), (2**64 - 1, True), 'the last sum that 64 bits hold')
    for action in (lambda: one.add(6), lambda: one.add(6), lambda: one.add(5), lambda: one.total):
        checks.equal(raised(DoesNotFit, action), 'Readable Octets of TP0: the sum reaches 2^64 and does not fit in 64 bits', 'it does not fit')
    with contextlib.redirect_stderr(io.StringIO()) as told:
        said = one.power_up()
    checks.equal(said, 'Readable Octets of TP0: a power-up: a new chain begins with the next reading; the total so far, which did not fit, '
                       'belongs to the chain before', 'a power-up is told')
    checks.equal((told.getvalue(), one.notes, one.chains, one.fits, one.total), (f'roverivet: {said}\n', [said], [None], True, 0), 'the next chain')
    checks.equal((one.power_up(), one.add(9), one.add(4), one.chains), ('', 0, 4294967291, [None]), 'a power-up before any reading says nothing')
    for wrong, said in ((lambda: Total(None, 'TP9', 'Runts'), "'TP9' is none of"), (lambda: Total('TP0', 'Runts'), "'Runts' is none of Transmit"),
                        (lambda: Total(None, 'TP0', 'Frames'), "'Frames' is none of Readable"), (lambda: Total(None, 'TP0', 'Runts', 1), 'found 3 names'),
                        (lambda: Total('TP0'), 'expected a counter to poll'), (lambda: Total().poll(), 'expected a chip and a counter'),
                        (lambda: one.poll(), 'Readable Octets of TP0: expected a chip and a counter')):
        checks.check(said in raised(ValueError, wrong), f'totals: {said}', raised(ValueError, wrong))
    print('totals: readings that are given, what is none, the end of 64 bits')


def polled_totals(checks):
    """Totals that poll a chip over wraps and resets, and another chip after it. Expected sums by document 01's credits."""
    with Chip(start=start_file(r0=2**32 - 2, r1=2**32 - 100, r7=2**32 - 1, collisions=2**32 - 1)) as chip:
        some = [Total(chip, *names) for names in (('TP0', 'Readable Frames'), ('TP0', 'Readable Octets'), ('TP0', 'Collisions'),
                                                  ('Transmit Collisions',), ('Total Octets',))]

        def polls():
            return [one.poll() for one in some]

        checks.equal(polls(), [0] * 5, 'the first polls')
        checks.equal(polls(), [0] * 5, 'nothing between two polls')
        for turn in range(3):
            for _ in range(4):
                chip.pulse('TP0-1')
            chip.burst('TP0', d=1000, n=100)
            chip.burst('TP0+TP1', d=600, c=100, x=300)
            chip.reset()
            checks.equal(polls(), [turn + 1, 100 * turn + 100, turn + 1, turn + 1, 100 * turn + 100], f'a frame, a collision and a reset, {turn + 1}')
        checks.equal([one.last for one in some], [1, 200, 2, 2, 300], 'over four wraps')
    for one in some:
        checks.check('ended' in raised(roverivet.Ended, one.poll), f'{one.name}: a closed chip is not polled')
    checks.equal([one.total for one in some], [3, 300, 3, 3, 300], 'and nothing was lost')
    with Chip(start=start_file(r0=7, r1=50)) as other, contextlib.redirect_stderr(io.StringIO()) as told:
        checks.equal([one.poll(other) for one in some], [0] * 5, 'another chip begins another chain')
        checks.equal(([one.chains for one in some], told.getvalue().splitlines()),
                     ([[3], [300], [3], [3], [300]], [f'roverivet: {one.notes[0]}' for one in some]), 'which is told, and the one before is kept')
        checks.equal(some[1].notes, ['Readable Octets of TP0: a power-up: a new chain begins with the next reading; the total so far, 300, '
                                     'belongs to the chain before'], 'in these words')
        for _ in range(4):
            other.pulse('TP0')
        other.burst('TP0', d=1000, n=64)
        checks.equal([one.poll() for one in some], [1, 64, 0, 0, 64], 'and is polled from there on')
        checks.check('refused' in raised(Refused, lambda: other.read(0, 16)), 'a refusal')
        checks.equal([one.poll() for one in some], [1, 64, 0, 0, 64], 'is nothing to a total')
    print('totals: a chip polled over wraps and resets, a closed one, another one')


# ---- no process left behind

HARNESS = '''
import os, sys, time
sys.path.insert(0, sys.argv[1])
import roverivet
chip = roverivet.Chip()
chip.tick()
if sys.argv[2] == 'fork' and os.fork() == 0:
    os.write(1, b'child %d\\n' % os.getpid())
    time.sleep(60)
    os._exit(0)
os.write(1, b'program %d\\n' % chip.program.process.pid)
if sys.argv[2] == 'raise':
    raise RuntimeError('the harness fails')
if sys.argv[2] == 'forget':
    sys.exit()
time.sleep(60)
'''


def no_process_left(checks):
    for how in ('kill', 'terminate', 'raise', 'forget', 'fork'):
        harness = subprocess.Popen([sys.executable, '-B', '-c', HARNESS, str(TOP / 'clients' / 'python'), how],
                                   stdout=subprocess.PIPE, stderr=subprocess.DEVNULL, text=True)
        pids = {}
        for _ in range(2 if how == 'fork' else 1):
            name, pid = harness.stdout.readline().split()
            pids[name] = int(pid)
        if how in ('kill', 'fork'):
            harness.kill()
        elif how == 'terminate':
            harness.send_signal(signal.SIGTERM)
        harness.wait(20)
        checks.check(ended(pids['program']), f'{how}: the program ended with its harness')
        if 'child' in pids:
            os.kill(pids['child'], signal.SIGKILL)
        harness.stdout.close()
    with Chip() as chip:
        pid = chip.program.process.pid
    checks.check(ended(pid, 1), 'close ends the program')
    try:
        chip.tick()
        checks.check(False, 'a closed chip answered')
    except roverivet.Ended as error:
        checks.check('ended' in str(error), 'a closed chip says so')
    chip = Chip()
    chip.program.process.kill()
    try:
        chip.tick(3)
        checks.check(False, 'a killed program answered')
    except roverivet.Ended as error:
        checks.check('ended' in str(error), 'a killed program is told')
    try:
        chip.tick()
        checks.check(False, 'a chip answered after a call that failed')
    except roverivet.Ended as error:
        checks.check('earlier call' in str(error), 'a call after one that failed is told')
    chip.close()
    print('no process left: harness killed, terminated, failed, forgetful, forked')


def main():
    need_program()
    checks = Checks()
    calls(checks)
    refusals(checks)
    limits(checks)
    no_limits(checks)
    agent(checks)
    totals(checks)
    polled_totals(checks)
    no_process_left(checks)
    return checks.end()


if __name__ == '__main__':
    sys.exit(main())
