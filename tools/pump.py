"""Gives the program a trace and passes its answers on as they come, each looked at first."""

import os
import re
import select
import subprocess

import roverivet
from roverivet import Ended, SIZE

LINES = re.compile(rb'(?:[1-9][0-9]* (?:(?:rep|jam|nil) [0-9a-f]{3}|val [0-9a-f]{2}|ref [0-9]+|ok)\n)*')
NUMBER = re.compile(rb'^[0-9]+', re.MULTILINE)
LONGEST = 100  # bytes of one answer


class Answers:
    """What the program printed so far: how many answers, and the first thing that is wrong with them."""

    def __init__(self):
        self.count, self.left, self.wrong = 0, b'', ''

    def take(self, block, given):
        """The answers of a block that are as they should be; `given` is how many records there were by now."""
        block = self.left + block
        end = block.rfind(b'\n') + 1
        whole, self.left = block[:end], block[end:]
        good = LINES.match(whole).group()
        numbers = [int(number) for number in NUMBER.findall(good)]
        due = list(range(self.count + 1, self.count + len(numbers) + 1))
        if numbers != due:
            fine = next(at for at, (number, one) in enumerate(zip(numbers, due)) if number != one)
            self.wrong = f'the program answered record {numbers[fine]} when record {due[fine]} was due'
        elif len(good) < len(whole) or len(self.left) > LONGEST:
            fine, line = len(numbers), (whole[len(good):] + self.left).split(b'\n', 1)[0]
            self.wrong = f'the program printed {line[:40].decode("ascii", "replace")!r}, which is no answer'
        else:
            fine = len(numbers)
        if self.count + fine > given:
            fine = given - self.count
            self.wrong = f'the program answered record {given + 1}, which it was not given yet'
        self.count += fine
        return b''.join(good.splitlines(keepends=True)[:fine]) if self.wrong else good


class Feed:
    """Writes a trace to the program, as much at a time as it takes."""

    def __init__(self, trace, pipe, tap):
        self.pipe, self.number, self.at_once, self.tap = pipe, trace.number, bool(trace.head), tap
        self.blocks, self.left, self.bytes, self.done, self.broken = trace.blocks(), b'', 0, False, False
        os.set_blocking(pipe.fileno(), False)

    @property
    def records(self):
        return -(-self.bytes // SIZE)

    def waits_for(self):
        """(file, event) that the next step needs, or None if it can be made now, or if there is none."""
        if self.left:
            return self.pipe.fileno(), select.POLLOUT
        return (self.number, select.POLLIN) if self.number is not None and not self.at_once else None

    @property
    def over(self):
        return self.done or self.broken

    def step(self):
        """Takes the next block if the last one is written, and writes what the program takes of it."""
        if not self.left:
            self.at_once = False
            self.left = next(self.blocks, b'')
            self.tap(self.left)
            self.bytes += len(self.left)
            self.done = not self.left
        try:
            self.left = self.left[self.pipe.write(self.left) or 0:] if self.left else b''
        except BrokenPipeError:
            self.broken = True
        if self.done:
            self.pipe.close()


def run(trace, start, write, tap=lambda block: None):
    """Hands the answers to `write` as they come, and each block of records to `tap`. Raises what is wrong."""
    process = roverivet.launch(start, stdin=subprocess.PIPE, stdout=subprocess.PIPE)
    feed, answers = Feed(trace, process.stdin, tap), Answers()
    try:
        while not answers.wrong and (block := _next_block(process.stdout.fileno(), feed)):
            write(answers.take(block, feed.records))
        if answers.wrong:
            raise Ended(answers.wrong)
    except BaseException:
        process.kill()
        raise
    finally:
        status = process.wait()
        process.stdout.close()
    if status:
        raise Ended(f'the program ended with status {status}')
    if answers.left:
        raise Ended(f'the program printed {answers.left[:40].decode("ascii", "replace")!r}, which is no answer')
    if not feed.done:
        raise Ended(f'the program ended after {answers.count} answers, and before its input did')
    if answers.count != feed.records:
        raise Ended(f'the program gave {answers.count} answers to {feed.records} records')


def _next_block(number, feed):
    """What the program printed next, empty at its end; it is fed for as long as it prints nothing."""
    while True:
        waiting = select.poll()
        waiting.register(number, select.POLLIN)
        due = None if feed.over else feed.waits_for()
        if due:
            waiting.register(*due)
        came = dict(waiting.poll(None if feed.over or due else 0))
        if number in came:
            return os.read(number, 65536)
        if not feed.over and (not due or due[0] in came):
            feed.step()
