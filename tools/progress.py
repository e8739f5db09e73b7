"""A line on a terminal that tells how far a verb is, from its third second on. Elsewhere nothing is told."""

import contextlib
import os
import sys
import threading
import time

AFTER, EVERY, WIDE = 2, 0.5, 79


class Progress:
    """What a verb does, how much of it is done, and out of how much if that is known."""

    def __init__(self, verb):
        self.verb, self.doing, self.done, self.total = verb, '', 0, None
        self.told, self.lock, self.over = False, threading.RLock(), threading.Event()
        self.shown, self.onto = False, None  # whether there is a terminal to tell it on; standard output where it is none

    def stage(self, doing, total=None):
        """What is done from here on, in a word for the things that `add` counts."""
        self.doing, self.done, self.total = doing, 0, total
        return self

    def add(self, count=1):
        self.done += count

    def counted(self, things):
        """The things, counted as they are done, if anybody is told."""
        return self._counted(things) if self.shown else things

    def _counted(self, things):
        for thing in things:
            yield thing
            self.done += 1

    def __enter__(self):
        if sys.stderr is not None and sys.stderr.isatty():
            self.shown = True
            threading.Thread(target=self._tell, daemon=True).start()
        return self

    def __exit__(self, *_):
        self.stop()

    def stop(self):
        """Tells nothing from here on, and leaves nothing on the terminal."""
        self.over.set()
        with self.aside():
            pass

    def _tell(self):
        began, wait = time.monotonic(), AFTER
        while not self.over.wait(wait):
            with self.lock:
                if not self.over.is_set():
                    os.write(2, b'\r' + self._line(time.monotonic() - began)[:WIDE].encode() + b'\x1b[K')
                    self.told = True
            wait = EVERY

    def _line(self, seconds):
        of = f' of {self.total:,}' if self.total else ''
        return f'roverivet {self.verb}: {f"{self.done:,}{of} {self.doing}, " if self.done else ""}{seconds:.0f} s'

    @contextlib.contextmanager
    def aside(self):
        """While something else is written to the terminal."""
        with self.lock:
            if self.told:
                os.write(2, b'\r\x1b[K')
                self.told = False
            yield

    def write(self, data):
        """Bytes for standard output."""
        with self.aside():
            while data:
                data = data[os.write(1, data):]

    def print(self, line):
        """A line for standard output."""
        if self.onto is None:
            self.onto = False if sys.stdout.isatty() else sys.stdout
        if self.onto:
            self.onto.write(line + '\n')
        else:
            self.write(line.encode('utf-8', 'replace') + b'\n')
