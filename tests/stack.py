"""How much stack the functions of a built program take, read out of its code.

The programs are x86-64 on every machine, so the figures are the same everywhere. All that is needed is the file: its
sections, its symbols, and the instructions of each function, as far as their lengths and the stack pointer go.

A function is walked from its first byte along every jump. At each instruction it is known how many bytes of stack the
function holds, the return address among them. Ways that meet have to agree on it, and at a return nothing but the
return address may be left: so a misreading shows. What the walk does not understand ends it with Unread, which names
the function. Nothing is guessed."""

import re
import struct
from collections import namedtuple
from pathlib import Path

X86_64 = 62
FUNCTION = SYMBOLS = 2  # the type of a symbol, and that of a section
RETURN = 8
ZONE = 128  # a function that calls nothing may use so many bytes below the stack pointer without moving it
RSP, RBP = 4, 5
LIBC = 'libc'

# A function's code, its address, and its place in the file.
Function = namedtuple('Function', 'name start code offset', defaults=(0,))
# An instruction: the registers that it names, the place in memory as displacement from a register, and the number in it.
Instruction = namedtuple('Instruction', 'at size op rex mod reg rm base indexed disp value')
# What a function holds at most, and its calls: what it holds at each, and the address called.
Frame = namedtuple('Frame', 'bytes calls')
# From a function down: the bytes, and the functions on the way with what each holds there.
Depth = namedtuple('Depth', 'bytes path')


class Unread(Exception):
    """What could not be read, and where."""


# ---- instructions

def ops(text):
    """The opcodes of a list such as '50-57 0f0b'."""
    found = set()
    for word in text.split():
        first, _, last = word.partition('-')
        found |= set(range(int(first, 16), int(last or first, 16) + 1))
    return found


# The opcodes of plain x86-64 code, by what follows: registers and places, nothing, a number of one byte, one of four. No other is read.
PLACES = ops('''00-03 08-0b 10-13 18-1b 20-23 28-2b 30-33 38-3b 63 69 6b 80 81 83-8b 8d c0 c1 c6 c7 d0-d3 f6 f7 fe ff
    0f10-0f1f 0f28-0f2f 0f40-0f76 0f7c-0f7f 0f90-0f9f 0fa3-0fa5 0fab-0fb1 0fb3 0fb6-0fb8 0fba-0fc7 0fd0-0ffe 0f3800-0f38ff 0f3a00-0f3aff''')
BARE = ops('50-5f 90-99 a4 a5 aa ab c3 c9 cc f4 0f05 0f0b 0fa2 0fc8-0fcf')
SMALL = ops('04 0c 14 1c 24 2c 34 3c 6a 6b 70-7f 80 83 a8 b0-b7 c0 c1 c6 eb 0f70-0f73 0fa4 0fac 0fba 0fc2 0fc4-0fc6 0f3a00-0f3aff')
LARGE = ops('05 0d 15 1d 25 2d 35 3d 68 69 81 a9 b8-bf c7 e8 e9 0f80-0f8f')

# Those that name a register in the opcode, those that write one of the registers they name, and those that work on bytes.
IN_OPCODE = ops('50-5f 90-97 b0-bf 0fc8-0fcf')
WRITES_RM = ops('''00 01 08 09 10 11 18 19 20 21 28 29 30 31 58-5f 80 81 83 86-89 91-97 b0-bf c0 c1 c6 c7 d0-d3 f6 f7 fe ff
    0f7e 0f90-0f9f 0fa4 0fa5 0fab-0fad 0fb0 0fb1 0fb3 0fba 0fbb 0fc0 0fc1 0fc7-0fcf''')
WRITES_REG = ops('''02 03 0a 0b 12 13 1a 1b 22 23 2a 2b 32 33 63 69 6b 86 87 8a 8b 8d
    0f2c 0f2d 0f40-0f50 0faf 0fb6-0fb8 0fbc-0fbf 0fc0 0fc1 0fc5 0fd7''')
OF_BYTES = ops('00 02 08 0a 10 12 18 1a 20 22 28 2a 30 32 80 86 88 8a b0-b7 c0 c6 d0 d2 f6 fe 0f90-0f9f 0fb0 0fc0')

KNOWN = PLACES | BARE | SMALL | LARGE

PREFIXES = ops('26 2e 36 3e 64-66 f0 f2 f3')
PUSH, POP, MOVES, ADDRESS, LEAVE = ops('50-57 68 6a'), ops('58-5f'), (0x89, 0x8b), 0x8d, 0xc9
BY_NUMBER, ADD, AND, SUB = (0x81, 0x83), 0, 4, 5  # the operation stands where other instructions name a register
POINTED, POINTED_JUMP, POINTED_PUSH = 0xff, 4, 6
CALL, JUMP, BRANCH, RETURNS, STOPS, PADDING = 0xe8, ops('e9 eb'), ops('70-7f 0f80-0f8f'), 0xc3, ops('0f0b f4 cc'), ops('90 0f1f')

# A large frame is probed on the way down: r11 is where the stack pointer has to come to, in one of two forms, and a loop takes it there step by step, a
# page at a time or, with today's compiler, 3,072 bytes: sub $0xc00,%rsp; movq $0,(%rsp); cmp %r11,%rsp; jne. All of it counts as one instruction.
PROBED = re.compile(rb'(?:\x49\x89\xe3\x49\x81\xeb(?P<less>.{4})|\x4c\x8d\x9c\x24(?P<more>.{4}))'
                    rb'\x48\x81\xec\x00[\x0c\x10]\x00\x00\x48\xc7\x04\x24\x00\x00\x00\x00\x4c\x39\xdc\x75\xec', re.DOTALL)


def number(data):
    return int.from_bytes(data, 'little', signed=True)


def instruction(code, at):
    """The instruction at this place of some code."""
    here, rex, narrow = at, 0, False
    while code[here] in PREFIXES:
        narrow |= code[here] == 0x66
        here += 1
    if code[here] >> 4 == 4:
        rex = code[here]
        here += 1
    op = code[here]
    here += 1
    while op in (0x0f, 0x0f38, 0x0f3a):
        op = op << 8 | code[here]
        here += 1
    if op not in KNOWN:
        raise Unread(f'the opcode {op:02x} is not one that is read here')
    mod = reg = rm = base = None
    indexed, disp = False, 0
    if op in IN_OPCODE:
        mod, rm = 3, op & 7 | (rex & 1) << 3
    if op in PLACES:
        mod, reg, low = code[here] >> 6, code[here] >> 3 & 7 | (rex & 4) << 1, code[here] & 7
        rm = low | (rex & 1) << 3
        here += 1
        if mod != 3:
            if low == 4:
                indexed = code[here] >> 3 & 7 | (rex & 2) << 2 != 4
                low = code[here] & 7
                here += 1
            base = None if mod == 0 and low == 5 else low | (rex & 1) << 3
            size = 4 if mod == 2 or base is None else mod
            disp = number(code[here:here + size])
            here += size
    size = 1 if op in SMALL or op == 0xf6 and reg & 7 < 2 else 0
    if op in LARGE or op == 0xf7 and reg & 7 < 2:
        size = 8 if 0xb8 <= op <= 0xbf and rex & 8 else 4
        if narrow and op != CALL and op not in JUMP | BRANCH:
            size = 2
    value = number(code[here:here + size])
    here += size
    if len(code) < here:
        raise IndexError
    return Instruction(at, here - at, op, rex, mod, reg, rm, base, indexed, disp, value)


def written(i):
    """The general registers that an instruction writes among those that it names."""
    found = {i.reg} if i.op in WRITES_REG else set()
    compares = i.op in (0x80, 0x81, 0x83) and i.reg == 7 or i.op in (0xf6, 0xf7) and i.reg not in (2, 3)
    if i.op in WRITES_RM and i.mod == 3 and not compares:
        found.add(i.rm)
    if i.op in OF_BYTES and not i.rex:
        found -= {4, 5, 6, 7}  # these are then the second bytes of the first four
    return found


# ---- one function

def moved(i, held, kept):
    """What is held after an instruction, and what was held when rbp was made the stack pointer, as long as it is."""
    named = i.mod == 3 and (i.reg, i.rm)
    if i.op in PUSH or i.op == POINTED and i.reg == POINTED_PUSH:
        return held + 8, kept
    if i.op in POP and i.rm != RSP:
        return held - 8, None if i.rm == RBP else kept
    if i.op in BY_NUMBER and i.mod == 3 and i.rm == RSP and i.rex & 8:
        if i.reg in (ADD, SUB):
            return held + (i.value if i.reg == SUB else -i.value), kept
        if i.reg == AND and i.value < 0:
            return held - i.value - 1, kept
    if i.op in MOVES and named == ((RSP, RBP) if i.op == 0x89 else (RBP, RSP)):
        return held, held
    if i.op == ADDRESS and i.reg == RSP and i.base == RSP and not i.indexed:
        return held - i.disp, kept
    back = i.op in MOVES and named == ((RBP, RSP) if i.op == 0x89 else (RSP, RBP))
    if back or i.op == LEAVE or i.op == ADDRESS and i.reg == RSP and i.base == RBP and not i.indexed:
        if kept is None:
            raise Unread('rsp is taken from rbp, which is not known to be where the stack pointer was')
        return (kept - 8, None) if i.op == LEAVE else (kept - i.disp, kept)
    altered = written(i)
    if RSP in altered:
        raise Unread('it alters rsp in a way that is not read here')
    return held, None if RBP in altered else kept


class Walk:
    """A function on the way through it: what it holds at most, what it calls, and the instructions that are still to be walked."""

    def __init__(self, function, known):
        self.function, self.code, self.known = function, function.code, known
        self.most, self.calls, self.tables, self.below = RETURN, set(), set(), set()
        self.seen, self.reached, self.todo = {}, bytearray(len(self.code)), [(0, RETURN, None)]

    def call(self, held, place, why):
        """A call of the address that is this far from the function's first byte."""
        address = self.function.start + place
        if not self.known(address):
            raise Unread(f'{why} {address:#x}, which is no function')
        self.calls.add((held, address))

    def jump(self, held, kept, place):
        """A jump to another function is a call by which the own frame is gone."""
        if 0 <= place < len(self.code):
            self.todo.append((place, held, kept))
        elif held != RETURN:
            raise Unread(f'a jump out of it with {held - RETURN} bytes still held')
        else:
            self.call(0, place, 'a jump to')

    def cover(self, at, size):
        self.reached[at:at + size] = b'\1' * size

    def step(self, at, held, kept):
        """One instruction. What comes next is put on the list."""
        probed = PROBED.match(self.code, at)
        if probed:
            self.cover(at, probed.end() - at)
            self.todo.append((probed.end(), held + (number(probed['less']) if probed['less'] else -number(probed['more'])), kept))
            return
        i = instruction(self.code, at)
        after = at + i.size
        self.cover(at, i.size)
        place = held - i.disp if i.base == RSP else kept - i.disp if i.base == RBP and kept is not None else 0
        if place > held and not (i.op == ADDRESS and i.reg == RSP):
            self.below.add((held + ZONE if i.indexed or i.op == ADDRESS else (place + 7) // 8 * 8, i.indexed))
        if i.op == RETURNS and held != RETURN:
            raise Unread(f'a return with {held - RETURN} bytes still held')
        if i.op == POINTED and i.reg == POINTED_JUMP:
            self.tables.add((held, kept))
        elif i.op == POINTED and i.reg not in (0, 1, POINTED_PUSH):
            raise Unread('a call of what a register or a place says')
        elif i.op in JUMP:
            self.jump(held, kept, after + i.value)
        elif i.op != RETURNS and i.op not in STOPS:
            if i.op in BRANCH:
                self.jump(held, kept, after + i.value)
            if i.op == CALL:
                self.call(held, after + i.value, 'a call of')
            if i.op != CALL or after < len(self.code):  # at the end there is a call that does not return
                self.todo.append((after, *moved(i, held, kept)))

    def meet(self, at, held, kept):
        """Goes on where an instruction has not been walked with what is held."""
        if held < RETURN:
            raise Unread('it takes more off the stack than it put there')
        if at >= len(self.code):
            raise Unread('it goes on behind its end')
        self.most = max(self.most, held)
        if at in self.seen:
            if self.seen[at][0] != held:
                raise Unread(f'ways meet that hold {self.seen[at][0]} and {held} bytes')
            if self.seen[at][1] in (None, kept):
                return
            kept = None
        self.seen[at] = held, kept
        self.step(at, held, kept)

    def rest(self, at):
        """What no jump led to is padding, or a table leads there; then all jumps by tables have to hold the same."""
        i = instruction(self.code, at)
        if i.op in PADDING:
            self.cover(at, i.size)
        elif len(self.tables) == 1:
            self.todo += [(at, *each) for each in self.tables]
        else:
            raise Unread(f'nothing is known to lead there: {len(self.tables)} kinds of jumps by tables')

    def frame(self):
        at = 0
        try:
            while at >= 0:
                while self.todo:
                    at, held, kept = self.todo.pop()
                    self.meet(at, held, kept)
                at = self.reached.find(0)
                if at >= 0:
                    self.rest(at)
        except Unread as error:
            raise Unread(f'{self.function.name}+{at:#x} ({self.code[at:at + 8].hex(" ")}): {error}') from None
        except IndexError:
            raise Unread(f'{self.function.name}+{at:#x} ({self.code[at:].hex(" ")}): an instruction that is cut') from None
        # A function with calls does not use the zone below the stack pointer: there an index takes such a place up again.
        below = [place for place, indexed in self.below if not (indexed and self.calls)]
        return Frame(max([self.most, *below]), sorted(self.calls))


# ---- a program

class Program:
    """Functions, and the addresses of what stands in libraries, which are counted as their return address alone."""

    def __init__(self, name, functions, outside=()):
        self.name, self.functions, self.outside = name, {each.start: each for each in functions}, outside
        self.names = {(each.name, each.start) for each in functions}
        self.frames, self.depths = {}, {}

    def called(self, name):
        """The address of the function with this name."""
        found = [start for each, start in self.names if each == name]
        if len(found) != 1:
            raise Unread(f'{self.name} has {len(found) or "no"} function{"s" if found else ""} of the name {name}')
        return found[0]

    def knows(self, address):
        return address in self.functions or any(address in span for span in self.outside)

    def frame(self, start):
        if start not in self.frames:
            self.frames[start] = Walk(self.functions[start], self.knows).frame()
        return self.frames[start]

    def depth(self, start, above=()):
        """The most stack from the entry of a function down."""
        if start not in self.functions:
            return Depth(RETURN, [(LIBC, RETURN)])
        name = self.functions[start].name
        if start in above:
            raise Unread(f'{name} calls itself, directly or by way of others: its depth has no bound here')
        if start not in self.depths:
            own = self.frame(start)
            deepest = Depth(own.bytes, [(name, own.bytes)])
            for held, target in own.calls:
                below = self.depth(target, (*above, start))
                if held + below.bytes > deepest.bytes:
                    deepest = Depth(held + below.bytes, [(name, held), *below.path])
            self.depths[start] = deepest
        return self.depths[start]


def program(path):
    """The program in an ELF file for x86-64."""
    path = Path(path)
    try:
        data = path.read_bytes()
    except OSError as error:
        raise Unread(f'there is no program {path.name} to read ({error.strerror}): prove and build it first') from None
    if data[:6] != b'\x7fELF\x02\x01' or int.from_bytes(data[18:20], 'little') != X86_64:
        raise Unread(f'{path.name} is no ELF file for x86-64')
    try:
        return Program(path.name, *parts(data))
    except (struct.error, IndexError, ValueError, OverflowError):
        raise Unread(f'{path.name} is damaged: its sections or symbols lead outside the file') from None


def parts(data):
    """The functions of a file that have a size, and the addresses of the jumps into libraries."""
    table, = struct.unpack_from('<Q', data, 40)
    size, count, names = struct.unpack_from('<HHH', data, 58)
    sections = [struct.unpack_from('<IIQQQQIIQQ', data, table + size * each) for each in range(count)]

    def text(section, place):
        begin = sections[section][4] + place
        return data[begin:data.index(b'\0', begin)].decode('utf-8', 'replace')

    functions = []
    for _, kind, _, _, offset, length, strings, *_ in sections:
        if kind != SYMBOLS:
            continue
        for name, info, _, section, value, extent in struct.iter_unpack('<IBBHQQ', data[offset:offset + length]):
            if info & 15 == FUNCTION and extent and 0 < section < count:
                place = sections[section][4] + value - sections[section][3]
                functions.append(Function(text(strings, name), value, data[place:place + extent], place))
    return functions, [range(each[3], each[3] + each[5]) for each in sections if text(names, each[0]).startswith('.plt')]
