#!/usr/bin/env -S python3 -B
"""Writes the traces that walk through whole tables, with their expected answers.

    tests/derive.py           writes them to traces/
    tests/derive.py --check   compares what is there, and writes nothing

The tables below are typed from document 01 ("Commands", "Host registers") beside the manual's tables 3-1
and 4-1 (source document 000). Nothing here asks a program or a model, and nothing comes from the client.
Where 01 leaves the manual on purpose, the row says so.
"""

import sys
from pathlib import Path

TRACES = Path(__file__).resolve().parents[1] / 'traces'
START = 'registers.start'

# Table 3-1 as document 01 takes it over: code, Set or Get, and what a Get gives just after a reset.
# Not taken over: programmable options 0000 1CSA, polarity 0110 0###, 0111 0### and 1110 0000.
COMMANDS = [
    ('0001 1111', 'Set', None),         # alternate algorithm, AUI
    ('0001 0000', 'Set', None),         # alternate algorithm, TP
    ('0010 1111', 'Set', None),         # AUI disable
    ('0011 1111', 'Set', None),         # AUI enable
    ('0010 0###', 'Set', None),         # TP disable (the manual prints 0010 ####)
    ('0011 0###', 'Set', None),         # TP enable (the manual prints 0011 ####)
    ('0100 0###', 'Set', None),         # link test off
    ('0101 0###', 'Set', None),         # link test on
    ('1000 1111', 'Get', '1000 0000'),  # AUI status PBSL 0000: connected, and B, S, L clear
    ('1000 1011', 'Get', '1000 0000'),  # the same
    ('1000 1101', 'Get', '1000 0000'),  # the same
    ('1000 1001', 'Get', '1000 0000'),  # the same
    ('1000 0000', 'Get', '1111 1111'),  # TP partition: 1 is connected
    ('1010 0000', 'Get', '0000 0000'),  # bit rate errors: none
    ('1101 0000', 'Get', '0000 0000'),  # link: TP in fail
    ('1111 0000', 'Get', '0000 0000'),  # MJLP: clear
    ('1111 1111', 'Get', '0000 0001'),  # version of the IMR+
]

# Table 4-1B as document 01 has it: banks, register numbers, bytes, access.
REGISTERS = [
    ([0], [12], 4, 'R'),                    # Transmit Collisions (the manual: 13)
    ([0], [13], 4, 'R'),                    # Total Octets (the manual: 12)
    ([0], [28], 1, 'R'),                    # Version/Device ID
    ([0], [30], 1, 'W'),                    # Set register
    ([0], [31], 1, 'RW'),                   # Get register
    ([1], [0, 1, 2, 3, 4, 6, 7], 1, 'R'),   # changes (the manual: SQE Test at 5; 8 and 9 besides)
    ([2], [0, 1, 2, 3, 4, 6, 7], 1, 'RW'),  # their interrupt enables
    ([16, 17, 18, 19, 20, 21, 22, 23, 31], list(range(13)), 4, 'R'),   # attributes
    ([16, 17, 18, 19, 20, 21, 22, 23, 31], [14], 6, 'RW'),             # Last Source Address
]
BANKS = [16, 17, 18, 19, 20, 21, 22, 23, 31]
PORTS = ['tp0', 'tp1', 'tp2', 'tp3', 'tp4', 'tp5', 'tp6', 'tp7', 'aui']
NAMES = ['Readable Frames', 'Readable Octets', 'FCS Errors', 'Alignment Errors', 'Frames Too Long',
         'Short Events', 'Runts', 'Collisions', 'Late Events', 'Very Long Events', 'Data Rate Mismatches',
         'Auto Partitions', 'Source Address Changes']


class Trace:
    """A text, each record with its expected answer behind it."""

    def __init__(self, name, *remarks, start=None):
        self.name = name
        self.text = [f'# {remark}' for remark in remarks] + ['# Written by tests/derive.py from the tables of document 01.']
        self.text += [f'start = {start}'] if start else []

    def line(self, record, answer):
        self.text.append(f'{record:<12} => {answer}')

    def file(self):
        return {f'{self.name}.txt': self.text}


# ---- commands


def command_table():
    """{byte: (Set or Get, the byte that a Get gives)} of the listed commands."""
    table = {}
    for code, sort, gives in COMMANDS:
        bits = code.replace(' ', '')
        for place in range(8 if '#' in bits else 1):
            byte = int(bits.replace('###', f'{place:03b}'), 2)
            assert byte not in table
            table[byte] = (sort, int(gives.replace(' ', ''), 2) if gives else 0)
    return table


def commands(register, wrong):
    """All 256 bytes written to S or to G, each after a reset; then the error and what G holds.

    `wrong` is the sort of command that belongs to the other register and sets the interface error.
    """
    letter = {30: 's', 31: 'g'}[register]
    trace = Trace(f'commands-through-{letter}', f'All 256 bytes written to {letter.upper()}, each after a reset;',
                  'then the C port (40 is the interface error) and what G holds.')
    table = command_table()
    for byte in range(256):
        sort, gives = table.get(byte, (None, 0))
        trace.line('reset', 'ok')
        trace.line(f'c-write R={register}', 'ok')
        trace.line(f'd-write {byte:02x}', 'ok' if sort else 'ref 4')
        trace.line('c-read', 'val 40' if sort == wrong else 'val 00')
        trace.line('c-write R=31', 'ok')
        trace.line('d-read', f'val {gives:02x}')
    return trace


# ---- registers


def register_table():
    """{(P, R): (bytes, access)} of the listed registers."""
    table = {}
    for banks, numbers, size, access in REGISTERS:
        for pair in ((bank, number) for bank in banks for number in numbers):
            assert pair not in table
            table[pair] = (size, access)
    return table


def counter(port, number):
    """The start value of a counter: no two counters share any of their first three bytes' places."""
    return [16 * port + number + 1, 0x40 + port, 0x80 + number, 0xC0 + (port + number) % 16]


def address(port):
    return [0x02, 0xD0 + port, 0x13, 0x24, 0x35, 0x46]


TRANSMIT_COLLISIONS, TOTAL_OCTETS = [0xE1, 0xE2, 0xE3, 0xE4], [0xF5, 0xF6, 0xF7, 0xF8]


def start_file():
    lines = ['# Every counter and address with a value of its own. Written by tests/derive.py.']
    for port, name in enumerate(PORTS):
        for number, attribute in enumerate(NAMES):
            lines.append(f'{name} {attribute} = {int.from_bytes(bytes(counter(port, number)), "little")}')
        lines.append(f'{name} address = {":".join(f"{byte:02x}" for byte in address(port))}')
    lines.append(f'Transmit Collisions = {int.from_bytes(bytes(TRANSMIT_COLLISIONS), "little")}')
    lines.append(f'Total Octets = {int.from_bytes(bytes(TOTAL_OCTETS), "little")}')
    return {START: lines}


def held(bank, number):
    """The bytes of a readable register at power-up with that start file."""
    if bank in BANKS:
        return address(BANKS.index(bank)) if number == 14 else counter(BANKS.index(bank), number)
    return {(0, 12): TRANSMIT_COLLISIONS, (0, 13): TOTAL_OCTETS, (0, 28): [0x01]}.get((bank, number), [0x00])


def read_answer(table, pair):
    if pair not in table:
        return 'ref 5'
    return f'val {held(*pair)[0]:02x}' if 'R' in table[pair][1] else 'ref 6'


def registers_read():
    trace = Trace('registers-read', 'All 1,024 pairs of P and R, one D read each. The start file gives every',
                  'counter its own value, so that a register in the wrong place is seen.', start=START)
    table = register_table()
    for bank in range(32):
        trace.line(f'c-write P={bank}', 'ok')
        for number in range(32):
            trace.line(f'c-write R={number}', 'ok')
            trace.line('d-read', read_answer(table, (bank, number)))
    return trace


def registers_written():
    trace = Trace('registers-written', 'All 1,024 pairs of P and R, one D write each and a D read after it.',
                  'S takes 10 and G takes ff, which are commands; every other register is offered ff.', start=START)
    table = register_table()
    for bank in range(32):
        trace.line(f'c-write P={bank}', 'ok')
        for number in range(32):
            pair = (bank, number)
            access = table.get(pair, (0, ''))[1]
            trace.line(f'c-write R={number}', 'ok')
            trace.line('d-write 10' if pair == (0, 30) else 'd-write ff',
                       'ok' if 'W' in access else 'ref 6' if access else 'ref 5')
            trace.line('d-read', after_write(table, pair))
    return trace


def after_write(table, pair):
    """What a D read gives after the one written byte."""
    if pair == (0, 31):
        return 'val 01'  # the version that the Get put there
    if pair[0] == 2 and pair in table:
        return 'val ff' if pair[1] in (0, 2, 6) else 'val 80'  # a single AUI bit is bit 7
    return read_answer(table, pair)  # one byte of an address changes nothing


def registers_whole():
    trace = Trace('registers-byte-by-byte', 'Every register of four or six bytes, all bytes and the first again:',
                  'least significant first, and the sequence restarts after the last.', start=START)
    for (bank, number), (size, _) in sorted(register_table().items()):
        if size > 1:
            trace.line(f'c-write P={bank}', 'ok')
            trace.line(f'c-write R={number}', 'ok')
            for byte in held(bank, number) + held(bank, number)[:1]:
                trace.line('d-read', f'val {byte:02x}')
    return trace


def derived():
    """{file name: its lines} of everything that this script writes."""
    files = start_file()
    for trace in (commands(30, 'Get'), commands(31, 'Set'), registers_read(), registers_written(), registers_whole()):
        files.update(trace.file())
    return files


def main(words):
    if words not in ([], ['--check']):
        print(__doc__.strip(), file=sys.stderr)
        return 2
    wrong = 0
    for name, lines in derived().items():
        path, content = TRACES / name, '\n'.join(lines) + '\n'
        if not words:
            path.write_text(content)
        elif not path.exists() or path.read_text() != content:
            print(f'FAILED traces/{name} is not what its tables give')
            wrong += 1
    print(f'{len(derived()) - wrong} passed, {wrong} failed')
    return 1 if wrong else 0


if __name__ == '__main__':
    sys.exit(main(sys.argv[1:]))
