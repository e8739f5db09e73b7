#!/usr/bin/env -S python3 -B
"""The text form of records and start files: lines beside the bytes they stand for, errors beside their place."""

import random
import struct
import sys

from checks import Checks, roverivet_command

from tools import startfile, text
from tools.text import TextError


def bytes32(*parts):
    """A record from (offset, bytes) parts, typed from document 01's table of the record."""
    record = bytearray(32)
    for at, part in parts:
        record[at:at + len(part)] = part
    return bytes(record)


# what asm makes of a line, and whether dis writes that very line for it
LINES = [
    ('burst tp0 d=1000 n=64 sa=02:00:00:00:00:01', True,
     bytes32((0, b'\x01'), (2, b'\x01\x00'), (4, b'\xe8\x03\x00\x00'), (8, b'\x40\x00\x00\x00'), (24, b'\x02\x00\x00\x00\x00\x01'))),
    ('burst tp0+tp1 d=600 c=100 x=300', True,
     bytes32((0, b'\x01'), (2, b'\x03\x00'), (4, b'\x58\x02\x00\x00'), (16, b'\x64\x00\x00\x00'), (20, b'\x2c\x01\x00\x00'))),
    ('burst tp7+aui d=1 fcs-bad rate-error collision-signal loopback-missing sqe-test', True,
     bytes32((0, b'\x01\x1f\x80\x01\x01'))),
    ('burst none d=600 collision-signal', True, bytes32((0, b'\x01\x04\x00\x00\x58\x02'))),
    ('burst tp0-7+aui d=4294967295 n=4294967295 k=255 c=4294967295 x=4294967295', True,
     bytes32((0, b'\x01\x00\xff\x01\xff\xff\xff\xff\xff\xff\xff\xff\xff'), (16, b'\xff' * 8))),
    ('burst mask=8001 d=0', True, bytes32((0, b'\x01\x00\x01\x80'))),
    ('burst tp3 d=5 byte=5a', True, bytes32((0, b'\x01\x00\x08\x00\x05'), (13, b'\x5a'))),
    ('burst tp1+tp3-5 d=5', True, bytes32((0, b'\x01\x00\x3a\x00\x05'))),
    ('BURST TP0-TP1 D=0005 SQE-TEST', False, bytes32((0, b'\x01\x10\x03\x00\x05'))),
    ('burst mask=1 d=5', False, bytes32((0, b'\x01\x00\x01\x00\x05'))),
    ('burst tp0 sqe-test n=0 d=5', False, bytes32((0, b'\x01\x10\x01\x00\x05'))),
    ('pulse tp0-3', True, bytes32((0, b'\x02\x00\x0f'))),
    ('pulse none', True, bytes32((0, b'\x02'))),
    ('pulse aui', True, bytes32((0, b'\x02\x00\x00\x01'))),
    ('tick', True, bytes32((0, b'\x03'))),
    ('tick mask=001', True, bytes32((0, b'\x03\x00\x01'))),
    ('tick x=1', True, bytes32((0, b'\x03'), (20, b'\x01'))),
    ('c-write P=16', True, bytes32((0, b'\x04'), (13, b'\x10'))),
    ('c-write P=0', True, bytes32((0, b'\x04'))),
    ('c-write R=0', True, bytes32((0, b'\x04'), (13, b'\xe0'))),
    ('c-write R=31', True, bytes32((0, b'\x04'), (13, b'\xff'))),
    ('c-write 45', True, bytes32((0, b'\x04'), (13, b'\x45'))),
    ('c-write 10', False, bytes32((0, b'\x04'), (13, b'\x10'))),
    ('c-write r=5', False, bytes32((0, b'\x04'), (13, b'\xe5'))),
    ('d-write 8f', True, bytes32((0, b'\x05'), (13, b'\x8f'))),
    ('d-write 00 mask=200', True, bytes32((0, b'\x05\x00\x00\x02'))),
    ('c-read', True, bytes32((0, b'\x06'))),
    ('d-read', True, bytes32((0, b'\x07'))),
    ('d-read byte=01', True, bytes32((0, b'\x07'), (13, b'\x01'))),
    ('reset', True, bytes32((0, b'\x08'))),
    ('raw 09000000 00000000 00000000 00000000 00000000 00000000 00000000 00000000', True, bytes32((0, b'\x09'))),
    ('raw 01200100 05000000 00000000 00000000 00000000 00000000 00000000 00000000', True, bytes32((0, b'\x01\x20\x01\x00\x05'))),
    ('raw 03000000 00000000 00000000 0000ff00 00000000 00000000 00000000 00000000', True, bytes32((0, b'\x03'), (14, b'\xff'))),
    ('raw 03000000 00000000 00000000 00000000 00000000 00000000 00000000 00000080', True, bytes32((0, b'\x03'), (31, b'\x80'))),
    ('raw 03 0000' + ' 00' * 29, False, bytes32((0, b'\x03'))),
    ('raw 01', True, b'\x01'),
    ('raw 01020304 05', True, b'\x01\x02\x03\x04\x05'),
]

KINDS = 'expected burst, pulse, tick, c-write, d-write, c-read, d-read, reset or raw, found '
ERRORS = [
    ('bogus', 1, 1, KINDS + 'bogus'),
    ('tick\n\n  bursts tp0', 3, 3, KINDS + 'bursts'),
    ('burst', 1, 6, 'expected ports'),
    ('burst d=5', 1, 7, "expected ports (tp0, tp0+tp1, tp0-3, aui, none) or mask=HEX: 'd=5' is no port"),
    ('burst tp8 d=5', 1, 7, "'tp8' is no port"),
    ('burst tp3-1 d=5', 1, 7, "'tp3-1' runs backwards"),
    ('burst tp0+tp0 d=5', 1, 7, 'tp0 is named twice'),
    ('burst tp0-3+tp2 d=5', 1, 7, 'tp2 is named twice'),
    ('burst tp0 n=64', 1, 15, 'expected d=, the duration of the burst'),
    ('burst tp0 n=64  # no d', 1, 15, 'expected d=, the duration of the burst'),
    ('burst tp0 d=5 d=6', 1, 15, 'd is there twice'),
    ('burst tp0 d=5 sqe-test sqe-test', 1, 24, 'sqe-test is there twice'),
    ('burst tp0 d=5 mask=1', 1, 15, 'mask is there twice'),
    ('burst tp0 d=4294967296', 1, 11, 'expected d= and a decimal number up to 4294967295, found d=4294967296'),
    ('burst tp0 d=-1', 1, 11, 'expected d= and a decimal number'),
    ('burst tp0 d=', 1, 11, 'expected d= and a decimal number'),
    ('burst tp0 d=1e3', 1, 11, 'expected d= and a decimal number'),
    ('burst tp0 d=١', 1, 11, 'expected d= and a decimal number'),
    ('burst tp0 d=5 k=256', 1, 15, 'expected k= and a decimal number up to 255'),
    ('burst tp0 d=5 sa=02:00:00:00:00', 1, 15, 'expected sa= and six hex octets'),
    ('burst tp0 d=5 sa=02-00-00-00-00-0g', 1, 15, 'expected sa= and six hex octets'),
    ('burst tp0 d=5 flag', 1, 15, 'expected a field (d= n= k= c= x= sa= mask= byte=), a flag (fcs-bad'),
    ('burst tp0 x100 d=5', 1, 11, 'expected a field'),
    ('pulse', 1, 6, 'expected ports'),
    ('pulse mask=12345', 1, 7, 'expected mask= and up to four hex digits'),
    ('tick x0', 1, 6, 'expected x1 to x1000000, found x0'),
    ('tick x1000001', 1, 6, 'expected x1 to x1000000'),
    ('tick x99999999999999999999', 1, 6, 'expected x1 to x1000000'),
    ('c-write', 1, 8, 'expected P=0 to P=31, R=0 to R=31 or a byte in hex'),
    ('c-write P=32', 1, 9, 'expected P=0 to P=31'),
    ('c-write 1', 1, 9, 'expected P=0 to P=31, R=0 to R=31 or a byte in hex, found 1'),
    ('d-write', 1, 8, 'expected a byte in hex, as 8f'),
    ('d-write P=3', 1, 9, 'expected a byte in hex, as 8f, found P=3'),
    ('d-write 100', 1, 9, 'expected a byte in hex'),
    ('d-write 8f byte=01', 1, 12, 'byte is there twice'),
    ('raw', 1, 4, 'expected 1 to 32 bytes in hex, found 0'),
    ('raw 012', 1, 5, 'expected bytes in hex, two digits each, found 012'),
    ('raw 01 zz', 1, 8, 'expected bytes in hex'),
    ('raw ' + '00' * 33, 1, 5, 'expected 1 to 32 bytes in hex, found 33'),
    ('raw 0102 x2', 1, 5, 'expected 32 bytes to repeat, found 2'),
    ('raw 0102\ntick', 2, 1, 'expected nothing after the piece of 2 bytes in line 1'),
    (b'tick\nti\xffck', 2, 3, 'expected text, found the byte ff'),
    (b'# caf\xc3\xa9\n\xc3\xa9 \x80', 2, 3, 'expected text, found the byte 80'),
]

START_ERRORS = [
    ('tp0 Readable Frame = 1', 1, 1, 'expected PORT COUNTER = NUMBER'),
    ('  Readable Frames = 1', 1, 3, 'expected PORT COUNTER = NUMBER'),
    ('tp0 Runts', 1, 1, 'expected PORT COUNTER = NUMBER'),
    ('\ntp0 Runts = 4294967296', 2, 13, 'expected a decimal number up to 4294967295'),
    ('tp0 Runts =', 1, 12, 'expected a decimal number'),
    ('aui address = 5', 1, 15, 'is no address'),
    ('tp0 Runts = 1\ntp0 runts = 1', 2, 1, 'this value is given in line 1 already'),
    (b'tp0 \xff', 1, 5, 'expected text'),
    ('Short Event = 75', 1, 1, 'expected PORT COUNTER = NUMBER'),
    ('tp0 Short Event limit = 75', 1, 1, 'expected PORT COUNTER = NUMBER'),
    ('Short Event limit 75', 1, 1, 'expected PORT COUNTER = NUMBER'),
    ('Short Event limit =', 1, 20, 'expected a decimal number, found'),
    ('Short Event limit = x', 1, 21, 'expected a decimal number, found x'),
    ('Short Event limit = -75', 1, 21, 'expected a decimal number, found -75'),
    ('Short Event limit = 7 5', 1, 21, 'expected a decimal number, found 7 5'),
    ('Short Event limit = ٧٥', 1, 21, 'expected a decimal number, found ٧٥'),
    ('Short Event limit = 75\nTotal Octets = 7\nshort event LIMIT = 75', 3, 1, 'this value is given in line 1 already'),
    ('\n  Short Event limit =   4294967296', 2, 25, 'short event limit 4294967296 is outside 75 to 81 (refused 13)'),
    ('Short Event limit = 4294967374', 1, 21, 'short event limit 4294967374 is outside 75 to 81 (refused 13)'),
    ('Short Event limit = 00018446744073709551694', 1, 21, 'short event limit 18446744073709551694 is outside 75 to 81 (refused 13)'),
    (f'Short Event limit = {"9" * 5000}', 1, 21, f'short event limit {"9" * 37}... is outside 75 to 81 (refused 13)'),
]

# what asm makes of a limit's line behind the 530 bytes, and whether dis writes that very line for it; it is translated, also where power-up refuses it
LIMIT_LINES = [
    ('Short Event limit = 75', True, b'\x4b\x00\x00\x00\x00'),
    ('Short Event limit = 78', True, b'\x4e\x00\x00\x00\x00'),
    ('Short Event limit = 81', True, b'\x51\x00\x00\x00\x00'),
    ('Short Event limit = 0', True, b'\x00\x00\x00\x00\x00'),
    ('Short Event limit = 74', True, b'\x4a\x00\x00\x00\x00'),
    ('Short Event limit = 82', True, b'\x52\x00\x00\x00\x00'),
    ('Short Event limit = 334', True, b'\x4e\x01\x00\x00\x00'),
    ('Short Event limit = 1263225675', True, b'\x4b\x4b\x4b\x4b\x00'),
    ('Short Event limit = 4294967295', True, b'\xff\xff\xff\xff\x00'),
    ('SHORT  event\tLimit=0000000000000000000075  # a remark', False, b'\x4b\x00\x00\x00\x00'),
]


def lines(checks):
    for line, canonical, record in LINES:
        checks.equal(text.assembled(line), record, f'asm: {line}')
        if canonical:
            checks.equal(text.described(record), line, f'dis: {record.hex()}')
        checks.equal(text.assembled(text.described(record)), record, f'dis and asm: {record.hex()}')
    whole = text.assembled('# two kinds\n\ntick x3\r\n\tpulse none # and a remark\nraw 0a')
    checks.equal(whole, bytes32((0, b'\x03')) * 3 + bytes32((0, b'\x02')) + b'\x0a', 'asm: comments, repeats, line ends, a tail')
    checks.equal(list(text.text_of(text.pieces(whole))),
                 ['tick x3', 'pulse none', 'raw 0a  # refused 9: 1 byte where a record has 32'], 'dis: repeats and remarks')
    checks.equal(list(text.text_of([bytes32((0, b'\x03'))] * 1_000_001)), ['tick x1000000', 'tick'], 'dis: a long run is parted')
    print(f'{len(LINES)} lines, both ways')


def errors(checks, cases, function, kind):
    for given, line, column, reason in cases:
        try:
            function(given, 'some.txt')
            checks.check(False, f'{kind}: {given!r} was taken')
        except TextError as error:
            checks.equal((error.line, error.column), (line, column), f'{kind}: the place in {given!r}')
            checks.check(error.reason.startswith(reason) or reason in error.reason, f'{kind}: the reason for {given!r}',
                         f'expected {reason}', f'found    {error.reason}')
            checks.check(str(error).startswith(f'some.txt:{line}:{column}: '), f'{kind}: the message for {given!r} names its place')
    print(f'{len(cases)} errors of {kind}, each with its line, column and reason')


def every_field(checks):
    """All values of each single byte of a record, over each kind: dis and asm give the same bytes."""
    tried = 0
    for kind in range(10):
        for at in range(1, 32):
            for value in range(256):
                record = bytes32((0, bytes([kind])), (at, bytes([value])))
                tried += 1
                if text.assembled(text.described(record)) != record:
                    checks.check(False, f'dis and asm: {record.hex()}')
    checks.check(tried == 79360, 'every value of every byte')
    print(f'{tried} records with one byte set, both ways')


def start_files(checks):
    data = struct.pack('<13I', *range(100, 113)) + b'\x02\x00\x00\x00\x00\x07' + bytes(58 * 7) \
        + struct.pack('<13I', *[0] * 12, 4294967295) + bytes(6) + struct.pack('<2I', 7, 9)
    made = list(startfile.start_text(data))
    checks.equal(made[:2] + made[13:], ['tp0 Readable Frames = 100', 'tp0 Readable Octets = 101',
                                        'tp0 address = 02:00:00:00:00:07', 'aui Source Address Changes = 4294967295',
                                        'Transmit Collisions = 7', 'Total Octets = 9'], 'dis of a start file')
    checks.equal(startfile.start_bytes('\n'.join(made)), data, 'dis and asm of a start file')
    checks.equal(startfile.start_bytes('# nothing'), bytes(530), 'asm of an empty start file')
    draw = random.Random(1516)
    for turn in range(200):
        data = bytes(draw.choice((0, 0, 255, draw.randrange(256))) for _ in range(530))
        checks.equal(startfile.start_bytes('\n'.join(startfile.start_text(data))), data, f'start file {turn}, both ways')
    for line, canonical, tail in LIMIT_LINES:
        checks.equal(startfile.start_bytes(line), bytes(530) + tail, f'asm of a start file: {line}')
        checks.equal(startfile.start_bytes(f'{line}\nTotal Octets = 9'), bytes(526) + b'\x09\x00\x00\x00' + tail, f'asm of a start file: {line}, and a counter')
        if canonical:
            checks.equal(list(startfile.start_text(bytes(530) + tail)), [line], f'dis of a start file: {line}')
    for turn in range(200):
        data = bytes(draw.choice((0, 0, 255, draw.randrange(256))) for _ in range(534)) + b'\0'
        lines = list(startfile.start_text(data))
        checks.check(lines[-1].startswith('Short Event limit = '), f'start file {turn} of 535 bytes has the line')
        checks.equal(startfile.start_bytes('\n'.join(lines)), data, f'start file {turn} of 535 bytes, both ways')
    print(f'401 start files, {len(LIMIT_LINES)} lines of a limit, both ways')


def start_commands(checks):
    """asm --start and dis --start: both sizes, numbers that power-up refuses, and what is no start file."""
    def does(verb, data, due, what):
        ran = roverivet_command(verb, '--start', data=data)
        checks.equal((ran.stdout, ran.stderr.decode(), ran.returncode), due, what)

    does('asm', b'Total Octets = 7\n', (bytes(526) + b'\x07\0\0\0', '', 0), 'asm --start without a limit')
    does('dis', bytes(526) + b'\x07\0\0\0', (b'Total Octets = 7\n', '', 0), 'dis --start of 530 bytes')
    for number, tail in ((75, b'\x4b\0\0\0\0'), (78, b'\x4e\0\0\0\0'), (0, bytes(5)), (334, b'\x4e\x01\0\0\0'), (4294967295, b'\xff\xff\xff\xff\0')):
        source, made = b'Total Octets = 7\nShort Event limit = %d\n' % number, bytes(526) + b'\x07\0\0\0' + tail
        does('asm', source, (made, '', 0), f'asm --start with the limit {number}')
        does('dis', made, (source, '', 0), f'dis --start with the limit {number}')
    for number in (4294967296, 4294967374, 2**64 + 78):
        does('asm', b'Total Octets = 7\nShort Event limit = %d\n' % number,
             (b'', f'roverivet: standard input:2:21: short event limit {number} is outside 75 to 81 (refused 13)\n', 2), f'asm --start with the limit {number}')
    for size in (1, 529, 531, 534, 536, 1070):
        does('dis', bytes(size), (b'', f'roverivet: standard input: a start file has 530 or 535 bytes, this has {size}\n', 2), f'dis --start of {size} bytes')
    for last in (1, 78, 255):
        does('dis', bytes(534) + bytes([last]), (b'', f'roverivet: standard input: byte 534 of a start file has to be 0, here it is {last}\n', 2),
             f'dis --start of 535 bytes with {last} at the end')
    line = b'Short Event limit = 75\n'
    for size in (530, 535):
        does('dis', line + b'#' * (size - len(line)), (line, '', 0), f'dis --start of a text that has {size} bytes')
    print('asm --start and dis --start')


def commands(checks):
    """The same by the command itself, through files and pipes."""
    source = b'pulse tp0+tp1 x4\nburst tp0 d=1000 n=64\nraw 01\n'
    made = roverivet_command('asm', data=source)
    checks.equal((made.returncode, len(made.stdout), made.stderr), (0, 161, b''), 'asm from and to a pipe')
    back = roverivet_command('dis', data=made.stdout)
    checks.equal((back.returncode, back.stdout), (0, source[:-1] + b'  # refused 9: 1 byte where a record has 32\n'), 'dis of it')
    checks.equal(roverivet_command('asm', data=back.stdout).stdout, made.stdout, 'asm of that')
    wrong = roverivet_command('asm', data=b'tick\nburst tp0\n')
    checks.equal((wrong.returncode, wrong.stdout, wrong.stderr),
                 (2, b'', b'roverivet: standard input:2:10: expected d=, the duration of the burst\n'), 'asm of a wrong line')
    for verb in ('asm', 'dis'):
        missing = roverivet_command(verb, 'no-such-file')
        checks.equal((missing.returncode, missing.stderr), (2, b'roverivet: no-such-file: No such file or directory\n'),
                     f'{verb} of a file that is not there')
    checks.equal(roverivet_command('dis', data=b'').stdout, b'', 'dis of nothing')
    checks.equal(roverivet_command('asm', data=b'').stdout, b'', 'asm of nothing')


def main():
    checks = Checks()
    lines(checks)
    errors(checks, ERRORS, text.assembled, 'records')
    errors(checks, START_ERRORS, startfile.start_bytes, 'start files')
    every_field(checks)
    start_files(checks)
    start_commands(checks)
    commands(checks)
    return checks.end()


if __name__ == '__main__':
    sys.exit(main())
