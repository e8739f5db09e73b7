#!/usr/bin/env -S python3 -B
"""Holds the tables of docs/REFERENCE.md to the client's tables, to those of tests/derive.py and to the repository."""

import re
import sys

from checks import Checks, TOP, roverivet_command

import derive
import roverivet

PAGE = (TOP / 'docs' / 'REFERENCE.md').read_text()


def rows(heading):
    """The cells of the first table below a heading."""
    section = PAGE.split(f'\n## {heading}\n', 1)[1].split('\n## ', 1)[0]
    table = re.search(r'(?:^\|.*\n)+', section, re.MULTILINE).group().splitlines()[2:]
    return [[cell.strip() for cell in row.strip('|').split('|')] for row in table]


def commands():
    """{byte: set or get} by the page."""
    found = {}
    for code, sort, _ in rows('Commands'):
        base = int(code.removesuffix('+n'), 16)
        for byte in range(base, base + (8 if code.endswith('+n') else 1)):
            found[byte] = sort.lower()
    return found


def numbers(cell):
    """The numbers of '16-23, 31'."""
    for part in cell.split(', '):
        first, _, last = part.partition('-')
        yield from range(int(first), int(last or first) + 1)


def registers():
    """{(P, R): (bytes, access)} by the page."""
    access = {'read': 'r', 'write': 'w', 'both': 'rw', 'read, which clears it': 'r'}
    return {(bank, number): (int(size), access[words]) for banks, places, _, size, words in rows('Registers')
            for bank in numbers(banks) for number in numbers(places)}


def main():
    checks = Checks()
    typed = {byte: sort.lower() for byte, (sort, _) in derive.command_table().items()}
    client = {byte: sort for byte, (sort, _) in roverivet.COMMANDS.items()}
    checks.equal(commands(), client, 'the commands of the page and of the client')
    checks.equal(typed, client, 'the commands of the traces and of the client')
    checks.equal(len(client), 45, 'listed commands')
    typed = {pair: (size, access.lower()) for pair, (size, access) in derive.register_table().items()}
    client = {pair: (register.size, register.access) for pair, register in roverivet.REGISTERS.items()}
    checks.equal(registers(), client, 'the registers of the page and of the client')
    checks.equal(typed, client, 'the registers of the traces and of the client')
    attributes = {int(places): name for banks, places, name, _, _ in rows('Registers') if banks == '16-23, 31' and places != '14'}
    checks.equal(attributes, dict(enumerate(roverivet.ATTRIBUTES)), 'the attributes of the page and of the client')
    checks.equal(derive.NAMES, list(roverivet.ATTRIBUTES), 'the attributes of the traces and of the client')
    checks.equal([int(row[0]) for row in rows('Refusals')], [9, 8, 3, 2, 1, 7, 5, 6, 4, 10, 13], 'the refusals in their order')
    checks.equal(sorted(int(row[0]) for row in rows('Refusals')), sorted(roverivet.REFUSALS), 'the refusals of the client')
    checks.equal(len(rows('Credits')), 8, 'the table of credits')
    shown = roverivet_command('--help').stdout.decode()
    for row in rows('./roverivet'):
        verb = row[0].strip('`').split()[0]
        checks.check(f'    {verb} ' in shown, f'the verb {verb} is there')
    for name in re.findall(r'`((?:docs|tests|tools|clients|traces)/[\w./-]+)`', PAGE + (TOP / 'traces' / 'README.md').read_text()):
        checks.check((TOP / name).exists(), f'{name}, named in a page, is there')
    for link in re.findall(r'\]\(#([\w./-]+)\)', PAGE):
        headings = {re.sub(r'[^\w -]', '', head).lower().replace(' ', '-') for head in re.findall(r'^## (.+)$', PAGE, re.MULTILINE)}
        checks.check(link in headings, f'the link #{link} leads to a heading')
    print('commands, registers, refusals, verbs, files and links of docs/REFERENCE.md')
    return checks.end()


if __name__ == '__main__':
    sys.exit(main())
