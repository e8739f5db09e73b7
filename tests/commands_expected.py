#!/usr/bin/env python3
"""What the program `every_command` must print, worked out from document 01 and the manuals' command table, not from a run of it.

    python3 tests/commands_expected.py    prints it; crates/every_command/stdout holds it
    python3 tests/commands.py             compares the two

The table below is document 01's section 'Commands', bit pattern by bit pattern. MANUAL is the same table as the manuals print it, in hexadecimal (000, table 3-1; 004,
section on the management commands), less the commands that document 01 leaves out.
"""

AUI = 8

# 'Commands': three # are the number of a TP port.
TABLE = [
    ('00011111', 'set', 'alternate algorithm, AUI'),
    ('00010000', 'set', 'alternate algorithm, TP'),
    ('00101111', 'set', 'disable AUI'),
    ('00111111', 'set', 'enable AUI'),
    ('00100###', 'set', 'disable TP'),
    ('00110###', 'set', 'enable TP'),
    ('01000###', 'set', 'link test off, TP'),
    ('01010###', 'set', 'link test on, TP'),
    ('10001111', 'get', 'AUI status, clear B, S and L'),
    ('10001011', 'get', 'AUI status, clear S and L'),
    ('10001101', 'get', 'AUI status, clear B'),
    ('10001001', 'get', 'AUI status'),
    ('10000000', 'get', 'partition status'),
    ('10100000', 'get', 'bit rate errors, clear them'),
    ('11010000', 'get', 'link status'),
    ('11110000', 'get', 'MJLP, clear it'),
    ('11111111', 'get', 'version'),
]

MANUAL = '1f 10 2f 3f 20-27 30-37 40-47 50-57 8f 8b 8d 89 80 a0 d0 f0 ff'


def first_state():
    """How the ports and the status stand when the commands come.

    Four pulses bring the links of TP0, TP1, TP2 and TP6 to pass. AUI, heard alone with a rate error, sets B. TP2, heard alone with a rate error in a burst of 70,000 bit
    times, sets its rate bit and M (there are ports to send to), S by its flag, and L because AUI is sent the jam. A collision of 1,025 bit times of TP0, TP1 and AUI
    partitions the three; their links stand. Then TP6 is disabled, which leaves its link, TP4 loses link test and so passes, and TP7 is disabled and loses it too.
    """
    return {
        'enabled': {0, 1, 2, 3, 4, 5, AUI},
        'link test': {0, 1, 2, 3, 5, 6},
        'links': {0, 1, 2, 6, 4, 7},
        'partitioned': {0, 1, AUI},
        'alternate': set(),
        'rates': {2},
        'B': True,
        'S': True,
        'L': True,
        'M': True,
    }


def copied(state):
    return {name: set(value) if isinstance(value, set) else value for name, value in state.items()}


def after_set(state, words, port):
    """The state after a Set: 'Commands', 'Partition' (disabling) and 'Link' (link test, enabling). What is set already stays."""
    new = copied(state)
    if words.startswith('alternate algorithm'):
        new['alternate'].add('AUI' if words.endswith('AUI') else 'TP')
    elif words.startswith('disable') and port in state['enabled']:
        new['enabled'].discard(port)
        new['partitioned'].discard(port)
    elif words.startswith('enable ') and port not in state['enabled']:
        new['enabled'].add(port)
        if port in state['link test']:
            new['links'].discard(port)
    elif words.startswith('link test off') and port in state['link test']:
        new['link test'].discard(port)
        new['links'].add(port)
    elif words.startswith('link test on') and port not in state['link test']:
        new['link test'].add(port)
        new['links'].add(port)
    return new


def mask(ports):
    return sum(1 << port for port in ports)


def answer(state, words):
    """The byte that a Get gives."""
    tp = set(range(8))
    if words.startswith('AUI status'):
        connected = AUI not in state['partitioned']
        return 128 * connected + 64 * state['B'] + 32 * state['S'] + 16 * state['L']
    if words == 'partition status':
        return mask(tp - state['partitioned'])
    if words.startswith('bit rate errors'):
        return mask(state['rates'])
    if words == 'link status':
        return mask(tp & state['links'])
    if words.startswith('MJLP'):
        return 128 * state['M']
    return 1


# What each Get clears.
CLEARS = {
    'AUI status, clear B, S and L': 'BSL',
    'AUI status, clear S and L': 'SL',
    'AUI status, clear B': 'B',
    'AUI status': '',
    'partition status': '',
    'bit rate errors, clear them': 'R',
    'link status': '',
    'MJLP, clear it': 'M',
    'version': '',
}


def after_get(state, words):
    new = copied(state)
    for bit in CLEARS[words]:
        if bit == 'R':
            new['rates'] = set()
        else:
            new[bit] = False
    return new


def shown(state):
    """Enabled ports, links, links after 100 silent ticks (link test fails the rest), partitioned ports, and the alternate algorithm for AUI and for TP."""
    alternate = ''.join('1' if which in state['alternate'] else '0' for which in ('AUI', 'TP'))
    untested = state['links'] - state['link test']
    return f'{mask(state["enabled"]):03x} {mask(state["links"]):02x} {mask(untested):02x} {mask(state["partitioned"]):03x} {alternate}'


def got(state, words):
    left = after_get(state, words)
    status = ' '.join(f'{answer(left, w):02x}' for w in ('AUI status', 'bit rate errors, clear them', 'MJLP, clear it'))
    return f'gives {answer(state, words):02x}, leaves {status}'


def commands():
    """Byte -> (kind, words, port or None)."""
    listed = {}
    for pattern, kind, words in TABLE:
        if '#' in pattern:
            for port in range(8):
                listed[int(pattern.replace('###', f'{port:03b}'), 2)] = (kind, words, port)
        else:
            listed[int(pattern, 2)] = (kind, words, AUI if words.endswith('AUI') else None)
    return listed


def manual():
    listed = set()
    for part in MANUAL.split():
        ends = [int(end, 16) for end in part.split('-')]
        listed.update(range(ends[0], ends[-1] + 1))
    return listed


def lines():
    one = first_state()
    two = after_set(one, 'disable AUI', AUI)
    yield f'first state: {shown(one)}'
    yield f'second state, AUI disabled: {shown(two)}'
    listed = commands()
    for byte in range(256):
        if byte not in listed:
            yield f'{byte:02x} not listed'
            continue
        kind, words, port = listed[byte]
        if kind == 'get':
            yield f'{byte:02x} get {words}: {got(one, words)}; {got(two, words)}'
        else:
            named = words + str(port) if words.endswith('TP') and port is not None else words
            after = [shown(after_set(state, words, port)) for state in (one, two)]
            yield f'{byte:02x} set {named}: {after[0]}; {after[1]}'


if __name__ == '__main__':
    print('\n'.join(lines()))
