"""A picture of a run: a lane for each port over the records, the change bits and their reads beneath.

Everything drawn is an answer of the program: the run's own answers, and the port states, change bits and
credits that tools/watch.py asks a second copy for. Which ports are enabled is followed from the accepted
commands, since no register tells it. Equal neighbours that do nothing new share a column.

Each mark is a <g class="event"> with data-event, data-record (and data-last in a shared column), and
data-port or data-register, so that a test can hold the picture to the run.
"""

import html
import itertools
from typing import NamedTuple

from roverivet import BURST, C_READ, CHANGES, COLLISION_SIGNAL, D_READ, PORTS, RESET, ports_of
from tools import explain, text
from tools.watch import Disturbed

GUTTER, HEAD, LANE, ROW, LEGEND = 120, 215, 30, 20, 52
WIDE, NARROW = 26, 15
MOST = 1500

COLOURS = {'pass': '#eef8ef', 'fail': '#d9d9d9', 'partitioned': '#ffcf8f', 'disabled': '#a3b3cc',
           'data': '#1f5fbf', 'jam': '#cc2222', 'partition': '#d97700', 'reconnect': '#1a8a3a', 'bits': '#7a4fbf'}


class Column(NamedTuple):
    """Records that share a column: their first and last number, the first one's Seen, its words."""
    first: int
    last: int
    seen: object
    words: str


class Event(NamedTuple):
    """One thing in the picture: at which record, at which port or change register, with which value."""
    record: int
    name: str
    place: object
    value: str = ''


def columns(seens, first=1, last=None):
    """The columns of a run, each a group of equal neighbours."""
    chosen = (seen for seen in seens if seen.number >= first and (last is None or seen.number <= last))
    made = []
    for (_, words, _), same in itertools.groupby(chosen, key=lambda s: (s.piece, explain.told(s), tuple(s.changed.items()))):
        same = list(same)
        made.append(Column(same[0].number, same[-1].number, same[0], words))
        if len(made) > MOST:
            raise ValueError(f'more than {MOST} columns: name a part of the trace with --from and --to')
    return made


# ---- what there is to see


def events(seen):
    """The events of one record, ports first, in the order of their bits."""
    found = []
    if seen.answer.word == 'ref':
        return [Event(seen.number, 'refused', 'record', str(seen.answer.value))]
    kind = seen.record.kind
    if kind == BURST:
        found += _burst_events(seen)
    if kind in (C_READ, D_READ) and (kind == C_READ or seen.selected[0] == 1):
        found.append(Event(seen.number, 'read', 'C' if kind == C_READ else seen.selected[1], f'{seen.answer.value:02x}'))
    if kind == RESET:
        found.append(Event(seen.number, 'reset', 'record'))
    for name, gained, was, now in (('partition', False, seen.before.connected, seen.after.connected),
                                   ('reconnect', True, seen.before.connected, seen.after.connected),
                                   ('link-fail', False, seen.before.passing, seen.after.passing),
                                   ('link-pass', True, seen.before.passing, seen.after.passing),
                                   ('disable', False, seen.before.enabled, seen.after.enabled),
                                   ('enable', True, seen.before.enabled, seen.after.enabled)):
        found += [Event(seen.number, name, port) for port in ports_of(now & ~was if gained else was & ~now)]
    return found + [Event(seen.number, 'set', register, f'{bits:02x}') for register, bits in seen.changed.items()]


def _burst_events(seen):
    record, heard = seen.record, explain.heard(seen)
    active = ports_of(record.mask | (0x100 if record.flags & COLLISION_SIGNAL else 0))
    collided = [port for port, raised in seen.credits.items() if 'Collisions' in raised]
    found = [Event(seen.number, 'collision' if port in collided else 'heard' if port in heard else 'active', port)
             for port in active]
    sent = {'rep': 'data', 'jam': 'jam', 'nil': 'nothing'}[seen.answer.word]
    return found + [Event(seen.number, sent, port) for port in seen.answer.outputs]


class Bits:
    """The change bits over the run: what records set, what accepted reads and resets cleared."""

    def __init__(self):
        self.held = dict.fromkeys(CHANGES, 0)

    def take(self, seen):
        """The bits after a record. A read must have found what was set before it."""
        if seen.answer.word == 'val' and seen.record.kind == D_READ and seen.selected[0] == 1:
            register = seen.selected[1]
            if seen.answer.value != self.held[register]:
                raise Disturbed(f'record {seen.number}: P 1 R {register} was read as {seen.answer.value:02x}, and '
                                f'the records before it set {self.held[register]:02x}')
            self.held[register] = 0
        if seen.answer.word != 'ref' and seen.record.kind == RESET:
            self.held = dict.fromkeys(CHANGES, 0)
        for register, bits in seen.changed.items():
            self.held[register] |= bits
        return dict(self.held)


# ---- the drawing


def svg(seens, title, first=1, last=None):
    """The picture as one SVG text."""
    seens = list(seens)
    bits, held = Bits(), {}
    for seen in seens:
        held[seen.number] = bits.take(seen)
    shown = columns(seens, first, last)
    if not shown:
        raise ValueError('there is no record to show')
    xs = list(itertools.accumulate((_width(c) for c in shown), initial=GUTTER))
    height = HEAD + LANE * len(PORTS) + ROW * (len(CHANGES) + 2) + LEGEND + 24
    width = max(xs[-1] + 12, 980)
    parts = [f'<svg xmlns="http://www.w3.org/2000/svg" viewBox="0 0 {width} {height}" width="{width}" '
             f'height="{height}" font-family="sans-serif" font-size="11">',
             f'<title>{html.escape(title)}</title>',
             '<defs><pattern id="fails" width="6" height="6" patternUnits="userSpaceOnUse" '
             f'patternTransform="rotate(45)"><rect width="6" height="6" fill="{COLOURS["partitioned"]}"/>'
             f'<rect width="3" height="6" fill="{COLOURS["fail"]}"/></pattern></defs>',
             f'<rect width="{width}" height="{height}" fill="white"/>',
             f'<text x="8" y="20" font-size="14" font-weight="bold">{html.escape(title)}</text>']
    parts += _labels()
    for at, (column, x) in enumerate(zip(shown, xs)):
        parts += _column(column, x, xs[at + 1] - x, held)
    return '\n'.join(parts + _legend(height) + ['</svg>', ''])


def _width(column):
    return WIDE if column.seen.answer.word in ('rep', 'jam', 'nil') else NARROW


def _row_y(place):
    """The top of a port's lane, of a change register's row, or of the rows 'C' and 'record'."""
    if place in PORTS:
        return HEAD + LANE * PORTS.index(place)
    rows = list(CHANGES) + ['C', 'record']
    return HEAD + LANE * len(PORTS) + 6 + ROW * rows.index(place)


def _labels():
    names = {**{port: port for port in PORTS}, **{r: name for r, name in CHANGES.items()}, 'C': 'C read', 'record': 'refused, reset'}
    parts = []
    for place, name in names.items():
        middle = _row_y(place) + (LANE if place in PORTS else ROW) / 2 + 4
        parts.append(f'<text x="{GUTTER - 8}" y="{middle:g}" text-anchor="end">{html.escape(name)}</text>')
    return parts


def _column(column, x, width, held):
    seen = column.seen
    label = str(column.first) if column.first == column.last else f'{column.first}-{column.last}'
    short = text.described(seen.piece)
    short = short if len(short) <= 24 else short[:23] + '…'
    parts = [f'<g class="column" data-record="{column.first}" data-last="{column.last}">'
             f'<title>{html.escape(label + " " + column.words)}</title>']
    for port in PORTS:
        parts.append(_background(port, seen, x, width))
    for register in CHANGES:
        value = held[column.last][register]
        if value:
            parts.append(f'<rect x="{x}" y="{_row_y(register) + 4}" width="{width}" height="{ROW - 8}" '
                         f'fill="{COLOURS["bits"]}" opacity="0.45" class="held" data-register="{register}" data-value="{value:02x}"/>')
    middle = x + width / 2
    parts.append(f'<text transform="translate({middle + 4:g},{HEAD - 6}) rotate(-90)" font-size="10">'
                 f'<tspan font-weight="bold">{label}</tspan> {html.escape(short)}</text>')
    parts.append(f'<line x1="{x}" x2="{x}" y1="{HEAD}" y2="{_row_y("record") + ROW}" stroke="#ccc" stroke-width="0.5"/>')
    parts += [_mark(event, column, x, width) for event in events(seen)]
    return parts + ['</g>']


def _background(port, seen, x, width):
    bit, after = 1 << PORTS.index(port), seen.after
    partitioned, fails = not after.connected & bit, port != 'AUI' and not after.passing & bit
    state = ('disabled' if not after.enabled & bit else 'partitioned, link fails' if partitioned and fails else
             'partitioned' if partitioned else 'fail' if fails else 'pass')
    fill = 'url(#fails)' if state == 'partitioned, link fails' else COLOURS[state]
    return (f'<rect x="{x}" y="{_row_y(port) + 2}" width="{width}" height="{LANE - 4}" fill="{fill}" class="state" '
            f'data-port="{port}" data-state="{state}"/>')


# letter, colour, and where in its cell: a command can move the switch, the partition and the link at once
LETTERS = {'partition': ('P', 'partition', 0.25, 25), 'reconnect': ('R', 'reconnect', 0.25, 25),
           'link-pass': ('+', 'reconnect', 0.8, 25), 'link-fail': ('−', 'jam', 0.8, 25),
           'disable': ('off', 'jam', 0.5, 11), 'enable': ('on', 'reconnect', 0.5, 11)}


def _mark(event, column, x, width):
    """One event. In and out of a port stand left and right, letters for its state below them."""
    y, where = _row_y(event.place), 'port' if event.place in PORTS else 'register'
    last = f' data-last="{column.last}"' if column.last != column.first else ''
    head = (f'<g class="event" data-event="{event.name}" data-record="{event.record}"{last} '
            f'data-{where}="{event.place}"' + (f' data-value="{event.value}"' if event.value else '') + '>')
    return head + _shape(event, x, y, width) + '</g>'


def _shape(event, x, y, width):
    left, right, middle = x + width * 0.28, x + width * 0.72, x + width / 2
    if event.name in ('heard', 'collision', 'active'):
        colour = COLOURS['jam' if event.name == 'collision' else 'data']
        fill = 'white' if event.name == 'active' else colour
        return f'<circle cx="{left:g}" cy="{y + 10}" r="4" fill="{fill}" stroke="{colour}"/>'
    if event.name in ('data', 'jam'):
        return f'<path d="M{right - 4:g},{y + 6} l8,4 l-8,4 z" fill="{COLOURS[event.name]}"/>'
    if event.name in LETTERS:
        letter, colour, part, down = LETTERS[event.name]
        return (f'<text x="{x + width * part:g}" y="{y + down}" text-anchor="middle" font-size="{8 if len(letter) > 1 else 12}" '
                f'font-weight="bold" fill="{COLOURS[colour]}">{letter}</text>')
    if event.name == 'set':
        return f'<path d="M{middle:g},{y + 3} l4,7 l-8,0 z" fill="{COLOURS["bits"]}"/>'
    words = event.value or event.name
    colour = COLOURS['jam'] if event.name == 'refused' or (event.place == 'C' and words >= '80') else '#222'
    size = 9 if len(words) < 3 else 6
    return f'<text x="{middle:g}" y="{y + 14}" text-anchor="middle" font-size="{size}" fill="{colour}">{words}</text>'


def _legend(height):
    """What the marks mean, at the foot."""
    y, x, parts = height - LEGEND, 8, []
    for fill, words in ((COLOURS['pass'], 'link passes, connected'), (COLOURS['fail'], 'link fails'),
                        (COLOURS['partitioned'], 'partitioned'), ('url(#fails)', 'both'), (COLOURS['disabled'], 'disabled')):
        parts.append(f'<rect x="{x}" y="{y}" width="14" height="12" fill="{fill}" stroke="#999"/>'
                     f'<text x="{x + 19}" y="{y + 10}">{words}</text>')
        x += 34 + 6 * len(words)
    parts.append(f'<text x="{x}" y="{y + 10}">(each column shows the state after its record)</text>')
    parts.append(f'<text x="8" y="{y + 28}">left: ● blue heard, red collision, hollow active and not heard. '
                 'right: ▶ blue data sent, red jam sent. P partitioned, R connected again, + link passes, − link fails.</text>')
    parts.append(f'<text x="8" y="{y + 44}">beneath: ▲ a change bit set by this record, bar while it stands in P 1, '
                 'number what a read of it gave (and cleared). A column with two numbers stands for equal records.</text>')
    return parts


def page(seens, title, first=1, last=None):
    """The picture in an HTML page, with the explanation of its records beneath."""
    seens = list(seens)
    drawn = svg(seens, title, first, last)
    rows = '\n'.join(html.escape(f'{c.first if c.first == c.last else f"{c.first}-{c.last}"} {c.words}')
                     for c in columns(seens, first, last))
    return (f'<!DOCTYPE html>\n<html lang="en"><head><meta charset="utf-8"><title>{html.escape(title)}</title></head>\n'
            f'<body><div style="overflow-x:auto">{drawn}</div>\n<pre>{rows}</pre></body></html>\n')
