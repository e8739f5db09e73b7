"""Each record beside its answer, in words. What is said of a burst comes from the program (tools/watch.py)."""

import functools
import json

import roverivet
from roverivet import (BURST, C_READ, C_WRITE, CHANGES, COMMANDS, D_READ, D_WRITE, REGISTERS, RESET,
                       TP_CHANGES, ports_of)
from tools import text

KEPT = 1 << 16  # words that are kept at most
NUMBERS = ('none', 'one', 'two', 'three', 'four', 'five', 'six', 'seven', 'eight', 'nine')
HEARD = set(roverivet.ATTRIBUTES) - {'Auto Partitions'}


_refusal = functools.lru_cache(4096)(roverivet.refusal)
_kept = {}


def finding(seen):
    """What is wrong with an answer, going by document 01's refusals and words, or nothing."""
    due = _refusal(seen.piece, seen.selected)
    if due and (seen.answer.word, seen.answer.value) != ('ref', due[0]):
        return f'document 01 refuses this with {due[0]}: {due[1]}'
    if not due and (seen.answer.word == 'ref' or roverivet.impossible(seen.piece, seen.answer)):
        return f'document 01 accepts this and answers {" or ".join(roverivet.ANSWERS[seen.record.kind][0])}'
    return ''


def told(seen):
    """The words for one record, without its number."""
    wrong, answer = finding(seen), seen.answer
    if wrong:
        return f'{text.described(seen.piece)}: answered {answer.word} {answer.value:x}; FINDING: {wrong}'
    if answer.word == 'ref':
        return f'refused {answer.value}: {_refusal(seen.piece, seen.selected)[1]}'
    return text.described(seen.piece) + ': ' + '; '.join([_answer(seen)] + _states(seen))


def words(seen):
    """The same, kept where the record has a key."""
    key = seen.key
    found = _kept.get(key)
    if found is None:
        found = told(seen)
        if key is not None:
            if len(_kept) == KEPT:
                _kept.clear()
            _kept[key] = found
    return found


def _answer(seen):
    kind = seen.record.kind
    if kind == BURST:
        return _burst(seen)
    if kind == C_WRITE:
        return _selection(seen)
    if kind == D_WRITE:
        return _written(seen)
    if kind == C_READ:
        return _status(seen.answer.value)
    if kind == D_READ:
        return _read(seen)
    return 'reset' if kind == RESET else 'ok'


def heard(seen):
    """The ports that a burst was heard on: those that it credited with a class or a collision."""
    return [port for port, raised in seen.credits.items() if HEARD & set(raised)]


def _burst(seen):
    outputs = ' '.join(seen.answer.outputs) or 'nobody'
    goes = {'rep': f'data to {outputs}', 'jam': f'jam to {outputs}', 'nil': 'nothing goes out'}[seen.answer.word]
    count = len(heard(seen))
    parts = [f'{NUMBERS[count]} heard{f" ({heard(seen)[0]})" if count == 1 else ""}, {goes}']
    raised = {}
    for port, names in seen.credits.items():
        for name in names:
            raised.setdefault(name, []).append(port)
    parts += [f'{name} +1 {" ".join(ports)}' for name, ports in raised.items()]
    return '; '.join(parts + ['Transmit Collisions +1'] * seen.transmit_collision)


def _states(seen):
    """What changed in the ports."""
    before, after, words = seen.before, seen.after, []
    for was, now, gained, lost in ((before.connected, after.connected, 'now connected', 'now partitioned'),
                                   (before.passing, after.passing, 'link passes', 'link fails'),
                                   (before.enabled, after.enabled, 'now enabled', 'now disabled')):
        words += [f'{name}: {" ".join(ports_of(mask))}' for mask, name in ((now & ~was, gained), (was & ~now, lost)) if mask]
    return words


def _selection(seen):
    bank, register = seen.selected
    chosen = seen.record.byte & 31
    bank, register = (bank, chosen) if seen.record.byte >> 5 else (chosen, register)
    listed = REGISTERS.get((bank, register))
    return f'selects {listed.name if listed else "no listed register"} (P {bank} R {register})'


def _written(seen):
    register = REGISTERS[seen.selected]
    if seen.selected in (roverivet.S, roverivet.G):
        sort, words = COMMANDS[seen.record.byte]
        astray = (sort == 'get') == (seen.selected == roverivet.S)
        return f'{sort.capitalize()}: {words}' + (f', through {register.name}: interface error' if astray else '')
    if register.size > 1:
        return f'byte {seen.place} of {register.size} of {register.name}' + ', which takes effect' * (seen.place == register.size)
    return f'{register.name} = {seen.record.byte:02x}'


def _status(value):
    return f'{value:02x}, ' + (' and '.join(['interrupt'] * (value >> 7) + ['interface error'] * (value >> 6 & 1)) or
                               'no interrupt, no error')


def _read(seen):
    register, value = REGISTERS[seen.selected], seen.answer.value
    if register.size > 1:
        return f'{value:02x}, byte {seen.place} of {register.size} of {register.name}'
    if seen.selected[0] == 1:
        return f'{value:02x}, {changes_in(seen.selected[1], value) or "no " + register.name}' + ', cleared now' * (value > 0)
    if seen.selected == roverivet.G:
        return f'{value:02x}, {_got(seen.got, value)}'
    return f'{value:02x}, {register.name}'


def _got(command, value):
    """What G holds, in words."""
    if command in (0x89, 0x8B, 0x8D, 0x8F):
        bits = [word for bit, word in ((6, 'rate error'), (5, 'SQE Test'), (4, 'loopback error')) if value >> bit & 1]
        return ', '.join(['AUI ' + ('connected' if value >> 7 else 'partitioned')] + bits)
    masks = {0x80: (~value & 0xFF, 'partitioned'), 0xD0: (value, 'link passes'), 0xA0: (value, 'rate error')}
    if command in masks:
        mask, words = masks[command]
        return f'{" ".join(ports_of(mask)) or "no TP port"} {words}'
    return {0xF0: 'MJLP' if value else 'no MJLP', 0xFF: 'version'}.get(command, 'G, with no Get since the reset')


def changes_in(register, value):
    """The change bits of a byte of P 1 in words, or nothing."""
    ports = ports_of(value) if register in TP_CHANGES else ()
    return f'{CHANGES[register]} change{"".join(" " + port for port in ports)}' if value else ''


def lines(seens):
    """The explanation, equal neighbours on one line. Yields (line, whether it has a finding)."""
    first = last = piece = said = None
    for seen in seens:
        now = words(seen)
        if now == said and seen.piece == piece:
            last = seen.number
            continue
        if first:
            yield f'{first} {said}' if first == last else f'{first}-{last} {said}', 'FINDING' in said
        first = last = seen.number
        piece, said = seen.piece, now
    if first:
        yield f'{first} {said}' if first == last else f'{first}-{last} {said}', 'FINDING' in said


def objects(seens):
    """A JSON object for each record. Yields (object, whether it has a finding)."""
    for seen in seens:
        yield as_json(seen), bool(finding(seen))


def as_json(seen):
    """One record as a JSON object: the answer, P and R as it met them, and what it left, with ports by their names."""
    answer, left, wrong = seen.answer, seen.after, finding(seen)
    return json.dumps({
        'number': seen.number, 'record': text.described(seen.piece), 'answer': answer.word, 'value': answer.value,
        'page': seen.selected[0], 'register': seen.selected[1],
        'enabled': ports_of(left.enabled), 'passing': ports_of(left.passing), 'partitioned': ports_of(~left.connected & 0x1FF),
        'changes': {CHANGES[register]: bits for register, bits in seen.changed.items()},
        'credits': seen.credits, 'transmit collision': bool(seen.transmit_collision), 'finding': wrong or None})
