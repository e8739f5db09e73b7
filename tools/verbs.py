"""The verbs of ./roverivet. Exit status: 0 fine; 1 a finding; 2 bad usage, input or output; 3 no program."""

import argparse
import itertools
import os
import re
import signal
import sys
from pathlib import Path

import roverivet
import roverivet_version
from roverivet import ATTRIBUTES, Record, SIZE, TICK
from tools import build, check, explain, export, inputs, picture, pump, report, startfile, telling, text, totals, verdict
from tools.inputs import Bad, output, shown
from tools.progress import Progress
from tools.text import TextError

FINE, FINDING, BAD, NO_PROGRAM = range(4)


# ---- asm, dis


def asm(args):
    if args.start:
        blocks = [inputs.start_of(args.trace, True)]
    else:
        one = inputs.trace(args.trace, as_text=True, progress=args.progress)
        blocks = one.blocks()
        args.progress.stage('records', one.count)
    with output(args.output) as out:
        for block in blocks:
            out.write(block)
            args.progress.add(len(block) // SIZE)
    return FINE


def dis(args):
    if args.start:
        lines = startfile.start_text(inputs.start_of(args.trace))
    else:
        lines = text.text_of(counted(inputs.records(args.trace, args.binary).pieces(), args.progress))
    with output(args.output) as out:
        for line in lines:
            out.write(line.encode() + b'\n')
    return FINE


def counted(pieces, progress):
    """The same pieces, told to whoever watches."""
    progress.stage('records')
    for piece in pieces:
        yield piece
        progress.add()


# ---- run


def run(args):
    one, start = taken(args)
    args.progress.stage('records', one.count)

    def write(block):
        args.progress.write(block)
        args.progress.add(block.count(b'\n'))

    if args.log:
        return logged_run(args, one, start, write)
    pump.run(one, start, write)
    return FINE


def logged_run(args, one, start, write):
    """A run with its place in the log. Nothing is expected of its answers, so it is never green."""
    attempt = check.begun(args.log, args.trace, start, one.digest() if one.is_text else None)

    def take(block):
        write(block)
        attempt.take(b'', [roverivet.answer_of(line) for line in block.decode().splitlines()])

    try:
        pump.run(one, start, take, attempt.digest.update)
    except roverivet.Ended as error:
        attempt.end('red', attempt.records + 1, str(error))
        raise
    attempt.end('answered')
    return FINE


def taken(args, ensure=build.ensure):
    """The trace and what power-up is given, with a program to run them."""
    inputs.limit_taken(args.short_limit)
    one = inputs.trace(args.trace, args.text, args.binary, args.progress)
    start = inputs.start_for(one, args.start, args.short_limit)
    ensure(args.progress)
    return one, start


# ---- check


def check_verb(args):
    check.powered_first(args.files, args.start, args.short_limit, args.log)
    build.ensure(args.progress)
    results = (check.checked(path, args.start, args.refusals_allowed, args.progress, args.log, args.short_limit, len(args.files) > 1)
               for path in args.files)
    say, version = args.progress.print, list(roverivet_version.lines()) if args.tap or args.junit else []
    found = report.tap(results, say, len(args.files), version) if args.tap else report.plain(results, say)
    for result in found:
        if result.bad:
            with args.progress.aside():
                print(f'roverivet: {result.summary}', file=sys.stderr, flush=True)
    if args.junit:
        with output(args.junit) as out:
            out.write(report.junit(found, version).encode())
    if any(result.bad for result in found):
        return BAD
    return FINE if all(result.passed for result in found) else FINDING


def verdict_verb(args):
    return FINE if verdict.told(args.logs, args.since, args.progress.print) else FINDING


# ---- explain, talk


def explain_verb(args):
    one, start = taken(args)
    found = 0
    args.progress.stage('records', one.count)
    seens = args.progress.counted(telling.watched(one.pieces(), start))
    for line, wrong in explain.objects(seens) if args.json else explain.lines(seens):
        args.progress.print(line)
        found += wrong
    return FINDING if found else FINE


def talk(args):
    start = inputs.powered(args.start, args.short_limit)
    build.ensure(args.progress)
    args.progress.stop()  # waiting for a line is no work
    prompt, found, wrong = sys.stdin.isatty(), 0, 0
    if prompt:
        print('One record a line, as: pulse tp0-3 x4; burst tp0 d=1000 n=64; c-read. End with ctrl-D.')
    with telling.chip(start) as chip:
        for number in itertools.count(1):
            line = asked(prompt)
            if not line:
                break
            try:
                made = next(text.bytes_of([line], 'line'), None)
            except TextError as error:
                print(f'roverivet: {number}:{error.column}: {error.reason}', file=sys.stderr, flush=True)
                wrong += 1
                continue
            if made:
                found += answer_line(chip, made.record, made.times)
                if len(made.record) < SIZE:
                    break
    return FINDING if found else BAD if wrong and not prompt else FINE


def asked(prompt):
    """The next line from standard input, empty at its end."""
    if prompt:
        print('> ', end='', flush=True)
    return sys.stdin.buffer.readline()


def answer_line(chip, piece, times):
    found = 0
    with Progress('talk').stage('records', times) as progress:
        for line, wrong in explain.lines(progress.counted(chip.take(piece) for _ in range(times))):
            progress.print(line)
            sys.stdout.flush()
            found += wrong
    return found


# ---- export


def export_verb(args):
    one, start = taken(args, lambda progress: export.usable(progress) or build.ensure(progress))
    args.progress.stage('records', one.count)
    lines, refused = export.exported(one, start, [args.attribute] if args.attribute else ATTRIBUTES, args.progress)
    if refused:
        with args.progress.aside():
            print(f'roverivet: {refused} record{"s" * (refused != 1)} refused', file=sys.stderr, flush=True)
    for line in lines:
        args.progress.print(line)
    return FINE


def attribute(name):
    """The attribute of this name, for the command line."""
    found = [one for one in ATTRIBUTES if one.lower() == name.lower()]
    if not found:
        raise argparse.ArgumentTypeError(f'{name!r} is none of {", ".join(ATTRIBUTES)}')
    return found[0]


# ---- totals


def totals_verb(args):
    number = inputs.opened(args.trace)
    build.need('totals', args.progress)
    args.progress.stage('readings')
    found = totals.summed(args.trace, number, args.progress)
    if found is None:
        with args.progress.aside():
            print(f'roverivet: {inputs.shown(args.trace)}: {totals.DOES_NOT_FIT}', file=sys.stderr, flush=True)
        return FINDING
    args.progress.print(str(found))
    return FINE


# ---- view


def view(args):
    if not args.output.endswith(('.svg', '.html')):
        raise Bad(f'{args.output}: expected a name that ends in .svg or .html')
    if args.first < 1 or (args.last is not None and args.last < args.first):
        raise Bad(f'--from {args.first} --to {args.last}: expected record numbers from 1, the lower first')
    one, start = taken(args)
    args.progress.stage('records', one.count)
    seens = list(args.progress.counted(telling.watched(itertools.islice(one.pieces(), args.last), start)))
    for seen in seens:
        wrong = explain.finding(seen)
        if wrong:
            raise roverivet.Ended(f'record {seen.number} was answered {seen.answer.words}: {wrong}')
    draw = picture.svg if args.output.endswith('.svg') else picture.page
    drawn = draw(seens, Path(shown(args.trace)).name, args.first, args.last)
    with output(args.output) as out:
        out.write(drawn.encode())
    return FINE


def build_verb(args):
    build.ensure(args.progress)
    with roverivet.Running() as program:
        if program.ask(Record(TICK).pack())[0].word != 'ok':
            raise roverivet.Ended('the program refused a tick')
    print('ready: the program answers records')
    return FINE


# ---- the command line


def main(words):
    args = parsed(words)
    try:
        with Progress(args.name) as args.progress:
            status = args.verb(args)
            sys.stdout.flush()
        return status
    except (Bad, TextError, ValueError, check.LogError) as error:
        return complain(error, BAD)
    except roverivet.Refused as error:  # of a power-up: a refused record is an answer
        return complain(f'{error.reason} (refused {error.number})', BAD, args.name)
    except roverivet.Missing as error:
        return complain(error, NO_PROGRAM)
    except roverivet.Ended as error:
        return complain(error, FINDING)
    except KeyboardInterrupt:
        return end_by(signal.SIGINT)
    except BrokenPipeError:
        return end_by(signal.SIGPIPE)
    except OSError as error:
        return complain(f'cannot write: {error.strerror}', BAD)


def parsed(words):
    """The words of the command line, for a verb that is there."""
    top = parser()
    args = top.parse_args(words)
    if args.version:
        args.verb, args.name = version_verb, 'version'
    elif not hasattr(args, 'verb'):
        top.error('expected a verb')
    return args


def version_verb(_):
    for line in roverivet_version.lines():
        print(line)
    return FINE


def complain(error, status, who='roverivet'):
    print(f'{who}: {error}', file=sys.stderr)
    silence()
    return status


def silence():
    """Keeps what is still buffered from failing a second time at exit."""
    os.dup2(os.open(os.devnull, os.O_WRONLY), 1)


def end_by(number):
    """Ends as a program without a handler ends."""
    silence()
    signal.signal(number, signal.SIG_DFL)
    os.kill(os.getpid(), number)
    return BAD


def parser():
    top = argparse.ArgumentParser(
        prog='roverivet', description='The proved model of one IMR+ repeater with its HIMIB, for people.',
        epilog='Exit status: 0 fine; 1 a finding; 2 bad usage, input or output; 3 the program is missing or '
               'cannot be built. The environment variable ROVERIVET_RUN names another program in place of '
               'crates/run/out/run. docs/TUTORIAL.md is the place to start.')
    top.add_argument('--version', action='store_true', help='say which model this is: rules, commit, proofs, toolchain, program')
    verbs = top.add_subparsers(metavar='VERB')

    def verb(name, does, function, trace='TRACE', more=''):
        one = verbs.add_parser(name, help=does, description=does[0].upper() + does[1:] + '.', epilog=more,
                               formatter_class=argparse.RawDescriptionHelpFormatter)
        one.set_defaults(verb=function, name=name)
        if trace:
            one.add_argument('trace', metavar=trace, nargs='?', default='-', help='the file; standard input when none is named')
        return one

    verb('build', 'prove and build the program if that is needed', build_verb, trace=None)
    one = verb('asm', 'turn a text of records into a binary trace', asm, 'TEXT', more=text.__doc__ + startfile.__doc__)
    one.add_argument('-o', '--output', metavar='FILE', default='-', help='where to write; standard output if not named')
    one.add_argument('--start', action='store_true', help='the text is that of a start file')
    one = verb('dis', 'turn a binary trace into text; asm turns it back into the same bytes', dis)
    one.add_argument('-o', '--output', metavar='FILE', default='-', help='where to write; standard output if not named')
    one.add_argument('--start', action='store_true', help='the file is a start file')
    one.add_argument('--binary', action='store_true', help='the file is a trace even if it looks like text')
    one = verb('run', 'run a trace and print its answers; proves and builds the program first if needed', run)
    trace_options(one)
    log_option(one)
    one = verb('check', 'run texts of records and hold their answers to the expected ones', check_verb, trace=None, more=text.__doc__)
    one.add_argument('files', metavar='FILE', nargs='+', help='a text of records with expected answers')
    one.add_argument('--refusals-allowed', action='store_true', help='a record without an expected answer may be refused')
    one.add_argument('--tap', action='store_true', help='print in the Test Anything Protocol')
    one.add_argument('--junit', metavar='FILE', help="write the results as JUnit's XML, too")
    start_option(one)
    log_option(one)
    one = verb('verdict', 'read logs and say of each test whether every attempt was green', verdict_verb, trace=None,
               more=verdict.__doc__)
    one.add_argument('logs', metavar='LOG', nargs='+', help='a log, written by check --log, run --log or a client')
    one.add_argument('--since', metavar='POINT', help='a commit or a time, as 2026-11-15 or 2026-11-15T20:00: what came before does not count')
    one = verb('explain', 'run a trace and tell each record beside its answer, in words', explain_verb)
    one.add_argument('--json', action='store_true', help='print a JSON object for each record instead')
    trace_options(one)
    one = verb('export', 'run a trace and print the counters that it leaves, as CSV', export_verb)
    one.add_argument('--attribute', metavar='NAME', type=attribute, help="one attribute by its name, as 'Readable Octets'; all thirteen if not named")
    trace_options(one)
    verb('totals', 'add up the differences of readings of one counter, each later minus earlier modulo 2^32', totals_verb, 'FILE',
         more=totals.__doc__)
    one = verb('view', 'draw a run: a lane for each port, the change bits and their reads beneath', view)
    one.add_argument('-o', '--output', metavar='FILE', required=True, help='the picture, FILE.svg or FILE.html')
    one.add_argument('--from', dest='first', metavar='N', type=int, default=1, help='the first record to show')
    one.add_argument('--to', dest='last', metavar='N', type=int, help='the last record to show')
    trace_options(one)
    one = verb('talk', 'keep the chip running and answer line by line', talk, trace=None)
    start_option(one)
    return top


def trace_options(one):
    start_option(one)
    form = one.add_mutually_exclusive_group()
    form.add_argument('--text', action='store_true', help='the trace is text, whatever its first bytes look like')
    form.add_argument('--binary', action='store_true', help='the trace is records, whatever its first bytes look like')


def log_option(one):
    one.add_argument('--log', metavar='FILE', help='append what was done to this log')


def start_option(one):
    one.add_argument('--start', metavar='FILE', help='counters, addresses and perhaps the short event limit at power-up: 530 or 535 bytes, or text')
    one.add_argument('--short-limit', metavar='N', type=digits, help='the short event limit at power-up, 75 to 81; 78 if it is named nowhere')


def digits(word):
    """A decimal number of any size for the command line. What is no short event limit is refused with 13, and no bad usage."""
    if not re.fullmatch(r'[0-9]+', word):
        raise argparse.ArgumentTypeError(f'expected a decimal number, found {text._shown(word)}')
    return word
