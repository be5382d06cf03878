#!/usr/bin/env python3
"""Runs the program on files that were made to cost it time or memory, and says what each of them cost.

usage: bench/hostile.py [PROGRAM]

Each file is written into a temporary folder, and the program replays it: a network alone or with its plan, or a plan for a
small network with a signal. The heaviest networks are traced too, into a file of that folder. A line tells the status, the
printed lines, the instructions in millions and the peak memory of the process. A file passes where the program ends within
MILLIONS and KILOBYTES (WIDE_KILOBYTES for those in WIDE) with a status from 0 to 8 and a line of the formats, and where the
table names the answer, with this one. The last line counts.

The memory is that of a plain run, which is ended after a hundred seconds of work and then not counted. The instructions are those of
a second run, under `valgrind --tool=callgrind`: the program's own, and not what the system does for it. So what else the
machine does decides nothing. All of it takes about two minutes. The program is the built one (run ./planner first) or
the one that is named.
"""
import math
import pathlib
import re
import sys
import tempfile

import measure

LONGEST = 1_048_576
MILLIONS = 2_200  # of instructions: about twice what the worst file takes, one of nothing but small tables
KILOBYTES, WIDE_KILOBYTES = 65_536, 262_144  # of peak memory; the wide ones are those of WIDE, below
LINES = re.compile(r'delay \d+\nleft \d+\n|words\n|network (long|toml|format|(key|range) [a-z]+( \d+)+|name [a-z]+( \d+)+'
                   r'|(unknown(link|signal|phase)|outboth|itself|twiceturn|fed|openmerge|initial|cells|demand|phase)( [a-z0-9]+)+)\n'
                   r'|plan (long|(form|signal|missing) \d+|run \d+ (start|order|green|short|surplus))\n|read fault\n|want of memory\n')

LINK = '[[link]]\nname = "a"\ncap = 1\nstore = 1\n'
HEAD = 'format = 1\nsteps = 240\n'
SMALL = HEAD + LINK + '''signal = "s"
greens = ["a"]
[[signal]]
name = "s"
[[signal.phase]]
name = "a"
min = 1
max = 60
next = ["b"]
[[signal.phase]]
name = "b"
min = 1
max = 60
next = ["a"]
'''


def filled(head, item, tail=''):
    """As many items between head and tail as a file may hold."""
    return head + item * ((LONGEST - len(head) - len(tail)) // len(item)) + tail


def numbered(head, form, count):
    """`form` for each number, cut at a whole line where the file would become too long."""
    text = head + ''.join(form % k for k in range(count))
    return text if len(text) <= LONGEST else text[:text.rindex('\n', 0, LONGEST) + 1]


def links(count, keys):
    return HEAD + ''.join('[[link]]\nname = "l%d"\ncap = 10\nstore = 40\n%s' % (k, keys(k)) for k in range(count))


def signals(count, phases):
    """Signals that may go from each phase to each other one at every step."""
    text = ''
    for s in range(count):
        text += '[[signal]]\nname = "s%d"\n' % s
        for p in range(phases):
            others = ', '.join('"p%d"' % q for q in range(phases) if q != p)
            text += '[[signal.phase]]\nname = "p%d"\nmin = 1\nmax = 1\nnext = [%s]\n' % (p, others)
    return text


def plan_of(count, phases):
    runs = ''.join('p%d 1\n' % (t % phases) for t in range(240))
    return 'ctm-plan 1\n' + ''.join('signal s%d\n%s' % (s, runs) for s in range(count)) + 'end\n'


DEMAND = 'demand = [%s]\nrates = [%s]\n' % (', '.join(['{ from = 0, until = 240, rate = 1 }'] * 240), ', '.join(['1'] * 240))


def ring(gates):
    """64 links, each of which leads into the next four."""
    def keys(k):
        turns = ', '.join('{ link = "l%d", parcel = 1 }' % ((k + j) % 64) for j in range(1, 5))
        return 'initial = [40]\nturns = [%s]\n' % turns + ('signal = "s0"\ngreens = ["p%d"]\n' % (k % 4) if gates else '')
    return links(64, keys) + (signals(1, 4) if gates else '')


def most_demand():
    """64 links of three cells and a queue with all the demand that a link may have, gated by 16 signals."""
    return links(64, lambda k: 'cells = 3\nsignal = "s%d"\ngreens = ["p%d"]\n' % (k // 4, k % 8) + DEMAND) + signals(16, 8)


def most_turns():
    """32 links with all demand, which lead into four of 32 others each, at merges of four."""
    def keys(k):
        if k >= 32:
            return 'cells = 4\nwave = [1, 3]\n'
        turns = ', '.join('{ link = "l%d", parcel = %d }' % (32 + k // 4 * 4 + j, j + 1) for j in range(4))
        return 'cells = 3\nwave = [1, 3]\nturns = [%s]\nsignal = "s%d"\ngreens = ["p%d", "p%d"]\n' % (turns, k // 4, k % 4, k % 4 + 4) + DEMAND
    return links(64, keys) + signals(16, 8)


# What is tried: a name, a network, a plan or None, and the answer, or None where it is not known for sure. The files in WIDE have
# a limit of their own, since each is made of some hundred thousand tables of one key, and the library `toml` takes a kilobyte or
# a little more for such a table, in proportion to the file, and as much where it refuses the document at its end.

WIDE = {'network: many small tables in line', 'network: many small headers', 'network: many small tables by dots'}


def networks():
    half = LONGEST // 2 - 10
    yield 'nested arrays', 'x = ' + '[' * half + ']' * half, None, 'network toml'
    yield 'nested arrays without an end', filled('x = ', '['), None, 'network toml'
    yield 'nested inline tables', filled('x = ', '{a='), None, 'network toml'
    yield 'a dotted key of a megabyte', filled('a', '.a', ' = 1\n'), None, None
    yield 'a dotted header of a megabyte', filled('[a', '.a', ']\n'), None, None
    yield 'many keys at the top', numbered(HEAD, 'k%d=1\n', 100_000), None, 'network key top 3'
    yield 'many keys at the top of a network', numbered(HEAD, 'k%d=1\n', 90_000) + LINK, None, 'network key top 0'
    yield 'many keys in a link', numbered(HEAD + LINK, 'k%d=1\n', 100_000), None, 'network key link 0 0'
    yield 'many keys in a phase', numbered(SMALL, 'k%d=1\n', 100_000), None, 'network key phase 0 1 0'
    yield 'many dotted keys', numbered(HEAD + LINK, 'a.b%d=1\n', 100_000), None, 'network key link 0 0'
    yield 'one header many times', HEAD + '[a.b]\n' * 100_000, None, 'network toml'
    yield 'many headers', numbered(HEAD, '[a.b%d]\n', 100_000), None, 'network key top 3'
    yield 'many empty links', HEAD + '[[link]]\n' * 100_000, None, 'network key link 0 1'
    yield 'many links', numbered(HEAD, '[[link]]\nname="l%d"\ncap=1\nstore=1\n', 28_000), None, 'network range top 3'
    yield 'many phases', filled(SMALL, '[[signal.phase]]\n'), None, 'network key phase 0 2 1'
    yield 'many signals', filled(SMALL, '[[signal]]\n'), None, 'network key signal 1 1'
    yield 'many empty tables in line', HEAD + 'link = [' + '{}, ' * 125_000 + ']\n', None, 'network key link 0 1'
    yield 'many small tables in line', filled(HEAD + LINK + 'turns = [', '{a=1},', ']\n'), None, 'network key turn 0 0 1'
    yield 'many small arrays', filled(HEAD + LINK + 'initial = [', '[1],', ']\n'), None, 'network key link 0 10'
    yield 'many small headers', numbered(HEAD + LINK, '[%x]\na=1\n', 120_000), None, 'network key top 0'
    yield 'many small tables by dots', numbered(HEAD + LINK, '%x.a=1\n', 110_000), None, 'network key link 0 0'
    yield 'many rates', filled(HEAD + LINK + 'rates = [', '0,', ']\n'), None, 'network range link 0 12'
    yield 'many initial numbers', filled(HEAD + LINK + 'initial = [', '0,', ']\n'), None, 'network range link 0 10'
    yield 'many greens', filled(HEAD + LINK + 'signal = "s"\ngreens = [', '"",', ']\n'), None, 'network range link 0 9'
    yield 'many turns', filled(HEAD + LINK + 'turns = [', '{},', ']\n'), None, 'network key turn 0 0 1'
    yield 'many whole turns', filled(HEAD + LINK + 'turns = [', '{link="b",parcel=1},', ']\n'), None, 'network range link 0 7'
    yield 'many pieces', filled(HEAD + LINK + 'demand = [', '{},', ']\n'), None, 'network key piece 0 0 1'
    yield 'many whole pieces', filled(HEAD + LINK + 'demand = [', '{from=0,until=1,rate=1},', ']\n'), None, 'network range link 0 11'
    yield 'many that may follow', filled(SMALL[:-5], '"a",', ']\n'), None, 'network range phase 0 1 5'
    yield 'a name of a megabyte', filled(HEAD + '[[link]]\ncap = 1\nstore = 1\nname = "', 'a', '"\n'), None, 'network range link 0 1'
    yield 'a name of escapes', filled(HEAD + '[[link]]\ncap = 1\nstore = 1\nname = "', '\\u0061', '"\n'), None, 'network range link 0 1'
    yield 'a key of a megabyte', filled(HEAD + LINK, 'a', ' = 1\n'), None, 'network key link 0 0'
    yield 'a link to a name of a megabyte', filled(HEAD + LINK + 'to = "', 'a', '"\n'), None, 'network unknownlink 0 0'
    yield 'a number of a megabyte', filled(HEAD + '[[link]]\nname = "a"\nstore = 1\ncap = ', '9', '\n'), None, None
    yield 'a fraction of a megabyte', filled(HEAD + '[[link]]\nname = "a"\nstore = 1\ncap = 1.', '9', '\n'), None, None
    yield 'zeros before a number', filled(HEAD + '[[link]]\nname = "a"\nstore = 1\ncap = ', '0', '1\n'), None, 'network toml'
    yield 'line feeds', filled('', '\n'), None, 'network format'
    yield 'a comment of a megabyte', filled(HEAD + LINK + '#', ' '), None, 'delay 0'
    yield '65 links', links(65, lambda k: ''), None, 'network range top 3'
    yield '64 links that lead into one another', ring(False), None, 'network openmerge 0'
    yield '64 links that lead into one another, gated', ring(True), plan_of(1, 4), None
    yield '64 links of 256 cells', links(64, lambda k: 'cells = 256\n'), None, 'network cells 16384'
    yield 'bytes that are no UTF-8', b'\xff' * LONGEST, None, 'network toml'
    yield 'a last byte that is no UTF-8', filled(HEAD + LINK + '#', ' ')[:-1].encode() + b'\xff', None, 'network toml'
    yield '1,048,576 bytes', filled(HEAD + LINK, '\n'), None, 'delay 0'
    yield '1,048,577 bytes', filled(HEAD + LINK, '\n') + '\n', None, 'network long'
    yield 'a file of 64 MB', ' ' * (64 * LONGEST), None, 'network long'
    yield 'the most demand', most_demand(), plan_of(16, 8), None
    yield 'the most turns and merges', most_turns(), plan_of(16, 8), None
    yield 'the most demand without its plan', most_demand(), None, 'plan missing 0'


def plans():
    head = 'ctm-plan 1\nsignal s\n'
    yield 'one line of a megabyte', filled('', 'a'), 'plan form 1'
    yield 'a second line of a megabyte', filled('ctm-plan 1\n', 'a', '\n'), 'plan form 2'
    yield 'a line of spaces', filled(head + 'a ', ' ', '1\n'), 'plan form 3'
    yield 'line feeds', '\n' * 500_000, 'plan form 1'
    yield 'line feeds behind the first line', 'ctm-plan 1\n' + '\n' * 500_000, 'plan form 2'
    yield 'signal lines', 'ctm-plan 1\n' + 'signal s\n' * 100_000, 'plan run 3 short'
    yield 'run lines', head + 'a 1\n' * 100_000, 'plan run 4 order'
    yield 'run lines in order', head + 'a 1\nb 1\n' * 100_000, 'plan run 243 surplus'
    yield 'run lines behind a whole block', head + 'a 60\nb 60\n' * 2 + 'a 1\n' * 100_000, 'plan run 7 surplus'
    yield 'run lines of no green', head + 'a 0\n' * 200_000, 'plan run 3 green'
    yield 'end lines', 'end\n' * 250_000, 'plan form 1'
    yield 'end lines behind a plan', head + 'a 60\nb 60\n' * 2 + 'end\n' * 250_000, 'plan form 8'
    yield 'bytes that are no UTF-8', b'\xff' * LONGEST, 'plan form 1'
    yield 'a line that is no UTF-8', b'ctm-plan 1\n' + b'\xff' * (LONGEST - 11), 'plan form 2'
    yield 'zero bytes', b'\0' * LONGEST, 'plan form 1'
    yield 'a name of a megabyte', filled('ctm-plan 1\nsignal ', 's', '\n'), 'plan form 2'
    yield 'a phase of a megabyte', filled(head, 'a', ' 1\n'), 'plan form 3'
    yield 'a green of a megabyte', filled(head + 'a ', '1', '\n'), 'plan form 3'
    yield 'a green of zeros', filled(head + 'a ', '0', '\n'), 'plan form 3'
    yield '1,048,576 bytes', filled(head + 'a 60\nb 60\n' * 2 + 'end\n', ' '), 'plan form 8'
    yield '1,048,577 bytes', filled(head + 'a 60\nb 60\n' * 2 + 'end\n', ' ') + ' ', 'plan long'


def traces():
    yield 'the most demand', most_demand(), plan_of(16, 8), None
    yield 'the most turns and merges', most_turns(), plan_of(16, 8), None


def cases():
    """All that is tried, each with the command that it is for."""
    for what, network, plan, want in networks():
        yield 'network: ' + what, 'replay', network, plan, want
    for what, plan, want in plans():
        yield 'plan: ' + what, 'replay', SMALL, plan, want
    for what, network, plan, want in traces():
        yield 'trace: ' + what, 'trace', network, plan, want


def words_of(folder, command, network, plan):
    """Writes the files of a case into the folder: the words that tell the program of them."""
    words = [command]
    for file, text in [(folder / 'net.toml', network), (folder / 'net.plan', plan)]:
        if text is not None:
            file.write_bytes(text if isinstance(text, bytes) else text.encode())
            words.append(file)
    return words + [folder / 'table.csv'] * (command == 'trace')


def main():
    program = measure.program()
    passed = failed = 0
    with tempfile.TemporaryDirectory() as name:
        for what, command, network, plan, want in cases():
            words = [program, *words_of(pathlib.Path(name), command, network, plan)]
            status, printed, memory = measure.run(words)
            is_own = 0 <= status <= 8
            millions = measure.instructions(words, status).total / 1_000_000 if is_own else math.inf
            limit = WIDE_KILOBYTES if what in WIDE else KILOBYTES
            is_line = LINES.fullmatch(printed) is not None and (want is None or printed.startswith(want + '\n'))
            good = is_own and is_line and millions <= MILLIONS and memory <= limit
            passed, failed = passed + good, failed + (not good)
            print('%s%-50s %d  %-28s %6.1f M %6d kB' % ('' if good else 'FAILED ', what, status, printed[:200].strip().replace('\n', ', '), millions, memory))
            if not good and want is not None and not printed.startswith(want + '\n'):
                print('       wanted: %s' % want)
    print('%d passed, %d failed' % (passed, failed))
    sys.exit(1 if failed else 0)


if __name__ == '__main__':
    main()
