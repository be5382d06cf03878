#!/usr/bin/env python3
"""Says in sentences what ended a run of the program, or what an accepted network has that may not be meant. Nothing of it is proved.

usage: tools/sentences.py PROGRAM STATUS WORDS..   (Python 3.11, for tomllib)

./planner calls it when the program has ended, with the status and the words of that run, and puts what it prints on standard
error. What the program printed went where it goes, so for the statuses 3 and 4 the line is asked for once more, by a `replay` of the same
files, and for status 1 by the `check` of the same certificate or the `point` of the same list: none writes a file. Of every other status
the words and the files tell enough. A line begins with the file, and the line in it where there is one.
"""
import os
import re
import stat
import subprocess
import sys

try:
    import tomllib
except ImportError:  # an older Python: no sentences
    sys.exit(0)

import cautions
import certificate_sentences
import compile
import judge
import network_sentences
import plan_sentences
import point_sentences
from named_network import NamedNetwork, Remark, meant, told

FORMS = ['solve NET BUDGET PLANOUT CERTOUT', 'replay NET', 'replay NET PLAN', 'trace NET PLAN OUT', 'program NET OUT',
         'encode NET PLAN OUT', 'point NET POINT', 'check NET CERT', 'gap NET PLAN CERT', 'demo NUMBER']
INPUTS = ['NET', 'PLAN', 'CERT', 'POINT']
OUTPUTS = ['OUT', 'PLANOUT', 'CERTOUT']
NUMBERS = {'BUDGET': (1, 2 ** 32 - 1), 'NUMBER': (0, 9999)}  # the least and the greatest of each
MOST_WORK = 8_000_000  # the most that a budget times the rows of a program may be
SECONDS = 120


def form_of(words):
    """The form of words, as a list of what each word stands for, or None."""
    return next((form.split() for form in FORMS if form.split()[:1] == words[:1] and len(form.split()) == len(words)), None)


def front_of_file(name, most=judge.LONGEST):
    """The bytes of a file, or one more than the most."""
    with open(name, 'rb') as file:
        return file.read(most + 1)


def line_of(program, words):
    """The lines that the program prints for words that write no file."""
    done = subprocess.run([program, *words], stdin=subprocess.DEVNULL, stdout=subprocess.PIPE, stderr=subprocess.DEVNULL, timeout=SECONDS)
    return done.stdout.decode()


# What is said of each status.

def of_accepted(_, named):
    network = NamedNetwork(front_of_file(named['NET']))
    return [told(named['NET'], Remark(remark.line, 'warning: ' + remark.text)) for remark in cautions.remarks_on(network)]


def of_certificate(program, named):
    printed = line_of(program, ['check', named['NET'], named['CERT']])
    return [told(named['CERT'], certificate_sentences.remark_of(printed, named['CERT']))]


def of_point(program, named):
    printed = line_of(program, ['point', named['NET'], named['POINT']])
    net = judge.judge_network(front_of_file(named['NET']))
    return [told(named['POINT'], point_sentences.remark_of(printed, net, named['POINT']))]


def of_rejected(program, named):
    return (of_point if 'POINT' in named else of_certificate)(program, named)


def of_words(_, words):
    why = fault_of_words(words)
    return [why + ('' if why.endswith('?') else '.') + ' The forms are:', *('    ./planner ' + form for form in FORMS)]


def is_number(word, least, most):
    return re.fullmatch('0|[1-9][0-9]*', word, re.A) and least <= int(word[:12]) <= most


def fault_of_words(words):
    """Why words are of no form."""
    if not words:
        return 'no command is named'
    if any(word != word.encode(errors='replace').decode() for word in words):
        return 'a word is not UTF-8'
    commands = list(dict.fromkeys(form.split()[0] for form in FORMS))
    if words[0] not in commands:
        return 'there is no command `%s`%s' % (words[0], meant(words[0].lower(), commands))
    form = form_of(words)
    if form is None:
        lengths = [len(form.split()) - 1 for form in FORMS if form.split()[0] == words[0]]
        taken = '1 word' if lengths == [1] else ' or '.join(map(str, lengths)) + ' words'
        return '`%s` takes %s behind it, and here are %d' % (words[0], taken, len(words) - 1)
    for role, word in zip(form[1:], words[1:]):
        if not word:
            return 'the word for %s is empty' % role
        if role in NUMBERS and not is_number(word, *NUMBERS[role]):
            return '`%s` is no %s: that is a number from %d to %d, of digits alone and without a zero in front' % (word, role, *NUMBERS[role])
    names = [(role, word) for role, word in zip(form[1:], words[1:]) if role not in NUMBERS]
    for place, (role, word) in enumerate(names):
        for earlier, other in names[:place]:
            if word == other:
                return '%s and %s are the same file, `%s`' % (earlier, role, word)
    return 'the words are of no form'


def of_network(program, named):
    printed = line_of(program, ['replay', named['NET']])
    remark = network_sentences.remark_of(printed, front_of_file(named['NET']))
    return [told(named['NET'], remark)] if remark else []


def of_plan(program, named):
    """A plan that is refused, or that no word names."""
    net = tomllib.loads(front_of_file(named['NET']).decode())
    name = named.get('PLAN')
    printed = line_of(program, ['replay', named['NET'], *([] if name is None else [name])])
    remark = plan_sentences.remark_of(printed, net, None if name is None else front_of_file(name))
    return [told(named['NET'] if name is None else name, remark)] if remark else []


def of_size(_, named):
    rows = compile.Shape(judge.judge_network(front_of_file(named['NET']))).row_count()
    text = 'its program has %d rows' % rows
    if rows > compile.MOST_ROWS:
        text += ', and at most %d are held; fewer steps, or fewer cells, make it smaller' % compile.MOST_ROWS
    else:
        text += ', so the greatest budget is %d: budget times rows is at most %d' % (MOST_WORK // rows, MOST_WORK)
    return [told(named['NET'], Remark(None, text))]


def of_read(_, named):
    for role in INPUTS:
        why = named.get(role) and fault_of_input(named[role])
        if why:
            return [told(named[role], Remark(None, why))]
    return []


def fault_of_input(name):
    """Why a file cannot be read, or None where it can."""
    try:
        mode = os.stat(name).st_mode
        if stat.S_ISDIR(mode):
            return 'this is a folder, and a file is wanted'
        if stat.S_ISFIFO(mode) or stat.S_ISSOCK(mode):
            return 'this is a pipe, and the program opens a file anew for each piece that it reads; write it to a file first'
        with open(name, 'rb') as file:
            file.seek(0)
            file.read(1)
    except FileNotFoundError:
        return 'there is no such file%s' % like(name)
    except OSError as fault:
        return 'it cannot be read: %s' % (fault.strerror or 'the read failed').lower()
    return None


def like(name):
    """Where a file that is not there may be meant otherwise."""
    folder, base = os.path.split(name)
    try:
        return meant(base, os.listdir(folder or '.'))
    except OSError:
        return ': there is no folder `%s`' % folder


def of_write(_, named):
    for role in OUTPUTS:
        why = named.get(role) and fault_of_output(named[role])
        if why:
            return [told(named[role], Remark(None, why))]
    return ['the output could not be written: it is closed, nobody reads it, or what it goes to is full']


def fault_of_output(name):
    """Why a file cannot be written, or None where it can."""
    folder = os.path.dirname(name) or '.'
    if os.path.isdir(name):
        return 'this is a folder, and a file is to be written'
    if not os.path.isdir(folder):
        return 'it cannot be written: there is no folder `%s`' % folder
    if not os.access(name if os.path.exists(name) else folder, os.W_OK):
        return 'it cannot be written: that is not permitted'
    try:
        is_full = name == '/dev/full' or os.statvfs(folder).f_bavail == 0
    except OSError:
        is_full = False
    return 'it cannot be written to its end: the device is full' if is_full else None


BY_STATUS = {0: of_accepted, 1: of_rejected, 3: of_network, 4: of_plan, 5: of_size, 6: of_read, 7: of_write}


def sentences(program, status, words):
    """What is said of a run with these words that ended with this status, as lines."""
    if status == 2:
        return of_words(program, words)
    form = form_of(words)
    if form is None or status not in BY_STATUS:
        return []
    named = dict(zip(form, words))
    if 'NET' not in named and status != 7:  # `demo` reads no file
        return []
    return BY_STATUS[status](program, named)


def main():
    if len(sys.argv) < 3 or not sys.argv[2].isdecimal():
        sys.exit('usage: tools/sentences.py PROGRAM STATUS WORDS..')
    try:
        lines = sentences(sys.argv[1], int(sys.argv[2]), sys.argv[3:])
    except OSError:  # a file is no longer what it was when the program ran
        lines = []
    for line in lines:
        sys.stdout.buffer.write(('planner: %s\n' % line).encode(errors='backslashreplace'))


if __name__ == '__main__':
    main()
