"""Tries what stands beside the program: the sentences on standard error of ./planner, and the tools of the desk (docs/desk.md).

`checked` gives what was tried with its faults, as examples/run counts them. The sentences are asked for in this process, by the
status and the words of a run of the program; that ./planner hands them on, and changes nothing else, is tried by a few calls of it.
"""
import contextlib
import os
import pathlib
import re
import shutil
import subprocess
import sys
import tempfile

TOP = pathlib.Path(__file__).resolve().parent.parent
EXAMPLES, TOOLS = TOP / 'examples', TOP / 'tools'
SECONDS = 120

sys.path.insert(0, str(TOOLS))
import expected_sentences
import refused_files
import sentences


@contextlib.contextmanager
def folder_with(files, words=()):
    """Runs its body in a folder of its own, with files by their names (None is a folder), and the examples that words name."""
    before = os.getcwd()
    with tempfile.TemporaryDirectory() as name:
        for word in words:
            if (EXAMPLES / word).is_file():
                shutil.copy(EXAMPLES / word, name)
        for file, content in files.items():
            path = pathlib.Path(name, file)
            if content is None:
                path.mkdir()
            else:
                path.write_bytes(content)
        os.chdir(name)
        try:
            yield pathlib.Path(name)
        finally:
            os.chdir(before)


def run(program, words, **options):
    return subprocess.run([program, *words], stdin=subprocess.DEVNULL, capture_output=True, timeout=SECONDS, **options)


def said_faults(program, words, files, status, printed, wanted):
    """What a run, or what is said of it, has otherwise than it has to; `printed` is None where that is tried elsewhere."""
    with folder_with(files, words):
        done = run(program, words)
        said = sentences.sentences(program, done.returncode, words)
    return [fault for fault, holds in [
        ('it ended with %d, not %d' % (done.returncode, status), done.returncode != status),
        ('it printed %r, not %r' % (done.stdout.decode(), printed), printed is not None and done.stdout.decode() != printed),
        ('it was said %r, not %r' % (said, wanted), said != wanted)] if holds]


def page_checks(program):
    """Each row of the refusals of two pages: the printed line, and the sentence."""
    networks = list(refused_files.refused_networks())
    network, plans = refused_files.refused_plans()
    if (len(networks), len(plans)) != (len(expected_sentences.NETWORKS), len(expected_sentences.PLANS)):
        yield 'sentences', ['the pages have %d networks and %d plans, and as many sentences are wanted' % (len(networks), len(plans))]
    for (description, file, line), wanted in zip(networks, expected_sentences.NETWORKS):
        yield 'network-file.md, ' + description, said_faults(program, ['replay', 'net'], {'net': file}, 3, line + '\n', [wanted])
    for (description, file, line), wanted in zip(plans, expected_sentences.PLANS):
        files = {'net': network, 'plan': file}
        yield 'plan-file.md, ' + description, said_faults(program, ['replay', 'net', 'plan'], files, 4, line + '\n', [wanted])


def other_checks(program):
    for wanted, status, words, files in expected_sentences.OTHERS:
        if any(word.startswith('/dev/') and not os.path.exists(word) for word in words):
            continue
        yield 'sentence of ' + ' '.join(words), said_faults(program, words, files, status, None, [wanted])
    forms = ['    ./planner ' + form for form in sentences.FORMS]
    for wanted, words in expected_sentences.WORDS:
        yield 'sentence of the words %s' % words, said_faults(program, words, {}, 2, 'words\n', [wanted + ' The forms are:', *forms])
    odd = {'net': expected_sentences.ODD}
    yield 'warnings', said_faults(program, ['program', 'net', 'out'], odd, 0, None, expected_sentences.ODD_WARNINGS)
    if hasattr(os, 'mkfifo'):
        with folder_with({}):
            os.mkfifo('pipe')
            said = sentences.sentences(program, 6, ['replay', 'pipe'])
        yield 'sentence of a pipe', [] if 'pipe: this is a pipe' in said[0] else ['it was said %r' % said]


# ./planner itself, in a folder that has the built program and the tools.

def planner_checks(program):
    with folder_with({}) as folder:
        out = folder / 'crates/signal_cli/out'
        out.mkdir(parents=True)
        (out / 'signal_cli').symlink_to(program)
        (folder / 'crates.txt').touch()
        os.utime(folder / 'crates.txt', (0, 0))
        shutil.copy(TOP / 'planner', folder)
        (folder / 'tools').symlink_to(TOOLS)
        (folder / 'bin').mkdir()
        for command in ['sh', 'dirname', 'find', 'head']:
            (folder / 'bin' / command).symlink_to(shutil.which(command))
        planner = folder / 'planner'
        off = {**os.environ, 'PLANNER_SENTENCES': 'off'}
        bare = {'PATH': str(folder / 'bin')}
        warned = ['replay', str(EXAMPLES / 'two-links.toml')]
        refused = ['replay', str(EXAMPLES / 'INDEX.md')]
        for words, line in [(warned, b'16: warning: '), (refused, b'INDEX.md:3: column 3: no TOML'), ([], b'no command is named')]:
            plain = run(program, words)
            what = './planner ' + ' '.join(words)
            for how, environment, is_told in [('', os.environ, True), (', turned off', off, False), (', without Python', bare, False)]:
                done = run(planner, words, env=environment)
                yield what + how, [fault for fault, holds in [
                    ('its output or status is another', (done.returncode, done.stdout) != (plain.returncode, plain.stdout)),
                    ('standard error has %r' % done.stderr, (line in done.stderr) != is_told or (done.stderr != b'') != is_told)] if holds]


# The tools.

def tool_faults(words, wanted):
    """What a tool did otherwise than print something that each of the wanted patterns fits."""
    done = run(TOOLS / words[0], words[1:])
    text = done.stdout.decode()
    faults = [] if done.returncode == 0 and not done.stderr else ['it ended with %d and said %r' % (done.returncode, done.stderr)]
    return faults + ['it did not print %s' % pattern for pattern in wanted if not re.search(pattern, text, re.M)]


def refusal_faults(words, said):
    """What a tool did otherwise than refuse its words or files with one sentence."""
    done = run(TOOLS / words[0], words[1:])
    text = done.stderr.decode()
    return [fault for fault, holds in [
        ('it ended with %d' % done.returncode, done.returncode == 0), ('it printed %r' % done.stdout, done.stdout),
        ('it said %r' % text, said not in text or text.count('\n') != 1 or 'Traceback' in text)] if holds]


USED = [
    (['uniform-delay'], ['^30 s +900 +1.00 +15.0 s +15.0 s']),
    (['describe', 'arterial.toml', 'arterial-progression.plan'],
     ['^180 steps of 2 seconds, 7 links, 29 cells of which 3 are queues, 2 signals; a vehicle is 10 units$',
      '^ *0 +main +6 +5 +0-5 +20 +80 +1/3 +20.0 +first_block +upper: main +60 %$', '^ +0 +upper +1 +side +70 +4 +20 +2 +main +mill_street$']),
    (['describe', 'turning-movements.toml'],
     ['^warning: turning-movements.toml:[0-9]+: parcels of 3 units use 9 of the `cap` of 10 of link `south`$']),
    (['report', 'arterial.toml', 'trace.csv', 'arterial-progression.plan'],
     ['^delay 10654 of 1440 units: 7.40 steps each, 14.8 seconds', '^main +960 +960 +0 +3840 +4.00 +8.0 +103 +27 +0.44$',
      '^lower +side +7 +52 +29 % +7.4 +4 8 8 8 8 8 8$']),
    (['report', 'arterial.toml', 'trace.csv'], ['^main +960 +960 +0 +3840 +4.00 +8.0 +103 +27 +-$']),
    (['compare', 'arterial.toml', 'arterial-together.plan', 'arterial-progression.plan'],
     ['^1 .*arterial-progression.plan +10654 +0 +7.40 +14.8 +0.0 % +main 36 %$', '^2 .*arterial-together.plan +13932 +0 .* 30.8 % ']),
    (['network-from-streets', 'counted.streets.toml'],
     ['^cap = 208 .*; rounded down, by 1.5 %, to whole parcels$',
      '^turns = .*"b", parcel = 7 }, { link = "c", parcel = 1 }\\]  # 88.24 and 11.76 percent, rounded to 87.5 and 12.5$']),
    (['plan-from-cycles', 'arterial.toml', 'split.cycles.toml'],
     ['^signal upper\nmain 26\nside 6\nmain 26\n(.*\n)*signal lower\nmain 16\nside 6\nmain 26\nside 6\n']),
]

REFUSED = [
    (['describe'], 'usage: tools/describe NET [PLAN]'),
    (['describe', 'missing'], 'describe: missing: no such file or directory'),
    (['describe', 'arterial-together.plan'], 'arterial-together.plan:1: this is a plan, and a network is wanted here'),
    (['describe', 'refused.toml'], "refused.toml: `steps` is missing above all headers"),
    (['report', 'arterial.toml'], 'usage: tools/report NET TRACE [PLAN]'),
    (['report', 'arterial.toml', 'missing'], 'report: missing: no table of a trace: it is not there'),
    (['report', 'arterial.toml', 'arterial.toml'], 'arterial.toml: no table of a trace'),
    (['report', 'refused.toml', 'trace.csv'], "refused.toml: `steps` is missing above all headers"),
    (['report', 'one-link.toml', 'trace.csv'], 'trace.csv: this is no trace of the network'),
    (['report', 'arterial.toml', 'trace.csv', 'arterial-together.plan'], 'trace.csv: this is no trace of the network under the plan'),
    (['compare', 'arterial.toml'], 'usage: tools/compare NET PLAN..'),
    (['compare', 'arterial.toml', 'missing'], 'compare: missing: no such file or directory'),
    (['compare', 'arterial.toml', 'one-link.toml'], 'one-link.toml:1: this is a network, and a plan is wanted here'),
    (['compare', 'refused.toml', 'arterial-together.plan'], "refused.toml: `steps` is missing above all headers"),
    (['network-from-streets'], 'usage: tools/network-from-streets STREETS.toml'),
    (['network-from-streets', 'missing'], 'network-from-streets: missing: no such file or directory'),
    (['network-from-streets', 'arterial-together.plan'], 'arterial-together.plan:1: this is a plan'),
    (['network-from-streets', 'refused.streets.toml'],
     'refused.streets.toml:9: `a` and `b` lead into `c`, and `a` and `b` have no signal'),
    (['uniform-delay', 'arterial.toml'], 'usage: tools/uniform-delay'),
    (['network-from-streets', 'arterial.toml'], 'arterial.toml: this is a network, and a file of streets is wanted here'),
    (['network-from-streets', 'many.streets.toml'], 'many.streets.toml:8: [street.a] has 5 turns, and 2 to 4 fit'),
    (['describe', 'refused.streets.toml'],
     'this is a file of streets, and a network is wanted here; tools/network-from-streets makes a network of it'),
    (['plan-from-cycles', 'arterial.toml'], 'usage: tools/plan-from-cycles NET CYCLES.toml'),
    (['plan-from-cycles', 'arterial.toml', 'missing'], 'plan-from-cycles: missing: no such file or directory'),
    (['plan-from-cycles', 'missing', 'split.cycles.toml'], 'plan-from-cycles: missing: no such file or directory'),
    (['plan-from-cycles', 'arterial.toml', 'arterial.toml'], 'arterial.toml: this is a network, and a file of cycles is wanted here'),
    (['plan-from-cycles', 'arterial.toml', 'arterial-together.plan'], 'arterial-together.plan:1: this is a plan, and a file of cycles is'),
    (['plan-from-cycles', 'refused.toml', 'split.cycles.toml'], "refused.toml: `steps` is missing above all headers"),
    (['plan-from-cycles', 'one-link.toml', 'split.cycles.toml'], 'split.cycles.toml:2: the network has no signal `upper`'),
    (['plan-from-cycles', 'arterial.toml', 'odd.cycles.toml'],
     'odd.cycles.toml:2: the green of `side` at signal `upper` is 13 seconds, and a step has 2: 12 or 14 seconds fit'),
    (['plan-from-cycles', 'arterial.toml', 'long.cycles.toml'],
     'long.cycles.toml:2: the greens of signal `upper` and their clearances come to 78 seconds, and the cycle has 72'),
    (['plan-from-cycles', 'arterial.toml', 'green.cycles.toml'],
     'green.cycles.toml:1: the green of `side` at signal `upper` is 1 step, and the network has 4 to 20'),
    (['replay.py'], 'usage: tools/replay.py NET [PLAN] [--trace]'),
    (['replay.py', 'missing'], 'replay.py: missing: no such file or directory'),
    (['replay.py', 'arterial.toml'], 'arterial.toml: the network has signals, so a plan has to be named behind it'),
    (['compile.py', 'missing'], 'compile.py: missing: no such file or directory'),
    (['judge.py'], 'usage: tools/judge.py NET [PLAN]'),
    (['judge.py', 'missing'], 'judge.py: missing: no such file or directory'),
    (['check_certificate.py', 'missing', 'missing'], 'check_certificate.py: missing: no such file or directory'),
    (['program-to-lp', 'missing'], 'program-to-lp: missing: no such file or directory'),
    (['solution-to-point', 'missing', 'missing'], 'solution-to-point: missing: no such file or directory'),
    (['picture', 'missing'], 'picture: missing is no table of a trace: it is not there'),
    (['draw-examples', 'missing'], 'usage: tools/draw-examples [FOLDER]'),
]


# Files that the tools are tried on. The streets MERGING give no network: two of them lead into a third without a signal.

MERGING = b"""step = 2
horizon = 60
speed = 50
saturation = 1800
jam = 150
wave = 18
street.a = { length = 60, to = "c" }
street.b = { length = 60, to = "c" }
street.c = { length = 60 }
"""
ROADS = MERGING[:MERGING.index(b'street.a')]
ENDS = b''.join(b'street.%c = { length = 60, lanes = 2 }\n' % name for name in b'bcdef')
MADE = {
    'refused.toml': b'format = 1\n', 'refused.streets.toml': MERGING,
    'counted.streets.toml': ROADS.replace(b'1800', b'1900') + ENDS +
    b'street.a = { length = 60, lanes = 2, counts = { b = 465, c = 62 } }\n',
    'many.streets.toml': ROADS + b'\nstreet.a = { length = 60, turns = { b = 20, c = 20, d = 20, e = 20, f = 20 } }\n' + ENDS,
    'split.cycles.toml': b'cycle = 72\nsignal.upper.splits = { main = 78, side = 22 }\n'
    b'signal.lower = { greens = { main = 52, side = 12 }, offset = 52 }\n',
    'odd.cycles.toml': b'signal.lower.greens = { main = 52, side = 12 }\nsignal.upper.greens = { main = 52, side = 13 }\n',
    'long.cycles.toml': b'cycle = 72\nsignal.upper.greens = { main = 58, side = 12 }\nsignal.lower.greens = { main = 52, side = 12 }\n',
    'green.cycles.toml': b'signal.upper.greens = { main = 52, side = 2 }\nsignal.lower.greens = { main = 52, side = 12 }\n',
}


def tool_checks():
    words = {word for call, _ in USED + REFUSED for word in call}
    with folder_with(MADE, words):
        table = run(TOOLS / 'replay.py', ['arterial.toml', 'arterial-progression.plan', '--trace'])
        pathlib.Path('trace.csv').write_bytes(table.stdout)
        for call, wanted in USED:
            yield 'tools/' + ' '.join(call), tool_faults(call, wanted)
        for call, said in REFUSED:
            yield 'tools/%s, refused' % ' '.join(call), refusal_faults(call, said)


def page_table_faults():
    """Whether docs/traffic.md has the table that tools/uniform-delay makes."""
    made = run(TOOLS / 'uniform-delay', ['--page'])
    is_there = made.stdout.decode() in (TOP / 'docs/traffic.md').read_text()
    return [] if made.returncode == 0 and is_there else ['docs/traffic.md has another table than tools/uniform-delay makes']


def checked(program):
    yield 'table of uniform delays', page_table_faults()
    for checks in [page_checks, other_checks, planner_checks]:
        yield from checks(program)
    yield from tool_checks()
