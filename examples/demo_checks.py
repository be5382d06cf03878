"""Tries `demo` on generated networks, against what is written apart from the program and against the program's other commands.

`faults` tells what `demo` did otherwise than it has to for a number: its rows and columns are those of tools/compile.py for the text of
tools/generate.py, the printed plan has the printed delay by tools/replay.py, and `solve` with the same budget prints the same lines and
writes the same plan, and a certificate that `check` accepts. examples/run tries some numbers, and bench/demos.py those of all texts.
"""
import pathlib
import re
import subprocess
import sys
import tempfile
import tomllib

TOP = pathlib.Path(__file__).resolve().parent.parent
sys.path.insert(0, str(TOP / 'tools'))
import compile
import generate
import replay

BUDGET = 9
TEXTS = 132  # numbers that are equal modulo so many have the same text
SECONDS = 120
SHOWN = re.compile(r'demo (\d+)\nrows (\d+)\ncolumns (\d+)\n(delay (\d+)\nbound (\d+)\nnodes (\d+)\nstate (optimal|open)\n)check accepted\n(ctm-plan 1\n.*end\n)',
                   re.S)


def told(program, folder, *words):
    """The status of a run in a folder, and what it printed."""
    done = subprocess.run([program, *map(str, words)], cwd=folder, stdin=subprocess.DEVNULL, capture_output=True, timeout=SECONDS)
    return done.returncode, (done.stderr or done.stdout).decode()


def faults(program, number):
    text = generate.generated(number)
    with tempfile.TemporaryDirectory() as name:
        folder = pathlib.Path(name)
        answers = [told(program, folder, 'demo', number) for _ in range(2)]
        made = list(folder.iterdir())
        shown = SHOWN.fullmatch(answers[0][1])
        if answers[0][0] or not shown:
            return ['it ended with %d and printed %r' % answers[0]]
        (folder / 'net').write_text(text)
        searched = told(program, folder, 'solve', 'net', BUDGET, 'plan', 'cert')
        checked = told(program, folder, 'check', 'net', 'cert')
        written = (folder / 'plan').read_text()
    rows, columns, delay, bound, nodes = (int(shown[k]) for k in (2, 3, 5, 6, 7))
    plan = shown[9]
    size = compile.answer_of_program(text.encode())[1]
    replayed, _ = replay.replay(tomllib.loads(text), plan)
    return [fault for fault, holds in [
        ('two runs are not equal', answers[0] != answers[1]),
        ('it made files', made),
        ('it names another number', int(shown[1]) != number),
        ('its program is not that of tools/compile.py', not size.startswith('rows %d\ncolumns %d\n' % (rows, columns))),
        ('its plan has the delay %d' % replayed, replayed != delay),
        ('the bound %d is not from 0 to %d' % (bound, delay), not 0 <= bound <= delay),
        ('it names %d nodes' % nodes, nodes > BUDGET),
        ('its state is not that of its numbers', (shown[8] == 'optimal') != (bound == delay)),
        ('`solve` finds something else', searched != (0, shown[4]) or written != plan),
        ('`check` says %r of what `solve` wrote' % (checked,), checked != (0, 'accepted\nbound %d\n' % bound)),
    ] if holds]
