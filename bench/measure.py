"""What the scripts of this folder share: the program that they run, and what a run of it costs.

The peak memory that the system tells of a process counts what it held before it became the program. A process that Python
starts holds Python's own pages then, by `posix_spawn` as by `fork`: /bin/true seems to take 14 MB, and 209 MB where
Python holds 200 MB. So the program is started from something small: from GNU's `time` (Debian's package of this name), whose
`-f` and `-o` are used, or, where that is missing or refuses these words, from a shell, which needs Linux's `prctl`. Both are
seen as about a megabyte, which is the least that can be seen.
"""
import collections
import ctypes
import functools
import os
import pathlib
import re
import subprocess
import sys
import tempfile
import typing

TOP = pathlib.Path(__file__).resolve().parent.parent
TIME = '/usr/bin/time'
CPU_SECONDS = 100  # after so much work a run is ended
ADOPT_ORPHANS = 36  # prctl's PR_SET_CHILD_SUBREAPER
NAMED = re.compile(r'c?fn=(\(\d+\))(?: (.+))?')  # a function, whose name stands behind its number the first time
ANNOTATED = re.compile(r' *([\d,]+) +\([ \d.]+%\)  [^:]*:(.+?)(?: \[[^]]*\])?')


class Counted(typing.NamedTuple):
    """What a run took under `valgrind --tool=callgrind`, in instructions, and what it printed."""
    total: int
    functions: collections.Counter  # by name, without what a function calls; what was inlined counts where it stands
    printed: str
    calls: collections.Counter  # by name, how often a function was called
    within: collections.Counter  # by name, with what a function calls; what calls itself counts more than once


class Run(typing.NamedTuple):
    """A plain run. A status outside of 0 to 8 is none of the program's own: it was ended, or was not started."""
    status: int
    printed: str
    kilobytes: int


def program():
    """The program that the first word names, or the built one."""
    path = pathlib.Path(sys.argv[1]).resolve() if len(sys.argv) > 1 else TOP / 'crates/signal_cli/out/signal_cli'
    if not path.exists():
        sys.exit('bench: the program is not built; run ./planner first')
    return str(path)


def called(text):
    """How often each function was called, and the instructions of these calls, by what callgrind wrote."""
    names, calls, within = {}, collections.Counter(), collections.Counter()
    lines = iter(text.splitlines())
    for line in lines:
        named = NAMED.fullmatch(line)
        if named and named[2]:
            names[named[1]] = named[2]
        if named and line.startswith('cfn='):
            callee = names[named[1]]
        elif line.startswith('calls='):
            calls[callee] += int(line[6:].split()[0])
            within[callee] += int(next(lines).split()[-1])
    return calls, within


def instructions(words, status=0, given=None):
    """Runs the words, a program and what it is told, which has to end with this status, and counts its instructions. It may be given an
    open file as its standard input."""
    with tempfile.TemporaryDirectory() as folder:
        out = folder + '/callgrind.out'
        done = subprocess.run(['valgrind', '--tool=callgrind', '--callgrind-out-file=' + out, *words],
                              stdin=given, stdout=subprocess.PIPE, stderr=subprocess.PIPE)
        if done.returncode != status:
            sys.exit('bench: under valgrind this ended with %d, not %d: %s' % (done.returncode, status, ' '.join(map(str, words))))
        text = pathlib.Path(out).read_text()
        total = re.search(r'^(?:totals|summary): (\d+)', text, re.M)
        annotated = subprocess.run(['callgrind_annotate', '--threshold=100', '--auto=no', '--show-percs=yes', out],
                                   stdout=subprocess.PIPE, check=True)
    functions = collections.Counter()
    for found in map(ANNOTATED.fullmatch, annotated.stdout.decode().splitlines()):
        if found:
            functions[found[2]] += int(found[1].replace(',', ''))
    return Counted(int(total[1]), functions, done.stdout.decode(), *called(text))


def run(words):
    """Runs the words, and tells what came of it."""
    return timed(words) if is_gnu_time() else adopted(words)


def peak_memory(words):
    """The most memory that a run of the words held, in kilobytes."""
    return run(words).kilobytes


@functools.cache
def is_gnu_time():
    """Whether there is a `time` that takes the words of GNU's."""
    words = [TIME, '-f', '%M', '-o', os.devnull, 'true']
    return os.access(TIME, os.X_OK) and subprocess.run(words, stderr=subprocess.DEVNULL).returncode == 0


def timed(words):
    """A run under GNU's `time`, which is told the memory of what it starts."""
    with tempfile.NamedTemporaryFile('r') as note:
        shell = 'ulimit -t %d; exec "$0" "$@"' % CPU_SECONDS
        done = subprocess.run(['sh', '-c', shell, TIME, '-f', '%M', '-o', note.name, *words], stdout=subprocess.PIPE)
        return Run(done.returncode, done.stdout.decode(errors='replace'), int(note.read().split()[-1]))


def adopted(words):
    """A run that a shell starts and does not wait for. The shell is gone before the program begins, which waits for a line,
    and this process adopts it. So it is told the memory of the program, and not that of the shell with Python's pages."""
    ctypes.CDLL(None).prctl(ADOPT_ORPHANS, 1, 0, 0, 0)
    shell = 'ulimit -t %d; exec 3<&0; (read -r line <&3; exec "$0" "$@" 3<&-) & echo $!' % CPU_SECONDS
    starter = subprocess.Popen(['sh', '-c', shell, *words], stdin=subprocess.PIPE, stdout=subprocess.PIPE)
    process = int(starter.stdout.readline())
    starter.wait()
    starter.stdin.write(b'\n')
    starter.stdin.close()
    printed = starter.stdout.read()
    starter.stdout.close()
    _, status, used = os.wait4(process, 0)
    return Run(os.waitstatus_to_exitcode(status), printed.decode(errors='replace'), used.ru_maxrss)
