#!/usr/bin/env python3
"""Runs `demo` for the generated networks of all different texts, and tells what they come to and what they cost.

usage: bench/demos.py [PROGRAM]

Each is tried as examples/demo_checks.py says. At the end stand the least and the most of rows, of bounds in percents of the delay, of
seconds and of memory; that of memory has to stay below 100 MB. Seconds tell their order alone; where `valgrind` is installed, the
instructions of `demo 7` are counted. The program is the built one (run ./planner first) or the one that is named. The status is 0 where
nothing was otherwise than it has to be.
"""
import shutil
import sys
import time

import measure

sys.path.insert(0, str(measure.TOP / 'examples'))
import demo_checks

MOST_KILOBYTES = 100_000


def main():
    program = measure.program()
    found, failed = [], 0
    for number in range(demo_checks.TEXTS):
        started = time.monotonic()
        run = measure.run([program, 'demo', str(number)])
        seconds = time.monotonic() - started
        faults = demo_checks.faults(program, number)
        if run.kilobytes > MOST_KILOBYTES:
            faults.append('it held %d kB' % run.kilobytes)
        if faults:
            failed += 1
            print('demo %d: %s' % (number, '; '.join(faults)), flush=True)
            continue
        shown = demo_checks.SHOWN.fullmatch(run.printed)
        found.append((int(shown[2]), 100 * int(shown[6]) / max(int(shown[5]), 1), seconds, run.kilobytes))
    print('%d as they have to be, %d others' % (len(found), failed))
    for what, values in zip(['rows', 'bound in percents of the delay', 'seconds', 'kB'], zip(*found)):
        print('%s: %.4g to %.5g' % (what, min(values), max(values)))
    if shutil.which('valgrind'):
        print('instructions of `demo 7`: %d' % measure.instructions([program, 'demo', '7']).total)
    sys.exit(1 if failed else 0)


if __name__ == '__main__':
    main()
