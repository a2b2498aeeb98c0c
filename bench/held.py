#!/usr/bin/env python3
"""Shows that a chain's memory is given back: breadcrumbs that a follower at the first one holds, and drops last.

usage: bench/held.py [CRUMBS]

The measuring program makes such a chain of CRUMBS breadcrumbs (100,000) once, and then eight times one after another. To read it:
the most memory that each run ever had, in megabytes. Where a chain gave nothing back, the second would be eight times the first.
The status is 0 where it is at most a tenth more. It takes some ten seconds.
"""
import os
import subprocess
import sys

from program import TOP

BENCH = os.path.join(TOP, 'crates/ty_bench')
ROUNDS = 8


def build():
    if subprocess.run(['rt', 'run'], cwd=BENCH, capture_output=True).returncode:
        sys.exit('this fails: cd crates/ty_bench && rt run')


def peak(crumbs, rounds):
    """Megabytes, and what the program says of the last chain."""
    process = subprocess.Popen([os.path.join(BENCH, 'out/ty_bench'), 'hold', crumbs, str(rounds)], stdout=subprocess.PIPE)
    said = process.stdout.read().decode().splitlines()
    _, status, used = os.wait4(process.pid, 0)
    if status or len(said) != rounds:
        sys.exit('a chain was not made: %r' % said)
    return used.ru_maxrss / 1024, said[-1]


def main():
    if len(sys.argv) > 2:
        sys.exit(__doc__)
    crumbs = sys.argv[1] if len(sys.argv) == 2 else '100000'
    build()
    least, _ = peak('0', 1)
    once, said = peak(crumbs, 1)
    often, _ = peak(crumbs, ROUNDS)
    print('%s; without breadcrumbs %.1f MB, one chain %.1f MB, %d one after another %.1f MB' % (said, least, once, ROUNDS, often))
    sys.exit(0 if often <= once * 1.1 else 1)


main()
