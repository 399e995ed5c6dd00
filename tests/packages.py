#!/usr/bin/env python3
"""The programs that the tests compare or count with, and Debian's packages of them.

    tests/packages.py            has each, or installs it where that can be done, and fails with the names of the packages that are missing
    tests/packages.py --left-out says what is left out, since a program is missing

Where PEARRUMMY_WITHOUT_PACKAGES is 1, a missing program fails nothing: what it is for is left out, and said to be."""
import os, shutil, subprocess, sys

# the package of a program, and what it is for
PROGRAMS = {
    'fzn-gecode': ('flatzinc', 'the calls against a second solver (tests/solver.py), MiniZinc models against it (tests/minizinc.py)'),
    'clasp': ('clasp', 'the forms of more than 14 bits (tests/bits.py)'),
    'minizinc': ('minizinc', 'MiniZinc models flattened anew (tests/minizinc.py), their lines in errors (tests/places.py), the command on them (tests/command.py)'),
    'valgrind': ('valgrind', 'the instructions that the call text takes (tests/cost.py)')}
VARIABLE = 'PEARRUMMY_WITHOUT_PACKAGES'


def may_go_on():
    return os.environ.get(VARIABLE) == '1'


def has(program):
    """Whether a program is here, after an attempt to install its package if it is not."""
    install = ['apt-get', '-qq', '-y', '--no-install-recommends', 'install', PROGRAMS[program][0]]
    for command in (install, ['apt-get', '-qq', 'update'], install):
        if shutil.which(program) or not shutil.which('apt-get') or os.geteuid():
            break
        try:
            subprocess.run(command + ['-o', 'Acquire::Retries=0', '-o', 'Acquire::http::Timeout=10'], stdin=subprocess.DEVNULL, capture_output=True,
                           env=dict(os.environ, DEBIAN_FRONTEND='noninteractive'), timeout=120)
        except subprocess.TimeoutExpired:
            break
    return bool(shutil.which(program))


def missing(programs=PROGRAMS):
    return [program for program in programs if not has(program)]


def are_here(test, *programs):
    """Whether a test has these programs. Where not, it ends with a failure, unless it may go on without: then it says so."""
    lacking = missing(programs)
    if lacking:
        names = ', '.join(lacking)
        packages = ' '.join(PROGRAMS[program][0] for program in lacking)
        if not may_go_on():
            sys.exit(f'{test}: {names} not here: install Debian\'s {packages}, or set {VARIABLE}=1 to go on without')
        print(f'{test}: {names} not here, left out')
    return not lacking


def main():
    if sys.argv[1:] == ['--left-out']:
        for program, (package, what) in PROGRAMS.items():
            if not shutil.which(program):
                print(f'left out, since {program} of Debian\'s {package} is not here: {what}')
        return
    if are_here('packages', *PROGRAMS):
        print(f'packages: {", ".join(PROGRAMS)} are here')


if __name__ == '__main__':
    main()
