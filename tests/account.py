#!/usr/bin/env python3
"""Holds what `rt ci` says to what the gate promises.

    tests/account.py        only the file HANDLES: if there is one, it allows none
    tests/account.py LOG    also the lines of a run: all crates and must-fail edits passed, no edit is a bad one or refused by no fact, no handle is allowed

Exit status 1 where something is not so."""
import glob, os, re, sys

TOP = os.path.dirname(os.path.dirname(os.path.abspath(__file__)))
NONE = 'Handles allowed: none.'


def handles():
    path = os.path.join(TOP, 'HANDLES')
    text = open(path).read().strip() if os.path.exists(path) else NONE
    if text != NONE:
        yield f'the file HANDLES says "{text}", and the only line that it may have is "{NONE}"'


def run(log):
    crates = len(re.findall(r'^[a-z0-9_]+(?: [^:#\n]*)?:', open(os.path.join(TOP, 'crates.txt')).read(), re.M))
    edits = len([path for path in glob.glob(os.path.join(TOP, 'crates', '*', 'must-fail', '**'), recursive=True) if os.path.isfile(path)])
    lines = open(log).read().splitlines()
    wanted = f'{crates + edits} passed, 0 failed'
    if not lines or lines[-1] != wanted:
        yield f'rt ci did not pass, or not all {crates} crates and {edits} edits: its last line is not "{wanted}"'
    account = next((line for line in lines if line.startswith('rt: ok; ')), '')
    if not account.startswith('rt: ok; handles allowed: none;'):
        yield f'rt ci does not say that no handle is allowed: {account}'
    if f'; must-fail edits: {edits} refused' not in account or re.search(r', \d+ bad', account):
        yield f'not all {edits} must-fail edits are good ones: {account}'
    yield from (f'a must-fail edit is refused by no fact: {line}' for line in lines if 'refused, as it must be (only' in line)


wrong = [*handles(), *(run(sys.argv[1]) if sys.argv[1:] else ())]
for line in wrong:
    print(f'account: {line}')
sys.exit(len(wrong) > 0)
