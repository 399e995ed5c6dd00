#!/usr/bin/env python3
"""Runs the command `pearrummy` as tests/command/runs.txt records it, in that folder, and compares what it prints and its exit status; with
MiniZinc also those of minizinc.txt (where it is missing, tests/packages.py says what becomes of it). The same runs of runs.txt are tried with the
proved program, crates/pearrummy, which is there after `rt ci`; what it words in another way stands in proved.txt.

A run is a line `$ pearrummy ..`, perhaps with `< FILE` or `> FILE` at its end, then what stands on standard output, what stands on standard error
behind `! `, and `[STATUS]`. --write records what the commands print now. The command, target/pearrummy, is there already."""
import difflib, os, shlex, subprocess, sys

sys.dont_write_bytecode = True
import packages

TOP = os.path.dirname(os.path.dirname(os.path.abspath(__file__)))
FOLDER = os.path.join(TOP, 'tests', 'command')
COMMAND = os.path.join(TOP, 'target', 'pearrummy')
PROVED = os.path.join(TOP, 'crates', 'pearrummy', 'out', 'pearrummy')


def output(command, line):
    words, stdin, stdout = shlex.split(line[2:]), subprocess.DEVNULL, subprocess.PIPE
    if words[-2:-1] == ['<']:
        *words, stdin = words[:-2] + [open(os.path.join(FOLDER, words[-1]), 'rb')]
    elif words[-2:-1] == ['>']:
        *words, stdout = words[:-2] + [open(os.path.join(FOLDER, words[-1]), 'wb')]
    run = subprocess.run([command] + words[1:], cwd=FOLDER, stdin=stdin, stdout=stdout, stderr=subprocess.PIPE, timeout=60)
    text, said = ((out or b'').decode('utf-8', 'backslashreplace') for out in (run.stdout, run.stderr))
    text += '' if text.endswith('\n') or not text else '\n(no line feed)\n'
    return text + ''.join(f'! {e}\n' for e in said.removesuffix('\n').split('\n') if said) + f'[{run.returncode}]\n'


def recorded_in(name):
    with open(os.path.join(FOLDER, name), newline='\n') as file:
        return file.read()


def printed_by(command, recorded):
    """What the command prints at the runs of a text, with its headings, and how many runs there are."""
    printed, count = '', 0
    for line in recorded.split('\n'):
        if line.startswith('$ '):
            printed += line + '\n' + output(command, line) + '\n'
            count += 1
        elif line.startswith('# '):
            printed += line + '\n'
    return printed, count


def compared(title, recorded, printed, count):
    """Says what differs; whether anything does, or nothing was run."""
    changes = list(difflib.unified_diff(recorded.split('\n'), printed.split('\n'), 'recorded', 'printed', lineterm=''))
    for line in changes[:40]:
        print(line)
    statuses = {s: printed.count(f'\n[{s}]\n') for s in (0, 1, 2, 64)}
    print(f'command: {title}: {count} runs, {"none differs" if not changes else "some differ"}; by exit status {statuses}')
    return bool(changes) or count == 0


def write(name, text):
    with open(os.path.join(FOLDER, name), 'w', newline='\n') as file:
        file.write(text)


def head_of(run):
    """The line of a run, which headings may stand before."""
    return next((line for line in run.split('\n') if line.startswith('$ ')), '')


def with_others(recorded, others):
    """The recorded runs, those of the same line in place of them."""
    replaced = {head_of(run): run[run.index(head_of(run)):].rstrip('\n') for run in others.split('\n\n') if head_of(run)}
    runs = recorded.split('\n\n')
    missing = set(replaced) - set(map(head_of, runs))
    assert replaced and not missing, missing
    return '\n\n'.join(run[:run.index(head_of(run))] + replaced[head_of(run)] if head_of(run) in replaced else run for run in runs)


failed = 0
for name in ['runs.txt'] + ['minizinc.txt'] * packages.are_here('command', 'minizinc'):
    recorded = recorded_in(name)
    printed, count = printed_by(COMMAND, recorded)
    if '--write' in sys.argv:
        write(name, printed)
        recorded = printed
    failed += compared(name, recorded, printed, count)
if not os.path.exists(PROVED):
    print('crates/pearrummy/out/pearrummy is not there: rt ci makes it, and rt run in its folder')
    sys.exit(1)
others = recorded_in('proved.txt')
if '--write' in sys.argv:
    others = printed_by(PROVED, others)[0]
    write('proved.txt', others)
recorded = with_others(recorded_in('runs.txt'), others)
printed, count = printed_by(PROVED, recorded)
failed += compared('runs.txt by the proved program', recorded, printed, count)
sys.exit(failed)
