#!/usr/bin/env python3
"""Runs each program where a read or a write fails, with a folder for standard input and with a full device for standard output: it ends with status 1.
Before these runs each ends with 0 on the same input, and writes something. Exit status 1 where one does not."""
import os, subprocess, sys

TOP = os.path.dirname(os.path.dirname(os.path.abspath(__file__)))
FULL = '/dev/full'
END, ROWS_END = b'\x00\x00\x00\x70', b'\x00\x00\x00\xf0'
# what each program reads where nothing fails: a model, a row system, a text, a case of check
INPUTS = {'rows': END, 'sheet': b'\x00\x00\x00\xb0\x01\x00\x00\x60' + ROWS_END, 'text': b'solve satisfy;', 'bits': ROWS_END,
          'suite': b'\x01\x00\x00\x00' + bytes(4) + b'\x01\x00\x00\x00' + bytes(4) + END}


def run(name, stdin, stdout):
    return subprocess.run([os.path.join(TOP, 'crates', name, 'out', name)], stdin=stdin, stdout=stdout, stderr=subprocess.DEVNULL, timeout=60)


def tried(name, data):
    """What is wrong with a program."""
    read, write = os.pipe()
    os.write(write, data)
    os.close(write)
    done = run(name, read, subprocess.PIPE)
    if done.returncode or not done.stdout:
        yield f'{name} ends with {done.returncode} and writes {len(done.stdout)} bytes, where nothing fails'
    read, write = os.pipe()
    os.write(write, data)
    os.close(write)
    with open(FULL, 'wb') as full:
        status = run(name, read, full).returncode
    if status != 1:
        yield f'{name} ends with {status} and not with 1 where standard output is full'
    folder = os.open(TOP, os.O_RDONLY)
    status = run(name, folder, subprocess.DEVNULL).returncode
    os.close(folder)
    if status != 1:
        yield f'{name} ends with {status} and not with 1 where standard input is a folder'


wrong = [line for name, data in INPUTS.items() for line in tried(name, data)]
for line in wrong:
    print(f'failures: {line}')
print(f'failures: {len(INPUTS)} programs, each with a full device and a folder, {len(wrong)} wrong')
sys.exit(len(wrong) > 0)
