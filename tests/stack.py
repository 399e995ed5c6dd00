#!/usr/bin/env python3
"""Measures the stack that each call for C takes (a painted stack: bench/calls.c on long inputs, bench/stack.c on those that go deepest) and compares the most
with what include/pearrummy.h says, in whole KiB, rounded up; every call that the header declares is measured, and has its line. text takes no more than
MOST. The library, target/libpearrummy.a, is there already."""
import os, re, subprocess, sys

TOP = os.path.dirname(os.path.dirname(os.path.abspath(__file__)))
MOST = {'pearrummy_text': 400}  # KiB


def measured(name, *arguments):
    """What a program of bench/ prints: calls and bytes."""
    program = os.path.join(TOP, 'target', name)
    subprocess.run(['gcc', '-O2', '-Wall', '-Wextra', '-Werror', '-o', program, os.path.join(TOP, 'bench', f'{name}.c'),
                    os.path.join(TOP, 'target', 'libpearrummy.a')], check=True)
    for line in subprocess.run([program, *arguments], check=True, capture_output=True, text=True).stdout.splitlines():
        call, size = line.split()
        yield call, int(size)


def main():
    most = {}
    for call, size in [*measured('calls', 'stack'), *measured('stack')]:
        most[call] = max(size, most.get(call, 0))
    header = open(os.path.join(TOP, 'include', 'pearrummy.h')).read()
    said = {name: int(kib) for kib, name in re.findall(r'Stack: (\d+) KiB\. \*/\n[^;]*?(pearrummy_\w+)\(', header)}
    calls = re.findall(r'^(?:uint32_t|struct pearrummy_\w+) (pearrummy_\w+)\(', header, re.M)
    wrong = 0
    for name in sorted({*calls, *most, *said}):
        size = most.get(name, 0)
        kib = -(-size // 1024)
        if name not in calls or said.get(name) != kib or kib > MOST.get(name, kib):
            print(f'stack: {name} takes {size} bytes, {kib} KiB; the header says {said.get(name)} KiB')
            wrong += 1
    print(f'stack: {len(most)} calls measured, {wrong} differ from the header')
    return wrong > 0 or not calls


if __name__ == '__main__':
    sys.exit(main())
