#!/usr/bin/env python3
"""Draws the layers of crates.txt as docs/layers.svg: a band for each layer, lowest at the bottom, a box for each crate, and in it how many crates it
uses and how many use it. --check compares instead of writing, and exits with 1 where the picture is not that of crates.txt."""
import os, re, sys

DOCS = os.path.dirname(os.path.abspath(__file__))
PICTURE = os.path.join(DOCS, 'layers.svg')
LEFT, WIDTH, BOX, HIGH, GAP = 200, 980, 118, 34, 8


def layers():
    """The layers in their order: name, what it holds, its crates with those that each uses."""
    found = []
    for line in open(os.path.join(os.path.dirname(DOCS), 'crates.txt')).read().split('\n\n', 1)[1].splitlines():
        if line.startswith('# '):
            name, _, holds = line[2:].partition(': ')
            found.append((name, holds, []))
        elif ':' in line:
            crate, _, uses = line.partition(':')
            found[-1][2].append((crate.split()[0], uses.split()))
    return found


def text(x, y, words, size, anchor='start', weight='normal'):
    return f'<text x="{x}" y="{y}" font-size="{size}" text-anchor="{anchor}" font-weight="{weight}" fill="#222">{words}</text>'


def wrapped(words, most):
    lines = ['']
    for word in words.split():
        if len(lines[-1]) + len(word) + 1 > most:
            lines.append('')
        lines[-1] = (lines[-1] + ' ' + word).strip()
    return lines


def picture(found):
    users = {}
    for _, _, crates in found:
        for _, uses in crates:
            for used in uses:
                users[used] = users.get(used, 0) + 1
    out, y, per_line = [], 20, (WIDTH - GAP) // (BOX + GAP)
    for k, (name, holds, crates) in enumerate(reversed(found)):
        said = wrapped(holds, 30)
        lines = -(-len(crates) // per_line)
        high = max(lines * (HIGH + GAP) + GAP, 26 + 13 * len(said))
        out.append(f'<rect x="10" y="{y}" width="{LEFT + WIDTH}" height="{high}" fill="{"#f3f5f8" if k % 2 else "#e8edf3"}"/>')
        out.append(text(18, y + 18, name, 14, weight='bold'))
        out += [text(18, y + 34 + 13 * i, line, 10.5) for i, line in enumerate(said)]
        for i, (crate, uses) in enumerate(crates):
            bx, by = LEFT + 10 + (i % per_line) * (BOX + GAP), y + GAP + (i // per_line) * (HIGH + GAP)
            out.append(f'<rect x="{bx}" y="{by}" width="{BOX}" height="{HIGH}" rx="4" fill="white" stroke="#7a8899"/>')
            out.append(text(bx + BOX // 2, by + 15, crate, 12, 'middle'))
            out.append(text(bx + BOX // 2, by + 28, f'uses {len(uses)}, used by {users.get(crate, 0)}', 9, 'middle'))
        y += high + 4
    head = f'<svg xmlns="http://www.w3.org/2000/svg" width="{LEFT + WIDTH + 20}" height="{y + 10}" font-family="sans-serif"><rect width="100%" height="100%" fill="white"/>'
    return '\n'.join([head, *out, '</svg>', ''])


drawn = picture(layers())
if '--check' in sys.argv:
    same = os.path.exists(PICTURE) and open(PICTURE).read() == drawn
    print('layers: docs/layers.svg is that of crates.txt' if same else 'layers: docs/layers.svg is not that of crates.txt; run docs/layers.py')
    sys.exit(not same)
open(PICTURE, 'w').write(drawn)
