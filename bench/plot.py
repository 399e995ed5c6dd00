#!/usr/bin/env python3
"""Draws the ratios of docs/BENCHMARKS.md, section "Against an independent implementation", as docs/ratios.svg: a bar for each call and size, the goal
of 1.0 as a line. --check compares instead of writing, and exits with 1 where the picture is not that of the table."""
import os, re, sys

TOP = os.path.dirname(os.path.dirname(os.path.abspath(__file__)))
PICTURE = os.path.join(TOP, 'docs', 'ratios.svg')
LEFT, TOP_EDGE, BAR, GAP, UNIT = 380, 60, 16, 10, 220


def table():
    """The call, its words and its ratio, line by line; a call's name stands in its first line."""
    part = open(os.path.join(TOP, 'docs', 'BENCHMARKS.md')).read().split('## Against an independent implementation', 1)[1]
    lines = re.search(r'(?:^\|.*\n)+', part, re.M).group(0).splitlines()
    column = [cell.strip() for cell in lines[0].split('|')].index('Ratio')
    found, call = [], ''
    for line in lines[2:]:
        cells = [cell.strip() for cell in line.split('|')]
        call = cells[1] or call
        found.append((call, cells[2], float(cells[column])))
    return found


def text(x, y, words, anchor='start', size=13):
    return f'<text x="{x:.1f}" y="{y:.1f}" font-size="{size}" text-anchor="{anchor}" fill="#222">{words}</text>'


def picture(found):
    out, y, before = [], TOP_EDGE, None
    for call, words, ratio in found:
        if call != before:
            y += GAP
            out.append(text(LEFT - 70, y + BAR - 4, call, 'end'))
            before = call
        out.append(text(LEFT - 10, y + BAR - 4, words, 'end', 11))
        out.append(f'<rect x="{LEFT}" y="{y}" width="{ratio * UNIT:.1f}" height="{BAR - 3}" fill="{"#3b7d4f" if ratio <= 1 else "#b3722d"}"/>')
        out.append(text(LEFT + ratio * UNIT + 6, y + BAR - 5, f'{ratio:.2f}', size=11))
        y += BAR
    width, height = LEFT + int(max(r for _, _, r in found) * UNIT) + 70, y + 30
    goal = f'<line x1="{LEFT + UNIT}" y1="{TOP_EDGE - 6}" x2="{LEFT + UNIT}" y2="{y + 6}" stroke="#222" stroke-dasharray="4 3"/>'
    title = text(20, 26, 'Time of each call over that of an independent implementation in Rust', size=16) + text(20, 46, 'less is better; at 64, 1,024 and 8,192 words', size=12)
    head = f'<svg xmlns="http://www.w3.org/2000/svg" width="{width}" height="{height}" font-family="sans-serif"><rect width="100%" height="100%" fill="white"/>'
    return '\n'.join([head, title, *out, goal, text(LEFT + UNIT, y + 20, '1.0', 'middle', 11), '</svg>', ''])


drawn = picture(table())
if '--check' in sys.argv:
    same = os.path.exists(PICTURE) and open(PICTURE).read() == drawn
    print('plot: docs/ratios.svg is that of the table' if same else 'plot: docs/ratios.svg is not that of the table; run bench/plot.py')
    sys.exit(not same)
open(PICTURE, 'w').write(drawn)
