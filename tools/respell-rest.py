#!/usr/bin/env python3
"""Respell what respell.py leaves: fields and constructors of specs/ with a dash, and the last names in camel case. It was run once
(docs/PORT.md); nothing in the tree calls it."""
import glob
import re

DASHED = """bounds-first line-size lower-near more-sources near-lower near-start near-upper never-below no-choice none-fails of-element of-set one-fails
 one-variable row-size same-constraints same-variables sources-counted sums-are the-bounds the-rows upper-near variables-counted""".split()
NAMES = {name: name.replace('-', '_') for name in DASHED} | {
    'arithZ': 'arith_z', 'afterColon': 'after_colon', 'fillAnswer': 'fill_answer', 'checkAnswer': 'check_answer', 'translateAnswer': 'translate_answer',
    'reasonAnswer': 'reason_answer', 'sheetAnswer': 'sheet_answer', 'blockWordsMost': 'block_words_most', 'countCap': 'count_cap', 'indexIn': 'index_in',
    'numberStep': 'number_step',
}
WORD = re.compile(r"(?<![\w'◌-])(?:%s)(?![\w'◌-])" % '|'.join(sorted(map(re.escape, NAMES), key=len, reverse=True)))

touched = 0
for path in sorted(glob.glob('crates/*/src/**/*.rt', recursive=True) + glob.glob('crates/*/specs/**/*.antt', recursive=True)
                   + glob.glob('crates/*/proofs/**/*.antt', recursive=True) + glob.glob('crates/*/must-fail/*.edit')):
    old = open(path, encoding='utf-8').read()
    new = WORD.sub(lambda match: NAMES[match.group(0)], old)
    if new != old:
        open(path, 'w', encoding='utf-8').write(new)
        touched += 1
print('%d files' % touched)
