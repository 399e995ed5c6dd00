#!/usr/bin/env python3
"""Says which crate of how many was proved and when, from the output of `rt ci` on standard input.

progress.py LOG    writes all lines to LOG and prints a line for each crate that is done, rt's own lines, and whatever speaks of an error
progress.py --all  prints all lines, and a line of progress behind each that tells of a crate; the verdict of rt is marked as rt's own"""
import os, re, sys, time

TOP = os.path.dirname(os.path.dirname(os.path.abspath(__file__)))
crates = len(re.findall(r'^\w+[^:\n#]*:', open(os.path.join(TOP, 'crates.txt')).read(), re.M))
everything = sys.argv[1:] == ['--all']
log = None if everything else open(sys.argv[1], 'w')
begin, proved = time.time(), 0
for line in sys.stdin:
    if log:
        log.write(line)
    if re.match(r'\d+ passed, \d+ failed$', line):
        line = f'rt: {line}'
    if everything or line.startswith('rt:') or re.search(r'\berror\b', line):
        sys.stdout.write(line)
    if found := re.match(r'rt: (\w+) (proved|is kept)\b', line):
        proved += 1
        minutes, seconds = divmod(int(time.time() - begin), 60)
        print(f'crate {proved} of {crates}: {found.group(1)} {found.group(2)}; {minutes} min {seconds} s so far')
    sys.stdout.flush()
