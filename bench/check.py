#!/usr/bin/env python3
"""Says where the time of a check goes: the modules of a crate that take longest, by the times at which the checker saves them.

    bench/check.py CRATE..

Of a function F there are modules that the kit makes (F.Lts of its code, F.Goals of what is to be proved, F.Proof) and F.Invariants and F.Answers; the rest are
the files of specs/ and proofs/. A crate's own name stands for what is passed on to the crates above. What is loaded of the crates below counts for the module that needs
it. The libraries below are built already, by `rt check` or `rt lib` in the crate's folder, or by `rt ci`."""
import collections, os, re, subprocess, sys, tempfile

TOP = os.path.dirname(os.path.dirname(os.path.abspath(__file__)))
MOST, LEAST = 12, 0.3  # so many modules of a crate are shown, and none that takes less
sys.dont_write_bytecode = True
sys.path.insert(0, os.path.join(TOP, 'tests'))
import kit


def seconds(crate):
    """The seconds of each module of a check from nothing."""
    folder = os.path.join(TOP, 'crates', crate)
    words = kit.compiler('check', crate, [it for it in kit.uses()[crate] if it in kit.uses()])
    if os.path.exists(os.path.join(folder, 'src', 'main.rt')):
        words[words.index('src/lib.rt')] = 'src/main.rt'
    with tempfile.TemporaryDirectory() as kept:
        run = subprocess.run(words + ['--jobs', '1', '--incremental', kept], cwd=folder, stdin=subprocess.DEVNULL, capture_output=True, text=True)
        if run.returncode:
            sys.exit(run.stdout[-2000:] + run.stderr[-2000:])
        saved = sorted((os.stat(os.path.join(place, name)).st_mtime, name) for place, _, names in os.walk(kept) for name in names
                       if name.endswith('.oantt') and not name.endswith('.decls.oantt'))
    taken = collections.Counter()
    for (before, _), (after, name) in zip(saved, saved[1:]):
        taken[re.sub(r'^Rattle[-.]\w+([-.](proofs|specs)[-.]?)?', '', name[:-len('.oantt')]) or crate] += after - before
    return taken


def main():
    if not sys.argv[1:]:
        sys.exit(__doc__)
    for crate in sys.argv[1:]:
        taken = seconds(crate)
        print(f'{crate}: {sum(taken.values()):.1f} s')
        for module, took in taken.most_common(MOST):
            if took >= LEAST:
                print(f'{took:8.1f} {module}')


main()
