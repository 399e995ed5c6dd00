#!/usr/bin/env python3
"""Writes tests/vectors/names.txt: short texts whose names are hard to tell apart. What each is answered follows from how it is made, not from a program.

    tests/names.py           writes the file
    tests/names.py --check   only say whether it is up to date

The place of a fault is that of the mark @, which is taken out. Long texts of the same sort are made by tests/twin/names.rs. Some names share a hash: it must
be the one of the library's symbol table."""
import itertools, os, sys

PATH = os.path.join(os.path.dirname(os.path.abspath(__file__)), 'vectors', 'names.txt')
LETTERS = 'abcdefghijklmnopqrstuvwxyzABCDEFGHIJKLMNOPQRSTUVWXYZ'
BYTES = LETTERS + '0123456789_'
LONGEST = 32
MULTIPLIER = 2654435769
LINKS = os.path.join(os.path.dirname(os.path.dirname(PATH)), '..', 'crates', 'symbols', 'specs', 'Links.antt')
HASH = '(h * 257 + b) % 4294967296', 'fold mix 0 x * 2654435769 % 4294967296', 'h / 2 ^ 19'  # as the table's definitions have it


def in_order():
    """All names, the shorter ones first."""
    for more in itertools.count():
        for name in itertools.product(LETTERS, *[BYTES] * more):
            yield ''.join(name)


def link_of(name):
    """The first link of a name, by crates/symbols/specs/Links.antt."""
    hashed = 0
    for byte in name.encode():
        hashed = (hashed * 257 + byte) % 2 ** 32
    return hashed * MULTIPLIER % 2 ** 32 >> 19


def slot_of(name):
    """The slot of a name by another hash: the middle bits of products."""
    hashed = 0
    for byte in (*name.encode(), 0):
        hashed = ((hashed + byte) * MULTIPLIER >> 16) % 2 ** 32
    return hashed % 8192


def alike(key, count):
    """Names in order of which all have one key."""
    return list(itertools.islice((name for name in in_order() if key(name) == 77), count))


def of_one_hash(step):
    """Five bytes; those of any step, from 0 to 4, have one hash, and names of them: they differ by multiples of 1, -4, 6, -4, 1, and 256 to the power 4 is 2 to the power 32."""
    return ''.join(chr(ord(byte) + step * by) for byte, by in zip('auaua', (1, -4, 6, -4, 1)))


def families():
    """Names that share something; the last one of each is never declared."""
    yield ['x' * (LONGEST - 1) + last for last in 'abA0_9']
    yield ['q', 'q0', 'q_', 'qq', 'qQ', 'qqq', 'q00']
    yield ['a' * length for length in (1, 2, 3, 30, 31, 32, 29)]
    yield [of_one_hash(step) for step in range(5)]
    yield alike(link_of, 34)
    yield alike(slot_of, 34)


def declared(names, sign=''):
    return ''.join(f'var bool:{sign}{name};' for name in names)


def used(names):
    return f'constraint array_bool_xor([{",".join(names)}]);'


END = 'solve satisfy;'


def refused():
    """Texts with their faults."""
    for *names, unknown in families():
        ends = [names[0], names[-1]]
        for name in names[0], names[len(names) // 2], names[-1]:
            yield declared(names) + declared([name], '@') + END, 20
        yield declared(names[:1]) + declared([names[0]], '@') + declared(names[1:]) + END, 20
        for mark, fault in ('@%s', 20), ('@$%s', 19), ('@%s$', 20):
            yield declared(names) + used([mark % unknown, *ends]) + END, fault
            yield declared(names) + used([*ends, mark % unknown]) + END, fault
        yield '@$' + declared(names) + declared(names[:1]) + END, 19
        yield declared(names) + '@$' + declared(names[:1]) + END, 19
        yield declared(names) + declared([ends[0]], '@')[:-1] + '$;' + END, 20
        yield declared(names) + declared([ends[1]], '@') + END + '$', 20
        yield declared(names) + used(ends) + END + '@$', 19
    for length in LONGEST + 1, 63, 64, 65:
        name = 'n' * length
        yield declared([name], '@') + END, 19
        yield declared(['m']) + declared([name], '@') + END, 19
        yield declared([name], '@') + declared(['m', 'm']) + END, 19
        yield declared(['m', name[:LONGEST]]) + used(['m', '@' + name]) + END, 19
        yield declared(['m', name[:LONGEST]]) + used(['@' + name, 'm']) + END, 19
        yield declared(['m']) + f'constraint @{name}(m);' + END, 19


def accepted():
    """Texts without a fault, and the variables that their constraint has."""
    for *names, _ in families():
        which = range(len(names)) if len(names) < 10 else [0, len(names) - 1]
        yield declared(names) + used([names[at] for at in which]) + END, len(names), which


def vector(text, room, answer):
    return f'text | {" ".join("%02X" % byte for byte in text.encode())} | - | {room} | {answer}\n'


def vectors():
    for text, count, which in accepted():
        words = [0x30000000] * count + [0x40000017, 0x60000000 + len(which)] + [0x50000000 + at for at in which] + [0x70000000]
        yield vector(text, len(words), 'words ' + ' '.join('%08X' % word for word in words))
    for text, fault in refused():
        assert text.count('@') == 1
        yield vector(text.replace('@', ''), 0, f'refused {fault} {text.index("@")}')


def main():
    if not all(part in open(LINKS).read() for part in HASH):
        print('crates/symbols/specs/Links.antt has another hash than tests/names.py and tests/twin/names.rs')
        return 1
    data = ''.join(vectors())
    if sys.argv[1:] != ['--check']:
        open(PATH, 'w').write(data)
    elif not os.path.exists(PATH) or open(PATH).read() != data:
        print('not what tests/names.py makes: tests/vectors/names.txt')
        return 1
    return 0


if __name__ == '__main__':
    sys.exit(main())
