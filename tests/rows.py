#!/usr/bin/env python3
"""Runs the program rows on the bytes of models and compares what it prints: T3 of docs/RULES.md, 13, a refusal of each kind that it can meet,
the limits, and every vector that tells all that it must print. The last line says how many runs agree. Exit status 1 at the first difference."""
import glob, os, struct, subprocess, sys

HERE = os.path.dirname(os.path.abspath(__file__))
ROWS = os.path.join(os.path.dirname(HERE), 'crates', 'rows', 'out', 'rows')
BOOLEAN, END = 0x30000000, 0x70000000
FALSE_CLAUSE = [0x40000017, 0x60000000]  # array_bool_xor of an empty list


def payload(kind, number):
    return (kind << 28) + number % 2 ** 28


def integer(lower, upper):
    return [payload(1, lower), payload(2, upper)]


def head(code):
    return payload(4, code)


def variable(number):
    return payload(5, number)


def number(value):
    return payload(6, value)


def packed(words):
    return struct.pack('<%dI' % len(words), *words)


def listing(words):
    return ''.join('%08X\n' % w for w in words)


# T3 of docs/RULES.md, 13, and its listing.
T3 = integer(0, 3) + integer(0, 2) + [head(4), variable(0), variable(1), END]
T3_ROWS = [int(w, 16) for w in (
    '10000000 20000003 10000000 20000002 80000000 90000001 A0000003 50000000 60000001 50000001 6FFFFFFF 50000002 6FFFFFFC 60000001 '
    'A0000003 50000001 60000001 50000000 6FFFFFFF 50000002 60000003 6FFFFFFE F0000000').split()]


def sets(count, booleans):
    """A model of set_in_reif(x, {}, r), each with an x of its own in 0..63; after these and r more Boolean variables."""
    constraints = [w for x in range(count) for w in (head(28), variable(x), number(0), variable(count))]
    return integer(0, 63) * count + [BOOLEAN] * (1 + booleans) + constraints + [END]


def sets_rows(count, booleans):
    """Its row system by the rule of code 28: Σb−1=0, Σv×b_v−x=0, and of no members −r=0."""
    system = integer(0, 63) * count + [BOOLEAN] * (1 + booleans)
    for x in range(count):
        bits = [variable(count + 1 + booleans + 64 * x + v) for v in range(64)]
        system += [payload(8, 0), payload(9, 1)] * 64
        system += [payload(11, 64)] + [w for b in bits for w in (b, number(1))] + [number(-1)]
        system += [payload(11, 65)] + [w for v, b in enumerate(bits) for w in (b, number(v))] + [variable(x), number(-1), number(0)]
        system += [payload(11, 1), variable(count), number(-1), number(0)]
    return system + [payload(15, 0)]


def refusals():
    """Models with one fault each: the words, the fault's number, its place."""
    yield [BOOLEAN] * 8193, 1, 0
    yield [BOOLEAN] * 20000, 1, 0
    yield [], 2, 0
    yield [BOOLEAN], 2, 1
    yield [payload(9, 0)], 3, 0
    yield integer(1, 0) + [END], 4, 1
    yield [BOOLEAN + 1, END], 5, 0
    yield [END + 1], 5, 0
    yield [BOOLEAN] * 257 + [END], 6, 256
    yield [BOOLEAN] * 8192, 6, 256
    yield FALSE_CLAUSE * 257 + [END], 7, 512
    yield [head(0), END], 8, 0
    yield [head(255), END], 8, 0
    yield [head(23), number(33), END], 9, 1
    yield [head(23), number(-1), END], 9, 1
    yield [head(23), number(1), variable(0), END], 10, 2
    yield integer(0, 1) + [head(23), number(1), variable(0), END], 10, 4
    yield [END, END], 11, 1
    yield integer(0, 64) + [BOOLEAN, head(28), variable(0), number(0), variable(1), END], 12, 3
    yield integer(0, 2 ** 27 - 1) + integer(-1, 2 ** 27 - 1) + [BOOLEAN, head(5), variable(0), variable(1), variable(2), END], 13, 5
    yield sets(63, 1), 14, 128 + 4 * 62  # 65 + 63 × 64 variables and auxiliaries
    yield sets(63, 0), 16, 0
    yield sets(41, 147), 16, 0  # 16,385 row words


def accepted():
    """Models without a fault: the words, those of the row system."""
    yield T3, T3_ROWS
    yield [END], [payload(15, 0)]
    blocks = ([payload(8, 0), payload(9, 0), payload(11, 1), variable(t), number(-2), number(-1)] for t in range(256))
    yield FALSE_CLAUSE * 256 + [END], [w for block in blocks for w in block] + [payload(15, 0)]
    yield sets(1, 0), sets_rows(1, 0)
    yield sets(41, 146), sets_rows(41, 146)  # 16,384 row words


def recorded():
    """The vectors of translate with all words, and those of check with a refusal."""
    for path in sorted(glob.glob(os.path.join(HERE, 'vectors', '*.txt'))):
        for line in open(path):
            call, words, _, _, answer = (part.strip() for part in line.rstrip('\n').split('|'))
            kind, *rest = answer.split()
            if (call, kind) not in (('translate', 'words'), ('check', 'refused')):
                continue
            model = packed([int(w, 16) for w in words.split()])
            yield model, listing(int(w, 16) for w in rest) if kind == 'words' else answer + '\n'


def runs():
    """The bytes of standard input, what the program must print."""
    for words, fault, place in refusals():
        yield packed(words), f'refused {fault} {place}\n'
    for words, system in accepted():
        yield packed(words), listing(system)
    for spare in b'\x01', b'\x01\x02', b'\x01\x02\x03':
        yield packed(T3) + spare, listing(T3_ROWS)
        yield spare, 'refused 2 0\n'
    yield from recorded()


def shown(text):
    lines = text.split('\n')
    return '\n'.join(lines[:30]) + (f'\n.. {len(lines)} lines' if len(lines) > 30 else '')


def main():
    if not os.path.exists(ROWS):
        print('crates/rows/out/rows is not there: rt ci makes it, and rt run in its folder')
        return 1
    count = 0
    for stdin, expected in runs():
        run = subprocess.run([ROWS], input=stdin, capture_output=True)
        seen = run.stdout.decode('ascii', 'replace')
        if seen != expected or run.returncode:
            print(f'rows on {len(stdin)} bytes, {stdin[:64].hex()}: expected\n{shown(expected)}\nseen, with exit status {run.returncode},\n{shown(seen)}')
            return 1
        count += 1
    print(f'rows: {count} runs agree')
    return 0


if __name__ == '__main__':
    sys.exit(main())
