#!/usr/bin/env python3
"""Runs the program bits on the bytes of row systems and compares what it prints: the forms of row systems with rows, products, slacks and
numbers of every sort, refusals, the limits, and every recorded answer of bits that the program must give too. The last line says how many runs agree.
Exit status 1 at the first difference."""
import collections, glob, os, struct, subprocess, sys

HERE = os.path.dirname(os.path.abspath(__file__))
BITS = os.path.join(os.path.dirname(HERE), 'crates', 'bits', 'out', 'bits')
BOOLEAN, END = 0x30000000, 0xF0000000
AT_MOST, EQUAL, PRODUCT = 10, 11, 12
LARGEST = 2 ** 27 - 1
ROOM = 16384  # the words that the program reads at most, and prints at most


def word(kind, payload):
    return (kind << 28) + payload % 2 ** 28


def variables(bounds):
    return [w for lower, upper in bounds for w in (word(1, lower), word(2, upper))]


def row(kind, terms, constant):
    """A row of terms (coefficient, variable)."""
    return [word(kind, len(terms))] + [w for a, x in terms for w in (word(5, x), word(6, a))] + [word(6, constant)]


def product(result, first, second):
    return [word(PRODUCT, 0), word(5, result), word(5, first), word(5, second)]


def system(bounds, items):
    """The words of a row system. An item: kind, terms, constant; or PRODUCT and three variables."""
    return variables(bounds) + [w for item in items for w in (product(*item[1:]) if item[0] == PRODUCT else row(*item))] + [END]


class Form:
    """The form of a row system, by docs/RULES.md, 9."""

    def __init__(self, bounds, items):
        self.bits, self.entries = 0, collections.Counter()
        self.variables = [(lower, self.new(upper - lower)) for lower, upper in bounds]
        for item in items:
            self.square(*(self.product(*item[1:]) if item[0] == PRODUCT else self.row(bounds, *item)))

    def new(self, width):
        """Bits for numbers from 0 to the width: terms of a weight and a bit."""
        weights = []
        while sum(weights) < width:
            weights.append(min(2 ** len(weights), width - sum(weights)))
        self.bits += len(weights)
        return [(weight, self.bits - len(weights) + k) for k, weight in enumerate(weights)]

    def row(self, bounds, kind, terms, constant):
        slack = []
        if kind == AT_MOST:
            least = constant + sum(min(a * bounds[x][0], a * bounds[x][1]) for a, x in terms)
            slack = self.new(max(0, -least))
        over = [(a * weight, bit) for a, x in terms for weight, bit in self.variables[x][1]]
        return constant + sum(a * self.variables[x][0] for a, x in terms), over + slack

    def product(self, result, first, second):
        (low, bits), (a, us), (b, vs) = (self.variables[x] for x in (result, first, second))
        terms = bits + [(-a * weight, v) for weight, v in vs] + [(-b * weight, u) for weight, u in us]
        for weight, u in us:
            for other, v in vs:
                t, self.bits = self.bits, self.bits + 1
                self.add(t, t, 3), self.add(u, v, 1), self.add(u, t, -2), self.add(v, t, -2)
                terms.append((-weight * other, t))
        return low - a * b, terms

    def add(self, i, j, number):
        self.entries[min(i, j), max(i, j)] += number

    def square(self, constant, terms):
        self.entries[-1, -1] += constant * constant
        merged = collections.Counter()
        for a, bit in terms:
            merged[bit] += a
        for i, a in merged.items():
            self.add(i, i, a * a + 2 * constant * a)
            for j, b in merged.items():
                if i < j:
                    self.add(i, j, 2 * a * b)

    def words(self):
        constant = self.entries.pop((-1, -1), 0)
        return [word(6, constant)] + [w for (i, j), a in sorted(self.entries.items()) if a for w in (word(5, i), word(5, j), word(6, a))] + [END]


def accepted():
    """Row systems without a fault: bounds, items."""
    yield [(0, 3), (0, 2), (0, 1)], [(AT_MOST, [(1, 0), (-1, 1), (-4, 2)], 1), (AT_MOST, [(1, 1), (-1, 0), (3, 2)], -2)]  # T3 of docs/RULES.md, 13
    yield [], []
    yield [(7, 7)], []
    yield [], [(EQUAL, [], 5), (AT_MOST, [], 5), (AT_MOST, [], -5)]
    yield [(-3, 4), (2, 2), (0, 100)], [(EQUAL, [(2, 0), (3, 1), (-1, 2), (-1, 0)], 7), (AT_MOST, [(0, 0), (5, 1)], -10)]
    yield [(-2, 3), (0, 1), (-9, 9)], [(PRODUCT, 2, 0, 0), (PRODUCT, 2, 0, 1), (PRODUCT, 1, 0, 0)]
    yield [(0, 16384)], [(EQUAL, [(1, 0)], -5)]
    yield [(0, 1)], [(EQUAL, [(16384, 0)], -8192)]  # its entry is 0
    yield [(0, 1)] * 66, [(EQUAL, [(k - 33, k) for k in range(66)], 1)]
    yield [(0, 1)] * 102, [(EQUAL, [(1, k) for k in range(n, n + 66)], -1) for n in range(37)]  # 15,512 words
    yield [(0, 1)] * 1024, [(EQUAL, [(1, k)], 0) for k in range(0, 1024, 2)]


def refusals():
    """Words with one fault each: the fault's number, its place."""
    yield [BOOLEAN] * ROOM, 14, 4096
    yield [], 2, 0
    yield [BOOLEAN], 2, 1
    yield [word(7, 0)], 3, 0
    yield [word(1, 1), word(2, 0), END], 4, 1
    yield [END + 1], 5, 0
    yield [word(AT_MOST, 67), END], 9, 0
    yield [BOOLEAN] + row(AT_MOST, [(1, 1)], 0) + [END], 10, 2
    yield [END, END], 11, 1
    yield [BOOLEAN] * 2 + product(1, 1, 0) + [END], 17, 3
    yield row(AT_MOST, [], -LARGEST - 1) + [END], 18, 1
    yield [BOOLEAN] * 1025 + [END], 23, 0
    yield [BOOLEAN] * 1024 + row(AT_MOST, [], -1) + [END], 23, 0  # its slack needs one bit more
    yield system([(0, 1)], [(EQUAL, [(16385, 0)], -8192)]), 24, 0
    yield system([(0, 1)], [(EQUAL, [(16384, 0), (1, 0)], -8192)]), 24, 0
    yield system([(0, 1)], [(EQUAL, [(1, 0)], -16385)]), 24, 0
    yield system([], [(EQUAL, [], 16384)]), 24, 0  # the square of the constant
    yield system([(0, 1)] * 132, [(EQUAL, [(1, k) for k in range(n, n + 66)], -1) for n in range(67)]), 16, 0  # 19,968 words
    yield system([], [(EQUAL, [], 0)] * 8192), 16, 0  # 16,385 words
    yield [word(7, 0)] * (ROOM + 1), 16, 0  # more words than the program reads


def packed(words):
    return struct.pack('<%dI' % len(words), *words)


def listing(words):
    return ''.join('%08X\n' % w for w in words)


def recorded():
    """The vectors of bits; those whose refusal is that of a short list, with the room of the program, are left out."""
    for path in sorted(glob.glob(os.path.join(HERE, 'vectors', '*.txt'))):
        for line in open(path):
            call, words, _, _, answer = (part.strip() for part in line.rstrip('\n').split('|'))
            if call == 'bits' and not answer.startswith('refused 16 '):
                kind, *rest = answer.split()
                yield packed([int(w, 16) for w in words.split()]), listing(int(w, 16) for w in rest) if kind == 'words' else answer + '\n'


def runs():
    """The bytes of standard input, what the program must print."""
    for bounds, items in accepted():
        words, form = system(bounds, items), Form(bounds, items).words()
        assert len(words) <= ROOM and len(form) <= ROOM, (len(words), len(form))
        yield packed(words), listing(form)
        yield packed(words) + b'\x01\x02\x03', listing(form)
    for words, fault, place in refusals():
        yield packed(words), f'refused {fault} {place}\n'
    yield from recorded()


def shown(text):
    lines = text.split('\n')
    return '\n'.join(lines[:30]) + (f'\n.. {len(lines)} lines' if len(lines) > 30 else '')


def main():
    if not os.path.exists(BITS):
        print('crates/bits/out/bits is not there: rt ci makes it, and rt run in its folder')
        return 1
    count = 0
    for stdin, expected in runs():
        run = subprocess.run([BITS], input=stdin, capture_output=True)
        seen = run.stdout.decode('ascii', 'replace')
        if seen != expected or run.returncode:
            print(f'bits on {len(stdin)} bytes, {stdin[:64].hex()}: expected\n{shown(expected)}\nseen, with exit status {run.returncode},\n{shown(seen)}')
            return 1
        count += 1
    print(f'bits: {count} runs agree')
    return 0


if __name__ == '__main__':
    sys.exit(main())
