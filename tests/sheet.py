#!/usr/bin/env python3
"""Runs the program sheet on the bytes of row systems and compares what it prints: rows and products of every length, numbers of every
width, refusals, the limits, and every recorded answer of sheet that the program must give too. The last line says how many runs agree. Exit status 1
at the first difference."""
import glob, os, struct, subprocess, sys

HERE = os.path.dirname(os.path.abspath(__file__))
SHEET = os.path.join(os.path.dirname(HERE), 'crates', 'sheet', 'out', 'sheet')
PAGE = 262144  # the bytes that the program prints at most
BOOLEAN, END = 0x30000000, 0xF0000000
AT_MOST, EQUAL, PRODUCT = 10, 11, 12
LARGEST = 2 ** 27 - 1


def word(kind, payload):
    return (kind << 28) + payload % 2 ** 28


def row(kind, terms, constant):
    """A row of terms (coefficient, variable)."""
    return [word(kind, len(terms))] + [w for a, x in terms for w in (word(5, x), word(6, a))] + [word(6, constant)]


def product(result, first, second):
    return [word(PRODUCT, 0), word(5, result), word(5, first), word(5, second)]


def printed(rows):
    """The sheet, by docs/RULES.md, 7.5: rows (sign, terms, constant)."""
    lines = []
    for k, (sign, terms, constant) in enumerate(rows):
        cells = ['%10d v%-11d' % term for term in terms]
        for at in range(0, max(len(cells), 1), 3):
            head = '%6d%-2s' % (k, sign) if at == 0 else ' ' * 8
            lines.append((head + ''.join(cells[at:at + 3])).ljust(80))
        lines.append('%80d' % constant)
    assert all(len(line) == 80 for line in lines)
    return ''.join(line + '\n' for line in lines)


def system(booleans, items):
    """The words of a row system over Boolean variables, and its sheet. An item: kind, terms, constant; or three variables, a product."""
    words, rows = [BOOLEAN] * booleans, []
    for item in items:
        if item[0] == PRODUCT:
            words += product(*item[1:])
            rows.append((':=', [(1, x) for x in item[1:]], 0))
        else:
            words += row(*item)
            rows.append(('<=' if item[0] == AT_MOST else '=', item[1], item[2]))
    return words + [END], printed(rows)


def accepted():
    """Row systems without a fault, with their sheets."""
    numbers = [0, 1, -1, 9, -9, 10, -10, 99, 100, 12345678, -99999999, 100000000, LARGEST, -LARGEST]
    yield system(0, [])
    yield system(0, [(AT_MOST, [], c) for c in numbers])
    yield system(4096, [(EQUAL, [(a, x)], a) for a, x in zip(numbers, [0, 9, 10, 99, 100, 999, 1000, 4095] * 2)])
    yield system(70, [(kind, [(k - n, k) for k in range(n)], n) for kind in (AT_MOST, EQUAL) for n in range(67)])
    yield system(12, [(PRODUCT, 11, 10, 0), (AT_MOST, [], 0), (PRODUCT, 2, 1, 1)])
    yield system(1, [(AT_MOST, [], 0)] * 1001)
    full = PAGE // 162  # rows of two lines that the page has room for
    yield system(0, [(EQUAL, [], -k) for k in range(full)])


def refusals():
    """Words with one fault each: the fault's number, its place."""
    yield [BOOLEAN] * 16384, 14, 4096
    yield [], 2, 0
    yield [BOOLEAN], 2, 1
    yield [word(7, 0)], 3, 0
    yield [word(1, 1), word(2, 0), END], 4, 1
    yield [END + 1], 5, 0
    yield [word(AT_MOST, 67), END], 9, 0
    yield [BOOLEAN] + row(AT_MOST, [(1, 1)], 0) + [END], 10, 2
    yield [END, END], 11, 1
    yield [BOOLEAN] * 2 + product(1, 1, 0) + [END], 17, 3
    yield row(AT_MOST, [], -LARGEST - 1) + [END], 18, 1
    yield system(0, [(EQUAL, [], 0)] * (PAGE // 162 + 1))[0], 16, 0  # one line more than the page has room for
    yield system(0, [(EQUAL, [], 0)] * 8192)[0], 16, 0  # 16,385 words
    yield [word(7, 0)] * 16385, 16, 0  # more words than the program reads


def packed(words):
    return struct.pack('<%dI' % len(words), *words)


def recorded():
    """The vectors of sheet; those whose refusal is that of a short page, with the room of the program, are left out."""
    for path in sorted(glob.glob(os.path.join(HERE, 'vectors', '*.txt'))):
        for line in open(path):
            call, words, _, _, answer = (part.strip() for part in line.rstrip('\n').split('|'))
            if call == 'sheet' and not answer.startswith('refused 16 '):
                kind, *rest = answer.split()
                text = bytes.fromhex(''.join(rest)).decode() if kind == 'bytes' else answer + '\n'
                yield packed([int(w, 16) for w in words.split()]), text


def runs():
    """The bytes of standard input, what the program must print."""
    for words, text in accepted():
        yield packed(words), text
        yield packed(words) + b'\x01\x02\x03', text
    for words, fault, place in refusals():
        yield packed(words), f'refused {fault} {place}\n'
    yield from recorded()


def shown(text):
    lines = text.split('\n')
    return '\n'.join(lines[:30]) + (f'\n.. {len(lines)} lines' if len(lines) > 30 else '')


def main():
    if not os.path.exists(SHEET):
        print('crates/sheet/out/sheet is not there: rt ci makes it, and rt run in its folder')
        return 1
    count = 0
    for stdin, expected in runs():
        run = subprocess.run([SHEET], input=stdin, capture_output=True)
        seen = run.stdout.decode('ascii', 'replace')
        if seen != expected or run.returncode:
            print(f'sheet on {len(stdin)} bytes, {stdin[:64].hex()}: expected\n{shown(expected)}\nseen, with exit status {run.returncode},\n{shown(seen)}')
            return 1
        count += 1
    print(f'sheet: {count} runs agree')
    return 0


if __name__ == '__main__':
    sys.exit(main())
