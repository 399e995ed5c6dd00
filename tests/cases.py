#!/usr/bin/env python3
"""Writes the recorded cases of the program `suite`, crates/suite/stdin and stdout, from tests/vectors: every vector,
the calls that write with other rooms, a few cases at the limits, and two of what the program writes too far on purpose.

    tests/cases.py           write both files
    tests/cases.py --check   only say whether they are up to date

stdin: one case after the other, all numbers 32 bits, lowest byte first: the call (CALLS), the room, the number of words, the number of values, the words, the values (signed; of best_bits the variable's number and the direction); of a text each word is a byte. stdout: the answer of each case, a line each."""
import glob, os, struct, sys

HERE = os.path.dirname(os.path.abspath(__file__))
SUITE = os.path.join(os.path.dirname(HERE), 'crates', 'suite')
CALLS = {'too_far': 0, 'check': 1, 'translate': 2, 'judge_model': 3, 'judge_rows': 4, 'fill': 5, 'sheet': 6, 'text': 7, 'reason': 8, 'solutions': 9, 'bits': 10,
         'pair_check': 11, 'pair_translate': 12, 'pair_judge_model': 13, 'pair_fill': 14, 'bit_values': 15,
         'bit_energy': 16, 'value_bits': 17, 'best_bits': 18}
MORE = 3  # how much longer than wanted a list is lent, so that what stands past the end is seen


def recorded():
    for path in sorted(glob.glob(os.path.join(HERE, 'vectors', '*.txt'))):
        for line in open(path):
            call, words, values, room, answer = (part.strip() for part in line.rstrip('\n').split('|'))
            yield (call, [] if words == '-' else [int(w, 16) for w in words.split()], [] if values == '-' else [int(v) for v in values.split()],
                   0 if room == '-' else int(room), answer)


def rooms(call, words, values, room, answer):
    """The same call with a list one too short, of the wanted length and longer; what is wanted is what the recorded answer writes."""
    kind, *written = answer.split()
    if kind not in ('words', 'filled', 'bytes', 'solutions', 'values', 'bits'):
        return
    if kind == 'solutions':
        written = written[1:]
    wanted = len(''.join(written)) // 2 if kind == 'bytes' else len(written)
    for other in (wanted - 1, wanted, wanted + MORE):
        if other >= 0 and other != room:
            yield call, words, values, other, answer if other >= wanted else 'refused 16 0'


def long_model(words):
    """A model of so many words, 16 Boolean variables and clauses over them, true of all ones."""
    model = [0x30000000] * 16
    while len(model) < words - 1:
        left = words - 1 - len(model)
        # a clause of n and m variables has n + m + 3 words
        n = min(left - 3, 64) if left - 3 <= 64 or left - 3 - 64 >= 4 else left - 3 - 4
        first, second = (n + 1) // 2, n // 2
        model += [0x40000015, 0x60000000 + first] + [0x50000000 + i % 16 for i in range(first)]
        model += [0x60000000 + second] + [0x50000000 + i % 16 for i in range(second)]
    return model + [0x70000000]


def clauses(model):
    """The clauses of such a model: the variables of each one's two lists."""
    at = 16
    while model[at] == 0x40000015:
        n = model[at + 1] - 0x60000000
        m = model[at + n + 2] - 0x60000000
        yield model[at + 2:at + n + 2], model[at + n + 3:at + n + m + 3]
        at += n + m + 3


def long_rows(model):
    """Its row system by the rule of code 21: −Σas + Σbs + 1 − m ≤ 0."""
    system = model[:16]
    for first, second in clauses(model):
        system += [0xA0000000 + len(first) + len(second)]
        for x in first:
            system += [x, 0x6FFFFFFF]
        for x in second:
            system += [x, 0x60000001]
        system += [0x60000000 + (1 - len(second)) % 2 ** 28]
    return system + [0xF0000000]


def long_system(words, last):
    """A row system of so many words: 16 variables, rows of one to 62 terms that are 0 of all zeros, the last one with this constant."""
    system = [0x30000000] * 16
    while len(system) < words - 1:
        left = words - 1 - len(system)
        # a row of n terms has 2 × n + 2 words; an odd number of words is made even by a pair of bounds fewer
        n = min((left - 2) // 2, 62) if left - 2 <= 124 or left - 126 >= 2 else (left - 4) // 2
        constant = last if left == 2 * n + 2 else 0
        system += [0xB0000000 + n]
        for k in range(n):
            system += [0x50000000 + k % 16, 0x60000001]
        system += [0x60000000 + constant]
    return system + [0xF0000000]


def long_form(system):
    """The words of the form of such a system over bits, a bit for each variable: the rows' squares."""
    rows, at = [], 0
    while system[at] != 0xF0000000:
        n = system[at] - 0xB0000000 if system[at] >> 28 == 0xB else -1
        if n >= 0:
            rows.append(([system[at + 1:at + 2 * n:2].count(0x50000000 + i) for i in range(16)], system[at + 2 * n + 1] - 0x60000000))
        at += 2 * n + 2 if n >= 0 else 1
    words = [0x60000000 + sum(c * c for _, c in rows)]
    for i in range(16):
        for j in range(i, 16):
            entry = sum((2 - (i == j)) * a[i] * a[j] + 2 * (i == j) * a[i] * c for a, c in rows)
            words += [0x50000000 + i, 0x50000000 + j, 0x60000000 + entry] if entry else []
    return words + [0xF0000000]


def long_text(words):
    """A text of so many words, 16 Boolean variables and clauses over them, with its words."""
    model = long_model(words)
    items = [f'var bool:b{i};' for i in range(16)]
    for lists in clauses(model):
        first, second = ('[' + ','.join(f'b{x - 0x50000000}' for x in xs) + ']' for xs in lists)
        items.append(f'constraint bool_clause({first},{second});')
    return list(''.join(items + ['solve satisfy;']).encode()), model


def limits():
    """Cases at the limits of length; their answers follow from docs/RULES.md at sight."""
    yield 'judge_model', long_model(8192), [1] * 16, 0, 'holds'
    yield 'judge_model', long_model(8192), [1] * 15 + [2], 0, 'bound 15'
    yield 'judge_model', long_model(8193), [1] * 16, 0, 'refused 1 0'
    model, above = long_model(8192), long_model(8193)
    rows, count = long_rows(model), len(list(clauses(model)))
    yield 'check', model, [], 0, f'counts 16 {count} 0 {count} {len(rows)}'
    yield 'check', above, [], 0, 'refused 1 0'
    written = 'words ' + ' '.join('%08X' % w for w in rows)
    for room, answer in (len(rows), written), (len(rows) - 1, 'refused 16 0'):
        yield 'translate', model, [], room, answer
    yield 'translate', above, [], 262144, 'refused 1 0'
    yield 'fill', model, [1] * 16, 16, 'filled' + ' 1' * 16
    yield 'fill', above, [1] * 16, 16, 'refused 1 0'
    whole = [0x30000000] + long_system(262143, 1)
    rows = sum(w >> 28 == 0xB for w in whole)
    yield 'judge_rows', whole, [0] * 17, 0, f'false {rows - 1}'
    yield 'judge_rows', [0x30000000] + whole, [0] * 18, 0, 'refused 1 0'
    yield 'sheet', whole, [], 8192, 'refused 16 0'
    yield 'sheet', [0x30000000] + whole, [], 8192, 'refused 1 0'
    form = long_form(whole)
    yield 'bits', whole, [], len(form), 'words ' + ' '.join('%08X' % w for w in form)
    yield 'bits', [0x30000000] + whole, [], 0, 'refused 1 0'
    text, words = long_text(8192)
    for room, answer in (8192, 'words ' + ' '.join('%08X' % w for w in words)), (8191, 'refused 16 0'):
        yield 'text', text, [], room, answer
    yield 'text', long_text(8193)[0], [], 8191, 'refused 1 0'
    yield 'text', long_text(8193)[0] + [64], [], 8191, f'refused 19 {len(long_text(8193)[0])}'
    for upper, answer in (65535, 'solutions 0'), (65536, 'refused 22 0'):  # one variable that is not itself
        yield 'solutions', [0x10000000, 0x20000000 + upper, 0x40000004, 0x50000000, 0x50000000, 0x70000000], [], 0, answer
    # a model of 8,192 words, and one of a word more, as each candidate's; the other wrote one constraint, or nothing but the end
    for first, second, answers in (model, [0x70000000], ('holds', 'holds')), (above, [0x70000000], ('refused 1 0', 'holds')):
        for candidate, answer in enumerate(answers, 1):
            yield 'pair_judge_model', first[:-1] + [0xD0000000] + second, [candidate] + [1] * 16, 0, answer
    for second, answer in (model, 'holds'), (above, 'refused 1 0'):
        yield 'pair_judge_model', model[:16] + [0xD0000000] + second[16:], [2] + [1] * 16, 0, answer


def marked():
    """No call: what suite itself writes further than it says, so that a line that ends in ` changed` is seen."""
    yield 'too_far', [], [], 4, 'words' + ' 00000000' * 3 + ' changed'
    yield 'too_far', [], [], 1, 'words changed'


def cases():
    yield from marked()
    yield from recorded()
    for case in recorded():
        yield from rooms(*case)
    yield from limits()


def files():
    stdin, stdout = b'', ''
    for call, words, values, room, answer in cases():
        stdin += struct.pack('<4I', CALLS[call], room, len(words), len(values))
        stdin += struct.pack('<%dI' % len(words), *words) + struct.pack('<%dI' % len(values), *(v % 2 ** 32 for v in values))
        stdout += answer + '\n'
    return {'stdin': stdin, 'stdout': stdout.encode()}


def main():
    stale = [name for name, data in files().items()
             if not os.path.exists(os.path.join(SUITE, name)) or open(os.path.join(SUITE, name), 'rb').read() != data]
    if sys.argv[1:] == ['--check']:
        if stale:
            print('not what tests/cases.py makes: ' + ', '.join('crates/suite/' + name for name in stale))
        return 1 if stale else 0
    for name, data in files().items():
        with open(os.path.join(SUITE, name), 'wb') as out:
            out.write(data)
    return 0


if __name__ == '__main__':
    sys.exit(main())
