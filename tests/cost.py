#!/usr/bin/env python3
"""Counts the instructions that the call text takes on texts made to be slow, each at two lengths, by valgrind's callgrind.

    tests/cost.py [LIBRARY]     an archive or a shared library that has the call; target/libpearrummy.a if none is given

Nothing is measured in seconds, so that a busy machine changes no answer. Time is to be linear in the length; of a text with more different names than a
model can have, 8,191, it may be that many times the length for each 8,191 names that stand in it. So the longer text of a sort takes at most RATIO times the
instructions of the shorter one, for each time that it is longer, and no text takes more than BYTE instructions a byte, both times the names where these are
more. The ratio alone would not tell a linear time from some hundred walks over the text, nor length times names from the square of the length.

Where valgrind is missing, tests/packages.py says what becomes of it."""
import itertools, os, re, subprocess, sys, tempfile

sys.dont_write_bytecode = True
import names, packages

TOP = os.path.dirname(os.path.dirname(os.path.abspath(__file__)))
CALL = 'pearrummy_text'
RATIO, BYTE = 1.15, 1000
NAMES = 8191  # the most names that a model can have
END = 'solve satisfy;'


def in_turn(count, rest):
    """A constraint over so many names, which are taken in turn."""
    return names.used(itertools.islice(itertools.cycle(rest), count))


def shortest(size):
    """Declarations of the shortest names."""
    return names.declared(itertools.islice(names.in_order(), size // 13)) + END


def shared(size, declared=names.alike(names.link_of, 33)):
    """33 names that share the first link, the last of them and constraints over it between blanks: the more of all, the longer."""
    blank = ' ' * (size // 4)
    text = names.declared(declared[:-1]) + blank + names.declared(declared[-1:]) + names.used([declared[-1]] * 2) * (size // 512)
    return text + ' ' * (size - len(text)) + END


def listed(size, declared=names.alike(names.link_of, 33)):
    """The last of such names, over and over in one list."""
    return names.declared(declared) + in_turn(size // 4, declared[-1:]) + END


def longest(size):
    """Names of 32 bytes that differ in the last ones, each declared and used."""
    declared = ['x' * (names.LONGEST - 3) + ''.join(last) for last in itertools.islice(itertools.product(names.BYTES, repeat=3), size // 75)]
    return names.declared(declared) + in_turn(len(declared), declared) + END


def fronts(size):
    """Names of which each is the front of the next one, declared and used."""
    declared = [front + 'a' * more for front in itertools.islice(names.in_order(), 52, 52 + size // 1300) for more in range(30)]
    return names.declared(declared) + in_turn(len(declared), declared) + END


def hashed(size):
    """Names of 32 bytes that share all of the hash, declared and used: their bytes alone tell them apart."""
    steps = itertools.islice(itertools.product(range(5), repeat=6), size // 75)
    declared = ['aa' + ''.join(names.of_one_hash(step) for step in each) for each in steps]
    return names.declared(declared) + in_turn(len(declared), declared) + END


def comments(size):
    """Comments, each with what would be an item, between the tokens of short items."""
    item = 'var%\nbool%%%\n:% var bool:a;\n'
    return ''.join(f'{item}{name};' for name in itertools.islice(names.in_order(), size // 33)) + '%' * 99 + '\n' + END


def blanks(size):
    """Blanks and line feeds between the tokens of short items."""
    return ''.join(f'var{" " * 20}bool:{chr(10) * 20}{name};' for name in itertools.islice(names.in_order(), size // 53)) + END


def brackets(size):
    """A list of numbers, and one of variables that is not closed, so that its length is looked for in vain."""
    count = size // 4
    return 'var 0..1:a;constraint int_lin_eq([' + ','.join('1' * count) + '],[' + 'a,' * count


def nested(size):
    """Brackets that are opened and not closed, in many constraints."""
    return 'var 0..1:a;' + 'constraint int_lin_eq([1],[a],1);' * (size // 66) + 'constraint int_lin_eq(' + '[' * (size // 2)


def many(size):
    """More names than a model can have, declared and then used in turn."""
    declared = list(itertools.islice(names.in_order(), size // 17))
    return names.declared(declared) + in_turn(len(declared), declared) + END


# each with the length of its shorter text and the fault that both have
SHAPES = {shortest: (52_000, 0), shared: (64_000, 0), listed: (64_000, 1), longest: (64_000, 0), fronts: (64_000, 0), hashed: (64_000, 0), comments: (64_000, 0),
          blanks: (64_000, 0), brackets: (64_000, 19), nested: (64_000, 19), many: (170_000, 1)}


def named(text):
    """How many times 8,191 names stand in a text; 1 where no more are different."""
    found = re.findall(r'[:,[(]\s*([A-Za-z]\w*)', text)
    return len(found) / NAMES if len(set(found)) > NAMES else 1


def counts(library, texts):
    """The fault that the call says of each text, and the instructions that it takes."""
    with tempfile.TemporaryDirectory() as scratch:
        program, out = os.path.join(scratch, 'text'), os.path.join(scratch, 'counted')
        subprocess.run(['gcc', '-std=c11', '-O2', '-o', program, os.path.join(TOP, 'bench', 'text.c'), library, f'-Wl,-rpath,{os.path.dirname(library)}'],
                       check=True)
        files = [os.path.join(scratch, f'{place}.fzn') for place in range(len(texts))]
        for file, text in zip(files, texts):
            open(file, 'w').write(text)
        words = ['valgrind', '--tool=callgrind', f'--callgrind-out-file={out}', f'--toggle-collect={CALL}', f'--dump-after={CALL}', program, *files]
        run = subprocess.run(words, capture_output=True, text=True)
        if run.returncode:
            sys.exit(f'cost: {run.stderr[-2000:]}')
        # the n-th call's counts are in the n-th file that callgrind writes
        counted = [int(re.search(r'^(?:totals|summary): (\d+)', open(f'{out}.{place}').read(), re.M)[1]) for place in range(1, len(texts) + 1)]
        return list(zip((int(line.split()[0]) for line in run.stdout.splitlines()), counted, strict=True))


def main():
    if not packages.are_here('cost', 'valgrind'):
        return 0
    library = os.path.abspath(sys.argv[1] if len(sys.argv) > 1 else os.path.join(TOP, 'target', 'libpearrummy.a'))
    texts = [shape(times * size) for shape, (size, _) in SHAPES.items() for times in (1, 2)]
    said = counts(library, texts)
    wrong = 0
    print('| Text | Bytes | Instructions a byte | Ratio | At most |\n|---|---|---|---|---|')
    for (shape, (_, wanted)), pair, answers in zip(SHAPES.items(), zip(texts[::2], texts[1::2]), zip(said[::2], said[1::2])):
        (short, long), (few, many) = map(len, pair), (count for _, count in answers)
        most = RATIO * long / short * named(pair[1]) / named(pair[0])
        faults = [f'answers {fault}, not {wanted}' for fault, _ in answers if fault != wanted]
        faults += ['too slow'] * (many > most * few) + [f'above {BYTE} a byte'] * any(count > BYTE * len(text) * named(text) for text, (_, count) in zip(pair, answers))
        print(f'| {shape.__name__} | {short}, {long} | {few / short:.0f}, {many / long:.0f} | {many / few:.2f} | {most:.2f} | {", ".join(faults)}')
        wrong += len(faults) > 0
    print(f'cost: {len(SHAPES)} sorts of texts, {wrong} of them not as they should be')
    return 1 if wrong else 0


if __name__ == '__main__':
    sys.exit(main())
