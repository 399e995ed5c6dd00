#!/usr/bin/env python3
"""Compares the calls with a second solver, Gecode, on random models over all 39 codes.

    tests/solver.py [COUNT [SEED]]

COUNT models (default 400) are made from SEED (default 1). Gecode lists the solutions of each model, of each constraint by itself and of the row
system that translate writes, all from FlatZinc text. A model is printed with any names, blanks and comments; the items that text reads are the
items that Gecode reads, where Gecode only gets besides what it is to print and in which order it searches. Of each model are compared:

    text          the words that it writes for the printed model, with the model's; a room of one word less is refused
    check         the counts, with the words that translate writes; a room of one word less is refused
    judge_model   every value list in the bounds, with the solutions of the constraints: holds, or the first false constraint
    translate     the row system's solutions, cut down to the source variables, with the model's solutions: no two of them cut down to the same
    fill          every value list in the bounds: judge_model's answer, or the values and the auxiliaries, the one solution of the row system
    judge_rows    what fill writes, and that with one value changed
    solutions     Gecode's solutions, in its order: the first variable changes slowest, values rise

Where Gecode is missing, tests/packages.py says what becomes of it.
Exit status 1 at the first difference, which is printed with the model's words and FlatZinc texts."""
import collections, concurrent.futures, itertools, math, os, random, re, struct, subprocess, sys

sys.dont_write_bytecode = True
import packages

ROOT = os.path.dirname(os.path.dirname(os.path.abspath(__file__)))
SUITE = os.path.join(ROOT, 'crates', 'suite', 'out', 'suite')
CHECK, TRANSLATE, JUDGE_MODEL, JUDGE_ROWS, FILL, TEXT, SOLUTIONS = 1, 2, 3, 4, 5, 7, 9
LISTS = 2000    # the most value lists of a model
SAMPLE = 100    # so many changed solutions of a row system are judged at most
CHUNK = 8       # models of one run of suite
LENT = 4200     # so many values suite lends at most
LARGEST = 2 ** 27 - 1
ENCODING = (24, 25, 27, 28)  # the codes whose first variable is encoded, once for all of them

# Of each builtin: its FlatZinc name, its arguments, and whether it is true of their values, by which arguments are chosen and nothing is judged.
# I is an integer variable, B a Boolean one, N a number, K an exponent, LI, LB, LN are lists of them, P is a list of numbers and one of integer variables.
BUILTINS = {
    1: ('int_eq', 'I I', lambda a, b: a == b),
    2: ('int_le', 'I I', lambda a, b: a <= b),
    3: ('int_lt', 'I I', lambda a, b: a < b),
    4: ('int_ne', 'I I', lambda a, b: a != b),
    5: ('int_le_reif', 'I I B', lambda a, b, r: (a <= b) == r),
    6: ('int_plus', 'I I I', lambda a, b, c: a + b == c),
    7: ('int_times', 'I I I', lambda a, b, c: a * b == c),
    8: ('int_abs', 'I I', lambda x, y: abs(x) == y),
    9: ('int_max', 'I I I', lambda a, b, c: max(a, b) == c),
    10: ('int_lin_eq', 'P N', lambda a, b, c: total(a, b) == c),
    11: ('int_lin_le', 'P N', lambda a, b, c: total(a, b) <= c),
    12: ('int_lin_ne', 'P N', lambda a, b, c: total(a, b) != c),
    13: ('int_lin_eq_reif', 'P N B', lambda a, b, c, r: (total(a, b) == c) == r),
    14: ('int_eq_reif', 'I I B', lambda a, b, r: (a == b) == r),
    15: ('int_lin_le_reif', 'P N B', lambda a, b, c, r: (total(a, b) <= c) == r),
    16: ('bool2int', 'B I', lambda a, b: a == b),
    17: ('bool_not', 'B B', lambda a, b: a != b),
    18: ('bool_and', 'B B B', lambda a, b, r: (a & b) == r),
    19: ('bool_or', 'B B B', lambda a, b, r: (a | b) == r),
    20: ('bool_xor', 'B B B', lambda a, b, r: (a ^ b) == r),
    21: ('bool_clause', 'LB LB', lambda a, b: 1 in a or 0 in b),
    22: ('array_bool_and', 'LB B', lambda a, r: all(a) == r),
    23: ('array_bool_xor', 'LB', lambda a: sum(a) % 2 == 1),
    24: ('array_int_element', 'I LN I', lambda i, a, c: (i, c) in enumerate(a, 1)),
    25: ('array_var_int_element', 'I LI I', lambda i, a, c: (i, c) in enumerate(a, 1)),
    26: ('array_int_maximum', 'I LI', lambda m, x: [m] == sorted(x)[-1:]),
    27: ('set_in', 'I LN', lambda x, s: x in s),
    28: ('set_in_reif', 'I LN B', lambda x, s, r: (x in s) == r),
    29: ('int_min', 'I I I', lambda a, b, c: min(a, b) == c),
    30: ('int_lt_reif', 'I I B', lambda a, b, r: (a < b) == r),
    31: ('int_ne_reif', 'I I B', lambda a, b, r: (a != b) == r),
    32: ('int_lin_ne_reif', 'P N B', lambda a, b, c, r: (total(a, b) != c) == r),
    33: ('array_int_minimum', 'I LI', lambda m, x: [m] == sorted(x)[:1]),
    34: ('bool_eq_reif', 'B B B', lambda a, b, r: (a == b) == r),
    35: ('bool_le_reif', 'B B B', lambda a, b, r: (a <= b) == r),
    36: ('bool_lt_reif', 'B B B', lambda a, b, r: (a < b) == r),
    37: ('int_div', 'I I I', lambda n, d, q: d != 0 and cut(n, d) == q),
    38: ('int_mod', 'I I I', lambda n, d, r: d != 0 and n - d * cut(n, d) == r),
    39: ('int_pow', 'I K I', lambda x, k, z: x ** k == z)}


def cut(n, d):
    """The quotient, cut towards zero."""
    return abs(n) // abs(d) * (1 if (n < 0) == (d < 0) else -1)


def total(a, b):
    return sum(x * y for x, y in zip(a, b))


class Difference(Exception):
    """What the product and Gecode say differently."""


# A model: its variables, each a pair of bounds, None for a Boolean one, and its constraints, each a code and its arguments.

def bounds(variable):
    return variable or (0, 1)


def width(variable):
    low, high = bounds(variable)
    return high - low + 1


def some_length(rng):
    """The length of a list."""
    return rng.choice([0, 1, 1, 2, 2, 3, 3, 4]) if rng.random() < 0.97 else rng.randint(5, 32)


def some_integer(rng, centre):
    """The bounds of an integer variable."""
    pick = rng.random()
    if pick < 0.12:
        low = centre + rng.randint(-3, 3)
        return low, low
    if pick < 0.17:
        low = centre - rng.randint(0, 63)
        return low, low + rng.randint(20, 63)
    low = centre + rng.randint(-4, 2)
    return low, low + rng.randint(1, 7)


def exponents(variable):
    """The exponents whose powers of a variable are inside the range."""
    return [k for k in range(28) if max(map(abs, variable)) ** k <= LARGEST]


def some_power(rng, base, most):
    """The bounds of a variable that can be a power of another one, none above the most."""
    power = rng.randint(*base) ** rng.choice(exponents(base))
    if abs(power) > most:
        return base
    return max(-most, power - rng.choice([0, 0, 1, 3])), min(most, power + rng.choice([0, 0, 1, 3]))


def some_variables(rng, codes):
    """Variables of the types that the codes need, in any order; at most LISTS value lists."""
    kinds = {kind for code in codes for kind in BUILTINS[code][1].split()}
    centre = rng.choice([0] * 12 + [1, 2, -2, -6, 7, 100, -100, 9000, -9000])
    while True:
        integers = rng.randint(int('I' in kinds), 4 if {'I', 'P', 'LI'} & kinds else 1)
        booleans = rng.randint(int('B' in kinds), 5 if {'B', 'LB'} & kinds else 1)
        variables = [some_integer(rng, centre) for _ in range(integers)] + [None] * booleans
        if 39 in codes and integers > 1 and rng.random() < 0.8:
            variables[0] = some_power(rng, variables[1], LARGEST if set(codes) == {39} else 10000)
        if math.prod(map(width, variables)) <= LISTS:
            rng.shuffle(variables)
            return variables


def some_arguments(rng, code, variables):
    """Arguments of a code; the numbers are near those that the variables can have."""
    integers = [i for i, v in enumerate(variables) if v]
    booleans = [i for i, v in enumerate(variables) if not v]
    value = lambda i: rng.randint(*bounds(variables[i]))
    some = lambda of: [rng.choice(of) for _ in range(some_length(rng) if of else 0)]
    arguments = []
    for kind in BUILTINS[code][1].split():
        if code in ENCODING and not arguments and rng.random() < 0.6:
            arguments.append(integers[0])
        elif kind in ('I', 'B'):
            arguments.append(rng.choice(integers if kind == 'I' else booleans))
        elif kind in ('LI', 'LB'):
            arguments.append(some(integers if kind == 'LI' else booleans))
        elif kind == 'P':
            vs = some(integers)
            arguments += [[rng.choice([1, 1, 1, -1, -1, 2, -2, 3, 0, rng.randint(-9, 9)]) for _ in vs], vs]
        elif kind == 'K':
            arguments.append(rng.choice([k for k in (0, 1, 2, 2, 3, 3, 4, 5, 26, 27, rng.randint(0, 27)) if k in exponents(variables[arguments[0]])]))
        elif kind == 'N':
            arguments.append(sum(a * value(i) for a, i in zip(*arguments)) + rng.choice([0, 0, 0, 0, 1, -1, rng.randint(-9, 9)]))
        else:
            of = rng.choice(integers) if code == 24 else arguments[0]
            arguments.append([value(of) + rng.choice([0, 0, 0, 0, 0, 1, -1, rng.randint(-9, 9)]) for _ in range(some_length(rng))])
    return arguments


def is_true(code, arguments, values):
    """Whether a constraint is true of values."""
    at = lambda a: [values[i] for i in a] if isinstance(a, list) else values[a]
    kinds = BUILTINS[code][1].replace('P', 'LN LI').split()
    return BUILTINS[code][2](*(a if kind in ('N', 'K', 'LN') else at(a) for kind, a in zip(kinds, arguments)))


def some_constraint(rng, code, variables, values):
    """A constraint that is true of the values, at times any one; None if none is found soon."""
    if rng.random() < 0.12:
        return code, some_arguments(rng, code, variables)
    tries = ((code, some_arguments(rng, code, variables)) for _ in range(30))
    return next((constraint for constraint in tries if is_true(*constraint, values)), None)


def some_model(rng, codes):
    """A model with these codes, most often one with a solution."""
    while True:
        variables = some_variables(rng, codes)
        values = [rng.randint(*bounds(v)) for v in variables]
        constraints = [some_constraint(rng, code, variables, values) for code in codes]
        if None not in constraints:
            return variables, constraints


def some_models(count, seed):
    """The models; the codes are dealt from a shuffled deck, so that each comes about as often as the others. In one of four models several constraints
    encode a variable."""
    rng = random.Random(seed)
    deck, models = [], []
    while len(models) < count:
        codes = [rng.choice(ENCODING) for _ in range(rng.randint(2, 4))] if rng.random() < 0.25 else []
        for _ in range(rng.choice([1, 1, 2, 2, 3, 4]) if not codes else 0):
            if not deck:
                deck = rng.sample(list(BUILTINS), len(BUILTINS))
            codes.append(deck.pop())
        models.append(some_model(rng, codes))
    return models


# Words.

def word(kind, payload):
    return kind << 28 | payload & 0xFFFFFFF


def signed(w):
    return (w & 0xFFFFFFF ^ 0x8000000) - 0x8000000


def model_words(model):
    words = []
    for variable in model[0]:
        words += [word(1, variable[0]), word(2, variable[1])] if variable else [word(3, 0)]
    for code, arguments in model[1]:
        words.append(word(4, code))
        rest = list(arguments)
        for kind in BUILTINS[code][1].split():
            if kind in ('I', 'B'):
                words.append(word(5, rest.pop(0)))
            elif kind in ('N', 'K'):
                words.append(word(6, rest.pop(0)))
            else:
                numbers = rest.pop(0) if kind in ('P', 'LN') else []
                vs = rest.pop(0) if kind != 'LN' else []
                words += [word(6, max(len(numbers), len(vs)))] + [word(6, n) for n in numbers] + [word(5, v) for v in vs]
    return words + [word(7, 0)]


def row_system(words):
    """The sources' and the auxiliaries' bounds, and the rows, each its kind, its terms and its constant, of the words of a row system."""
    sources, auxiliaries, rows, rest = [], [], [], iter(words)

    def take(kind):
        w = next(rest, 0)
        if w >> 28 != kind:
            raise Difference(f'translate: the word {w:08X} where one of kind {kind:X} belongs')
        return signed(w)

    for w in rest:
        kind = w >> 28
        if kind in (1, 3) and not auxiliaries and not rows:
            sources.append((signed(w), take(2)) if kind == 1 else (0, 1))
        elif kind == 8:
            auxiliaries.append((signed(w), take(9)))
        elif kind in (0xA, 0xB):
            rows.append((kind, [(take(5), take(6)) for _ in range(signed(w))], take(6)))
        elif kind == 0xC:
            rows.append((kind, [take(5), take(5), take(5)], 0))
        elif w == 0xF0000000 and next(rest, None) is None:
            return sources, auxiliaries, rows
        else:
            raise Difference(f'translate: the word {w:08X} where something begins')
    raise Difference('translate: no end word')


# FlatZinc.

def listed(items):
    return '[' + ', '.join(map(str, items)) + ']'


def constraint_text(code, arguments, names):
    name, kinds, _ = BUILTINS[code]
    texts, rest = [], list(arguments)
    for kind in kinds.split():
        if kind in ('I', 'B'):
            texts.append(names[rest.pop(0)])
        elif kind in ('N', 'K'):
            texts.append(str(rest.pop(0)))
        elif kind == 'LN':
            numbers = listed(rest.pop(0))
            texts.append(numbers if code == 24 else '{' + numbers[1:-1] + '}')
        else:
            if kind == 'P':
                texts.append(listed(rest.pop(0)))
            texts.append(listed(names[v] for v in rest.pop(0)))
    return f'constraint {name}({", ".join(texts)});'


def some_names(rng, count):
    """Different names of variables, of up to 32 bytes; no keyword and no int_pow, which Gecode does not take as it stands."""
    builtins = [name for name, _, _ in BUILTINS.values() if name != 'int_pow']
    style = rng.randrange(4)
    if style == 3 and count <= len(builtins):
        return rng.sample(builtins, count)
    return [(f'x{i}', f'X{i}_'.ljust(32, 'x'), f'a{"b" * 29}{i:02}')[style % 3] for i in range(count)]


def spread(rng, text):
    """The same tokens with other blanks and comments between them. No number has leading zeros: to Gecode 011 is nine."""
    tokens, spread = re.findall(r'[A-Za-z]\w*|-?\d+|\.\.|[^\s\w]', text), ''
    for token in tokens:
        between = rng.choice(['', '', '', '', '', ' ', ' ', '\n', '  \n ', ' % var bool: x;\n'])
        if re.search(r'\w$', spread) and re.match(r'\w', token) and not between:
            between = ' '
        spread += between + token
    return spread + '\n'


def items(rng, variables, constraints, names):
    """The variable items and the constraint items of a model, as text."""
    declared = ''.join(f'var {v[0]}..{v[1]}: {name};' if v else f'var bool: {name};' for v, name in zip(variables, names))
    return spread(rng, declared), spread(rng, ''.join(constraint_text(*c, names) for c in constraints))


def gecode_knows(variables, constraints):
    """The same model where Gecode is not asked for the maximum or minimum of an empty list, and where no division has a variable twice, but an equal
    one behind the others: of int_mod(x, x, x) Gecode has wrong solutions, also where int_eq makes them equal."""
    variables, known = list(variables), []
    for code, arguments in constraints:
        arguments = list(arguments)
        if code in (26, 33) and not arguments[1]:
            code, arguments = 21, [[], []]
        for k in (1, 2) if code in (37, 38) else ():
            if arguments[k] in arguments[:k]:
                variables.append(variables[arguments[k]])
                known.append((10, [[1, -1], [arguments[k], len(variables) - 1], 0]))
                arguments[k] = len(variables) - 1
        known.append((code, arguments))
    return variables, known


def text_of(declared, names, stated):
    """A FlatZinc text for Gecode; a solution prints the values of the names, and they are searched in their order."""
    array = f'array [1..{len(names)}] of var int: values :: output_array([1..{len(names)}]) = {listed(names)};'
    search = ':: int_search(values, input_order, indomain_min, complete) '
    lines = [declared, array if names else '', stated, f'solve {search if names else ""}satisfy;']
    return '\n'.join(filter(None, lines)) + '\n'


def gecode_text(variables, declared, stated, names):
    """The items of a model as Gecode reads them; a Boolean variable, the fourth, has the value n3. Gecode's name of int_pow is gecode_int_pow."""
    booleans = [i for i, v in enumerate(variables) if not v]
    values = ''.join(f'var 0..1: n{i};\n' for i in booleans)
    equal = ''.join(f'constraint bool2int({names[i]}, n{i});\n' for i in booleans)
    return text_of(declared + values, [name if v else f'n{i}' for i, (v, name) in enumerate(zip(variables, names))],
                   equal + re.sub(r'\bint_pow\b', 'gecode_int_pow', stated))


def row_text(kind, terms, constant):
    """A row, or a product, as FlatZinc."""
    if kind == 0xC:
        return 'constraint int_times(x{1}, x{2}, x{0});'.format(*terms)
    name = 'int_lin_le' if kind == 0xA else 'int_lin_eq'
    return f'constraint {name}({listed(c for _, c in terms)}, {listed(f"x{v}" for v, _ in terms)}, {-constant});'


def rows_text(all_bounds, rows):
    """A row system as FlatZinc, every variable an integer one."""
    return text_of('\n'.join(f'var {low}..{high}: x{i};' for i, (low, high) in enumerate(all_bounds)), [f'x{i}' for i in range(len(all_bounds))],
                   '\n'.join(row_text(*row) for row in rows))


def solutions(text):
    """All solutions of a FlatZinc text, by Gecode, in its order."""
    try:
        run = subprocess.run(['fzn-gecode', '-a', '-'], input=text, capture_output=True, text=True, timeout=100)
    except subprocess.TimeoutExpired:
        raise Difference(f'Gecode does not solve this in 100 seconds:\n{text}') from None
    *blocks, end = run.stdout.split('----------\n')
    if run.returncode or end.strip() not in ('==========', '=====UNSATISFIABLE====='):
        raise Difference(f'Gecode does not solve this, it says {run.stderr.strip() or end.strip()}:\n{text}')
    return [tuple(map(int, block[block.index('[') + 1:block.index(']')].split(','))) if block else () for block in blocks]


# The product.

def answers(cases):
    """The answers of suite to cases, each a call, a room, words and values."""
    data = b''.join(struct.pack(f'<4I{len(words)}I{len(values)}i', call, room, len(words), len(values), *words, *values)
                    for call, room, words, values in cases)
    run = subprocess.run([SUITE], input=data, capture_output=True, timeout=600)
    lines = run.stdout.decode().splitlines()
    if run.returncode or len(lines) != len(cases):
        raise Difference(f'suite: status {run.returncode}, {len(lines)} answers to {len(cases)} cases')
    return lines


def values_of(answer):
    """The values that fill wrote, or None."""
    kind, *values = answer.split()
    return tuple(map(int, values)) if kind == 'filled' else None


def few(items):
    """The first of some items, as text."""
    items = sorted(items)
    return '\n'.join(f'    {listed(item)}' for item in items[:10]) + (f'\n    and {len(items) - 10} more' if len(items) > 10 else '') or '    none'


def same(what, product, gecode):
    """Two sets of value lists are equal."""
    if product != gecode:
        raise Difference(f'{what}\nonly by the product:\n{few(product - gecode)}\nonly by Gecode:\n{few(gecode - product)}')


class Case:
    """A model, what the calls say of it, and what Gecode says."""

    def __init__(self, number, model):
        self.number = number
        self.model = model
        self.words = model_words(model)
        self.lists = list(itertools.product(*(range(low, high + 1) for low, high in map(bounds, model[0]))))
        self.rng = random.Random(number)
        self.names = some_names(self.rng, len(model[0]))
        declared, stated = items(self.rng, *model, self.names)
        self.text = declared + stated + 'solve satisfy;\n'
        # The very items go to Gecode, too, unless it does not take them.
        self.known = gecode_knows(*model) == (list(model[0]), [(code, list(arguments)) for code, arguments in model[1]])
        self.texts = [gecode_text(model[0], declared, stated, self.names) if self.known else self.printed(*model)]

    def printed(self, variables, constraints):
        """A model for Gecode, with names of its own for equal variables behind the others."""
        known, constraints = gecode_knows(variables, constraints)
        names = self.names + [f'equal{i}' for i in range(len(variables), len(known))]
        return gecode_text(variables, *items(self.rng, known, constraints, names), names)

    def solve(self):
        """Gecode's solutions of the model, and of each list of values the first false constraint."""
        variables, constraints = self.model
        self.in_order = solutions(self.texts[0])
        self.solutions = set(self.in_order)
        parts = [set(solutions(self.printed(variables, [c]))) for c in constraints]
        self.said = {values: next((f'false {i}' for i, part in enumerate(parts) if values not in part), 'holds') for values in self.lists}
        if {values for values, said in self.said.items() if said == 'holds'} != self.solutions:
            raise Difference('Gecode contradicts itself: the constraints one by one have other solutions than the model')

    def ask_check(self):
        """What is asked first: the model's words of its text, and check."""
        text = self.text.encode()
        return [(CHECK, 0, self.words, ()), (TEXT, len(self.words), text, ()), (TEXT, len(self.words) - 1, text, ())]

    def take_check(self, lines):
        """Takes check's answer, and Gecode's; compares text."""
        if lines[1:] != [' '.join(['words'] + [f'{w:08X}' for w in self.words]), 'refused 16 0']:
            raise Difference(f'text: {lines[1]}, into one word less: {lines[2]}, of:\n{self.text}')
        kind, *counts = lines[0].split()
        if kind != 'counts' or len(counts) != 5:
            raise Difference(f'check: {lines[0]}')
        self.counts = tuple(map(int, counts))
        self.solve()

    def ask_model(self):
        """What is asked of the model after check."""
        variables, _, auxiliaries, _, needed = self.counts
        places = len(self.in_order) * variables
        return ([(TRANSLATE, needed, self.words, ()), (TRANSLATE, needed - 1, self.words, ()),
                 (SOLUTIONS, places, self.words, ()), (SOLUTIONS, max(0, places - 1), self.words, ())]
                + [(JUDGE_MODEL, 0, self.words, values) for values in self.lists]
                + [(FILL, variables + auxiliaries, self.words, values) for values in self.lists])

    def take_model(self, lines):
        """Compares check, translate, solutions, judge_model and fill."""
        written, refused, *listed_answers = lines[:4]
        rest = lines[4:]
        self.take_solutions(*listed_answers)
        judged, filled = rest[:len(self.lists)], rest[len(self.lists):]
        kind, *words = written.split()
        if kind != 'words' or refused != 'refused 16 0':
            raise Difference(f'translate into the words needed: {written}, into one less: {refused}')
        self.rows = [int(w, 16) for w in words]
        sources, auxiliaries, rows = row_system(self.rows)
        self.bounds = sources + auxiliaries
        self.texts.append(rows_text(self.bounds, rows))
        counts = len(self.model[0]), len(self.model[1]), len(auxiliaries), len(rows), len(self.rows)
        if self.counts != counts or sources != [bounds(v) for v in self.model[0]]:
            raise Difference(f'check: {self.counts}, the words of translate: {counts}, sources {sources}')
        same('judge_model: the values that hold', {values for values, said in zip(self.lists, judged) if said == 'holds'}, self.solutions)
        for values, said in zip(self.lists, judged):
            if said != self.said[values]:
                raise Difference(f'judge_model of {values}: {said}, by Gecode: {self.said[values]}')
        found = solutions(self.texts[1])
        self.solved = set(found)
        same('translate: the solutions of its rows', {values[:len(sources)] for values in self.solved}, self.solutions)
        if len(found) != len(self.in_order):
            raise Difference(f'translate: its rows have {len(found)} solutions, the model has {len(self.in_order)}')
        self.filled = []
        for values, said, answer in zip(self.lists, judged, filled):
            got = values_of(answer)
            if (answer if got is None else 'holds') != said:
                raise Difference(f'fill of {values}: {answer}, judge_model: {said}')
            if got is not None:
                if got[:len(values)] != values or got not in self.solved:
                    raise Difference(f'fill of {values}: {answer}, no solution of the rows')
                self.filled.append(got)

    def take_solutions(self, answer, short):
        """Compares solutions, into a list that is long enough and into one that is too short."""
        places = [value for values in self.in_order for value in values]
        whole = ' '.join(map(str, ['solutions', len(self.in_order), *places]))
        if len(self.model[0]) > 8:
            expected = ['refused 22 0'] * 2
        elif len(places) > LENT:
            expected = ['refused 16 0'] * 2
        else:
            expected = [whole, 'refused 16 0' if places else whole]
        if [answer, short] != expected:
            raise Difference(f'solutions: {answer}, into one place less: {short}, by Gecode: {expected}')

    def ask_rows(self):
        """Values of the row system to judge: those of fill, and these with one value changed."""
        rng = random.Random(self.number)
        self.judged = list(self.filled)
        for values in rng.sample(self.filled, min(SAMPLE, len(self.filled))) if self.bounds else []:
            k = rng.randrange(len(values))
            others = {values[k] - 1, values[k] + 1, *self.bounds[k]} - {values[k]}
            self.judged.append(values[:k] + (rng.choice(sorted(others)),) + values[k + 1:])
        return [(JUDGE_ROWS, 0, self.rows, values) for values in self.judged]

    def take_rows(self, lines):
        """Compares judge_rows."""
        for values, said in zip(self.judged, lines):
            if (said == 'holds') != (values in self.solved):
                raise Difference(f'judge_rows of {listed(values)}: {said}, by Gecode {"a" if values in self.solved else "no"} solution')

    def details(self):
        """The words and the FlatZinc texts of the model and, if there is one, of its row system."""
        words = [self.words] + ([self.rows] if len(self.texts) > 1 else [])
        return '\n'.join(['words: ' + ' '.join(f'{w:08X}' for w in ws) for ws in words] + ['FlatZinc:\n' + text for text in self.texts])


def ask(cases, questions, take):
    """Asks suite in one run what there is to ask of each case, and gives each its answers."""
    asked = [questions(case) for case in cases]
    lines = iter(answers(sum(asked, [])))
    for case, mine in zip(cases, asked):
        try:
            take(case, list(itertools.islice(lines, len(mine))))
        except Difference as difference:
            raise Difference(f'model {case.number}: {difference}\n{case.details()}') from None


def compare(job):
    """Compares some models: the first difference or None, how many value lists, how many models have no solution, how many nothing else, and how
    many have the same items for text and for Gecode."""
    cases = [Case(number, model) for number, model in job]
    try:
        ask(cases, Case.ask_check, Case.take_check)
        ask(cases, Case.ask_model, Case.take_model)
        ask(cases, Case.ask_rows, Case.take_rows)
    except Difference as difference:
        return str(difference), 0, 0, 0, 0
    return (None, sum(len(c.lists) for c in cases), sum(not c.solutions for c in cases), sum(len(c.solutions) == len(c.lists) for c in cases),
            sum(c.known for c in cases))


def main():
    count, seed = [int(a) for a in sys.argv[1:]] + [400, 1][len(sys.argv) - 1:]
    if not packages.are_here('solver', 'fzn-gecode'):
        return 0
    if not os.path.exists(SUITE):
        print('solver: crates/suite/out/suite is not here: rt ci makes it, and rt run in its folder')
        return 1
    models = list(enumerate(some_models(count, seed)))
    used = collections.Counter(code for _, (_, constraints) in models for code, _ in constraints)
    print(f'solver: seed {seed}, each code so often: ' + ', '.join(f'{code}: {used[code]}' for code in BUILTINS))
    totals = [0, 0, 0, 0]
    with concurrent.futures.ProcessPoolExecutor(2) as pool:
        for difference, *counts in pool.map(compare, [models[i:i + CHUNK] for i in range(0, count, CHUNK)]):
            if difference:
                pool.shutdown(cancel_futures=True)
                print(f'solver: {difference}')
                return 1
            totals = [one + other for one, other in zip(totals, counts)]
    lists, without, only, known = totals
    print(f'solver: {without} models have no solution, {only} have nothing else; {known} texts go to both sides as they are')
    print(f'solver: {count} models, {lists} value lists, codes 1 to 39 at least {min(used[code] for code in BUILTINS)} times each, 0 differences')
    return 0


if __name__ == '__main__':
    sys.exit(main())
