#!/usr/bin/env python3
"""Reads the quadratic forms that the call bits writes, and tries them on bits.

    tests/bits.py [COUNT [SEED]]

COUNT row systems (default 200) and as many models over all codes are made from SEED (default 1), all small. Of each form, read from the words
alone, are seen:

    its words     a constant, then entries by rising pairs of bits, none of them 0, then the end
    every bit     up to 14 bits: over all lists of bits it is never below 0, and a value list inside its bounds satisfies the row system (the
                  model, through translate) exactly when some bits that read as it give 0
    its minimum   up to 30 bits: clasp, a solver that minimises such forms exactly, finds 0 with a value list's bits fixed exactly when the values
                  satisfy the row system (the model); where it meets too many conflicts, what it found until then is no less
    the way back  bits that give 0 are read by bit_values as values that satisfy the row system (the model); bit_energy of any bits is the form's
                  value; value_bits of values that satisfy the row system gives 0 and reads as these values; the bits of clasp's minimum of all bits
                  are read as values that judge-rows lets pass exactly where it is 0

And of as many models with a variable to be made least or greatest the form of best_bits: its least, over all bits or by clasp, is how far Gecode's
best value is from the variable's bound, and its bits read as a solution with that value; where Gecode finds no solution, its least is M or more.

Nothing is known here of slacks and products but how many bits they have: all bits behind those of the variables are just bits. Where clasp or Gecode
is missing, tests/packages.py says what becomes of it. All other forms are only read. No row system and few models may be refused. Exit status 1
at the first difference."""
import itertools, math, random, re, shutil, subprocess, sys

sys.dont_write_bytecode = True
import packages, solver

BITS, BIT_VALUES, BIT_ENERGY, VALUE_BITS, BEST_BITS = 10, 15, 16, 17, 18   # the calls' numbers in suite
ALL = 14         # so many bits are tried on all lists
MOST = 30        # so many by clasp, which takes too long over many larger ones
FIXED = 4        # so many value lists of a larger form clasp is asked
TRIED = 12       # so many lists of bits, and of values, of a form are sent on the way back
LATE = 'late'    # a form that none minimised
CONFLICTS = 200000  # so many conflicts clasp may meet over one of them: as many on a busy machine as on an idle one


# Row systems: bounds, and rows, each its kind, its terms and its constant, as solver.row_system gives them.

def some_bounds(rng):
    low = rng.randint(-3, 3)
    return low, low + rng.choice([0, 1, 1, 1, 2, 2, 3, 4, 5, 6])


def some_rows(rng):
    """A row system."""
    bounds = [some_bounds(rng) for _ in range(rng.randint(1, 4))]
    rows = []
    for _ in range(rng.randint(0, 3)):
        if rng.random() < 0.3:
            first, second = (rng.randrange(len(bounds)) for _ in range(2))
            second = first if rng.random() < 0.3 else second
            later = [v for v in range(len(bounds)) if v > max(first, second)]
            if not later:
                bounds.append(some_bounds(rng))
            rows.append((0xC, [rng.choice(later or [len(bounds) - 1]), first, second], 0))
        else:
            terms = [(rng.randrange(len(bounds)), rng.choice([0, 1, 1, -1, 2, -3, rng.randint(-9, 9)])) for _ in range(rng.randint(0, 3))]
            middle = sum(c * rng.randint(*bounds[v]) for v, c in terms)
            rows.append((rng.choice([0xA, 0xB]), terms, rng.choice([0, 0, 1, -1, rng.randint(-5, 5)]) - middle))
    return bounds, rows


def system_words(bounds, rows):
    """Its words; every variable is a source."""
    word, words = solver.word, []
    for low, high in bounds:
        words += [word(1, low), word(2, high)]
    for kind, terms, constant in rows:
        if kind == 0xC:
            words += [word(kind, 0)] + [word(5, v) for v in terms]
        else:
            words += [word(kind, len(terms))] + [w for v, c in terms for w in (word(5, v), word(6, c))] + [word(6, constant)]
    return words + [word(0xF, 0)]


def satisfied(rows, values):
    for kind, terms, constant in rows:
        if kind == 0xC:
            if values[terms[0]] != values[terms[1]] * values[terms[2]]:
                return False
        else:
            total = sum(c * values[v] for v, c in terms) + constant
            if total > 0 or total and kind == 0xB:
                return False
    return True


def some_small_model(rng, code):
    """A model of one constraint over few values."""
    while True:
        variables = [(low, low + rng.choice([0, 1, 1, 2])) for low in (rng.randint(-2, 2) for _ in range(rng.randint(1, 3)))]
        variables += [None] * rng.randint(1, 2)
        rng.shuffle(variables)
        values = [rng.randint(*solver.bounds(v)) for v in variables]
        constraint = solver.some_constraint(rng, code, variables, values)
        if constraint and max((len(a) for a in constraint[1] if isinstance(a, list)), default=0) < 5:
            return variables, [constraint]


# Forms.

def weights(width):
    """1, 2, 4 and so on, the last cut so that they sum to the width."""
    found = []
    while sum(found) < width:
        found.append(min(2 ** len(found), width - sum(found)))
    return found


class Form:
    """A quadratic form as its words say it, and the variables whose bits come first."""

    def __init__(self, words, bounds):
        rest = iter(words)

        def take(kind):
            w = next(rest, 0)
            if w >> 28 != kind:
                raise solver.Difference(f'bits: the word {w:08X} where one of kind {kind:X} belongs')
            return solver.signed(w)

        self.constant, self.entries, last = take(6), {}, (-1, -1)
        for w in rest:
            if w == 0xF0000000:
                break
            pair, entry = (solver.signed(w), take(5)), take(6)
            if w >> 28 != 5 or pair <= last or pair[0] > pair[1] or not entry:
                raise solver.Difference(f'bits: an entry {pair}, {entry} behind {last}')
            self.entries[pair] = entry
            last = pair
        else:
            raise solver.Difference('bits: no end word')
        if next(rest, None) is not None:
            raise solver.Difference('bits: a word follows the end word')
        self.variables = []
        self.bits = 0
        for low, high in bounds:
            found = weights(high - low)
            self.variables.append((low, [(self.bits + i, weight) for i, weight in enumerate(found)]))
            self.bits += len(found)
        self.bits = max([self.bits] + [j + 1 for _, j in self.entries])

    def values(self, bits):
        """What bits, those of a number, read as."""
        return tuple(low + sum(weight for bit, weight in mine if bits >> bit & 1) for low, mine in self.variables)

    def each(self):
        """All lists of bits, each as a number, with the form's value at it."""
        beside = [[] for _ in range(self.bits)]
        for (i, j), entry in self.entries.items():
            if i != j:
                beside[i].append((j, entry))
                beside[j].append((i, entry))
        # what the form rises by when a bit becomes 1, the others as they are; one bit changes at a time
        rise = [self.entries.get((i, i), 0) for i in range(self.bits)]
        value, bits = self.constant, 0
        for k in range(2 ** self.bits):
            if k:
                bit = (k & -k).bit_length() - 1
                bits ^= 1 << bit
                sign = 1 if bits >> bit & 1 else -1
                value += sign * rise[bit]
                for other, entry in beside[bit]:
                    rise[other] += sign * entry
            if value < 0:
                raise solver.Difference(f'bits: the form is {value} of the bits {bits:b}')
            yield bits, value

    def at(self, bits):
        """Its value at bits, those of a number."""
        return self.constant + sum(entry for (i, j), entry in self.entries.items() if bits >> i & bits >> j & 1)

    def fixed(self, values):
        """The bits of the first variables, so that they read as values, as constraints for clasp."""
        lines = []
        for (low, mine), value in zip(self.variables, values):
            rest = value - low
            for bit, weight in reversed(mine):
                # from the largest weight on, as much as fits: the smaller ones can always make the rest
                one = weight <= rest
                rest -= weight * one
                lines.append(f'+1 x{bit + 1} = {int(one)} ;')
            if rest:
                raise solver.Difference(f'bits: no bits read as {value}')
        return lines

    def minimum(self, fixed):
        """Its least value under constraints of its bits, the bits as a number, and True, by clasp; where it meets too many conflicts, the least that
        it found, or None, and False."""
        if not self.entries:
            return self.constant, 0, True
        terms = ' '.join(f'{entry:+} ' + (f'x{i + 1}' if i == j else f'x{i + 1} x{j + 1}') for (i, j), entry in self.entries.items())
        products = sum(i != j for i, j in self.entries)
        text = '\n'.join([f'* #variable= {self.bits} #constraint= {len(fixed)} #product= {products} sizeproduct= {2 * products}',
                          f'min: {terms} ;'] + fixed) + '\n'
        run = subprocess.run(['clasp', f'--solve-limit={CONFLICTS}', '--quiet=1,0,2', '-'], input=text, capture_output=True, text=True)
        is_least = 's OPTIMUM FOUND' in run.stdout
        if not is_least and '\ns SATISFIABLE\n' not in run.stdout and '\ns UNKNOWN\n' not in run.stdout:
            raise solver.Difference(f'clasp: status {run.returncode}, it says {run.stdout[-300:]}{run.stderr[-300:]}')
        found = [int(line[2:]) for line in run.stdout.splitlines() if line.startswith('o ')]
        ones = re.findall(r'(?<= )x(\d+)', ''.join(line for line in run.stdout.splitlines() if line.startswith('v ')))
        return (self.constant + found[-1] if found else None), sum(1 << int(x) - 1 for x in set(ones)), is_least

    def least(self):
        """Its least value and bits at which it is reached, over all bits or by clasp; None where neither finds it."""
        if self.bits <= ALL:
            return min((value, bits) for bits, value in self.each())
        if self.bits > MOST or not shutil.which('clasp'):
            return None
        value, bits, is_least = self.minimum([])
        return (value, bits) if is_least else None


def difference(what, ours, theirs):
    raise solver.Difference(f'{what}\nonly by the form:\n{solver.few(ours - theirs)}\nonly by the rows or the model:\n{solver.few(theirs - ours)}')


# The way back.

def bit_count(bounds, rows):
    """How many bits variables, slacks and products have."""
    own = [len(weights(high - low)) for low, high in bounds]
    count = sum(own)
    for kind, terms, constant in rows:
        if kind == 0xC:
            count += own[terms[1]] * own[terms[2]]
        elif kind == 0xA:
            count += len(weights(max(0, -constant - sum(min(c * low, c * high) for (low, high), c in ((bounds[v], c) for v, c in terms)))))
    return count


class System:
    """A row system, its form, and what is true of the values of its first variables, the sources."""

    def __init__(self, words, bounds, rows, sources, true):
        self.words, self.bounds, self.rows, self.sources, self.true = words, bounds, rows, sources, true
        self.size = bit_count(bounds, rows)
        self.form, self.zeros, self.solutions = None, [], []

    def list_of(self, bits):
        """The bits of a number as suite takes them."""
        return [bits >> i & 1 for i in range(self.size)]

    def ask(self, rng):
        """Bits that give 0 and others to be read, values to be made bits."""
        self.some = rng.sample(self.zeros, min(TRIED, len(self.zeros))) + [rng.getrandbits(self.size) if self.size else 0 for _ in range(4)]
        self.full = rng.sample(self.solutions, min(TRIED, len(self.solutions)))
        asked = [(call, room, self.words, self.list_of(bits)) for bits in self.some for call, room in ((BIT_VALUES, len(self.bounds)), (BIT_ENERGY, 0))]
        return asked + [(VALUE_BITS, self.size, self.words, values) for values in self.full]

    def take(self, lines):
        """Compares what the calls answer with what the form and the rows say."""
        lines = iter(lines)
        for bits in self.some:
            values, value = self.form.values(bits), self.form.at(bits)
            if [next(lines), next(lines)] != [' '.join(map(str, ('values', *values))), f'energy {value}']:
                raise solver.Difference(f'bit_values or bit_energy of the bits {bits:b}, which read as {values} and give {value}')
            if not value and not (satisfied(self.rows, values) and self.true(values[:self.sources])):
                raise solver.Difference(f'the bits {bits:b} give 0 and read as {values}, which is no solution')
        for values in self.full:
            kind, *found = next(lines).split()
            bits = sum(1 << i for i, bit in enumerate(found) if bit == '1')
            if kind != 'bits' or len(found) != self.size or self.form.values(bits) != values or self.form.at(bits):
                raise solver.Difference(f'value_bits of {values}: {kind} {" ".join(found)}')


def way_back(rng, systems):
    """Asks the calls of the way back of all forms that were tried; how many bits and how many values went."""
    asked = [system.ask(rng) for system in systems]
    lines = iter(solver.answers(sum(asked, [])))
    for system, mine in zip(systems, asked):
        try:
            system.take(list(itertools.islice(lines, len(mine))))
        except solver.Difference as found:
            raise solver.Difference(f'{found}\nwords: {" ".join(f"{w:08X}" for w in system.words)}') from None
    return sum(len(system.some) for system in systems), sum(len(system.full) for system in systems)


class Count:
    """How many forms were tried in which way."""

    def __init__(self):
        self.all = self.clasp = self.lists = self.late = self.read = self.refused = 0
        self.bits = self.values = 0


def by_clasp(rng, count, system, lists):
    """Compares clasp's least values with what is true of some value lists, and of all bits."""
    form, true = system.form, system.true
    ones = [values for values in sorted(lists) if true(values)]
    for values in rng.sample(ones, min(FIXED // 2, len(ones))) + rng.sample(sorted(lists), min(FIXED // 2, len(lists))):
        least, _, is_least = form.minimum(form.fixed(values))
        count.lists += is_least
        count.late += not is_least
        if least is not None and (least < 0 or not least and not true(values) or least and is_least and true(values)):
            raise solver.Difference(f'the least value with {values} is {least}, which {"satisfies" if true(values) else "does not satisfy"} the rows or the model')
    least, bits, is_least = form.minimum([])
    if least is None or not is_least:
        return
    if bool(least) == bool(ones) or form.at(bits) != least:
        raise solver.Difference(f'the least value of all bits is {least} at {bits:b}, where there are {len(ones)} solutions')
    system.zeros += [] if least else [bits]


def compare(rng, count, answer, system):
    """Compares a form with what is true of the values of the sources; keeps bits that give 0, and values that satisfy the row system."""
    kind, *words = answer.split()
    if answer in ('refused 23 0', 'refused 24 0'):
        count.refused += 1
        return
    if kind != 'words':
        raise solver.Difference(f'bits: {answer}')
    form = system.form = Form([int(w, 16) for w in words], system.bounds)
    lists = set(itertools.product(*(range(low, high + 1) for low, high in system.bounds[:system.sources])))
    if form.bits <= ALL:
        count.all += 1
        system.zeros = [bits for bits, value in form.each() if not value]
        found = {form.values(bits)[:system.sources] for bits in system.zeros}
        expected = {values for values in lists if system.true(values)}
        if found != expected:
            difference('the values of bits that give 0', found, expected)
    elif form.bits <= MOST and shutil.which('clasp'):
        count.clasp += 1
        by_clasp(rng, count, system, lists)
    else:
        count.read += 1
    system.solutions = sorted({form.values(bits) for bits in system.zeros})


def try_systems(rng, systems, room):
    """Compares the forms of row systems, and goes the way back."""
    count = Count()
    for system, answer in zip(systems, solver.answers([(BITS, room, system.words, ()) for system in systems])):
        try:
            compare(rng, count, answer, system)
        except solver.Difference as found:
            raise solver.Difference(f'{found}\nwords: {" ".join(f"{w:08X}" for w in system.words)}\nform: {answer}') from None
    count.bits, count.values = way_back(rng, [system for system in systems if system.form])
    return count


def try_rows(rng, number):
    """Row systems with at most 3,000 value lists."""
    systems = []
    while len(systems) < number:
        bounds, rows = some_rows(rng)
        if math.prod(high - low + 1 for low, high in bounds) <= 3000:
            systems.append(System(system_words(bounds, rows), bounds, rows, len(bounds), lambda values, rows=rows: satisfied(rows, values)))
    return try_systems(rng, systems, 4000)


def model_system(model, line):
    """The row system of a model, as translate's answer says it."""
    words = [int(w, 16) for w in line.split()[1:]]
    sources, auxiliaries, rows = solver.row_system(words)
    return System(words, sources + auxiliaries, rows, len(sources), lambda values: all(solver.is_true(*c, values) for c in model[1]))


def some_systems(rng, number):
    """Models, their codes in turn, and their row systems."""
    models = [some_small_model(rng, 1 + i % len(solver.BUILTINS)) for i in range(number)]
    lines = solver.answers([(solver.TRANSLATE, 4000, solver.model_words(model), ()) for model in models])
    return models, [model_system(model, line) for model, line in zip(models, lines)]


def try_models(rng, number):
    """The forms of models."""
    return try_systems(rng, some_systems(rng, number)[1], 12000)


# The form of a best solution.

def best_value(rng, model, variable, direction):
    """The best value of a variable over a model's solutions, by Gecode; None where it has none."""
    known, constraints = solver.gecode_knows(*model)
    names = [f'x{i}' for i in range(len(model[0]))]
    printed = solver.items(rng, known, constraints, names + [f'equal{i}' for i in range(len(names), len(known))])
    objective = names[variable] if model[0][variable] else f'n{variable}'
    text = solver.gecode_text(model[0], *printed, names).replace('satisfy;', f'{("minimize", "maximize")[direction]} {objective};')
    found = solver.solutions(text)
    return found[-1][variable] if found else None


def compare_best(system, variable, direction, best, answer):
    """Compares a form of best_bits with Gecode's best value; the call that reads its least bits, None where there is no solution, LATE where nothing is
    compared, since none minimised it."""
    kind, *words = answer.split()
    if kind != 'words':
        raise solver.Difference(f'best_bits: {answer}')
    found = Form([int(w, 16) for w in words], system.bounds).least()
    if found is None:
        return LATE
    low, high = system.bounds[variable]
    if best is None:
        if found[0] < high - low + 1:
            raise solver.Difference(f'the least value is {found[0]}, below M, and Gecode finds no solution')
        return None
    if found[0] != (high - best if direction else best - low):
        raise solver.Difference(f'the least value is {found[0]}, Gecode\'s best is {best} within {low}..{high}')
    return BIT_VALUES, len(system.bounds), system.words, system.list_of(found[1])


def try_best(rng, number):
    """How many forms of best solutions agree with Gecode: those with a solution, those without, those that none minimised, those that are refused."""
    models, systems = some_systems(rng, number)
    asked = [(rng.randrange(len(model[0])), rng.randrange(2)) for model in models]
    lines = solver.answers([(BEST_BITS, 12000, system.words, question) for system, question in zip(systems, asked)])
    counts, read = [0, 0, 0, 0], []
    for model, system, question, line in zip(models, systems, asked, lines):
        if line == 'refused 24 0':
            counts[3] += 1
            continue
        best = best_value(rng, model, *question)
        call = compare_best(system, *question, best, line)
        counts[2 if call is LATE else 0 if call else 1] += 1
        read += [(system, question, best, call)] if call and call is not LATE else []
    for (system, question, best, _), line in zip(read, solver.answers([call for *_, call in read])):
        values = tuple(map(int, line.split()[1:]))
        if not satisfied(system.rows, values) or not system.true(values[:system.sources]) or values[question[0]] != best:
            raise solver.Difference(f'the least bits read as {line}, where {best} is the best of variable {question[0]}')
    return counts


def main():
    number, seed = [int(a) for a in sys.argv[1:]] + [200, 1][len(sys.argv) - 1:]
    packages.are_here('bits', 'clasp')
    with_gecode = packages.are_here('bits', 'fzn-gecode')
    try:
        for name, tried, few in ('row systems', try_rows, 0), ('models', try_models, number // 20):
            count = tried(random.Random(seed), number)
            if count.refused > few or count.clasp and not count.lists:
                raise solver.Difference(f'{count.refused} {name} of {number} are refused, clasp ends with {count.lists} of {count.lists + count.late} value lists')
            print(f'bits: {number} {name}, {count.all} on all bits, {count.clasp} by clasp with {count.lists} value lists ({count.late} took too long), '
                  f'{count.read} only read, {count.refused} refused; back went {count.bits} lists of bits and {count.values} of values, 0 differences')
        if with_gecode:
            best, none, late, refused = try_best(random.Random(seed), number)
            if refused > number // 5 or not best or not none:
                raise solver.Difference(f'{refused} forms of best solutions of {number} are refused, {best} have a solution, {none} have none')
            print(f'bits: {number} models with an objective, {best} with Gecode\'s best value, {none} without a solution, {late} not minimised, '
                  f'{refused} refused, 0 differences')
    except solver.Difference as found:
        print(f'bits: {found}')
        return 1
    return 0


if __name__ == '__main__':
    sys.exit(main())
