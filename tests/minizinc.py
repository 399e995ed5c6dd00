#!/usr/bin/env python3
"""Follows MiniZinc models to rows: the library minizinc/mznlib, minizinc/flatten.py, and the calls.

    tests/minizinc.py [NAME..]           all models of tests/minizinc and random ones, or some of them
    tests/minizinc.py --record [NAME..]  writes the recorded FlatZinc and texts anew

Always, with the recorded FlatZinc of each model (NAME.fzn, by `minizinc -c --solver minizinc/rows.msc --no-half-reifications`):

    flatten.py    gives the recorded text (NAME.txt) byte by byte, or the fault that expected.json has; each of FAULTS; damaged files
                  give a text or a fault of one line
    text, check   read each text, the damaged ones' too; check accepts it, or refuses it as expected.json says

With minizinc and fzn-gecode (where they are missing, tests/packages.py says what becomes of it): each model is flattened anew, with the paths of
its items, every constraint of its text names a line of the model, and the solutions of its text, cut down to the names of the model, are those that
Gecode has of the model by MiniZinc's own library, as many as expected.json says. fill and judge_rows take the first solutions. A library that has
array_bool_or by `clause`, so that MiniZinc drops constraints, must be seen by its 10 solutions for 3. expected.json names the models of which Gecode is wrong, with the count by hand, and those whose text has more solutions than the
model, since MiniZinc's own decompositions leave variables free."""
import concurrent.futures, glob, itertools, json, os, random, re, subprocess, sys, tempfile

sys.dont_write_bytecode = True
import packages, solver

HERE = os.path.join(solver.ROOT, 'tests', 'minizinc')
SOLVER = os.path.join(solver.ROOT, 'minizinc', 'rows.msc')
sys.path.insert(0, os.path.join(solver.ROOT, 'minizinc'))
import flatten

DAMAGED = 600   # damaged files
RANDOM = 100    # random models
FILLED = 20     # so many solutions of a model go through fill and judge_rows
FAULTS = {
    'var int: x; solve satisfy;': '1: x has no bounds: give it some in the model',
    'var 1..3: x;\nsolve minimize x;': '2: an objective: only "solve satisfy" has rows',
    'var 0.0..1.5: x; solve satisfy;': '1: a float variable',
    'var float: x; solve satisfy;': '1: a float variable',
    'var set of 1..3: x; solve satisfy;': '1: a set variable',
    'var {}: x; solve satisfy;': '1: x has an empty domain',
    'var 1..3: x; var 1..3: x; solve satisfy;': '1: x is declared twice',
    'var 0..134217728: x; solve satisfy;': '1: x reaches from 0 to 134217728, the range is -134217727 to 134217727',
    'var 1..3: x;\nconstraint int_eq(x,y);\nsolve satisfy;': '2: y is not declared',
    'var 1..3: x;\nconstraint bool_not(x,x);\nsolve satisfy;': '2: x has the wrong type',
    'var 1..3: x;\nconstraint int_eq(x,true);\nsolve satisfy;': '2: True stands where an integer is due',
    'var 1..3: x;\nconstraint set_card(x,x);\nsolve satisfy;': '2: set_card has no rows; flatten with the library mznlib',
    'var 1..3: x;\nconstraint int_eq(x);\nsolve satisfy;': '2: int_eq takes 2 arguments',
    'var 1..3: x;\nconstraint int_pow(x,28,x);\nsolve satisfy;': '2: int_pow: 28 where a number from 0 to 27 is due',
    'var 1..3: x;\nconstraint int_lin_eq([1],[x,x],0);\nsolve satisfy;': '2: int_lin_eq: lists of unequal length',
    'var 1..3: x;\nconstraint int_lin_eq([1],[x],134217728);\nsolve satisfy;':
        '2: int_lin_eq: the number 134217728 is outside the range -134217727 to 134217727',
    'var 1..3: x;\nconstraint set_in(x,3);\nsolve satisfy;': '2: set_in: 3 where a set of at most 32 numbers is due',
    'var bool: b;\nconstraint array_bool_xor([' + 'b,' * 32 + 'b]);\nsolve satisfy;': '2: array_bool_xor: a list of 33, 32 is the limit',
    'var 1..3: x;': '1: no solve item',
    'var 1..3: 5; solve satisfy;': '1: "5" where a name is due',
    'var 1..3 x;': '1: a domain that is no range, set of numbers, or bool',
    'output [x];': '1: "output" begins no item known here',
    'var 1..3: x solve satisfy;': '1: ";" expected, not "satisfy"',
    'array [1..1] of int: a = [1..x];': '1: "x" where a range ends',
    'array [1..1] of int: a:: output_array([5..4]) = [1];': '1: no solve item',
    '"\n";': '1: """ begins no item known here',
    'set of int: s = {1,true};': '1: a set of other things than numbers',
    'array [1..1] of int: a = [[[1]]];': '1: "[" is no whole number, Boolean, list, set or name',
    'var 1..1' + '0' * 30 + ': x; solve satisfy;': '1: a number of 31 digits, the range is -134217727 to 134217727',
    'var bool: b;\nconstraint bool_not(b,1);\nsolve satisfy;': '2: 1 stands where a Boolean is due',
    'var bool: b;\nconstraint bool_clause([1],[b]);\nsolve satisfy;': '2: 1 stands where a Boolean is due',
    'var bool: b;\nconstraint bool_xor(b,b,1);\nsolve satisfy;': '2: 1 stands where a Boolean is due',
    'var 1..3: x;\nconstraint int_eq(x,1.5);\nsolve satisfy;': '2: 1.5 stands where an integer is due',
    'array [1..1] of float: a = [1.5];\nvar 1..3: x;\nconstraint float_lin_le(a,[x],2.0);\nsolve satisfy;':
        '3: float_lin_le has no rows; flatten with the library mznlib',
    'var 1..3: x;\nconstraint int_lin_eq([1],x,0);\nsolve satisfy;': '2: int_lin_eq: x where a list is due',
    'var 1..3: x;\nconstraint int_lin_eq([x],[x],0);\nsolve satisfy;': '2: int_lin_eq: a list of numbers is due',
    'var 1..3: x;\nconstraint int_lin_eq([1],[x],x);\nsolve satisfy;': '2: int_lin_eq: x where a number is due',
    'var 1..3: x;\nvar bool: b;\nconstraint set_in_reif(x,0..99999999999999999999,b);\nsolve satisfy;':
        '3: set_in_reif: 100000000000000000000 members where a set of at most 32 numbers is due'}
# Names: those of FlatZinc are kept, constants and parts have others, though they come first; of an array's annotations only its places are counted.
NAMES = {
    'var 3..3: a = 3;\nvar 0..9: c3:: output_var;\nsolve satisfy;':
        'var 3..3: a; % 0\nvar 3..3: c3_1; % 1\nvar 0..9: c3; % 2 c3\nconstraint int_eq(a,c3_1);\nsolve satisfy;\n',
    'var 0..1: _x:: output_var;\nvar 0..1: n:: output_var;\nsolve satisfy;': 'var 0..1: n_1; % 0 _x\nvar 0..1: n; % 1 n\nsolve satisfy;\n',
    'var 0..1: x;\nvar 0..1: y;\narray [1..2] of var int: a:: output_array([1..2]):: other(7,8) = [x,y];\nsolve satisfy;':
        'var 0..1: x; % 0 a[1]\nvar 0..1: y; % 1 a[2]\nsolve satisfy;\n'}
# This redefinition is what must be seen: MiniZinc takes the clause for array_bool_or again and drops it.
DROPPED = 'predicate array_bool_or(array[int] of var bool: as, var bool: r) = clause(as, [r]) /\\ forall (a in as) (a -> r);\n'


def fail(what):
    raise solver.Difference(what)


def flattened(fzn, folder=''):
    """The text of a FlatZinc file's contents, or None and the fault; files of the model are named from a folder."""
    try:
        return flatten.Flattener(fzn, folder).text(), None
    except flatten.Fault as fault:
        return None, '%s: %s' % fault.args


def read(path):
    with open(path) as file:
        return file.read()


def words_of(answer):
    return [int(w, 16) for w in answer.split()[1:]] if answer.startswith('words') else None


def texts_read(texts):
    """What text and check say of texts: words, or none, and a line."""
    answers = solver.answers([(solver.TEXT, 8192, text.encode(), ()) for text in texts])
    checks = iter(solver.answers([(solver.CHECK, 0, words, ()) for words in map(words_of, answers) if words]))
    return [(words_of(answer), next(checks) if words_of(answer) else answer) for answer in answers]


def recorded(names, expected):
    """The recorded files of all models, without MiniZinc."""
    texts = []
    for name in names:
        text, fault = flattened(read(os.path.join(HERE, name + '.fzn')))
        wanted = expected[name].get('fault')
        if fault != wanted or text and text != read(os.path.join(HERE, name + '.txt')):
            fail(f'{name}: {fault or "another text than the recorded one"}')
        if text:
            texts.append((name, text))
    for (name, _), (words, said) in zip(texts, texts_read([text for _, text in texts])):
        if not words or not said.startswith('counts') and said != expected[name].get('check'):
            fail(f'{name}: text and check say: {said}')
    for fzn, wanted in FAULTS.items():
        if flattened(fzn) != (None, wanted):
            fail(f'{flattened(fzn)} instead of {wanted} of:\n{fzn}')
    for fzn, wanted in NAMES.items():
        if flattened(fzn) != (wanted, None):
            fail(f'{flattened(fzn)} instead of {wanted} of:\n{fzn}')


def damage(rng, text):
    """A file with a part lost, doubled, or changed for one of another place."""
    for _ in range(rng.randint(1, 3)):
        at, end, other = (rng.randrange(len(text) + 1) for _ in range(3))
        end, other = min(len(text), at + rng.choice([1, 1, 3, 10, abs(end - at)])), text[other:other + rng.randint(0, 12)]
        text = text[:at] + rng.choice(['', text[at:end] * 2, other, rng.choice('.-;,[]{}()0_ "%')]) + text[end:]
    return text


def damaged(names):
    """Damaged files give a fault of one line, or a text that text reads."""
    rng, texts = random.Random(1), []
    files = [read(os.path.join(HERE, name + '.fzn')) for name in names] + [read(path) for path in sorted(glob.glob(os.path.join(HERE, 'places', '*.fzn')))]
    for _ in range(DAMAGED):
        fzn = damage(rng, rng.choice([f for f in files if len(f) < 6000] or files))
        try:
            text, fault = flattened(fzn)
        except Exception as error:
            fail(f'{error!r} of:\n{fzn}')
        if fault and '\n' in fault:
            fail(f'a fault of more lines than one: {fault}')
        if text:
            texts.append((fzn, text))
    for (fzn, text), (words, said) in zip(texts, texts_read([text for _, text in texts])):
        if not words and said != 'refused 1 0':
            fail(f'text: {said}, of a text of:\n{fzn}\nwhich is:\n{text}')
    return len(texts)


# With MiniZinc and Gecode.

def run(*command):
    done = subprocess.run(command, capture_output=True, text=True, timeout=200)
    if done.returncode:
        fail(f'{" ".join(command)}: {done.stderr.strip() or done.stdout.strip()}')
    return done.stdout


def compiled(model, *options):
    """MiniZinc's FlatZinc of a model."""
    with tempfile.TemporaryDirectory() as folder:
        path = os.path.join(folder, 'model.fzn')
        run('minizinc', '-c', *options, '--output-fzn-to-file', path, '--output-ozn-to-file', os.path.join(folder, 'model.ozn'),
            '--output-paths-to-file', os.path.join(folder, 'model.paths'), model)
        return read(path)


def rows_fzn(model, *options, configuration=SOLVER):
    return compiled(model, '--solver', configuration, '--no-half-reifications', *options)


def number(text):
    return {'true': 1, 'false': 0}.get(text) if text in ('true', 'false') else int(text)


def gecode(fzn):
    """Gecode's solutions, each a dictionary from names, of arrays with their places, to values; sets are left out. Gecode's name of int_pow is
    gecode_int_pow."""
    with tempfile.NamedTemporaryFile('w', suffix='.fzn') as file:
        file.write(fzn.replace('constraint int_pow(', 'constraint gecode_int_pow('))
        file.flush()
        out = run('fzn-gecode', '-a', file.name)
    if '==========' not in out and '=====UNSATISFIABLE=====' not in out:
        fail(f'Gecode says {out[-200:]}')
    found = []
    for block in out.split('----------\n')[:-1]:
        values = {}
        for name, value in re.findall(r'^(\w+) = (.*);$', block, re.M):
            if array := re.fullmatch(r'array\dd\((.*), \[(.*)\]\)', value):
                places = [()]
                for low, high in re.findall(r'(-?\d+)\.\.(-?\d+)', array[1]):
                    places = [place + (k,) for place in places for k in range(int(low), int(high) + 1)]
                for place, element in zip(places, array[2].split(', ')):
                    if re.fullmatch(r'true|false|-?\d+', element):
                        values[f'{name}[{",".join(map(str, place))}]'] = number(element)
            elif re.fullmatch(r'true|false|-?\d+', value):
                values[name] = number(value)
        found.append(values)
    return found


def solved(text):
    """Gecode's solutions of a text, and the names of the model with those of the text."""
    labels = {label: name for name, listed in re.findall(r'^var [^:]*: (\w+); % \d+((?: [^ %\n]+)*)', text, re.M) for label in listed.split()}
    fzn = re.sub(r'^(var [^:]*: \w+);', r'\1 :: output_var;', text, flags=re.M)
    return gecode(fzn), labels


def judged(text):
    """The solutions of a text by judge_model, of all values in its bounds."""
    (words, _), = texts_read([text])
    variables = re.findall(r'^var (?:bool|(-?\d+)\.\.(-?\d+)): (\w+);', text, re.M)
    lists = list(itertools.product(*(range(int(low or 0), int(high or 1) + 1) for low, high, _ in variables)))
    said = solver.answers([(solver.JUDGE_MODEL, 0, words, values) for values in lists])
    return [dict(zip((name for *_, name in variables), values)) for values, answer in zip(lists, said) if answer == 'holds']


def cut_down(solutions, names):
    return {tuple(solution[name] for name in names) for solution in solutions}


def compare(name, expected, configuration=SOLVER, folder=HERE):
    """A model by both ways; answers how many solutions."""
    model = os.path.join(folder, name + '.mzn')
    text, fault = flattened(rows_fzn(model, '--keep-paths', configuration=configuration), folder)
    if fault:
        return fail(f'{name}: {fault}')
    places_known(name, text, read(model).splitlines())
    ours, labels = solved(text)
    if expected.get('by judge_model'):
        ours = judged(text)
    # MiniZinc's own library, but where it has a builtin that Gecode lacks.
    theirs = gecode(compiled(model, *(('--solver', 'gecode') if expected.get("Gecode's library") else ('-G', 'std'))))
    if not expected.get('gecode is wrong'):
        common = sorted(label for label in labels if all(label in solution for solution in theirs))
        if theirs and theirs[0] and not common:
            fail(f'{name}: no name of the model is one of the text')
        mine, others = cut_down(ours, [labels[label] for label in common]), cut_down(theirs, common)
        if mine != others:
            fail(f'{name}: solutions over {common}, only by the text:\n{solver.few(mine - others)}\nonly by Gecode:\n{solver.few(others - mine)}')
    wanted = expected.get('solutions', len(theirs))
    if len(ours) != expected.get('of the text', wanted):
        fail(f'{name}: {len(ours)} solutions of the text, {expected.get("of the text", wanted)} expected')
    if not expected.get('gecode is wrong') and len(theirs) != wanted:
        fail(f'{name}: {len(theirs)} solutions by Gecode, {wanted} expected')
    through_calls(name, text, ours[:FILLED])
    return len(ours)


def places_known(name, text, lines):
    """Every constraint of a text names a line of the model, but the one that is never true, which MiniZinc writes of a model without solutions. In a
    random model that line has the variables of the constraint, unless MiniZinc made one variable of two."""
    whole = name.startswith('random') and set('xyzbc') <= set(re.findall(r'^var [^:]*: (\w+);', text, re.M))
    for constraint in re.findall(r'^constraint .*', text, re.M):
        place = re.fullmatch(rf'constraint (.*); % {name}\.mzn:(\d+)', constraint)
        if constraint == 'constraint bool_clause([],[]);':
            continue
        if not place or not 1 <= int(place[2]) <= len(lines):
            fail(f'{name}: no line of the model: {constraint}')
        if whole and not set(re.findall(r'\b[xyzbc]\b', place[1])) <= set(re.findall(r'\b[xyzbc]\b', lines[int(place[2]) - 1])):
            fail(f'{name}: not the line {lines[int(place[2]) - 1]}: {constraint}')


def some_integer(rng, depth):
    """An integer expression over x, y, z in small bounds and the list a."""
    if not depth or rng.random() < 0.3:
        return rng.choice(['x', 'y', 'z', 'x', 'y', 'z', str(rng.randint(-3, 4))])
    one, other = some_integer(rng, depth - 1), some_integer(rng, depth - 1)
    return rng.choice([f'({one} + {other})', f'({one} - {other})', f'({one} * {other})', f'abs({one})', f'min({one}, {other})', f'max({one}, {other})',
                       f'({one} div {rng.choice([2, 3, -2])})', f'({one} mod {rng.choice([2, 3, -3])})', f'pow({one}, {rng.randint(0, 3)})',
                       f'a[1 + abs({one}) mod 4]', f'[{one}, {other}, y][1 + abs(z) mod 3]', f'bool2int({some_boolean(rng, depth - 1)})'])


def some_boolean(rng, depth):
    """A Boolean expression over these and b, c."""
    if not depth or rng.random() < 0.15:
        return rng.choice(['b', 'c', 'not b'])
    if rng.random() < 0.5:
        one, other = some_integer(rng, depth - 1), some_integer(rng, depth - 1)
        return rng.choice([f'({one} {sign} {other})' for sign in ('=', '!=', '<=', '<', '>')] + [f'({one} in {{{other_set(rng)}}})'])
    one, other = some_boolean(rng, depth - 1), some_boolean(rng, depth - 1)
    return rng.choice([f'({one} {sign} {other})' for sign in ('/\\', '\\/', '->', '<->', 'xor')] + [f'(not {one})'])


def other_set(rng):
    return ', '.join(map(str, sorted(rng.sample(range(-3, 7), rng.randint(1, 4)))))


def some_model(rng):
    bounds = [(low, low + rng.randint(0, 4)) for low in (rng.randint(-3, 2) for _ in range(3))]
    declared = [f'var {low}..{high}: {name};' for name, (low, high) in zip('xyz', bounds)] + ['var bool: b; var bool: c;']
    return '\n'.join(declared + [f'array[1..4] of int: a = {[rng.randint(-4, 4) for _ in range(4)]};']
                     + [f'constraint {some_boolean(rng, 3)};' for _ in range(rng.randint(1, 3))] + ['solve satisfy;']) + '\n'


def compare_random(seed):
    """A random model; answers how many solutions."""
    with tempfile.TemporaryDirectory() as folder:
        model = some_model(random.Random(seed))
        with open(os.path.join(folder, f'random{seed}.mzn'), 'w') as file:
            file.write(model)
        try:
            return compare(f'random{seed}', {}, folder=folder)
        except solver.Difference as difference:
            fail(f'{difference}\nof:\n{model}')


def through_calls(name, text, solutions):
    """The solutions through fill and judge_rows."""
    (words, said), = texts_read([text])
    if not said.startswith('counts'):
        return
    variables, _, auxiliaries, _, needed = map(int, said.split()[1:])
    order = re.findall(r'^var [^:]*: (\w+);', text, re.M)
    lists = [tuple(solution[v] for v in order) for solution in solutions]
    rows, *filled = solver.answers([(solver.TRANSLATE, needed, words, ())] + [(solver.FILL, variables + auxiliaries, words, values) for values in lists])
    asked = [(solver.JUDGE_ROWS, 0, words_of(rows), solver.values_of(answer) or ()) for answer in filled]
    for values, answer, judged in zip(lists, filled, solver.answers(asked) if asked else []):
        if judged != 'holds':
            fail(f'{name}: {values}, fill says {answer}, judge_rows {judged}')


def dropped(expected):
    """Whether a library that loses constraints is seen."""
    with tempfile.TemporaryDirectory() as folder:
        run('cp', '-r', os.path.dirname(SOLVER), folder)
        with open(os.path.join(folder, 'minizinc', 'mznlib', 'redefinitions.mzn'), 'a') as library:
            library.write(DROPPED)
        configuration = os.path.join(folder, 'minizinc', 'rows.msc')
        lost, _ = flattened(rows_fzn(os.path.join(HERE, 'm06_boollogic.mzn'), configuration=configuration))
        if len(solved(lost)[0]) != 10 or expected['m06_boollogic']['solutions'] != 3:
            fail(f'a library that loses constraints gives {len(solved(lost)[0])} solutions of m06_boollogic, not 10 for 3')
        try:
            compare('m06_boollogic', expected['m06_boollogic'], configuration)
        except solver.Difference as difference:
            if str(difference).startswith('m06_boollogic: solutions over'):
                return
    fail('a library that loses constraints is not seen')


def record(names):
    for name in names:
        fzn = rows_fzn(os.path.join(HERE, name + '.mzn'))
        text, _ = flattened(fzn)
        for end, data in ('.fzn', fzn), ('.txt', text):
            if data:
                with open(os.path.join(HERE, name + end), 'w') as file:
                    file.write(data)


def main():
    every = sorted(os.path.basename(path)[:-4] for path in glob.glob(os.path.join(HERE, '*.mzn')))
    names = [a for a in sys.argv[1:] if a != '--record'] or every
    if '--record' in sys.argv:
        record(names)
        return 0
    expected = json.loads(read(os.path.join(HERE, 'expected.json')))
    both = packages.are_here('minizinc', 'minizinc', 'fzn-gecode')
    try:
        if sorted(expected) != every:
            fail(f'models and expected.json differ in {sorted(set(expected) ^ set(every))}')
        recorded(names, expected)
        print(f'minizinc: {len(names)} recorded files, {len(FAULTS)} faults, {len(NAMES)} texts with names, {DAMAGED} damaged files of which {damaged(names)} give a text')
        if not both:
            return 0
        chosen = [name for name in names if 'solutions' in expected[name]]
        with concurrent.futures.ThreadPoolExecutor(2) as pool:
            counts = list(pool.map(lambda name: compare(name, expected[name]), chosen))
            more = list(pool.map(compare_random, range(RANDOM if names == every else 0)))
        dropped(expected)
        print(f'minizinc: {len(chosen)} models, {sum(counts)} solutions, {len(more)} random models, {sum(more)} solutions, 0 differences')
    except solver.Difference as difference:
        print(f'minizinc: {difference}')
        return 1
    return 0


if __name__ == '__main__':
    sys.exit(main())
