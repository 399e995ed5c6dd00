#!/usr/bin/env python3
"""Follows the lines of MiniZinc models through minizinc/flatten.py and the command: what is false, and what has no rows, is named by its line.

    tests/places.py            all models of tests/minizinc/places
    tests/places.py --record   writes the recorded FlatZinc and texts anew

Always, with the recorded FlatZinc of each model (NAME.fzn, by `minizinc -c --keep-paths ..`, with /models for the folder):

    flatten.py    gives the recorded text (NAME.txt) byte by byte, or the fault of FAULTS; the text has the words of that without paths
    paths         those of PATHS give the place beside them; files that are missing or no models give no line; damaged paths change no word
    program       what is no FlatZinc at all is a fault of one line
    command       with a `minizinc` that prints recorded and damaged texts: the answers of ANSWERS, and of COMMENTS

With minizinc (where it is missing, tests/packages.py says what becomes of it): FAULTS and ANSWERS with MiniZinc itself. The command, target/pearrummy, is there already."""
import os, random, re, subprocess, sys, tempfile

sys.dont_write_bytecode = True
import minizinc, packages, solver
from minizinc import fail, flattened, read

PLACES = os.path.join(minizinc.HERE, 'places')
SCRIPT = os.path.join(solver.ROOT, 'minizinc', 'flatten.py')
COMMAND = os.path.join(solver.ROOT, 'target', 'pearrummy')
TEXTS = ['apart', 'members', 'price', 'shop', 'sums', 'tasks', 'wide', 'words']
FAULTS = {
    'objective': 'objective.mzn:7: an objective: only "solve satisfy" has rows',
    'unbounded': 'unbounded.mzn:3: y has no bounds: give it some in the model',
    'floats': 'floats.mzn:3: a float variable',
    'sets': 'sets.mzn:2: a set variable',
    'unknown': 'unknown.mzn:5: mine has no rows; flatten with the library mznlib',
    'products': 'products.mzn:4: X_INTRODUCED_0_ reaches from 0 to 10000000000, the range is -134217727 to 134217727',
    'coefficient': 'coefficient.mzn:3: int_lin_le: the number 200000000 is outside the range -134217727 to 134217727',
    'parity': 'parity.mzn:3: array_bool_xor: a list of 33, 32 is the limit'}
DAMAGED = 300   # damaged paths
STANDARD = {'sets'}  # by MiniZinc's own library, as ours leaves no set variables
# The lines are counted by hand.
ANSWERS = {
    'judge tasks.mzn hour[1]=1 hour[2]=3 hour[3]=3': 'constraint 3 (int_ne, tasks.mzn line 7) is false',
    'judge tasks.mzn hour[1]=3 hour[2]=1 hour[3]=2': 'constraint 0 (int_lt, tasks.mzn line 5) is false',
    'judge price.mzn choice=1 paid=4': 'constraint 1 (array_int_element, price.mzn line 6) is false',
    'fill sums.mzn x=1 y=1 small=0': 'constraint 1 (int_lin_le_reif, sums.mzn line 6) is false',
    'judge apart.mzn start=2 finish=4': 'constraint 1 (int_lin_le, apart.mzn line 6) is false',
    'judge shop.mzn day=1 ready=1 staff=1 guests=1': 'constraint 0 (int_ne, shop.mzn line 5) is false',
    'fill shop.mzn day=1 ready=2 staff=1 guests=3': 'constraint 1 (int_lin_le, rules.mzn line 6) is false',
    'reason shop.mzn 1 2 1 3 0': 'row 2 fails: constraint 1 (int_lin_le, rules.mzn line 6) is false',
    'reason shop.mzn 1 2 1 2 1': 'row 1 fails: constraint 0 (int_ne, shop.mzn line 5) is true, but auxiliaries in the row are wrong',
    'judge --json tasks.mzn hour[1]=1 hour[2]=3 hour[3]=3': '{"answer":"false","constraint":3,"builtin":"int_ne","file":"tasks.mzn","line":7}',
    'reason --json shop.mzn 1 2 1 3 0': '{"answer":"builtin","row":2,"constraint":1,"builtin":"int_lin_le","file":"rules.mzn","line":6}',
    'check wide.mzn': "pearrummy: wide.mzn: fault 13 at wide.mzn line 4, 'int_lin_ne': "
                      'a coefficient, constant or auxiliary bound of the rows is outside the range',
    'check --json wide.mzn': '{"answer":"refused","fault":13,"place":7,"text":"a coefficient, constant or auxiliary bound of the rows is outside the '
                             'range","file":"wide.mzn","line":4,"token":"int_lin_ne"}'}
STD = '/usr/share/minizinc/std/fzn_all_different_int.mzn|6|5|6|60|ca|forall;'
# What stands in an mzn_path, and the place that it says.
PATHS = {
    '/models/m.mzn|7|12|7|26|ca|less;/models/own.mzn|1|42|1|51|bin|': 'm.mzn:7',
    STD + '/models/m.mzn|7|1|7|2|id|x;': 'm.mzn:7',
    STD + '|0|0|0|0|il|0;/models/m.mzn|7|1|7|2|id|x;': 'm.mzn:7',
    os.path.join(solver.ROOT, 'minizinc', 'mznlib', 'redefinitions.mzn') + '|42|3|48|7|l;/models/m.mzn|7|1|7|2|id|x;': 'm.mzn:7',
    STD: None,
    '/models/m.mzn|1|50|1|50|id|p;/models/m.mzn|1|40|1|50|vd;;/models/m.mzn|7|12|7|23|bin|': 'm.mzn:7',
    '/models/m.mzn|7|50|7|50|id|p;/models/m.mzn|8|40|8|50|vd;;' + STD: 'm.mzn:7',
    ';;/models/m.mzn|7|1|7|2|id|x;;': 'm.mzn:7',
    '/other/m.mzn|7|1|7|2|id|x;': '/other/m.mzn:7',
    'stdin|3|12|3|20|bin|': 'stdin:3',
    r'/models/a b\"|;%.mzn|7|1|7|2|id|x;': 'a b"|;%.mzn:7',
    r'/models/a\\b.mzn|7|1|7|2|id|x;': r'a\b.mzn:7',
    '/models/a\tb\x01.mzn|7|1|7|2|id|x;': 'a?b?.mzn:7',
    '/models/caf\u00e9.mzn|7|1|7|2|id|x;': 'caf\u00e9.mzn:7',
    '/models/m.mzn|999999999|1|7|2|id|x;': 'm.mzn:999999999',
    '/models/m.mzn|9999999999|1|7|2|id|x;': None,
    '/models/m.mzn|' + '9' * 9999 + '|1|7|2|id|x;': None,
    '/models/m.mzn|0|1|7|2|id|x;': None,
    '/models/m.mzn|-7|1|7|2|id|x;': None,
    '/models/m.mzn|seven|1|7|2|id|x;': None,
    '/models/m.mzn|7|1|7|': None,
    '/models/m.mzn': None,
    '|7|1|7|2|id|x;': None,
    '|||||;|||||': None,
    '': None,
    ';' * 9999: None,
    '|' * 9999: None}
# Files that are opened for the line of an objective, and say none.
NO_MODELS = ['/models/missing.mzn', PLACES, '/dev/zero', PLACES + '/tasks.mzn', 'a\x00b', '~' * 9999]
# Behind a constraint, and what the command says then of its place.
COMMENTS = {
    ' % m.mzn:7': 'm.mzn line 7', ' % a b.mzn:7': 'a b.mzn line 7', ' % 50% off; % x.mzn:7': '50% off; % x.mzn line 7', ' % c:m.mzn:7': 'c:m.mzn line 7',
    ' % m.mzn:999999999': 'm.mzn line 999999999', ' % caf\u00e9.mzn:7': 'caf\u00e9.mzn line 7', ' % ' + 'm/' * 9999 + 'm:7': 'm/' * 9999 + 'm line 7',
    '': None, ' %': None, ' % ': None, ' % :7': None, ' % m.mzn:': None, ' % m.mzn': None, ' % m.mzn:7x': None, ' % m.mzn:9999999999': None, '% m.mzn:7': None,
    ' % 7': None, ' % m.mzn 77': None}
# Behind a 257th variable.
NOTES = {' x % m.mzn:7': 'm.mzn line 7', ' % m.mzn:7': 'm.mzn line 7', ' x y % a b.mzn:7': 'a b.mzn line 7', '': None, ' x': None, ' m.mzn:7': None,
         ' x %': None, ' x % :7': None, ' x %m.mzn:7': None}


def in_folder(fzn):
    return fzn.replace('/models/', PLACES + '/')


def recorded():
    texts = []
    for name in TEXTS + list(FAULTS):
        fzn = read(os.path.join(PLACES, name + '.fzn'))
        text, fault = flattened(in_folder(fzn), PLACES)
        if fault != FAULTS.get(name) or text and text != read(os.path.join(PLACES, name + '.txt')):
            fail(f'{name}: {fault or "another text than the recorded one"}')
        bare, without = flattened(re.sub(r':: mzn_path\("(?:[^"\\]|\\.)*"\)', '', fzn))
        if bool(text) != bool(bare) or without and re.sub('^[^ ]*: ', '', without) != re.sub('^[^ ]*: ', '', fault) or 'mzn' in (bare or ''):
            fail(f'{name}: without paths {without or bare}')
        texts += [(name, text, bare)] * bool(text)
    words = [words for words, _ in minizinc.texts_read([text for _, *pair in texts for text in pair])]
    for k, (name, *_) in enumerate(texts):
        if not words[2 * k] or words[2 * k] != words[2 * k + 1]:
            fail(f'{name}: not the words of the text without paths')


def paths():
    texts, lists = [], minizinc.texts_read(['var 1..3: x;\nconstraint int_le(x,x);\nsolve satisfy;\n'])
    for path, place in PATHS.items():
        text, fault = flattened(f'var 1..3: x:: mzn_path("{path}");\nconstraint int_le(x,x):: mzn_path("{path}");\nsolve satisfy;\n', '/models')
        comment = f' % {place}' if place else ''
        if text != f'var 1..3: x; % 0{comment}\nconstraint int_le(x,x);{comment}\nsolve satisfy;\n':
            fail(f'the path {path[:99]} gives {fault or text}')
        text, fault = flattened(f'var int: x:: mzn_path("{path}"); solve satisfy;', '/models')
        if fault != f'{place or 1}: x has no bounds: give it some in the model':
            fail(f'the path {path[:99]} gives {fault}')
        texts.append(f'var 1..3: x; % 0{comment}\nconstraint int_le(x,x);{comment}\nsolve satisfy;\n')
    if any(found != lists[0] for found in minizinc.texts_read(texts)):
        fail('a place is read as something else than a comment')
    for broken in ('mzn_path', 'mzn_path(', 'mzn_path()', 'mzn_path(3)', 'mzn_path("/models/m.mzn|7', 'mzn_path "/models/m.mzn|7|1|7|2|id|x;"'):
        text, fault = flattened(f'var 1..3: x:: {broken};\nconstraint int_le(x,x):: {broken};\nsolve satisfy;\n')
        if text and '%' in text.replace('; % 0', '') or fault and not re.fullmatch('[0-9]+: .*', fault):
            fail(f'{broken} gives {fault or text}')
    long, short = (f'mzn_path("/models/m.mzn|{line}|1|7|2|bin|;{rest}")' for line, rest in ((7, STD), (3, '')))
    for notes in f'{long}:: {short}', f'{short}:: {long}', f'{short}:: {long}:: {short}', f'{long}:: mzn_path("{STD * 9}")':
        if flattened(f'var int: x:: {notes};', '/models')[1] != 'm.mzn:7: x has no bounds: give it some in the model':
            fail(f'of several paths: {flattened(f"var int: x:: {notes};")}')
    item = 'var bool: {}:: {}:: mzn_path("/models/m.mzn|{}|1|7|2|id|x;");\n'
    for notes, line, place in ('var_is_introduced', 7, ' % m.mzn:7'), ('var_is_introduced', 8, ''), ('output_var', 7, ''):
        fzn = item.format('a', 'var_is_introduced', 7) + item.format('b', notes, line) + 'constraint bool_clause([a],[b]);\nsolve satisfy;\n'
        if f'\nconstraint bool_clause([a],[b]);{place}\n' not in flattened(fzn, '/models')[0]:
            fail(f'a clause without a path: {flattened(fzn, "/models")[0]}')
    if flattened(item.format('a', 'output_var', 7)) != (None, '1: no solve item'):
        fail('a line for a solve item that is missing')
    for file in NO_MODELS:
        fzn = f'var 1..3: x:: mzn_path("{file}|3|1|3|2|id|x;");\nsolve minimize x;'
        if flattened(fzn) != (None, '2: an objective: only "solve satisfy" has rows'):
            fail(f'an objective with the file {file[:99]} gives {flattened(fzn)}')
    two = f'var 1..3: x:: mzn_path("{PLACES}/objective.mzn|5|1|5|2|id|x;");\n'
    three = two + f'var 1..3: y:: mzn_path("{PLACES}/../m26_objective.mzn|1|1|1|2|id|y;");\n'
    if flattened(two + 'solve minimize x;', PLACES)[1] != FAULTS['objective'] or not flattened(three + 'solve minimize x;')[1].startswith('3: '):
        fail('an objective of two models has a line')


def damaged():
    """Texts with a damaged path have the words of the recorded ones."""
    rng, texts = random.Random(2), []
    for name in rng.choices(TEXTS, k=DAMAGED):
        fzn = read(os.path.join(PLACES, name + '.fzn'))
        path = rng.choice(list(re.finditer(r'mzn_path\("((?:[^"\\]|\\.)*)"', fzn)))
        inside = re.sub(r'["\\]', '', minizinc.damage(rng, path[1]))
        text, fault = flattened(fzn[:path.start(1)] + inside + fzn[path.end(1):], '/models')
        if fault:
            fail(f'{name} with the path {inside} gives {fault}')
        texts.append((name, inside, text))
    right = dict(zip(TEXTS, minizinc.texts_read([read(os.path.join(PLACES, name + '.txt')) for name in TEXTS])))
    for (name, inside, _), found in zip(texts, minizinc.texts_read([text for *_, text in texts])):
        if found != right[name]:
            fail(f'{name} with the path {inside} is read as {found}')


def program():
    """flatten.py by itself on what is no FlatZinc; answers how many."""
    wrong = {b'\xff\xfe var': 'standard input:1: "\ufffd" begins no item known here', b'': 'standard input:1: no solve item',
             b'array [1..1] of int: a = ' + b'[' * 100000: 'standard input:1: "[" is no whole number, Boolean, list, set or name',
             b'var 1..' + b'9' * 10000 + b': x;': 'standard input:1: a number of 10000 digits, the range is -134217727 to 134217727',
             b'array [1..1] of int: a:: output_array([1..9999999999]) = [1]; solve minimize a;':
                 'standard input:1: an objective: only "solve satisfy" has rows',
             b'var 1..3: x:: mzn_path("\xff.mzn|7|1|7|2|id|x;"); var int: y:: mzn_path("\xff.mzn|8|1|7|2|id|x;");':
                 '\ufffd.mzn:8: y has no bounds: give it some in the model'}
    for data, wanted in wrong.items():
        done = subprocess.run([sys.executable, SCRIPT], input=data, capture_output=True, timeout=60)
        if done.returncode != 1 or done.stdout or done.stderr.decode() != wanted + '\n':
            fail(f'flatten.py says {done.stderr[-300:]} instead of {wanted}')
    with tempfile.TemporaryDirectory() as folder:
        os.mkfifo(os.path.join(folder, 'm.mzn'))
        data = f'var 1..3: x:: mzn_path("{folder}/m.mzn|7|1|7|2|id|x;"); solve minimize x;'
        done = subprocess.run([sys.executable, SCRIPT], input=data.encode(), capture_output=True, timeout=60)
        if done.stderr != b'standard input:1: an objective: only "solve satisfy" has rows\n':
            fail(f'flatten.py says {done.stderr[-300:]} where a pipe stands for a model')
    for files, wanted in (['nowhere.fzn'], 'nowhere.fzn: No such file or directory'), (['a.fzn', 'b.fzn'], 'b.fzn: a second file, one is read'):
        done = subprocess.run([sys.executable, SCRIPT, *files], capture_output=True, timeout=60)
        if done.returncode != 1 or done.stdout or done.stderr.decode() != wanted + '\n':
            fail(f'flatten.py says {done.stderr[-300:]} of {files}')
    return len(wrong) + 3


def answer(line, environment=None):
    """What the command prints, both ways, in the folder of the models, and its status."""
    done = subprocess.run([COMMAND] + line.split(), cwd=PLACES, capture_output=True, timeout=60, env=environment)
    return (done.stdout + done.stderr).decode('utf-8', 'backslashreplace'), done.returncode


def command():
    """The command with a `minizinc` that prints a text; answers how many runs."""
    with tempfile.TemporaryDirectory() as folder:
        program, text = os.path.join(folder, 'minizinc'), os.path.join(folder, 'text')
        with open(program, 'w') as file:
            file.write(f'#!/bin/sh\ncat {text}\n')
        os.chmod(program, 0o755)
        environment = dict(os.environ, PATH=folder + os.pathsep + os.environ['PATH'])

        def said(line, printed):
            with open(text, 'w', encoding='utf-8') as file:
                file.write(printed)
            return answer(line, environment)

        for line, wanted in ANSWERS.items():
            name = re.search(r'(\w+)\.mzn', line)[1]
            if said(line, read(os.path.join(PLACES, name + '.txt'))) != (wanted + '\n', 2 if 'check' in line else 1):
                fail(f'{line}, with the recorded text: {answer(line, environment)}, not {wanted}')
        start = 'var 0..3: x; % 0 p[1] % m.mzn:1\nvar 0..3: y; % 1 % m.mzn:2\nconstraint int_lt(x,y);'
        for comment, place in COMMENTS.items():
            found = said('judge tasks.mzn p[1]=1 y=1', f'{start}{comment}\nsolve satisfy;\n')
            if found != (f'constraint 0 (int_lt, {place or "line 3 of its FlatZinc"}) is false\n', 1):
                fail(f'behind a constraint "{comment[:99]}", the command: {found}')
        for line, wanted in ((f'judge --text {text} 1 1', 'constraint 0 (int_lt, line 3) is false'),
                             ('judge tasks.mzn p[1]=1 y=9', 'y is out of bounds: 9 is not in 0..3'),
                             ('judge --json tasks.mzn 1 1', '{"answer":"false","constraint":0,"builtin":"int_lt","file":"caf\u00e9.mzn","line":7}')):
            if said(line, f'{start} % caf\u00e9.mzn:7\nsolve satisfy;\n') != (wanted + '\n', 1):
                fail(f'{line}: {answer(line, environment)}, not {wanted}')
        found = said('judge --json tasks.mzn 9 1', 'var 0..3: x; % 0 a"b\\c\u00e9 % m.mzn:1\nvar 0..3: y; % 1\nsolve satisfy;\n')
        if found != ('{"answer":"out of bounds","variable":0,"name":"a\\"b\\\\c\u00e9","value":9,"lower":0,"upper":3}\n', 1):
            fail(f'a name with a quote in JSON: {found}')
        for note, place in NOTES.items():
            found = said('check tasks.mzn', ''.join(f'var 0..1: v{k}; % {k}{note}\n' for k in range(257)) + 'solve satisfy;\n')
            if found != (f"pearrummy: tasks.mzn: fault 6 at {place or 'line 257, column 5 of its FlatZinc'}, '0': a 257th variable starts\n", 2):
                fail(f'behind a variable "{note}", the command: {found}')
        whole = f'{start} % m.mzn:7\nsolve satisfy;\n'
        for end in range(len(start) - 10, len(whole)):
            found, status = said('judge tasks.mzn p[1]=1 y=1', whole[:end])
            if status != (1 if 'satisfy;' in whole[:end] else 2):
                fail(f'the text "{whole[:end]}", the command: {found} {status}')
        return len(ANSWERS) + len(COMMENTS) + len(NOTES) + len(whole) - len(start) + 14


def with_minizinc():
    for name, wanted in FAULTS.items():
        if name not in STANDARD and answer(f'check {name}.mzn') != (f'{wanted}\npearrummy: {name}.mzn: MiniZinc does not carry this model over to rows\n', 2):
            fail(f'check {name}.mzn: {answer(f"check {name}.mzn")}, not {wanted}')
    for line, wanted in ANSWERS.items():
        if answer(line) != (wanted + '\n', 2 if 'check' in line else 1):
            fail(f'{line}, with MiniZinc: {answer(line)}, not {wanted}')
    left = [file for file in os.listdir(PLACES) if not file.endswith(('.mzn', '.fzn', '.txt'))]
    if left:
        fail(f'MiniZinc leaves {left}')


def record():
    for name in TEXTS + list(FAULTS):
        options = ('-G', 'std') if name in STANDARD else ()
        fzn = minizinc.rows_fzn(os.path.join(PLACES, name + '.mzn'), '--keep-paths', *options)
        text, _ = flattened(fzn, PLACES)
        for end, data in ('.fzn', fzn.replace(PLACES + '/', '/models/').replace(solver.ROOT + '/', '/pearrummy/')), ('.txt', text):
            if data:
                with open(os.path.join(PLACES, name + end), 'w') as file:
                    file.write(data)


def main():
    if '--record' in sys.argv:
        record()
        return 0
    is_here = packages.are_here('places', 'minizinc')
    try:
        recorded()
        paths()
        damaged()
        print(f'places: {len(TEXTS)} recorded texts, {len(FAULTS)} faults, {len(PATHS)} paths, {DAMAGED} damaged ones, {program()} runs of flatten.py, {command()} of the command')
        if not is_here:
            return 0
        with_minizinc()
        print(f'places: with MiniZinc {len(FAULTS) - len(STANDARD)} faults and {len(ANSWERS)} answers name the lines of their models')
    except solver.Difference as difference:
        print(f'places: {difference}')
        return 1
    return 0


if __name__ == '__main__':
    sys.exit(main())
