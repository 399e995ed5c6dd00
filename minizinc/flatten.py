#!/usr/bin/env python3
"""Carries the FlatZinc that MiniZinc writes over to the FlatZinc that the call text reads.

    flatten.py [FILE.fzn] > FILE.txt
    minizinc --solver minizinc/rows.msc --no-half-reifications --keep-paths MODEL.mzn [DATA.dzn] > FILE.txt

Arrays are written out where they are used, annotations and predicates are left out, a constant that stands for a variable becomes a variable with
one value, a domain that is a set becomes bounds and set_in, names that are too long get others, and lists of more than 32 are cut. After each
variable a comment gives its number and its names in the model, so that the text is its own table. With --keep-paths MiniZinc says in annotations
mzn_path("..") where in the model an item comes from: then a comment "FILE:LINE" stands behind each variable, after "%", and each constraint, of the
first place in the path that is in no library. What has no rows is a fault: one line, "FILE:LINE: what", of the model where a path says it, else of
the FlatZinc, and status 1. This script and the library mznlib are tested, not proved."""
import os, re, sys

# The arguments of the builtins with a code: I an integer variable, B a Boolean one, N a number, K a number from 0 to 27, LI, LB, LN lists of these,
# S a set; LN LI side by side are parallel.
SHAPES = {name: shape for shape, names in {
    'I I': 'int_eq int_le int_lt int_ne int_abs', 'I I B': 'int_le_reif int_eq_reif int_lt_reif int_ne_reif',
    'I I I': 'int_plus int_times int_max int_min int_div int_mod', 'LN LI N': 'int_lin_eq int_lin_le int_lin_ne',
    'LN LI N B': 'int_lin_eq_reif int_lin_le_reif int_lin_ne_reif', 'B I': 'bool2int', 'B B': 'bool_not',
    'B B B': 'bool_and bool_or bool_xor bool_eq_reif bool_le_reif bool_lt_reif', 'LB LB': 'bool_clause', 'LB B': 'array_bool_and',
    'LB': 'array_bool_xor', 'I LN I': 'array_int_element', 'I LI I': 'array_var_int_element',
    'I LI': 'array_int_maximum array_int_minimum', 'I S': 'set_in', 'I S B': 'set_in_reif', 'I K I': 'int_pow'}.items() for name in names.split()}
# Sums of two variables by 1 and -1 with such a constant, and the builtin that says the same with fewer auxiliaries.
SHORTER = {('int_lin_ne', 0): 'int_ne', ('int_lin_le', 0): 'int_le', ('int_lin_le', -1): 'int_lt', ('int_lin_eq', 0): 'int_eq',
           ('int_lin_le_reif', 0): 'int_le_reif', ('int_lin_le_reif', -1): 'int_lt_reif'}
# Builtins without a code that MiniZinc writes and that a library cannot take from it safely: redefined there by `clause`, array_bool_or is dropped.
REWRITTEN = {
    'bool_eq': lambda a, b: [('bool_clause', [a], [b]), ('bool_clause', [b], [a])],
    'bool_le': lambda a, b: [('bool_clause', [b], [a])],
    'bool_lt': lambda a, b: [('bool_clause', [b], []), ('bool_clause', [], [a])],
    'array_bool_or': lambda xs, r: ([('bool_or', *xs, r)] if len(xs) == 2 and isinstance(r, str)
                                    else [('bool_clause', xs, [r])] + [('bool_clause', [r], [x]) for x in xs])}
LONGEST, HIGHEST = 32, 134217727
DIGITS = 30     # more than any number that MiniZinc writes has
TOKEN = re.compile(r'(?P<skip>[ \t\r\n]+|%[^\n]*)|(?P<float>-?\d+(?:\.\d+(?:[eE][-+]?\d+)?|[eE][-+]?\d+))|(?P<number>-?\d+)|(?P<name>[A-Za-z_]\w*)'
                   r'|(?P<text>"(?:[^"\\\n]|\\[^\n])*")|(?P<sign>\.\.|::|[][(){},:;=])|(?P<bad>.)', re.A)
# An element of a path: file, line, three more numbers, and what stands there; that of a declaration is `id|NAME` or `vd`.
ELEMENT = re.compile(r';*(.*?)\|(\d+)\|\d+\|\d+\|\d+\|(?P<declared>id\||vd)?[^;]*', re.A | re.S)
LIBRARIES = ('/share/minizinc/', os.path.join(os.path.dirname(os.path.realpath(__file__)), 'mznlib', ''))
# What is no item of a model: comments, strings, quoted names.
HIDDEN = re.compile(r'%[^\n]*|/\*.*?\*/|"(?:[^"\\]|\\.)*"|\'[^\'\n]*\'', re.S)
OBJECTIVE = re.compile(r'\bsolve\b(?=[^;]*\b(?:minimize|maximize)\b)')
LARGEST = 1 << 24   # so many characters of a model are read at most


class Fault(Exception):
    """Where, "FILE:LINE" of the model or a line of the FlatZinc, and what cannot be carried over."""


class Own(str):
    """A variable's name in the text, where str is its name in FlatZinc."""


def model_line(path):
    """The file and the line of the first element of a path that is of no library, or None; a declaration only where nothing else follows: what a
    variable is equal to has its path behind that of the variable."""
    element, declared = ELEMENT.match(path), None
    while element:
        file, line = element[1], element[2]
        if file and len(line) < 10 and int(line) and not any(library in file for library in LIBRARIES):
            if not element['declared']:
                return file, int(line)
            declared = declared or (file, int(line))
        element = ELEMENT.match(path, element.end())
    return declared


def objective_line(files):
    """The file and the line of the one solve item with an objective in a model's files, or None."""
    found = []
    for file in filter(os.path.isfile, files):
        try:
            with open(file, encoding='utf-8', errors='replace', newline='\n') as opened:
                text = HIDDEN.sub(lambda hidden: '\n' * hidden[0].count('\n') or ' ', opened.read(LARGEST))
        except OSError:
            continue
        found += [(file, 1 + text.count('\n', 0, solve.start())) for solve in OBJECTIVE.finditer(text)]
    return found[0] if len(found) == 1 else None


class Flattener:
    def __init__(self, text, folder=''):
        """Files of the model are named as seen from the folder where that is shorter."""
        self.folder = folder
        self.tokens, line = [], 1
        for t in TOKEN.finditer(text):
            if t.lastgroup != 'skip':
                self.tokens.append((t.lastgroup, t[0], line))
            line += t[0].count('\n')
        self.tokens.append(('end', '', line))
        self.spelt = {spelt for sort, spelt, _ in self.tokens if sort == 'name'}
        self.at, self.line = 0, 1
        self.place = None       # "FILE:LINE" in the model, of the item that is read, where its path says it
        self.files = {}         # the files of the model, as paths name them
        self.parameters = {}    # the values of FlatZinc's parameters and arrays
        self.names = {}         # of each variable of FlatZinc, and of each constant, its name in the text
        self.bounds = {}        # of each name in the text, in order
        self.types = {}
        self.labels = {}        # its names in the model
        self.places = {}        # where in the model it comes from
        self.introduced = {}    # that of each variable of FlatZinc that MiniZinc introduced
        self.constraints = []   # name, arguments and place of each

    # Tokens.

    def fault(self, what):
        raise Fault(self.place or self.line, what)

    def find_place(self):
        """The place of the item that begins here, by the longest of its paths that says one: it goes down to the item itself, where MiniZinc leaves
        on some items, in any order, shorter paths of others that use the same line of a library."""
        at, paths = self.at, []
        while self.tokens[at][1] not in (';', ''):
            if self.tokens[at][1] == 'mzn_path' and self.tokens[at + 1][1] == '(' and self.tokens[at + 2][0] == 'text':
                paths.append(re.sub(r'\\(.)', r'\1', self.tokens[at + 2][1][1:-1]))
            at += 1
        found = model_line(max(filter(model_line, paths), key=lambda path: (len(path), path), default=''))
        self.place = self.spelt_place(found)
        self.files.update({found[0]: None} if found else {})

    def spelt_place(self, found):
        """A place as it is written: FILE:LINE in one line, or None."""
        if not found:
            return None
        file, line = found
        if self.folder and os.path.isabs(file):
            file = min(os.path.relpath(file, self.folder), file, key=len)
        return ''.join(c if c.isprintable() else '?' for c in file) + f':{line}'

    def see(self, *wanted):
        return self.tokens[self.at][1] in wanted and self.tokens[self.at][0] != 'text'

    def step(self):
        sort, spelt, self.line = self.tokens[self.at]
        self.at += sort != 'end'
        return sort, spelt

    def take(self, wanted):
        if not self.see(wanted):
            self.line = self.tokens[self.at][2]
            self.fault(f'"{wanted}" expected, not "{self.tokens[self.at][1]}"')
        self.step()

    def annotations(self):
        """The tokens up to the end of the item, or to what follows its annotations."""
        found, deep = [], 0
        while not (deep == 0 and self.see(';', '=', 'satisfy', 'minimize', 'maximize')) and self.tokens[self.at][0] != 'end':
            deep += self.see('(', '[', '{') - self.see(')', ']', '}')
            found.append(self.step()[1])
        return found

    def number(self, spelt):
        if len(spelt) > DIGITS:
            self.fault(f'a number of {len(spelt.removeprefix("-"))} digits, the range is -{HIGHEST} to {HIGHEST}')
        return int(spelt)

    def value(self, deep=0):
        """A number, True or False, a float, a list, a set (a Python set or range), or a variable's name (str)."""
        sort, spelt = self.step()
        if sort == 'number':
            if not self.see('..'):
                return self.number(spelt)
            self.step()
            sort, last = self.step()
            if sort != 'number':
                self.fault(f'"{last}" where a range ends')
            return range(self.number(spelt), self.number(last) + 1)
        if sort == 'float':
            return float(spelt)
        if spelt in ('[', '{') and deep < 2:
            close, found = {'[': ']', '{': '}'}[spelt], []
            while not self.see(close):
                found.append(self.value(deep + 1))
                if not self.see(close):
                    self.take(',')
            self.step()
            if close == '}' and any(type(v) is not int for v in found):
                self.fault('a set of other things than numbers')
            return found if close == ']' else set(found)
        if sort != 'name':
            self.fault(f'"{spelt}" is no whole number, Boolean, list, set or name')
        if spelt in ('true', 'false'):
            return spelt == 'true'
        return self.parameters.get(spelt, spelt)

    # Variables.

    def fresh(self, wish, own=None):
        """A name that the reader takes and that no variable has: none that FlatZinc has, but the variable's own."""
        name = wish = wish if re.fullmatch('[A-Za-z][A-Za-z0-9_]{0,31}', wish, re.A) else 'n'
        k = 0
        while name in self.types or name in self.spelt and name != own:
            k, name = k + 1, f'{wish[:20]}_{k + 1}'
        return name

    def declare(self, name, lo, hi, sort):
        if not -HIGHEST <= lo <= hi <= HIGHEST:
            self.fault(f'{name} reaches from {lo} to {hi}, the range is -{HIGHEST} to {HIGHEST}')
        self.types[name], self.bounds[name], self.places[name] = sort, (lo, hi), self.place
        return Own(name)

    def variable(self, value, sort):
        """The name of a variable for a name or a constant; one for each constant."""
        if isinstance(value, str):
            if not isinstance(value, Own):
                if value not in self.names:
                    self.fault(f'{value} is not declared')
                value = self.names[value]
            if self.types[value] != sort:
                self.fault(f'{value} has the wrong type')
            return value
        if isinstance(value, bool) != (sort == 'B') or not isinstance(value, int):
            self.fault(f'{value} stands where {"a Boolean" if sort == "B" else "an integer"} is due')
        if ('constant', value, sort) not in self.names:
            name = self.fresh(str(value).lower() + '_' if sort == 'B' else f'c{value}'.replace('-', 'm'))
            self.names['constant', value, sort] = self.declare(name, int(value), int(value), sort)
            if sort == 'B':
                self.constraints.append(('bool_clause', [[name], []] if value else [[], [name]], self.place))
        return self.names['constant', value, sort]

    # Items.

    def item(self):
        self.find_place()
        _, first = self.step()
        if first == 'predicate':
            while self.step()[1] not in (';', ''):
                pass
        elif first == 'var':
            self.variable_item()
        elif first == 'constraint':
            self.constraint_item()
        elif first == 'solve':
            self.solve_item()
        elif first in ('array', 'int', 'bool', 'set'):
            self.parameter_item()
        else:
            self.fault(f'"{first}" begins no item known here')

    def constraint_item(self):
        name = self.step()[1]
        line = self.line
        self.take('(')
        arguments = []
        while not self.see(')'):
            arguments.append(self.value())
            if not self.see(')'):
                self.take(',')
        self.step()
        self.annotations()
        self.take(';')
        self.line, self.place = line, self.place or self.common_place(arguments)
        # The library's rows_NAME is the builtin NAME, which it cannot both redefine and use.
        self.constraint(name.removeprefix('rows_'), arguments)

    def common_place(self, arguments):
        """Of a constraint without a path the place that all its variables come from, where MiniZinc introduced them: so are the clauses that it makes
        of conjunctions."""
        found = {self.introduced.get(v) for a in arguments for v in (a if isinstance(a, list) else [a]) if isinstance(v, str)}
        return found.pop() if len(found) == 1 else None

    def solve_item(self):
        self.annotations()
        if not self.see('satisfy'):
            self.line, self.place = self.tokens[self.at][2], self.spelt_place(objective_line(self.files))
            self.fault('an objective: only "solve satisfy" has rows')
        self.step()
        self.take(';')

    def parameter_item(self):
        while not self.see(':', ''):
            self.step()
        self.take(':')
        name, notes = self.step()[1], self.annotations()
        self.take('=')
        self.parameters[name] = self.value()
        self.take(';')
        if 'output_array' in notes:
            notes = notes[notes.index('output_array') + 1:]
            self.label(name, notes[:notes.index(')')] if ')' in notes else [])

    def label(self, name, notes):
        """Model names of an output array's elements, from output_array([1..2,1..3])."""
        ends = [self.number(x) for x in notes if re.fullmatch(r'-?\d+', x)]
        for at, element in enumerate(self.parameters[name] if isinstance(self.parameters[name], list) else []):
            place = []
            for lo, hi in reversed(list(zip(ends[::2], ends[1::2]))):
                at, beyond = divmod(at, max(1, hi - lo + 1))
                place.insert(0, str(lo + beyond))
            if at == 0 and isinstance(element, str) and element in self.names:
                self.labels.setdefault(self.names[element], []).append(f'{name}[{",".join(place)}]')

    def variable_item(self):
        sort, spelt = self.tokens[self.at][:2]
        domain = self.value() if sort == 'number' or spelt == '{' else 'float' if sort == 'float' else self.step()[1]
        if domain == 'set' or domain == 'float':
            self.fault(f'a {domain} variable')
        if not self.see(':') or isinstance(domain, str) and domain not in ('bool', 'int') or type(domain) is int:
            self.fault('a domain that is no range, set of numbers, or bool')
        self.take(':')
        sort, given = self.step()
        if sort != 'name':
            self.fault(f'"{given}" where a name is due')
        if domain == 'int':
            self.fault(f'{given} has no bounds: give it some in the model')
        if not domain or given in self.names:
            self.fault(f'{given} {"is declared twice" if domain else "has an empty domain"}')
        lo, hi = (0, 1) if domain == 'bool' else (domain[0], domain[-1]) if isinstance(domain, range) else (min(domain), max(domain))
        name = self.names[given] = self.declare(self.fresh(given, given), lo, hi, 'B' if domain == 'bool' else 'I')
        notes = self.annotations()
        if 'output_var' in notes or given != name:
            self.labels.setdefault(name, []).append(given)
        if 'var_is_introduced' in notes:
            self.introduced[given] = self.place
        if isinstance(domain, set) and len(domain) < hi - lo + 1:
            self.constraint('set_in', [given, domain])
        if self.see('='):
            self.step()
            value = self.value()
            self.constraint('bool_eq' if domain == 'bool' else 'int_eq', [given, value])
        self.take(';')

    # Constraints.

    def constraint(self, name, given):
        """Adds a constraint by builtins with a code; its arguments are given as FlatZinc has them."""
        if name in REWRITTEN and len(given) == 2 and isinstance(given[0], list) == (name == 'array_bool_or'):
            for new, *arguments in REWRITTEN[name](*given):
                self.constraint(new, arguments)
            return
        if name == 'bool_xor' and (len(given) == 2 or len(given) == 3 and given[2] is True):
            name, given = 'bool_not', given[:2]
        if name == 'bool_clause' and [type(g) for g in given] == [list, list]:
            if any(v is True for v in given[0]) or any(v is False for v in given[1]):
                return
            given = [[v for v in g if not isinstance(v, bool)] for g in given]
        if name not in SHAPES:
            self.fault(f'{name} has no rows; flatten with the library mznlib')
        shape = SHAPES[name].split()
        if len(given) != len(shape):
            self.fault(f'{name} takes {len(shape)} arguments')
        if name == 'set_in' and isinstance(given[1], range) and size(given[1]) > LONGEST:
            self.constraint('int_le', [given[1][0], given[0]])
            return self.constraint('int_le', [given[0], given[1][-1]])
        arguments = [self.argument(name, sort, value) for sort, value in zip(shape, given)]
        if shape[:2] == ['LN', 'LI']:
            name, arguments = self.sum(name, arguments)
        self.split(name, arguments)
        for a in arguments:
            if isinstance(a, list) and len(a) > LONGEST:
                self.fault(f'{name}: a list of {len(a)}, {LONGEST} is the limit')
        self.constraints.append((name, arguments, self.place))

    def argument(self, name, sort, value):
        """An argument of a sort: a number, a set, a variable's name in the text, or a list."""
        if sort in 'IB':
            return self.variable(value, sort)
        if sort in ('N', 'K'):
            if not isinstance(value, int) or isinstance(value, bool) or sort == 'K' and not 0 <= value <= 27:
                self.fault(f'{name}: {value} where a number{" from 0 to 27" * (sort == "K")} is due')
        elif sort == 'S':
            if not isinstance(value, (set, range)) or size(value) > LONGEST:
                found = f'{size(value)} members' if isinstance(value, (set, range)) else value
                self.fault(f'{name}: {found} where a set of at most {LONGEST} numbers is due')
        else:
            if not isinstance(value, list):
                self.fault(f'{name}: {value} where a list is due')
            if sort != 'LN':
                return [self.variable(v, sort[1]) for v in value]
            if any(not isinstance(v, int) or isinstance(v, bool) for v in value):
                self.fault(f'{name}: a list of numbers is due')
        for n in [value] if sort in ('N', 'K') else value:
            if abs(n) > HIGHEST:
                self.fault(f'{name}: the number {n} is outside the range -{HIGHEST} to {HIGHEST}')
        return value

    def sum(self, name, arguments):
        """A constraint with parallel lists, or the shorter one that says the same."""
        numbers, variables, constant, *rest = arguments
        if len(numbers) != len(variables):
            self.fault(f'{name}: lists of unequal length')
        if sorted(numbers) == [-1, 1] and (name, constant) in SHORTER:
            return SHORTER[name, constant], variables[::numbers[0]] + rest
        return name, arguments

    def split(self, name, given):
        """Lists of more than 32 by auxiliary variables that stand for 31 or 32 of their elements; each has one value only."""
        def cut(k, size, lo, hi, sort, make):
            part = self.declare(self.fresh('part'), lo, hi, sort)
            self.constraint(*make(part, given[k][:size]))
            given[k] = given[k][size:] + [part]
        if name.startswith('int_lin'):
            while len(given[1]) > LONGEST:
                numbers, variables = given[0][:LONGEST - 1], given[1][:LONGEST - 1]
                ends = [sorted(n * e for e in self.bounds[v]) for n, v in zip(numbers, variables)]
                given[0] = given[0][LONGEST - 1:] + [1]
                cut(1, LONGEST - 1, sum(e[0] for e in ends), sum(e[1] for e in ends), 'I',
                    lambda p, vs: ('int_lin_eq', [numbers + [-1], vs + [p], 0]))
        elif name in ('array_int_maximum', 'array_int_minimum'):
            while len(given[1]) > LONGEST:
                best = max if name.endswith('maximum') else min
                lo, hi = (best(self.bounds[v][e] for v in given[1][:LONGEST]) for e in (0, 1))
                cut(1, LONGEST, lo, hi, 'I', lambda p, vs: (name, [p, vs]))
        elif name in ('array_bool_and', 'bool_clause'):
            while name == 'bool_clause' and len(given[0]) > LONGEST:
                cut(0, LONGEST - 1, 0, 1, 'B', lambda p, vs: ('array_bool_or', [vs, p]))
            k = int(name == 'bool_clause')
            while len(given[k]) > LONGEST:
                cut(k, LONGEST, 0, 1, 'B', lambda p, vs: ('array_bool_and', [vs, p]))

    def text(self):
        """The whole text."""
        solved = False
        while self.tokens[self.at][0] != 'end':
            solved |= self.see('solve')
            self.item()
        if not solved:
            self.place = None
            self.fault('no solve item')
        out = []
        for k, (name, (lo, hi)) in enumerate(self.bounds.items()):
            domain = 'bool' if self.types[name] == 'B' else f'{lo}..{hi}'
            out.append(' '.join([f'var {domain}: {name}; % {k}', *self.labels.get(name, []), *noted(self.places[name])]))
        out += [' '.join([f'constraint {name}({",".join(map(spelt, arguments))});', *noted(place)]) for name, arguments, place in self.constraints]
        return '\n'.join(out + ['solve satisfy;']) + '\n'


def noted(place):
    """A place as a comment, where there is one."""
    return ['%', place] if place else []


def size(numbers):
    """How many numbers a set has; a range may have more than len counts."""
    return len(numbers) if isinstance(numbers, set) else max(0, numbers.stop - numbers.start)


def spelt(argument):
    """An argument as text."""
    if isinstance(argument, list):
        return '[' + ','.join(map(str, argument)) + ']'
    return str(argument) if isinstance(argument, (int, str)) else '{' + ','.join(map(str, sorted(argument))) + '}'


def main():
    files = [a for a in sys.argv[1:] if not a.startswith('-')]
    if len(files) > 1:
        return f'{files[1]}: a second file, one is read'
    name = files[0] if files else 'standard input'
    try:
        with open(files[0] if files else 0, encoding='utf-8', errors='replace') as opened:
            text = Flattener(opened.read(), os.getcwd()).text()
    except OSError as error:
        return f'{name}: {error.strerror}'
    except Fault as fault:
        place, what = fault.args
        return f'{place if isinstance(place, str) else f"{name}:{place}"}: {what}'
    sys.stdout.buffer.write(text.encode())
    return 0


if __name__ == '__main__':
    sys.exit(main())
