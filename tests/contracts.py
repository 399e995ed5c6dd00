"""The functions of .rt files with their contracts, as texts. tests/clauses.py, tests/structs.py and tests/tables.py read them."""
import glob, os, re

TOP = os.path.dirname(os.path.dirname(os.path.abspath(__file__)))
OPENING, CLOSING = '([{', ')]}'


def end_of(text, at):
    """The place behind the bracket that closes the one at a place."""
    depth = 0
    for k in range(at, len(text)):
        depth += (text[k] in OPENING) - (text[k] in CLOSING)
        if not depth:
            return k + 1
    raise ValueError(f'a bracket is not closed: {text[at:at + 60]}')


def parameters_at(text, at):
    """The place of the bracket before a function's parameters, from behind its name on: type parameters stand between, as `<F: Fn(usize) -> u32>`."""
    depth = 0
    for k in range(at, len(text)):
        if text[k] == '(' and not depth:
            return k
        depth += (text[k] in '<([{') - (text[k] in '>)]}' and text[k - 1:k + 1] != '->')
    raise ValueError(f'a function has no parameters: {text[at:at + 60]}')


def plain(text):
    """A text on one line, without a comma behind the last of several."""
    return re.sub(r',(?= ?\))', '', re.sub(r'\s+', ' ', text).strip()).replace('( ', '(').replace(' )', ')')


class Function:
    """A function: its name, what stands before `fn`, its parameters and result, its clauses, each the keyword, the name or none, and the text."""

    def __init__(self, name, before, parameters, result, clauses):
        self.name, self.before, self.parameters, self.result, self.clauses = name, before, parameters, result, clauses

    def is_public(self):
        return 'pub' in self.before or 'extern' in self.before

    def signature(self):
        return f'{self.name}{self.parameters}' + (f' -> {self.result}' if self.result else '')


def without_comments(path):
    return re.sub(r'//.*', '', open(path).read())


def functions(path):
    """The functions of a file, in its order."""
    text = without_comments(path)
    for found in re.finditer(r'^([^\n=;]*?)\bfn (\w+)(?=[<(])', text, re.M):
        begin = parameters_at(text, found.end())
        at = end_of(text, begin)
        parameters, clauses, result, last = plain(text[begin:at]), [], None, at
        while True:
            step = re.compile(r'\b(requires|ensures)\*?\s*(\w+)?\s*(?=\{)|\[|[{;]').search(text, at)
            if result is None:
                result = plain(text[last:step.start()]).removeprefix('->').strip() if step.group() != '[' else None
            if step.group() == '[':
                at = end_of(text, step.start())
            elif step.group() in '{;':
                break
            else:
                at = end_of(text, step.end())
                clauses.append((step.group(1), step.group(2) or '', plain(text[step.end() + 1:at - 1])))
        yield Function(found.group(2), found.group(1).strip(), parameters, result or '', clauses)


def files_of(crate):
    """The files of a crate: the path below src/, and the whole one."""
    source = os.path.join(TOP, 'crates', crate, 'src')
    return [(os.path.relpath(path, source), path) for path in sorted(glob.glob(os.path.join(source, '**', '*.rt'), recursive=True))]


def of_crate(crate):
    """The functions of a crate, each with its file."""
    return [(file, it) for file, path in files_of(crate) for it in functions(path)]


def read_of(crate):
    """For each file of a crate, how many clauses it has and how many of them `functions` reads."""
    return [(file, len(re.findall(r'\b(?:requires|ensures)\b', without_comments(path))), sum(len(it.clauses) for it in functions(path))) for file, path in files_of(crate)]


IMPORT = re.compile(r'^[ \t]*(?:pub )?(?:ghost )?use ([^\s{;]+?)(?:\.\{([^}]*)\}|\s+as\s+([^\s;]+))?;?[ \t]*$', re.M)


def imported(path):
    """What a file imports for contracts, definitions or proofs: the place, and the name that it has in the file."""
    for place, names, alias in IMPORT.findall(open(path).read()):
        if '::' in place:
            continue
        if names:
            for name in names.split(','):
                if name.strip():
                    one, _, other = name.strip().partition(' as ')
                    yield f'{place}.{one.strip()}', (other or one).strip()
        else:
            yield place, alias or place.rpartition('.')[2]
