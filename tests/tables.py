#!/usr/bin/env python3
"""Makes the tables of docs/PROMISES.md that list files and edits, between the lines `<!-- NAME -->` and `<!-- end -->`.

    tests/tables.py           write them
    tests/tables.py --check   only say whether they are up to date

believed: the files of specs/ that the contracts of the calls for C and their structs, of the programs rows, sheet, text and bits and of the digits cite, and those that
these stand on, with their lines, all and without signatures. clauses: every clause of the calls, of their forms for C and of the functions that lay out
what the programs print, as tests/clauses.py reads them. edits: the must-fail edits, whether each is of code or of a
definition alone, and the first line of each, `# what is wrong`; a crate that has a function has an edit of its code.
Every `CRATE/EDIT`, `CRATE/specs/FILE` or `CRATE/specs` FILE with the names behind it, `CRATE::FUNCTION`, and any other file, crate or module that this
page, README.md, docs/DECISIONS.md and docs/changes name must be there."""
import functools, glob, os, re, sys

sys.dont_write_bytecode = True
import clauses

TOP = os.path.dirname(os.path.dirname(os.path.abspath(__file__)))
PAGE = os.path.join(TOP, 'docs', 'PROMISES.md')
CONTRACTS = ['structs', 'host', 'rows', 'sheet', 'text', 'bits', 'hexadecimal']


def crates():
    for line in open(os.path.join(TOP, 'crates.txt')):
        if m := re.match(r'(\w+)[^:\n#]*:', line):
            yield m.group(1)


@functools.cache
def modules():
    return {name for path in glob.glob(os.path.join(TOP, 'crates', '*', 'src', '*.rt')) for name in re.findall(r'^(?:pub )?mod (\w+);', open(path).read(), re.M)}


def cited(path):
    """The files of specs/ that a file imports, an impl of it too; `declared` has the structs and enums of the code."""
    for line in open(path):
        if m := re.match(r'\s*(?:ghost )?use Rattle\.(\w+)\.specs\.(\w+)', line):
            if m.group(2) != 'declared':
                yield m.group(1), m.group(2)


def file_of(crate, name):
    return os.path.join(TOP, 'crates', crate, 'specs', name + '.antt')


def believed():
    """Every file of specs/ that a contract of the calls stands on; those of the kit's own crates are the kit's."""
    found, left, own = set(), [], set(crates())
    for crate in CONTRACTS:
        for path in glob.glob(os.path.join(TOP, 'crates', crate, 'src', '*.rt')):
            left += cited(path)
    while left:
        one = left.pop()
        if one not in found and one[0] in own:
            found.add(one)
            left += cited(file_of(*one))
    return found


def lines(path):
    """Without comments, imports and blank lines; all, and those that are no signature of a definition."""
    text = [line for line in open(path) if not re.match(r'\s*(--.*|(use|pub use|pub mod|module) .*)?$', line)]
    signature = re.compile(r'\s*(abbrev |unfoldable )?pub (?!data|record)[^=]* : ')
    return len(text), sum(1 for line in text if not signature.match(line))


def order(crate):
    """The files of a crate in the order of its Lib.antt."""
    return re.findall(r'^pub mod (\w+)', open(file_of(crate, 'Lib')).read(), re.M)


def believed_table():
    known, total = believed(), [0, 0]
    yield '| Files | Lines | Without signatures |'
    yield '|---|---|---|'
    for crate in crates():
        names = [n for n in (order(crate) if os.path.exists(file_of(crate, 'Lib')) else []) if (crate, n) in known]
        if names:
            counts = [sum(column) for column in zip(*(lines(file_of(crate, name)) for name in names))]
            total = [a + b for a, b in zip(total, counts)]
            yield f'| `{crate}/specs`: {", ".join(names)} | {counts[0]} | {counts[1]} |'
    yield f'| together | {total[0]:,} | {total[1]:,} |'


def clauses_table():
    yield '| Function | Clause | What it says |'
    yield '|---|---|---|'
    for crate, _, function in clauses.recorded_functions():
        for kind, name, text in function.clauses:
            said = text.replace('|', '\\|')
            yield f'| `{crate}::{function.name}` | {kind} {name} | `{said}` |'.replace('  |', ' |')


def of_code(path):
    """An edit of a definition alone shows nothing of a contract."""
    return any(line.startswith('file: src/') for line in open(path))


def edits_table():
    yield '| Crate | Edit | Of | What is wrong |'
    yield '|---|---|---|---|'
    total, of_codes = 0, 0
    for crate in crates():
        paths = sorted(glob.glob(os.path.join(TOP, 'crates', crate, 'must-fail', '*.edit')))
        for path in paths:
            first = open(path).readline().rstrip('\n')
            if not first.startswith('# '):
                sys.exit(f'{path}: its first line does not say what is wrong')
            yield f'| `{crate}` | `{os.path.basename(path)[:-5]}` | {"code" if of_code(path) else "definition"} | {first[2:]} |'
        total, of_codes = total + len(paths), of_codes + sum(map(of_code, paths))
        source = ''.join(open(path).read() for path in glob.glob(os.path.join(TOP, 'crates', crate, 'src', '*.rt')))
        # A crate without a contract, as that of the command line, has nothing that could refuse an edit.
        if re.search(r'^[ \t]*(pub )?(extern "C" )?fn ', source, re.M) and re.search(r'^[ \t]*ensures', source, re.M) and not any(map(of_code, paths)):
            sys.exit(f'crates/{crate}: no must-fail edit is of its code')
    yield f'| together | {total} | {of_codes} of code, {total - of_codes} of a definition alone | |'


def check_names(where, page):
    """The edits, definitions, laws, functions and files that a page names are there."""
    known = set(crates())
    for path in re.findall(r'`(\w+(?:/[\w.*-]+)+)`', page):
        crate, *rest = path.split('/')
        places = [path, *('crates/' + path + ending for ending in ('', '.antt', '.rt')), '/'.join(['crates', crate, 'must-fail', *rest]) + '.edit']
        if not any(glob.glob(os.path.join(TOP, place)) for place in places):
            sys.exit(f'{where}: there is no {path}')
    for name in set(re.findall(r'`(\w+)::', page)) - known - modules():
        sys.exit(f'{where}: there is no crate or module {name}')
    for crate, name in re.findall(r'`(\w+)/(\w+)`', page):
        if crate in known and name not in ('specs', 'proofs', 'src') and not os.path.exists(os.path.join(TOP, 'crates', crate, 'must-fail', name + '.edit')):
            sys.exit(f'{where}: there is no edit {crate}/{name}')
    files = re.findall(r'`(\w+)/(specs|proofs)/(\w+)`', page)
    for crate, folder, names in re.findall(r'`(\w+)/(specs|proofs)` ((?:[A-Z]\w+(?:, | and )?)+)', page):
        files += [(crate, folder, name) for name in re.findall(r'[A-Z]\w+', names)]
    for crate, folder, name in files:
        path = os.path.join(TOP, 'crates', crate, folder, name)
        if not os.path.exists(path + '.antt') and not os.path.isdir(path):
            sys.exit(f'{where}: there is no file {crate}/{folder}/{name}')
    for crate, folder, file, names in re.findall(r'`(\w+)/(specs|proofs)/(\w+)`:? ((?:`[^`/:]+`(?:, | and )?)+)', page):
        text = open(os.path.join(TOP, 'crates', crate, folder, file + '.antt')).read()
        for name in re.findall(r'`([^`]+)`', names):
            if not re.search(rf'(?<!\S){re.escape(name)}(?!\S)', text) and not os.path.exists(os.path.join(TOP, 'crates', crate, folder, name + '.antt')):
                sys.exit(f'{where}: {crate}/{folder}/{file} has no {name}')
    for crate, name in re.findall(r'`(\w+)::(?:\w+::)?(\w+)`', page):
        if crate in known and not any(re.search(rf'\b(fn|mod|enum|struct) {name}\b', open(path).read()) for path in glob.glob(os.path.join(TOP, 'crates', crate, 'src', '*.rt'))):
            sys.exit(f'{where}: {crate} has no function, module or type {name}')


def main():
    old = new = open(PAGE).read()
    for name, table in (('believed', believed_table), ('clauses', clauses_table), ('edits', edits_table)):
        mark = re.compile(rf'(<!-- {name} -->\n).*?(<!-- end -->)', re.S)
        if not mark.search(new):
            sys.exit(f'{PAGE}: no place for the table {name}')
        text = '\n'.join(table())
        new = mark.sub(lambda m: m.group(1) + text + '\n' + m.group(2), new)
    check_names('docs/PROMISES.md', new)
    notes = sorted(os.listdir(os.path.join(TOP, 'docs', 'changes')))
    for path in ['README.md', 'docs/DECISIONS.md', *('docs/changes/' + note for note in notes)]:
        check_names(path, open(os.path.join(TOP, path)).read())
    if '--check' in sys.argv:
        if new != old:
            sys.exit('docs/PROMISES.md: its tables are not those of the tree; run tests/tables.py')
        print('docs/PROMISES.md: its tables are those of the tree')
    else:
        open(PAGE, 'w').write(new)


main()
