#!/usr/bin/env python3
"""Compares the contracts of the calls, of their forms for C and of the functions that lay out what the programs print with tests/clauses.txt, which has
every clause, and where each name in one comes from.

    tests/clauses.py           compares
    tests/clauses.py --write   writes the file anew

A clause that is dropped, replaced or added changes that file in the same commit. No call and no public function of crates/host may have a `requires`, a
page function none but those of the file. No clause of another function is longer than 200 characters, and each clause of a file is read. Exit status 1
where something of this is not so."""
import os, re, sys

sys.dont_write_bytecode = True
import contracts

RECORD = os.path.join(contracts.TOP, 'tests', 'clauses.txt')
# the calls in Rattle, and the functions that lay out what the programs print
CALLS = [('checking', 'check'), ('translation', 'translate'), ('modeljudge', 'judge_model'), ('rowjudge', 'judge_rows'), ('filling', 'fill'), ('sheets', 'sheet'),
         ('texts', 'read_text'), ('reasoning', 'reason'), ('solutions', 'solutions'), ('bitform', 'bit_form'), ('pairs', 'pair_check'),
         ('pairs', 'pair_translate'), ('pairs', 'pair_judge_model'), ('pairs', 'pair_fill'), ('bitvalues', 'bit_values'), ('bitenergy', 'bit_energy'),
         ('valuebits', 'value_bits'), ('bestbits', 'best_bits'), ('bestbits', 'best_bits_by')]
PAGES = [('rows', 'rows_page'), ('sheet', 'sheet_page'), ('text', 'text_page'), ('bits', 'form_page')]
LONGEST = 200  # characters of a clause that is no call's
HEAD = '''# The contracts of the calls, of their forms for C and of the functions that lay out what the programs print: each clause, and where the names in it come
# from. tests/clauses.py compares them; after a change of a promise `python3 tests/clauses.py --write` writes them anew.
'''


def public_of_host():
    return [('host', it.name) for _, it in contracts.of_crate('host') if it.is_public()]


def recorded_functions():
    """The functions whose clauses are recorded: the crate, the file and the function."""
    for crate, name in CALLS + public_of_host() + PAGES:
        found = [(file, it) for file, it in contracts.of_crate(crate) if it.name == name]
        if len(found) != 1:
            sys.exit(f'clauses: {crate} has {len(found)} functions {name}, one is wanted')
        yield crate, *found[0]


def names_in(crate, file, function):
    """Where the names of its clauses come from; tests/standard.py sees that std's own are std's."""
    words = {word for _, _, text in function.clauses for word in re.split(r'[\s(){}.,;]+', text)}
    for place, name in sorted(contracts.imported(os.path.join(contracts.TOP, 'crates', crate, 'src', file))):
        if name in words or '◌' in name and any(part in words for part in name.split('◌') if part):
            if not (place.startswith('Rattle.std.') and place.endswith('.' + name)):
                yield name, place


def record():
    lines = [HEAD]
    for crate, file, it in recorded_functions():
        lines.append(f'{crate}::{it.signature()}')
        lines += [f'    {kind}{" " * bool(name)}{name} {{ {text} }}' for kind, name, text in it.clauses]
        lines += [f'    {name} is {place}' for name, place in names_in(crate, file, it)]
        lines.append('')
    return '\n'.join(lines)


def demanding():
    """What has a `requires` and may have none."""
    for crate, file, it in recorded_functions():
        if (crate, it.name) not in PAGES and any(kind == 'requires' for kind, _, _ in it.clauses):
            yield f'{crate}::{it.name} has a `requires`: no call has a precondition'
        if not any(kind == 'ensures' for kind, _, _ in it.clauses):
            yield f'{crate}::{it.name} has no `ensures`'


def crates():
    return sorted(os.listdir(os.path.join(contracts.TOP, 'crates')))


def passed_over():
    """Files with clauses that are read as no function's."""
    for crate in crates():
        for file, written, read in contracts.read_of(crate):
            if written != read:
                yield f'{crate}/src/{file} has {written} clauses, and {read} are read'


def too_long():
    """Clauses of other functions that no reader takes in at once."""
    recorded = [(crate, it.name) for crate, _, it in recorded_functions()]
    for crate in crates():
        for _, it in contracts.of_crate(crate):
            for kind, _, text in it.clauses:
                if len(text) > LONGEST and (crate, it.name) not in recorded:
                    yield f'{crate}::{it.name} has {"an" if kind == "ensures" else "a"} `{kind}` of {len(text)} characters: name its parts'


def differences(old, new):
    """The lines that only one has, with their functions."""
    def placed(text):
        head, found = '', []
        for line in text.splitlines():
            head = line.partition('(')[0] if line and line[0] not in ' #' else head
            found += [(head, line)] * bool(line.strip())
        return found
    here, there = placed(new), placed(old)
    for head, line in there:
        if (head, line) not in here:
            yield f'{head}: recorded, and not in the code: {line.strip()}'
    for head, line in here:
        if (head, line) not in there:
            yield f'{head}: in the code, and not recorded: {line.strip()}'


def main():
    wrong = [*demanding(), *passed_over(), *too_long()]
    new = record()
    if '--write' in sys.argv[1:]:
        open(RECORD, 'w').write(new)
    else:
        old = open(RECORD).read()
        wrong += differences(old, new)
        if old != new and not wrong:
            wrong.append('the lines of tests/clauses.txt stand in another order than the code')
    for line in wrong:
        print(f'clauses: {line}')
    every = list(recorded_functions())
    print(f'clauses: {len(every)} functions with {sum(len(it.clauses) for *_, it in every)} clauses compared, {len(wrong)} differ')
    return 1 if wrong else 0


if __name__ == '__main__':
    sys.exit(main())
