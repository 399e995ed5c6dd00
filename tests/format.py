#!/usr/bin/env python3
"""Compares the tables of docs/RULES.md, the header and the fault texts with the definitions: codes, names and sorts of arguments, fault numbers,
limits. It exits with 1 where one differs."""
import os, re, sys

TOP = os.path.dirname(os.path.dirname(os.path.abspath(__file__)))
wrong = []


def read(path):
    return open(os.path.join(TOP, path)).read()


def compare(what, here, there):
    if here != there:
        wrong.append(f'{what}: {here!r} is not {there!r}')


def numbers_in(path):
    """The numbers that a file of definitions names: a natural number, or an integer made by `pos` or `negsuc`."""
    text, found = read(path), {}
    for name, sign, digits in re.findall(r'^(\w+) = (pos |negsuc )?(\d+)$', text, re.M):
        found[name] = -int(digits) - 1 if sign.startswith('negsuc') else int(digits)
    return found


def rows_after(page, heading):
    """The cells of the table under a heading, without its first two lines."""
    part = page.split(heading, 1)[1]
    lines = re.search(r'(?:^\|.*\n)+', part, re.M).group(0).splitlines()[2:]
    return [[cell.strip() for cell in re.split(r'(?<!\\)\|', line)[1:-1]] for line in lines]


def plain(text):
    return text.replace('−', '-')


page = read('docs/RULES.md')
header = read('include/pearrummy.h')

# Codes: name and sorts, from the one table of codes.
table = re.findall(r'^    takes (?:"(\w+)" )?\(([^)]*)\) B\.(\w+) ∷$', read('crates/models/specs/Table.antt'), re.M)
codes = rows_after(page, '## 4.1 Codes')
compare('number of codes', len(codes), len(table))
for k, ((name, sorts, builtin), cells) in enumerate(zip(table, codes), 1):
    compare(f'code {k}: name in the table of codes', name or builtin, builtin)
    compare(f'code {k}: code and hexadecimal', cells[0:2], [str(k), f'{k:02X}'])
    compare(f'code {k}: builtin', cells[2], builtin)
    compare(f'code {k}: sorts', cells[4].split(', '), [s for s in sorts.split(' ∷ ') if s != '[]'])
    compare(f'code {k}: arguments', len(cells[3].split(', ')), len(cells[4].split(', ')) + cells[4].count('parallel'))
compare('PEARRUMMY_CODES', re.search(r'PEARRUMMY_CODES (\d+)', header).group(1), str(len(table)))
in_command = re.search(r'builtins\[\] = \{(.*?)\}', read('command/pearrummy.c'), re.S).group(1)
compare("the command's builtins", re.findall(r'"(\w+)"', in_command), [row[2] for row in table])

# Faults: number and name of the definitions, the enum of the header, the texts of page and library.
faults = numbers_in('crates/words/specs/Fault.antt')
listed = rows_after(page, '# 11 Faults')
texts = re.findall(r'^    "(.*)",$', read('library/fault_text.c'), re.M)
enum = re.search(r'enum pearrummy_fault \{(.*?)\};', header, re.S).group(1)
in_header = [(name, int(number)) for name, number in re.findall(r'PEARRUMMY_(\w+) = (\d+)', enum)]
snake = {name.upper(): number for name, number in faults.items()}
snake['NO_FAULT'] = snake.pop('NONE')
compare('faults of the page', [int(cells[0]) for cells in listed], sorted(n for n in faults.values() if n))
compare('faults of the header', in_header, sorted(snake.items(), key=lambda item: item[1]))
compare('texts of the library', texts, ['no fault'] + [plain(cells[1]) for cells in listed])

# Limits: the definitions, the page, the header.
limits = numbers_in('crates/words/specs/Limit.antt')
in_page = {cells[0]: plain(cells[1]).replace(',', '') for cells in rows_after(page, '# 12 Limits')}
macros = {name: int(number) for name, number in re.findall(r'define PEARRUMMY_(\w+) \(?(-?\d+)\)?', header)}
for name, line, macro in [
        ('model_words', 'words of a model', 'MODEL_WORDS'),
        ('variables', 'variables of a model', 'VARIABLES'),
        ('constraints', 'constraints of a model', 'CONSTRAINTS'),
        ('list_length', 'length of a list', 'LIST_LENGTH'),
        ('exponent', 'exponent', 'EXPONENT'),
        ('set_bits', 'values of a variable that is encoded as bits by set_in_reif or shared', 'ENCODED_VALUES'),
        ('row_words', 'words of a row system', 'ROW_WORDS'),
        ('in_all', 'variables and auxiliaries of a row system', 'VALUES'),
        ('terms', 'terms of a row', 'TERMS'),
        ('name_bytes', 'bytes of a name', 'NAME_BYTES'),
        ('listed_variables', 'variables of a model whose solutions are listed', 'LISTED_VARIABLES'),
        ('listed_lists', 'value lists of a model whose solutions are listed', 'LISTED_LISTS'),
        ('bits', 'bits of a form', 'BITS')]:
    compare(f'{line}, definition and page', str(limits.get(name)), in_page.get(line))
    compare(f'{line}, definition and header', limits.get(name), macros.get(macro))
compare('numbers, page', in_page['numbers'], f'{limits["lowest"]} to {limits["highest"]}')
compare('numbers, header', [macros['LOWEST'], macros['HIGHEST']], [limits['lowest'], limits['highest']])
compare('numbers of a row over bits, page', in_page['numbers of a row over bits'], f'-{limits.get("bit_numbers")} to {limits.get("bit_numbers")}')
compare('numbers of a row over bits, header', macros['BIT_NUMBERS'], limits.get('bit_numbers'))
compare('words of a form', macros['FORM_WORDS'], 2 + 3 * macros['BITS'] * (macros['BITS'] + 1) // 2)

# The version.
version = '.'.join(str(macros['VERSION_' + part]) for part in ('MAJOR', 'MINOR', 'PATCH'))
compare('version', re.search(r'PEARRUMMY_VERSION "(.*)"', header).group(1), version)
compare('version of the man page', re.search(r'"pearrummy ([\d.]+)"', read('command/pearrummy.1')).group(1), version)
compare('newest version of the changelog', re.search(r'^## ([\d.]+)', read('CHANGELOG.md'), re.M).group(1), version)

for line in wrong:
    print(f'format: {line}')
print(f'format: {len(table)} codes, {len(listed)} faults and {len(in_page)} limits compared, {len(wrong)} differ')
sys.exit(len(wrong) > 0)
