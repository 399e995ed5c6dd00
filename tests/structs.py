#!/usr/bin/env python3
"""Compares include/pearrummy.h with the functions for C of crates/host and the structs of crates/structs: the name, the parameters and the result of each
call, and of each struct the fields with their widths, in their order. Each struct of crates/structs has C's layout and is the result of a call; the header
puts nothing in a call's place. Exit status 1 where something differs."""
import glob, os, re, sys

sys.dont_write_bytecode = True
import contracts

NUMBERS = {'u8': 'uint8_t', 'u32': 'uint32_t', 'u64': 'uint64_t', 'i32': 'int32_t', 'i64': 'int64_t', 'usize': 'size_t', 'bool': 'bool'}


def parts(text):
    return [part.strip() for part in text.split(',') if part.strip()]


def header():
    """The structs of the header, each a list of types and names, and its functions, each its result and its parameters."""
    text = re.sub(r'/\*.*?\*/', '', open(os.path.join(contracts.TOP, 'include', 'pearrummy.h')).read(), flags=re.S)
    structs = {name: [tuple(field.split()) for field in body.split(';') if field.strip()] for name, body in re.findall(r'^struct (\w+) \{(.*?)\};', text, re.M | re.S)}
    calls = {name: (result, [re.sub(r'\s*\*\s*', ' *', it) for it in parts(parameters)])
             for result, name, parameters in re.findall(r'^((?:struct )?\w+) (pearrummy_\w+)\(([^)]*)\);', text, re.M)}
    others = re.findall(r'\b(?:asm|inline|static|__attribute__|_Generic|pragma)\b|# *define +(?!PEARRUMMY_[A-Z_]+\b)\w+', text)
    return structs, calls, others


def of_rattle():
    """The structs of crates/structs in the same form, and those without C's layout."""
    structs, without = {}, []
    for path in sorted(glob.glob(os.path.join(contracts.TOP, 'crates', 'structs', 'src', '*.rt'))):
        text = re.sub(r'//.*', '', open(path).read())
        for attributes, name, body in re.findall(r'((?:^#\[[^\n]*\]\n)*)^pub struct (\w+) \{(.*?)^\}', text, re.M | re.S):
            fields = [field.removeprefix('pub ').split(':') for field in parts(body)]
            structs[name] = [(NUMBERS.get(kind.strip(), kind.strip()), field.strip()) for field, kind in fields]
            if '#[repr(C)]' not in attributes:
                without.append(name)
    return structs, without


def in_c(parameter):
    """A parameter of Rattle as the header has it."""
    name, kind = (part.strip() for part in parameter.split(':', 1))
    if found := re.fullmatch(r'&(mut )?\[(\w+)\]', kind):
        return ['const ' * (not found.group(1)) + f'{NUMBERS[found.group(2)]} *{name}', f'size_t {name}_count']
    return [f'{NUMBERS.get(kind, kind)} {name}']


def main():
    wrong = []
    structs, calls, others = header()
    mine, without = of_rattle()
    wrong += [f'{name} has no #[repr(C)]' for name in without]
    wrong += [f'the header has {text}' for text in others]
    functions = {it.name: it for _, it in contracts.of_crate('host') if 'extern' in it.before}
    declared = {name: it for name, it in calls.items() if name != 'pearrummy_fault_text'}
    wrong += [f'{name} is only in {"crates/host" if name in functions else "the header"}' for name in sorted({*functions} ^ {*declared})]
    names = {}
    for name, it in functions.items():
        if name in declared:
            result, parameters = declared[name]
            wanted = [word for part in parts(it.parameters[1:-1]) for word in in_c(part)]
            if parameters != wanted:
                wrong.append(f'{name} takes {", ".join(wanted)}; the header has {", ".join(parameters)}')
            if it.result in NUMBERS:
                if result != NUMBERS[it.result]:
                    wrong.append(f'{name} answers {it.result}; the header has {result}')
            elif names.setdefault(it.result, result.removeprefix('struct ')) != result.removeprefix('struct '):
                wrong.append(f'{name} answers {it.result}; the header has {result}, and {names[it.result]} elsewhere')
    wrong += [f'no call answers the struct {name}' for name in sorted({*mine} - {*names})]
    wrong += [f'no call answers the struct {name} of the header' for name in sorted({*structs} - {*names.values()})]
    for name, other in sorted(names.items()):
        if mine.get(name) != structs.get(other):
            wrong.append(f'the fields of {name} are {mine.get(name)}; those of {other} in the header are {structs.get(other)}')
    for line in wrong:
        print(f'structs: {line}')
    print(f'structs: {len(functions)} calls and {len(mine)} structs compared with the header, {len(wrong)} differ')
    return 1 if wrong or not functions or not mine else 0


if __name__ == '__main__':
    sys.exit(main())
