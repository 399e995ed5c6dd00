#!/usr/bin/env python3
"""Fails where a definition stands under a name that contracts or definitions import from std: in a contract `length xs` is the length of xs, and no
definition of the repository. Looked at are what specs/ and proofs/ define, as far as a file of src/ or specs/ defines it itself or imports it, also
under another name. Cases of a data type or an enum are values of that type alone, and may have any name."""
import glob, os, re, sys

sys.dont_write_bytecode = True
import contracts

# These are to get other names; no file that uses std's may use them.
OLDER = {'Rattle.models.specs.Table.codes', 'Rattle.decimals.specs.Decimal.decimal', 'Rattle.integers.proofs.Tests.All'}
STANDARD = re.compile(r'(Rattle\.(std|core)|mathlib)\.')
DEFINED = re.compile(r'^(?:[ \t]*(?:abbrev |unfoldable |pub |data |record )+)?([^\s{}()=:]+)(?: +[{(].*[)}])* +:(?= |$)', re.M)
GHOST = re.compile(r'^(?:pub )?ghost (?!use )(\S+)', re.M)


def files(*parts):
    return sorted(path for part in parts for ending in ('rt', 'antt')
                  for path in glob.glob(os.path.join(contracts.TOP, 'crates', '*', part, '**', '*.' + ending), recursive=True))


def defined(path):
    """What a file defines for contracts, without the cases of its data types."""
    text = re.sub(r'(--|//).*', '', open(path).read())
    return set((DEFINED if path.endswith('.antt') else GHOST).findall(text))


def defines(place):
    """Whether a place is a definition of the repository; a module is none, and no case of a data type or an enum."""
    crate, *folders, name = place.split('.')[1:]
    stem = os.path.join(contracts.TOP, 'crates', crate, *folders)
    return any(os.path.exists(path) and name in defined(path) for path in (stem + '.antt', os.path.join(stem, 'Lib.antt')))


def main():
    looked = files('src', 'specs')
    names, wrong = set(), []
    for path in looked:
        for place, name in contracts.imported(path):
            if STANDARD.match(place):
                names |= {name, place.rpartition('.')[2]}
    for path in looked:
        here = os.path.relpath(path, contracts.TOP)
        own = {name for place, name in contracts.imported(path) if STANDARD.match(place)}
        _, crate, part, *folders = here[:here.rindex('.')].split(os.sep)
        wrong += [f'{here} defines {name}, which is a name of std' for name in sorted(defined(path) & names)
                  if name in own or '.'.join(['Rattle', crate, part, *folders, name]) not in OLDER]
        wrong += [f'{here} imports {place} as {name}, which is a name of std' for place, name in contracts.imported(path)
                  if name in names and not STANDARD.match(place) and defines(place) and (name in own or place not in OLDER)]
    for line in wrong:
        print(f'standard: {line}')
    print(f'standard: {len(looked)} files, {len(names)} names of std, {len(wrong)} other definitions under one of them')
    return 1 if wrong or not names else 0


if __name__ == '__main__':
    sys.exit(main())
