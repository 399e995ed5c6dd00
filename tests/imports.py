#!/usr/bin/env python3
"""Fails where a file of crates/ imports a name that it does not use. A name with `◌` counts as used where each of its parts stands alone; what code takes
of std with a capital letter may be a trait, which its methods alone use, and is not looked at, nor is what a `*` brings."""
import glob, os, re, sys

TOP = os.path.dirname(os.path.dirname(os.path.abspath(__file__)))
IMPORT = re.compile(r'^[ \t]*(pub )?(ghost )?use ([^\s{;]+)(\{[^}]*\})?( as [^\s;]+)?;?$', re.M)


def used(name, words):
    return name in words or '◌' in name and all(part in words for part in name.split('◌') if part)


def unused(path):
    text = open(path).read()
    rest = re.sub(r'(--|//).*', '', IMPORT.sub('', text))
    words = set(re.split(r'[\s(){}.;,@"«»]+', rest)) | (set(re.split(r'\W+', rest)) if path.endswith('.rt') else set())
    for public, ghost, place, names, alias in IMPORT.findall(text):
        if public:
            continue
        if names:
            brought = [name.split(' as ')[-1].strip() for name in names[1:-1].split(',') if name.strip()]
        else:
            brought = [alias[4:] if alias else re.split(r'\.|::', place)[-1]]
        may_be_traits = path.endswith('.rt') and not ghost and place.startswith('std::')
        yield from (name for name in brought if name != '*' and not (may_be_traits and name[:1].isupper()) and not used(name, words))


found = files = 0
for ending in ('antt', 'rt'):
    for part in ('src', 'specs', 'proofs'):
        for path in sorted(glob.glob(os.path.join(TOP, 'crates', '*', part, '**', '*.' + ending), recursive=True)):
            files += 1
            for name in unused(path):
                print(f'{os.path.relpath(path, TOP)}: imports {name} and does not use it')
                found += 1
print(f'imports: {files} files, {found} names are not used')
sys.exit(found > 0 or not files)
