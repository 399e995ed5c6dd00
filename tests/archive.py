#!/usr/bin/env python3
"""Looks into the library for C: it is the object that was proved, and the fault texts.

    tests/archive.py [LIBRARY [PROVED]]    default target/libpearrummy.a and crates/host/out/libhost.a

The library has host.o, byte for byte that of the archive that the kit makes of the proved crate, and fault_text.o. host.o defines the calls that the header
declares and no other global name, and takes memcpy and memset alone from outside, so that no call has a heap. fault_text.o defines
pearrummy_fault_text alone and takes nothing. No object has code that runs before a call. Exit status 1 where something is not so."""
import os, re, subprocess, sys, tempfile

TOP = os.path.dirname(os.path.dirname(os.path.abspath(__file__)))
LIBRARY, PROVED = (sys.argv[1:] + [os.path.join(TOP, *path) for path in (('target', 'libpearrummy.a'), ('crates', 'host', 'out', 'libhost.a'))][len(sys.argv) - 1:])
MEMORY = {'memcpy', 'memset'}
BEFORE = re.compile(r'\.(init|fini|preinit|ctors|dtors)(_array)?\b|\.init\b|\.fini\b')


def tool(*words):
    return subprocess.run(words, capture_output=True, check=True).stdout


def members(archive):
    return tool('ar', 't', archive).decode().split()


def symbols(path):
    """The global names of an object that it defines, and those that it takes."""
    found = [line.split() for line in tool('nm', '--extern-only', '--format=posix', path).decode().splitlines()]
    return {line[0] for line in found if line[1] not in 'Uvw'}, {line[0] for line in found if line[1] in 'Uvw'}


def held(what, found, wanted):
    for name in sorted(found - wanted):
        yield f'{what} {name}, which it may not'
    for name in sorted(wanted - found):
        yield f'{what} no {name}'


def looked_into():
    listed = members(LIBRARY)
    if sorted(listed) != ['fault_text.o', 'host.o']:
        yield f'the library has {", ".join(listed)}, and not host.o and fault_text.o alone'
    if members(PROVED) != ['host.o']:
        yield f'the proved archive has {", ".join(members(PROVED))}, and not host.o alone'
    if 'host.o' not in listed or tool('ar', 'p', LIBRARY, 'host.o') != tool('ar', 'p', PROVED, 'host.o'):
        yield 'host.o of the library is not the object that was proved'
    header = re.sub(r'/\*.*?\*/', '', open(os.path.join(TOP, 'include', 'pearrummy.h')).read(), flags=re.S)
    declared = set(re.findall(r'\b(pearrummy_\w+)\(', header))
    with tempfile.TemporaryDirectory() as folder:
        for name in dict.fromkeys(listed):
            path = os.path.join(folder, name)
            with open(path, 'wb') as file:
                file.write(tool('ar', 'p', LIBRARY, name))
            defines, takes = symbols(path)
            if name == 'host.o':
                yield from held('host.o defines', defines, declared - {'pearrummy_fault_text'})
                yield from held('host.o takes', takes, takes & MEMORY)
            else:
                yield from held(f'{name} defines', defines, {'pearrummy_fault_text'})
                yield from held(f'{name} takes', takes, set())
            sections = tool('readelf', '--wide', '--section-headers', path).decode()
            yield from (f'{name} has the section {found.group()}: code that runs before a call' for found in BEFORE.finditer(sections))


wrong = list(looked_into())
for line in wrong:
    print(f'archive: {line}')
print(f'archive: {LIBRARY}: {len(wrong)} faults')
sys.exit(len(wrong) > 0)
