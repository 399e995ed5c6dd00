#!/usr/bin/env python3
"""What the tests take of the kit: its compiler, over the libraries that rt built.

    tests/kit.py archive     builds crates/host/out/libhost.a, the calls for C
    tests/kit.py format      says which .rt and .antt files are not in the layout of rt fmt

`rt ci` proves the static library and builds none, and `rt lib` takes no library that `rt ci` built: in a clean clone it would prove all of them a second
time. So where every library below the archive is one that `rt ci` made of the files as they stand, the kit's compiler is called over these, and it proves
crates/host alone. Else `rt lib` makes the archive, and builds what is not up to date: a second `rt ci` in one checkout puts back the libraries of the
first one, and a file may have changed since."""
import functools, os, re, subprocess, sys

TOP = os.path.dirname(os.path.dirname(os.path.abspath(__file__)))
ARCHIVE = os.path.join(TOP, 'crates', 'host', 'out', 'libhost.a')


@functools.cache
def kit():
    """The kit's folder, where the page stands that `rt doc` names."""
    return os.path.dirname(subprocess.run(['rt', 'doc'], capture_output=True, text=True, check=True).stdout.strip())


def uses():
    """The crates in the order of crates.txt, each with the libraries that it names."""
    listing = open(os.path.join(TOP, 'crates.txt')).read()
    return {name: rest.split() for name, rest in re.findall(r'^(\w+)[^:\n#]*:(.*)', listing, re.M)}


def below(crates):
    """The repository's libraries that crates stand on, in the order of crates.txt."""
    every, found, due = uses(), set(), list(crates)
    while due:
        for name in every.get(due.pop(), []):
            if name in every and name not in found:
                found.add(name)
                due.append(name)
    return [name for name in every if name in found]


def rlib(crate):
    return os.path.join(TOP, 'crates', crate, 'out', 'rlib', f'{crate}.rlib')


def compiler(verb, name, libraries):
    """The kit's compiler for a crate of that name in the current folder, over libraries of the repository as they are built."""
    at, every = kit(), uses()
    words = [f'{at}/bin/rattle', verb, '--crate-name', name, 'src/lib.rt', '--links', f'{name}=']
    of_kit = {'std', *(it for it in every.get(name, []) if it not in every)}
    words += [word for it in sorted(of_kit) for word in ('--extern', f'{it}={at}/rlibs/{it}.rlib')] + ['-L', f'dependency={at}/rlibs']
    words += [word for it in libraries for word in ('--extern', f'{it}={rlib(it)}')]
    words += [word for it in below(libraries) for word in ('-L', f'dependency={os.path.dirname(rlib(it))}')]
    return words + ['--antt-project', f'{at}/rattle/logic/antt-project.json', '--logic-built', f'{at}/logic_built']


def are_of_ci(libraries):
    """Whether `rt ci`, which writes no stamp, made all of these, after their files came to be what they are."""
    if not all(os.path.exists(f'{rlib(it)}/format') and not os.path.exists(f'{os.path.dirname(rlib(it))}/stamp') for it in libraries):
        return False
    texts = [os.path.join(TOP, 'crates.txt')]
    for part in (os.path.join(TOP, 'crates', name, part) for name in libraries for part in ('src', 'specs', 'proofs')):
        for place, _, names in os.walk(part):
            texts += [place, *(os.path.join(place, name) for name in names)]
    return max(os.stat(it).st_ctime for it in texts) < min(os.stat(rlib(it)).st_mtime for it in libraries)


def settle(libraries):
    """Has libraries brought up to date that `rt ci` did not just make."""
    if not are_of_ci({*libraries, *below(libraries)}):
        for it in libraries:
            subprocess.run(['rt', 'lib'], cwd=os.path.join(TOP, 'crates', it), stdout=subprocess.DEVNULL, check=True)


def archive():
    """Builds the calls for C. After it the libraries below them are up to date, whoever built them."""
    folder = os.path.join(TOP, 'crates', 'host')
    if not are_of_ci(below(['host'])):
        return subprocess.run(['rt', 'lib'], cwd=folder).returncode
    words = compiler('build', 'host', [it for it in uses()['host'] if it in uses()])
    words += ['--crate-type', 'staticlib', '--toolchain', f'{kit()}/toolchain', '--backend', 'llvm', '--jobs', '2', '-o', 'out/libhost.a']
    return subprocess.run(words, cwd=folder).returncode


def in_layout():
    files = subprocess.run(['git', 'ls-files', '--cached', '--others', '--exclude-standard', '--', 'crates/*.rt', 'crates/*.antt'], cwd=TOP, capture_output=True, text=True, check=True)
    files = [it for it in files.stdout.splitlines() if os.path.exists(os.path.join(TOP, it))]
    return subprocess.run([f'{kit()}/bin/rattle', 'fmt', '--check', *files], cwd=TOP, stdout=subprocess.DEVNULL).returncode


if __name__ == '__main__':
    sys.exit({'archive': archive, 'format': in_layout}[sys.argv[1]]() if sys.argv[1:] in (['archive'], ['format']) else __doc__)
