#!/usr/bin/env python3
"""Shows each check of the gate failing once: makes what it is there to refuse, in a copy, runs the check, and looks for the sentence that it says.

    tests/escapes.py    after the library and the programs are built

An escape is a change of files, what is run, and what it must say; on the copy as it is every check passes. No proof is run. Exit status 1 where an escape
passes, or where another sentence is said."""
import os, re, shutil, subprocess, sys, tempfile

TOP = os.path.dirname(os.path.dirname(os.path.abspath(__file__)))
HOST, STRUCTS, HEADER = 'crates/host/src/lib.rt', 'crates/structs/src/lib.rt', 'include/pearrummy.h'
OWN = 'use Rattle.std.specs.Prelude.{List, ℕ}\n\npub NAME : List ℕ → ℕ\nNAME xs = 8\n'
LENGTH = r'(ghost use Rattle\.std\.specs\.Prelude\.\{[^}]*), length([^}]*\};)'

# The check, what is wrong, the edits, each a file, what stands there once (None: a new file) and what comes there, and what the check must say.
TEXTS = [
    ('clauses', 'a call for C has a precondition', [(HOST, r'(fn pearrummy_judge_model\(.*?\) -> \w+\n)', r'\1    requires { length words.now ≤ 4096 }\n')],
     'host::pearrummy_judge_model has a `requires`: no call has a precondition'),
    ('clauses', 'a call in Rattle has a precondition',
     [('crates/modeljudge/src/lib.rt', r'(pub fn judge_model\(.*?\) -> [^\n]*\n)', r'\1    requires { length values.now ≤ 256 }\n')],
     'modeljudge::judge_model has a `requires`: no call has a precondition'),
    ('clauses', 'a clause is dropped', [(HOST, r'(fn pearrummy_fill\(.*?)    ensures satisfied [^\n]*\n', r'\1')],
     'host::pearrummy_fill: recorded, and not in the code: ensures satisfied'),
    ('clauses', 'a clause is replaced by one that says nothing', [(HOST, r'(fn pearrummy_check\(.*?ensures )[^\n]*', r'\1{ result ≡ result }')],
     'host::pearrummy_check: in the code, and not recorded: ensures { result ≡ result }'),
    ('clauses', 'a clause of a call in Rattle is replaced by one that says nothing',
     [('crates/filling/src/lib.rt', r'(pub fn fill\(.*?ensures completes )[^\n]*', r'\1{ out.new ≡ out.new }')],
     'filling::fill: in the code, and not recorded: ensures completes { out.new ≡ out.new }'),
    ('clauses', 'a name in a clause stands for another definition', [(HOST, r'Rattle\.rules\.specs\.Check\.\{check as', 'Rattle.host.specs.Own.{check as')],
     'host::pearrummy_check: recorded, and not in the code: check_answer is Rattle.rules.specs.Check.check'),
    ('clauses', 'a call is gone', [('crates/bestbits/src/lib.rt', r'pub fn best_bits\(', 'pub fn some_bits(')], 'bestbits has 0 functions best_bits'),
    ('clauses', 'a program prints what no clause says', [('crates/sheet/src/main.rt', r'(fn sheet_page\(.*?)    ensures text [^\n]*\n', r'\1')],
     'sheet::sheet_page: recorded, and not in the code: ensures text'),
    ('clauses', 'a clause of an inner function says the same three times',
     [('crates/tokens/src/lib.rt', r'(fn run_of<.*?ensures value \{ )([^\n]*)( \}\n)', r'\1(\2) × (\2) × \2\3')],
     'tokens::run_of has an `ensures` of 286 characters: name its parts'),
    ('clauses', 'a function is written so that it is not read', [('crates/words/src/list.rt', r'pub fn lay<', 'pub fn  lay<')], 'words/src/list.rt has 3 clauses, and 2 are read'),
    ('structs', 'two fields of a struct are exchanged', [(STRUCTS, r'(pub struct Counts \{.*?)(    pub auxiliaries: usize,\n)(    pub rows: usize,\n)', r'\1\3\2')],
     'the fields of Counts are '),
    ('structs', 'a field of a struct is narrower', [(STRUCTS, r'(pub struct Judgement \{.*?pub at: )usize', r'\1u32')], 'the fields of Judgement are '),
    ('structs', 'a struct has no fixed layout', [(STRUCTS, r'#\[repr\(C\)\]\n((?:#\[[^\n]*\]\n)*pub struct Counts)', r'\1')], 'Counts has no #[repr(C)]'),
    ('structs', 'two fields of the header are exchanged', [(HEADER, r'(struct pearrummy_explanation \{[^}]*)(    size_t place;\n)(    size_t row;\n)', r'\1\3\2')],
     'the fields of Explanation are '),
    ('structs', 'the header has another parameter', [(HEADER, r'(pearrummy_check\(const uint32_t \*words, )size_t', r'\1uint32_t')],
     'pearrummy_check takes const uint32_t *words, size_t words_count; the header has const uint32_t *words, uint32_t words_count'),
    ('structs', 'the header puts a macro in the place of a call', [(HEADER, r'#ifdef __cplusplus\n\}', '#define pearrummy_check(words, count) other(words, count)\n#ifdef __cplusplus\n}')],
     'the header has #define pearrummy_check'),
    ('standard', 'a contract takes a length of its own',
     [('crates/host/specs/Own.antt', None, OWN.replace('NAME', 'length')), (HOST, LENGTH, r'\1\2\nghost use Rattle.host.specs.Own.{length};')],
     'crates/host/specs/Own.antt defines length, which is a name of std'),
    ('standard', 'a contract takes another definition under the name of one of std',
     [('crates/host/specs/Own.antt', None, OWN.replace('NAME', 'eight')), (HOST, LENGTH, r'\1\2\nghost use Rattle.host.specs.Own.{eight as length};')],
     'crates/host/src/lib.rt imports Rattle.host.specs.Own.eight as length, which is a name of std'),
    ('standard', 'a contract takes a length of proofs/',
     [('crates/host/proofs/Own.antt', None, OWN.replace('NAME', 'length')), (HOST, LENGTH, r'\1\2\nghost use Rattle.host.proofs.Own.{length};')],
     'crates/host/src/lib.rt imports Rattle.host.proofs.Own.length as length, which is a name of std'),
    ('account', 'a handle is allowed', [('HANDLES', None, 'Handles allowed: Wait.\n')], 'the file HANDLES says "Handles allowed: Wait."'),
]

# What rt ci may say, with the numbers of crates and edits, and what the check must say.
GOOD = 'rt: ok; handles allowed: none; must-fail edits: {edits} refused; every proof and must-fail edit was done in this run\n{all} passed, 0 failed\n'
LOGS = [
    ('a handle is allowed', GOOD.replace('none', 'Wait'), 'rt ci does not say that no handle is allowed: rt: ok; handles allowed: Wait;'),
    ('an edit is a bad one', GOOD.replace('refused;', 'refused, 1 bad;'), 'must-fail edits are good ones'),
    ('an edit was not tried', GOOD.replace('{edits}', '3'), 'must-fail edits are good ones'),
    ('a crate failed', GOOD.replace('0 failed', '1 failed'), 'rt ci did not pass'),
    ('an edit is refused by no fact', 'rt: must-fail a/b.edit: refused, as it must be (only because a name is gone)\n' + GOOD, 'a must-fail edit is refused by no fact')]

# Programs that fail as they must, and such that do not.
PROGRAM = '#!/bin/sh\ncat >/dev/null || exit 1\necho F0000000 || exit 1\n'
PROGRAMS = [
    ('rows', 'a program takes no notice of a write that fails', PROGRAM.replace('0 || exit 1', '0\nexit 0'), 'rows ends with 0 and not with 1 where standard output is full'),
    ('bits', 'a program takes a read that fails for the end', PROGRAM.replace('null || exit 1', 'null 2>&1'), 'bits ends with 0 and not with 1 where standard input is a folder')]

# C beside the calls, for the library.
WRAPPER = '#include "pearrummy.h"\nstruct pearrummy_counts proved_check(const uint32_t *words, size_t words_count);\n' \
          'struct pearrummy_counts pearrummy_check(const uint32_t *words, size_t words_count) {\n' \
          '    struct pearrummy_counts it = proved_check(words, words_count);\n    it.rows++;\n    return it;\n}\n'
BEFORE = 'static volatile int begun;\n__attribute__((constructor)) static void begin(void) { begun = 1; }\n'
HEAP = '#include <stdlib.h>\n__attribute__((used)) static void *some(void) { return malloc(8); }\n'
MOVE = '#include <string.h>\n__attribute__((used)) static void some(char *to, const char *from, size_t n) { memmove(to, from, n); }\n'


class Passed(Exception):
    """An escape that no check refuses."""


def said(folder, script, *words, environment=None):
    done = subprocess.run([sys.executable, os.path.join(folder, 'tests', script + '.py'), *words], capture_output=True, text=True, env=environment)
    return done.returncode, done.stdout + done.stderr


def passes(folder, script, *words, environment=None):
    status, text = said(folder, script, *words, environment=environment)
    if status:
        raise Passed(f'{script} fails where nothing is wrong: {text}')
    return text


def refuses(what, sentence, folder, script, *words, environment=None):
    status, text = said(folder, script, *words, environment=environment)
    if not status or sentence not in text:
        raise Passed(f'{what}: {script} ends with {status} and says {text!r}, not {sentence!r}')


def written(path, text, executable=False):
    os.makedirs(os.path.dirname(path), exist_ok=True)
    with open(path, 'w') as file:
        file.write(text)
    os.chmod(path, 0o755 if executable else 0o644)


def copy(folder):
    """What the checks read, copied."""
    for name in os.listdir(os.path.join(TOP, 'crates')):
        for part in ('src', 'specs', 'must-fail'):
            if os.path.isdir(os.path.join(TOP, 'crates', name, part)):
                shutil.copytree(os.path.join(TOP, 'crates', name, part), os.path.join(folder, 'crates', name, part))
    shutil.copytree(os.path.join(TOP, 'include'), os.path.join(folder, 'include'))
    shutil.copytree(os.path.join(TOP, 'tests'), os.path.join(folder, 'tests'), ignore=lambda at, names: [it for it in names if not it.endswith(('.py', '.txt')) or at != os.path.join(TOP, 'tests')])
    for name in ('crates.txt', 'HANDLES'):
        if os.path.exists(os.path.join(TOP, name)):
            shutil.copy(os.path.join(TOP, name), folder)


def edited(folder, edits):
    """Makes the edits; answers what stood there before."""
    before = {}
    for name, old, new in edits:
        path = os.path.join(folder, name)
        before.setdefault(path, open(path).read() if os.path.exists(path) else None)
        text, count = (new, 1) if old is None else re.subn(old, new, before[path], flags=re.S)
        if count != 1:
            raise Passed(f'{name} has {count} times, and not once: {old}')
        written(path, text)
    return before


def texts(folder):
    for script in dict.fromkeys(script for script, *_ in TEXTS):
        passes(folder, script)
    for script, what, edits, sentence in TEXTS:
        before = edited(folder, edits)
        refuses(what, sentence, folder, script)
        for path, text in before.items():
            written(path, text) if text is not None else os.remove(path)
    return len(TEXTS)


def logs(folder):
    crates = len(re.findall(r'^[a-z0-9_]+(?: [^:#\n]*)?:', open(os.path.join(folder, 'crates.txt')).read(), re.M))
    edits = sum(len(os.listdir(os.path.join(folder, 'crates', name, 'must-fail'))) for name in os.listdir(os.path.join(folder, 'crates'))
                if os.path.isdir(os.path.join(folder, 'crates', name, 'must-fail')))
    log = os.path.join(folder, 'log')
    numbers = {'edits': edits, 'all': crates + edits}
    written(log, GOOD.format(**numbers))
    passes(folder, 'account', log)
    for what, text, sentence in LOGS:
        written(log, text.format(**numbers))
        refuses(what, sentence, folder, 'account', log)
    return len(LOGS)


def programs(folder):
    for name in ('rows', 'sheet', 'text', 'bits', 'suite'):
        written(os.path.join(folder, 'crates', name, 'out', name), PROGRAM, True)
    passes(folder, 'failures')
    for name, what, program, sentence in PROGRAMS:
        written(os.path.join(folder, 'crates', name, 'out', name), program, True)
        refuses(what, sentence, folder, 'failures')
        written(os.path.join(folder, 'crates', name, 'out', name), PROGRAM, True)
    return len(PROGRAMS)


def run(folder, *words):
    subprocess.run(words, cwd=folder, check=True)


def object_of(folder, name, text):
    """Compiles C to an object of that name."""
    os.makedirs(os.path.join(folder, 'made'), exist_ok=True)
    written(os.path.join(folder, 'made', name + '.c'), text)
    run(folder, 'gcc', '-O2', '-I', 'include', '-c', '-o', f'made/{name}.o', f'made/{name}.c')
    return f'made/{name}.o'


def library(folder, name, host, *others):
    """An archive of host.o and others."""
    os.makedirs(os.path.join(folder, name))
    objects = []
    for path, member in (host, 'host.o'), *others:
        shutil.copy(os.path.join(folder, path), os.path.join(folder, name, member))
        objects.append(member)
    run(os.path.join(folder, name), 'ar', 'rcs', 'it.a', *objects)
    return os.path.join(folder, name, 'it.a')


def archives(folder):
    for archive in ('target/libpearrummy.a', 'crates/host/out/libhost.a'):
        if not os.path.exists(os.path.join(TOP, archive)):
            raise Passed(f'{archive} is not there: make library builds it')
    run(folder, 'ar', 'x', os.path.join(TOP, 'crates', 'host', 'out', 'libhost.a'))
    run(folder, 'ar', 'x', os.path.join(TOP, 'target', 'libpearrummy.a'), 'fault_text.o')
    run(folder, 'objcopy', '--redefine-sym', 'pearrummy_check=proved_check', 'host.o', 'other.o')
    wrapper, before = object_of(folder, 'wrapper', WRAPPER), object_of(folder, 'before', BEFORE)
    heap, move = object_of(folder, 'heap', HEAP), object_of(folder, 'move', MOVE)
    run(folder, 'ld', '-r', '-o', 'wrapped.o', 'fault_text.o', wrapper)
    run(folder, 'ld', '-r', '-o', 'beginning.o', 'fault_text.o', before)
    run(folder, 'ld', '-r', '-o', 'heaped.o', 'host.o', heap)
    run(folder, 'ld', '-r', '-o', 'moving.o', 'host.o', move)
    texts_of_faults = ('fault_text.o', 'fault_text.o')
    proved = library(folder, 'proved', 'host.o')
    passes(folder, 'archive', library(folder, 'right', 'host.o', texts_of_faults), proved)
    wrapped = library(folder, 'third', 'other.o', texts_of_faults, (wrapper, 'wrapper.o'))
    inside = library(folder, 'inside', 'other.o', ('wrapped.o', 'fault_text.o'))
    heaped, moving = library(folder, 'heaped', 'heaped.o', texts_of_faults), library(folder, 'moving', 'moving.o', texts_of_faults)
    escapes = [
        ('a wrapper in C stands for a call', wrapped, proved, 'the library has host.o, fault_text.o, wrapper.o, and not host.o and fault_text.o alone'),
        ('the object is not the proved one', wrapped, proved, 'host.o of the library is not the object that was proved'),
        ('a wrapper in C is hidden in the fault texts', inside, proved, 'fault_text.o defines pearrummy_check, which it may not'),
        ('code runs before a call', library(folder, 'begun', 'host.o', ('beginning.o', 'fault_text.o')), proved, 'fault_text.o has the section .init_array: code that runs before a call'),
        ('a call takes memory of the heap', heaped, library(folder, 'heap_proved', 'heaped.o'), 'host.o takes malloc, which it may not'),
        ('a call copies by memmove', moving, library(folder, 'move_proved', 'moving.o'), 'host.o takes memmove, which it may not')]
    for what, archive, of, sentence in escapes:
        refuses(what, sentence, folder, 'archive', archive, of)
    return len(escapes)


def missing(folder):
    """No program is had where the PATH has none, nor a way to install one; each test that takes one fails, with the packages."""
    os.makedirs(os.path.join(folder, 'nothing'))
    bare = {name: text for name, text in os.environ.items() if name != 'PEARRUMMY_WITHOUT_PACKAGES'} | {'PATH': os.path.join(folder, 'nothing')}
    tests = {'packages': 'flatzinc clasp minizinc valgrind', 'solver': 'flatzinc', 'bits': 'clasp', 'minizinc': 'minizinc flatzinc', 'places': 'minizinc', 'command': 'minizinc', 'cost': 'valgrind'}
    for script, names in tests.items():
        refuses('a program is missing', f"not here: install Debian's {names}, or set PEARRUMMY_WITHOUT_PACKAGES=1", TOP, script, environment=bare)
    told = bare | {'PEARRUMMY_WITHOUT_PACKAGES': '1'}
    passes(TOP, 'packages', environment=told)
    text = passes(TOP, 'packages', '--left-out', environment=told)
    for package in ('flatzinc', 'clasp', 'minizinc', 'valgrind'):
        if f"of Debian's {package} is not here" not in text:
            raise Passed(f'what is left out without {package} is not said: {text}')
    return len(tests) + 1


def main():
    count = 0
    with tempfile.TemporaryDirectory() as folder:
        copy(folder)
        try:
            for part in (texts, logs, programs, archives, missing):
                count += part(folder)
        except Passed as passed:
            print(f'escapes: {passed}')
            return 1
    print(f'escapes: {count} ways round the checks of the gate are refused, each with its sentence')
    return 0


if __name__ == '__main__':
    sys.exit(main())
