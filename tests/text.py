#!/usr/bin/env python3
"""Runs the program text on FlatZinc and compares what it prints: a text with every builtin, every fault, the limits, and every recorded
answer of text that the program must give too. The last line says how many runs agree. Exit status 1 at the first difference."""
import glob, os, subprocess, sys

HERE = os.path.dirname(os.path.abspath(__file__))
TEXT = os.path.join(os.path.dirname(HERE), 'crates', 'text', 'out', 'text')
BYTES = 524288  # the bytes that the program reads at most
INTEGER, BOOLEAN, END = [0x10000000, 0x20000003], 0x30000000, 0x70000000

# The builtins by code, with the sorts of their arguments: i an integer variable, b a Boolean one, n a number, N I B lists of them, S a set, P parallel lists.
BUILTINS = '''int_eq ii|int_le ii|int_lt ii|int_ne ii|int_le_reif iib|int_plus iii|int_times iii|int_abs ii|int_max iii|int_lin_eq Pn|int_lin_le Pn|int_lin_ne Pn
|int_lin_eq_reif Pnb|int_eq_reif iib|int_lin_le_reif Pnb|bool2int bi|bool_not bb|bool_and bbb|bool_or bbb|bool_xor bbb|bool_clause BB|array_bool_and Bb
|array_bool_xor B|array_int_element iNi|array_var_int_element iIi|array_int_maximum iI|set_in iS|set_in_reif iSb|int_min iii|int_lt_reif iib|int_ne_reif iib
|int_lin_ne_reif Pnb|array_int_minimum iI|bool_eq_reif bbb|bool_le_reif bbb|bool_lt_reif bbb|int_div iii|int_mod iii|int_pow ini'''.replace('\n', '').split('|')
X, B, ONE, TWO, MINUS = 0x50000000, 0x50000001, 0x60000001, 0x60000002, 0x6FFFFFFF
# an argument of a sort in a text, and its words
ARGUMENTS = {'i': ('x', [X]), 'b': ('b', [B]), 'n': ('-1', [MINUS]), 'N': ('[1,-1]', [TWO, ONE, MINUS]), 'I': ('[x]', [ONE, X]), 'B': ('[b,b]', [TWO, B, B]),
             'S': ('{1,-1}', [TWO, ONE, MINUS]), 'P': ('[1,-1],[x,x]', [TWO, ONE, MINUS, X, X])}
TABLE = 'var 0..3: x; var bool: b;\n'


def every_builtin():
    """A text with a constraint of each builtin, and its words."""
    text, words = TABLE, INTEGER + [BOOLEAN]
    for code, (name, sorts) in enumerate((row.split() for row in BUILTINS), 1):
        text += f'constraint {name}({", ".join(ARGUMENTS[s][0] for s in sorts)}); % code {code}\n'
        words += [0x40000000 + code] + [w for s in sorts for w in ARGUMENTS[s][1]]
    return text + 'solve satisfy;\n', words + [END]


def many(words):
    """Declarations that make a model of so many words."""
    return ''.join(f'var bool:b{k};' for k in range(words - 1)) + 'solve satisfy;'


def accepted():
    yield every_builtin()
    yield 'solve satisfy;', [END]
    yield '%\n var-1 .. 07:var;solve%\nsatisfy ;%', [0x1FFFFFFF, 0x20000007, END]
    yield 'var -134217727..134217727: ' + 'n' * 32 + ';solve satisfy;', [0x18000001, 0x27FFFFFF, END]
    yield many(8192), [BOOLEAN] * 8191 + [END]
    yield 'solve satisfy;' + ' ' * (BYTES - 14), [END]


def refusals():
    """Texts with a fault, its number and place; the place of a text is that of its mark @, which is taken out."""
    table = TABLE + 'constraint '
    for text, fault in (('@', 19), ('  @', 19), ('@x', 19), ('solve satisfy; @solve satisfy;', 19), ('var 0..@.3: x;', 19), ('var 0..@- 3: x;', 19),
                        ('var 0..3: @' + 'n' * 33 + ';', 19), ('var 0..3@\t: x;', 19), (table + 'int_eq(x@);', 19), (table + 'int_eq(x,x,@x);', 19),
                        (table + 'int_eq(x,@3);', 19), (table + 'int_lin_eq([1],@[x,x],3);', 19), (table + 'int_lin_eq([1],[x,x@;', 19), (TABLE + 'var bool: @x;', 20),
                        (table + '@int_equal(x,x);', 20), (table + 'int_eq(x,@y);', 20), (table + 'int_lin_eq([1],[x,@y;', 20), ('var 0..@134217728: x;', 21),
                        ('var @-134217728..0: x;', 21), (table + 'int_lin_eq([1],[x],@999999999999999999999);', 21)):
        yield text.replace('@', ''), fault, text.index('@')
    yield many(8193), 1, 0
    yield many(9001)[:-1], 19, len(many(9001)) - 1
    yield 'solve satisfy;' + ' ' * (BYTES - 13), 16, 0  # one byte more than the program reads


def recorded():
    """The vectors of text; those whose refusal is that of a short list, with the room of the program, are left out."""
    for path in sorted(glob.glob(os.path.join(HERE, 'vectors', '*.txt'))):
        for line in open(path):
            call, text, _, _, answer = (part.strip() for part in line.rstrip('\n').split('|'))
            if call == 'text' and not answer.startswith('refused 16 '):
                kind, *words = answer.split()
                yield bytes.fromhex(text), ''.join(w + '\n' for w in words) if kind == 'words' else answer + '\n'


def runs():
    """The bytes of standard input, what the program must print."""
    for text, words in accepted():
        yield text.encode(), ''.join('%08X\n' % w for w in words)
    for text, fault, place in refusals():
        yield text.encode(), f'refused {fault} {place}\n'
    yield from recorded()


def shown(text):
    lines = text.split('\n')
    return '\n'.join(lines[:30]) + (f'\n.. {len(lines)} lines' if len(lines) > 30 else '')


def main():
    if not os.path.exists(TEXT):
        print('crates/text/out/text is not there: rt ci makes it, and rt run in its folder')
        return 1
    count = 0
    for stdin, expected in runs():
        run = subprocess.run([TEXT], input=stdin, capture_output=True)
        seen = run.stdout.decode('ascii', 'replace')
        if seen != expected or run.returncode:
            print(f'text on {len(stdin)} bytes, {stdin[:200]}: expected\n{shown(expected)}\nseen, with exit status {run.returncode},\n{shown(seen)}')
            return 1
        count += 1
    print(f'text: {count} runs agree')
    return 0


if __name__ == '__main__':
    sys.exit(main())
