#!/usr/bin/env python3
"""Compares the definitions of specs/ with the recorded answers of tests/vectors: antt computes each answer, and what a lent list holds afterwards.

    tests/definitions.py [MOST]

What `rt ci` has just proved is taken as it is; else the libraries are built first, where they are not up to date. A vector of more than MOST words (default 2,000) is left out, one of sheet with more than 24, one of text with more than 600 bytes, and one of bits or best_bits with more than 60 words or a lent list of more than 100: a page of bytes, a long text and a form of many bits take long to compute. The last line says how many agree. Exit status 0 if all do."""
import glob, os, re, subprocess, sys, tempfile, time

sys.dont_write_bytecode = True
import kit

HERE = os.path.dirname(os.path.abspath(__file__))
ROOT = os.path.dirname(HERE)
CRATES = ['integers', 'words', 'models', 'rowsystems', 'rules', 'decimals', 'sheetlines', 'sheets', 'sharing', 'reasons', 'solutions', 'pairs', 'tokens', 'names', 'grammar', 'texts', 'bitforms', 'bitanswers', 'bitsharing', 'bestforms']
MOST = next((int(word) for word in sys.argv[1:] if word.isdigit()), 2000)
GROUP = 20  # cases of a declaration
SHEET_MOST, TEXT_MOST = 24, 600
BITS_MOST, BITS_ROOM = 60, 100
FIRST_CALLS = ('check', 'translate', 'judge_model', 'judge_rows', 'fill')  # the calls whose definitions stand in the first five crates
PARTS = {'firsts': CRATES[:5], 'seconds': CRATES}  # the crates of the vectors, of these calls and of the others, with those of their definitions
UNUSED, UNUSED_BYTE = 0x5A5A5A5A, 0x5A  # what a lent word or value, and a lent byte, holds before the call
# the definition of what each call answers, and of what a lent list holds afterwards
ANSWERS = {'check': 'check', 'translate': 'translate', 'judge_model': 'judge_model', 'judge_rows': 'judge_rows', 'fill': 'fill', 'sheet': 'sheet', 'text': 'read_text', 'reason': 'reason', 'solutions': 'solutions_answer', 'bits': 'bit_form',
           'pair_check': 'pair_check', 'pair_translate': 'pair_translate', 'pair_judge_model': 'pair_judge', 'pair_fill': 'pair_fill',
           'bit_values': 'bit_values', 'bit_energy': 'bit_energy', 'value_bits': 'value_bits_answer', 'best_bits': 'best_bits_by'}
LATER = {'translate': 'translated', 'fill': 'filled', 'sheet': 'sheet_page', 'text': 'text_read', 'solutions': 'solutions_listed', 'bits': 'bit_formed', 'pair_translate': 'pair_translated', 'pair_fill': 'pair_filled',
         'bit_values': 'bit_valued', 'value_bits': 'value_bits_written', 'best_bits': 'best_bitted_by'}
JUDGED = ('judge_model', 'judge_rows', 'fill', 'reason', 'pair_judge_model', 'pair_fill', 'value_bits')  # the calls that take values
ON_BITS = ('bit_values', 'bit_energy')  # those that take bits, as bytes
FORMS = ('bits', 'best_bits')  # those that write a form
WORDS = ('sheet', 'text', 'value_bits', *FORMS)  # those whose lent list has no signed numbers, but for the translating ones
BYTES = ('sheet', 'value_bits')  # those that are lent bytes


def listed(items):
    return '(' + ''.join(item + ' ∷ ' for item in items) + '[])'


def words_term(words):
    return listed(str(w) for w in words)


def whole(v):
    return f'pos {v}' if v >= 0 else f'negsuc {-v - 1}'


def values_term(values):
    return listed(f'{whole(v)}' for v in values)


def answer_term(kind, rest):
    if kind == 'refused':
        return f'refused {rest[0]} {rest[1]}'
    if kind == 'counts':
        return 'counts ' + ' '.join(rest)
    return {'holds': 'holds', 'bound': 'out_of_bounds ' + ' '.join(rest), 'false': 'is_false ' + ' '.join(rest)}[kind]


def reason_term(kind, rest):
    if kind == 'refused':
        return f'refuse {rest[0]} {rest[1]}'
    if kind == 'row':
        return f'because {rest[0]} {rest[1]} ' + {'builtin': 'false', 'auxiliaries': 'true'}[rest[2]]
    return {'none': 'none', 'bound': 'outside ' + ' '.join(rest)}[kind]


def energy_term(kind, rest):
    if kind == 'refused':
        return f'energies.refused {rest[0]} {rest[1]}'
    return f'energies.energy_is ({whole(int(rest[0]))})'


def written(kind, rest):
    """What a call wrote and what it says of it."""
    if kind == 'words':
        return [int(w, 16) for w in rest], f'written {len(rest)}'
    if kind in ('filled', 'values', 'bits'):
        return [int(v) for v in rest], f'written {len(rest)}'
    if kind == 'bytes':
        page = list(bytes.fromhex(''.join(rest)))
        return page, f'written {len(page)}'
    if kind == 'solutions':
        return [int(v) for v in rest[1:]], f'written {rest[0]}'
    return [], answer_term(kind, rest)


def statement(call, words, values, room, answer):
    kind, rest = answer[0], answer[1:]
    given = words_term(words)
    if call.startswith('pair_'):  # the first value is the candidate
        given, values = f'{values[0]} {given}', values[1:]
    if call in JUDGED:
        given += ' ' + values_term(values)
    if call in ON_BITS:
        given += ' ' + words_term(values)
    if call == 'best_bits':  # the variable's number and the direction
        given = f'{given} {values[0]} {values[1]}'
    if call not in LATER:
        said = {'reason': reason_term, 'bit_energy': energy_term}.get(call, answer_term)(kind, rest)
        return f'{ANSWERS[call]} {given} ≡ {said}'
    new, said = written(kind, rest)
    term = words_term if call in WORDS or call.endswith('translate') else values_term
    before = [UNUSED_BYTE if call in BYTES else UNUSED] * room
    return f'({ANSWERS[call]} {given} {room} ≡ {said}) × ({LATER[call]} {given} {term(before)} ≡ {term(new + before[len(new):])})'


def vectors():
    for path in sorted(glob.glob(os.path.join(HERE, 'vectors', '*.txt'))):
        for number, line in enumerate(open(path), 1):
            call, words, values, room, answer = (part.strip() for part in line.rstrip('\n').split('|'))
            yield (f'{os.path.basename(path)}:{number}', call, [] if words == '-' else [int(w, 16) for w in words.split()],
                   [] if values == '-' else [int(v) for v in values.split()], 0 if room == '-' else int(room), answer.split())


def definitions(crates):
    """The modules of specs/ and the names in each that a computation opens."""
    for crate in crates:
        for path in sorted(glob.glob(os.path.join(ROOT, 'crates', crate, 'specs', '*.antt'))):
            names = re.findall(r'^ *unfoldable pub (\S+) :', open(path).read(), flags=re.M)
            if names:
                yield crate, os.path.basename(path)[:-5], names


def write_part(part, cases, size, scratch):
    """Writes the crate of a part, whose specs hold the cases, so many in a declaration, and which is nothing else."""
    modules = list(definitions(PARTS[part]))
    seen, uses, opened = {'written'}, [], []  # also an answer
    for crate, module, names in modules:
        # a name that two modules have is written by its module
        plain = [n for n in names if n not in seen and sum(n in other for _, _, other in modules) == 1]
        shared = [n for n in names if n not in plain]
        seen.update(names)
        if plain:
            uses.append(f'use Rattle.{crate}.specs.{module}.{{{", ".join(plain)}}}')
        opened += plain + [f'Rattle.{crate}.specs.{module}.{n}' for n in shared]
    head = '\n'.join([
        'use Rattle.std.specs.Prelude.{◌≡◌, [], ◌∷◌, pos, negsuc, true, false}', 'use Rattle.std.proofs.Common.{refl}',
        'use mathlib.Core.List.{flat_map, flatten, zip_with}',
        'use Rattle.words.specs.Answer.{Answer, refused, counts, written, holds, out_of_bounds, is_false}',
        'use Rattle.rules.specs.Check.{check}', 'use Rattle.rules.specs.Translate.{translate, translated}',
        'use Rattle.rules.specs.Fill.{fill, filled}',
        *(['use Rattle.reasons.specs.Reason.{Reason, refuse, outside, none, because}'] if 'reasons' in PARTS[part] else []),
        *(['use Rattle.bitanswers.specs.BitEnergy as energies'] if 'bitanswers' in PARTS[part] else [])] + uses)
    os.makedirs(os.path.join(scratch, 'specs'))
    os.makedirs(os.path.join(scratch, 'src'))
    with open(os.path.join(scratch, 'src', 'lib.rt'), 'w') as f:
        f.write('#![tactic(auto)]\n\npub fn none() -> u32 {\n    0\n}\n')
    with open(os.path.join(scratch, 'specs', 'Lib.antt'), 'w') as f:
        f.write('pub mod Vectors\n')
    with open(os.path.join(scratch, 'specs', 'Vectors.antt'), 'w') as f:
        f.write(head + '\n\n')
        for group in groups(cases, size):
            said = ' ×\n    '.join(f'({statement(*cases[k][1:])})' for k in group)
            proof = ', '.join('(refl, refl)' if cases[k][1] in LATER else 'refl' for k in group)
            f.write(f'v{group[0]} : {said}\nunfolding flat_map flatten zip_with {" ".join(opened)}\nv{group[0]} = ({proof})\n\n')


def groups(cases, size):
    """The numbers of the cases, so many together: what a declaration opens is read once for each declaration."""
    numbers = sorted(cases)
    return [numbers[at:at + size] for at in range(0, len(numbers), size)]


def is_short(case):
    _, call, words, _, room, _ = case
    most = {'sheet': SHEET_MOST, 'text': TEXT_MOST, 'bits': BITS_MOST, 'best_bits': BITS_MOST}.get(call, MOST)
    return len(words) <= min(MOST, most) and (call not in FORMS or room <= BITS_ROOM)


def run(part, cases, size):
    """The groups whose declaration is refused, by their first case, and what was said."""
    with tempfile.TemporaryDirectory() as scratch:
        write_part(part, cases, size, scratch)
        words = kit.compiler('check', part, PARTS[part]) + ['--jobs', '2']
        ran = subprocess.run(words, cwd=scratch, stdin=subprocess.DEVNULL, stdout=subprocess.PIPE, stderr=subprocess.STDOUT, text=True)
    said = ran.stdout
    computed = not ran.returncode and 'logic=proved' in said
    return {int(n) for n in re.findall(r'error: `v(\d+)`', said)}, said[-3000:] or f'the check ended with status {ran.returncode} and said nothing', computed


def compute(part, cases):
    """The cases of a part to which the definition gives another answer, and what was said where the check failed and names none."""
    refused, said, computed = run(part, cases, GROUP)
    if computed or not refused:
        return [], '' if computed else said
    # each case of a refused group by itself
    again = {k: cases[k] for group in groups(cases, GROUP) if group[0] in refused for k in group}
    wrong, said, computed = run(part, again, 1)
    return sorted(wrong), '' if wrong else said if not computed else 'a group is refused, and none of its cases'


def main():
    every = list(vectors())
    cases = {k: case for k, case in enumerate(every) if is_short(case)}
    of = {part: {k: case for k, case in cases.items() if (case[1] in FIRST_CALLS) == (part == 'firsts')} for part in PARTS}
    begun = time.time()
    kit.settle(CRATES)
    wrong = []
    for part in of:
        found, said = compute(part, of[part])
        if said:
            print(said)
            print('the definitions were not computed')
            return 1
        wrong += found
    for k in wrong:
        print(f'{cases[k][0]}: the definition of {cases[k][1]} gives another answer')
    print(f'definitions: {len(cases) - len(wrong)} of {len(cases)} vectors agree, {len(every) - len(cases)} of more words left out, {time.time() - begun:.0f} s')
    return 1 if wrong else 0


if __name__ == '__main__':
    sys.exit(main())
