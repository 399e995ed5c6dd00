#!/usr/bin/env python3
"""Counts the places of docs/DESIGN-PASS.md: points 1 to 7 in crates/*/src/, point 8 in crates/*/proofs/.

    tools/places.py            the counts by point and kind
    tools/places.py KIND ..    the places of these kinds, a line each: CRATE/src/FILE:LINE FUNCTION
    tools/places.py --by-crate the counts of each crate by point
    tools/places.py --proofs   point 8: functions with answers, files and lines of proofs by crate

Run at the top of the repository. A kind is found by a rule of text over the functions of the sources; twins were found by reading, and stand in TWINS:
a function of TWINS counts as long as a function of that name stands in its crate in the older form: NOT_TWINS says by what a function of today differs.

    tools/places.py --reasons  the lines that say why a place stays as it is: CRATE, file, the item after it, the line"""
import glob, os, re, sys, collections

FN = re.compile(r'^(?P<indent> *)(?:pub(?:\([a-z]+\))? )?(?:const )?(?:extern "C" )?fn (?P<name>\w+)', re.M)

def functions():
    for path in sorted(glob.glob('crates/*/src/**/*.rt', recursive=True)):
        crate = path.split('/')[1]
        text = open(path).read()
        starts = [m for m in FN.finditer(text)]
        for i, m in enumerate(starts):
            end = starts[i + 1].start() if i + 1 < len(starts) else len(text)
            body = text[m.start():end]
            # the function ends with the first closing brace of its indent
            stop = re.search(r'^%s\}\n' % m['indent'], body, re.M)
            if stop:
                body = body[:stop.end()]
            head, brace, code = body.partition('\n%s{\n' % m['indent'])
            if not brace:
                # no clause: the body begins on the line of the signature
                head, brace, code = body.partition(' {\n')
            line = text.count('\n', 0, m.start()) + 1
            yield dict(crate=crate, file=path.split('/src/')[1], line=line, name=m['name'], head=head, code=code, text=body)

def texts():
    for path in sorted(glob.glob('crates/*/src/**/*.rt', recursive=True)):
        crate = path.split('/')[1]
        yield crate, path.split('/src/')[1], open(path).read()

F = list(functions())
places = collections.OrderedDict()

def put(kind, f, note=''):
    places.setdefault(kind, []).append((f['crate'], f['file'], f['line'], f['name'], note))

def items(kind, pattern, note=lambda m: ''):
    for crate, file, text in texts():
        for m in re.finditer(pattern, text, re.M):
            line = text.count('\n', 0, m.start()) + 1
            places.setdefault(kind, []).append((crate, file, line, m.group(1), note(m)))

# ---- 1. Own enums and structs of the shape of Option or Result, flags beside values, numbers for kinds, faults, refusals
items('1a enum with Refused', r'^pub enum (\w+) \{\n(?:    //[^\n]*\n)*    Refused')
items('1b struct with a fault number or a flag first', r'^(?:pub )?struct (\w+) \{\n    pub (?:number|fault|fits): (?:u32|bool),')
items('1b struct with a fault number or a flag first', r'^(?:pub )?struct (\w+) \{\n    (?:pub )?there: bool,')
for f in F:
    ret = re.search(r'\) -> ([\w:]+)', f['head'])
    ret = ret.group(1) if ret else ''
    if ret == 'u32' and re.search(r'fault::[A-Z]', f['code']):
        put('1c function that answers a fault number, 0 for none', f)
    for m in re.finditer(r'\.(?:number|fault) != fault::NONE', f['code']):
        put('1d test of a fault number, then a return or a break', f)
    for m in re.finditer(r'(?:Refused|faulty)\(Refusal \{', f['code']):
        put('1e refusal built in place', f)
    if re.search(r'\b(?:kind|k|class|shape|argument|form|wanted|sort|element|closing|opening): u32\b|\bcode: usize\b|\bsort: u32', f['head']):
        put('1f parameter that is a number of a kind, code, sort or shape', f)
items('1g constants that number kinds, faults, sorts, stages, shapes, forms, calls', r'^(?:pub )?const ([A-Z_]+): (?:u32|usize) = \d+;')
# an answer with 0 for none, one more than a number
for f in F:
    if re.search(r'\b(?:code_of|code_at|place_among|variable_of|variable_in|number_in|number_of|length_ahead|index_of|first_bit|entry_of|slot_word)\b', f['name']) and 'Option<' not in f['head'] and f['crate'] in ('names', 'symbols', 'grammar', 'builtins', 'sharedblocks', 'encodings'):
        put('1h answer with 0 for none', f)
    if f['name'] in ('first_equal', 'first_number', 'place_of', 'words_before', 'first_marked', 'least_from') and not re.search(r'Option<|<F: Fn', f['head']):
        put('1h answer with the length for none', f)

# ---- 2. Twins
TWINS = {
 'put an element, if the place is there': ['encoding.put_word', 'texts.put_word', 'cases.put_word', 'cases.put_byte', 'cases.put_value', 'decimals.put_byte', 'extremes.put_bound', 'solutions.put_value', 'bittables.put_size'],
 'an element, or a default past the end': ['words.word_at', 'words.value_at', 'extremes.bound_at', 'encodings.entry_of', 'bittables.table_entry', 'bitlines.coefficient_at', 'tokens.byte_at', 'linearsums.bounds_at'],
 'lay a list over a list': ['words.lay', 'filling.copy_values', 'lines.put_bytes'],
 'the front of a lent list': ['cases.words_within', 'cases.values_within', 'cases.bytes_within'],
 'whether the marks stand': ['cases.marked_words', 'cases.marked_values', 'cases.marked_bytes'],
 'print the first n': ['cases.print_words', 'cases.print_bytes', 'cases.print_values'],
 'read n to the front': ['cases.read_words', 'cases.read_bytes', 'cases.read_values'],
 'lay n terms, or count them': ['laying.lay_terms', 'laying.lay_each', 'laying.lay_bits', 'laying.lay_same', 'laying.lay_labels', 'laying.lay_products', 'laying.lay_order', 'choiceblocks.lay_zeros', 'choiceblocks.lay_numbers', 'choiceblocks.lay_values', 'choiceblocks.lay_members', 'laying.lay_given', 'sharedblocks.lay_left_bits'],
 'whether n numbers are in the range': ['laying.all_in_range', 'laying.numbers_in_range', 'choiceblocks.zeros_in_range', 'choiceblocks.values_in_range', 'bitchecks.all_within', 'bitwriting.entries_fit'],
 'a row of head, terms, last words': ['choiceblocks.lay_one_row', 'choiceblocks.lay_label_row', 'choiceblocks.lay_number_row', 'choiceblocks.lay_value_row', 'choiceblocks.lay_member_row', 'choiceblocks.lay_one_bit'],
 'the first place that passes a test': ['picking.first_equal', 'picking.first_number', 'pairs.words_before', 'cases.first_marked'],
 'a chain of squares by halving': ['powerblocks.lay_ranges', 'powerblocks.lay_power', 'picking.put_powers', 'builtins.power_of'],
 'the next product of the chain': ['powerblocks.next_range', 'powerblocks.next_product', 'picking.put_next'],
 'n numbers, n variables of a list': ['modelitems.numbers_at', 'modelitems.variables_at'],
 'a step over a word': ['modelitems.step_over', 'rowreading.step_over'],
 'a refusal where the words may have ended': ['modelreading.refused', 'rowreading.refusal_at'],
 'a number without a fault': ['modelitems.of_number', 'rowfaults.fault_number', 'modelitems.is_number', 'rowfaults.is_number'],
 'a name among tokens': ['names.variable_of', 'names.place_among'],
 'a walk over constraints': ['checking.check_read', 'translation.write_blocks', 'reasoning.walk', 'filling.write_picks', 'encodings.count_uses', 'modeljudge.first_false'],
 'a walk over rows': ['sheets.put_rows', 'bitchecks.count_bits', 'bitchecks.check_rows', 'bitwriting.fill_line'],
 'a call of a pair': ['pairs.pair_check', 'pairs.pair_translate', 'pairs.pair_judge_model', 'pairs.pair_fill'],
 'the six lists of a model, checked': ['checking.check', 'translation.translate', 'reasoning.reason', 'filling.fill'],
 'a struct for C': ['structs.judgement_of', 'structs.filled_of', 'structs.written_of', 'structs.printed_of', 'structs.listed_of', 'structs.counts_of', 'structs.explanation_of'],
 'a call into a lent list (suite)': ['suite.translate_to', 'suite.solutions_to', 'suite.form_to', 'suite.text_to', 'suite.pair_translate_to', 'suite.sheet_to', 'suite.fill_to', 'suite.pair_fill_to', 'suite.answer_translate', 'suite.answer_fill', 'suite.answer_solutions', 'suite.answer_sheet', 'suite.answer_bits', 'suite.answer_pair_translate', 'suite.answer_pair_fill'],
 'print an answer (suite)': ['suite.print_written', 'suite.print_filled', 'suite.print_printed', 'suite.print_found'],
 'a program: read, call, print': ['rows.rows_page', 'bits.form_page', 'sheet.sheet_page', 'text.text_page'],
 'the lesser or the larger of two': ['integers.least', 'integers.largest', 'bitlines.lesser', 'bitlines.greater', 'solutions.capped_count', 'grammar.capped', 'rowreading.term_count', 'arguments.size_at', 'arguments.exponent_at'],
 'a test that is an operator': ['integers.equal', 'integers.at_most', 'integers.below', 'integers.both', 'integers.either', 'integers.agree'],
 'a fault where a test is true': ['rowfaults.fault_if', 'modelitems.of_payload', 'modelitems.of_lowest', 'modelitems.of_room', 'modelitems.of_order', 'modelitems.of_size'],
 'between two numbers': ['variables.between', 'tokens.is_between', 'words.in_range', 'bitchecks.within_limit', 'bitfilling.among'],
 'a term of a row, read, seen or put': ['rowreading.read_term', 'rowterms.see_cut', 'rowreading.read_product', 'rowterms.see_factors', 'rowreading.upper_at', 'rowitems.see_upper'],
 'two tables of codes': ['modelitems.argument_of', 'grammar.argument_form'],
}
# what a function of TWINS has where it kept its name and is no twin any more: a test that is passed, an Option, the library's method, one read model
NOT_TWINS = {
 'the first place that passes a test': r'<F: Fn|Option<',
 'an element, or a default past the end': r'at_or\(',
 'the six lists of a model, checked': r'ReadModel::of',
 'the lesser or the larger of two': r'\.(?:min|max)\(',
 'a test that is an operator': r'Fits::equal_bits',
 'lay a list over a list': r'<T',
 'lay n terms, or count them': r'words::list',
}
known = {(f['crate'] + '.' + f['name']): f for f in F}
for group, names in TWINS.items():
    for n in names:
        f = known.get(n)
        if f and not (group in NOT_TWINS and re.search(NOT_TWINS[group], f['text'])):
            put('2 ' + group, f)
# a flag that chooses between twins
for f in F:
    if re.search(r'\b(?:up|left|one|equal|sources|table|bounds|second|first): bool\b', f['head']):
        put('2 flag that chooses between two forms', f)

# ---- 3. Loops
for f in F:
    c = f['code']
    loops = len(re.findall(r'^\s*(?:\'\w+: )?(?:while|loop)\b', c, re.M))
    if not loops:
        continue
    if re.search(r'while (?:k|i|d|b|a|v|x|at|constraints) (?:\+ 1 )?< |while (?:4 <= )', c):
        if re.search(r'\[(?:k|i|at)\]', c) and re.search(r'while (?:k|i|at) < (\w+)\.len\(\)', c):
            kind = '3a loop over a list by an index'
        else:
            kind = '3b loop over a count by an index'
    elif re.search(r'while 0 < (?:left|k|n)', c):
        kind = '3c loop that counts down'
    else:
        kind = '3d loop with another measure'
    for _ in range(loops):
        put(kind, f)

# ---- 4. Written by hand
for f in F:
    if f['name'] in ('equal', 'same_bytes', 'agree', 'at_most', 'below', 'in_order', 'is_holds', 'is_missing'):
        put('4a equality, order or a matching test by hand', f)
    if re.search(r'_of$|_at$', f['name']) and f['crate'] == 'structs':
        put('4b conversion by hand', f)
    if f['name'] in ('as_signed', 'wide', 'count_of', 'size_of', 'signed_of', 'payload_of', 'kind_of', 'word_of_bytes', 'complement_of', 'before_rows', 'because', 'told', 'answer', 'counted_on', 'item_of', 'refusal_number', 'reason_of', 'form_at', 'cell_of'):
        put('4b conversion by hand', f)
    if f['name'].startswith('print_') or f['name'] in ('put_bytes', 'hex_digits', 'hex_digit', 'put_decimal', 'put_right', 'put_left', 'put_number', 'put_ahead', 'digit_count', 'put_word_line', 'put_word_lines', 'put_refusal', 'put_too_long'):
        put('4c printing by hand', f)

# ---- 5. Facts in three or more contracts, parameters that travel together
facts = collections.Counter(); where = collections.defaultdict(list)
for f in F:
    req = ' '.join(re.findall(r'requires(?: \w+)? \{(.*)\}', f['head']))
    for part in re.split(r' × ', req):
        p = part.strip().strip('()')
        p = re.sub(r'\b\d+\b', 'N', p)
        if p:
            facts[p] += 1; where[p].append(f)
for p, n in facts.most_common():
    if n >= 3:
        for f in where[p]:
            put('5a fact asked: ' + p, f)
GROUPS = [('ls', 'us'), ('args', 'values'), ('out', 's: Laid'), ('ws', 'heads', 'n'), ('ws', 'heads', 'read', 'ls', 'us', 'uses', 'lows', 'highs'),
          ('filter', 'slots'), ('code', 'k', 'n'), ('text', 'place', 'stop'), ('page', 'at'), ('firsts', 'counts'), ('ls', 'us', 'firsts'),
          ('line', 'row'), ('types', 'v'), ('uses', 'encoded'), ('out', 'at'), ('ws', 'at')]
for g in GROUPS:
    for f in F:
        sig = f['head'].split('->')[0]
        if all(re.search(r'\b%s\b' % re.escape(x) + ('' if ':' in x else ':'), sig) for x in g):
            put('5b parameters together: ' + ', '.join(g), f)
for f in F:
    sig = re.search(r'fn \w+(?:<[^>]*>)?\((.*?)\)(?: ->|\n|$)', f['head'], re.S)
    if sig and sig.group(1).count(':') >= 7:
        put('5c seven parameters or more', f)

# ---- 6. Buffers with a length beside them, parallel arrays, lists searched by hand, arenas of indices
for f in F:
    if re.search(r'\[\w+; (?:256|limit::IN_ALL|limit::BITS|32|BLOCK)\];', f['code']) or re.search(r'&(?:mut )?\[\w+; 256\]', f['head']):
        put('6a array of the most elements with a count beside it', f)
for f in F:
    if re.search(r'types: &(?:mut )?\[u32; 256\],? (?:v|\n)', f['head']) or re.search(r'heads: &(?:mut )?\[usize; 256\]', f['head']):
        put('6a list lent with its length in another parameter', f)
for f in F:
    if re.search(r'\bls: &', f['head']) and re.search(r'\bus: &', f['head']):
        put('6b parallel lists: lower and upper bounds', f)
    if re.search(r'lows: &', f['head']) and re.search(r'highs: &', f['head']):
        put('6b parallel lists: L and U', f)
    if re.search(r'firsts: &', f['head']) and re.search(r'counts: &', f['head']):
        put('6b parallel lists: first bits and counts', f)
    if re.search(r'xs: &\[usize\]', f['head']) and re.search(r'cs: &\[i64\]', f['head']):
        put('6b parallel lists: variables and coefficients', f)

# ---- 7. Switches on which step to run
for f in F:
    if re.search(r'match (?:code|call|class) \{(?!\n\s+\w+::)', f['code']):
        put('7a match over a number that says which step', f)
    if re.search(r'\bclass: u32|\btable: bool|\bbounds: bool', f['head']):
        put('7b flag that says which step', f)

# ---- 8. Proofs: the files of functions (answers, invariants, proofs by hand) and the lemma files, in lines
def proofs():
    total = collections.Counter()
    for folder in sorted(glob.glob('crates/*/proofs')):
        crate = folder.split('/')[1]
        own = [p for p in glob.glob(folder + '/**/*.antt', recursive=True) if os.path.dirname(p) != folder]
        lemmas = glob.glob(folder + '/*.antt')
        n = lambda ps: sum(len(open(p).read().splitlines()) for p in ps)
        functions = len(set(os.path.dirname(p) for p in own))
        row = (functions, len(own), n(own), len(lemmas), n(lemmas))
        for k, v in zip(('functions', 'files', 'lines', 'lemma files', 'lemma lines'), row):
            total[k] += v
        print('%-16s %4d functions %5d lines, %3d lemma files %6d lines' % (crate, row[0], row[2], row[3], row[4]))
    print(dict(total))

# ---- The lines that give a reason
REASON = re.compile(r'no plainer|plainer (?:in|as|by|with)|[Ff]ixed memory|no heap|C interface|for C\b|header for C|rule of the project|01 names|02 prescribes|in 100|slower|took longer|takes longer|'
                    r'did not close|does not cover|takes no |no type|\btried\b|TRIED|twins')

def reasons():
    for path in sorted(glob.glob('crates/*/src/**/*.rt', recursive=True) + glob.glob('crates/*/specs/**/*.antt', recursive=True)):
        mark = '//' if path.endswith('.rt') else '--'
        lines = open(path).read().split('\n')
        i = 0
        while i < len(lines):
            if lines[i].strip().startswith(mark):
                j = i
                while j < len(lines) and lines[j].strip().startswith(mark):
                    j += 1
                text = ' '.join(l.strip()[len(mark):].strip() for l in lines[i:j])
                if REASON.search(text):
                    k = j
                    while k < len(lines) and (not lines[k].strip() or lines[k].strip().startswith(('#', mark))):
                        k += 1
                    line = lines[k] if k < len(lines) else ''
                    name = re.search(r'\b(?:fn|struct|enum|mod|const|record|data|impl(?:<[^>]*>)?) (\w+)', line) or re.search(r'^\s*(?:abbrev |unfoldable )?pub (\S+)', line)
                    at = name.group(1) if name and i > 0 else ''
                    yield path.split('/')[1], path.split('/', 2)[2], at, text
                i = j
            else:
                i += 1

def main():
    args = sys.argv[1:]
    if args and args[0] == '--reasons':
        for crate, file, at, text in reasons():
            print('%s\t%s\t%s\t%s' % (crate, file, at, text))
        return
    if args and args[0] == '--proofs':
        return proofs()
    print('%d functions in %d files of %d crates' % (len(F), len(set((f['crate'], f['file']) for f in F)), len(set(f['crate'] for f in F))))
    if args and args[0] == '--by-crate':
        points = sorted({kind[0] for kind in places})
        by = collections.defaultdict(collections.Counter)
        for kind, ps in places.items():
            for p in ps:
                by[p[0]][kind[0]] += 1
        for crate in sorted(by):
            print('%-16s %s' % (crate, '  '.join('%s: %4d' % (n, by[crate][n]) for n in points)))
        return
    if args:
        for kind, ps in places.items():
            if any(a in kind for a in args):
                for c, file, line, name, note in ps:
                    print('%s  %s/src/%s:%d %s %s' % (kind, c, file, line, name, note))
        return
    for kind, ps in places.items():
        print('%4d  %s' % (len(ps), kind))
main()
