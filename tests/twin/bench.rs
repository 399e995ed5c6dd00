//! Measures the library and the twin on the same models in one run.

use crate::answers::HOLDS;
use crate::back;
use crate::forms;
use crate::inputs::{self, Random};
use crate::library::{self, Lent};
use crate::texts;
use crate::twin;
use std::hint::black_box;
use std::process::exit;

const SIZES: [usize; 3] = [64, 1_024, 8_192];
/// Different models for each size, one after the other, so that all builtins come into the short ones as well.
const MODELS: usize = 32;
const ROUNDS: usize = 101;

/// A C `struct timespec`.
#[repr(C)]
struct Time {
    seconds: i64,
    nanoseconds: i64,
}

extern "C" {
    fn clock_gettime(clock: i32, time: *mut Time) -> i32;
}

/// The processor time of this process in nanoseconds; other work on the machine does not count.
fn now() -> i64 {
    const PROCESSOR_TIME: i32 = 2;
    let mut time = Time { seconds: 0, nanoseconds: 0 };
    if unsafe { clock_gettime(PROCESSOR_TIME, &mut time) } != 0 {
        eprintln!("twin: no clock");
        exit(2);
    }
    time.seconds * 1_000_000_000 + time.nanoseconds
}

/// A model, its bytes, its row system cut to the same number of words, and values that hold of each.
struct Case {
    model: Vec<u32>,
    bytes: Vec<u8>,
    values: Vec<i32>,
    rows: Vec<u32>,
    row_values: Vec<i32>,
}

fn case(random: &mut Random, size: usize) -> Case {
    loop {
        let (model, values) = inputs::sized_model(random, size);
        let counts = twin::check(&model);
        let mut words = vec![0; counts.words];
        let mut all = vec![0; counts.variables + counts.auxiliaries];
        twin::translate(&model, &mut words);
        if model.len() == size && counts.fault == 0 && twin::fill(&model, &values, &mut all).said == HOLDS {
            if let Some((rows, row_values)) = inputs::cut_rows(&words, &all, size) {
                if twin::judge_rows(&rows, &row_values).said == HOLDS {
                    let bytes = model.iter().flat_map(|word| word.to_le_bytes()).collect();
                    return Case { model, bytes, values, rows, row_values };
                }
            }
        }
    }
}

/// Runs both sides in turn over inputs of a size; answers a line with the medians of nanoseconds a word, or a byte, whatever the size counts.
fn measure(name: &str, size: usize, mut library: impl FnMut(usize), mut twin: impl FnMut(usize)) -> String {
    // About a millisecond a side and round for a call of 5 nanoseconds a word.
    let repeats = (200_000 / (size * MODELS)).max(1);
    let time = |call: &mut dyn FnMut(usize)| {
        let start = now();
        for _ in 0..repeats {
            (0..MODELS).for_each(&mut *call);
        }
        (now() - start) as f64 / (repeats * MODELS * size) as f64
    };
    let (mut ours, mut theirs) = (vec![], vec![]);
    for round in 0..ROUNDS {
        if round % 2 == 0 {
            ours.push(time(&mut library));
            theirs.push(time(&mut twin));
        } else {
            theirs.push(time(&mut twin));
            ours.push(time(&mut library));
        }
    }
    let ratios: Vec<f64> = ours.iter().zip(&theirs).map(|(one, other)| one / other).collect();
    format!("| {name} | {size} | {:.2} | {:.2} | {:.2} |", median(ours), median(theirs), median(ratios))
}

fn median(mut numbers: Vec<f64>) -> f64 {
    numbers.sort_by(f64::total_cmp);
    numbers[numbers.len() / 2]
}

/// The values with the last one out of its bounds, whatever these are.
fn last_out_of_bounds(values: &[i32]) -> Vec<i32> {
    let mut values = values.to_vec();
    *values.last_mut().expect("a case has variables") = i32::MAX;
    values
}

/// The lines of one size.
fn lines(size: usize) -> Vec<String> {
    let mut random = Random::new(7, size as u64);
    let cases: Vec<Case> = (0..MODELS).map(|_| case(&mut random, size)).collect();
    let each = |list: fn(&Case) -> Vec<i32>| cases.iter().map(list).collect::<Vec<_>>();
    let mut out = vec![0u32; twin::ROW_WORDS];
    let mut out_values = vec![0i32; twin::ALL_VARIABLES];
    let (mut other_out, mut other_out_values) = (out.clone(), out_values.clone());
    let mut bytes: Vec<Vec<u8>> = cases.iter().map(|case| case.bytes.clone()).collect();
    let mut models: Vec<Vec<u32>> = cases.iter().map(|case| case.model.clone()).collect();
    let mut rows: Vec<Vec<u32>> = cases.iter().map(|case| case.rows.clone()).collect();
    let (mut values, mut row_values) = (each(|case| case.values.clone()), each(|case| case.row_values.clone()));
    let (wrong, wrong_rows) = (each(|case| last_out_of_bounds(&case.values)), each(|case| last_out_of_bounds(&case.row_values)));
    let (mut lent, mut lent_rows) = (wrong.clone(), wrong_rows.clone());
    vec![
        measure(
            "check",
            size,
            |at| _ = black_box(library::check(Lent::new(&mut models[at]))),
            |at| _ = black_box(twin::check(black_box(&cases[at].model))),
        ),
        measure(
            "check over bytes",
            size,
            |at| _ = black_box(library::check_bytes(Lent::new(&mut bytes[at]))),
            |at| _ = black_box(twin::check_bytes(black_box(&cases[at].bytes))),
        ),
        measure(
            "translate",
            size,
            |at| _ = black_box(library::translate(Lent::new(&mut models[at]), Lent::new(&mut out))),
            |at| _ = black_box(twin::translate(black_box(&cases[at].model), &mut other_out)),
        ),
        measure(
            "judge-model",
            size,
            |at| _ = black_box(library::judge_model(Lent::new(&mut models[at]), Lent::new(&mut values[at]))),
            |at| _ = black_box(twin::judge_model(black_box(&cases[at].model), &cases[at].values)),
        ),
        measure(
            "judge-model, the last value out of bounds",
            size,
            |at| _ = black_box(library::judge_model(Lent::new(&mut models[at]), Lent::new(&mut lent[at]))),
            |at| _ = black_box(twin::judge_model(black_box(&cases[at].model), &wrong[at])),
        ),
        measure(
            "judge-rows",
            size,
            |at| _ = black_box(library::judge_rows(Lent::new(&mut rows[at]), Lent::new(&mut row_values[at]))),
            |at| _ = black_box(twin::judge_rows(black_box(&cases[at].rows), &cases[at].row_values)),
        ),
        measure(
            "judge-rows, the last value out of bounds",
            size,
            |at| _ = black_box(library::judge_rows(Lent::new(&mut rows[at]), Lent::new(&mut lent_rows[at]))),
            |at| _ = black_box(twin::judge_rows(black_box(&cases[at].rows), &wrong_rows[at])),
        ),
        measure(
            "fill",
            size,
            |at| _ = black_box(library::fill(Lent::new(&mut models[at]), Lent::new(&mut values[at]), Lent::new(&mut out_values))),
            |at| _ = black_box(twin::fill(black_box(&cases[at].model), &cases[at].values, &mut other_out_values)),
        ),
    ]
}

/// The line of text over plain texts of models of so many words.
fn text_line(size: usize) -> String {
    let mut random = Random::new(7, size as u64);
    let mut texts: Vec<Vec<u8>> = (0..MODELS).map(|_| texts::plain(&case(&mut random, size).model)).collect();
    let others = texts.clone();
    let mut out = vec![0u32; twin::MODEL_WORDS];
    let mut other_out = out.clone();
    let bytes = texts.iter().map(Vec::len).sum::<usize>() / MODELS;
    measure(
        &format!("text of {size} words"),
        bytes,
        |at| _ = black_box(library::text(Lent::new(&mut texts[at]), Lent::new(&mut out))),
        |at| _ = black_box(twin::text(black_box(&others[at]), &mut other_out)),
    )
}

/// The line of one call over a megabyte of declarations, whose last name is declared twice.
fn declarations_line() -> String {
    let mut text = vec![];
    let mut names = 0;
    while text.len() < 1_000_000 {
        text.extend(format!("var 0..1: x{names};\n").into_bytes());
        names += 1;
    }
    text.extend(format!("var bool: x{};\nsolve satisfy;\n", names - 1).into_bytes());
    let size = text.len() as f64;
    let start = now();
    let twin = black_box(twin::text(black_box(&text), &mut []));
    let middle = now();
    let library = black_box(library::text(Lent::new(&mut text), Lent::new(&mut [])));
    let end = now();
    assert_eq!(library, twin);
    let (ours, theirs) = ((end - middle) as f64 / size, (middle - start) as f64 / size);
    format!("| text of {names} declarations, once | {size} | {ours:.2} | {theirs:.2} | {:.2} |", ours / theirs)
}

/// A row system with a form, values that satisfy it and their bits.
struct Solved {
    words: Vec<u32>,
    values: Vec<i32>,
    bits: Vec<u8>,
}

/// None where the row system has no form, or the values do not satisfy it.
fn solved(words: Vec<u32>, values: Vec<i32>) -> Option<Solved> {
    let mut bits = vec![0; back::bit_count(&words)?];
    let holds = back::value_bits(&words, &values, &mut bits).said == HOLDS && twin::form_words(&words).is_ok();
    holds.then_some(Solved { words, values, bits })
}

/// What translate writes for a model of 64 words, and what fill does.
fn of_model(random: &mut Random) -> Option<Solved> {
    let case = case(random, SIZES[0]);
    let counts = twin::check(&case.model);
    let (mut words, mut values) = (vec![0; counts.words], vec![0; counts.variables + counts.auxiliaries]);
    twin::translate(&case.model, &mut words);
    twin::fill(&case.model, &case.values, &mut values);
    solved(words, values)
}

/// The longest row system of 1,024 bits, of which zeros are a solution.
fn longest(random: &mut Random) -> Option<Solved> {
    let words = forms::largest(random);
    let values = vec![0; inputs::declared(&words).len()];
    solved(words, values)
}

/// The lines of bits and of the way back over row systems of one sort, each measured a few times on both sides in turn: microseconds a call, and the
/// library's nanoseconds a row word and a bit.
fn form_lines(name: &str, count: usize, rounds: usize, build: fn(&mut Random) -> Option<Solved>) {
    let mut random = Random::new(7, 0);
    let systems: Vec<Solved> = std::iter::repeat_with(|| build(&mut random)).flatten().take(count).collect();
    let total = |size: fn(&Solved) -> usize| systems.iter().map(size).sum::<usize>() as f64 / count as f64;
    let (words, bits) = (total(|system| system.words.len()), total(|system| system.bits.len()));
    let mut lent: Vec<Solved> = systems.iter().map(|it| Solved { words: it.words.clone(), values: it.values.clone(), bits: it.bits.clone() }).collect();
    let line = |call: &str, library: &mut dyn FnMut(usize), twin: &mut dyn FnMut(usize)| {
        let (mut ours, mut theirs) = (vec![], vec![]);
        for _ in 0..rounds {
            let start = now();
            (0..count).for_each(&mut *library);
            let middle = now();
            (0..count).for_each(&mut *twin);
            ours.push((middle - start) as f64 / 1_000.0 / count as f64);
            theirs.push((now() - middle) as f64 / 1_000.0 / count as f64);
        }
        let (ours, theirs) = (median(ours), median(theirs));
        let (a_word, a_bit) = (1_000.0 * ours / words, 1_000.0 * ours / bits);
        println!("| {call}, {name} | {words:.0} | {bits:.0} | {ours:.2} | {theirs:.2} | {:.2} | {a_word:.2} | {a_bit:.1} |", ours / theirs);
    };
    let mut out = vec![0u32; 3 * twin::BITS * (twin::BITS + 1) / 2 + 2];
    let mut other_out = out.clone();
    let (mut values, mut bytes) = (vec![0i32; twin::ALL_VARIABLES], vec![0u8; twin::BITS]);
    let (mut other_values, mut other_bytes) = (values.clone(), bytes.clone());
    line(
        "bits",
        &mut |at| _ = black_box(library::bits(Lent::new(&mut lent[at].words), Lent::new(&mut out))),
        &mut |at| _ = black_box(twin::bits(black_box(&systems[at].words), &mut other_out)),
    );
    line(
        "best_bits",
        &mut |at| _ = black_box(library::best_bits(Lent::new(&mut lent[at].words), 0, 0, Lent::new(&mut out))),
        &mut |at| _ = black_box(back::best_bits(black_box(&systems[at].words), 0, 0, &mut other_out)),
    );
    line(
        "bit_values",
        &mut |at| _ = black_box(library::bit_values(Lent::new(&mut lent[at].words), Lent::new(&mut systems[at].bits.clone()), Lent::new(&mut values))),
        &mut |at| _ = black_box(back::bit_values(black_box(&systems[at].words), &systems[at].bits.clone(), &mut other_values)),
    );
    line(
        "bit_energy",
        &mut |at| _ = black_box(library::bit_energy(Lent::new(&mut lent[at].words), Lent::new(&mut systems[at].bits.clone()))),
        &mut |at| _ = black_box(back::bit_energy(black_box(&systems[at].words), &systems[at].bits.clone())),
    );
    line(
        "value_bits",
        &mut |at| _ = black_box(library::value_bits(Lent::new(&mut lent[at].words), Lent::new(&mut systems[at].values.clone()), Lent::new(&mut bytes))),
        &mut |at| _ = black_box(back::value_bits(black_box(&systems[at].words), &systems[at].values.clone(), &mut other_bytes)),
    );
}

/// The line of bits over row systems of one sort, each measured a few times on both sides in turn: microseconds a call.
fn bits_line(name: &str, count: usize, rounds: usize, build: fn(&mut Random) -> Vec<u32>) -> String {
    let mut random = Random::new(7, 0);
    let mut systems: Vec<Vec<u32>> = (0..).map(|_| build(&mut random)).filter(|system| twin::form_words(system).is_ok()).take(count).collect();
    let words = systems.iter().map(Vec::len).sum::<usize>() / count;
    let mut out = vec![0u32; 3 * twin::BITS * (twin::BITS + 1) / 2 + 2];
    let mut other_out = out.clone();
    let (mut ours, mut theirs) = (vec![], vec![]);
    for _ in 0..rounds {
        let start = now();
        systems.iter_mut().for_each(|system| _ = black_box(library::bits(Lent::new(system), Lent::new(&mut out))));
        let middle = now();
        systems.iter().for_each(|system| _ = black_box(twin::bits(black_box(system), &mut other_out)));
        ours.push((middle - start) as f64 / 1_000.0 / count as f64);
        theirs.push((now() - middle) as f64 / 1_000.0 / count as f64);
    }
    let (ours, theirs) = (median(ours), median(theirs));
    format!("| {name} | {words} | {ours:.2} | {theirs:.2} | {:.2} |", ours / theirs)
}

pub fn run() {
    println!("processor time, medians of {ROUNDS} rounds over {MODELS} models of each size, both sides in turn");
    println!("| Call | Words | Library, ns a word | Twin, ns a word | Ratio |");
    println!("|---|---|---|---|---|");
    let sizes = SIZES.map(lines);
    for call in 0..sizes[0].len() {
        sizes.iter().for_each(|lines| println!("{}", lines[call]));
    }
    println!();
    println!("| Call | Bytes | Library, ns a byte | Twin, ns a byte | Ratio |");
    println!("|---|---|---|---|---|");
    SIZES.map(text_line).iter().for_each(|line| println!("{line}"));
    println!("{}", declarations_line());
    println!();
    println!("| Call | Words | Library, µs a call | Twin, µs a call | Ratio |");
    println!("|---|---|---|---|---|");
    println!("{}", bits_line("bits of small row systems", 1_000, 11, forms::small));
    println!("{}", bits_line("bits, 1,024 of them, few rows", 10, 3, forms::of_all_bits));
    println!("{}", bits_line("bits, 1,024 of them, 1,954 rows of 66 terms", 1, 1, forms::largest));
    println!("{}", bits_line("bits, 1,008 of them, 1,955 rows of 66 terms with coefficient 0", 1, 1, forms::of_zeros));
    println!();
    println!("| Call | Row words | Bits | Library, µs a call | Twin, µs a call | Ratio | Library, ns a row word | and ns a bit |");
    println!("|---|---|---|---|---|---|---|---|");
    form_lines("models of 64 words", 200, 11, of_model);
    form_lines("1,954 rows of 66 terms", 1, 3, longest);
}
