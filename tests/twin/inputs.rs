//! Random, damaged and limit inputs. Every input follows from a seed and an index.

use crate::answers::HOLDS;
use crate::forms;
use crate::texts;
use crate::twin::{self, kind, payload, signed, word};
use crate::twin::{
    ALL_VARIABLES, AT_MOST, AUX_LOWER, AUX_UPPER, BETWEEN, BOOLEAN, CODES, CONSTRAINT, EQUAL, EXPONENT, LARGEST, LEAST, LIST_LENGTH, LOWER,
    MODEL_CONSTRAINTS, MODEL_END, MODEL_VARIABLES, MODEL_WORDS, NUMBER, PRODUCT, ROWS_END, ROW_TERMS, ROW_WORDS, UPPER, VARIABLE,
};

/// A xorshift generator.
pub struct Random(u64);

impl Random {
    /// The generator of one input.
    pub fn new(seed: u64, index: u64) -> Random {
        // Two rounds of mixing (splitmix64), so that neighbouring seeds and indices share nothing; a state of 0 would stay 0.
        let mut state = seed.wrapping_mul(0x9E37_79B9_7F4A_7C15).wrapping_add(index);
        for _ in 0..2 {
            state = state.wrapping_add(0x9E37_79B9_7F4A_7C15);
            state = (state ^ state >> 30).wrapping_mul(0xBF58_476D_1CE4_E5B9);
            state = (state ^ state >> 27).wrapping_mul(0x94D0_49BB_1331_11EB);
            state ^= state >> 31;
        }
        Random(state | 1)
    }

    pub fn next(&mut self) -> u64 {
        self.0 ^= self.0 >> 12;
        self.0 ^= self.0 << 25;
        self.0 ^= self.0 >> 27;
        self.0.wrapping_mul(0x2545_F491_4F6C_DD1D) >> 8
    }

    /// A number below `count`, which is not 0.
    pub fn below(&mut self, count: usize) -> usize {
        (self.next() % count as u64) as usize
    }

    pub fn between(&mut self, least: i64, largest: i64) -> i64 {
        least + (self.next() % (largest - least + 1) as u64) as i64
    }

    pub fn one_in(&mut self, count: usize) -> bool {
        self.below(count) == 0
    }

    pub fn pick<T: Copy>(&mut self, list: &[T]) -> T {
        list[self.below(list.len())]
    }

    fn shuffle<T>(&mut self, list: &mut [T]) {
        for at in (1..list.len()).rev() {
            list.swap(at, self.below(at + 1));
        }
    }
}

/// What words are made as.
#[derive(Clone, Copy, PartialEq)]
pub enum Form {
    Model,
    Rows,
    Pair,
    Text,
}

/// Words, a model's, a row system's or a pair's, and values made for them (damage may come between); or a text, each byte as a word.
pub struct Input {
    pub family: &'static str,
    pub form: Form,
    pub words: Vec<u32>,
    pub values: Vec<i32>,
}

/// The input of a seed and an index.
pub fn input(random: &mut Random) -> Input {
    let (family, form, (words, values)) = match random.below(1_000) {
        0..=119 => ("model", Form::Model, small_model(random)),
        120..=144 => ("text", Form::Text, text(random)),
        145..=194 => ("damaged text", Form::Text, damaged_text(random)),
        195..=214 => ("damaged text of a sum", Form::Text, damaged_sum(random)),
        215..=228 => ("random tokens as text", Form::Text, as_words(texts::random_text(random))),
        229 => ("text near 8,192 words", Form::Text, text_near_model_words(random)),
        230..=259 => ("pair", Form::Pair, pair(random)),
        260..=269 => ("damaged pair", Form::Pair, damaged(random, pair)),
        270..=299 => ("model with few value lists", Form::Model, listed_model(random)),
        300..=349 => ("model with shared encodings", Form::Model, shared_model(random)),
        350..=409 => ("model near the range", Form::Model, range_model(random)),
        410..=469 => ("model at the edge of the range", Form::Model, edge_model(random)),
        470..=479 => ("model near 256 variables", Form::Model, many_variables(random)),
        480..=484 => ("model near 256 constraints", Form::Model, many_constraints(random)),
        485..=495 => ("model near 4,096 auxiliaries", Form::Model, many_auxiliaries(random)),
        496..=499 => ("model near 8,192 words", Form::Model, near_model_words(random)),
        500..=679 => ("damaged model", Form::Model, damaged(random, small_model)),
        680..=699 => ("damaged model with shared encodings", Form::Model, damaged(random, shared_model)),
        700..=719 => ("damaged model near the range", Form::Model, damaged(random, range_model)),
        720..=724 => ("damaged model near a limit", Form::Model, damaged(random, limit_model)),
        725..=769 => ("random words", Form::Model, random_words(random)),
        770..=824 => ("rows", Form::Rows, small_rows(random)),
        825..=844 => ("rows for bits", Form::Rows, with_values(random, forms::small)),
        845..=856 => ("rows at a limit of bits", Form::Rows, with_values(random, forms::near_limits)),
        857..=858 => ("damaged rows for bits", Form::Rows, damaged(random, |random| with_values(random, forms::small))),
        859 => ("rows near 1,024 bits", Form::Rows, with_values(random, forms::near_bits)),
        860..=864 => ("rows near 66 terms", Form::Rows, many_terms(random)),
        865..=868 => ("rows near 4,096 variables", Form::Rows, many_row_variables(random)),
        869 => ("rows near 262,144 words", Form::Rows, near_row_words(random)),
        870..=935 => ("damaged rows", Form::Rows, damaged(random, small_rows)),
        936..=939 => ("damaged rows near a limit", Form::Rows, damaged(random, limit_rows)),
        940..=979 => ("damaged rows of a model", Form::Rows, damaged(random, model_rows)),
        _ => ("random words as rows", Form::Rows, random_words(random)),
    };
    Input { family, form, words, values }
}

type Pair = (Vec<u32>, Vec<i32>);

// --------------------------------------------------------------------------------------------------------------------------------- numbers

const HALF: i64 = 1 << 26;

/// Numbers whose differences and doubles lie at the ends of the range.
const ENDS: [i64; 20] = [
    LEAST,
    LEAST + 1,
    LEAST + 2,
    -HALF - 1,
    -HALF,
    -HALF + 1,
    -2,
    -1,
    0,
    1,
    2,
    HALF - 1,
    HALF,
    HALF + 1,
    LARGEST - 2,
    LARGEST - 1,
    LARGEST,
    0,
    -1,
    1,
];

/// Numbers whose products lie at the ends of the range.
const FACTORS: [i64; 14] = [-16_384, -16_383, -11_586, -11_585, -8_193, -8_192, -1, 0, 1, 8_191, 8_192, 11_585, 11_586, 16_384];

/// Numbers whose powers lie at the ends of the range, or are 0 where all but the low 32, 64 or 128 bits are lost.
const BASES: [i64; 26] =
    [-65_536, -11_586, -11_585, -512, -511, -108, -43, -8, -7, -3, -2, -1, 0, 1, 2, 3, 4, 5, 7, 8, 107, 511, 512, 11_585, 65_536, HALF];

/// How the bounds of an integer variable are chosen.
#[derive(Clone, Copy)]
enum Bounds {
    Tiny,
    Index,
    Bit,
    Medium,
    Width64,
    Factors,
    Bases,
    Ends,
    Full,
}

const SMALL_BOUNDS: [Bounds; 6] = [Bounds::Tiny, Bounds::Tiny, Bounds::Index, Bounds::Index, Bounds::Bit, Bounds::Medium];
const WIDE_BOUNDS: [Bounds; 6] = [Bounds::Factors, Bounds::Bases, Bounds::Ends, Bounds::Ends, Bounds::Full, Bounds::Width64];

impl Bounds {
    fn choose(self, random: &mut Random) -> (i64, i64) {
        let (one, other) = match self {
            Bounds::Tiny => (random.between(-3, 3), random.between(-3, 3)),
            Bounds::Index => {
                let lower = random.between(-2, 4);
                (lower, lower + random.between(0, 8))
            }
            Bounds::Bit => (0, 1),
            Bounds::Medium => {
                let lower = random.between(-2_000, 2_000);
                (lower, lower + random.between(0, 100))
            }
            Bounds::Width64 => {
                let lower = random.pick(&[LEAST, -64, -1, 0, 1, 1_000_000, LARGEST - 64]);
                (lower, lower + random.between(62, 64))
            }
            Bounds::Factors => (random.pick(&FACTORS), random.pick(&FACTORS)),
            Bounds::Bases => (random.pick(&BASES), random.pick(&BASES)),
            Bounds::Ends => (random.pick(&ENDS), random.pick(&ENDS)),
            Bounds::Full => (random.between(LEAST, LARGEST), random.between(LEAST, LARGEST)),
        };
        (one.min(other), one.max(other))
    }
}

/// A number of an argument or a row: small mostly.
fn any_number(random: &mut Random) -> i64 {
    match random.below(16) {
        0 => random.pick(&ENDS),
        1 => random.pick(&FACTORS),
        2 => random.between(LEAST, LARGEST),
        _ => random.between(-5, 5),
    }
}

fn in_range(number: i64) -> bool {
    (LEAST..=LARGEST).contains(&number)
}

// ---------------------------------------------------------------------------------------------------------------------------------- models

/// Builds a model around values that its constraints are to be true of.
struct Builder<'a> {
    random: &'a mut Random,
    variables: Vec<u32>,
    bounds: Vec<(i64, i64)>,
    values: Vec<i32>,
    integers: Vec<usize>,
    booleans: Vec<usize>,
    constraints: Vec<Vec<u32>>,
    /// The variables that are i of 24, 25 or x of 27, 28 so far.
    encoded: Vec<usize>,
    /// Whether Σ as×bs − c is led to the ends of the range.
    near_range: bool,
    /// Whether all numbers are small, so that check accepts every constraint.
    modest: bool,
}

impl Builder<'_> {
    fn new(random: &mut Random) -> Builder<'_> {
        Builder {
            random,
            variables: vec![],
            bounds: vec![],
            values: vec![],
            integers: vec![],
            booleans: vec![],
            constraints: vec![],
            encoded: vec![],
            near_range: false,
            modest: false,
        }
    }

    fn declare_integer(&mut self, lower: i64, upper: i64, value: i64) {
        self.variables.extend([word(LOWER, lower), word(UPPER, upper)]);
        self.integers.push(self.bounds.len());
        self.bounds.push((lower, upper));
        self.values.push(value as i32);
    }

    fn integer(&mut self, bounds: Bounds) {
        let (lower, upper) = bounds.choose(self.random);
        let value = match self.random.below(4) {
            0 => lower,
            1 => upper,
            _ => self.random.between(lower, upper),
        };
        self.declare_integer(lower, upper, value);
    }

    /// An integer variable whose value is the sum, product, absolute value, a power or the maximum of earlier ones, or that of one of them.
    fn derived_integer(&mut self) {
        let [one, other] = [0; 2].map(|_| i64::from(self.values[self.random.pick(&self.integers)]));
        let value = match self.random.below(7) {
            0 => one + other,
            1 => one * other,
            2 => one.abs(),
            3 => one.checked_pow(exponent(self.random) as u32).unwrap_or(0),
            4 => one.max(other),
            _ => one,
        };
        if in_range(value) {
            let (below, above) = match self.random.below(4) {
                0 => (0, 0),
                1 if !self.modest => (LARGEST, LARGEST),
                _ => (self.random.between(0, 3), self.random.between(0, 3)),
            };
            self.declare_integer((value - below).max(LEAST), (value + above).min(LARGEST), value);
        }
    }

    fn boolean(&mut self) {
        self.variables.push(word(BOOLEAN, 0));
        self.booleans.push(self.bounds.len());
        self.bounds.push((0, 1));
        self.values.push(self.random.below(2) as i32);
    }

    /// Variables of both types, in any order.
    fn some_variables(&mut self, integers: usize, booleans: usize, bounds: &[Bounds]) {
        let main = self.random.pick(bounds);
        let (mut integers, mut booleans) = (integers, booleans);
        while integers + booleans > 0 {
            if self.random.below(integers + booleans) < integers {
                integers -= 1;
                if !self.integers.is_empty() && self.random.one_in(3) {
                    self.derived_integer();
                } else {
                    let chosen = if self.random.one_in(3) { self.random.pick(bounds) } else { main };
                    self.integer(chosen);
                }
            } else {
                booleans -= 1;
                self.boolean();
            }
        }
    }

    fn value(&self, variable: usize) -> i64 {
        i64::from(self.values[variable])
    }

    fn number(&mut self) -> i64 {
        if self.modest {
            self.random.between(-5, 5)
        } else {
            any_number(self.random)
        }
    }

    /// A list length: short mostly.
    fn length(&mut self) -> usize {
        match self.random.below(16) {
            0 => 0,
            1 => LIST_LENGTH as usize,
            2 => self.random.below(LIST_LENGTH as usize + 1),
            _ => 1 + self.random.below(4),
        }
    }

    /// A variable to be encoded: often one that is already.
    fn encoded(&mut self) -> usize {
        let from = if self.encoded.is_empty() || self.random.one_in(2) { &self.integers } else { &self.encoded };
        let variable = self.random.pick(from);
        self.encoded.push(variable);
        variable
    }

    fn list(&mut self, from: &[usize], length: usize) -> Vec<usize> {
        let length = if from.is_empty() { 0 } else { length };
        (0..length).map(|_| self.random.pick(from)).collect()
    }

    /// The words of a constraint, or none where a variable of some type is missing. `aimed`: its numbers are chosen to make it true.
    fn constraint(&mut self, code: u32, length: usize, aimed: bool) -> Option<Vec<u32>> {
        let (integers, booleans) = (self.integers.clone(), self.booleans.clone());
        let wants_integer = matches!(code, 1..=9 | 14 | 16 | 24..=31 | 33 | 37..=39);
        let wants_boolean = matches!(code, 5 | 13..=20 | 22 | 28 | 30..=32 | 34..=36);
        if wants_integer && integers.is_empty() || wants_boolean && booleans.is_empty() {
            return None;
        }
        let mut words = vec![word(CONSTRAINT, i64::from(code))];
        let (int, bool) = (|random: &mut Random| random.pick(&integers), |random: &mut Random| random.pick(&booleans));
        match code {
            1..=4 | 8 => push_variables(&mut words, &[int(self.random), int(self.random)]),
            5 | 14 | 30 | 31 => push_variables(&mut words, &[int(self.random), int(self.random), bool(self.random)]),
            6 | 7 | 9 | 29 => push_variables(&mut words, &[int(self.random), int(self.random), int(self.random)]),
            37 | 38 => self.division(code, aimed, &mut words),
            39 => self.power(aimed, &mut words),
            10..=13 | 15 | 32 => self.linear(code, length, aimed, &mut words),
            16 => push_variables(&mut words, &[bool(self.random), int(self.random)]),
            17 => push_variables(&mut words, &[bool(self.random), bool(self.random)]),
            18..=20 | 34..=36 => push_variables(&mut words, &[bool(self.random), bool(self.random), bool(self.random)]),
            21 => {
                let second_length = if self.random.one_in(2) { length } else { self.length() };
                for length in [length, second_length] {
                    let list = self.list(&booleans, length);
                    push_list(&mut words, &list);
                }
            }
            22 => {
                let r = bool(self.random);
                let ones: Vec<usize> = booleans.iter().copied().filter(|&variable| self.values[variable] == 1).collect();
                let list = self.list(if aimed && self.values[r] == 1 { &ones } else { &booleans }, length);
                push_list(&mut words, &list);
                push_variables(&mut words, &[r]);
            }
            23 => {
                let mut list = self.list(&booleans, length);
                let ones = list.iter().filter(|&&variable| self.values[variable] == 1).count();
                if aimed && ones % 2 == 0 && !list.is_empty() {
                    let at = self.random.below(list.len());
                    let value = self.values[list[at]];
                    let others: Vec<usize> = booleans.iter().copied().filter(|&variable| self.values[variable] != value).collect();
                    if !others.is_empty() {
                        list[at] = self.random.pick(&others);
                    }
                }
                push_list(&mut words, &list);
            }
            24 => {
                let (i, c) = (self.encoded(), int(self.random));
                let mut numbers: Vec<i64> = (0..length).map(|_| self.number()).collect();
                let index = self.value(i);
                if aimed && (1..=length as i64).contains(&index) {
                    numbers[index as usize - 1] = self.value(c);
                }
                push_variables(&mut words, &[i]);
                push_numbers(&mut words, &numbers);
                push_variables(&mut words, &[c]);
            }
            25 => {
                let (i, c) = (self.encoded(), int(self.random));
                let mut list = self.list(&integers, length);
                let index = self.value(i);
                if aimed && self.random.one_in(2) && (1..=length as i64).contains(&index) {
                    list[index as usize - 1] = c;
                }
                push_variables(&mut words, &[i]);
                push_list(&mut words, &list);
                push_variables(&mut words, &[c]);
            }
            26 | 33 => {
                let mut list = self.list(&integers, length);
                let sign = if code == 26 { 1 } else { -1 };
                let extreme = list.iter().copied().max_by_key(|&variable| sign * self.value(variable));
                let m = match extreme {
                    Some(extreme) if aimed && self.random.one_in(2) => extreme,
                    _ => int(self.random),
                };
                if aimed && length > 0 && self.random.one_in(2) {
                    let at = self.random.below(length);
                    list[at] = m;
                }
                push_variables(&mut words, &[m]);
                push_list(&mut words, &list);
            }
            _ => {
                let x = self.encoded();
                let (lower, upper) = self.bounds[x];
                let mut numbers: Vec<i64> = (0..length).map(|_| self.number()).collect();
                for number in &mut numbers {
                    match self.random.below(6) {
                        0..=2 => *number = self.random.between(lower, upper),
                        3 => *number = self.random.pick(&[lower, upper, (lower - 1).max(LEAST), (upper + 1).min(LARGEST)]),
                        _ => (),
                    }
                }
                if length > 0 && self.random.one_in(2) {
                    let (from, to) = (self.random.below(length), self.random.below(length));
                    numbers[to] = numbers[from];
                }
                if aimed && length > 0 && self.random.one_in(2) {
                    let at = self.random.below(length);
                    numbers[at] = self.value(x);
                }
                push_variables(&mut words, &[x]);
                push_numbers(&mut words, &numbers);
                if code == 28 {
                    push_variables(&mut words, &[bool(self.random)]);
                }
            }
        }
        Some(words)
    }

    /// The arguments of int_div and int_mod. `aimed`: some of the variables that make it true, where there are any.
    fn division(&mut self, code: u32, aimed: bool, words: &mut Vec<u32>) {
        let integers = self.integers.clone();
        let mut chosen = [0; 3];
        for _ in 0..if aimed { 40 } else { 1 } {
            chosen = [(); 3].map(|()| self.random.pick(&integers));
            let [n, d, c] = chosen.map(|variable| self.value(variable));
            if d != 0 && c == if code == 37 { n / d } else { n % d } {
                break;
            }
        }
        push_variables(words, &chosen);
    }

    /// The arguments of int_pow. `aimed`: some that make it true, where there are any; else at times the largest base, whose power is 0 where its
    /// high bits are lost, with the result next to 0, or an exponent outside its limits.
    fn power(&mut self, aimed: bool, words: &mut Vec<u32>) {
        let integers = self.integers.clone();
        let (mut x, mut z, mut k) = (0, 0, 0);
        for _ in 0..if aimed { 40 } else { 1 } {
            (x, z, k) = (self.random.pick(&integers), self.random.pick(&integers), exponent(self.random));
            let (lower, upper) = self.bounds[x];
            while self.modest && (lower.abs().max(upper.abs())).checked_pow(k as u32).is_none_or(|power| power > LARGEST) {
                k /= 2;
            }
            if self.value(x).checked_pow(k as u32) == Some(self.value(z)) {
                break;
            }
        }
        if !aimed && !self.modest && self.random.one_in(4) {
            let size = |&variable: &usize| self.value(variable).abs();
            x = integers.iter().copied().max_by_key(size).unwrap_or(x);
            z = integers.iter().copied().min_by_key(size).unwrap_or(z);
        }
        if !aimed && !self.modest && self.random.one_in(16) {
            k = self.random.pick(&[-1, -2, 28, 29, 32, 64, LEAST, LARGEST]);
        }
        push_variables(words, &[x]);
        words.push(word(NUMBER, k));
        push_variables(words, &[z]);
    }

    /// The arguments of int_lin_eq, le, ne, eq_reif, le_reif and ne_reif.
    fn linear(&mut self, code: u32, length: usize, aimed: bool, words: &mut Vec<u32>) {
        let integers = self.integers.clone();
        let list = self.list(&integers, length);
        let small = self.random.below(4) > 0;
        let numbers: Vec<i64> = list.iter().map(|_| if small { self.random.between(-3, 3) } else { self.number() }).collect();
        let r = if self.booleans.is_empty() { None } else { Some(self.random.pick(&self.booleans)) };
        let sum: i64 = numbers.iter().zip(&list).map(|(number, &variable)| number * self.value(variable)).sum();
        let mut constant = self.number();
        if aimed {
            let one = r.is_some_and(|r| self.value(r) == 1);
            let apart = self.random.between(1, 3);
            constant = match code {
                10 => sum,
                11 => sum + apart - 1,
                12 => sum + self.random.pick(&[apart, -apart]),
                13 if one => sum,
                32 if !one => sum,
                13 | 32 => sum + self.random.pick(&[apart, -apart]),
                _ if one => sum + apart - 1,
                _ => sum - apart,
            };
        }
        if self.near_range && self.random.one_in(2) {
            let ends = numbers.iter().zip(&list).map(|(number, &variable)| (number * self.bounds[variable].0, number * self.bounds[variable].1));
            let (least, largest) = ends.fold((0, 0), |(least, largest), (one, other)| (least + one.min(other), largest + one.max(other)));
            let end = self.random.pick(&[least, largest]);
            constant = end - self.random.pick(&[LEAST, LARGEST, LEAST - 1, LARGEST, LARGEST + 1]) - self.random.between(-2, 2);
        }
        constant = constant.clamp(LEAST, LARGEST);
        words.push(word(NUMBER, length.min(list.len()) as i64));
        words.extend(numbers.iter().map(|&number| word(NUMBER, number)));
        push_variables(words, &list);
        words.push(word(NUMBER, constant));
        if let (13 | 15 | 32, Some(r)) = (code, r) {
            push_variables(words, &[r]);
        }
    }

    /// The model of one constraint.
    fn alone(&self, constraint: &[u32]) -> Vec<u32> {
        [&self.variables, constraint, &[word(MODEL_END, 0)]].concat()
    }

    /// Whether a constraint is true of the values.
    fn is_true(&self, constraint: &[u32]) -> bool {
        twin::judge_model(&self.alone(constraint), &self.values).said == HOLDS
    }

    /// How many variables and auxiliaries there are with the constraints that are accepted by themselves, the last one only where it is accepted
    /// with the others; `otherwise` where these are refused.
    fn all_variables(&mut self, accepted: &mut Vec<Vec<u32>>, otherwise: usize) -> usize {
        let Some(last) = self.constraints.last() else { return self.bounds.len() };
        if twin::check(&self.alone(last)).fault > 0 {
            return otherwise;
        }
        accepted.push(last.clone());
        let counts = twin::check(&self.alone(&accepted.concat()));
        if counts.fault > 0 {
            accepted.pop();
            return if counts.fault == 14 { ALL_VARIABLES + 1 } else { otherwise };
        }
        counts.variables + counts.auxiliaries
    }

    /// Adds a constraint of a code; where a true one is wanted, several are tried. Answers whether one was added.
    fn add(&mut self, code: u32, length: Option<usize>, wanted_true: bool) -> bool {
        for _ in 0..if wanted_true { 16 } else { 1 } {
            let length = length.unwrap_or_else(|| self.length());
            let Some(constraint) = self.constraint(code, length, wanted_true) else { return false };
            if !wanted_true || self.is_true(&constraint) {
                self.constraints.push(constraint);
                return true;
            }
        }
        false
    }

    fn size(&self) -> usize {
        self.variables.len() + self.constraints.iter().map(Vec::len).sum::<usize>() + 1
    }

    fn finish(self) -> Pair {
        let mut words = self.variables;
        words.extend(self.constraints.into_iter().flatten());
        words.push(word(MODEL_END, 0));
        (words, self.values)
    }
}

fn push_variables(words: &mut Vec<u32>, variables: &[usize]) {
    words.extend(variables.iter().map(|&variable| word(VARIABLE, variable as i64)));
}

fn push_list(words: &mut Vec<u32>, variables: &[usize]) {
    words.push(word(NUMBER, variables.len() as i64));
    push_variables(words, variables);
}

fn push_numbers(words: &mut Vec<u32>, numbers: &[i64]) {
    words.push(word(NUMBER, numbers.len() as i64));
    words.extend(numbers.iter().map(|&number| word(NUMBER, number)));
}

fn code(random: &mut Random) -> u32 {
    1 + random.below(CODES) as u32
}

/// An exponent of int_pow: small ones and the largest mostly.
fn exponent(random: &mut Random) -> i64 {
    match random.below(10) {
        0 => 0,
        1 => 1,
        2 | 3 => 2,
        4 | 5 => 3,
        6 => random.pick(&[25, 26, 27]),
        _ => random.between(0, i64::from(EXPONENT)),
    }
}

/// Some constraints over the variables that are there.
fn some_constraints(builder: &mut Builder) {
    let count = match builder.random.below(20) {
        0 => 0,
        1..=9 => 1,
        10..=17 => 2 + builder.random.below(4),
        _ => 5 + builder.random.below(25),
    };
    let wanted_true = builder.random.below(10);
    for _ in 0..count {
        let code = code(builder.random);
        let wanted_true = wanted_true < 7 || wanted_true < 9 && builder.random.one_in(2);
        builder.add(code, None, wanted_true);
    }
}

fn small_model(random: &mut Random) -> Pair {
    let (integers, booleans) = (random.below(7), random.below(5));
    let mut builder = Builder::new(random);
    builder.some_variables(integers, booleans, &SMALL_BOUNDS);
    some_constraints(&mut builder);
    builder.finish()
}

/// Several constraints of codes 24, 25, 27 and 28 over few variables, some of them 64 values wide or a little more.
fn shared_model(random: &mut Random) -> Pair {
    let mut builder = Builder::new(random);
    let bounds = builder.random.pick(&[Bounds::Tiny, Bounds::Index, Bounds::Index, Bounds::Index, Bounds::Bit, Bounds::Width64, Bounds::Medium]);
    let (encoded, booleans) = (1 + builder.random.below(3), 1 + builder.random.below(2));
    (0..encoded).for_each(|_| builder.integer(bounds));
    (0..booleans).for_each(|_| builder.boolean());
    if builder.random.one_in(2) {
        builder.integer(Bounds::Tiny);
        builder.derived_integer();
    }
    if builder.random.one_in(4) {
        builder.integer(Bounds::Width64);
    }
    let wanted_true = builder.random.below(4) > 0;
    for _ in 0..2 + builder.random.below(6) {
        let code = if builder.random.one_in(8) { code(builder.random) } else { builder.random.pick(&[24, 25, 27, 27, 28, 28]) };
        let wanted_true = wanted_true && builder.random.below(8) > 0;
        builder.add(code, None, wanted_true);
    }
    builder.finish()
}

/// Numbers of values of variables: 65,536 value lists and a little more, 8 variables and 9, and products that are 0 or small where all but the low
/// 32 or 64 bits are lost.
const WIDTHS: [&[i64]; 18] = [
    &[],
    &[1],
    &[65_536],
    &[65_537],
    &[256, 256],
    &[256, 257],
    &[4, 4, 4, 4, 4, 4, 4, 4],
    &[4, 4, 4, 4, 4, 4, 4, 5],
    &[1, 1, 1, 1, 1, 1, 1, 1, 1],
    &[1, 1, 1, 1, 1, 1, 1, 2],
    &[65_536, 65_536],
    &[65_536, 65_536, 65_536, 65_536],
    &[1 << 22, 1 << 21, 1 << 21],
    &[65_537, 65_535, 1],
    &[268_435_455],
    &[2, 3, 5, 7],
    &[3, 1, 4, 1, 5],
    &[9, 9, 2],
];

/// A model with few value lists, or with about as many as can be listed.
fn listed_model(random: &mut Random) -> Pair {
    let mut builder = Builder::new(random);
    if builder.random.one_in(2) {
        let (integers, booleans) = (builder.random.below(4), builder.random.below(4));
        builder.modest = true;
        builder.some_variables(integers, booleans, &[Bounds::Tiny, Bounds::Bit]);
    } else {
        let mut widths = builder.random.pick(&WIDTHS).to_vec();
        builder.random.shuffle(&mut widths);
        for width in widths {
            let lower = if width > 100_000 { LEAST } else { builder.random.pick(&[0, 1, -1, -2, -width, 1 - width, LARGEST + 1 - width]) };
            if width == 2 && builder.random.one_in(2) {
                builder.boolean();
            } else {
                builder.declare_integer(lower, lower + width - 1, lower);
            }
        }
    }
    let count = builder.random.below(4);
    for _ in 0..count {
        let (code, wanted_true) = (code(builder.random), builder.random.one_in(2));
        builder.add(code, None, wanted_true);
    }
    builder.finish()
}

fn range_model(random: &mut Random) -> Pair {
    let (integers, booleans) = (1 + random.below(4), random.below(3));
    let mut builder = Builder::new(random);
    builder.near_range = true;
    builder.some_variables(integers, booleans, &WIDE_BOUNDS);
    if builder.random.one_in(3) {
        builder.some_variables(2, 1, &SMALL_BOUNDS);
    }
    let count = 1 + builder.random.below(3);
    for _ in 0..count {
        let code = code(builder.random);
        let wanted_true = builder.random.one_in(2);
        builder.add(code, None, wanted_true);
    }
    builder.finish()
}

/// A model of one constraint with a number moved to where check begins, or ceases, to find a number outside the range.
fn edge_model(random: &mut Random) -> Pair {
    let mut builder = Builder::new(random);
    builder.near_range = builder.random.one_in(3);
    builder.some_variables(3, 1, &WIDE_BOUNDS);
    if builder.random.one_in(2) {
        builder.some_variables(1, 1, &SMALL_BOUNDS);
    }
    let code = builder.random.pick(&[4, 5, 7, 8, 9, 10, 11, 12, 13, 14, 15, 26, 29, 30, 31, 32, 33, 37, 38, 39, 39]);
    builder.add(code, None, false);
    let (mut words, values) = builder.finish();
    let fault = |words: &[u32]| twin::check(words).fault;
    for _ in 0..12 {
        let at = random.below(words.len());
        let (form, mut near) = (kind(words[at]), i64::from(signed(words[at])));
        let mut far = if random.one_in(2) { random.pick(&ENDS) } else { random.between(LEAST, LARGEST) };
        let mut moved = words.clone();
        moved[at] = word(form, far);
        let (here, there) = (fault(&words), fault(&moved));
        if !matches!(form, LOWER | UPPER | NUMBER) || !matches!((here, there), (0, 13) | (13, 0)) {
            continue;
        }
        while (far - near).abs() > 1 {
            let middle = near + (far - near) / 2;
            moved[at] = word(form, middle);
            if fault(&moved) == here {
                near = middle
            } else {
                far = middle
            }
        }
        words[at] = word(form, random.pick(&[near, far]));
        break;
    }
    (words, values)
}

/// Sometimes changes the word of some kinds that is the first past a limit, so that two faults meet at it.
fn damage_past_limit(random: &mut Random, words: &mut [u32], kinds: &[u32], limit: usize) {
    let past = words.iter().enumerate().filter(|(_, &word)| kinds.contains(&kind(word))).map(|(at, _)| at).nth(limit);
    if let (Some(at), true) = (past, random.one_in(3)) {
        words[at] = match random.below(5) {
            0 => likely_word(random),
            1 => word(kind(words[at]), random.between(1, 40)),
            2 => word(kind(words[at]), 0),
            3 => word(kind(words[at]), LEAST - 1),
            _ => words[at] ^ 1 << random.below(32),
        };
    }
}

fn many_variables(random: &mut Random) -> Pair {
    let count = MODEL_VARIABLES - 1 + random.below(4);
    let integers = random.below(count + 1);
    let mut builder = Builder::new(random);
    builder.some_variables(integers, count - integers, &SMALL_BOUNDS);
    // Derived integers outside the range are left out; these stand for them.
    while builder.bounds.len() < count {
        builder.boolean();
    }
    some_constraints(&mut builder);
    let (mut words, values) = builder.finish();
    damage_past_limit(random, &mut words, &[LOWER, BOOLEAN], MODEL_VARIABLES);
    (words, values)
}

fn many_constraints(random: &mut Random) -> Pair {
    let count = MODEL_CONSTRAINTS - 1 + random.below(4);
    let mut builder = Builder::new(random);
    builder.some_variables(4, 3, &SMALL_BOUNDS);
    let wanted_true = builder.random.one_in(2);
    while builder.constraints.len() < count {
        let (code, length) = (code(builder.random), builder.random.below(5));
        if !builder.add(code, Some(length), wanted_true) {
            builder.add(code, Some(length), false);
        }
    }
    let (mut words, values) = builder.finish();
    damage_past_limit(random, &mut words, &[CONSTRAINT], MODEL_CONSTRAINTS);
    (words, values)
}

/// Encodings with 64 auxiliaries and blocks of codes 26 and 33 with up to 64, then blocks of any code with few, sometimes in another order.
fn many_auxiliaries(random: &mut Random) -> Pair {
    if random.one_in(3) {
        return many_row_words(random);
    }
    let mut builder = Builder::new(random);
    builder.modest = true;
    builder.some_variables(3, 2, &[Bounds::Tiny, Bounds::Index]);
    builder.modest = false;
    let wide = builder.bounds.len();
    (0..24).for_each(|at| builder.declare_integer(at - 20, at + 43, 7 + at));
    builder.declare_integer(1, 32, 9);
    builder.declare_integer(3, 5, 4);
    let wanted = ALL_VARIABLES - 2 + builder.random.below(5);
    let mut accepted = vec![];
    let mut count = builder.bounds.len();
    while count + 90 < wanted && builder.constraints.len() < MODEL_CONSTRAINTS {
        if builder.random.one_in(2) {
            // set_in_reif over a variable of width 64, shared or not; r is the first Boolean.
            let (x, length) = (wide + builder.random.below(24), builder.random.below(6) as i64);
            let mut words = vec![word(CONSTRAINT, 28), word(VARIABLE, x as i64), word(NUMBER, length)];
            words.extend((0..length).map(|_| word(NUMBER, builder.random.between(-22, 45))));
            words.push(word(VARIABLE, builder.booleans[0] as i64));
            builder.constraints.push(words);
        } else {
            let length = LIST_LENGTH as usize - builder.random.below(8);
            let code = builder.random.pick(&[26, 33]);
            builder.add(code, Some(length), false);
        }
        count = builder.all_variables(&mut accepted, count);
    }
    // With these some blocks have a number outside the range, or need more than 64 auxiliaries.
    if builder.random.one_in(3) {
        builder.declare_integer(LEAST, LARGEST, 2);
        builder.declare_integer(1, 70, 3);
        count += 2;
    }
    while count < wanted && builder.constraints.len() < MODEL_CONSTRAINTS {
        let code = builder.random.pick(&[1, 4, 4, 4, 7, 8, 9, 9, 12, 13, 14, 15, 15, 18, 20, 23, 24, 25, 26, 27, 28, 29, 31, 32, 33, 34, 37, 38, 39]);
        let length = builder.random.below(3);
        if builder.add(code, Some(length), false) {
            count = builder.all_variables(&mut accepted, count);
        }
    }
    if builder.random.one_in(2) {
        builder.random.shuffle(&mut builder.constraints);
    }
    builder.finish()
}

/// Maxima and minima of 32 elements, as many as the auxiliaries allow, and conjunctions of 32 up to about 8,192 words or 256 constraints: the row
/// system passes 131,072 words.
fn many_row_words(random: &mut Random) -> Pair {
    let mut builder = Builder::new(random);
    builder.some_variables(6, 4, &[Bounds::Tiny]);
    builder.declare_integer(-3, 3, 1);
    builder.boolean();
    let wanted_true = builder.random.one_in(2);
    let extremes = 62 + builder.random.below(2);
    let all = MODEL_CONSTRAINTS - builder.random.below(3);
    let before = builder.bounds.len();
    while builder.constraints.len() < all && builder.size() + 40 < MODEL_WORDS {
        let count = builder.constraints.len();
        let code = if count < extremes && before + 64 * (count + 1) <= ALL_VARIABLES { builder.random.pick(&[26, 33]) } else { 22 };
        if !builder.add(code, Some(LIST_LENGTH as usize), wanted_true) {
            builder.add(code, Some(LIST_LENGTH as usize), false);
        }
    }
    builder.random.shuffle(&mut builder.constraints);
    builder.finish()
}

/// A model of exactly so many words, at least 40, whose constraints are true of its values. Its builtins are mixed; lists are as long as the
/// number of constraints left demands.
pub fn sized_model(random: &mut Random, size: usize) -> Pair {
    let mut builder = Builder::new(random);
    builder.modest = true;
    let many = size > 500;
    let (integers, booleans) = if many { (24, 15) } else { (5, 3) };
    builder.some_variables(integers, booleans, &[Bounds::Index]);
    while builder.integers.len() < integers / 2 + 1 {
        builder.integer(Bounds::Index);
    }
    let mut codes: Vec<u32> = vec![];
    // The last words are left to short constraints.
    while size - builder.size() > 12 + 67 {
        if codes.is_empty() {
            codes.extend(1..=CODES as u32);
            builder.random.shuffle(&mut codes);
        }
        let code = codes.pop().unwrap_or(1);
        let average = (size - builder.size()) / MODEL_CONSTRAINTS.saturating_sub(8 + builder.constraints.len()).max(1);
        let length = if average >= 12 { LIST_LENGTH as usize - builder.random.below(4) } else { 1 + builder.random.below(6) };
        let is_list = matches!(code, 10..=13 | 15 | 21..=28 | 32 | 33);
        if average >= 12 && !is_list && (average >= 36 || builder.random.below(4) > 0) {
            continue;
        }
        builder.add(code, Some(length), true);
    }
    close(&mut builder, size);
    builder.finish()
}

/// Adds true constraints up to exactly so many words; fewer than 3 words are never left.
fn close(builder: &mut Builder, size: usize) {
    let x = builder.integers[0];
    loop {
        let left = size - builder.size();
        match left {
            0 => return,
            3 | 6 => builder.constraints.push(vec![word(CONSTRAINT, 1), word(VARIABLE, x as i64), word(VARIABLE, x as i64)]),
            4 | 5 | 7..=11 => {
                if left % 2 == 1 {
                    // int_lin_le with coefficients 0: 3 words and 2 for each term.
                    let terms = (left - 3) / 2;
                    let mut words = vec![word(CONSTRAINT, 11), word(NUMBER, terms as i64)];
                    words.extend((0..terms).map(|_| word(NUMBER, 0)));
                    words.extend((0..terms).map(|_| word(VARIABLE, x as i64)));
                    words.push(word(NUMBER, 0));
                    builder.constraints.push(words);
                } else {
                    // set_in with one member, the value of x: 4 words.
                    let value = builder.value(x);
                    builder.constraints.push(vec![word(CONSTRAINT, 27), word(VARIABLE, x as i64), word(NUMBER, 1), word(NUMBER, value)]);
                }
            }
            _ => {
                let code = code(builder.random);
                let length = builder.random.below(4);
                let before = builder.constraints.len();
                builder.add(code, Some(length), true);
                let gap = size as i64 - builder.size() as i64;
                if gap < 3 && gap != 0 {
                    builder.constraints.truncate(before);
                }
            }
        }
    }
}

fn near_model_words(random: &mut Random) -> Pair {
    let size = MODEL_WORDS - 1 + random.below(3);
    sized_model(random, size)
}

fn limit_model(random: &mut Random) -> Pair {
    match random.below(4) {
        0 => many_variables(random),
        1 => many_constraints(random),
        2 => many_auxiliaries(random),
        _ => near_model_words(random),
    }
}

/// Two candidates over the variables of a model, each with a part of its constraints; at times the word between them is missing, damaged, in the
/// table or there twice, or one candidate passes a limit that the other keeps.
fn pair(random: &mut Random) -> Pair {
    let (mut words, values) = match random.below(8) {
        0 => range_model(random),
        1 => shared_model(random),
        2 if random.one_in(4) => limit_model(random),
        _ => small_model(random),
    };
    let table = words.iter().position(|&word| matches!(kind(word), CONSTRAINT | MODEL_END)).unwrap_or(words.len());
    let starts: Vec<usize> = (table..words.len()).filter(|&at| matches!(kind(words[at]), CONSTRAINT | MODEL_END)).collect();
    let between = if starts.is_empty() { words.len() } else { random.pick(&starts) };
    words.insert(between, BETWEEN);
    let anywhere = random.below(words.len());
    match random.below(24) {
        0 => words.insert(anywhere, BETWEEN),
        1 => words.insert(random.below(table + 1), BETWEEN),
        2 => words[between] += 1 + random.below(3) as u32,
        3 => {
            words.remove(between);
        }
        4 => words[between] = word(MODEL_END, 0),
        5 => words.insert(random.below(table + 1), word(MODEL_END, 0)),
        6 => {
            // Constraints without a fault, more of them or more words than a model may have.
            let clause = [word(CONSTRAINT, 21), word(NUMBER, 0), word(NUMBER, 0)];
            let count = random.pick(&[255, 256, 257, MODEL_WORDS / 3, MODEL_WORDS / 3 + 1]);
            let at = random.pick(&[between, between + 1]);
            words.splice(at..at, clause.repeat(count));
        }
        7 => words.insert(between, likely_word(random)),
        8 => {
            // The maximum of 32 times the first integer variable, 64 auxiliaries each.
            let x = words[..table].iter().filter(|&&word| kind(word) != UPPER).position(|&word| kind(word) == LOWER).unwrap_or(0);
            let mut maximum = vec![word(CONSTRAINT, 26), word(VARIABLE, x as i64)];
            push_list(&mut maximum, &[x; LIST_LENGTH as usize]);
            let count = random.pick(&[62, 64]);
            let at = random.pick(&[between, between + 1]);
            words.splice(at..at, maximum.repeat(count));
        }
        9 => {
            let booleans = MODEL_VARIABLES + 1 - random.below(3);
            words.splice(table..table, [word(BOOLEAN, 0)].repeat(booleans));
        }
        10 => {
            let lowers: Vec<usize> = (0..table).filter(|&at| kind(words[at]) == LOWER).collect();
            if !lowers.is_empty() {
                let at = random.pick(&lowers);
                words[at + 1] = word(UPPER, i64::from(signed(words[at])) - 1);
            }
        }
        _ => (),
    }
    (words, values)
}

// ------------------------------------------------------------------------------------------------------------------------------ row systems

/// Builds a row system around values that its rows are to be satisfied by.
struct Rows<'a> {
    random: &'a mut Random,
    words: Vec<u32>,
    values: Vec<i32>,
}

impl Rows<'_> {
    fn declare(&mut self, lower_kind: u32, lower: i64, upper: i64, value: i64) {
        self.words.extend([word(lower_kind, lower), word(if lower_kind == LOWER { UPPER } else { AUX_UPPER }, upper)]);
        self.values.push(value as i32);
    }

    fn variable(&mut self, lower_kind: u32) {
        let bounds = if self.random.one_in(5) { self.random.pick(&WIDE_BOUNDS) } else { self.random.pick(&SMALL_BOUNDS) };
        let (lower, upper) = bounds.choose(self.random);
        let value = self.random.between(lower, upper);
        self.declare(lower_kind, lower, upper, value);
    }

    fn boolean(&mut self) {
        self.words.push(word(BOOLEAN, 0));
        self.values.push(self.random.below(2) as i32);
    }

    /// A row; `aimed`: its constant is chosen to satisfy it, or to miss that by one.
    fn row(&mut self, terms: usize, aimed: bool) {
        let terms = if self.values.is_empty() { 0 } else { terms };
        let form = self.random.pick(&[AT_MOST, EQUAL]);
        self.words.push(word(form, terms as i64));
        let mut sum = 0;
        for _ in 0..terms {
            let variable = self.random.below(self.values.len());
            let coefficient = any_number(self.random);
            sum += coefficient * i64::from(self.values[variable]);
            self.words.extend([word(VARIABLE, variable as i64), word(NUMBER, coefficient)]);
        }
        let miss = self.random.below(12) == 0;
        let constant = if aimed { i64::from(miss) - sum } else { any_number(self.random) };
        self.words.push(word(NUMBER, constant.clamp(LEAST, LARGEST)));
    }

    /// An auxiliary that is a product, and the product; or a product of any three.
    fn product(&mut self, aimed: bool) {
        let count = self.values.len();
        if count == 0 {
            return;
        }
        let (first, second) = (self.random.below(count), self.random.below(count));
        let mut result = self.random.below(count);
        let value = i64::from(self.values[first]) * i64::from(self.values[second]);
        if aimed && in_range(value) {
            let wrong = i64::from(self.random.one_in(12));
            self.declare(AUX_LOWER, (value - 2).max(LEAST), (value + 2).min(LARGEST), (value + wrong).min(LARGEST));
            result = count;
        }
        self.words.push(word(PRODUCT, 0));
        if self.random.one_in(16) {
            // Any numbers, declared or not.
            let numbers = [0; 3].map(|_| self.random.below(count + 4));
            push_variables(&mut self.words, &numbers);
        } else {
            push_variables(&mut self.words, &[result, first, second]);
        }
    }

    fn finish(mut self) -> Pair {
        self.words.push(word(ROWS_END, 0));
        (self.words, self.values)
    }
}

fn small_rows(random: &mut Random) -> Pair {
    if random.one_in(3) {
        return model_rows(random);
    }
    let mut rows = Rows { random, words: vec![], values: vec![] };
    for _ in 0..rows.random.below(6) {
        if rows.random.one_in(3) {
            rows.boolean()
        } else {
            rows.variable(LOWER)
        }
    }
    let aimed = rows.random.below(8) > 0;
    for _ in 0..rows.random.below(8) {
        match rows.random.below(4) {
            // A source that comes late, now and then.
            0 if rows.random.one_in(24) => {
                if rows.random.one_in(2) {
                    rows.boolean()
                } else {
                    rows.variable(LOWER)
                }
            }
            0 => rows.variable(AUX_LOWER),
            1 => rows.product(aimed || rows.values.is_empty()),
            _ => {
                let terms = if rows.random.one_in(4) { rows.random.below(14) } else { rows.random.below(5) };
                rows.row(terms, aimed);
            }
        }
    }
    rows.finish()
}

/// A row system and values in its bounds.
fn with_values(random: &mut Random, build: fn(&mut Random) -> Vec<u32>) -> Pair {
    let words = build(random);
    let values = declared(&words).iter().map(|&(lower, upper)| random.between(i64::from(lower), i64::from(upper)) as i32).collect();
    (words, values)
}

/// What translate writes for a model, and what fill writes for its values.
fn model_rows(random: &mut Random) -> Pair {
    let (model, values) = if random.one_in(4) { range_model(random) } else { small_model(random) };
    let counts = twin::check(&model);
    let mut words = vec![0; counts.words];
    let mut all = vec![0; counts.variables + counts.auxiliaries];
    twin::translate(&model, &mut words);
    if twin::fill(&model, &values, &mut all).said != HOLDS {
        let sources = values.len().min(all.len());
        all[..sources].copy_from_slice(&values[..sources]);
    }
    (words, all)
}

fn many_terms(random: &mut Random) -> Pair {
    let mut rows = Rows { random, words: vec![], values: vec![] };
    for _ in 0..1 + rows.random.below(6) {
        rows.variable(LOWER);
    }
    for _ in 0..1 + rows.random.below(4) {
        let terms = ROW_TERMS as usize - 1 + rows.random.below(2) + usize::from(rows.random.one_in(4));
        rows.row(terms, true);
    }
    rows.finish()
}

fn many_row_variables(random: &mut Random) -> Pair {
    let count = ALL_VARIABLES - 1 + random.below(4);
    let sources = random.pick(&[0, 1, count / 2, count - 1, count]);
    let mut rows = Rows { random, words: vec![], values: vec![] };
    while rows.values.len() < sources {
        if rows.random.one_in(2) {
            rows.boolean()
        } else {
            rows.variable(LOWER)
        }
    }
    while rows.values.len() < count {
        if rows.random.one_in(40) {
            rows.row(3, true);
        }
        rows.variable(AUX_LOWER);
    }
    rows.row(5, true);
    let (mut words, values) = rows.finish();
    damage_past_limit(random, &mut words, &[LOWER, BOOLEAN, AUX_LOWER], ALL_VARIABLES);
    (words, values)
}

fn limit_rows(random: &mut Random) -> Pair {
    if random.one_in(2) {
        many_terms(random)
    } else {
        many_row_variables(random)
    }
}

fn near_row_words(random: &mut Random) -> Pair {
    let size = ROW_WORDS - 1 + random.below(3);
    let short = random.one_in(2);
    sized_rows(random, size, if short { 1 } else { ROW_TERMS as usize })
}

/// A row system of exactly so many words, at least 16, with rows of up to so many terms that its values satisfy.
fn sized_rows(random: &mut Random, size: usize, longest: usize) -> Pair {
    let mut rows = Rows { random, words: vec![], values: vec![] };
    for _ in 0..4 {
        let (lower, upper) = Bounds::Index.choose(rows.random);
        let value = rows.random.between(lower, upper);
        rows.declare(LOWER, lower, upper, value);
    }
    // A Boolean has one word, all else an even number; so has the end.
    if size % 2 == 0 {
        rows.boolean();
    }
    while rows.words.len() + 1 < size {
        let most = ((size - 1 - rows.words.len()) / 2 - 1).min(longest);
        let terms = if most == ROW_TERMS as usize && rows.random.below(8) > 0 { most } else { rows.random.below(most + 1) };
        small_satisfied_row(&mut rows, terms);
    }
    rows.finish()
}

/// A row with small coefficients that the values satisfy.
fn small_satisfied_row(rows: &mut Rows, terms: usize) {
    let form = rows.random.pick(&[AT_MOST, EQUAL]);
    rows.words.push(word(form, terms as i64));
    let mut sum = 0;
    for _ in 0..terms {
        let variable = rows.random.below(rows.values.len());
        let coefficient = rows.random.between(-9, 9);
        sum += coefficient * i64::from(rows.values[variable]);
        rows.words.extend([word(VARIABLE, variable as i64), word(NUMBER, coefficient)]);
    }
    rows.words.push(word(NUMBER, -sum));
}

/// The front of a row system and of its values, closed after exactly so many words; none where their number cannot be reached.
pub fn cut_rows(words: &[u32], values: &[i32], size: usize) -> Option<Pair> {
    let mut at = 0;
    let mut declared = 0;
    loop {
        let &head = words.get(at)?;
        let length = match kind(head) {
            LOWER | AUX_LOWER => 2,
            BOOLEAN => 1,
            PRODUCT => 4,
            ROWS_END => break,
            _ => 2 + 2 * payload(head) as usize,
        };
        if at + length >= size {
            break;
        }
        declared += usize::from(matches!(kind(head), LOWER | AUX_LOWER | BOOLEAN));
        at += length;
    }
    let mut cut = words[..at].to_vec();
    while cut.len() + 2 < size {
        cut.extend([word(AT_MOST, 0), word(NUMBER, 0)]);
    }
    cut.push(word(ROWS_END, 0));
    (cut.len() == size).then(|| (cut, values[..declared].to_vec()))
}

// ----------------------------------------------------------------------------------------------------------------------------------- text

/// A text, each byte as a word.
fn as_words(text: Vec<u8>) -> Pair {
    (text.into_iter().map(u32::from).collect(), vec![])
}

fn text(random: &mut Random) -> Pair {
    let (model, _) = match random.below(8) {
        0 => range_model(random),
        1 => shared_model(random),
        2 if random.one_in(8) => many_names(random),
        _ => small_model(random),
    };
    as_words(texts::some_text(random, &model))
}

/// More variables than a model may have, or not quite so many.
fn many_names(random: &mut Random) -> Pair {
    let count = MODEL_VARIABLES - 4 + random.below(8);
    let mut builder = Builder::new(random);
    builder.some_variables(count / 2, count / 2, &SMALL_BOUNDS);
    some_constraints(&mut builder);
    builder.finish()
}

fn damaged_text(random: &mut Random) -> Pair {
    let (model, _) = small_model(random);
    as_words(texts::damaged_text(random, &model, 2))
}

/// One constraint with parallel lists: several faults meet in them.
fn damaged_sum(random: &mut Random) -> Pair {
    let mut builder = Builder::new(random);
    builder.some_variables(2, 1, &SMALL_BOUNDS);
    let code = builder.random.pick(&[10, 11, 12, 13, 15, 32]);
    let length = 1 + builder.random.below(4);
    builder.add(code, Some(length), false);
    let (model, _) = builder.finish();
    as_words(texts::damaged_text(random, &model, 4))
}

fn text_near_model_words(random: &mut Random) -> Pair {
    let (model, _) = near_model_words(random);
    as_words(texts::some_text(random, &model))
}

// ---------------------------------------------------------------------------------------------------------------------------------- damage

/// A word of any kind with a likely payload.
fn likely_word(random: &mut Random) -> u32 {
    let kind = random.pick(&[1, 1, 2, 2, 3, 3, 4, 4, 5, 5, 5, 5, 6, 6, 6, 6, 7, 8, 9, 10, 11, 12, 15, 0, 13, 14]);
    let payload = match random.below(8) {
        0 => 0,
        1 => random.pick(&ENDS) - 1,
        2 => random.between(LEAST - 1, LARGEST),
        3 => random.pick(&[27, 28, 32, 33, 38, 39, 40, 66, 67, 255, 256, 257, -1]),
        _ => random.between(0, 8),
    };
    word(kind, payload)
}

fn random_words(random: &mut Random) -> Pair {
    let count = match random.below(8) {
        0 => 0,
        1 => random.below(3),
        2 => 8_190 + random.below(5),
        _ => random.below(40),
    };
    let mut words: Vec<u32> = (0..count).map(|_| if random.one_in(8) { random.next() as u32 } else { likely_word(random) }).collect();
    // Declarations in front let the reading go on a little.
    if random.below(4) > 0 {
        let front = [word(BOOLEAN, 0), word(LOWER, -2), word(UPPER, 3), word(LOWER, 0), word(UPPER, 9), word(BOOLEAN, 0)];
        words.splice(0..0, front);
    }
    let values =
        declared(&words).iter().map(|&(lower, upper)| random.between(i64::from(lower), i64::from(upper).max(i64::from(lower))) as i32).collect();
    (words, values)
}

fn damaged(random: &mut Random, build: fn(&mut Random) -> Pair) -> Pair {
    let (mut words, values) = build(random);
    for _ in 0..if random.one_in(4) { 1 + random.below(3) } else { 1 } {
        damage(random, &mut words);
    }
    (words, values)
}

fn damage(random: &mut Random, words: &mut Vec<u32>) {
    if words.is_empty() {
        return;
    }
    let at = random.below(words.len());
    let old = words[at];
    match random.below(17) {
        0 => words[at] = random.next() as u32,
        1 => words[at] = likely_word(random),
        2 => words[at] = word(kind(likely_word(random)), i64::from(signed(old))),
        3 => words[at] = word(kind(old), i64::from(signed(likely_word(random)))),
        4 => words[at] = word(kind(old), i64::from(signed(old)) + 1),
        5 => words[at] = word(kind(old), i64::from(signed(old)) - 1),
        6 => words[at] = old ^ 1 << random.below(32),
        7 => {
            words.remove(at);
        }
        8 => {
            let inserted = likely_word(random);
            words.insert(at, inserted);
        }
        9 => words.insert(at, old),
        10 => words.truncate(at),
        11 => {
            for _ in 0..1 + random.below(3) {
                let added = random.pick(&[word(MODEL_END, 0), word(ROWS_END, 0), 0, random.0 as u32]);
                words.push(added);
            }
        }
        12 => {
            let other = random.below(words.len());
            words.swap(at, other);
        }
        13 => {
            // A length, an exponent or a number of terms, if one is met: the limits of each.
            let numbers = [33, 32, 28, 27, -1].map(|number| word(NUMBER, number));
            let counts = [word(AT_MOST, 66), word(AT_MOST, 67), word(EQUAL, 67)];
            let counted = words.iter().rposition(|&word| matches!(kind(word), CONSTRAINT | AT_MOST | EQUAL));
            let at = counted.map_or(at, |head| (head + random.below(3)).min(words.len() - 1));
            words[at] = if random.one_in(2) { random.pick(&numbers) } else { random.pick(&counts) };
        }
        14 | 15 => {
            // The lowest 28-bit number, at a word with a signed payload; a length, if one is met.
            let length = words.windows(2).position(|pair| kind(pair[0]) == CONSTRAINT && kind(pair[1]) == NUMBER);
            let signed = |&at: &usize| matches!(kind(words[at]), LOWER | UPPER | NUMBER | AUX_LOWER | AUX_UPPER);
            let places: Vec<usize> = (0..words.len()).filter(signed).collect();
            let at = match length {
                Some(head) if random.one_in(4) => head + 1,
                _ if places.is_empty() => at,
                _ => random.pick(&places),
            };
            words[at] = word(kind(words[at]), LEAST - 1);
        }
        _ => {
            let next = (at + 1) % words.len();
            words.swap(at, next);
        }
    }
}

// ---------------------------------------------------------------------------------------------------------------------------------- values

/// The bounds that the words of kinds 1, 3 and 8 declare, with no judgement of the words.
pub fn declared(words: &[u32]) -> Vec<(i32, i32)> {
    let mut bounds = vec![];
    for (at, &word) in words.iter().enumerate() {
        match kind(word) {
            LOWER | AUX_LOWER => bounds.push((signed(word), words.get(at + 1).map_or(0, |&upper| signed(upper)))),
            BOOLEAN => bounds.push((0, 1)),
            _ => (),
        }
    }
    bounds
}

/// Value lists for words: those made for them, random ones, some out of bounds, some of a wrong length.
pub fn value_lists(random: &mut Random, words: &[u32], values: &[i32]) -> Vec<Vec<i32>> {
    let bounds = declared(words);
    let inside = |random: &mut Random, variable: usize| {
        let (lower, upper) = bounds[variable];
        random.between(i64::from(lower), i64::from(upper.max(lower))) as i32
    };
    let mut lists = vec![values.to_vec()];
    let mut other: Vec<i32> = (0..bounds.len()).map(|variable| inside(random, variable)).collect();
    lists.push(other.clone());
    if !bounds.is_empty() && values.len() == bounds.len() {
        // One value changed: to another inside, to one next to a bound, to an extreme.
        let at = random.below(bounds.len());
        let (lower, upper) = bounds[at];
        other = values.to_vec();
        other[at] = match random.below(8) {
            0 => lower.wrapping_sub(1),
            1 => upper.wrapping_add(1),
            2 => i32::MIN,
            3 => i32::MAX,
            4 => lower,
            5 => upper,
            _ => inside(random, at),
        };
        lists.push(other);
    }
    match random.below(8) {
        0 => lists.push(vec![]),
        1 => lists.push(values[..values.len().saturating_sub(1)].to_vec()),
        2 => lists.push([values, &[0]].concat()),
        3 => lists.push((0..bounds.len()).map(|_| random.pick(&[i32::MIN, i32::MAX, 0, 1, -1, -134_217_728, 134_217_727])).collect()),
        4 => {
            let length = random.below(bounds.len() + 4);
            lists.push((0..length).map(|_| random.next() as i32).collect());
        }
        _ => (),
    }
    lists
}

/// What fill writes, with some auxiliaries changed inside their bounds: the bit of a list moved with what hangs on it, or other values.
pub fn other_auxiliaries(random: &mut Random, words: &[u32], sources: usize, filled: &[i32]) -> Vec<i32> {
    let bounds = declared(words);
    let mut values = filled.to_vec();
    let auxiliaries = values.len().saturating_sub(sources);
    if auxiliaries == 0 {
        return values;
    }
    let place = |random: &mut Random| sources + random.below(auxiliaries);
    if random.one_in(2) {
        let (one, apart, behind) = (place(random), 1 + random.below(4), 1 + random.below(6));
        let other = one + apart;
        for (one, other) in [(one, other), (one + behind, other + behind)] {
            if other < values.len() {
                values.swap(one, other);
            }
        }
    } else {
        for _ in 0..1 + random.below(2) {
            let at = place(random);
            let (lower, upper) = bounds[at];
            values[at] = if upper == lower + 1 { lower + upper - values[at] } else { random.between(i64::from(lower), i64::from(upper)) as i32 };
        }
    }
    values
}

/// Values inside the bounds that a model holds of, found by trying.
pub fn solution(random: &mut Random, words: &[u32], tries: usize) -> Option<Vec<i32>> {
    let bounds = declared(words);
    (0..tries).find_map(|_| {
        let values: Vec<i32> = bounds.iter().map(|&(lower, upper)| random.between(i64::from(lower), i64::from(upper.max(lower))) as i32).collect();
        (twin::judge_model(words, &values).said == HOLDS).then_some(values)
    })
}
