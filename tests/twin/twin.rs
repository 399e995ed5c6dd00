//! The rules of docs/RULES.md in plain Rust: check over words and over bytes, translate, judge-model, judge-rows, fill, sheet,
//! reason, solutions, the calls for a pair, text, and bits; the way back from bits is in back.rs.
//!
//! It is written from the documents alone and shares nothing with the proved code, so that the two can be compared. Nothing here panics: every
//! index is tested by the reading that comes first, and numbers that may leave 32 bits are 64 bits wide (the largest is 33 × 2^54).

use crate::answers::{Counts, Judgement, Listed, Printed, Reason, Refusal, Written, AUXILIARIES, BUILTIN, FALSE, HOLDS, OUT_OF_BOUNDS};
use std::collections::HashMap;
use std::ops::Range;

// The limits (docs/RULES.md, 12).
pub const MODEL_WORDS: usize = 8_192;
pub const ROW_WORDS: usize = 262_144;
pub const MODEL_VARIABLES: usize = 256;
pub const MODEL_CONSTRAINTS: usize = 256;
pub const LIST_LENGTH: i32 = 32;
pub const ROW_TERMS: u32 = 66;
pub const ALL_VARIABLES: usize = 4_096;
pub const ENCODING_WIDTH: i64 = 64;
pub const EXPONENT: i32 = 27;
pub const LISTED_VARIABLES: usize = 8;
pub const VALUE_LISTS: u64 = 65_536;
pub const NAME_BYTES: usize = 32;
pub const BITS: usize = 1_024;
/// The largest coefficient or constant of a row over bits.
pub const LARGEST_OVER_BITS: i64 = 16_384;

// The kinds (docs/RULES.md, 2.1 and 3.1).
pub const LOWER: u32 = 0x1;
pub const UPPER: u32 = 0x2;
pub const BOOLEAN: u32 = 0x3;
pub const CONSTRAINT: u32 = 0x4;
pub const VARIABLE: u32 = 0x5;
pub const NUMBER: u32 = 0x6;
pub const MODEL_END: u32 = 0x7;
pub const AUX_LOWER: u32 = 0x8;
pub const AUX_UPPER: u32 = 0x9;
pub const AT_MOST: u32 = 0xA;
pub const EQUAL: u32 = 0xB;
pub const PRODUCT: u32 = 0xC;
pub const ROWS_END: u32 = 0xF;
/// The word between the candidates of a pair (7.9).
pub const BETWEEN: u32 = 0xD000_0000;

/// The range (1.2).
pub const LEAST: i64 = -134_217_727;
pub const LARGEST: i64 = 134_217_727;
/// The payload of the lowest 28-bit number, which has no opposite.
pub const LOWEST: u32 = 0x0800_0000;

/// The top 4 bits of a word.
pub fn kind(word: u32) -> u32 {
    word >> 28
}

/// The low 28 bits of a word.
pub fn payload(word: u32) -> u32 {
    word & 0x0FFF_FFFF
}

/// The low 28 bits of a word in two's complement.
pub fn signed(word: u32) -> i32 {
    (word << 4) as i32 >> 4
}

/// The variable number of a word of kind 5.
fn number(word: u32) -> usize {
    payload(word) as usize
}

/// The word of a kind and a payload inside the range.
pub fn word(kind: u32, payload: i64) -> u32 {
    kind << 28 | (payload as u32 & 0x0FFF_FFFF)
}

pub fn refusal<T>(fault: u32, place: usize) -> Result<T, Refusal> {
    Err(Refusal { fault, place })
}

/// The word at a place, which must have one kind: fault 2, then 3.
fn expect(words: &[u32], at: usize, wanted: u32) -> Result<u32, Refusal> {
    match words.get(at) {
        None => refusal(2, words.len()),
        Some(&word) if kind(word) != wanted => refusal(3, at),
        Some(&word) => Ok(word),
    }
}

/// The signed payload of the word at a place: fault 18 where it is the lowest 28-bit number.
fn ranged(word: u32, at: usize) -> Result<i32, Refusal> {
    if payload(word) == LOWEST {
        return refusal(18, at);
    }
    Ok(signed(word))
}

/// The signed payload of the word at a place, which must have one kind: fault 2, 3, then 18.
fn expect_signed(words: &[u32], at: usize, wanted: u32) -> Result<i32, Refusal> {
    ranged(expect(words, at, wanted)?, at)
}

/// The bound pair that starts at a place; its upper word must have one kind: fault 2, 3, 18, then 4.
fn bound_pair(words: &[u32], at: usize, upper_kind: u32) -> Result<(i32, i32), Refusal> {
    let lower = signed(words[at]);
    let upper = expect_signed(words, at + 1, upper_kind)?;
    if upper < lower {
        return refusal(4, at + 1);
    }
    Ok((lower, upper))
}

/// The end word at a place: fault 5 at it, then 11 at the word after it.
fn end(words: &[u32], at: usize) -> Result<(), Refusal> {
    if payload(words[at]) > 0 {
        return refusal(5, at);
    }
    if at + 1 < words.len() {
        return refusal(11, at + 1);
    }
    Ok(())
}

// ---------------------------------------------------------------------------------------------------------------------------------- models

/// A declared variable of a model.
#[derive(Clone, Copy)]
struct Variable {
    lower: i32,
    upper: i32,
    boolean: bool,
}

/// The variables of a model, and the place of the first word behind them.
struct Variables {
    all: [Variable; MODEL_VARIABLES],
    count: usize,
    end: usize,
}

impl Variables {
    fn new() -> Self {
        Variables { all: [Variable { lower: 0, upper: 0, boolean: false }; MODEL_VARIABLES], count: 0, end: 0 }
    }

    fn list(&self) -> &[Variable] {
        &self.all[..self.count]
    }
}

/// An argument of a constraint.
#[derive(Clone, Copy, PartialEq)]
enum Argument {
    Integer,
    Boolean,
    Number,
    /// A number from 0 to 27, the exponent of a power.
    Exponent,
    /// One length, the numbers, then the integer variables.
    Parallel,
    Numbers,
    Integers,
    Booleans,
}

/// The last code.
pub const CODES: usize = 39;

/// The arguments of the codes (2.3, 4.1).
const SHAPES: [&[Argument]; CODES] = {
    use Argument::{Boolean as B, Booleans as LB, Exponent as E, Integer as I, Integers as LI, Number as N, Numbers as LN, Parallel as P};
    [
        &[I, I],     // 1 int_eq
        &[I, I],     // 2 int_le
        &[I, I],     // 3 int_lt
        &[I, I],     // 4 int_ne
        &[I, I, B],  // 5 int_le_reif
        &[I, I, I],  // 6 int_plus
        &[I, I, I],  // 7 int_times
        &[I, I],     // 8 int_abs
        &[I, I, I],  // 9 int_max
        &[P, N],     // 10 int_lin_eq
        &[P, N],     // 11 int_lin_le
        &[P, N],     // 12 int_lin_ne
        &[P, N, B],  // 13 int_lin_eq_reif
        &[I, I, B],  // 14 int_eq_reif
        &[P, N, B],  // 15 int_lin_le_reif
        &[B, I],     // 16 bool2int
        &[B, B],     // 17 bool_not
        &[B, B, B],  // 18 bool_and
        &[B, B, B],  // 19 bool_or
        &[B, B, B],  // 20 bool_xor
        &[LB, LB],   // 21 bool_clause
        &[LB, B],    // 22 array_bool_and
        &[LB],       // 23 array_bool_xor
        &[I, LN, I], // 24 array_int_element
        &[I, LI, I], // 25 array_var_int_element
        &[I, LI],    // 26 array_int_maximum
        &[I, LN],    // 27 set_in
        &[I, LN, B], // 28 set_in_reif
        &[I, I, I],  // 29 int_min
        &[I, I, B],  // 30 int_lt_reif
        &[I, I, B],  // 31 int_ne_reif
        &[P, N, B],  // 32 int_lin_ne_reif
        &[I, LI],    // 33 array_int_minimum
        &[B, B, B],  // 34 bool_eq_reif
        &[B, B, B],  // 35 bool_le_reif
        &[B, B, B],  // 36 bool_lt_reif
        &[I, I, I],  // 37 int_div
        &[I, I, I],  // 38 int_mod
        &[I, E, I],  // 39 int_pow
    ]
};

/// The names of the codes (4.1).
pub const NAMES: [&str; CODES] = [
    "int_eq",
    "int_le",
    "int_lt",
    "int_ne",
    "int_le_reif",
    "int_plus",
    "int_times",
    "int_abs",
    "int_max",
    "int_lin_eq",
    "int_lin_le",
    "int_lin_ne",
    "int_lin_eq_reif",
    "int_eq_reif",
    "int_lin_le_reif",
    "bool2int",
    "bool_not",
    "bool_and",
    "bool_or",
    "bool_xor",
    "bool_clause",
    "array_bool_and",
    "array_bool_xor",
    "array_int_element",
    "array_var_int_element",
    "array_int_maximum",
    "set_in",
    "set_in_reif",
    "int_min",
    "int_lt_reif",
    "int_ne_reif",
    "int_lin_ne_reif",
    "array_int_minimum",
    "bool_eq_reif",
    "bool_le_reif",
    "bool_lt_reif",
    "int_div",
    "int_mod",
    "int_pow",
];

/// A constraint whose words passed the reading. Absent arguments are 0 or empty.
#[derive(Clone, Copy)]
struct Constraint<'a> {
    code: u32,
    /// Its single variables, in order.
    single: [usize; 3],
    /// The words of its number list.
    numbers: &'a [u32],
    /// The words of its variable list.
    list: &'a [u32],
    /// The words of the second list of bool_clause.
    second: &'a [u32],
    /// Its single number.
    constant: i64,
}

impl Constraint<'_> {
    /// Whether its first variable is i of 24, 25 or x of 27, 28.
    fn encodes(&self) -> bool {
        matches!(self.code, 24 | 25 | 27 | 28)
    }

    /// The terms of Σ as×bs: number and variable.
    fn terms(&self) -> impl Iterator<Item = (i64, usize)> + '_ {
        self.numbers.iter().zip(self.list).map(|(&a, &b)| (i64::from(signed(a)), number(b)))
    }

    /// Σ as×bs − c.
    fn sum(&self, values: &[i32]) -> i64 {
        self.terms().map(|(a, b)| a * i64::from(values[b])).sum::<i64>() - self.constant
    }

    /// L and U (5.2): the least and largest of Σ as×bs − c over the bounds, each term taken by itself.
    fn least_and_largest(&self, variables: &[Variable]) -> (i64, i64) {
        let mut least = -self.constant;
        let mut largest = -self.constant;
        for (a, b) in self.terms() {
            let (at_lower, at_upper) = (a * i64::from(variables[b].lower), a * i64::from(variables[b].upper));
            least += at_lower.min(at_upper);
            largest += at_lower.max(at_upper);
        }
        (least, largest)
    }
}

/// Reads the variables of a model, up to the first constraint or the end word: fault 1, then 2 to 6 and 18.
fn read_variables(words: &[u32], variables: &mut Variables) -> Result<(), Refusal> {
    if words.len() > MODEL_WORDS {
        return refusal(1, 0);
    }
    let mut at = 0;
    loop {
        let Some(&word) = words.get(at) else { return refusal(2, at) };
        let full = variables.count == MODEL_VARIABLES;
        let (variable, size) = match kind(word) {
            LOWER if payload(word) == LOWEST => return refusal(18, at),
            LOWER if full => return refusal(6, at),
            LOWER => {
                let (lower, upper) = bound_pair(words, at, UPPER)?;
                (Variable { lower, upper, boolean: false }, 2)
            }
            BOOLEAN if payload(word) > 0 => return refusal(5, at),
            BOOLEAN if full => return refusal(6, at),
            BOOLEAN => (Variable { lower: 0, upper: 1, boolean: true }, 1),
            CONSTRAINT | MODEL_END => {
                variables.end = at;
                return Ok(());
            }
            _ => return refusal(3, at),
        };
        variables.all[variables.count] = variable;
        variables.count += 1;
        at += size;
    }
}

/// Reads the constraints of a model and the end word: faults 2, 3, 5, 7 to 11 and 18. Gives each whole constraint and the place of its head word to
/// `visit`; answers their number.
fn read_constraints<'a>(words: &'a [u32], variables: &Variables, mut visit: impl FnMut(usize, &Constraint<'a>)) -> Result<usize, Refusal> {
    let mut at = variables.end;
    let mut count = 0;
    loop {
        let Some(&word) = words.get(at) else { return refusal(2, at) };
        match kind(word) {
            CONSTRAINT if count == MODEL_CONSTRAINTS => return refusal(7, at),
            CONSTRAINT => {
                let next = check_arguments(words, at, variables.list())?;
                visit(at, &arguments(words, at).0);
                at = next;
                count += 1;
            }
            MODEL_END => {
                end(words, at)?;
                return Ok(count);
            }
            _ => return refusal(3, at),
        }
    }
}

/// Checks a head word's code and its arguments: faults 2, 3, 8, 9, 10 and 18. Answers the place behind them.
fn check_arguments(words: &[u32], head: usize, variables: &[Variable]) -> Result<usize, Refusal> {
    let Some(shape) = SHAPES.get((payload(words[head]) as usize).wrapping_sub(1)) else { return refusal(8, head) };
    let mut at = head + 1;
    for argument in *shape {
        at = match argument {
            Argument::Integer => check_variables(words, at, 1, variables, false)?,
            Argument::Boolean => check_variables(words, at, 1, variables, true)?,
            Argument::Number => check_numbers(words, at, 1)?,
            Argument::Exponent => check_exponent(words, at)?,
            Argument::Parallel => {
                let length = list_length(words, at)?;
                let behind = check_numbers(words, at + 1, length)?;
                check_variables(words, behind, length, variables, false)?
            }
            Argument::Numbers => check_numbers(words, at + 1, list_length(words, at)?)?,
            Argument::Integers => check_variables(words, at + 1, list_length(words, at)?, variables, false)?,
            Argument::Booleans => check_variables(words, at + 1, list_length(words, at)?, variables, true)?,
        };
    }
    Ok(at)
}

/// The list length at a place: fault 2, 3, 18, then 9.
fn list_length(words: &[u32], at: usize) -> Result<usize, Refusal> {
    let length = expect_signed(words, at, NUMBER)?;
    if (0..=LIST_LENGTH).contains(&length) {
        Ok(length as usize)
    } else {
        refusal(9, at)
    }
}

/// Checks the exponent at a place: fault 2, 3, 18, then 9. Answers the place behind it.
fn check_exponent(words: &[u32], at: usize) -> Result<usize, Refusal> {
    if (0..=EXPONENT).contains(&expect_signed(words, at, NUMBER)?) {
        Ok(at + 1)
    } else {
        refusal(9, at)
    }
}

/// Checks a count of variable arguments of one type: fault 2, 3, then 10. Answers the place behind them.
fn check_variables(words: &[u32], at: usize, count: usize, variables: &[Variable], boolean: bool) -> Result<usize, Refusal> {
    let behind = at + count;
    for (place, &word) in words[at..behind.min(words.len())].iter().enumerate() {
        if kind(word) != VARIABLE {
            return refusal(3, at + place);
        }
        match variables.get(number(word)) {
            Some(variable) if variable.boolean == boolean => (),
            _ => return refusal(10, at + place),
        }
    }
    if behind <= words.len() {
        Ok(behind)
    } else {
        refusal(2, words.len())
    }
}

/// Checks a count of number arguments: fault 2, 3, then 18. Answers the place behind them.
fn check_numbers(words: &[u32], at: usize, count: usize) -> Result<usize, Refusal> {
    let behind = at + count;
    let wrong = |&word: &u32| kind(word) != NUMBER || payload(word) == LOWEST;
    if let Some(place) = words[at..behind.min(words.len())].iter().position(wrong) {
        return refusal(if kind(words[at + place]) == NUMBER { 18 } else { 3 }, at + place);
    }
    if behind <= words.len() {
        Ok(behind)
    } else {
        refusal(2, words.len())
    }
}

/// Takes apart a constraint whose words passed `check_arguments`. Answers also the place behind it.
fn arguments(words: &[u32], head: usize) -> (Constraint<'_>, usize) {
    let code = payload(words[head]);
    let mut constraint = Constraint { code, single: [0; 3], numbers: &[], list: &[], second: &[], constant: 0 };
    let mut at = head + 1;
    let mut singles = 0;
    let mut lists = 0;
    for argument in SHAPES[code as usize - 1] {
        let first = words[at];
        at += 1;
        match argument {
            Argument::Integer | Argument::Boolean => {
                constraint.single[singles] = number(first);
                singles += 1;
            }
            Argument::Number | Argument::Exponent => constraint.constant = i64::from(signed(first)),
            Argument::Parallel => {
                let length = number(first);
                constraint.numbers = &words[at..at + length];
                constraint.list = &words[at + length..at + 2 * length];
                at += 2 * length;
            }
            Argument::Numbers => {
                constraint.numbers = &words[at..at + number(first)];
                at += number(first);
            }
            Argument::Integers | Argument::Booleans => {
                let words = &words[at..at + number(first)];
                if lists == 0 {
                    constraint.list = words;
                } else {
                    constraint.second = words;
                }
                lists += 1;
                at += words.len();
            }
        }
    }
    (constraint, at)
}

// --------------------------------------------------------------------------------------------------------------------------------- meaning

/// Whether a builtin is true of values inside the bounds (4.1, 4.2).
fn is_true(constraint: &Constraint, values: &[i32]) -> bool {
    let [a, b, c] = constraint.single.map(|variable| values.get(variable).map_or(0, |&value| i64::from(value)));
    let value = |word: &u32| i64::from(values[number(*word)]);
    let member = || constraint.numbers.iter().any(|&word| i64::from(signed(word)) == a);
    match constraint.code {
        1 | 16 => a == b,
        2 => a <= b,
        3 => a < b,
        4 | 17 => a != b,
        5 => (a <= b) == (c == 1),
        6 => a + b == c,
        7 => a * b == c,
        8 => a.abs() == b,
        9 => a.max(b) == c,
        10 => constraint.sum(values) == 0,
        11 => constraint.sum(values) <= 0,
        12 => constraint.sum(values) != 0,
        13 => (constraint.sum(values) == 0) == (a == 1),
        14 => (a == b) == (c == 1),
        15 => (constraint.sum(values) <= 0) == (a == 1),
        18 => (a == 1 && b == 1) == (c == 1),
        19 => (a == 1 || b == 1) == (c == 1),
        20 => (a != b) == (c == 1),
        21 => constraint.list.iter().any(|word| value(word) == 1) || constraint.second.iter().any(|word| value(word) == 0),
        22 => constraint.list.iter().all(|word| value(word) == 1) == (a == 1),
        23 => constraint.list.iter().filter(|word| value(word) == 1).count() % 2 == 1,
        24 => element(constraint.numbers, a).is_some_and(|&word| i64::from(signed(word)) == b),
        25 => element(constraint.list, a).is_some_and(|word| value(word) == b),
        26 => constraint.list.iter().map(value).max() == Some(a),
        27 => member(),
        28 => member() == (b == 1),
        29 => a.min(b) == c,
        30 | 36 => (a < b) == (c == 1),
        31 => (a != b) == (c == 1),
        32 => (constraint.sum(values) != 0) == (a == 1),
        33 => constraint.list.iter().map(value).min() == Some(a),
        34 => (a == b) == (c == 1),
        35 => (a <= b) == (c == 1),
        37 => b != 0 && a / b == c,
        38 => b != 0 && a % b == c,
        39 => is_power(a, constraint.constant, b),
        _ => false,
    }
}

/// Whether z is x multiplied k times with 1, all inside the range but the power.
fn is_power(x: i64, k: i64, z: i64) -> bool {
    let mut power = 1i64;
    for _ in 0..k {
        power *= x;
        // A power that has left the range never comes back: its base is not 0, 1 or −1.
        if !(LEAST..=LARGEST).contains(&power) {
            return false;
        }
    }
    power == z
}

/// The element of a list whose index, from 1, is given.
fn element(list: &[u32], index: i64) -> Option<&u32> {
    usize::try_from(index.checked_sub(1)?).ok().and_then(|index| list.get(index))
}

// ------------------------------------------------------------------------------------------------------------------------------ row blocks

/// What takes the parts of a block, or of a row system, in order: `Measure` counts them, `Writer` writes them, `RowJudge` judges them.
trait Sink {
    /// An auxiliary; of a row system also a source.
    fn variable(&mut self, lower: i64, upper: i64);
    fn row(&mut self, kind: u32, terms: usize);
    fn term(&mut self, variable: usize, coefficient: i64);
    fn constant(&mut self, constant: i64);
    fn product(&mut self, result: usize, first: usize, second: usize);

    /// Terms with one coefficient.
    fn terms(&mut self, variables: Range<usize>, coefficient: i64) {
        variables.for_each(|variable| self.term(variable, coefficient));
    }

    /// A row of few terms.
    fn whole_row<const N: usize>(&mut self, kind: u32, terms: [(usize, i64); N], constant: i64) {
        self.row(kind, N);
        for (variable, coefficient) in terms {
            self.term(variable, coefficient);
        }
        self.constant(constant);
    }

    /// An auxiliary in 0..1.
    fn bit(&mut self) {
        self.variable(0, 1);
    }

    /// An auxiliary in Z(v), v having the bounds given.
    fn with_zero(&mut self, lower: i64, upper: i64) {
        self.variable(lower.min(0), upper.max(0));
    }
}

/// The variables that 24, 25, 27 and 28 encode by bits (6.1).
struct Encodings {
    /// In how many constraints each variable is i of 24, 25 or x of 27, 28.
    uses: [u16; MODEL_VARIABLES],
    /// The number of the first bit of each shared variable that is encoded so far, 0 before.
    first: [u16; MODEL_VARIABLES],
}

impl Encodings {
    fn new() -> Self {
        Encodings { uses: [0; MODEL_VARIABLES], first: [0; MODEL_VARIABLES] }
    }

    fn count(&mut self, constraint: &Constraint) {
        self.uses[constraint.single[0]] += u16::from(constraint.encodes());
    }

    /// The same uses, and nothing encoded.
    fn restart(&mut self) {
        self.first = [0; MODEL_VARIABLES];
    }

    fn shared(&self, variable: usize) -> bool {
        self.uses[variable] > 1
    }

    /// Whether a constraint that encodes a variable brings bits of its own.
    fn brings_bits(&self, variable: usize) -> bool {
        !self.shared(variable) || self.first[variable] == 0
    }

    /// Where the bits of a variable begin for a constraint whose first auxiliary is given; a shared one keeps them. No auxiliary has number 0.
    fn enter(&mut self, variable: usize, auxiliary: usize) -> usize {
        if self.brings_bits(variable) {
            self.first[variable] = auxiliary as u16;
        }
        usize::from(self.first[variable])
    }
}

/// What a constraint of code 24, 25, 27 or 28 says of its encoded variable.
struct Choice<'a> {
    code: u32,
    lower: i64,
    upper: i64,
    /// Whether every declared value has a bit: in 28, and where the variable is shared.
    whole: bool,
    /// The elements of 24 and 25 whose index is inside the bounds, and the first such index.
    elements: &'a [u32],
    start: i64,
    /// The members of 27 and 28 inside the bounds, rising.
    members: [i64; LIST_LENGTH as usize],
    members_count: usize,
}

impl<'a> Choice<'a> {
    fn new(constraint: &Constraint<'a>, variables: &[Variable], encodings: &Encodings) -> Self {
        let (code, x) = (constraint.code, constraint.single[0]);
        let (lower, upper) = (i64::from(variables[x].lower), i64::from(variables[x].upper));
        let whole = code == 28 || encodings.shared(x);
        let (start, elements) = inside(if code == 24 { constraint.numbers } else { constraint.list }, lower, upper);
        let (members, members_count) = members(if code < 27 { &[] } else { constraint.numbers }, lower, upper);
        Choice { code, lower, upper, whole, elements, start, members, members_count }
    }

    fn members(&self) -> &[i64] {
        &self.members[..self.members_count]
    }

    /// The values that have bits, rising.
    fn values(&self) -> impl Iterator<Item = i64> + Clone + '_ {
        let count = match self.code {
            _ if self.whole => (self.upper - self.lower + 1) as usize,
            27 => self.members_count,
            _ => self.elements.len(),
        };
        (0..count).map(|at| match self.code {
            _ if self.whole => self.lower + at as i64,
            27 => self.members[at],
            _ => self.start + at as i64,
        })
    }

    /// Whether a value of the variable is left out: an index that no element has, or no member of 27.
    fn leaves_out(&self, value: i64) -> bool {
        match self.code {
            28 => false,
            27 => !self.members().contains(&value),
            _ => !(self.start..self.start + self.elements.len() as i64).contains(&value),
        }
    }
}

/// The block of codes 24, 25, 27 and 28 (6.2); `n` is the number of its first auxiliary.
fn choice_block(constraint: &Constraint, variables: &[Variable], n: usize, encodings: &mut Encodings, sink: &mut impl Sink) {
    let [x, result, _] = constraint.single;
    let choice = Choice::new(constraint, variables, encodings);
    let own = encodings.brings_bits(x);
    let first = encodings.enter(x, n);
    let z = if own { n + choice.values().count() } else { n };
    if own {
        choice.values().for_each(|_| sink.bit());
    }
    if constraint.code == 25 {
        for &word in choice.elements {
            let element = variables[number(word)];
            sink.with_zero(i64::from(element.lower), i64::from(element.upper));
        }
    }
    if own {
        one_of_rows(first, choice.values(), x, sink);
    }
    let left_out = choice.values().filter(|&value| choice.leaves_out(value));
    let bit = |value: i64| first + (value - if choice.whole { choice.lower } else { choice.start }) as usize;
    let count = left_out.clone().count();
    if count > 0 {
        sink.row(EQUAL, count);
        left_out.for_each(|value| sink.term(bit(value), 1));
        sink.constant(0);
    }
    match constraint.code {
        24 => {
            sink.row(EQUAL, choice.elements.len() + 1);
            (choice.start..).zip(choice.elements).for_each(|(index, &word)| sink.term(bit(index), i64::from(signed(word))));
            sink.term(result, -1);
            sink.constant(0);
        }
        25 => chosen_value_rows(z, choice.elements, (choice.start..).map(bit), result, sink),
        28 => {
            sink.row(EQUAL, choice.members().len() + 1);
            choice.members().iter().for_each(|&member| sink.term(bit(member), 1));
            sink.term(result, -1);
            sink.constant(0);
        }
        _ => (),
    }
}

/// The block of a constraint (5, 6); `n` is the number of its first auxiliary.
fn block(constraint: &Constraint, variables: &[Variable], n: usize, encodings: &mut Encodings, sink: &mut impl Sink) {
    let [a, b, c] = constraint.single;
    let bound = |variable: usize, upper: bool| variables.get(variable).map_or(0, |v| i64::from(if upper { v.upper } else { v.lower }));
    let lo = |variable| bound(variable, false);
    let hi = |variable| bound(variable, true);
    match constraint.code {
        1 | 16 => sink.whole_row(EQUAL, [(a, 1), (b, -1)], 0),
        2 => sink.whole_row(AT_MOST, [(a, 1), (b, -1)], 0),
        3 => sink.whole_row(AT_MOST, [(a, 1), (b, -1)], 1),
        4 => {
            let (p, q, r) = (hi(a) - lo(b) + 1, hi(b) - lo(a) + 1, n);
            sink.bit();
            sink.whole_row(AT_MOST, [(a, 1), (b, -1), (r, -p)], 1);
            sink.whole_row(AT_MOST, [(b, 1), (a, -1), (r, q)], 1 - q);
        }
        5 => {
            let (p, q, r) = (hi(a) - lo(b), hi(b) - lo(a) + 1, c);
            sink.whole_row(AT_MOST, [(a, 1), (b, -1), (r, p)], -p);
            sink.whole_row(AT_MOST, [(b, 1), (a, -1), (r, -q)], 1);
        }
        6 => sink.whole_row(EQUAL, [(a, 1), (b, 1), (c, -1)], 0),
        7 => {
            let (least, largest) = end_products((lo(a), hi(a)), (lo(b), hi(b)));
            sink.variable(least, largest);
            sink.product(n, a, b);
            sink.whole_row(EQUAL, [(n, 1), (c, -1)], 0);
        }
        8 => {
            let (x, y, bit, z) = (a, b, n, n + 1);
            sink.bit();
            sink.with_zero(lo(x), hi(x));
            sink.product(z, bit, x);
            sink.whole_row(EQUAL, [(y, 1), (x, -1), (z, 2)], 0);
            sink.whole_row(AT_MOST, [(y, -1)], 0);
            sign_row(x, bit, hi(x), sink);
        }
        9 => {
            let (p, q, r) = (hi(c) - lo(a), hi(c) - lo(b), n);
            sink.bit();
            sink.whole_row(AT_MOST, [(a, 1), (c, -1)], 0);
            sink.whole_row(AT_MOST, [(b, 1), (c, -1)], 0);
            sink.whole_row(AT_MOST, [(c, 1), (a, -1), (r, -p)], 0);
            sink.whole_row(AT_MOST, [(c, 1), (b, -1), (r, q)], -q);
            first_row((a, c), hi(a) - lo(c) + 1, r..r + 1, sink);
        }
        10 => sum_row(constraint, EQUAL, None, sink),
        11 => sum_row(constraint, AT_MOST, None, sink),
        12 => {
            let (x, bit, z) = (n, n + 1, n + 2);
            let (least, largest) = constraint.least_and_largest(variables);
            absolute_auxiliaries(least, largest, sink);
            sum_row(constraint, EQUAL, Some(x), sink);
            sink.product(z, bit, x);
            sink.whole_row(AT_MOST, [(x, -1), (z, 2)], 1);
            sign_row(x, bit, largest, sink);
        }
        13 => {
            let (least, largest) = constraint.least_and_largest(variables);
            absolute_auxiliaries(least, largest, sink);
            sum_row(constraint, EQUAL, Some(n), sink);
            reified_zero_rows(least, largest, n, a, sink);
        }
        32 => {
            let (least, largest) = constraint.least_and_largest(variables);
            absolute_auxiliaries(least, largest, sink);
            sum_row(constraint, EQUAL, Some(n), sink);
            reified_not_zero_rows(least, largest, n, a, sink);
        }
        14 => {
            let (least, largest) = (lo(a) - hi(b), hi(a) - lo(b));
            absolute_auxiliaries(least, largest, sink);
            sink.whole_row(EQUAL, [(a, 1), (b, -1), (n, -1)], 0);
            reified_zero_rows(least, largest, n, c, sink);
        }
        31 => {
            let (least, largest) = (lo(a) - hi(b), hi(a) - lo(b));
            absolute_auxiliaries(least, largest, sink);
            sink.whole_row(EQUAL, [(a, 1), (b, -1), (n, -1)], 0);
            reified_not_zero_rows(least, largest, n, c, sink);
        }
        15 => {
            let (x, r) = (n, a);
            let (least, largest) = constraint.least_and_largest(variables);
            sink.variable(least, largest);
            sum_row(constraint, EQUAL, Some(x), sink);
            sink.whole_row(AT_MOST, [(x, 1), (r, largest)], -largest);
            sink.whole_row(AT_MOST, [(x, -1), (r, least - 1)], 1);
        }
        17 => sink.whole_row(EQUAL, [(a, 1), (b, 1)], -1),
        18 => {
            let r = c;
            sink.whole_row(AT_MOST, [(r, 1), (a, -1)], 0);
            sink.whole_row(AT_MOST, [(r, 1), (b, -1)], 0);
            sink.whole_row(AT_MOST, [(a, 1), (b, 1), (r, -1)], -1);
        }
        19 => {
            let r = c;
            sink.whole_row(AT_MOST, [(r, 1), (a, -1), (b, -1)], 0);
            sink.whole_row(AT_MOST, [(a, 1), (b, 1), (r, -2)], 0);
        }
        20 => {
            let (r, x, y) = (c, n, n + 1);
            sink.bit();
            sink.bit();
            sink.product(x, r, a);
            sink.product(y, r, b);
            sink.whole_row(EQUAL, [(a, 1), (x, -1), (b, -1), (y, 1)], 0);
            sink.whole_row(EQUAL, [(x, 1), (y, 1), (r, -1)], 0);
        }
        21 => {
            let (first, second) = (constraint.list, constraint.second);
            sink.row(AT_MOST, first.len() + second.len());
            first.iter().for_each(|&word| sink.term(number(word), -1));
            second.iter().for_each(|&word| sink.term(number(word), 1));
            sink.constant(1 - second.len() as i64);
        }
        22 => {
            let (list, r) = (constraint.list, a);
            for &word in list {
                sink.whole_row(AT_MOST, [(r, 1), (number(word), -1)], 0);
            }
            sink.row(AT_MOST, list.len() + 1);
            list.iter().for_each(|&word| sink.term(number(word), 1));
            sink.term(r, -1);
            sink.constant(1 - list.len() as i64);
        }
        23 => {
            let (list, t) = (constraint.list, n);
            sink.variable(0, if list.is_empty() { 0 } else { (list.len() as i64 - 1) / 2 });
            sink.row(EQUAL, list.len() + 1);
            list.iter().for_each(|&word| sink.term(number(word), 1));
            sink.term(t, -2);
            sink.constant(-1);
        }
        24 | 25 | 27 | 28 => choice_block(constraint, variables, n, encodings, sink),
        26 | 33 => {
            let (list, m) = (constraint.list, a);
            list.iter().for_each(|_| sink.bit());
            list.iter().for_each(|&word| sink.with_zero(lo(number(word)), hi(number(word))));
            sum_of_bits_row(n, list.len(), sink);
            chosen_value_rows(n + list.len(), list, n.., m, sink);
            let in_order = |word: u32| if constraint.code == 26 { (number(word), m) } else { (m, number(word)) };
            for &word in list {
                let (below, above) = in_order(word);
                sink.whole_row(AT_MOST, [(below, 1), (above, -1)], 0);
            }
            // The last element has none: no bit stands behind its own.
            for (k, &word) in list.iter().enumerate().take(list.len().saturating_sub(1)) {
                let (below, above) = in_order(word);
                first_row((below, above), hi(below) - lo(above) + 1, n + k + 1..n + list.len(), sink);
            }
        }
        29 => {
            let (p, q, r) = (hi(a) - lo(c), hi(b) - lo(c), n);
            sink.bit();
            sink.whole_row(AT_MOST, [(c, 1), (a, -1)], 0);
            sink.whole_row(AT_MOST, [(c, 1), (b, -1)], 0);
            sink.whole_row(AT_MOST, [(a, 1), (c, -1), (r, -p)], 0);
            sink.whole_row(AT_MOST, [(b, 1), (c, -1), (r, q)], -q);
            first_row((c, a), hi(c) - lo(a) + 1, r..r + 1, sink);
        }
        30 => {
            let (p, q, r) = (hi(a) - lo(b) + 1, hi(b) - lo(a), c);
            sink.whole_row(AT_MOST, [(a, 1), (b, -1), (r, p)], 1 - p);
            sink.whole_row(AT_MOST, [(b, 1), (a, -1), (r, -q)], 0);
        }
        34 => {
            let (r, x, y) = (c, n, n + 1);
            sink.bit();
            sink.bit();
            sink.product(x, r, a);
            sink.product(y, r, b);
            sink.whole_row(EQUAL, [(x, 1), (y, -1)], 0);
            sink.whole_row(EQUAL, [(r, -1), (a, -1), (b, -1), (x, 1), (y, 1)], 1);
        }
        35 => {
            let r = c;
            sink.whole_row(AT_MOST, [(a, -1), (r, -1)], 1);
            sink.whole_row(AT_MOST, [(b, 1), (r, -1)], 0);
            sink.whole_row(AT_MOST, [(a, 1), (b, -1), (r, 1)], -1);
        }
        36 => {
            let r = c;
            sink.whole_row(AT_MOST, [(a, 1), (r, 1)], -1);
            sink.whole_row(AT_MOST, [(r, 1), (b, -1)], 0);
            sink.whole_row(AT_MOST, [(b, 1), (a, -1), (r, -1)], 0);
        }
        37 => {
            let bounds = [(lo(a), hi(a)), (lo(b), hi(b)), (lo(c), hi(c))];
            division(a, b, c, bounds, n, sink);
        }
        38 => {
            let largest = lo(a).abs().max(hi(a).abs());
            sink.variable(-largest, largest);
            let bounds = [(lo(a), hi(a)), (lo(b), hi(b)), (-largest, largest)];
            division(a, b, n, bounds, n + 1, sink);
            let p = n + 3;
            sink.whole_row(EQUAL, [(p, 1), (c, 1), (a, -1)], 0);
        }
        39 => {
            let (x, z, k) = (a, b, constraint.constant);
            if k == 0 {
                return sink.whole_row(EQUAL, [(z, 1)], -1);
            }
            // Bounds outside the range are found so; they are cut, as their products could leave 64 bits.
            let cut = |bound: i64| bound.clamp(2 * LEAST, 2 * LARGEST);
            power((lo(x), hi(x)), k, &mut |first, second| {
                let (least, largest) = end_products(first, second);
                sink.variable(least, largest);
                (cut(least), cut(largest))
            });
            let mut results = n..;
            let result = power(x, k, &mut |first, second| {
                let result = results.next().unwrap_or(n);
                sink.product(result, first, second);
                result
            });
            sink.whole_row(EQUAL, [(result, 1), (z, -1)], 0);
        }
        _ => (),
    }
}

/// The row of Σ − c, or of Σ − x − c.
fn sum_row(constraint: &Constraint, kind: u32, x: Option<usize>, sink: &mut impl Sink) {
    sink.row(kind, constraint.list.len() + usize::from(x.is_some()));
    constraint.terms().for_each(|(coefficient, variable)| sink.term(variable, coefficient));
    x.into_iter().for_each(|x| sink.term(x, -1));
    sink.constant(-constraint.constant);
}

/// The auxiliaries of codes 12 to 14, 31 and 32: x in L..U, b, z in Z(x).
fn absolute_auxiliaries(least: i64, largest: i64, sink: &mut impl Sink) {
    sink.variable(least, largest);
    sink.bit();
    sink.with_zero(least, largest);
}

/// The rows of codes 13 and 14 behind the first: z:=b×x; x−2×z+W×r−W≤0; −x+2×z−r+1≤0; the row of the sign.
fn reified_zero_rows(least: i64, largest: i64, x: usize, r: usize, sink: &mut impl Sink) {
    let (bit, z, w) = (x + 1, x + 2, least.abs().max(largest.abs()));
    sink.product(z, bit, x);
    sink.whole_row(AT_MOST, [(x, 1), (z, -2), (r, w)], -w);
    sink.whole_row(AT_MOST, [(x, -1), (z, 2), (r, -1)], 1);
    sign_row(x, bit, largest, sink);
}

/// The rows of codes 31 and 32 behind the first: z:=b×x; x−2×z−W×r≤0; −x+2×z+r≤0; the row of the sign.
fn reified_not_zero_rows(least: i64, largest: i64, x: usize, r: usize, sink: &mut impl Sink) {
    let (bit, z, w) = (x + 1, x + 2, least.abs().max(largest.abs()));
    sink.product(z, bit, x);
    sink.whole_row(AT_MOST, [(x, 1), (z, -2), (r, -w)], 0);
    sink.whole_row(AT_MOST, [(x, -1), (z, 2), (r, 1)], 0);
    sign_row(x, bit, largest, sink);
}

/// x+(U+1)×b−U≤0: b is 1 only for a negative x, U being the largest x (5.6, 5.8).
fn sign_row(x: usize, bit: usize, largest: i64, sink: &mut impl Sink) {
    sink.whole_row(AT_MOST, [(x, 1), (bit, largest + 1)], -largest);
}

/// below−above+K×(sum of bits)+1−K≤0: one of the bits is 1 only where the two differ, so that of equal elements the first is taken (5.7, 5.13).
fn first_row((below, above): (usize, usize), k: i64, bits: Range<usize>, sink: &mut impl Sink) {
    sink.row(AT_MOST, 2 + bits.len());
    sink.term(below, 1);
    sink.term(above, -1);
    sink.terms(bits, k);
    sink.constant(1 - k);
}

/// The least and the largest of the four end products of two variables, each with its lower and upper bound.
fn end_products(a: (i64, i64), b: (i64, i64)) -> (i64, i64) {
    let ends = [a.0 * b.0, a.0 * b.1, a.1 * b.0, a.1 * b.1];
    (ends.into_iter().fold(i64::MAX, i64::min), ends.into_iter().fold(i64::MIN, i64::max))
}

/// The auxiliaries α, β, p, γ of codes 37 and 38, numbered from `first` on, the two products and the ten rows; the bounds of n, d and q.
fn division(n: usize, d: usize, q: usize, bounds: [(i64, i64); 3], first: usize, sink: &mut impl Sink) {
    let [(n_lo, n_hi), (d_lo, d_hi), q_bounds] = bounds;
    let (p_lo, p_hi) = end_products((d_lo, d_hi), q_bounds);
    let differences = [p_hi - n_lo, n_hi - p_lo, n_hi - d_lo - p_lo + 1, p_hi - n_lo + d_hi + 1, n_hi + d_hi - p_lo + 1, p_hi - n_lo - d_lo + 1];
    let m = differences.into_iter().fold(i64::MIN, i64::max);
    let (alpha, beta, p, gamma) = (first, first + 1, first + 2, first + 3);
    sink.bit();
    sink.bit();
    sink.variable(p_lo, p_hi);
    sink.bit();
    sink.product(p, d, q);
    sink.product(gamma, alpha, beta);
    // n, d, p, α, β, γ and the constant
    let rows = [
        [-1, 0, 0, -n_lo, 0, 0, n_lo],
        [1, 0, 0, -(n_hi + 1), 0, 0, 1],
        [0, -1, 0, 0, 1 - d_lo, 0, d_lo],
        [0, 1, 0, 0, -(d_hi + 1), 0, 1],
        [-1, 0, 1, m, 0, 0, -m],
        [1, 0, -1, -m, 0, 0, 0],
        [1, -1, -1, 0, 0, m, 1 - m],
        [-1, 1, 1, -m, -m, m, 1],
        [1, 1, -1, m, 0, -m, 1 - m],
        [-1, -1, 1, 0, m, -m, 1 - m],
    ];
    for [of_n, of_d, of_p, of_alpha, of_beta, of_gamma, constant] in rows {
        sink.whole_row(AT_MOST, [(n, of_n), (d, of_d), (p, of_p), (alpha, of_alpha), (beta, of_beta), (gamma, of_gamma)], constant);
    }
}

/// The k-th power of x by halving (5.16), k being 1 at least: the half power squared and, for an odd k, x times that. Gives the factors of each
/// product, in order, to `product`, which answers the result.
fn power<T: Copy>(x: T, k: i64, product: &mut impl FnMut(T, T) -> T) -> T {
    if k <= 1 {
        return x;
    }
    let half = power(x, k / 2, product);
    let square = product(half, half);
    if k % 2 == 0 {
        square
    } else {
        product(x, square)
    }
}

/// Σb−1=0 over consecutive auxiliaries.
fn sum_of_bits_row(first: usize, count: usize, sink: &mut impl Sink) {
    sink.row(EQUAL, count);
    (first..first + count).for_each(|bit| sink.term(bit, 1));
    sink.constant(-1);
}

/// Σb−1=0; Σj×b_j−i=0 over consecutive auxiliaries, one for each number j.
fn one_of_rows(first: usize, numbers: impl Iterator<Item = i64> + Clone, variable: usize, sink: &mut impl Sink) {
    let count = numbers.clone().count();
    sum_of_bits_row(first, count, sink);
    sink.row(EQUAL, count + 1);
    numbers.zip(first..).for_each(|(number, bit)| sink.term(bit, number));
    sink.term(variable, -1);
    sink.constant(0);
}

/// z_j:=v_j×b_j for each variable of the list and its bit, the z numbered from `z` on; Σz−result=0.
fn chosen_value_rows(z: usize, list: &[u32], bits: impl Iterator<Item = usize>, result: usize, sink: &mut impl Sink) {
    for ((z, &word), bit) in (z..).zip(list).zip(bits) {
        sink.product(z, number(word), bit);
    }
    sink.row(EQUAL, list.len() + 1);
    (z..z + list.len()).for_each(|z| sink.term(z, 1));
    sink.term(result, -1);
    sink.constant(0);
}

/// The elements whose index, from 1, is inside the bounds, and the first such index (5.12).
fn inside(list: &[u32], lower: i64, upper: i64) -> (i64, &[u32]) {
    let start = lower.max(1);
    let last = upper.min(list.len() as i64);
    if start > last {
        return (start, &[]);
    }
    (start, &list[start as usize - 1..last as usize])
}

/// The members of a set inside the bounds, rising, repeats counted once, and their number.
fn members(numbers: &[u32], lower: i64, upper: i64) -> ([i64; LIST_LENGTH as usize], usize) {
    let mut members = [0; LIST_LENGTH as usize];
    let mut count = 0;
    for &word in numbers {
        let member = i64::from(signed(word));
        if (lower..=upper).contains(&member) {
            members[count] = member;
            count += 1;
        }
    }
    members[..count].sort_unstable();
    let mut kept = 0;
    for at in 0..count {
        if kept == 0 || members[kept - 1] != members[at] {
            members[kept] = members[at];
            kept += 1;
        }
    }
    (members, kept)
}

/// Counts what a block writes, and sees whether all its numbers are inside the range.
#[derive(Default)]
struct Measure {
    auxiliaries: usize,
    rows: usize,
    words: usize,
    outside: bool,
}

impl Measure {
    fn number(&mut self, number: i64) {
        self.outside |= !(LEAST..=LARGEST).contains(&number);
    }
}

impl Sink for Measure {
    fn variable(&mut self, lower: i64, upper: i64) {
        self.auxiliaries += 1;
        self.words += 2;
        self.number(lower);
        self.number(upper);
    }

    fn row(&mut self, _kind: u32, terms: usize) {
        self.rows += 1;
        self.words += 2 + 2 * terms;
    }

    fn term(&mut self, _variable: usize, coefficient: i64) {
        self.number(coefficient);
    }

    fn terms(&mut self, variables: Range<usize>, coefficient: i64) {
        if !variables.is_empty() {
            self.number(coefficient);
        }
    }

    fn constant(&mut self, constant: i64) {
        self.number(constant);
    }

    fn product(&mut self, _result: usize, _first: usize, _second: usize) {
        self.rows += 1;
        self.words += 4;
    }
}

/// Writes a measured block to the front of what is left of the output.
struct Writer<'a> {
    rest: &'a mut [u32],
    auxiliaries: usize,
}

impl Writer<'_> {
    fn write<const N: usize>(&mut self, words: [u32; N]) {
        let rest = std::mem::take(&mut self.rest);
        if let Some((front, rest)) = rest.split_first_chunk_mut() {
            *front = words;
            self.rest = rest;
        }
    }
}

impl Sink for Writer<'_> {
    fn variable(&mut self, lower: i64, upper: i64) {
        self.auxiliaries += 1;
        self.write([word(AUX_LOWER, lower), word(AUX_UPPER, upper)]);
    }

    fn row(&mut self, kind: u32, terms: usize) {
        self.write([word(kind, terms as i64)]);
    }

    fn term(&mut self, variable: usize, coefficient: i64) {
        self.write([word(VARIABLE, variable as i64), word(NUMBER, coefficient)]);
    }

    fn constant(&mut self, constant: i64) {
        self.write([word(NUMBER, constant)]);
    }

    fn product(&mut self, result: usize, first: usize, second: usize) {
        self.write([word(PRODUCT, 0), word(VARIABLE, result as i64), word(VARIABLE, first as i64), word(VARIABLE, second as i64)]);
    }
}

// ----------------------------------------------------------------------------------------------------------------------------------- calls

/// Reads a model and measures its blocks: faults 1 to 11 and 18, then the first constraint's fault of 12 to 14. Gives each constraint to `visit`.
/// Afterwards the encodings have the uses of the variables and nothing encoded.
fn measure<'a>(
    words: &'a [u32],
    variables: &mut Variables,
    encodings: &mut Encodings,
    mut visit: impl FnMut(&Variables, &Constraint<'a>),
) -> Result<Counts, Refusal> {
    read_variables(words, variables)?;
    let variables = &*variables;
    let constraints = read_constraints(words, variables, |_, constraint| {
        visit(variables, constraint);
        encodings.count(constraint);
    })?;
    let mut total = Measure::default();
    let mut at = variables.end;
    for _ in 0..constraints {
        let (constraint, next) = arguments(words, at);
        if let Some(fault) = measure_block(&constraint, variables, encodings, &mut total) {
            return refusal(fault, at);
        }
        at = next;
    }
    encodings.restart();
    Ok(Counts {
        variables: variables.count,
        constraints,
        auxiliaries: total.auxiliaries,
        rows: total.rows,
        words: variables.end + total.words + 1,
        ..Counts::default()
    })
}

/// Adds a constraint's block to the measure: its fault of 12 to 14.
fn measure_block(constraint: &Constraint, variables: &Variables, encodings: &mut Encodings, total: &mut Measure) -> Option<u32> {
    let encoded = constraint.single[0];
    let all_values = constraint.encodes() && (constraint.code == 28 || encodings.shared(encoded));
    if all_values && encodings.brings_bits(encoded) {
        let x = variables.list()[encoded];
        if i64::from(x.upper) - i64::from(x.lower) + 1 > ENCODING_WIDTH {
            return Some(12);
        }
    }
    block(constraint, variables.list(), variables.count + total.auxiliaries, encodings, total);
    if total.outside {
        return Some(13);
    }
    (variables.count + total.auxiliaries > ALL_VARIABLES).then_some(14)
}

/// Check: the counts of a model, or its fault.
pub fn check(words: &[u32]) -> Counts {
    measure(words, &mut Variables::new(), &mut Encodings::new(), |_, _| ()).unwrap_or_else(Counts::from)
}

/// Check over bytes, four to a word, lowest first: the refusal number, 0 if accepted; 1 to 3 spare bytes are left off.
pub fn check_bytes(bytes: &[u8]) -> u32 {
    if bytes.len() / 4 > MODEL_WORDS {
        return 1;
    }
    let words: Vec<u32> = bytes.chunks_exact(4).map(|four| u32::from_le_bytes([four[0], four[1], four[2], four[3]])).collect();
    check(&words).fault
}

/// Translate: writes a model's row system to the front of the output.
pub fn translate(words: &[u32], out: &mut [u32]) -> Written {
    let (mut variables, mut encodings) = (Variables::new(), Encodings::new());
    let counts = match measure(words, &mut variables, &mut encodings, |_, _| ()) {
        Ok(counts) => counts,
        Err(refusal) => return refusal.into(),
    };
    let Some(out) = out.get_mut(..counts.words) else { return Refusal { fault: 16, place: 0 }.into() };
    let (sources, rest) = out.split_at_mut(variables.end);
    // The variables of a model and those of its row system have the same words.
    sources.copy_from_slice(&words[..variables.end]);
    let mut writer = Writer { rest, auxiliaries: 0 };
    let mut at = variables.end;
    for _ in 0..counts.constraints {
        let (constraint, next) = arguments(words, at);
        let first = variables.count + writer.auxiliaries;
        block(&constraint, variables.list(), first, &mut encodings, &mut writer);
        at = next;
    }
    writer.write([word(ROWS_END, 0)]);
    Written { fault: 0, place: 0, words: counts.words }
}

/// The first variable whose value is out of its bounds.
fn first_out_of_bounds(variables: &[Variable], values: &[i32]) -> Option<usize> {
    variables.iter().zip(values).position(|(variable, &value)| value < variable.lower || value > variable.upper)
}

fn judgement(out_of_bounds: Option<usize>, first_false: Option<usize>) -> Judgement {
    match (out_of_bounds, first_false) {
        (Some(variable), _) => Judgement { said: OUT_OF_BOUNDS, fault: 0, at: variable },
        (None, Some(constraint)) => Judgement { said: FALSE, fault: 0, at: constraint },
        (None, None) => Judgement { said: HOLDS, fault: 0, at: 0 },
    }
}

/// Judges a model's constraints in order; the values have the right number and are inside the bounds.
struct Judge<'a> {
    values: &'a [i32],
    seen: usize,
    first_false: Option<usize>,
}

impl Judge<'_> {
    fn constraint(&mut self, constraint: &Constraint) {
        if self.first_false.is_none() && !is_true(constraint, self.values) {
            self.first_false = Some(self.seen);
        }
        self.seen += 1;
    }
}

/// Judge-model: whether the values keep the bounds and make every builtin true.
pub fn judge_model(words: &[u32], values: &[i32]) -> Judgement {
    try_judge_model(words, values).unwrap_or_else(Judgement::from)
}

fn try_judge_model(words: &[u32], values: &[i32]) -> Result<Judgement, Refusal> {
    let mut variables = Variables::new();
    read_variables(words, &mut variables)?;
    let out_of_bounds = first_out_of_bounds(variables.list(), values);
    let judging = values.len() == variables.count && out_of_bounds.is_none();
    let mut judge = Judge { values, seen: 0, first_false: None };
    read_constraints(words, &variables, |_, constraint| {
        if judging {
            judge.constraint(constraint);
        }
    })?;
    if values.len() != variables.count {
        return refusal(15, 0);
    }
    Ok(judgement(out_of_bounds, judge.first_false))
}

/// Fill: the values and the auxiliaries that belong to them, where judge-model says "holds".
pub fn fill(words: &[u32], values: &[i32], out: &mut [i32]) -> Judgement {
    try_fill(words, values, out).unwrap_or_else(Judgement::from)
}

fn try_fill(words: &[u32], values: &[i32], out: &mut [i32]) -> Result<Judgement, Refusal> {
    let mut judge = Judge { values, seen: 0, first_false: None };
    let mut judging = None;
    let (mut variables, mut encodings) = (Variables::new(), Encodings::new());
    let counts = measure(words, &mut variables, &mut encodings, |variables, constraint| {
        if *judging.get_or_insert_with(|| values.len() == variables.count && first_out_of_bounds(variables.list(), values).is_none()) {
            judge.constraint(constraint);
        }
    })?;
    if values.len() != variables.count {
        return refusal(15, 0);
    }
    let count = counts.variables + counts.auxiliaries;
    let Some(out) = out.get_mut(..count) else { return refusal(16, 0) };
    let judged = judgement(first_out_of_bounds(variables.list(), values), judge.first_false);
    if judged.said != HOLDS {
        return Ok(judged);
    }
    let (sources, rest) = out.split_at_mut(counts.variables);
    sources.copy_from_slice(values);
    let mut auxiliaries = Auxiliaries { rest, used: 0 };
    let mut at = variables.end;
    for _ in 0..counts.constraints {
        let (constraint, next) = arguments(words, at);
        fill_block(&constraint, variables.list(), values, counts.variables, &mut encodings, &mut auxiliaries);
        at = next;
    }
    Ok(Judgement { said: HOLDS, fault: 0, at: count })
}

/// The places of the auxiliaries in fill's output.
struct Auxiliaries<'a> {
    rest: &'a mut [i32],
    used: usize,
}

impl Auxiliaries<'_> {
    fn push(&mut self, value: i64) {
        self.rest[self.used] = value as i32;
        self.used += 1;
    }

    /// The bit b, 1 only for a negative x, then z = b×x.
    fn sign(&mut self, x: i64) {
        self.push(i64::from(x < 0));
        self.push(x.min(0));
    }

    /// α=1 exactly for n≥0, β=1 exactly for d>0, p = d×q, γ = α×β.
    fn division(&mut self, n: i64, d: i64, q: i64) {
        let (alpha, beta) = (i64::from(n >= 0), i64::from(d > 0));
        self.push(alpha);
        self.push(beta);
        self.push(d * q);
        self.push(alpha * beta);
    }

    /// A bit for each element of a list, 1 at one place.
    fn one_of(&mut self, count: usize, place: usize) {
        (0..count).for_each(|at| self.push(i64::from(at == place)));
    }

    /// The value of one element at its place, 0 at all others.
    fn value_at(&mut self, count: usize, place: usize, value: i64) {
        (0..count).for_each(|at| self.push(if at == place { value } else { 0 }));
    }
}

/// The auxiliaries of a constraint that is true of the values (7.4); `sources` is their number.
fn fill_block(constraint: &Constraint, variables: &[Variable], values: &[i32], sources: usize, encodings: &mut Encodings, out: &mut Auxiliaries) {
    let [a, b, c] = constraint.single.map(|variable| values.get(variable).map_or(0, |&value| i64::from(value)));
    match constraint.code {
        4 => out.push(i64::from(a > b)),
        7 => out.push(a * b),
        8 => out.sign(a),
        9 | 29 => out.push(i64::from(a != c)),
        12 | 13 | 32 => {
            let x = constraint.sum(values);
            out.push(x);
            out.sign(x);
        }
        14 | 31 => {
            out.push(a - b);
            out.sign(a - b);
        }
        15 => out.push(constraint.sum(values)),
        37 => out.division(a, b, c),
        38 => {
            out.push(a / b);
            out.division(a, b, a / b);
        }
        39 => {
            power(a, constraint.constant, &mut |first, second| {
                out.push(first * second);
                first * second
            });
        }
        20 | 34 => {
            out.push(c * a);
            out.push(c * b);
        }
        23 => {
            let sum: i64 = constraint.list.iter().map(|&word| i64::from(values[number(word)])).sum();
            out.push((sum - 1) / 2);
        }
        24 | 25 | 27 | 28 => {
            let x = constraint.single[0];
            let choice = Choice::new(constraint, variables, encodings);
            if encodings.brings_bits(x) {
                encodings.enter(x, sources + out.used);
                choice.values().for_each(|value| out.push(i64::from(value == a)));
            }
            if constraint.code == 25 {
                out.value_at(choice.elements.len(), (a - choice.start) as usize, b);
            }
        }
        26 | 33 => {
            let list = constraint.list;
            let first = list.iter().position(|&word| i64::from(values[number(word)]) == a).unwrap_or(0);
            out.one_of(list.len(), first);
            out.value_at(list.len(), first, a);
        }
        _ => (),
    }
}

// ------------------------------------------------------------------------------------------------------------------------------ row systems

/// Reads a row system: faults 1 to 5, 9 to 11, 14, 17 and 18. Gives its parts to a sink as they are read; answers the number of variables.
fn read_rows(words: &[u32], sink: &mut impl Sink) -> Result<usize, Refusal> {
    if words.len() > ROW_WORDS {
        return refusal(1, 0);
    }
    let mut at = 0;
    let mut declared = 0;
    let mut sources = true;
    loop {
        let Some(&word) = words.get(at) else { return refusal(2, at) };
        match kind(word) {
            first @ (LOWER | BOOLEAN | AUX_LOWER) if sources || first == AUX_LOWER => {
                if first == BOOLEAN && payload(word) > 0 {
                    return refusal(5, at);
                }
                if first != BOOLEAN {
                    ranged(word, at)?;
                }
                if declared == ALL_VARIABLES {
                    return refusal(14, at);
                }
                let (lower, upper) = match first {
                    LOWER => bound_pair(words, at, UPPER)?,
                    AUX_LOWER => bound_pair(words, at, AUX_UPPER)?,
                    _ => (0, 1),
                };
                sink.variable(i64::from(lower), i64::from(upper));
                sources &= first != AUX_LOWER;
                declared += 1;
                at += if first == BOOLEAN { 1 } else { 2 };
            }
            form @ (AT_MOST | EQUAL | PRODUCT) => {
                at = if form == PRODUCT { read_product(words, at, declared, sink)? } else { read_row(words, at, declared, sink)? };
                sources = false;
            }
            ROWS_END => {
                end(words, at)?;
                return Ok(declared);
            }
            _ => return refusal(3, at),
        }
    }
}

/// Reads the row at a place: faults 2, 3, 9, 10 and 18. Answers the place behind it.
fn read_row(words: &[u32], head: usize, declared: usize, sink: &mut impl Sink) -> Result<usize, Refusal> {
    let terms = payload(words[head]);
    if terms > ROW_TERMS {
        return refusal(9, head);
    }
    sink.row(kind(words[head]), terms as usize);
    let mut at = head + 1;
    for _ in 0..terms {
        let variable = number(expect(words, at, VARIABLE)?);
        if variable >= declared {
            return refusal(10, at);
        }
        sink.term(variable, i64::from(expect_signed(words, at + 1, NUMBER)?));
        at += 2;
    }
    sink.constant(i64::from(expect_signed(words, at, NUMBER)?));
    Ok(at + 1)
}

/// Reads the product at a place: faults 2, 3, 5, 10 and 17. Answers the place behind it.
fn read_product(words: &[u32], head: usize, declared: usize, sink: &mut impl Sink) -> Result<usize, Refusal> {
    if payload(words[head]) > 0 {
        return refusal(5, head);
    }
    let result = number(expect(words, head + 1, VARIABLE)?);
    if result >= declared {
        return refusal(10, head + 1);
    }
    if let Some(&[first, second]) = words.get(head + 2..head + 4) {
        if kind(first) == VARIABLE && kind(second) == VARIABLE && result <= number(first).max(number(second)) {
            return refusal(17, head + 1);
        }
    }
    let mut factors = [0; 2];
    for (at, factor) in (head + 2..).zip(&mut factors) {
        *factor = number(expect(words, at, VARIABLE)?);
        if *factor >= declared {
            return refusal(10, at);
        }
    }
    sink.product(result, factors[0], factors[1]);
    Ok(head + 4)
}

/// Judges variables, rows and products as they come. A value that is not lent counts as 0, since fault 15 follows.
struct RowJudge<'a> {
    values: &'a [i32],
    variables: usize,
    rows: usize,
    out_of_bounds: Option<usize>,
    first_false: Option<usize>,
    kind: u32,
    sum: i64,
}

impl RowJudge<'_> {
    fn value(&self, variable: usize) -> i64 {
        self.values.get(variable).map_or(0, |&value| i64::from(value))
    }

    fn judged(&mut self, satisfied: bool) {
        if self.first_false.is_none() && !satisfied {
            self.first_false = Some(self.rows);
        }
        self.rows += 1;
    }
}

impl Sink for RowJudge<'_> {
    fn variable(&mut self, lower: i64, upper: i64) {
        if self.out_of_bounds.is_none() && !(lower..=upper).contains(&self.value(self.variables)) {
            self.out_of_bounds = Some(self.variables);
        }
        self.variables += 1;
    }

    fn row(&mut self, kind: u32, _terms: usize) {
        (self.kind, self.sum) = (kind, 0);
    }

    fn term(&mut self, variable: usize, coefficient: i64) {
        // It wraps only where a value is far out of its bounds; then no row is named.
        self.sum = self.sum.wrapping_add(coefficient * self.value(variable));
    }

    fn constant(&mut self, constant: i64) {
        let sum = self.sum.wrapping_add(constant);
        self.judged(if self.kind == EQUAL { sum == 0 } else { sum <= 0 });
    }

    fn product(&mut self, result: usize, first: usize, second: usize) {
        self.judged(self.value(result) == self.value(first) * self.value(second));
    }
}

/// Judge-rows: whether the values keep the bounds and satisfy every row and product.
pub fn judge_rows(words: &[u32], values: &[i32]) -> Judgement {
    let mut judge = RowJudge { values, variables: 0, rows: 0, out_of_bounds: None, first_false: None, kind: EQUAL, sum: 0 };
    match read_rows(words, &mut judge) {
        Err(refusal) => refusal.into(),
        Ok(variables) if variables != values.len() => Refusal { fault: 15, place: 0 }.into(),
        Ok(_) => judgement(judge.out_of_bounds, judge.first_false),
    }
}

// ---------------------------------------------------------------------------------------------------------------------------------- sheet

/// The lines of a printed row system (7.5).
#[derive(Default)]
struct Page {
    text: String,
    /// The line that is begun, without the blanks at its end.
    line: String,
    rows: usize,
    terms: usize,
}

impl Page {
    fn begin(&mut self, sign: &str) {
        self.line = format!("{:>6}{sign}", self.rows);
        self.rows += 1;
        self.terms = 0;
    }

    /// Closes the line that is begun with blanks up to 80 columns and a line feed.
    fn close(&mut self) {
        self.text += &format!("{:<80}\n", self.line);
    }
}

impl Sink for Page {
    fn variable(&mut self, _lower: i64, _upper: i64) {}

    fn row(&mut self, kind: u32, _terms: usize) {
        self.begin(if kind == EQUAL { "= " } else { "<=" });
    }

    fn term(&mut self, variable: usize, coefficient: i64) {
        if self.terms == 3 {
            self.close();
            (self.line, self.terms) = (" ".repeat(8), 0);
        }
        self.line += &format!("{coefficient:>10} v{variable:<11}");
        self.terms += 1;
    }

    fn constant(&mut self, constant: i64) {
        self.close();
        self.line = format!("{constant:>80}");
        self.close();
    }

    fn product(&mut self, result: usize, first: usize, second: usize) {
        self.begin(":=");
        [result, first, second].into_iter().for_each(|variable| self.term(variable, 1));
        self.constant(0);
    }
}

/// The sheet of a row system, or its fault of those that judge-rows meets but 15.
pub fn printed(words: &[u32]) -> Result<String, Refusal> {
    let mut page = Page::default();
    read_rows(words, &mut page)?;
    Ok(page.text)
}

/// Sheet: prints a row system to the front of a page.
pub fn sheet(words: &[u32], page: &mut [u8]) -> Printed {
    match printed(words) {
        Err(refusal) => refusal.into(),
        Ok(text) => match page.get_mut(..text.len()) {
            None => Refusal { fault: 16, place: 0 }.into(),
            Some(front) => {
                front.copy_from_slice(text.as_bytes());
                Printed { fault: 0, place: 0, bytes: text.len() }
            }
        },
    }
}

// --------------------------------------------------------------------------------------------------------------------------------- reason

/// Reason: the first row that fails of values inside all bounds, the constraint whose block holds it, and whether its builtin is false (7.6).
pub fn reason(words: &[u32], values: &[i32]) -> Reason {
    try_reason(words, values).unwrap_or_else(Reason::from)
}

fn try_reason(words: &[u32], values: &[i32]) -> Result<Reason, Refusal> {
    let (mut variables, mut encodings) = (Variables::new(), Encodings::new());
    let counts = measure(words, &mut variables, &mut encodings, |_, _| ())?;
    if values.len() != counts.variables + counts.auxiliaries {
        return refusal(15, 0);
    }
    let mut judge = RowJudge { values, variables: 0, rows: 0, out_of_bounds: None, first_false: None, kind: EQUAL, sum: 0 };
    variables.list().iter().for_each(|variable| judge.variable(i64::from(variable.lower), i64::from(variable.upper)));
    let mut failing = None;
    let mut at = variables.end;
    for place in 0..counts.constraints {
        let (constraint, next) = arguments(words, at);
        let first = judge.variables;
        block(&constraint, variables.list(), first, &mut encodings, &mut judge);
        if failing.is_none() && judge.first_false.is_some() {
            failing = Some((place, constraint));
        }
        at = next;
    }
    Ok(match (judge.out_of_bounds, judge.first_false.zip(failing)) {
        (Some(variable), _) => Reason { said: OUT_OF_BOUNDS, place: variable, ..Reason::default() },
        (None, None) => Reason { said: HOLDS, ..Reason::default() },
        (None, Some((row, (place, constraint)))) => {
            let said = if is_true(&constraint, &values[..counts.variables]) { AUXILIARIES } else { BUILTIN };
            Reason { said, row, constraint: place, ..Reason::default() }
        }
    })
}

// ------------------------------------------------------------------------------------------------------------------------------ solutions

/// The solutions of a model, one after another in rising order (7.7), and their number; or the model's fault.
pub fn all_solutions(words: &[u32]) -> Result<(Vec<i32>, usize), Refusal> {
    let mut variables = Variables::new();
    let mut constraints = vec![];
    measure(words, &mut variables, &mut Encodings::new(), |_, constraint| constraints.push(*constraint))?;
    let mut value_lists = 1u64;
    for variable in variables.list() {
        // It is cut above the limit, so that nothing is lost.
        value_lists = (value_lists * (i64::from(variable.upper) - i64::from(variable.lower) + 1) as u64).min(VALUE_LISTS + 1);
    }
    if variables.count > LISTED_VARIABLES || value_lists > VALUE_LISTS {
        return refusal(22, 0);
    }
    let (mut solutions, mut count) = (vec![], 0);
    let mut values: Vec<i32> = variables.list().iter().map(|variable| variable.lower).collect();
    loop {
        if constraints.iter().all(|constraint| is_true(constraint, &values)) {
            solutions.extend_from_slice(&values);
            count += 1;
        }
        // The next list: the last value that can rise does, those behind it start again.
        let Some(at) = (0..values.len()).rev().find(|&at| values[at] < variables.list()[at].upper) else { return Ok((solutions, count)) };
        values[at] += 1;
        (at + 1..values.len()).for_each(|behind| values[behind] = variables.list()[behind].lower);
    }
}

/// Solutions: lists all solutions of a small model to the front of the output.
pub fn solutions(words: &[u32], out: &mut [i32]) -> Listed {
    match all_solutions(words) {
        Err(refusal) => refusal.into(),
        Ok((solutions, count)) => match out.get_mut(..solutions.len()) {
            None => Refusal { fault: 16, place: 0 }.into(),
            Some(front) => {
                front.copy_from_slice(&solutions);
                Listed { fault: 0, place: 0, solutions: count }
            }
        },
    }
}

// ----------------------------------------------------------------------------------------------------------------------------------- pair

/// The model of a pair's first or second candidate (7.9): fault 2 where no word stands between them.
pub fn candidate(words: &[u32], candidate: u32) -> Result<Vec<u32>, Refusal> {
    let Some(between) = words.iter().position(|&word| word == BETWEEN) else { return refusal(2, words.len()) };
    let ends_table = |&word: &u32| matches!(kind(word), CONSTRAINT | MODEL_END) || word == BETWEEN;
    let table = words.iter().position(ends_table).unwrap_or(between);
    let (table, first, second) = (&words[..table], &words[table..between], &words[between + 1..]);
    Ok(if candidate == 1 { [table, first, &[word(MODEL_END, 0)]].concat() } else { [table, second].concat() })
}

pub fn pair_check(words: &[u32], number: u32) -> Counts {
    candidate(words, number).map_or_else(Counts::from, |model| check(&model))
}

pub fn pair_translate(words: &[u32], number: u32, out: &mut [u32]) -> Written {
    candidate(words, number).map_or_else(Written::from, |model| translate(&model, out))
}

pub fn pair_judge_model(words: &[u32], number: u32, values: &[i32]) -> Judgement {
    candidate(words, number).map_or_else(Judgement::from, |model| judge_model(&model, values))
}

pub fn pair_fill(words: &[u32], number: u32, values: &[i32], out: &mut [i32]) -> Judgement {
    candidate(words, number).map_or_else(Judgement::from, |model| fill(&model, values, out))
}

// ----------------------------------------------------------------------------------------------------------------------------------- text

/// A token of a FlatZinc text (8.1).
#[derive(Clone, Copy, PartialEq)]
enum Token<'a> {
    Name(&'a [u8]),
    /// A number, none where it is outside the range.
    Number(Option<i64>),
    Dots,
    /// One of : ; , ( ) [ ] { }.
    Sign(u8),
    Broken,
    End,
}

/// The length of the longest front of a text whose bytes are all of one sort.
fn run(text: &[u8], sort: impl Fn(&u8) -> bool) -> usize {
    text.iter().take_while(|&byte| sort(byte)).count()
}

/// The number that digits write, if it is inside the range.
fn decimal(digits: &[u8], negative: bool) -> Option<i64> {
    // It is cut above the range, so that nothing is lost.
    let size = digits.iter().fold(0, |size, digit| (10 * size + i64::from(digit - b'0')).min(LARGEST + 1));
    (size <= LARGEST).then_some(if negative { -size } else { size })
}

/// The token that a text begins with, and its length; no blank or comment stands before it.
fn first_token(text: &[u8]) -> (Token<'_>, usize) {
    match *text {
        [] => (Token::End, 0),
        [b'a'..=b'z' | b'A'..=b'Z', ..] => {
            let length = run(text, |byte| byte.is_ascii_alphanumeric() || *byte == b'_');
            (if length > NAME_BYTES { Token::Broken } else { Token::Name(&text[..length]) }, length)
        }
        [b'0'..=b'9', ..] => {
            let length = run(text, u8::is_ascii_digit);
            (Token::Number(decimal(&text[..length], false)), length)
        }
        [b'-', b'0'..=b'9', ..] => {
            let length = 1 + run(&text[1..], u8::is_ascii_digit);
            (Token::Number(decimal(&text[1..length], true)), length)
        }
        [b'.', b'.', ..] => (Token::Dots, 2),
        [sign @ (b':' | b';' | b',' | b'(' | b')' | b'[' | b']' | b'{' | b'}'), ..] => (Token::Sign(sign), 1),
        _ => (Token::Broken, 1),
    }
}

/// Reads a text token by token. The fault given is the leftmost: all that stands before a token has none.
struct Text<'a> {
    text: &'a [u8],
    /// The place behind the last token, and that of its first byte.
    at: usize,
    place: usize,
    /// The declared names, each with its variable's number.
    names: HashMap<&'a [u8], usize>,
    words: Vec<u32>,
}

impl<'a> Text<'a> {
    fn token(&mut self) -> Token<'a> {
        loop {
            let rest = &self.text[self.at..];
            match rest.first() {
                Some(b' ' | b'\n') => self.at += 1,
                Some(b'%') => self.at += run(rest, |&byte| byte != b'\n'),
                _ => break,
            }
        }
        let (token, length) = first_token(&self.text[self.at..]);
        self.place = self.at;
        self.at += length;
        token
    }

    /// Fault 19 at the last token.
    fn broken<T>(&self) -> Result<T, Refusal> {
        refusal(19, self.place)
    }

    fn expect(&mut self, wanted: Token) -> Result<(), Refusal> {
        if self.token() == wanted {
            Ok(())
        } else {
            self.broken()
        }
    }

    fn sign(&mut self, sign: u8) -> Result<(), Refusal> {
        self.expect(Token::Sign(sign))
    }

    fn name(&mut self) -> Result<&'a [u8], Refusal> {
        match self.token() {
            Token::Name(name) => Ok(name),
            _ => self.broken(),
        }
    }

    /// The number that a token is, the last one read: fault 19, then 21.
    fn number(&self, token: Token) -> Result<i64, Refusal> {
        match token {
            Token::Number(Some(number)) => Ok(number),
            Token::Number(None) => refusal(21, self.place),
            _ => self.broken(),
        }
    }

    /// The word of the variable that a token names, the last one read: fault 19, then 20.
    fn variable(&self, token: Token) -> Result<u32, Refusal> {
        match token {
            Token::Name(name) => self.names.get(name).map_or(refusal(20, self.place), |&variable| Ok(word(VARIABLE, variable as i64))),
            _ => self.broken(),
        }
    }

    /// The rest of a variable item.
    fn declaration(&mut self) -> Result<(), Refusal> {
        match self.token() {
            Token::Name(b"bool") => self.words.push(word(BOOLEAN, 0)),
            lower => {
                let lower = self.number(lower)?;
                self.expect(Token::Dots)?;
                let upper = self.token();
                let upper = self.number(upper)?;
                self.words.extend([word(LOWER, lower), word(UPPER, upper)]);
            }
        }
        self.sign(b':')?;
        let name = self.name()?;
        let count = self.names.len();
        if self.names.insert(name, count).is_some() {
            return refusal(20, self.place);
        }
        self.sign(b';')
    }

    /// The rest of a constraint item.
    fn constraint(&mut self) -> Result<(), Refusal> {
        let name = self.name()?;
        let Some(at) = NAMES.iter().position(|known| known.as_bytes() == name) else { return refusal(20, self.place) };
        self.words.push(word(CONSTRAINT, at as i64 + 1));
        self.sign(b'(')?;
        for (place, &argument) in SHAPES[at].iter().enumerate() {
            if place > 0 {
                self.sign(b',')?;
            }
            self.argument(argument, matches!(at + 1, 27 | 28))?;
        }
        match self.token() {
            Token::Sign(b')') => (),
            // The first argument too many.
            Token::Sign(b',') => {
                self.token();
                return self.broken();
            }
            _ => return self.broken(),
        }
        self.sign(b';')
    }

    /// An argument; parallel lists are two in the text. `set`: numbers stand in braces.
    fn argument(&mut self, argument: Argument, set: bool) -> Result<(), Refusal> {
        match argument {
            Argument::Integer | Argument::Boolean => {
                let token = self.token();
                let variable = self.variable(token)?;
                self.words.push(variable);
            }
            Argument::Number | Argument::Exponent => {
                let token = self.token();
                let number = self.number(token)?;
                self.words.push(word(NUMBER, number));
            }
            Argument::Numbers => {
                self.numbers(if set { (b'{', b'}') } else { (b'[', b']') })?;
            }
            Argument::Integers | Argument::Booleans => {
                let length = self.words.len();
                self.words.push(0);
                let count = self.variables(None)?;
                self.words[length] = word(NUMBER, count as i64);
            }
            Argument::Parallel => {
                let count = self.numbers((b'[', b']'))?;
                self.sign(b',')?;
                self.variables(Some(count))?;
            }
        }
        Ok(())
    }

    /// The rest of a list or set up to a closing sign, each element read by `element`. Answers their number.
    fn list(&mut self, close: u8, mut element: impl FnMut(&mut Self, Token<'a>) -> Result<(), Refusal>) -> Result<usize, Refusal> {
        let mut token = self.token();
        if token == Token::Sign(close) {
            return Ok(0);
        }
        for count in 1.. {
            element(self, token)?;
            match self.token() {
                Token::Sign(sign) if sign == close => return Ok(count),
                Token::Sign(b',') => token = self.token(),
                _ => break,
            }
        }
        self.broken()
    }

    /// The length of a list or set of numbers, and these.
    fn numbers(&mut self, (open, close): (u8, u8)) -> Result<usize, Refusal> {
        self.sign(open)?;
        let length = self.words.len();
        self.words.push(0);
        let count = self.list(close, |text, token| {
            let number = text.number(token)?;
            text.words.push(word(NUMBER, number));
            Ok(())
        })?;
        self.words[length] = word(NUMBER, count as i64);
        Ok(count)
    }

    /// A list of variables. One beside another list must be as long as that: fault 19 at its bracket, unless the grammar breaks inside it.
    fn variables(&mut self, beside: Option<usize>) -> Result<usize, Refusal> {
        self.sign(b'[')?;
        let bracket = self.place;
        let mut unknown = None;
        let read = self.list(b']', |text, token| {
            match text.variable(token) {
                Ok(variable) => text.words.push(variable),
                Err(Refusal { fault: 20, place }) => _ = unknown.get_or_insert(place),
                Err(refusal) => return Err(refusal),
            }
            Ok(())
        });
        match (read, unknown) {
            (Ok(count), _) if beside.is_some_and(|length| length != count) => refusal(19, bracket),
            (_, Some(place)) => refusal(20, place),
            (read, None) => read,
        }
    }

    /// The items of the text.
    fn items(&mut self) -> Result<(), Refusal> {
        let mut token = self.token();
        while token == Token::Name(b"var") {
            self.declaration()?;
            token = self.token();
        }
        while token == Token::Name(b"constraint") {
            self.constraint()?;
            token = self.token();
        }
        if token != Token::Name(b"solve") {
            return self.broken();
        }
        self.expect(Token::Name(b"satisfy"))?;
        self.sign(b';')?;
        self.expect(Token::End)?;
        self.words.push(word(MODEL_END, 0));
        Ok(())
    }
}

/// The model words of a FlatZinc text: faults 19 to 21, then 1.
pub fn text_words(text: &[u8]) -> Result<Vec<u32>, Refusal> {
    let mut reader = Text { text, at: 0, place: 0, names: HashMap::new(), words: vec![] };
    reader.items()?;
    if reader.words.len() > MODEL_WORDS {
        return refusal(1, 0);
    }
    Ok(reader.words)
}

/// Text: writes the model words of a FlatZinc text to the front of the output.
pub fn text(text: &[u8], out: &mut [u32]) -> Written {
    match text_words(text) {
        Err(refusal) => refusal.into(),
        Ok(words) => match out.get_mut(..words.len()) {
            None => Refusal { fault: 16, place: 0 }.into(),
            Some(front) => {
                front.copy_from_slice(&words);
                Written { fault: 0, place: 0, words: words.len() }
            }
        },
    }
}

// ----------------------------------------------------------------------------------------------------------------------------------- bits

/// A row or a product of a row system.
pub enum Part {
    Row { kind: u32, terms: Vec<(usize, i64)>, constant: i64 },
    Product { result: usize, first: usize, second: usize },
}

/// A row system as it was read.
#[derive(Default)]
pub struct RowSystem {
    pub bounds: Vec<(i64, i64)>,
    pub parts: Vec<Part>,
}

impl Sink for RowSystem {
    fn variable(&mut self, lower: i64, upper: i64) {
        self.bounds.push((lower, upper));
    }

    fn row(&mut self, kind: u32, _terms: usize) {
        self.parts.push(Part::Row { kind, terms: vec![], constant: 0 });
    }

    fn term(&mut self, variable: usize, coefficient: i64) {
        if let Some(Part::Row { terms, .. }) = self.parts.last_mut() {
            terms.push((variable, coefficient));
        }
    }

    fn constant(&mut self, number: i64) {
        if let Some(Part::Row { constant, .. }) = self.parts.last_mut() {
            *constant = number;
        }
    }

    fn product(&mut self, result: usize, first: usize, second: usize) {
        self.parts.push(Part::Product { result, first, second });
    }
}

impl RowSystem {
    pub fn width(&self, variable: usize) -> i64 {
        let (lower, upper) = self.bounds[variable];
        upper - lower
    }

    /// The largest slack of a row: 0 where it is an equation.
    pub fn slack(&self, kind: u32, terms: &[(usize, i64)], constant: i64) -> i64 {
        let least = |&(variable, coefficient): &(usize, i64)| {
            let (lower, upper) = self.bounds[variable];
            (coefficient * lower).min(coefficient * upper)
        };
        if kind == EQUAL {
            0
        } else {
            (-(constant + terms.iter().map(least).sum::<i64>())).max(0)
        }
    }

    /// How many bits a row or a product brings.
    fn bits(&self, part: &Part) -> usize {
        match part {
            Part::Row { kind, terms, constant } => weights(self.slack(*kind, terms, *constant)).count(),
            Part::Product { first, second, .. } => weights(self.width(*first)).count() * weights(self.width(*second)).count(),
        }
    }
}

/// The weights of a width: 1, 2, 4 and so on, the last cut so that they sum to it.
pub fn weights(width: i64) -> impl Iterator<Item = i64> + Clone {
    let sum_before = |place: u32| (1i64 << place) - 1;
    (0..62).take_while(move |&place| sum_before(place) < width).map(move |place| (1 << place).min(width - sum_before(place)))
}

/// A quadratic form over bits, its entries i≤j in a square.
pub struct QuadraticForm {
    pub bits: usize,
    pub constant: i64,
    pub entries: Vec<i64>,
}

impl QuadraticForm {
    fn add(&mut self, one: usize, other: usize, number: i64) {
        self.entries[one.min(other) * self.bits + one.max(other)] += number;
    }

    /// Adds the square of a row over bits, like bits added: fault 24 where a coefficient or the constant is too large.
    fn add_square(&mut self, row: &mut RowOverBits) -> Result<(), Refusal> {
        let constant = row.constant;
        let terms = row.terms();
        if terms.iter().map(|&(_, coefficient)| coefficient).chain([constant]).any(|number| number.abs() > LARGEST_OVER_BITS) {
            return refusal(24, 0);
        }
        self.constant += constant * constant;
        for (at, &(bit, coefficient)) in terms.iter().enumerate() {
            self.add(bit, bit, coefficient * (coefficient + 2 * constant));
            for &(other, factor) in &terms[at + 1..] {
                self.entries[bit * self.bits + other] += 2 * coefficient * factor;
            }
        }
        Ok(())
    }

    /// The words of the form: fault 24 where a number is outside the range.
    pub fn words(&self) -> Result<Vec<u32>, Refusal> {
        let mut words = vec![word(NUMBER, self.constant)];
        if self.entries.iter().chain([&self.constant]).any(|number| !(LEAST..=LARGEST).contains(number)) {
            return refusal(24, 0);
        }
        for one in 0..self.bits {
            for other in one..self.bits {
                let entry = self.entries[one * self.bits + other];
                if entry != 0 {
                    words.extend([word(VARIABLE, one as i64), word(VARIABLE, other as i64), word(NUMBER, entry)]);
                }
            }
        }
        words.push(word(ROWS_END, 0));
        Ok(words)
    }
}

/// A row over bits while it is put together.
#[derive(Default)]
struct RowOverBits {
    constant: i64,
    terms: Vec<(usize, i64)>,
}

impl RowOverBits {
    /// Adds a variable's bits and its lower bound, all times a coefficient.
    fn add_variable(&mut self, system: &RowSystem, first_bits: &[usize], variable: usize, coefficient: i64) {
        self.constant += coefficient * system.bounds[variable].0;
        self.add_bits(first_bits[variable], system.width(variable), coefficient);
    }

    fn add_bits(&mut self, first: usize, width: i64, coefficient: i64) {
        self.terms.extend((first..).zip(weights(width)).map(|(bit, weight)| (bit, coefficient * weight)));
    }

    /// The terms by rising bits, like bits added.
    fn terms(&mut self) -> &[(usize, i64)] {
        self.terms.sort_unstable();
        self.terms.dedup_by(|next, kept| {
            let alike = next.0 == kept.0;
            kept.1 += if alike { next.1 } else { 0 };
            alike
        });
        &self.terms
    }
}

/// A row system and where the bits of its variables, rows and products begin.
pub struct Layout {
    pub system: RowSystem,
    pub first_bits: Vec<usize>,
    pub own_bits: Vec<usize>,
    pub bits: usize,
}

/// The layout of a row system's bits: judge-rows' faults but 15, then 23.
pub fn layout(words: &[u32]) -> Result<Layout, Refusal> {
    let mut system = RowSystem::default();
    read_rows(words, &mut system)?;
    let (mut first_bits, mut own_bits, mut bits) = (vec![], vec![], 0);
    for variable in 0..system.bounds.len() {
        first_bits.push(bits);
        bits += weights(system.width(variable)).count();
    }
    for part in &system.parts {
        own_bits.push(bits);
        bits += system.bits(part);
    }
    if bits > BITS {
        return refusal(23, 0);
    }
    Ok(Layout { system, first_bits, own_bits, bits })
}

/// The quadratic form of a row system, its entries and constant not yet tested: 24 where a number of a row over bits is too large.
pub fn quadratic_form(layout: &Layout) -> Result<QuadraticForm, Refusal> {
    let Layout { system, first_bits, own_bits, bits } = layout;
    let mut form = QuadraticForm { bits: *bits, constant: 0, entries: vec![0; bits * bits] };
    for (part, &own) in system.parts.iter().zip(own_bits) {
        let mut row = RowOverBits::default();
        match part {
            Part::Row { kind, terms, constant } => {
                row.constant = *constant;
                terms.iter().for_each(|&(variable, coefficient)| row.add_variable(system, first_bits, variable, coefficient));
                row.add_bits(own, system.slack(*kind, terms, *constant), 1);
            }
            Part::Product { result, first, second } => {
                let (first_lower, second_lower) = (system.bounds[*first].0, system.bounds[*second].0);
                row.add_variable(system, first_bits, *result, 1);
                row.constant -= first_lower * second_lower;
                row.add_bits(first_bits[*first], system.width(*first), -second_lower);
                row.add_bits(first_bits[*second], system.width(*second), -first_lower);
                let mut t = own;
                for (u, one) in (first_bits[*first]..).zip(weights(system.width(*first))) {
                    for (v, other) in (first_bits[*second]..).zip(weights(system.width(*second))) {
                        row.terms.push((t, -one * other));
                        // 3×t + u×v − 2×u×t − 2×v×t
                        form.add(t, t, 3);
                        form.add(u, v, 1);
                        form.add(u, t, -2);
                        form.add(v, t, -2);
                        t += 1;
                    }
                }
            }
        }
        form.add_square(&mut row)?;
    }
    Ok(form)
}

/// The words of the quadratic form of a row system: judge-rows' faults but 15, then 23, then 24.
pub fn form_words(words: &[u32]) -> Result<Vec<u32>, Refusal> {
    quadratic_form(&layout(words)?)?.words()
}

/// Bits: writes the quadratic form of a row system to the front of the output.
pub fn bits(words: &[u32], out: &mut [u32]) -> Written {
    match form_words(words) {
        Err(refusal) => refusal.into(),
        Ok(words) => match out.get_mut(..words.len()) {
            None => Refusal { fault: 16, place: 0 }.into(),
            Some(front) => {
                front.copy_from_slice(&words);
                Written { fault: 0, place: 0, words: words.len() }
            }
        },
    }
}
