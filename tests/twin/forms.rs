//! Row systems for the call bits: small ones, and ones at the limits of bits, coefficients and entries.

use crate::inputs::Random;
use crate::twin::{word, AT_MOST, AUX_LOWER, AUX_UPPER, BITS, BOOLEAN, EQUAL, LARGEST_OVER_BITS, LOWER, NUMBER, PRODUCT, ROWS_END, UPPER, VARIABLE};

/// A row system while it is built, and how many bits it needs.
struct System {
    words: Vec<u32>,
    bounds: Vec<(i64, i64)>,
    bits: usize,
    /// Whether a source may still be declared.
    sources: bool,
}

/// How many weights a width has.
fn weights(width: i64) -> usize {
    (i64::BITS - width.leading_zeros()) as usize
}

impl System {
    fn new() -> System {
        System { words: vec![], bounds: vec![], bits: 0, sources: true }
    }

    fn variable(&mut self, lower: i64, upper: i64) -> usize {
        let [one, other] = if self.sources { [LOWER, UPPER] } else { [AUX_LOWER, AUX_UPPER] };
        self.words.extend([word(one, lower), word(other, upper)]);
        self.declared(lower, upper)
    }

    fn boolean(&mut self) -> usize {
        if !self.sources {
            return self.variable(0, 1);
        }
        self.words.push(word(BOOLEAN, 0));
        self.declared(0, 1)
    }

    fn declared(&mut self, lower: i64, upper: i64) -> usize {
        self.bounds.push((lower, upper));
        self.bits += weights(upper - lower);
        self.bounds.len() - 1
    }

    fn row(&mut self, kind: u32, terms: &[(usize, i64)], constant: i64) {
        self.words.push(word(kind, terms.len() as i64));
        let mut least = constant;
        for &(variable, coefficient) in terms {
            self.words.extend([word(VARIABLE, variable as i64), word(NUMBER, coefficient)]);
            let (lower, upper) = self.bounds[variable];
            least += (coefficient * lower).min(coefficient * upper);
        }
        self.words.push(word(NUMBER, constant));
        self.bits += if kind == AT_MOST { weights((-least).max(0)) } else { 0 };
        self.sources = false;
    }

    /// An equation.
    fn equal(&mut self, terms: &[(usize, i64)], constant: i64) {
        self.row(EQUAL, terms, constant);
    }

    fn product(&mut self, result: usize, first: usize, second: usize) {
        self.words.push(word(PRODUCT, 0));
        self.words.extend([result, first, second].map(|variable| word(VARIABLE, variable as i64)));
        let width = |variable: usize| self.bounds[variable].1 - self.bounds[variable].0;
        self.bits += weights(width(first)) * weights(width(second));
        self.sources = false;
    }

    fn finish(mut self) -> Vec<u32> {
        self.words.push(word(ROWS_END, 0));
        self.words
    }
}

fn some_bounds(random: &mut Random) -> (i64, i64) {
    let lower = random.between(-6, 6);
    (lower, lower + random.pick(&[0, 1, 1, 2, 3, 4, 5, 6, 7, 8, 9, 15, 16, 31]))
}

fn some_row(random: &mut Random, system: &mut System) {
    let count = random.below(5);
    let coefficients = random.pick(&[1, 3, 6, 200]);
    let terms: Vec<(usize, i64)> = if system.bounds.is_empty() {
        vec![]
    } else {
        (0..count).map(|_| (random.below(system.bounds.len()), random.between(-coefficients, coefficients))).collect()
    };
    let constant = random.between(-9, 9);
    system.row(random.pick(&[AT_MOST, EQUAL]), &terms, constant);
}

fn some_product(random: &mut Random, system: &mut System) {
    let count = system.bounds.len();
    if count == 0 {
        return;
    }
    let first = random.below(count);
    let second = if random.one_in(3) { first } else { random.below(count) };
    let result = if first.max(second) + 1 < count && random.one_in(2) {
        first.max(second) + 1 + random.below(count - 1 - first.max(second))
    } else {
        let (lower, upper) = some_bounds(random);
        system.variable(lower, upper)
    };
    system.product(result, first, second);
}

fn some_parts(random: &mut Random, system: &mut System, most: usize) {
    for _ in 0..random.below(most) {
        match random.below(8) {
            0 => {
                let (lower, upper) = some_bounds(random);
                system.variable(lower, upper);
            }
            1 | 2 => some_product(random, system),
            _ => some_row(random, system),
        }
    }
}

/// Few variables, rows and products with small numbers.
pub fn small(random: &mut Random) -> Vec<u32> {
    let mut system = System::new();
    for _ in 0..random.below(5) {
        if random.one_in(3) {
            system.boolean();
        } else {
            let (lower, upper) = some_bounds(random);
            system.variable(lower, upper);
        }
    }
    some_parts(random, &mut system, 6);
    system.finish()
}

/// A system that needs so many bits, about 1,024.
fn of_bits(random: &mut Random, bits: usize) -> System {
    let mut system = System::new();
    let wide = random.one_in(2);
    while system.bits < bits - random.pick(&[300, 100]) {
        let width = if wide { random.between(0, 1 << 27) >> random.below(27) } else { random.between(0, 40) };
        let lower = random.between(-20, 20);
        system.variable(lower, (lower + width).min(134_217_727));
    }
    // A row or a product may pass the number; it is left out then.
    for _ in 0..random.below(12) {
        let (words, declared, before) = (system.words.len(), system.bounds.len(), system.bits);
        some_parts(random, &mut system, 2);
        if system.bits > bits {
            system.words.truncate(words);
            system.bounds.truncate(declared);
            system.bits = before;
        }
    }
    while system.bits < bits {
        let (last, left) = (system.bounds.len(), bits - system.bits);
        match random.below(8) {
            0 if left > 9 => _ = system.variable(-3, 500),
            // A slack of 0..2 and one of 0..5.
            1 if left > 3 => system.row(AT_MOST, &[(last - 1, 0)], -2),
            2 if left > 3 => system.row(AT_MOST, &[], -5),
            _ => _ = system.boolean(),
        }
    }
    system
}

/// As many bits as there may be, one or two less or more.
pub fn near_bits(random: &mut Random) -> Vec<u32> {
    let bits = BITS - 2 + random.below(5);
    of_bits(random, bits).finish()
}

/// A coefficient of a row over bits at its limit; the constant keeps the entry inside the range.
fn near_coefficient(random: &mut Random, system: &mut System) {
    let sign = random.pick(&[-1, 1]);
    let size = LARGEST_OVER_BITS - 1 + random.between(0, 2);
    let half = -sign * (size / 2 + random.between(-2, 2));
    match random.below(6) {
        // Like bits added.
        0 | 1 => {
            let x = system.boolean();
            let part = random.between(-100_000, 100_000);
            system.equal(&[(x, part), (x, sign * size - part)], half);
        }
        // A weight times a coefficient: the last weight of 0..w is cut to 3.
        2 => {
            let lower = random.between(-3, 3);
            let x = system.variable(lower, lower + 2);
            system.equal(&[(x, sign * size)], half - sign * size * lower);
        }
        // The lower bound of the other factor.
        3 | 4 => {
            let (x, y) = (system.boolean(), system.variable(-sign * size, -sign * size));
            let result = system.variable(half, half);
            if random.one_in(2) {
                system.product(result, x, y);
            } else {
                system.product(result, y, x);
            }
        }
        // Twice the lower bound of a factor that stands twice.
        _ => {
            let lower = -sign * size / 2;
            let x = system.variable(lower, lower + 1);
            let result = system.variable(half + lower * lower, half + lower * lower);
            system.product(result, x, x);
        }
    }
}

/// An entry or the constant of the form at an end of the range: 11585² + 74² + 5² + 1² and 2 × 8191 × 8193 + 1 are its largest number.
fn near_entry(random: &mut Random, system: &mut System) {
    let sign = random.pick(&[-1, 1]);
    let (x, y) = (system.boolean(), system.boolean());
    match random.below(6) {
        0 => {
            for part in [11_585, 74, 5, 1] {
                system.equal(&[(x, sign * part)], 0);
            }
            if random.one_in(2) {
                system.equal(&[(x, 1), (y, 1)], 0);
            }
        }
        // An entry below 0 and the constant above it, both at their ends.
        1 => {
            for part in [11_585, 74, 5, 1] {
                system.equal(&[(x, sign * part)], -sign * part);
            }
            if random.one_in(2) {
                system.equal(&[(x, 1)], -1);
            }
        }
        2 => {
            for part in [11_585, 74, 5, 1] {
                system.equal(&[], sign * part);
            }
            if random.one_in(2) {
                system.equal(&[], sign);
            }
        }
        3 => {
            system.equal(&[(x, 8_191), (y, sign * 8_193)], 0);
            if random.one_in(2) {
                system.equal(&[(x, 1), (y, sign)], 0);
            }
        }
        // The penalty of a product adds 1.
        4 => {
            let z = system.boolean();
            system.equal(&[(x, 8_191), (y, sign * 8_193)], 0);
            system.product(z, x, y);
        }
        _ => {
            let [one, other] = random.pick(&[[8_191, 8_193], [8_192, 8_192]]);
            system.equal(&[(x, one), (y, sign * other)], 0);
        }
    }
}

/// A slack whose weights, or the constant of a row whose size, is at a limit.
fn near_constant(random: &mut Random, system: &mut System) {
    let x = system.variable(0, random.between(0, 3));
    let constant = random.pick(&[11_585, 11_586, 8_191, 8_192, 16_383, 16_384, 16_385, 24_574, 24_575, 32_767, 32_768]);
    match random.below(4) {
        0 => system.row(AT_MOST, &[], -constant),
        1 => system.row(AT_MOST, &[(x, 1)], -constant),
        2 => {
            // A slack that the constant does not give alone.
            let terms: Vec<(usize, i64)> = (0..24).map(|_| (system.boolean(), -1_024)).collect();
            system.row(AT_MOST, &terms, random.between(-3, 3) + 24_576 - constant.min(24_575));
        }
        _ => system.equal(&[(x, 1)], random.pick(&[-1, 1]) * constant),
    }
}

/// A coefficient or a constant of 2^32, whose square is 0 where all but 64 bits are lost.
fn lost_square(random: &mut Random, system: &mut System) {
    let sign = random.pick(&[-1, 1]);
    let (x, y) = (system.boolean(), system.variable(65_536, 65_536));
    match random.below(4) {
        0 => {
            let mut terms = vec![(x, sign * 134_217_727); 32];
            terms.push((x, sign * 32));
            system.equal(&terms, 0);
        }
        1 => system.equal(&[(y, sign * 65_536)], 0),
        2 => system.row(AT_MOST, &[(y, 65_536)], 0),
        _ => {
            let z = system.variable(sign * 65_536, sign * 65_536);
            let result = system.variable(0, 0);
            system.product(result, y, z);
        }
    }
}

/// A coefficient, an entry or a constant at its limit, with other rows before or behind it.
pub fn near_limits(random: &mut Random) -> Vec<u32> {
    let mut system = System::new();
    let before = random.one_in(2);
    if before {
        some_parts(random, &mut system, 3);
    }
    match random.below(6) {
        0 | 1 => near_coefficient(random, &mut system),
        2 | 3 => near_entry(random, &mut system),
        4 => near_constant(random, &mut system),
        _ => lost_square(random, &mut system),
    }
    if !before {
        some_parts(random, &mut system, 3);
    }
    system.finish()
}

/// 1,024 bits, few rows.
pub fn of_all_bits(random: &mut Random) -> Vec<u32> {
    of_bits(random, BITS).finish()
}

/// 1,024 bits of 128 variables, and as many rows of 66 of them as the words allow.
pub fn largest(random: &mut Random) -> Vec<u32> {
    let mut system = System::new();
    (0..128).for_each(|_| _ = system.variable(0, 255));
    for _ in 0..1_954 {
        let first = random.below(128);
        let terms: Vec<(usize, i64)> = (0..66).map(|at| ((first + at) % 128, random.pick(&[-1, 1]))).collect();
        system.equal(&terms, 0);
    }
    system.finish()
}

/// 1,008 bits of 36 variables over the whole range, and as many rows of 66 terms with coefficient 0 as the words allow: every row has every bit.
pub fn of_zeros(_random: &mut Random) -> Vec<u32> {
    let mut system = System::new();
    (0..36).for_each(|_| _ = system.variable(-134_217_727, 134_217_727));
    let terms: Vec<(usize, i64)> = (0..66).map(|at| (at % 36, 0)).collect();
    (0..1_955).for_each(|_| system.equal(&terms, 0));
    system.finish()
}
