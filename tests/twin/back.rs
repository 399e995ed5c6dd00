//! The way back from bits and the form of a best solution, in plain Rust, as docs/RULES.md says them.
//!
//! The energy is worked out row by row from the values, and not from the form's entries, so that the two can be compared.

use crate::answers::{Energy, Judgement, Refusal, Values, Written, HOLDS};
use crate::twin::{judge_rows, layout, quadratic_form, refusal, weights, Layout, Part, QuadraticForm, LARGEST, LEAST};

/// An energy is below this.
const ENERGY_LIMIT: i128 = 1 << 62;

/// The layout of a row system for these bits: judge-rows' faults but 15, then 23, then 15 and 25.
fn layout_for(words: &[u32], bits: &[u8]) -> Result<Layout, Refusal> {
    let layout = layout(words)?;
    if bits.len() != layout.bits {
        return refusal(15, 0);
    }
    match bits.iter().position(|&bit| bit > 1) {
        Some(place) => refusal(25, place),
        None => Ok(layout),
    }
}

/// The number that bits from a place on have by the weights of a width.
fn number(bits: &[u8], first: usize, width: i64) -> i64 {
    weights(width).zip(&bits[first..]).map(|(weight, &bit)| weight * i64::from(bit)).sum()
}

/// The value of each variable that bits read as.
fn values_of(layout: &Layout, bits: &[u8]) -> Vec<i64> {
    let Layout { system, first_bits, .. } = layout;
    (0..first_bits.len()).map(|at| system.bounds[at].0 + number(bits, first_bits[at], system.width(at))).collect()
}

/// What a product over bits leaves, and what its products of bits cost.
fn product_energy(layout: &Layout, bits: &[u8], values: &[i64], (result, first, second): (usize, usize, usize), own: usize) -> i128 {
    let Layout { system, first_bits, .. } = layout;
    let (first_lower, second_lower) = (system.bounds[first].0, system.bounds[second].0);
    let mut sum = values[result] - first_lower * values[second] - second_lower * values[first] + first_lower * second_lower;
    let (mut cost, mut own) = (0, own);
    for (u, one) in (first_bits[first]..).zip(weights(system.width(first))) {
        for (v, other) in (first_bits[second]..).zip(weights(system.width(second))) {
            let (u, v, t) = (i64::from(bits[u]), i64::from(bits[v]), i64::from(bits[own]));
            sum -= one * other * t;
            cost += 3 * t + u * v - 2 * u * t - 2 * v * t;
            own += 1;
        }
    }
    i128::from(sum) * i128::from(sum) + i128::from(cost)
}

fn energy_of(layout: &Layout, bits: &[u8]) -> i128 {
    let Layout { system, own_bits, .. } = layout;
    let values = values_of(layout, bits);
    let energy = |(part, &own): (&Part, &usize)| match part {
        Part::Row { kind, terms, constant } => {
            let terms_sum: i64 = terms.iter().map(|&(variable, coefficient)| coefficient * values[variable]).sum();
            let sum = i128::from(constant + terms_sum + number(bits, own, system.slack(*kind, terms, *constant)));
            sum * sum
        }
        &Part::Product { result, first, second } => product_energy(layout, bits, &values, (result, first, second), own),
    };
    system.parts.iter().zip(own_bits).map(energy).sum()
}

/// Bit values: writes the values that bits read as to the front of the output.
pub fn bit_values(words: &[u32], bits: &[u8], out: &mut [i32]) -> Values {
    match layout_for(words, bits) {
        Err(refusal) => refusal.into(),
        Ok(layout) => {
            let values = values_of(&layout, bits);
            let Some(front) = out.get_mut(..values.len()) else { return Refusal { fault: 16, place: 0 }.into() };
            front.iter_mut().zip(&values).for_each(|(place, &value)| *place = value as i32);
            Values { fault: 0, place: 0, values: values.len() }
        }
    }
}

/// Bit energy: the sum of every row's square and of what its products of bits cost.
pub fn bit_energy(words: &[u32], bits: &[u8]) -> Energy {
    match layout_for(words, bits) {
        Err(refusal) => refusal.into(),
        Ok(layout) => match energy_of(&layout, bits) {
            energy if energy < ENERGY_LIMIT => Energy { fault: 0, place: 0, energy: energy as i64 },
            _ => Refusal { fault: 24, place: 0 }.into(),
        },
    }
}

/// The bits of a number by the weights of a width: each taken from the last weight to the first, where it is not above what is left.
fn push_number(bits: &mut Vec<u8>, width: i64, number: i64) {
    let weights: Vec<i64> = weights(width).collect();
    let first = bits.len();
    bits.resize(first + weights.len(), 0);
    let mut left = number;
    for (at, &weight) in weights.iter().enumerate().rev() {
        if weight <= left {
            bits[first + at] = 1;
            left -= weight;
        }
    }
}

/// The bits of values that satisfy a row system.
fn bits_of(layout: &Layout, values: &[i32]) -> Vec<u8> {
    let Layout { system, first_bits, .. } = layout;
    let mut bits = vec![];
    for (variable, &value) in values.iter().enumerate() {
        push_number(&mut bits, system.width(variable), i64::from(value) - system.bounds[variable].0);
    }
    for part in &system.parts {
        match part {
            Part::Row { kind, terms, constant } => {
                let sum: i64 = terms.iter().map(|&(variable, coefficient)| coefficient * i64::from(values[variable])).sum();
                push_number(&mut bits, system.slack(*kind, terms, *constant), -(sum + constant));
            }
            &Part::Product { first, second, .. } => {
                let own = |variable: usize| first_bits[variable]..first_bits[variable] + weights(system.width(variable)).count();
                let products: Vec<u8> = own(first).flat_map(|u| own(second).map(move |v| (u, v))).map(|(u, v)| bits[u] * bits[v]).collect();
                bits.extend(products);
            }
        }
    }
    bits
}

/// Value bits: where judge-rows says "holds", writes bits that read as the values and whose energy is 0 to the front of the output.
pub fn value_bits(words: &[u32], values: &[i32], out: &mut [u8]) -> Judgement {
    let judged = judge_rows(words, values);
    if judged.said != HOLDS {
        return judged;
    }
    match layout(words) {
        Err(refusal) => refusal.into(),
        Ok(layout) => match out.get_mut(..layout.bits) {
            None => Refusal { fault: 16, place: 0 }.into(),
            Some(front) => {
                front.copy_from_slice(&bits_of(&layout, values));
                Judgement { said: HOLDS, fault: 0, at: layout.bits }
            }
        },
    }
}

/// The words of the form whose least bits read as a best solution: the form of the row system M times, and the variable's distance from its best bound.
pub fn best_form_words(words: &[u32], variable: usize, direction: u32) -> Result<Vec<u32>, Refusal> {
    let layout = layout(words)?;
    if variable >= layout.system.bounds.len() || direction > 1 {
        return refusal(26, 0);
    }
    let width = layout.system.width(variable);
    let form = quadratic_form(&layout)?;
    let mut numbers: Vec<i128> = form.entries.iter().map(|&entry| i128::from(entry) * i128::from(width + 1)).collect();
    for (bit, weight) in (layout.first_bits[variable]..).zip(weights(width)) {
        numbers[bit * form.bits + bit] += i128::from(if direction == 0 { weight } else { -weight });
    }
    let constant = i128::from(form.constant) * i128::from(width + 1) + i128::from(if direction == 0 { 0 } else { width });
    if numbers.iter().chain([&constant]).any(|number| !(i128::from(LEAST)..=i128::from(LARGEST)).contains(number)) {
        return refusal(24, 0);
    }
    QuadraticForm { bits: form.bits, constant: constant as i64, entries: numbers.iter().map(|&number| number as i64).collect() }.words()
}

/// Best bits: writes the words of that form to the front of the output.
pub fn best_bits(words: &[u32], variable: usize, direction: u32, out: &mut [u32]) -> Written {
    match best_form_words(words, variable, direction) {
        Err(refusal) => refusal.into(),
        Ok(words) => match out.get_mut(..words.len()) {
            None => Refusal { fault: 16, place: 0 }.into(),
            Some(front) => {
                front.copy_from_slice(&words);
                Written { fault: 0, place: 0, words: words.len() }
            }
        },
    }
}

/// How many bits a row system has, where it has a form's layout.
pub fn bit_count(words: &[u32]) -> Option<usize> {
    layout(words).ok().map(|layout| layout.bits)
}
