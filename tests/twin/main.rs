//! Compares the static library with an independent implementation of the rules of docs/RULES.md, the twin, and measures both.
//!
//!     twin [COUNT [SEED]]      COUNT inputs of a seed
//!     twin --one SEED INDEX    one input, as a reported difference names it
//!     twin --names [SEED]      texts whose names are hard to tell apart or many, against both and against what they are made to be answered
//!     twin --vectors FILE..    recorded answers, against both
//!     twin --alone FILE..      recorded answers, against the twin alone
//!     twin --bench             times of both

mod answers;
mod back;
mod bench;
mod compare;
mod forms;
mod inputs;
mod library;
mod names;
mod texts;
mod twin;
mod vectors;

use compare::Comparer;
use std::collections::BTreeMap;
use std::process::exit;

fn number(argument: Option<&String>, otherwise: u64) -> u64 {
    match argument.map(|argument| argument.parse()) {
        None => otherwise,
        Some(Ok(number)) => number,
        Some(Err(_)) => {
            eprintln!("usage: twin [COUNT [SEED]] | --one SEED INDEX | --names [SEED] | --vectors FILE.. | --alone FILE.. | --bench");
            exit(2)
        }
    }
}

fn main() {
    let arguments: Vec<String> = std::env::args().skip(1).collect();
    match arguments.first().map(String::as_str) {
        Some("--bench") => bench::run(),
        Some("--vectors") => vectors::run(&arguments[1..], true),
        Some("--alone") => vectors::run(&arguments[1..], false),
        Some("--names") => {
            let seed = number(arguments.get(1), 1);
            let mut comparer = Comparer::new(seed);
            let mut answers = BTreeMap::new();
            names::cases(seed, &mut |case| {
                comparer.names(&case);
                *answers.entry(case.fault).or_insert(0) += 1;
            });
            println!("twin: texts of names by their fault {answers:?}, 0 differences");
        }
        Some("--one") => {
            let mut comparer = Comparer::new(number(arguments.get(1), 1));
            comparer.run(number(arguments.get(2), 0));
            println!("twin: 1 input, 0 differences");
        }
        _ => {
            let count = number(arguments.first(), 200_000);
            let seed = number(arguments.get(1), 1);
            println!("twin: {count} inputs, seed {seed}");
            let mut comparer = Comparer::new(seed);
            (0..count).for_each(|index| comparer.run(index));
            if !comparer.report() && count >= 10_000 {
                println!("twin: something that can occur never did");
                exit(1);
            }
            println!("twin: {count} inputs, 0 differences");
        }
    }
}
