//! Recorded answers, tests/vectors: a line is CALL | words | values or - | room or - | answer. The words of text are bytes.

use crate::answers::{Counts, Judgement, Written, AUXILIARIES, BUILTIN, FALSE, HOLDS, OUT_OF_BOUNDS};
use crate::back;
use crate::library::{self, Lent};
use crate::twin;
use std::collections::HashSet;
use std::process::exit;

fn listed<T: ToString>(name: &str, list: impl IntoIterator<Item = T>) -> String {
    list.into_iter().fold(name.to_string(), |line, item| line + " " + &item.to_string())
}

fn judged(judgement: Judgement) -> String {
    match judgement.said {
        HOLDS => "holds".into(),
        OUT_OF_BOUNDS => format!("bound {}", judgement.at),
        FALSE => format!("false {}", judgement.at),
        _ => format!("refused {} {}", judgement.fault, judgement.at),
    }
}

fn counted(counts: Counts) -> String {
    match counts.fault {
        0 => listed("counts", [counts.variables, counts.constraints, counts.auxiliaries, counts.rows, counts.words]),
        fault => format!("refused {fault} {}", counts.place),
    }
}

fn written(written: Written, out: &[u32]) -> String {
    match written.fault {
        0 => listed("words", out[..written.words].iter().map(|word| format!("{word:08X}"))),
        fault => format!("refused {fault} {}", written.place),
    }
}

fn filled(filled: Judgement, out: &[i32]) -> String {
    if filled.said == HOLDS {
        listed("filled", &out[..filled.at])
    } else {
        judged(filled)
    }
}

/// The answer of a side to a call for a pair; the candidate stands before the values.
fn pair_answer(call: &str, words: &mut [u32], values: &mut [i32], room: usize, library: bool) -> String {
    let Some((&mut candidate, values)) = values.split_first_mut() else { return "no candidate".into() };
    let candidate = candidate as u32;
    let (mut out, mut out_values) = (vec![0; room], vec![0; room]);
    match (call, library) {
        ("pair_check", true) => counted(library::pair_check(Lent::new(words), candidate)),
        ("pair_check", false) => counted(twin::pair_check(words, candidate)),
        ("pair_translate", true) => written(library::pair_translate(Lent::new(words), candidate, Lent::new(&mut out)), &out),
        ("pair_translate", false) => written(twin::pair_translate(words, candidate, &mut out), &out),
        ("pair_judge_model", true) => judged(library::pair_judge_model(Lent::new(words), candidate, Lent::new(values))),
        ("pair_judge_model", false) => judged(twin::pair_judge_model(words, candidate, values)),
        (_, true) => filled(library::pair_fill(Lent::new(words), candidate, Lent::new(values), Lent::new(&mut out_values)), &out_values),
        (_, false) => filled(twin::pair_fill(words, candidate, values, &mut out_values), &out_values),
    }
}

/// The answer of a side to a call of the way back: the values of the record are bits, values, or a variable's number and a direction.
fn back_answer(call: &str, words: &mut [u32], numbers: &[i64], room: usize, library: bool) -> String {
    let mut bits: Vec<u8> = numbers.iter().map(|&bit| bit as u8).collect();
    let mut values: Vec<i32> = numbers.iter().map(|&value| value as i32).collect();
    match call {
        "bit_values" => {
            let mut out = vec![0; room];
            let said = if library {
                library::bit_values(Lent::new(words), Lent::new(&mut bits), Lent::new(&mut out))
            } else {
                back::bit_values(words, &bits, &mut out)
            };
            match said.fault {
                0 => listed("values", &out[..said.values]),
                fault => format!("refused {fault} {}", said.place),
            }
        }
        "bit_energy" => {
            let said = if library { library::bit_energy(Lent::new(words), Lent::new(&mut bits)) } else { back::bit_energy(words, &bits) };
            match said.fault {
                0 => format!("energy {}", said.energy),
                fault => format!("refused {fault} {}", said.place),
            }
        }
        "value_bits" => {
            let mut out = vec![0; room];
            let said = if library {
                library::value_bits(Lent::new(words), Lent::new(&mut values), Lent::new(&mut out))
            } else {
                back::value_bits(words, &values, &mut out)
            };
            if said.said == HOLDS {
                listed("bits", &out[..said.at])
            } else {
                judged(said)
            }
        }
        _ => {
            let &[variable, direction] = numbers else { return "no variable and direction".into() };
            let (variable, direction, mut out) = (variable as usize, direction as u32, vec![0; room]);
            let said = if library {
                library::best_bits(Lent::new(words), variable, direction, Lent::new(&mut out))
            } else {
                back::best_bits(words, variable, direction, &mut out)
            };
            written(said, &out)
        }
    }
}

/// The answer of a side, in the form of the record. `library`: the library's, else the twin's.
fn answer(call: &str, words: &mut [u32], numbers: &[i64], room: usize, library: bool) -> String {
    let values: &mut [i32] = &mut numbers.iter().map(|&value| value as i32).collect::<Vec<_>>();
    match call {
        "check" => counted(if library { library::check(Lent::new(words)) } else { twin::check(words) }),
        "translate" => {
            let mut out = vec![0; room];
            written(if library { library::translate(Lent::new(words), Lent::new(&mut out)) } else { twin::translate(words, &mut out) }, &out)
        }
        "judge_model" => judged(if library { library::judge_model(Lent::new(words), Lent::new(values)) } else { twin::judge_model(words, values) }),
        "judge_rows" => judged(if library { library::judge_rows(Lent::new(words), Lent::new(values)) } else { twin::judge_rows(words, values) }),
        "sheet" => {
            let mut page = vec![0; room];
            let printed = if library { library::sheet(Lent::new(words), Lent::new(&mut page)) } else { twin::sheet(words, &mut page) };
            match (printed.fault, printed.bytes) {
                (0, 0) => "bytes".into(),
                (0, bytes) => listed("bytes", [page[..bytes].iter().map(|byte| format!("{byte:02X}")).collect::<String>()]),
                (fault, _) => format!("refused {fault} {}", printed.place),
            }
        }
        "reason" => {
            let reason = if library { library::reason(Lent::new(words), Lent::new(values)) } else { twin::reason(words, values) };
            match reason.said {
                HOLDS => "none".into(),
                OUT_OF_BOUNDS => format!("bound {}", reason.place),
                BUILTIN => format!("row {} {} builtin", reason.row, reason.constraint),
                AUXILIARIES => format!("row {} {} auxiliaries", reason.row, reason.constraint),
                _ => format!("refused {} {}", reason.fault, reason.place),
            }
        }
        "solutions" => {
            let mut out = vec![0; room];
            let found = if library { library::solutions(Lent::new(words), Lent::new(&mut out)) } else { twin::solutions(words, &mut out) };
            let variables = twin::check(words).variables;
            match found.fault {
                0 => listed(&format!("solutions {}", found.solutions), &out[..found.solutions * variables]),
                fault => format!("refused {fault} {}", found.place),
            }
        }
        "fill" => {
            let mut out = vec![0; room];
            let said =
                if library { library::fill(Lent::new(words), Lent::new(values), Lent::new(&mut out)) } else { twin::fill(words, values, &mut out) };
            filled(said, &out)
        }
        "text" => {
            let mut text: Vec<u8> = words.iter().map(|&byte| byte as u8).collect();
            let mut out = vec![0; room];
            written(if library { library::text(Lent::new(&mut text), Lent::new(&mut out)) } else { twin::text(&text, &mut out) }, &out)
        }
        "bits" => {
            let mut out = vec![0; room];
            written(if library { library::bits(Lent::new(words), Lent::new(&mut out)) } else { twin::bits(words, &mut out) }, &out)
        }
        "bit_values" | "bit_energy" | "value_bits" | "best_bits" => back_answer(call, words, numbers, room, library),
        "pair_check" | "pair_translate" | "pair_judge_model" | "pair_fill" => pair_answer(call, words, values, room, library),
        _ => "an unknown call".into(),
    }
}

/// A recorded answer and what it answers.
struct Record<'a> {
    call: &'a str,
    words: Vec<u32>,
    numbers: Vec<i64>,
    room: usize,
    answer: &'a str,
}

/// The record of a line, none where it has not the five parts.
fn record(line: &str) -> Option<Record<'_>> {
    let fields: Vec<&str> = line.split('|').map(str::trim).collect();
    let [call, words, values, room, answer] = fields[..] else { return None };
    Some(Record {
        call,
        words: words.split_whitespace().filter_map(|word| u32::from_str_radix(word, 16).ok()).collect(),
        numbers: values.split_whitespace().filter_map(|value| value.parse().ok()).collect(),
        room: room.parse().unwrap_or(0),
        answer,
    })
}

/// The lines of some files, in order.
fn lines(files: &[String]) -> Vec<String> {
    let mut lines = vec![];
    for file in files {
        let Ok(text) = std::fs::read_to_string(file) else {
            eprintln!("twin: cannot read {file}");
            exit(2)
        };
        lines.extend(text.lines().filter(|line| !line.trim().is_empty() && !line.starts_with('#')).map(String::from));
    }
    lines
}

/// Of lines with the same call, words, values and room only the last: a later request can change an answer.
fn latest(lines: Vec<String>) -> Vec<String> {
    let mut asked = HashSet::new();
    let mut latest: Vec<String> =
        lines.into_iter().rev().filter(|line| asked.insert(line.rsplit_once('|').map_or("", |line| line.0).to_string())).collect();
    latest.reverse();
    latest
}

/// Tries the recorded answers of some files on the twin and the library, or the latest of them on the twin alone. Every difference is printed.
pub fn run(files: &[String], both: bool) {
    let lines = if both { lines(files) } else { latest(lines(files)) };
    let mut differences = 0;
    for line in &lines {
        let Some(mut record) = record(line) else {
            println!("twin: not a vector: {line}");
            exit(1)
        };
        for (side, library) in [("twin", false), ("library", true)].into_iter().take(1 + usize::from(both)) {
            let answer = answer(record.call, &mut record.words, &record.numbers, record.room, library);
            if answer != record.answer {
                println!("twin: {line}\n{side}: {answer}");
                differences += 1;
            }
        }
    }
    println!("twin: {} recorded answers, {differences} differences", lines.len());
    if differences > 0 {
        exit(1);
    }
}
