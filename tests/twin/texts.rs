//! Models printed as FlatZinc text, plainly or with any blanks, comments, names and numbers, and texts with faults.

use crate::inputs::Random;
use crate::twin::{kind, payload, signed, BOOLEAN, CONSTRAINT, LOWER, MODEL_END, NAMES, NAME_BYTES};

type Token = Vec<u8>;

/// The arguments of a code in text: v a variable, n a number, l a list of variables, a a list of numbers, s a set, p a list of numbers and one of
/// variables.
fn sorts(code: u32) -> &'static str {
    match code {
        1..=4 | 8 | 16 | 17 => "vv",
        10..=12 => "pn",
        13 | 15 | 32 => "pnv",
        21 => "ll",
        22 => "lv",
        23 => "l",
        24 => "vav",
        25 => "vlv",
        26 | 33 => "vl",
        27 => "vs",
        28 => "vsv",
        39 => "vnv",
        _ => "vvv",
    }
}

/// Prints the words of a model that can be read, token by token.
struct Printer<'a> {
    rest: std::slice::Iter<'a, u32>,
    name: &'a mut dyn FnMut(usize) -> Token,
    number: &'a mut dyn FnMut(i32) -> Token,
    tokens: Vec<Token>,
}

impl Printer<'_> {
    fn put(&mut self, token: &str) {
        self.tokens.push(token.into());
    }

    fn next(&mut self) -> u32 {
        self.rest.next().copied().unwrap_or(0)
    }

    fn variable(&mut self) {
        let variable = payload(self.next()) as usize;
        let token = (self.name)(variable);
        self.tokens.push(token);
    }

    fn number(&mut self, word: u32) {
        let token = (self.number)(signed(word));
        self.tokens.push(token);
    }

    fn list(&mut self, count: u32, signs: [&str; 2], numbers: bool) {
        self.put(signs[0]);
        for at in 0..count {
            if at > 0 {
                self.put(",");
            }
            if numbers {
                let word = self.next();
                self.number(word);
            } else {
                self.variable();
            }
        }
        self.put(signs[1]);
    }

    fn argument(&mut self, sort: char) {
        if sort == 'v' {
            return self.variable();
        }
        let first = self.next();
        let count = payload(first);
        match sort {
            'n' => self.number(first),
            'l' => self.list(count, ["[", "]"], false),
            'a' => self.list(count, ["[", "]"], true),
            's' => self.list(count, ["{", "}"], true),
            _ => {
                self.list(count, ["[", "]"], true);
                self.put(",");
                self.list(count, ["[", "]"], false);
            }
        }
    }

    fn items(&mut self) {
        let mut variables = 0;
        while let Some(&word) = self.rest.next() {
            match kind(word) {
                LOWER | BOOLEAN => {
                    self.put("var");
                    if kind(word) == LOWER {
                        self.number(word);
                        self.put("..");
                        let upper = self.next();
                        self.number(upper);
                    } else {
                        self.put("bool");
                    }
                    self.put(":");
                    let token = (self.name)(variables);
                    self.tokens.push(token);
                    variables += 1;
                }
                CONSTRAINT => {
                    self.put("constraint");
                    self.put(NAMES[payload(word) as usize - 1]);
                    self.put("(");
                    for (place, sort) in sorts(payload(word)).chars().enumerate() {
                        if place > 0 {
                            self.put(",");
                        }
                        self.argument(sort);
                    }
                    self.put(")");
                }
                MODEL_END => {
                    self.put("solve");
                    self.put("satisfy");
                }
                _ => (),
            }
            self.put(";");
        }
    }
}

fn tokens(model: &[u32], name: &mut dyn FnMut(usize) -> Token, number: &mut dyn FnMut(i32) -> Token) -> Vec<Token> {
    let mut printer = Printer { rest: model.iter(), name, number, tokens: vec![] };
    printer.items();
    printer.tokens
}

/// Whether a blank belongs between two tokens so that they stay two.
fn touch(one: &[u8], other: &[u8]) -> bool {
    let wordy = |byte: Option<&u8>| byte.is_some_and(|byte| byte.is_ascii_alphanumeric() || *byte == b'_');
    wordy(one.last()) && wordy(other.first())
}

/// A model as plain text: names x0, x1 and so on, one item a line.
pub fn plain(model: &[u32]) -> Vec<u8> {
    let mut text = vec![];
    let all = tokens(model, &mut |variable| format!("x{variable}").into(), &mut |number| number.to_string().into());
    for (place, token) in all.iter().enumerate() {
        if place > 0 && touch(&all[place - 1], token) {
            text.push(b' ');
        }
        text.extend(token);
        if token == b";" {
            text.push(b'\n');
        }
    }
    text
}

// ---------------------------------------------------------------------------------------------------------------------------------- random

const WORDS: [&str; 12] =
    ["var", "bool", "constraint", "solve", "satisfy", "int", "of", "true", "array", "int_eq_imp", "array_bool_or", "int_lin_eq_"];
const NUMBERS: [&str; 14] = [
    "134217727",
    "134217728",
    "-134217727",
    "-134217728",
    "000134217727",
    "-000134217728",
    "268435455",
    "268435456",
    "4294967296",
    "-4294967296",
    "18446744073709551616",
    "340282366920938463463374607431768211457",
    "-0",
    "00",
];
const SIGNS: [&str; 11] = ["..", ":", ";", ",", "(", ")", "[", "]", "{", "}", ";"];
const BROKEN: [&str; 14] = [".", "...", "-", "--1", "- 1", "_", "_x", "\t", "\r", "=", "::", "\"x\"", "<", "\u{e4}"];

/// A name of so many bytes.
fn long_name(random: &mut Random, bytes: usize) -> Token {
    let letters = b"abcdefghijklmnopqrstuvwxyzABCDEFGHIJKLMNOPQRSTUVWXYZ0123456789_";
    (0..bytes).map(|at| letters[random.below(if at == 0 { 52 } else { letters.len() })]).collect()
}

fn some_name(random: &mut Random, common: &[u8]) -> Token {
    match random.below(8) {
        0 => random.pick(&WORDS).into(),
        1 => random.pick(&NAMES).into(),
        2 => long_name(random, NAME_BYTES),
        3 => {
            // Names that differ in their last bytes only.
            let kept = common.len() - 1 - random.below(2);
            let end = long_name(random, common.len() - kept);
            [&common[..kept], &end].concat()
        }
        4 => long_name(random, 1),
        5 => format!("x{}", random.below(1_000)).into(),
        _ => {
            let bytes = 1 + random.below(NAME_BYTES);
            long_name(random, bytes)
        }
    }
}

/// A name for each variable, all different.
fn names(random: &mut Random, count: usize) -> Vec<Token> {
    let common = long_name(random, NAME_BYTES);
    let simple = random.one_in(3);
    let mut names: Vec<Token> = vec![];
    while names.len() < count {
        let name = if simple || count > 64 { format!("x{}", names.len()).into() } else { some_name(random, &common) };
        if !names.contains(&name) {
            names.push(name);
        }
    }
    names
}

/// A number as it may be written.
fn some_number(random: &mut Random, number: i32) -> Token {
    let sign = if number < 0 || number == 0 && random.one_in(8) { "-" } else { "" };
    let zeros = if random.one_in(8) { random.pick(&[1, 1, 2, 10, 40]) } else { 0 };
    format!("{sign}{}{}", "0".repeat(zeros), number.unsigned_abs()).into()
}

/// The tokens of a model with any names and numbers.
fn some_tokens(random: &mut Random, model: &[u32]) -> Vec<Token> {
    let count = model.iter().filter(|&&word| matches!(kind(word), LOWER | BOOLEAN)).count();
    let names = names(random, count);
    tokens(model, &mut |variable| names[variable].clone(), &mut |number| some_number(random, number))
}

/// What may stand between tokens.
fn blanks(random: &mut Random, much: bool) -> Token {
    let mut text = vec![];
    for _ in 0..if much { random.below(4) } else { usize::from(random.one_in(4)) } {
        let blank = random.pick(&["  ", " ", "\n", "\n\n ", "%\n", "% var 0..1: x;\n", "%%\tsolve satisfy;\r\n", " % \u{e4}\n"]);
        text.extend_from_slice(blank.as_bytes());
    }
    text
}

/// The text of some tokens.
fn joined(random: &mut Random, tokens: &[Token]) -> Vec<u8> {
    let much = random.one_in(4);
    let mut text = vec![];
    for (place, token) in tokens.iter().enumerate() {
        let between = blanks(random, much);
        // Seldom two tokens grow together.
        if between.is_empty() && place > 0 && touch(&tokens[place - 1], token) && !random.one_in(400) {
            text.push(b' ');
        }
        text.extend(between);
        text.extend(token);
    }
    text.extend(blanks(random, true));
    if random.one_in(8) {
        text.extend(b"% the end");
    }
    text
}

/// A token of any sort.
fn any_token(random: &mut Random, tokens: &[Token]) -> Token {
    match random.below(10) {
        0 => random.pick(&WORDS).into(),
        1 => random.pick(&NAMES).into(),
        2 => random.pick(&NUMBERS).into(),
        3 | 4 => random.pick(&SIGNS).into(),
        5 => random.pick(&BROKEN).into(),
        6 => {
            let bytes = NAME_BYTES + random.below(3);
            long_name(random, bytes)
        }
        7 => long_name(random, 5),
        _ if tokens.is_empty() => b"0".to_vec(),
        _ => tokens[random.below(tokens.len())].clone(),
    }
}

/// A place of a token of some sort, if there is one.
fn place_of(random: &mut Random, tokens: &[Token], sort: impl Fn(&Token) -> bool) -> Option<usize> {
    let places: Vec<usize> = (0..tokens.len()).filter(|&at| sort(&tokens[at])).collect();
    if places.is_empty() {
        None
    } else {
        Some(random.pick(&places))
    }
}

fn is_name(token: &Token) -> bool {
    token.first().is_some_and(u8::is_ascii_alphabetic)
}

/// One change of some tokens.
fn damage_tokens(random: &mut Random, tokens: &mut Vec<Token>) {
    if tokens.is_empty() {
        return;
    }
    let at = random.below(tokens.len());
    match random.below(14) {
        0 => _ = tokens.remove(at),
        1 => tokens.insert(at, tokens[at].clone()),
        2 => tokens[at] = any_token(random, tokens),
        3 => tokens.insert(at, any_token(random, tokens)),
        4 => {
            let other = if random.one_in(2) { (at + 1) % tokens.len() } else { random.below(tokens.len()) };
            tokens.swap(at, other);
        }
        5 => {
            // A number at an end of the range, or a hyphen that does not belong to it.
            if let Some(at) = place_of(random, tokens, |token| token.last().is_some_and(u8::is_ascii_digit) && !is_name(token)) {
                tokens[at] = if random.one_in(4) { [b"- ", &tokens[at][..]].concat() } else { random.pick(&NUMBERS).into() };
            }
        }
        6 => {
            // A name that is not declared, or the one of another place.
            if let Some(at) = place_of(random, tokens, is_name) {
                let other = place_of(random, tokens, is_name).unwrap_or(at);
                tokens[at] = if random.one_in(2) { tokens[other].clone() } else { long_name(random, 6) };
            }
        }
        7 | 8 => {
            // An element or an argument less.
            if let Some(at) = place_of(random, tokens, |token| token == b",") {
                tokens.drain(at..(at + 2).min(tokens.len()));
            }
        }
        9 | 10 => {
            // An element or an argument more.
            if let Some(at) = place_of(random, tokens, |token| matches!(&token[..], b"," | b")" | b"]" | b"}")) {
                let token = if random.one_in(3) { any_token(random, tokens) } else { tokens[at.saturating_sub(1)].clone() };
                tokens.splice(at..at, [b",".to_vec(), token]);
            }
        }
        11 => tokens.truncate(at),
        12 => {
            // Brackets of another sort, or a dot more.
            if let Some(at) = place_of(random, tokens, |token| matches!(&token[..], b".." | b"(" | b")" | b"[" | b"]" | b"{" | b"}")) {
                tokens[at] = if tokens[at] == b".." { "..." } else { random.pick(&SIGNS[4..]) }.into();
            }
        }
        _ => {
            // An item that stands elsewhere, or twice.
            let ends: Vec<usize> = (0..tokens.len()).filter(|&at| tokens[at] == b";").collect();
            if ends.len() > 1 {
                let which = random.below(ends.len() - 1);
                let item: Vec<Token> = tokens[ends[which] + 1..=ends[which + 1]].to_vec();
                let before = random.pick(&ends) + 1;
                tokens.splice(before..before, item);
            }
        }
    }
}

/// One change of some bytes.
fn damage_bytes(random: &mut Random, text: &mut Vec<u8>) {
    if text.is_empty() {
        return;
    }
    let at = random.below(text.len());
    let byte = random.pick(b" \n%.-_,;:()[]{}09az\t\r\0\x7f\xff=\"");
    match random.below(8) {
        0 => _ = text.remove(at),
        1 => text.insert(at, text[at]),
        2 => text[at] = byte,
        3 => text.insert(at, byte),
        4 => text[at] = random.next() as u8,
        5 => text[at] ^= 1 << random.below(8),
        6 => text.truncate(at),
        _ => {
            // Many bytes twice: a name or a number that grows, a comment, items.
            let end = (at + 1 + random.below(40)).min(text.len());
            let part = text[at..end].to_vec();
            text.splice(at..at, part);
        }
    }
}

/// A model as text with any blanks, comments, names and numbers.
pub fn some_text(random: &mut Random, model: &[u32]) -> Vec<u8> {
    let tokens = some_tokens(random, model);
    joined(random, &tokens)
}

/// The same with so many faults at most, in tokens or in bytes.
pub fn damaged_text(random: &mut Random, model: &[u32], most: usize) -> Vec<u8> {
    let mut tokens = some_tokens(random, model);
    let count = 1 + random.below(most);
    let bytes = random.one_in(3);
    if !bytes {
        (0..count).for_each(|_| damage_tokens(random, &mut tokens));
    }
    let mut text = joined(random, &tokens);
    if bytes {
        (0..count).for_each(|_| damage_bytes(random, &mut text));
    }
    text
}

/// Tokens of any sort, behind two variables mostly.
pub fn random_text(random: &mut Random) -> Vec<u8> {
    let front = ["var", "bool", ":", "x", ";", "var", "0", "..", "3", ":", "y", ";"];
    let mut tokens: Vec<Token> = front[..random.pick(&[0, 5, 12, 12])].iter().map(|&token| token.into()).collect();
    for _ in 0..random.below(16) {
        let token = any_token(random, &tokens);
        tokens.push(token);
    }
    joined(random, &tokens)
}
