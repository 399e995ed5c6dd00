//! Texts whose names are hard to tell apart, or are many. What each is answered follows from how it is made: the leftmost fault of those put into it, then 1
//! where its model has too many words.

use crate::inputs::Random;
use crate::twin::{MODEL_WORDS, NAME_BYTES};

type Name = Vec<u8>;

const LETTERS: &[u8; 52] = b"abcdefghijklmnopqrstuvwxyzABCDEFGHIJKLMNOPQRSTUVWXYZ";
const BYTES: &[u8; 63] = b"abcdefghijklmnopqrstuvwxyzABCDEFGHIJKLMNOPQRSTUVWXYZ0123456789_";

/// One name more than a model can have, and the most of a text here. The library's symbol table has room for so many names, or for twice as many.
const MANY: usize = 8_192;
const MOST: usize = 20_000;

/// The bytes of texts at which the library's symbol table becomes longer.
const LONGER: [usize; 3] = [1_024, 16_384, 65_536];

// ---------------------------------------------------------------------------------------------------------------------------------- names

/// The k-th name in order: the shorter ones first.
fn in_order(k: usize) -> Name {
    let (mut rest, mut length, mut count) = (k, 1, LETTERS.len());
    while rest >= count {
        (rest, length, count) = (rest - count, length + 1, count * BYTES.len());
    }
    let mut name: Name = (1..length)
        .map(|_| {
            let byte = BYTES[rest % BYTES.len()];
            rest /= BYTES.len();
            byte
        })
        .collect();
    name.push(LETTERS[rest]);
    name.reverse();
    name
}

fn shortest(count: usize) -> Vec<Name> {
    (0..count).map(in_order).collect()
}

/// Names of 32 bytes; up to 63 of them differ in the last byte only, more in the last ones only.
fn last_bytes(count: usize) -> Vec<Name> {
    let name = |k: usize| {
        let mut name = vec![b'x'; NAME_BYTES];
        let mut rest = k;
        for byte in name.iter_mut().rev().take(3) {
            *byte = BYTES[rest % BYTES.len()];
            rest /= BYTES.len();
        }
        name
    };
    (0..count).map(name).collect()
}

/// Names that begin with one byte and are as short as can be.
fn one_first_byte(count: usize) -> Vec<Name> {
    (0..count).map(|k| if k == 0 { b"q".to_vec() } else { [b"q", &in_order(k - 1)[..]].concat() }).collect()
}

/// Names of which each is the front of the next one, up to 32 bytes, or the next one the front of it; other ones begin with three other bytes.
fn prefixes(count: usize) -> Vec<Name> {
    const EACH: usize = NAME_BYTES - 2;
    let name = |k: usize| {
        let (stem, more) = (k / EACH, k % EACH);
        let more = if stem % 2 == 0 { more } else { EACH - 1 - more };
        let front = [LETTERS[stem / 2_704 % 52], LETTERS[stem / 52 % 52], LETTERS[stem % 52]];
        [&front[..], &vec![b'a'; more]].concat()
    };
    (0..count).map(name).collect()
}

/// The hash of crates/symbols/specs/Links.antt; the first link is its first 13 bits.
fn hash(name: &[u8]) -> u32 {
    name.iter().fold(0u32, |hash, &byte| hash.wrapping_mul(257).wrapping_add(byte.into())).wrapping_mul(2_654_435_769)
}

/// Names of one hash: (257 - 1)^4 is 2^32, so that five bytes that change by 1, -4, 6, -4, 1 change nothing of the sum. After 15,625 of them another hash.
fn one_hash(count: usize) -> Vec<Name> {
    let name = |k: usize| {
        let mut rest = k;
        let mut name: Name = vec![];
        for _ in 0..6 {
            let step = (rest % 5) as u8;
            rest /= 5;
            name.extend([b'a' + step, b'u' - 4 * step, b'a' + 6 * step, b'u' - 4 * step, b'a' + step]);
        }
        name.reverse();
        name.extend(vec![b'z'; rest]);
        name
    };
    let names: Vec<Name> = (0..count).map(name).collect();
    assert!(names.iter().take(15_625).all(|name| hash(name) == hash(&names[0])));
    names
}

/// Names in order that share the first link.
fn one_link(count: usize) -> Vec<Name> {
    (0..).map(in_order).filter(|name| hash(name) >> 19 == 77).take(count).collect()
}

/// A hash that a symbol table of probed slots and a Bloom filter had: the middle bits of products.
fn slot_hash(name: &[u8]) -> u32 {
    let mixed = |hash: u32, byte: u8| ((u64::from(hash) + u64::from(byte)).wrapping_mul(2_654_435_769) >> 16) as u32;
    mixed(name.iter().fold(0, |hash, &byte| mixed(hash, byte)), 0)
}

/// Names in order that share the slot, of 8,192, of that hash.
fn one_slot(count: usize) -> Vec<Name> {
    (0..).map(in_order).filter(|name| slot_hash(name) % 8_192 == 77).take(count).collect()
}

/// Pairs of names that share all bits of that hash, and so those of the filter.
fn one_filter(count: usize) -> Vec<Name> {
    let mut hashes: Vec<(u32, usize)> = (0..32 * MANY * count.min(20)).map(|k| (slot_hash(&in_order(k)), k)).collect();
    hashes.sort_unstable();
    let pairs = hashes.windows(2).filter(|pair| pair[0].0 == pair[1].0);
    pairs.flat_map(|pair| [in_order(pair[0].1), in_order(pair[1].1)]).take(count).collect()
}

/// Names by what they share.
struct Family {
    shared: &'static str,
    names: Vec<Name>,
}

/// The families that have as many names as are asked for come first.
const MANY_FAMILIES: usize = 5;

fn families() -> [Family; 8] {
    let family = |shared, names: fn(usize) -> Vec<Name>, count| Family { shared, names: names(count + 1) };
    [
        family("shortest names", shortest, MOST),
        family("names of 32 bytes that differ in the last ones", last_bytes, MOST),
        family("names of one first byte", one_first_byte, MOST),
        family("names that are fronts of others", prefixes, MOST),
        family("names of one hash", one_hash, MOST),
        family("names of one first link", one_link, 100),
        family("names of one slot", one_slot, 100),
        family("pairs of names of one slot hash", one_filter, 20),
    ]
}

// ---------------------------------------------------------------------------------------------------------------------------------- texts

/// A text and what it is answered: a fault and its place, or fault 0.
pub struct Case {
    pub label: String,
    pub text: Vec<u8>,
    pub fault: u32,
    pub place: usize,
}

/// Where a byte stands that breaks the grammar.
#[derive(Clone, Copy, Debug, PartialEq)]
enum Broken {
    Nowhere,
    Before,
    After,
    End,
}

use Broken::{After, Before, End, Nowhere};

/// A text as it is written, its words so far and its leftmost fault.
struct Writer {
    text: Vec<u8>,
    words: usize,
    fault: Option<(u32, usize)>,
}

impl Writer {
    fn new() -> Writer {
        Writer { text: vec![], words: 1, fault: None }
    }

    fn put(&mut self, bytes: &[u8]) {
        self.text.extend_from_slice(bytes);
    }

    /// What comes next has a fault.
    fn mark(&mut self, fault: u32) {
        self.fault.get_or_insert((fault, self.text.len()));
    }

    fn put_broken(&mut self, here: bool) {
        if here {
            self.mark(19);
            self.put(b"$");
        }
    }

    /// A declaration; `again`: of a name that is declared.
    fn declare(&mut self, name: &[u8], again: bool, broken: Broken) {
        self.put_broken(broken == Before);
        self.put(b"var bool:");
        if again {
            self.mark(20);
        }
        self.put(name);
        self.put_broken(broken == After);
        self.put(b";");
        self.words += 1;
    }

    /// A constraint over names, of which one may not be declared.
    fn constraint(&mut self, names: &[&Name], unknown: Option<usize>, broken: Broken) {
        self.put(b"constraint array_bool_xor([");
        for (at, name) in names.iter().enumerate() {
            if at > 0 {
                self.put(b",");
            }
            self.put_broken(broken == Before && unknown == Some(at));
            if unknown == Some(at) {
                self.mark(20);
            }
            self.put(name);
            self.put_broken(broken == After && unknown == Some(at));
        }
        self.put(b"]);");
        self.words += 2 + names.len();
    }

    fn case(mut self, label: String, broken: Broken) -> Case {
        self.put(b"solve satisfy;");
        self.put_broken(broken == End);
        let (fault, place) = self.fault.unwrap_or((u32::from(self.words > MODEL_WORDS), 0));
        Case { label, text: self.text, fault, place }
    }
}

/// Names declared one after the other, and one of them, `twice.0`, again as declaration `twice.1`.
fn declared(names: &[Name], twice: Option<(usize, usize)>, broken: Broken) -> Writer {
    let mut writer = Writer::new();
    for at in 0..=names.len() {
        if let Some((which, place)) = twice.filter(|&(_, place)| place == at) {
            writer.declare(&names[which], which < place, broken);
        }
        if let Some(name) = names.get(at) {
            writer.declare(name, false, Nowhere);
        }
    }
    writer
}

/// Declarations alone, and with one name declared again: each of some at the end, the first one at some places.
fn declarations(shared: &str, names: &[Name], points: &[usize], each: &mut impl FnMut(Case)) {
    let count = names.len();
    let mut put = |twice: Option<(usize, usize)>, broken: Broken| {
        let label = format!("{count} {shared}, {twice:?} declared again, broken {broken:?}");
        each(declared(names, twice, broken).case(label, broken));
    };
    put(None, Nowhere);
    put(None, End);
    for &point in points {
        put(Some((point, count)), Nowhere);
        put(Some((0, point + 1)), Nowhere);
    }
    for broken in [Before, After, End] {
        put(Some((0, count)), broken);
    }
}

/// Declarations, and a constraint over some of the names, in which another name is the first or the last.
fn uses(shared: &str, names: &[Name], points: &[usize], unknown: &Name, each: &mut impl FnMut(Case)) {
    let count = names.len();
    let known: Vec<&Name> = points.iter().map(|&point| &names[point]).collect();
    let mut writer = declared(names, None, Nowhere);
    writer.constraint(&known, None, Nowhere);
    each(writer.case(format!("{count} {shared}, some used"), Nowhere));
    for at in [0, known.len()] {
        let mut used = known.clone();
        used.insert(at, unknown);
        for broken in [Nowhere, Before, After] {
            let mut writer = declared(names, None, Nowhere);
            writer.constraint(&used, Some(at), broken);
            each(writer.case(format!("{count} {shared}, use {at} not declared, broken {broken:?}"), broken));
        }
    }
}

/// Names that are as long as may be or longer, declared first or last, and in a constraint alone.
fn lengths(each: &mut impl FnMut(Case)) {
    for length in [1, 31, 32, 33, 63, 64, 65, 255, 256, 257] {
        let name = vec![b'n'; length];
        let other = b"m".to_vec();
        for names in [[&name, &other], [&other, &name]] {
            let mut writer = Writer::new();
            for name in names {
                writer.put(b"var bool:");
                if name.len() > NAME_BYTES {
                    writer.mark(19);
                }
                writer.put(name);
                writer.put(b";");
                writer.words += 1;
            }
            writer.constraint(&names, None, Nowhere);
            each(writer.case(format!("a name of {length} bytes"), Nowhere));
        }
        let mut writer = Writer::new();
        writer.declare(&other, false, Nowhere);
        writer.put(b"constraint array_bool_xor([m,");
        writer.mark(if length > NAME_BYTES { 19 } else { 20 });
        writer.put(&name);
        writer.put(b"]);");
        each(writer.case(format!("a name of {length} bytes that is not declared"), Nowhere));
    }
}

/// Declarations of texts that have so many bytes, or one more or less; the last name declared twice, or the first one and another one used.
fn sizes(names: &[Name], each: &mut impl FnMut(Case)) {
    for bytes in LONGER.into_iter().flat_map(|bytes| bytes - 1..=bytes + 1) {
        for sort in 0..3 {
            let mut writer = Writer::new();
            let fit = names.iter().take_while(|name| {
                let fits = writer.text.len() + 90 < bytes;
                if fits {
                    writer.declare(name, false, Nowhere);
                }
                fits
            });
            let count = fit.count();
            match sort {
                0 => (),
                1 => writer.declare(&names[count - 1], true, Nowhere),
                _ => writer.constraint(&[&names[0], &names[count]], Some(1), Nowhere),
            }
            let blanks = bytes - b"solve satisfy;".len() - writer.text.len();
            writer.put(&vec![b' '; blanks]);
            each(writer.case(format!("{count} names in {bytes} bytes"), Nowhere));
        }
    }
}

/// About as many names as the table has room for, or more, used in any order, and any faults.
fn mixed(random: &mut Random, families: &[Family], each: &mut impl FnMut(Case)) {
    let Family { shared, names } = &families[random.below(MANY_FAMILIES)];
    let count = random.pick(&[MANY - 1, MANY, MANY + 1, 2 * MANY, 2 * MANY + 1, MOST]);
    let which = random.below(count);
    let twice = random.one_in(3).then(|| (which, which + 1 + random.below(count - which)));
    let mut writer = declared(&names[..count], twice, Nowhere);
    let faulty = random.below(4);
    for list in 0..4 {
        let mut used: Vec<&Name> = (0..random.pick(&[10, 1_000, 10_000])).map(|_| &names[random.below(count)]).collect();
        let at = (list == faulty).then(|| random.below(used.len()));
        if let Some(at) = at {
            used[at] = &names[count];
        }
        writer.constraint(&used, at, random.pick(&[Nowhere, Nowhere, Before, After]));
    }
    each(writer.case(format!("{count} {shared}, mixed"), Nowhere));
}

/// All of them, each made when it is its turn.
pub fn cases(seed: u64, each: &mut impl FnMut(Case)) {
    lengths(each);
    let families = families();
    sizes(&families[0].names, each);
    let points: Vec<usize> = [0, MANY - 2, MANY - 1, MANY, 2 * MANY - 1, 2 * MANY].into();
    for (place, Family { shared, names }) in families.iter().enumerate() {
        let few: &[usize] = &[2, 20, 33, 34, 63, 100];
        let many: &[usize] = &[MANY - 2, MANY - 1, MANY, MOST];
        for &count in [few, many].into_iter().take(1 + usize::from(place < MANY_FAMILIES)).flatten().filter(|&&count| count < names.len()) {
            let last = count - 1;
            let points: Vec<usize> =
                if count <= 100 { (0..count).collect() } else { points.iter().copied().filter(|&point| point < last).chain([last]).collect() };
            declarations(shared, &names[..count], &points, each);
            uses(shared, &names[..count], &points, &names[count], each);
        }
    }
    for index in 0..40 {
        mixed(&mut Random::new(seed, index), &families, each);
    }
}
