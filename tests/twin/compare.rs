//! Calls the library and the twin on the same input and compares all that can be seen afterwards.

use crate::answers::{Counts, Judgement, Written, AUXILIARIES, FALSE, HOLDS, OUT_OF_BOUNDS, REFUSED};
use crate::back;
use crate::inputs::{self, Form, Input, Random};
use crate::library::{self, Lent};
use crate::names::Case;
use crate::twin::{self, kind, payload, CODES, CONSTRAINT};
use std::collections::BTreeMap;
use std::fmt::{Debug, LowerHex};
use std::process::exit;

#[derive(Clone, Copy, PartialEq)]
pub enum Call {
    CheckBytes,
    Check,
    Translate,
    JudgeModel,
    JudgeRows,
    Fill,
    Sheet,
    Reason,
    Solutions,
    PairCheck,
    PairTranslate,
    PairJudgeModel,
    PairFill,
    Text,
    Bits,
    BitValues,
    BitEnergy,
    ValueBits,
    BestBits,
}

const CALLS: [Call; 19] = [
    Call::CheckBytes,
    Call::Check,
    Call::Translate,
    Call::JudgeModel,
    Call::JudgeRows,
    Call::Fill,
    Call::Sheet,
    Call::Reason,
    Call::Solutions,
    Call::PairCheck,
    Call::PairTranslate,
    Call::PairJudgeModel,
    Call::PairFill,
    Call::Text,
    Call::Bits,
    Call::BitValues,
    Call::BitEnergy,
    Call::ValueBits,
    Call::BestBits,
];

impl Call {
    fn name(self) -> &'static str {
        [
            "check-bytes",
            "check",
            "translate",
            "judge-model",
            "judge-rows",
            "fill",
            "sheet",
            "reason",
            "solutions",
            "pair-check",
            "pair-translate",
            "pair-judge",
            "pair-fill",
            "text",
            "bits",
            "bit-values",
            "bit-energy",
            "value-bits",
            "best-bits",
        ][self as usize]
    }

    /// The faults that the call meets (docs/RULES.md, 7).
    fn meets(self, fault: usize) -> bool {
        match self {
            Call::CheckBytes | Call::Check | Call::PairCheck => matches!(fault, 1..=14 | 18),
            Call::Translate | Call::PairTranslate => matches!(fault, 1..=14 | 16 | 18),
            Call::JudgeModel | Call::PairJudgeModel => matches!(fault, 1..=11 | 15 | 18),
            Call::JudgeRows => matches!(fault, 1..=5 | 9..=11 | 14 | 15 | 17 | 18),
            Call::Fill | Call::PairFill => matches!(fault, 1..=16 | 18),
            Call::Reason => matches!(fault, 1..=15 | 18),
            Call::Solutions => matches!(fault, 1..=14 | 16 | 18 | 22),
            Call::Sheet => matches!(fault, 1..=5 | 9..=11 | 14 | 16..=18),
            Call::Text => matches!(fault, 1 | 16 | 19..=21),
            Call::Bits => matches!(fault, 1..=5 | 9..=11 | 14 | 16..=18 | 23 | 24),
            Call::BitValues => matches!(fault, 1..=5 | 9..=11 | 14..=18 | 23 | 25),
            Call::BitEnergy => matches!(fault, 1..=5 | 9..=11 | 14 | 15 | 17 | 18 | 23..=25),
            Call::ValueBits => matches!(fault, 1..=5 | 9..=11 | 14..=18 | 23),
            Call::BestBits => matches!(fault, 1..=5 | 9..=11 | 14 | 16..=18 | 23 | 24 | 26),
        }
    }

    /// Whether the call gives an answer: the judges and fill all of them, reason one more, the others only refusals and acceptance.
    fn says(self, answer: u32) -> bool {
        match self {
            Call::Reason => true,
            Call::JudgeModel | Call::JudgeRows | Call::Fill | Call::PairJudgeModel | Call::PairFill | Call::ValueBits => answer <= FALSE,
            _ => answer <= HOLDS,
        }
    }
}

/// A list lent inside a larger one whose other elements guard it.
struct Guarded<T> {
    all: Vec<T>,
    before: usize,
    count: usize,
    /// Whether it is lent as a null pointer when it is empty.
    null: bool,
}

const GUARD: usize = 16;

/// The highest number of a fault.
const FAULTS: usize = 26;

/// The pattern of guard elements and of outputs before a call.
trait Pattern: Copy + PartialEq + Debug {
    fn pattern(at: usize) -> Self;
}

impl Pattern for u32 {
    fn pattern(at: usize) -> u32 {
        0xA5C3_96F0 ^ (at as u32).wrapping_mul(0x9E37_79B9)
    }
}

impl Pattern for i32 {
    fn pattern(at: usize) -> i32 {
        u32::pattern(at) as i32
    }
}

impl Pattern for u8 {
    fn pattern(at: usize) -> u8 {
        u32::pattern(at) as u8
    }
}

impl<T: Pattern> Guarded<T> {
    fn new() -> Self {
        Guarded { all: vec![], before: 0, count: 0, null: false }
    }

    /// An output of so many elements, the whole of it pattern.
    fn set_room(&mut self, count: usize) {
        self.all.clear();
        self.all.extend((0..count + 2 * GUARD).map(T::pattern));
        (self.before, self.count) = (GUARD, count);
    }

    /// A list to read, with `shift` more elements before it.
    fn set(&mut self, list: &[T], shift: usize) {
        (self.before, self.count) = (GUARD + shift, list.len());
        self.all.clear();
        self.all.extend((0..self.before).map(T::pattern));
        self.all.extend_from_slice(list);
        self.all.extend((self.all.len()..self.all.len() + GUARD).map(T::pattern));
    }

    fn list(&self) -> &[T] {
        &self.all[self.before..self.before + self.count]
    }

    fn list_mut(&mut self) -> &mut [T] {
        &mut self.all[self.before..self.before + self.count]
    }

    fn lend(&mut self) -> Lent<'_, T> {
        let null = self.null;
        let lent = Lent::new(self.list_mut());
        if null {
            lent.or_null()
        } else {
            lent
        }
    }

    /// Whether the list is still the one lent, the guards included.
    fn unchanged(&self, list: &[T]) -> bool {
        let guards = (0..self.before).chain(self.before + self.count..self.all.len());
        self.list() == list && guards.into_iter().all(|at| self.all[at] == T::pattern(at))
    }
}

/// Compares both sides and counts what they answered.
pub struct Comparer {
    seed: u64,
    index: u64,
    family: String,
    words: Guarded<u32>,
    bytes: Guarded<u8>,
    values: Guarded<i32>,
    out_words: [Guarded<u32>; 2],
    out_values: [Guarded<i32>; 2],
    out_bytes: [Guarded<u8>; 2],
    calls: u64,
    families: BTreeMap<&'static str, u64>,
    faults: [[u64; FAULTS + 1]; CALLS.len()],
    answers: [[u64; 5]; CALLS.len()],
    /// For each code: its constraints in accepted models, in models that hold, and those named as false.
    codes: [[u64; 3]; CODES + 1],
}

impl Comparer {
    pub fn new(seed: u64) -> Comparer {
        Comparer {
            seed,
            index: 0,
            family: String::new(),
            words: Guarded::new(),
            bytes: Guarded::new(),
            values: Guarded::new(),
            out_words: [Guarded::new(), Guarded::new()],
            out_values: [Guarded::new(), Guarded::new()],
            out_bytes: [Guarded::new(), Guarded::new()],
            calls: 0,
            families: BTreeMap::new(),
            faults: [[0; FAULTS + 1]; CALLS.len()],
            answers: [[0; 5]; CALLS.len()],
            codes: [[0; 3]; CODES + 1],
        }
    }

    /// Runs the input of an index through every call that takes it.
    pub fn run(&mut self, index: u64) {
        let mut random = Random::new(self.seed, index);
        let input = inputs::input(&mut random);
        self.index = index;
        self.family = input.family.into();
        let null = index % 2 == 1;
        (self.words.null, self.bytes.null, self.values.null) = (null, null, null);
        (self.out_words[0].null, self.out_values[0].null, self.out_bytes[0].null) = (null, null, null);
        *self.families.entry(input.family).or_default() += 1;
        // Some words go to the calls of the other forms as well.
        let both = random.one_in(16);
        if input.form == Form::Model || both {
            self.model(&mut random, &input);
        }
        if input.form == Form::Rows || both {
            self.rows(&mut random, &input.words, &input.values);
        }
        if input.form == Form::Pair || both {
            self.pair(&mut random, &input.words, &input.values);
        }
        if input.form == Form::Text {
            self.text(&mut random, &input.words);
        }
    }

    fn model(&mut self, random: &mut Random, input: &Input) {
        let words = &input.words;
        self.words.set(words, 0);
        self.check_bytes(random, words);
        let counts = self.check(words);
        let accepted = counts.fault == 0;
        if accepted {
            self.count_codes(words, 0);
        }
        let all = counts.variables + counts.auxiliaries;
        let room = room(random, counts.words, accepted);
        let (one_short, shorter) = (counts.words.saturating_sub(1), random.below(counts.words + 1));
        let short = random.pick(&[0, one_short, one_short, shorter]);
        for room in [short, room] {
            self.translate(words, room);
        }
        self.solutions(random, words);
        let mut lists = inputs::value_lists(random, words, &input.values);
        if words.len() < 200 && random.one_in(4) {
            lists.extend(inputs::solution(random, words, 10));
        }
        let mut filled = None;
        for values in &lists {
            let judged = self.judge_model(words, values);
            let room = if random.one_in(4) { random.pick(&[0, all / 2, all.saturating_sub(1)]) } else { self::room(random, all, accepted) };
            let answer = self.fill(words, values, room);
            if answer.said == HOLDS {
                self.count_codes(words, 1);
                filled = Some(self.out_values[0].list()[..answer.at].to_vec());
            }
            if judged.said == FALSE {
                let code = words.iter().filter(|&&word| kind(word) == CONSTRAINT).nth(judged.at).map_or(0, |&word| payload(word));
                self.codes[code as usize][2] += 1;
            }
        }
        // The last output was lent with room for all words.
        if accepted && (counts.words < 5_000 || random.one_in(8)) {
            self.translate(words, counts.words);
            let rows = self.out_words[0].list().to_vec();
            self.reasons(random, words, &rows, counts.variables, filled.as_deref());
            if let Some(filled) = &filled {
                if self.judge_rows(&rows, filled, true).said != HOLDS {
                    self.differ(Call::JudgeRows, &rows, filled, None, "fill's values must satisfy translate's rows".into());
                }
                for _ in 0..4 {
                    let other = inputs::other_auxiliaries(random, &rows, counts.variables, filled);
                    if other != *filled && self.judge_rows(&rows, &other, false).said == HOLDS {
                        self.differ(Call::JudgeRows, &rows, &other, None, "no other auxiliaries than fill's may satisfy translate's rows".into());
                    }
                }
            }
            self.rows(random, &rows, filled.as_deref().unwrap_or(&input.values));
        } else {
            self.reason(words, &input.values);
        }
    }

    /// Solutions into a list that is too short, of the right length or longer; long searches are made seldom. The words are lent.
    fn solutions(&mut self, random: &mut Random, words: &[u32]) {
        let lists = inputs::declared(words).iter().fold(1.0, |lists, &(lower, upper)| lists * (f64::from(upper) - f64::from(lower) + 1.0));
        if (1_000.0..=65_536.0).contains(&lists) && !random.one_in(16) {
            return;
        }
        let needed = twin::all_solutions(words).map_or(0, |(values, _)| values.len());
        let room = random.pick(&[needed, needed, needed + 1, needed + 9, needed.saturating_sub(1), needed / 2, 0]);
        let [ours, theirs] = &mut self.out_values;
        ours.set_room(room);
        theirs.set_room(room);
        let library = library::solutions(self.words.lend(), ours.lend());
        let twin = twin::solutions(words, theirs.list_mut());
        if library != twin || ours.all != theirs.all || !self.words.unchanged(words) {
            let outputs = first_difference(&ours.all, &theirs.all);
            self.differ(Call::Solutions, words, &[], Some(room), self.told(&library, &twin, words, &[]) + &outputs);
        }
        self.count(Call::Solutions, twin.fault, u32::from(twin.fault == 0));
    }

    /// Reasons of a model and its row system: of what fill wrote, if it holds, of that with auxiliaries or one source changed, and of other values.
    fn reasons(&mut self, random: &mut Random, words: &[u32], rows: &[u32], sources: usize, filled: Option<&[i32]>) {
        let bounds = inputs::declared(rows);
        let inside = |random: &mut Random, at: usize| random.between(i64::from(bounds[at].0), i64::from(bounds[at].1)) as i32;
        let some: Vec<i32> = (0..bounds.len()).map(|at| inside(random, at)).collect();
        let values = filled.unwrap_or(&some);
        let mut lists = inputs::value_lists(random, rows, values);
        for _ in 0..3 {
            lists.push(inputs::other_auxiliaries(random, rows, sources, values));
            if sources > 0 {
                let mut other = values.to_vec();
                let at = random.below(sources);
                other[at] = inside(random, at);
                lists.push(other);
            }
        }
        lists.iter().for_each(|values| self.reason(words, values));
    }

    /// The words are lent.
    fn reason(&mut self, words: &[u32], values: &[i32]) {
        self.values.set(values, 0);
        let library = library::reason(self.words.lend(), self.values.lend());
        let twin = twin::reason(words, values);
        if library != twin || !self.words.unchanged(words) || !self.values.unchanged(values) {
            self.differ(Call::Reason, words, values, None, self.told(&library, &twin, words, values));
        }
        self.count(Call::Reason, twin.fault, twin.said);
    }

    fn rows(&mut self, random: &mut Random, words: &[u32], values: &[i32]) {
        let lists = inputs::value_lists(random, words, values);
        for (at, values) in lists.iter().enumerate() {
            self.judge_rows(words, values, at == 0);
        }
        if words.len() < 5_000 || words.len() > twin::ROW_WORDS || random.one_in(4) {
            self.sheet(random, words);
            self.bits(random, words);
            self.best_bits(random, words);
            self.way_back(random, words, &lists);
        }
    }

    /// The way back: bits of values that satisfy the row system and bits near them, random ones, and some that no call takes. The words are lent.
    fn way_back(&mut self, random: &mut Random, words: &[u32], lists: &[Vec<i32>]) {
        let count = back::bit_count(words).unwrap_or(3);
        let mut bit_lists: Vec<Vec<u8>> = (0..2).map(|_| (0..count).map(|_| random.below(2) as u8).collect()).collect();
        bit_lists.push(vec![1; count]);
        for values in lists {
            if let Some(bits) = self.value_bits(random, words, values) {
                let mut near = bits.clone();
                near.iter_mut().for_each(|bit| *bit ^= u8::from(random.one_in(count)));
                bit_lists.extend([bits, near]);
            }
        }
        let mut other = bit_lists[random.below(bit_lists.len())].clone();
        match random.below(3) {
            0 => other.push(0),
            1 => _ = other.pop(),
            _ => other.iter_mut().for_each(|bit| *bit = if random.one_in(count) { random.pick(&[2, 3, 128, 255]) } else { *bit }),
        }
        bit_lists.push(other);
        for bits in &bit_lists {
            self.bit_values(random, words, bits);
            self.bit_energy(words, bits);
        }
    }

    /// Bit values into a list that is too short, of the right length or longer; the words are lent.
    fn bit_values(&mut self, random: &mut Random, words: &[u32], bits: &[u8]) {
        let needed = inputs::declared(words).len();
        let room = random.pick(&[needed, needed, needed + 1, needed + 9, needed.saturating_sub(1), 0]);
        self.bytes.set(bits, 0);
        let [ours, theirs] = &mut self.out_values;
        ours.set_room(room);
        theirs.set_room(room);
        let library = library::bit_values(self.words.lend(), self.bytes.lend(), ours.lend());
        let twin = back::bit_values(words, bits, theirs.list_mut());
        if library != twin || ours.all != theirs.all || !self.words.unchanged(words) || !self.bytes.unchanged(bits) {
            let told = format!("library {library:?}\ntwin    {twin:?}\nbits {bits:?}") + &first_difference(&ours.all, &theirs.all);
            self.differ(Call::BitValues, words, &[], Some(room), told);
        }
        self.count(Call::BitValues, twin.fault, u32::from(twin.fault == 0));
    }

    /// The words are lent.
    fn bit_energy(&mut self, words: &[u32], bits: &[u8]) {
        self.bytes.set(bits, 0);
        let library = library::bit_energy(self.words.lend(), self.bytes.lend());
        let twin = back::bit_energy(words, bits);
        if library != twin || !self.words.unchanged(words) || !self.bytes.unchanged(bits) {
            self.differ(Call::BitEnergy, words, &[], None, format!("library {library:?}\ntwin    {twin:?}\nbits {bits:?}"));
        }
        self.count(Call::BitEnergy, twin.fault, u32::from(twin.fault == 0));
    }

    /// Value bits into a list that is too short, of the right length or longer; the bits, where they were written: they read as the values, and their energy
    /// is 0. The words are lent.
    fn value_bits(&mut self, random: &mut Random, words: &[u32], values: &[i32]) -> Option<Vec<u8>> {
        let needed = back::bit_count(words).unwrap_or(0);
        let room = random.pick(&[needed, needed, needed + 1, needed + 9, needed.saturating_sub(1), needed / 2]);
        self.values.set(values, 0);
        let [ours, theirs] = &mut self.out_bytes;
        ours.set_room(room);
        theirs.set_room(room);
        let library = library::value_bits(self.words.lend(), self.values.lend(), ours.lend());
        let twin = back::value_bits(words, values, theirs.list_mut());
        if library != twin || ours.all != theirs.all || !self.words.unchanged(words) || !self.values.unchanged(values) {
            let outputs = first_difference(&ours.all, &theirs.all);
            self.differ(Call::ValueBits, words, values, Some(room), self.told(&library, &twin, words, values) + &outputs);
        }
        self.count(Call::ValueBits, twin.fault, twin.said);
        if twin.said != HOLDS {
            return None;
        }
        let mut bits = self.out_bytes[0].list()[..twin.at].to_vec();
        let mut read = vec![0; values.len()];
        let said = library::bit_values(self.words.lend(), Lent::new(&mut bits), Lent::new(&mut read));
        let energy = library::bit_energy(self.words.lend(), Lent::new(&mut bits));
        if said.values != values.len() || read != values || (energy.fault, energy.energy) != (0, 0) {
            self.differ(Call::ValueBits, words, values, None, format!("the bits {bits:?} read as {read:?}, {said:?}, {energy:?}"));
        }
        Some(bits)
    }

    /// The form of a best solution into a list that is too short, of the right length or longer; the words are lent.
    fn best_bits(&mut self, random: &mut Random, words: &[u32]) {
        let variables = inputs::declared(words).len();
        let variable = if random.one_in(8) { random.pick(&[variables, variables + 1, usize::MAX]) } else { random.below(variables + 1) };
        let direction = if random.one_in(8) { random.pick(&[2, 3, u32::MAX]) } else { random.below(2) as u32 };
        let needed = back::best_form_words(words, variable, direction).map_or(0, |form| form.len());
        let room = random.pick(&[needed, needed, needed + 1, needed + 40, needed.saturating_sub(1), needed / 2, 0]);
        let [ours, theirs] = &mut self.out_words;
        ours.set_room(room);
        theirs.set_room(room);
        let library = library::best_bits(self.words.lend(), variable, direction, ours.lend());
        let twin = back::best_bits(words, variable, direction, theirs.list_mut());
        if library != twin || ours.all != theirs.all || !self.words.unchanged(words) {
            let told = format!("library {library:?}\ntwin    {twin:?}\nvariable {variable}, direction {direction}");
            let outputs = first_difference(&ours.all, &theirs.all);
            self.differ(Call::BestBits, words, &[], Some(room), told + &outputs);
        }
        self.count(Call::BestBits, twin.fault, u32::from(twin.fault == 0));
    }

    /// The calls for each candidate of a pair.
    fn pair(&mut self, random: &mut Random, words: &[u32], values: &[i32]) {
        self.words.set(words, 0);
        for candidate in [1, 2] {
            let counts = self.pair_check(words, candidate);
            let room = room(random, counts.words, counts.fault == 0);
            for room in [room, counts.words.saturating_sub(1)] {
                self.pair_translate(words, candidate, room);
            }
            let model = twin::candidate(words, candidate).unwrap_or_default();
            let all = counts.variables + counts.auxiliaries;
            for values in &inputs::value_lists(random, &model, values) {
                let room = random.pick(&[all, all, all + 3, all.saturating_sub(1)]);
                self.pair_judge_model(words, candidate, values);
                self.pair_fill(words, candidate, values, room);
            }
        }
    }

    fn pair_check(&mut self, words: &[u32], candidate: u32) -> Counts {
        let library = library::pair_check(self.words.lend(), candidate);
        let twin = twin::pair_check(words, candidate);
        if library != twin || !self.words.unchanged(words) {
            self.differ(Call::PairCheck, words, &[candidate as i32], None, self.told(&library, &twin, words, &[]));
        }
        self.count(Call::PairCheck, twin.fault, u32::from(twin.fault == 0));
        twin
    }

    fn pair_translate(&mut self, words: &[u32], candidate: u32, room: usize) {
        let [ours, theirs] = &mut self.out_words;
        ours.set_room(room);
        theirs.set_room(room);
        let library = library::pair_translate(self.words.lend(), candidate, ours.lend());
        let twin = twin::pair_translate(words, candidate, theirs.list_mut());
        if library != twin || ours.all != theirs.all || !self.words.unchanged(words) {
            let outputs = first_difference(&ours.all, &theirs.all);
            self.differ(Call::PairTranslate, words, &[candidate as i32], Some(room), self.told(&library, &twin, words, &[]) + &outputs);
        }
        self.count(Call::PairTranslate, twin.fault, u32::from(twin.fault == 0));
    }

    fn pair_judge_model(&mut self, words: &[u32], candidate: u32, values: &[i32]) {
        self.values.set(values, 0);
        let library = library::pair_judge_model(self.words.lend(), candidate, self.values.lend());
        let twin = twin::pair_judge_model(words, candidate, values);
        if library != twin || !self.words.unchanged(words) || !self.values.unchanged(values) {
            let values = [&[candidate as i32], values].concat();
            self.differ(Call::PairJudgeModel, words, &values, None, format!("library {library:?}\ntwin    {twin:?}"));
        }
        self.count(Call::PairJudgeModel, twin.fault, twin.said);
    }

    fn pair_fill(&mut self, words: &[u32], candidate: u32, values: &[i32], room: usize) {
        self.values.set(values, 0);
        let [ours, theirs] = &mut self.out_values;
        ours.set_room(room);
        theirs.set_room(room);
        let library = library::pair_fill(self.words.lend(), candidate, self.values.lend(), ours.lend());
        let twin = twin::pair_fill(words, candidate, values, theirs.list_mut());
        if library != twin || ours.all != theirs.all || !self.words.unchanged(words) || !self.values.unchanged(values) {
            let outputs = first_difference(&ours.all, &theirs.all);
            let values = [&[candidate as i32], values].concat();
            self.differ(Call::PairFill, words, &values, Some(room), format!("library {library:?}\ntwin    {twin:?}") + &outputs);
        }
        self.count(Call::PairFill, twin.fault, twin.said);
    }

    /// Text into a list that is too short, of the right length or longer, and check of what it writes; the words are bytes.
    fn text(&mut self, random: &mut Random, words: &[u32]) {
        let text: Vec<u8> = words.iter().map(|&byte| byte as u8).collect();
        self.bytes.set(&text, random.below(4));
        let model = twin::text_words(&text);
        let needed = model.as_ref().map_or(0, Vec::len);
        let room = random.pick(&[needed, needed, needed + 1, needed + 40, needed.saturating_sub(1), needed / 2, 0]);
        let twin = self.text_into(&text, room);
        self.count(Call::Text, twin.fault, u32::from(twin.fault == 0));
        if let Ok(model) = model {
            self.words.set(&model, 0);
            self.check(&model);
        }
    }

    /// Text into a list of so many words; the text is lent.
    fn text_into(&mut self, text: &[u8], room: usize) -> Written {
        let [ours, theirs] = &mut self.out_words;
        ours.set_room(room);
        theirs.set_room(room);
        let library = library::text(self.bytes.lend(), ours.lend());
        let twin = twin::text(text, theirs.list_mut());
        let unchanged = self.bytes.unchanged(text);
        if library != twin || ours.all != theirs.all || !unchanged {
            let outputs = first_difference(&ours.all, &theirs.all);
            let told = format!("library {library:?}\ntwin    {twin:?}\nbytes unchanged: {unchanged}{outputs}\ntext: {}", text.escape_ascii());
            self.differ(Call::Text, &[], &[], Some(room), told);
        }
        twin
    }

    /// A text of names into a list of the right length and, where it is accepted, into one that is too short.
    pub fn names(&mut self, case: &Case) {
        self.family.clone_from(&case.label);
        self.bytes.set(&case.text, 0);
        let needed = twin::text_words(&case.text).map_or(0, |model| model.len());
        let answer = self.text_into(&case.text, needed);
        if (answer.fault, answer.place) != (case.fault, case.place) {
            self.differ(
                Call::Text,
                &[],
                &[],
                Some(needed),
                format!("both sides {answer:?}\nmade as {} {}\ntext: {}", case.fault, case.place, case.text.escape_ascii()),
            );
        }
        if answer.fault == 0 {
            self.text_into(&case.text, needed - 1);
        }
    }

    fn check_bytes(&mut self, random: &mut Random, words: &[u32]) {
        let mut bytes: Vec<u8> = words.iter().flat_map(|word| word.to_le_bytes()).collect();
        for _ in 0..random.below(4) {
            bytes.push(random.next() as u8);
        }
        if random.one_in(8) {
            bytes.truncate(random.below(bytes.len() + 1));
        }
        self.bytes.set(&bytes, random.below(4));
        let library = library::check_bytes(self.bytes.lend());
        let twin = twin::check_bytes(&bytes);
        let unchanged = self.bytes.unchanged(&bytes);
        if library != twin || !unchanged {
            println!("bytes: {bytes:02x?}");
            self.differ(Call::CheckBytes, words, &[], None, format!("library {library}, twin {twin}, bytes unchanged: {unchanged}"));
        }
        self.count(Call::CheckBytes, twin, u32::from(twin == 0));
    }

    fn check(&mut self, words: &[u32]) -> Counts {
        let library = library::check(self.words.lend());
        let twin = twin::check(words);
        if library != twin || !self.words.unchanged(words) {
            self.differ(Call::Check, words, &[], None, self.told(&library, &twin, words, &[]));
        }
        self.count(Call::Check, twin.fault, u32::from(twin.fault == 0));
        twin
    }

    fn translate(&mut self, words: &[u32], room: usize) {
        let [ours, theirs] = &mut self.out_words;
        ours.set_room(room);
        theirs.set_room(room);
        let library = library::translate(self.words.lend(), ours.lend());
        let twin = twin::translate(words, theirs.list_mut());
        if library != twin || ours.all != theirs.all || !self.words.unchanged(words) {
            let outputs = first_difference(&ours.all, &theirs.all);
            self.differ(Call::Translate, words, &[], Some(room), self.told(&library, &twin, words, &[]) + &outputs);
        }
        self.count(Call::Translate, twin.fault, u32::from(twin.fault == 0));
    }

    fn judge_model(&mut self, words: &[u32], values: &[i32]) -> Judgement {
        self.values.set(values, 0);
        let library = library::judge_model(self.words.lend(), self.values.lend());
        let twin = twin::judge_model(words, values);
        if library != twin || !self.words.unchanged(words) || !self.values.unchanged(values) {
            self.differ(Call::JudgeModel, words, values, None, self.told(&library, &twin, words, values));
        }
        self.count(Call::JudgeModel, twin.fault, twin.said);
        twin
    }

    /// `fresh`: the words are not lent yet.
    fn judge_rows(&mut self, words: &[u32], values: &[i32], fresh: bool) -> Judgement {
        if fresh {
            self.words.set(words, 0);
        }
        self.values.set(values, 0);
        let library = library::judge_rows(self.words.lend(), self.values.lend());
        let twin = twin::judge_rows(words, values);
        if library != twin || !self.words.unchanged(words) || !self.values.unchanged(values) {
            self.differ(Call::JudgeRows, words, values, None, self.told(&library, &twin, words, values));
        }
        self.count(Call::JudgeRows, twin.fault, twin.said);
        twin
    }

    fn fill(&mut self, words: &[u32], values: &[i32], room: usize) -> Judgement {
        self.values.set(values, 0);
        let [ours, theirs] = &mut self.out_values;
        ours.set_room(room);
        theirs.set_room(room);
        let library = library::fill(self.words.lend(), self.values.lend(), ours.lend());
        let twin = twin::fill(words, values, theirs.list_mut());
        if library != twin || ours.all != theirs.all || !self.words.unchanged(words) || !self.values.unchanged(values) {
            let outputs = first_difference(&ours.all, &theirs.all);
            self.differ(Call::Fill, words, values, Some(room), self.told(&library, &twin, words, values) + &outputs);
        }
        self.count(Call::Fill, twin.fault, twin.said);
        twin
    }

    /// Sheet into a page that is too short, of the right length or longer; the words are lent.
    fn sheet(&mut self, random: &mut Random, words: &[u32]) {
        let needed = twin::printed(words).map_or(0, |page| page.len());
        let room = random.pick(&[needed, needed, needed + 1, needed + 81, needed.saturating_sub(1), needed.saturating_sub(81), 0]);
        let [ours, theirs] = &mut self.out_bytes;
        ours.set_room(room);
        theirs.set_room(room);
        let library = library::sheet(self.words.lend(), ours.lend());
        let twin = twin::sheet(words, theirs.list_mut());
        if library != twin || ours.all != theirs.all || !self.words.unchanged(words) {
            let outputs = first_difference(&ours.all, &theirs.all);
            self.differ(Call::Sheet, words, &[], Some(room), self.told(&library, &twin, words, &[]) + &outputs);
        }
        self.count(Call::Sheet, twin.fault, u32::from(twin.fault == 0));
    }

    /// Bits into a list that is too short, of the right length or longer; the words are lent.
    fn bits(&mut self, random: &mut Random, words: &[u32]) {
        let needed = twin::form_words(words).map_or(0, |form| form.len());
        let room = random.pick(&[needed, needed, needed + 1, needed + 40, needed.saturating_sub(1), needed / 2, 0]);
        let [ours, theirs] = &mut self.out_words;
        ours.set_room(room);
        theirs.set_room(room);
        let library = library::bits(self.words.lend(), ours.lend());
        let twin = twin::bits(words, theirs.list_mut());
        if library != twin || ours.all != theirs.all || !self.words.unchanged(words) {
            let outputs = first_difference(&ours.all, &theirs.all);
            self.differ(Call::Bits, words, &[], Some(room), self.told(&library, &twin, words, &[]) + &outputs);
        }
        self.count(Call::Bits, twin.fault, u32::from(twin.fault == 0));
    }

    fn told(&self, library: &impl Debug, twin: &impl Debug, words: &[u32], values: &[i32]) -> String {
        let kept = self.words.unchanged(words) && (values.is_empty() || self.values.unchanged(values));
        format!("library {library:?}\ntwin    {twin:?}\nread lists unchanged: {kept}")
    }

    /// Reports a difference and ends the run.
    fn differ(&self, call: Call, words: &[u32], values: &[i32], room: Option<usize>, told: String) -> ! {
        println!("twin: a difference, seed {}, index {} ({}), call {}", self.seed, self.index, self.family, call.name());
        println!("words: {}", words.iter().map(|word| format!("{word:08X}")).collect::<Vec<_>>().join(" "));
        println!("values: {values:?}");
        if let Some(room) = room {
            println!("room: {room}");
        }
        println!("{told}");
        exit(1)
    }

    fn count(&mut self, call: Call, fault: u32, answer: u32) {
        self.calls += 1;
        self.answers[call as usize][answer as usize] += 1;
        if answer == REFUSED {
            self.faults[call as usize][fault as usize] += 1;
        }
    }

    /// In accepted models only the head words have kind 4.
    fn count_codes(&mut self, words: &[u32], column: usize) {
        for &word in words.iter().filter(|&&word| kind(word) == CONSTRAINT) {
            self.codes[payload(word) as usize][column] += 1;
        }
    }

    /// Prints what occurred; answers whether everything that can occur did.
    pub fn report(&self) -> bool {
        let mut complete = true;
        println!("inputs by family:");
        for (family, count) in &self.families {
            println!("  {count:8}  {family}");
        }
        println!("calls of each side: {}", self.calls);
        println!("faults, a line each, by call (- where the call never meets it):");
        print!("{:>15}", "");
        CALLS.iter().for_each(|call| print!("{:>15}", call.name()));
        println!();
        for fault in 1..=FAULTS {
            print!("{fault:>15}");
            for call in CALLS {
                let count = self.faults[call as usize][fault];
                if call.meets(fault) {
                    print!("{count:>15}")
                } else {
                    print!("{:>15}", if count == 0 { "-" } else { "WRONG" })
                }
                complete &= (count > 0) == call.meets(fault);
            }
            println!();
        }
        for (answer, name) in [(HOLDS, "accepted, holds"), (OUT_OF_BOUNDS, "out of bounds"), (FALSE, "false"), (AUXILIARIES, "auxiliaries")] {
            print!("{name:>15}");
            for call in CALLS {
                let count = self.answers[call as usize][answer as usize];
                if call.says(answer) {
                    print!("{count:>15}")
                } else {
                    print!("{:>15}", "-")
                }
                complete &= (count > 0) == call.says(answer);
            }
            println!();
        }
        println!("constraints by code: in accepted models, in filled models, named as false:");
        for (code, counts) in self.codes.iter().enumerate().skip(1) {
            print!("  {code:2}: {:7} {:7} {:6}{}", counts[0], counts[1], counts[2], if code % 4 == 0 { "\n" } else { "" });
            complete &= counts.iter().all(|&count| count > 0);
        }
        println!();
        complete
    }
}

/// An output long enough: exact, or longer.
fn room(random: &mut Random, exact: usize, accepted: bool) -> usize {
    let longer = if random.one_in(64) { 5_000 } else { 40 };
    if !accepted || random.one_in(2) {
        exact + random.below(longer)
    } else {
        exact
    }
}

fn first_difference<T: PartialEq + Debug + LowerHex>(ours: &[T], theirs: &[T]) -> String {
    match ours.iter().zip(theirs).position(|(one, other)| one != other) {
        None => "\noutputs alike".into(),
        Some(at) => format!(
            "\noutputs differ at {} (below 0 or past the room: a guard): library {:x}, twin {:x}",
            at as i64 - GUARD as i64,
            ours[at],
            theirs[at]
        ),
    }
}
