//! The answers of the calls, laid out as in include/pearrummy.h.

pub const REFUSED: u32 = 0;
pub const HOLDS: u32 = 1;
pub const OUT_OF_BOUNDS: u32 = 2;
pub const FALSE: u32 = 3;

/// Why a row fails, which only reason says: its builtin is false, or its auxiliaries are wrong.
pub const BUILTIN: u32 = 3;
pub const AUXILIARIES: u32 = 4;

/// What a judge, fill or value_bits says.
#[repr(C)]
#[derive(Clone, Copy, Debug, PartialEq, Eq)]
pub struct Judgement {
    pub said: u32,
    pub fault: u32,
    pub at: usize,
}

/// What check answers.
#[repr(C)]
#[derive(Clone, Copy, Debug, PartialEq, Eq, Default)]
pub struct Counts {
    pub fault: u32,
    pub place: usize,
    pub variables: usize,
    pub constraints: usize,
    pub auxiliaries: usize,
    pub rows: usize,
    pub words: usize,
}

/// What translate, text, bits and best_bits answer.
#[repr(C)]
#[derive(Clone, Copy, Debug, PartialEq, Eq, Default)]
pub struct Written {
    pub fault: u32,
    pub place: usize,
    pub words: usize,
}

/// What sheet answers.
#[repr(C)]
#[derive(Clone, Copy, Debug, PartialEq, Eq, Default)]
pub struct Printed {
    pub fault: u32,
    pub place: usize,
    pub bytes: usize,
}

/// What reason answers: a fault's place or the variable out of bounds in `place`.
#[repr(C)]
#[derive(Clone, Copy, Debug, PartialEq, Eq, Default)]
pub struct Reason {
    pub said: u32,
    pub fault: u32,
    pub place: usize,
    pub row: usize,
    pub constraint: usize,
}

/// What solutions answers.
#[repr(C)]
#[derive(Clone, Copy, Debug, PartialEq, Eq, Default)]
pub struct Listed {
    pub fault: u32,
    pub place: usize,
    pub solutions: usize,
}

/// What bit_values answers.
#[repr(C)]
#[derive(Clone, Copy, Debug, PartialEq, Eq, Default)]
pub struct Values {
    pub fault: u32,
    pub place: usize,
    pub values: usize,
}

/// What bit_energy answers.
#[repr(C)]
#[derive(Clone, Copy, Debug, PartialEq, Eq, Default)]
pub struct Energy {
    pub fault: u32,
    pub place: usize,
    pub energy: i64,
}

/// A numbered fault and its place.
#[derive(Clone, Copy, Debug, PartialEq, Eq)]
pub struct Refusal {
    pub fault: u32,
    pub place: usize,
}

impl From<Refusal> for Judgement {
    fn from(refusal: Refusal) -> Self {
        Judgement { said: REFUSED, fault: refusal.fault, at: refusal.place }
    }
}

impl From<Refusal> for Counts {
    fn from(refusal: Refusal) -> Self {
        Counts { fault: refusal.fault, place: refusal.place, ..Counts::default() }
    }
}

impl From<Refusal> for Written {
    fn from(refusal: Refusal) -> Self {
        Written { fault: refusal.fault, place: refusal.place, words: 0 }
    }
}

impl From<Refusal> for Printed {
    fn from(refusal: Refusal) -> Self {
        Printed { fault: refusal.fault, place: refusal.place, bytes: 0 }
    }
}

impl From<Refusal> for Reason {
    fn from(refusal: Refusal) -> Self {
        Reason { said: REFUSED, fault: refusal.fault, place: refusal.place, ..Reason::default() }
    }
}

impl From<Refusal> for Listed {
    fn from(refusal: Refusal) -> Self {
        Listed { fault: refusal.fault, place: refusal.place, solutions: 0 }
    }
}

impl From<Refusal> for Values {
    fn from(refusal: Refusal) -> Self {
        Values { fault: refusal.fault, place: refusal.place, values: 0 }
    }
}

impl From<Refusal> for Energy {
    fn from(refusal: Refusal) -> Self {
        Energy { fault: refusal.fault, place: refusal.place, energy: 0 }
    }
}
