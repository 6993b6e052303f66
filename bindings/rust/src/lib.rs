//! The calls of libcapi.a behind safe functions, and what passes to and fro. `include/cuecheck.h` has the same declarations for C.

/// The least lengths of the lent lists. A shorter list is refused with number 1, a longer one is filled to its end.
pub const STATES: usize = 8_008;
pub const NODES: usize = 3_000;
pub const WORK: usize = 16_384;

/// The greatest length of a text.
pub const TEXT: usize = 65_535;

/// How many words a set has.
pub const WORDS: usize = 8;

/// A set of propositions: p is bit p % 64 of word p / 64.
pub type Set = [u64; WORDS];

/// A node of the tree. Start and end are doubled, so that a gap has a whole number: 2 * gap + 1, 2 * position.
#[repr(C)]
#[derive(Clone, Copy, Debug, Default, PartialEq, Eq)]
pub struct Node {
    /// 1: D, 2: E, 3: L.
    pub letter: u32,
    /// The method of D and E, the action of L.
    pub label: u32,
    /// 0 of D, the gap of E, the position of L.
    pub place: u32,
    pub start: u32,
    pub end: u32,
}

/// What a call answers: number 0 with k and n, or a row of the table in README.md with both 0.
#[repr(C)]
#[derive(Clone, Copy, Debug, PartialEq, Eq)]
pub struct Reply {
    pub number: u32,
    pub line: u32,
    pub item: u32,
    pub cues: u32,
    pub nodes: u32,
}

/// k and n.
#[derive(Clone, Copy, Debug, PartialEq, Eq)]
pub struct Accepted {
    pub cues: u32,
    pub nodes: u32,
}

/// What the write call answers: number 0 with k, n and the length of the text put out, or a row of the table in README.md with all three 0.
#[repr(C)]
#[derive(Clone, Copy, Debug, PartialEq, Eq)]
pub struct Written {
    pub number: u32,
    pub line: u32,
    pub item: u32,
    pub cues: u32,
    pub nodes: u32,
    pub length: u32,
}

/// k, n and the length of the text put out, in bytes.
#[derive(Clone, Copy, Debug, PartialEq, Eq)]
pub struct Tidied {
    pub cues: u32,
    pub nodes: u32,
    pub length: u32,
}

/// What the call that finds the gaps answers: number 0 with k, n and how many choices of gaps were tried, or a row of the table in README.md with all
/// three 0.
#[repr(C)]
#[derive(Clone, Copy, Debug, PartialEq, Eq)]
pub struct Found {
    pub number: u32,
    pub line: u32,
    pub item: u32,
    pub cues: u32,
    pub nodes: u32,
    pub tried: u32,
}

/// k, n and how many choices of gaps were tried: one more than there are ahead of the one found.
#[derive(Clone, Copy, Debug, PartialEq, Eq)]
pub struct Placed {
    pub cues: u32,
    pub nodes: u32,
    pub tried: u32,
}

/// What the import call answers: number 0 with k, n, how many choices of gaps were tried and the length of the text put out, or a row of the table in
/// README.md with all four 0.
#[repr(C)]
#[derive(Clone, Copy, Debug, PartialEq, Eq)]
pub struct Imported {
    pub number: u32,
    pub line: u32,
    pub item: u32,
    pub cues: u32,
    pub nodes: u32,
    pub tried: u32,
    pub length: u32,
}

/// k and n of the case made, how many choices of gaps were tried for it, and the length of its text, in bytes.
#[derive(Clone, Copy, Debug, PartialEq, Eq)]
pub struct Made {
    pub cues: u32,
    pub nodes: u32,
    pub tried: u32,
    pub length: u32,
}

/// What the step call answers: whether the action applies, and which words of the next state were computed.
#[repr(C)]
#[derive(Clone, Copy, Debug, PartialEq, Eq)]
pub struct Stepped {
    /// 1: it applies, 0: it doesn't.
    pub applied: u32,
    /// Bit w for word w: set where the action adds or deletes anything in it, also if the word comes out as it was. 0 if the action doesn't apply.
    pub computed: u32,
}

/// A row of the table in README.md.
#[derive(Clone, Copy, Debug, PartialEq, Eq)]
pub struct Refusal {
    pub number: u32,
    pub line: u32,
    pub item: u32,
}

impl Reply {
    pub fn result(self) -> Result<Accepted, Refusal> {
        match self.number {
            0 => Ok(Accepted { cues: self.cues, nodes: self.nodes }),
            number => Err(Refusal { number, line: self.line, item: self.item }),
        }
    }
}

impl Written {
    pub fn result(self) -> Result<Tidied, Refusal> {
        match self.number {
            0 => Ok(Tidied { cues: self.cues, nodes: self.nodes, length: self.length }),
            number => Err(Refusal { number, line: self.line, item: self.item }),
        }
    }
}

impl Found {
    pub fn result(self) -> Result<Placed, Refusal> {
        match self.number {
            0 => Ok(Placed { cues: self.cues, nodes: self.nodes, tried: self.tried }),
            number => Err(Refusal { number, line: self.line, item: self.item }),
        }
    }
}

impl Imported {
    pub fn result(self) -> Result<Made, Refusal> {
        match self.number {
            0 => Ok(Made { cues: self.cues, nodes: self.nodes, tried: self.tried, length: self.length }),
            number => Err(Refusal { number, line: self.line, item: self.item }),
        }
    }
}

impl Stepped {
    pub fn applies(self) -> bool {
        self.applied == 1
    }

    /// Whether this word was computed; no for one that a state doesn't have.
    pub fn is_computed(self, word: usize) -> bool {
        word < WORDS && self.computed >> word & 1 == 1
    }
}

#[cfg(feature = "linked")]
mod linked;
#[cfg(feature = "linked")]
pub use linked::{check, find_gaps, import, replay, step, write};
