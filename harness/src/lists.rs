//! Lent lists for the calls: any length, any dirt, and margins that show a write outside.

use crate::gen::Rng;
use crate::plain::{Node, NODES_ASKED, STATES_ASKED, TEXT_LIMIT, WORK_ASKED};

/// What was asked of the state list while a state had four words.
const FORMER_STATES: usize = 4_004;

/// How long the lent lists are.
#[derive(Clone, Copy, Debug)]
pub struct Lengths {
    pub states: usize,
    pub nodes: usize,
    pub work: usize,
}

impl Lengths {
    pub const EXACT: Lengths = Lengths { states: STATES_ASKED, nodes: NODES_ASKED, work: WORK_ASKED };

    /// Each list exact, long by some, short by one, or of no length; mostly long enough. A short state list is often
    /// about as long as was once enough.
    pub fn draw(rng: &mut Rng) -> Lengths {
        let mut length = |asked: usize| match rng.below(12) {
            0 => asked - 1,
            1 => 0,
            2 => rng.below(asked),
            3..=6 => asked + rng.between(1, MARGIN / 2),
            _ => asked,
        };
        let mut lengths =
            Lengths { states: length(STATES_ASKED), nodes: length(NODES_ASKED), work: length(WORK_ASKED) };
        if lengths.states < STATES_ASKED && rng.percent(50) {
            let more = rng.between(FORMER_STATES + 1, STATES_ASKED - 2);
            lengths.states = *rng.pick(&[FORMER_STATES - 1, FORMER_STATES, more]);
        }
        lengths
    }
}

/// The longest output lent to the write call.
pub const OUTPUT: usize = TEXT_LIMIT + 1_000;

/// The longest output lent to the import call: no case that a form makes is as long.
pub const MADE: usize = 120_000;

/// The length of an output of the write call for a text of so many bytes: just enough or nearly so, none, short or long.
pub fn draw_output(rng: &mut Rng, needed: usize) -> usize {
    draw_output_of(rng, needed, OUTPUT)
}

/// The same of a call that is lent so many bytes at the most.
pub fn draw_output_of(rng: &mut Rng, needed: usize, most: usize) -> usize {
    let length = match rng.below(8) {
        0 => 0,
        1..=4 => (needed + rng.below(5)).saturating_sub(2),
        5 => rng.below(needed + 1),
        6 => needed + rng.between(3, 300),
        _ => rng.between(needed.min(most), most),
    };
    length.min(most)
}

/// What lies behind a lent list at the least.
const MARGIN: usize = 64;

/// The lists that one side of a comparison lends; only a front part of each is lent.
pub struct Lists {
    states: Vec<u64>,
    nodes: Vec<Node>,
    work: Vec<u32>,
    output: Vec<u8>,
}

impl Default for Lists {
    fn default() -> Lists {
        Lists {
            states: vec![0; STATES_ASKED + MARGIN],
            nodes: vec![Node::default(); NODES_ASKED + MARGIN],
            work: vec![0; WORK_ASKED + MARGIN],
            output: Vec::new(),
        }
    }
}

/// What the lists hold before a call.
#[derive(Clone, Copy, Debug)]
pub enum Dirt {
    Same(u32),
    Counting,
}

impl Dirt {
    pub fn draw(rng: &mut Rng) -> Dirt {
        match rng.below(5) {
            0 => Dirt::Same(0),
            1 => Dirt::Same(1),
            2 => Dirt::Same(u32::MAX),
            3 => Dirt::Same(rng.word() as u32),
            _ => Dirt::Counting,
        }
    }

    fn at(self, index: usize) -> u32 {
        match self {
            Dirt::Same(value) => value,
            Dirt::Counting => index as u32,
        }
    }
}

impl Lists {
    /// Lists with an output, for the write call.
    pub fn with_output() -> Lists {
        Lists::with_output_of(OUTPUT)
    }

    /// Lists with an output of up to so many bytes.
    pub fn with_output_of(most: usize) -> Lists {
        Lists { output: vec![0; most + MARGIN], ..Lists::default() }
    }

    /// Fills every list with dirt, margins too.
    pub fn soil(&mut self, dirt: Dirt) {
        for (i, state) in self.states.iter_mut().enumerate() {
            *state = u64::from(dirt.at(i)) * 0x1_0000_0001;
        }
        for (i, node) in self.nodes.iter_mut().enumerate() {
            let value = dirt.at(i);
            *node = Node { letter: value, label: value, place: value, start: value, end: value };
        }
        for (i, number) in self.work.iter_mut().enumerate() {
            *number = dirt.at(i);
        }
        for (i, byte) in self.output.iter_mut().enumerate() {
            *byte = dirt.at(i) as u8;
        }
    }

    pub fn lend(&mut self, lengths: Lengths) -> (&mut [u64], &mut [Node], &mut [u32]) {
        (&mut self.states[..lengths.states], &mut self.nodes[..lengths.nodes], &mut self.work[..lengths.work])
    }

    /// The lists and an output of this length.
    pub fn lend_all(&mut self, lengths: Lengths, output: usize) -> (&mut [u64], &mut [Node], &mut [u32], &mut [u8]) {
        let Lists { states, nodes, work, output: bytes } = self;
        (&mut states[..lengths.states], &mut nodes[..lengths.nodes], &mut work[..lengths.work], &mut bytes[..output])
    }

    pub fn output(&self) -> &[u8] {
        &self.output
    }

    pub fn states(&self) -> &[u64] {
        &self.states
    }

    pub fn nodes(&self) -> &[Node] {
        &self.nodes
    }

    /// The first element, margins included, in which two sides differ.
    pub fn first_difference(&self, other: &Lists) -> Option<String> {
        differing("states", &self.states, &other.states)
            .or_else(|| differing("nodes", &self.nodes, &other.nodes))
            .or_else(|| differing("work", &self.work, &other.work))
            .or_else(|| differing("output", &self.output, &other.output))
    }
}

fn differing<T: PartialEq + std::fmt::Debug>(name: &str, ours: &[T], theirs: &[T]) -> Option<String> {
    if ours == theirs {
        return None;
    }
    let at = ours.iter().zip(theirs).position(|(a, b)| a != b)?;
    Some(format!("{name}[{at}]: {:?}, {:?}", ours[at], theirs[at]))
}
