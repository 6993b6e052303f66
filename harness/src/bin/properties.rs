//! What the write call promises of its own texts, tried on both plain renderings and, with the feature linked (see compare_write.rs for the
//! command), on the library. Of an accepted text:
//!
//! - the lists are those of the check call;
//! - what is written is accepted with the same answer and lists, and writing it again changes nothing;
//! - the text with its constraints in another order, and some repeated, writes the same bytes;
//! - the text without one of its constraints writes other bytes.
//!
//! properties COUNT SEED

use harness::compare::{Asked, Call, WriteCall, PLAIN_CHECK, PLAIN_WRITE};
use harness::fast;
use harness::gen::{tangles, Inputs, Rng};
use harness::lists::{Dirt, Lengths, Lists, OUTPUT};
use harness::plain::TEXT_LIMIT;

/// The calls of one rendering.
struct Side {
    name: &'static str,
    check: Call,
    write: WriteCall,
}

const PLAIN: Side = Side { name: "plain", check: PLAIN_CHECK, write: PLAIN_WRITE };

const FAST: Side = Side {
    name: "fast",
    check: |text, lists, lengths| {
        let (states, nodes, work) = lists.lend(lengths);
        fast::check(text, states, nodes, work)
    },
    write: |text, lists, lengths, output| {
        let (states, nodes, work, output) = lists.lend_all(lengths, output);
        fast::write(text, states, nodes, work, output)
    },
};

#[cfg(feature = "linked")]
const LINKED: Side = Side {
    name: "linked",
    check: |text, lists, lengths| {
        let (states, nodes, work) = lists.lend(lengths);
        cuecheck::check(text, states, nodes, work)
    },
    write: |text, lists, lengths, output| {
        let (states, nodes, work, output) = lists.lend_all(lengths, output);
        cuecheck::write(text, states, nodes, work, output)
    },
};

#[cfg(feature = "linked")]
const SIDES: &[Side] = &[PLAIN, FAST, LINKED];
#[cfg(not(feature = "linked"))]
const SIDES: &[Side] = &[PLAIN, FAST];

/// How often each property was tried.
#[derive(Default)]
struct Tried {
    accepted: u64,
    rearranged: u64,
    lessened: u64,
}

fn main() {
    let asked = Asked::by_arguments();
    let inputs = Inputs::new(asked.seed);
    for side in SIDES {
        let mut tried = Tried::default();
        let mut bench = Bench { side, first: Lists::with_output(), second: Lists::with_output() };
        for number in asked.numbers() {
            let mut rng = inputs.rng(number);
            let text = inputs.text_to_write(&mut rng);
            if let Err(fault) = bench.try_text(&mut rng, &text, &mut tried) {
                println!("seed {}, input {number}, {}: {fault}", asked.seed, side.name);
                println!("the text, {} bytes: {}", text.len(), text.escape_ascii());
                println!("{} inputs, 1 fault", number + 1);
                std::process::exit(1);
            }
        }
        let Tried { accepted, rearranged, lessened } = tried;
        println!(
            "{}: {} inputs, {accepted} accepted, {rearranged} rearranged, {lessened} less a constraint, 0 faults",
            side.name, asked.count
        );
    }
}

/// A rendering, and the lists of two calls.
struct Bench<'a> {
    side: &'a Side,
    first: Lists,
    second: Lists,
}

impl Bench<'_> {
    fn try_text(&mut self, rng: &mut Rng, text: &[u8], tried: &mut Tried) -> Result<(), &'static str> {
        let Side { check, write, .. } = *self.side;
        let dirt = Dirt::draw(rng);
        self.first.soil(dirt);
        self.second.soil(dirt);
        let written = write(text, &mut self.first, Lengths::EXACT, OUTPUT);
        let checked = check(text, &mut self.second, Lengths::EXACT);
        let same_answer = (written.number, written.line, written.item, written.cues, written.nodes)
            == (checked.number, checked.line, checked.item, checked.cues, checked.nodes);
        if !same_answer || !same_lists(&self.first, &self.second) {
            return Err("another answer or other lists than the check call's");
        }
        if written.number != 0 {
            return Ok(());
        }
        tried.accepted += 1;
        let tidy = self.first.output()[..written.length as usize].to_vec();
        if check(&tidy, &mut self.second, Lengths::EXACT) != checked || !same_lists(&self.first, &self.second) {
            return Err("what is written is checked with another answer or other lists");
        }
        self.second.soil(dirt);
        if write(&tidy, &mut self.second, Lengths::EXACT, OUTPUT) != written || !self.same_output() {
            return Err("written again it is another text");
        }
        let rearranged = tangles::retangled(rng, text);
        if rearranged.len() <= TEXT_LIMIT {
            tried.rearranged += 1;
            if write(&rearranged, &mut self.second, Lengths::EXACT, OUTPUT) != written || !self.same_output() {
                return Err("constraints in another order, or repeated, write another text");
            }
        }
        if let Some(less) = tangles::lessened(rng, text) {
            tried.lessened += 1;
            if write(&less, &mut self.second, Lengths::EXACT, OUTPUT).number != 0 || self.same_output() {
                return Err("without one of its constraints it is refused, or writes the same text");
            }
        }
        Ok(())
    }

    fn same_output(&self) -> bool {
        self.first.output()[..OUTPUT] == self.second.output()[..OUTPUT]
    }
}

fn same_lists(one: &Lists, other: &Lists) -> bool {
    one.states() == other.states() && one.nodes() == other.nodes()
}
