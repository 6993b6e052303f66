//! Compares two renderings of a call on generated inputs: answers and every element lent.

use crate::gen::forms::Texts;
use crate::gen::steps::{self, Step};
use crate::gen::{Inputs, FORMER, PROPOSITIONS};
use crate::lists::{draw_output, draw_output_of, Dirt, Lengths, Lists, MADE, OUTPUT};
use crate::plain::{self, Found, Imported, Reply, Set, Stepped, Written};
use cuecheck::WORDS;
use std::collections::BTreeMap;
use std::ops::RangeInclusive;

/// One side: a call on a text and the lists lent in these lengths.
pub type Call = fn(&[u8], &mut Lists, Lengths) -> Reply;

pub const PLAIN_CHECK: Call = |text, lists, lengths| {
    let (states, nodes, work) = lists.lend(lengths);
    plain::check(text, states, nodes, work)
};

pub const PLAIN_REPLAY: Call = |text, lists, lengths| {
    let (states, _, work) = lists.lend(lengths);
    plain::replay(text, states, work)
};

/// One side of the write call, with an output of this length.
pub type WriteCall = fn(&[u8], &mut Lists, Lengths, usize) -> Written;

pub const PLAIN_WRITE: WriteCall = |text, lists, lengths, output| {
    let (states, nodes, work, output) = lists.lend_all(lengths, output);
    plain::write(text, states, nodes, work, output)
};

/// One side of the call that finds the gaps.
pub type FindCall = fn(&[u8], &mut Lists, Lengths) -> Found;

pub const PLAIN_FIND: FindCall = |text, lists, lengths| {
    let (states, nodes, work) = lists.lend(lengths);
    plain::find_gaps(text, states, nodes, work)
};

/// One side of the import call, with an output of this length.
pub type ImportCall = fn(&Texts, &mut Lists, Lengths, usize) -> Imported;

pub const PLAIN_IMPORT: ImportCall = |Texts { case, names, form }, lists, lengths, output| {
    let (states, nodes, work, output) = lists.lend_all(lengths, output);
    plain::import(case, names, form, states, nodes, work, output)
};

/// One side of the step call: a state, and the sets needed, forbidden, added and deleted.
pub type StepCall = fn(&mut Set, &[Set; 4]) -> Stepped;

pub const PLAIN_STEP: StepCall = |state, &[needed, forbidden, added, deleted]| {
    let stepped;
    (stepped, *state) = plain::step(*state, needed, forbidden, added, deleted);
    stepped
};

#[cfg(feature = "linked")]
pub const LINKED_STEP: StepCall =
    |state, [needed, forbidden, added, deleted]| cuecheck::step(state, needed, forbidden, added, deleted);

/// How often each answer came up, by number; how many inputs were accepted with lists as long as asked; and of them all, and of those
/// accepted, how many have more propositions than four words hold.
#[derive(Default)]
struct Tally {
    answers: BTreeMap<u32, u64>,
    accepted: u64,
    wide: u64,
    wide_accepted: u64,
}

impl Tally {
    /// Counts an answer, whatever the lengths of the lists.
    fn answered(&mut self, number: u32) {
        *self.answers.entry(number).or_default() += 1;
    }

    /// How often this answer came up.
    fn times(&self, number: u32) -> u64 {
        self.answers.get(&number).copied().unwrap_or(0)
    }

    /// Counts an input by its answer with lists as long as asked.
    fn count(&mut self, text: &[u8], number: u32) {
        let wide = propositions(text).is_some_and(|count| (FORMER + 1..=PROPOSITIONS).contains(&count));
        self.accepted += u64::from(number == 0);
        self.wide += u64::from(wide);
        self.wide_accepted += u64::from(wide && number == 0);
    }

    /// Ends a comparison without a difference.
    fn show(&self, asked: &Asked) {
        let Tally { answers, accepted, wide, wide_accepted } = self;
        let times: Vec<String> = answers.iter().map(|(number, times)| format!("{number}: {times}")).collect();
        println!("how often each answer came up: {}", times.join(", "));
        println!(
            "{accepted} inputs accepted; {wide} inputs with {} to {PROPOSITIONS} propositions, {wide_accepted} of them accepted",
            FORMER + 1
        );
        println!("{} inputs, 0 differences", asked.count);
    }
}

/// The count of propositions that the header has, if it can be read.
fn propositions(text: &[u8]) -> Option<u32> {
    let field = text.strip_prefix(b"N,")?.split(|byte| matches!(byte, b',' | b'\n')).next()?;
    let plain = field.iter().all(u8::is_ascii_digit) && (field.len() == 1 || !field.starts_with(b"0"));
    std::str::from_utf8(field).ok().filter(|_| plain)?.parse().ok()
}

/// What the arguments ask for: count, seed, and perhaps `trace`, which prints the number of each
/// input first, to find one that brings the program down.
pub struct Asked {
    pub count: u64,
    pub seed: u64,
    traced: bool,
}

impl Asked {
    pub fn by_arguments() -> Asked {
        let arguments: Vec<String> = std::env::args().skip(1).collect();
        let number = |at: usize| arguments.get(at).and_then(|n| n.parse().ok());
        let (Some(count), Some(seed)) = (number(0), number(1)) else {
            eprintln!("arguments: count seed [trace]");
            std::process::exit(2);
        };
        Asked { count, seed, traced: arguments.get(2).is_some_and(|word| word == "trace") }
    }

    /// The numbers of the inputs.
    pub fn numbers(&self) -> impl Iterator<Item = u64> + use<> {
        let traced = self.traced;
        (0..self.count).inspect(move |number| {
            if traced {
                eprintln!("input {number}");
            }
        })
    }
}

/// Prints a difference and ends the program with 1.
fn end(asked: &Asked, number: u64, text: &[u8], lent: String, name: &str, difference: String) -> ! {
    println!("seed {}, input {number}, {lent}", asked.seed);
    println!("first plain, then {name}: {difference}");
    println!("the text, {} bytes: {}", text.len(), text.escape_ascii());
    println!("{} inputs, 1 difference", number + 1);
    std::process::exit(1);
}

/// Runs the comparison that the arguments ask for. Ends the program with 1 at the first
/// difference; else shows how often each answer came up.
pub fn run(plain: Call, other: Call, name: &str) {
    let asked = Asked::by_arguments();
    let inputs = Inputs::new(asked.seed);
    let mut sides = (Lists::default(), Lists::default());
    let mut tally = Tally::default();
    for number in asked.numbers() {
        let mut rng = inputs.rng(number);
        let text = inputs.text(&mut rng);
        // Once with lists of the length asked for, once with any.
        for (turn, lengths) in [Lengths::EXACT, Lengths::draw(&mut rng)].into_iter().enumerate() {
            let dirt = Dirt::draw(&mut rng);
            match compare(|lists| plain(&text, lists, lengths), |lists| other(&text, lists, lengths), dirt, &mut sides)
            {
                Ok(answer) => {
                    tally.answered(answer.number);
                    if turn == 0 {
                        tally.count(&text, answer.number);
                    }
                }
                Err(difference) => {
                    let lent = format!("{lengths:?}, lists full of {dirt:?}");
                    end(&asked, number, &text, lent, name, difference)
                }
            }
        }
    }
    tally.show(&asked);
}

/// The same for the write call: once with room for all, once with an output about as long as the
/// text put out, once with lists and an output of any length.
pub fn run_write(plain: WriteCall, other: WriteCall, name: &str) {
    let asked = Asked::by_arguments();
    let inputs = Inputs::new(asked.seed);
    let mut sides = (Lists::with_output(), Lists::with_output());
    let (mut tally, mut tidy) = (Tally::default(), 0);
    for number in asked.numbers() {
        let mut rng = inputs.rng(number);
        let text = inputs.text_to_write(&mut rng);
        let mut needed = text.len();
        for turn in 0..3 {
            let lengths = if turn < 2 { Lengths::EXACT } else { Lengths::draw(&mut rng) };
            let output = if turn == 0 { needed.min(OUTPUT) } else { draw_output(&mut rng, needed) };
            let dirt = Dirt::draw(&mut rng);
            let plain = |lists: &mut Lists| plain(&text, lists, lengths, output);
            let other = |lists: &mut Lists| other(&text, lists, lengths, output);
            match compare(plain, other, dirt, &mut sides) {
                Ok(answer) => {
                    tally.answered(answer.number);
                    if turn == 0 {
                        tally.count(&text, answer.number);
                    }
                    if turn == 0 && answer.number == 0 {
                        needed = answer.length as usize;
                        tidy += u64::from(sides.0.output()[..needed] == text);
                    }
                }
                Err(difference) => {
                    let lent = format!("{lengths:?}, {output} bytes of output, lists full of {dirt:?}");
                    end(&asked, number, &text, lent, name, difference)
                }
            }
        }
    }
    let short = tally.times(14);
    println!("{tidy} accepted inputs tidy already; {short} of {} outputs too short", 3 * asked.count);
    tally.show(&asked);
}

/// The same for the call that finds the gaps: once with lists of the length asked for, once with any.
pub fn run_find(plain: FindCall, other: FindCall, name: &str) {
    let asked = Asked::by_arguments();
    let inputs = Inputs::new(asked.seed);
    let mut sides = (Lists::default(), Lists::default());
    let (mut tally, mut later, mut tried) = (Tally::default(), 0, 0);
    for number in asked.numbers() {
        let mut rng = inputs.rng(number);
        let text = inputs.text_to_find(&mut rng);
        for (turn, lengths) in [Lengths::EXACT, Lengths::draw(&mut rng)].into_iter().enumerate() {
            let dirt = Dirt::draw(&mut rng);
            match compare(|lists| plain(&text, lists, lengths), |lists| other(&text, lists, lengths), dirt, &mut sides)
            {
                Ok(answer) => {
                    tally.answered(answer.number);
                    if turn == 0 {
                        tally.count(&text, answer.number);
                        later += u64::from(answer.tried > 1);
                        tried += u64::from(answer.tried);
                    }
                }
                Err(difference) => {
                    let lent = format!("{lengths:?}, lists full of {dirt:?}");
                    end(&asked, number, &text, lent, name, difference)
                }
            }
        }
    }
    let none = tally.times(16);
    println!("{later} inputs accepted not with the first choice; {tried} choices tried of those accepted; 16 answered {none} times");
    tally.show(&asked);
}

/// The same for the import call: once with room for all, once with no output, which tells how long the case made is, once with an output
/// of about that length, once with lists and an output of any length.
pub fn run_import(plain: ImportCall, other: ImportCall, name: &str) {
    let asked = Asked::by_arguments();
    let inputs = Inputs::new(asked.seed);
    let mut sides = (Lists::with_output_of(MADE), Lists::with_output_of(MADE));
    let (mut tally, mut later, mut listed) = (Tally::default(), 0, BTreeMap::new());
    for number in asked.numbers() {
        let mut rng = inputs.rng(number);
        let texts = inputs.form(&mut rng);
        let mut needed = texts.case.len();
        for turn in 0..4 {
            let lengths = if turn < 3 { Lengths::EXACT } else { Lengths::draw(&mut rng) };
            let output = [MADE, 0].get(turn).copied().unwrap_or_else(|| draw_output_of(&mut rng, needed, MADE));
            let dirt = Dirt::draw(&mut rng);
            let plain = |lists: &mut Lists| plain(&texts, lists, lengths, output);
            let other = |lists: &mut Lists| other(&texts, lists, lengths, output);
            let answer = compare(plain, other, dirt, &mut sides).unwrap_or_else(|difference| {
                let lent = format!("{lengths:?}, {output} bytes of output, lists full of {dirt:?}");
                end(&asked, number, &texts.shown(), lent, name, difference)
            });
            tally.answered(answer.number);
            if turn == 0 {
                tally.count(&texts.case, answer.number);
                later += u64::from(answer.tried > 1);
                *listed.entry((answer.number, answer.item)).or_default() += 1;
            } else if answer.number == 14 {
                needed = answer.item as usize;
            }
        }
    }
    let in_names = |number: u32| listed.get(&(number, 1)).copied().unwrap_or(0u64);
    println!(
        "{later} inputs accepted not with the first choice; of the name list {} inputs are refused with 17, {} with 18",
        in_names(17),
        in_names(18)
    );
    tally.show(&asked);
}

/// The same for the step call: the answer, the words computed, the state, and that the other sets stay, and what lies around them.
pub fn run_step(other: StepCall, name: &str) {
    let asked = Asked::by_arguments();
    let inputs = Inputs::new(asked.seed);
    // How many inputs that apply compute so many words.
    let mut computed = [0; WORDS + 1];
    for number in asked.numbers() {
        let mut rng = inputs.rng(number);
        let step = steps::any(&mut rng);
        let margin = step.state.map(|_| rng.word());
        let mut due = Lent { margin, step, end: margin };
        let mut lent = due;
        let stepped = PLAIN_STEP(&mut due.step.state, &step.sets);
        let answer = other(&mut lent.step.state, &lent.step.sets);
        if (answer, lent) != (stepped, due) {
            println!("seed {}, input {number}: {step:x?}", asked.seed);
            println!("first plain, then {name}: {stepped:x?}, {due:x?}; {answer:x?}, {lent:x?}");
            println!("{} inputs, 1 difference", number + 1);
            std::process::exit(1);
        }
        if stepped.applies() {
            computed[stepped.computed.count_ones() as usize] += 1;
        }
    }
    show_computed(&computed);
    println!("{} inputs, 0 differences", asked.count);
}

/// How many inputs of the step call apply, and how many of these are sparse, dense, or compute nothing.
fn show_computed(computed: &[u64; WORDS + 1]) {
    let count = |words: RangeInclusive<usize>| computed[words].iter().sum::<u64>();
    println!(
        "{} inputs apply; of these {} compute at most two words, {} seven or eight, {} none",
        count(0..=WORDS),
        count(0..=2),
        count(7..=WORDS),
        computed[0]
    );
}

/// What a step call sees, in one piece, and what lies before and behind it.
#[derive(Clone, Copy, Debug, PartialEq)]
#[repr(C)]
struct Lent {
    margin: Set,
    step: Step,
    end: Set,
}

/// The answer of both sides, or where they differ.
fn compare<R: PartialEq + std::fmt::Debug>(
    plain: impl Fn(&mut Lists) -> R,
    other: impl Fn(&mut Lists) -> R,
    dirt: Dirt,
    (ours, theirs): &mut (Lists, Lists),
) -> Result<R, String> {
    ours.soil(dirt);
    theirs.soil(dirt);
    let answers = (plain(ours), other(theirs));
    if answers.0 != answers.1 {
        return Err(format!("{:?}, {:?}", answers.0, answers.1));
    }
    ours.first_difference(theirs).map_or(Ok(answers.0), Err)
}
