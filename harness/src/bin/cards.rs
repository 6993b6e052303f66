//! Runs both plain renderings and, with the feature linked (see compare_check.rs for the command), the library on the worked
//! cases of document 02's cards. A case is a folder with `call`, `case`, `expect` and perhaps `expect.output`; one of the import call
//! has `names` and `form` too, one of the step call has its sets in `call`. Of a card's folder those are run that call check, replay,
//! write, gaps, import or step and hold now.
//!
//! cards FOLDER...

use cuecheck::WORDS;
use harness::compare::{self, StepCall};
use harness::gen::forms::Texts;
use harness::gen::steps::Step;
use harness::lists::{Dirt, Lengths, Lists};
use harness::plain::{Found, Imported, Node, Reply, Written};
use harness::{fast, plain, worded};
use std::collections::BTreeMap;
use std::fs::{read, read_to_string};
use std::path::{Path, PathBuf};

/// How many cards have landed.
const LANDED: u32 = 7;

/// The calls of one rendering.
struct Rendering {
    name: &'static str,
    check: fn(&[u8], &mut [u64], &mut [Node], &mut [u32]) -> Reply,
    replay: fn(&[u8], &mut [u64], &mut [u32]) -> Reply,
    write: fn(&[u8], &mut [u64], &mut [Node], &mut [u32], &mut [u8]) -> Written,
    find_gaps: fn(&[u8], &mut [u64], &mut [Node], &mut [u32]) -> Found,
    import: Import,
    step: StepCall,
}

type Import = fn(&[u8], &[u8], &[u8], &mut [u64], &mut [Node], &mut [u32], &mut [u8]) -> Imported;

/// The calls of a module, and its step call.
macro_rules! rendering {
    ($name:literal, $module:ident, $step:expr) => {
        Rendering {
            name: $name,
            check: $module::check,
            replay: $module::replay,
            write: $module::write,
            find_gaps: $module::find_gaps,
            import: $module::import,
            step: $step,
        }
    };
}

const RENDERINGS: &[Rendering] = &[
    rendering!("plain", plain, compare::PLAIN_STEP),
    rendering!("fast", fast, fast::step),
    #[cfg(feature = "linked")]
    rendering!("linked", cuecheck, compare::LINKED_STEP),
];

/// The answer with states and records, the text put out, and whether all that is left of the lists is zero.
#[derive(Debug, PartialEq)]
struct Told {
    answer: String,
    output: Vec<u8>,
    rest_zero: bool,
}

struct Case {
    name: String,
    call: String,
    given: Given,
    due: Told,
}

/// What a call is given: a step its sets, any other its texts, lists of these lengths and an output.
enum Given {
    Sets(Step),
    Texts(Texts, Lengths, usize),
}

fn main() {
    let mut folders: Vec<PathBuf> = std::env::args_os().skip(1).flat_map(|card| folders_in(Path::new(&card))).collect();
    folders.sort();
    let (mut count, mut differing) = (0, 0);
    for case in folders.iter().filter_map(|folder| Case::of(folder)) {
        count += 1;
        for rendering in RENDERINGS {
            let told = case.told_by(rendering);
            if told != case.due {
                differing += 1;
                println!("{}: {} {told:?}, due {:?}", case.name, rendering.name, case.due);
            }
        }
    }
    println!("{count} cases, {} renderings, {differing} differences", RENDERINGS.len());
    std::process::exit(i32::from(differing > 0));
}

fn folders_in(card: &Path) -> Vec<PathBuf> {
    let entries = card.read_dir().expect("a folder of cases");
    entries.map(|entry| entry.expect("an entry").path()).filter(|path| path.is_dir()).collect()
}

impl Case {
    /// The case in a folder, if it is of a call that is here, and holds now.
    fn of(folder: &Path) -> Option<Case> {
        let call = read_to_string(folder.join("call")).expect("a call");
        let words: BTreeMap<&str, &str> = call.lines().filter_map(|line| line.split_once(' ')).collect();
        let (since, until) = words["holds"].split_once('-').expect("from and to");
        let holds = (since.parse().expect("a card")..=until.parse().expect("a card")).contains(&LANDED);
        let given = match words["call"] {
            _ if !holds => return None,
            "step" => Given::Sets(worded::step_of(worded::SETS.map(|name| words[name]))),
            "check" | "replay" | "write" | "gaps" | "import" => texts_in(folder, &words),
            _ => return None,
        };
        Some(Case {
            name: folder.display().to_string(),
            call: words["call"].to_string(),
            given,
            due: Told {
                answer: read_to_string(folder.join("expect")).expect("what is due"),
                output: read(folder.join("expect.output")).unwrap_or_default(),
                rest_zero: true,
            },
        })
    }

    /// What a rendering tells.
    fn told_by(&self, rendering: &Rendering) -> Told {
        match &self.given {
            Given::Sets(step) => {
                Told { answer: worded::told_by(rendering.step, *step), output: Vec::new(), rest_zero: true }
            }
            Given::Texts(texts, lengths, output) => self.told_of(texts, *lengths, *output, rendering),
        }
    }

    /// What a rendering tells of texts, with lists that come in dirty.
    fn told_of(&self, texts: &Texts, lengths: Lengths, output: usize, rendering: &Rendering) -> Told {
        let Texts { case, names, form } = texts;
        let mut lists = Lists::with_output();
        lists.soil(Dirt::Counting);
        let (states, nodes, work, output) = lists.lend_all(lengths, output);
        // The replay call is lent no records.
        let nodes = if self.call == "replay" { &mut [] } else { nodes };
        let answer = match &self.call[..] {
            "check" => Answer::of_reply((rendering.check)(case, states, nodes, work)),
            "replay" => Answer::of_reply((rendering.replay)(case, states, work)),
            "gaps" => Answer::of_found((rendering.find_gaps)(case, states, nodes, work)),
            "import" => Answer::of_imported((rendering.import)(case, names, form, states, nodes, work, output)),
            _ => Answer::of_written((rendering.write)(case, states, nodes, work, output)),
        };
        let rows = if answer.reply.number == 0 { answer.reply.cues as usize + 1 } else { 0 };
        let (states, behind) = states.split_at(WORDS * rows);
        let (records, unused) = nodes.split_at(nodes.len().min(answer.reply.nodes as usize));
        let (put_out, spare) = output.split_at(answer.length);
        let mut told = answer.told();
        told.extend(states.chunks(WORDS).enumerate().map(|(i, row)| listed('S', i, row)));
        told.extend(records.iter().enumerate().map(|(i, &node)| listed('T', i, &numbers(node))));
        let rest_zero = behind.iter().all(|&n| n == 0)
            && unused.iter().all(|&node| node == Node::default())
            && work.iter().all(|&n| n == 0)
            && spare.iter().all(|&byte| byte == 0);
        Told { answer: told, output: put_out.to_vec(), rest_zero }
    }
}

/// What a call answers: what all calls do, the numbers that are its own, and how much it put out.
struct Answer {
    reply: Reply,
    own: Vec<u32>,
    length: usize,
}

impl Answer {
    fn of_reply(reply: Reply) -> Answer {
        Answer { reply, own: vec![], length: 0 }
    }

    fn of_written(Written { number, line, item, cues, nodes, length }: Written) -> Answer {
        Answer { reply: Reply { number, line, item, cues, nodes }, own: vec![length], length: length as usize }
    }

    fn of_found(Found { number, line, item, cues, nodes, tried }: Found) -> Answer {
        Answer { reply: Reply { number, line, item, cues, nodes }, own: vec![tried], length: 0 }
    }

    fn of_imported(Imported { number, line, item, cues, nodes, tried, length }: Imported) -> Answer {
        Answer { reply: Reply { number, line, item, cues, nodes }, own: vec![tried, length], length: length as usize }
    }

    /// The first line of `expect`.
    fn told(&self) -> String {
        let Reply { number, line, item, cues, nodes } = self.reply;
        let own: String = self.own.iter().map(|n| format!(",{n}")).collect();
        match number {
            0 => format!("Y,{cues},{nodes}{own}\n"),
            _ => format!("R,{number},{line},{item}\n"),
        }
    }
}

/// The texts of a case, and the lengths lent: those asked for, if there are no others.
fn texts_in(folder: &Path, words: &BTreeMap<&str, &str>) -> Given {
    let length = |list: &str, asked: usize| words.get(list).map_or(asked, |n| n.parse().expect("a length"));
    let Lengths { states, nodes, work } = Lengths::EXACT;
    let lengths =
        Lengths { states: length("states", states), nodes: length("nodes", nodes), work: length("work", work) };
    let text = |name: &str| read(folder.join(name));
    let (names, form) = (text("names").unwrap_or_default(), text("form").unwrap_or_default());
    let texts = Texts { case: text("case").expect("a case"), names, form };
    Given::Texts(texts, lengths, length("output", 0))
}

fn numbers(node: Node) -> [u64; 5] {
    [node.letter, node.label, node.place, node.start, node.end].map(u64::from)
}

/// A line of `expect`: the zeros at its end are left out.
fn listed(letter: char, i: usize, numbers: &[u64]) -> String {
    let used = numbers.iter().rposition(|&n| n != 0).map_or(0, |last| last + 1);
    let fields: String = numbers[..used].iter().map(|n| format!(",{n}")).collect();
    format!("{letter},{i}{fields}\n")
}
