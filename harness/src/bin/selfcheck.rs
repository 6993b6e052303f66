//! Runs both plain checks on a folder of cases, then the clear one on generated inputs, and shows what came up.
//!
//! selfcheck CASES-FOLDER [COUNT SEED]

use harness::fast;
use harness::gen::{extremes, Inputs};
use harness::lists::{Dirt, Lengths, Lists};
use harness::plain::{check, replay, Reply};
use std::collections::BTreeMap;
use std::path::{Path, PathBuf};

fn main() {
    let arguments: Vec<String> = std::env::args().skip(1).collect();
    let folder = arguments.first().map_or("../cases", String::as_str);
    let number = |at: usize, otherwise: u64| arguments.get(at).map_or(otherwise, |n| n.parse().expect("a number"));
    let differing = run_cases(Path::new(folder));
    show_extremes();
    show_generated(number(1, 20_000), number(2, 1));
    std::process::exit(i32::from(differing > 0));
}

/// As `cuecheck` prints an answer, without the line feed.
fn printed(answer: Reply) -> String {
    match answer.number {
        0 => format!("Y,{},{}", answer.cues, answer.nodes),
        number => format!("R,{number},{},{}", answer.line, answer.item),
    }
}

fn checked(text: &[u8]) -> Reply {
    let mut lists = Lists::default();
    let (states, nodes, work) = lists.lend(Lengths::EXACT);
    check(text, states, nodes, work)
}

fn fast_checked(text: &[u8]) -> Reply {
    let mut lists = Lists::default();
    let (states, nodes, work) = lists.lend(Lengths::EXACT);
    fast::check(text, states, nodes, work)
}

/// Runs every `.case` beside its `.expect`; gives back how many answers differ. Those that were 6 in 01 may be finer since Card 7.
fn run_cases(folder: &Path) -> usize {
    let mut cases: Vec<PathBuf> = std::fs::read_dir(folder)
        .expect("a folder of cases")
        .map(|entry| entry.expect("an entry").path())
        .filter(|path| path.extension().is_some_and(|kind| kind == "case"))
        .collect();
    cases.sort();
    let (mut differing, mut finer) = (0, 0);
    for case in &cases {
        let text = std::fs::read(case).expect("a case");
        let expected = std::fs::read_to_string(case.with_extension("expect")).expect("an expected answer");
        for (name, answer) in [("plain", checked(&text)), ("fast", fast_checked(&text))] {
            if printed(answer) == expected.trim_end() {
                continue;
            }
            println!("{}: {name} {}, expected {}", case.display(), printed(answer), expected.trim_end());
            if is_finer(answer, expected.trim_end()) {
                finer += 1;
            } else {
                differing += 1;
            }
        }
    }
    println!("{} cases, {differing} differences, {finer} answers finer than 01's 6", cases.len());
    differing
}

/// Whether an answer has one of Card 7's numbers in place of the 6 expected.
fn is_finer(answer: Reply, expected: &str) -> bool {
    (20..=22).contains(&answer.number) && printed(Reply { number: 6, ..answer }) == expected
}

fn show_extremes() {
    for (name, text) in extremes::all() {
        let fields = text.iter().filter(|&&b| matches!(b, b',' | b'\n')).count();
        println!("{name}: {} bytes, {fields} fields: {}", text.len(), printed(checked(&text)));
    }
}

/// One row of the histogram: number, letter of the line refused, item (many items as one).
type Row = (u32, char, String);

fn show_generated(count: u64, seed: u64) {
    let inputs = Inputs::new(seed);
    let mut checks: BTreeMap<Row, u64> = BTreeMap::new();
    let mut totals: BTreeMap<u32, (u64, u64)> = BTreeMap::new();
    let mut signed = 0;
    let mut lists = Lists::default();
    for number in 0..count {
        let mut rng = inputs.rng(number);
        let text = inputs.text(&mut rng);
        signed += u64::from(text.split(|&b| b == b'\n').any(|line| matches!(line, [b'b' | b'f' | b'w', b',', ..])));
        let lengths = if rng.percent(90) { Lengths::EXACT } else { Lengths::draw(&mut rng) };
        lists.soil(Dirt::draw(&mut rng));
        let (states, nodes, work) = lists.lend(lengths);
        let answer = check(&text, states, nodes, work);
        *checks.entry(row(&text, answer)).or_default() += 1;
        totals.entry(answer.number).or_default().0 += 1;
        totals.entry(replay(&text, states, work).number).or_default().1 += 1;
    }
    println!("\nnumber: check, replay, of {count} inputs of seed {seed}");
    for (number, (check, replay)) in totals {
        println!("{number:>6}: {check:>8} {replay:>8}");
    }
    println!("{signed} inputs have a line b, f or w");
    println!("\ncheck by number, letter that begins the line, or that of the broken constraint, item");
    for ((number, letter, item), times) in checks {
        println!("{number:>6} {letter} {item:>5}: {times:>8}");
    }
}

fn row(text: &[u8], answer: Reply) -> Row {
    let line = answer.line.checked_sub(1).and_then(|before| text.split(|&b| b == b'\n').nth(before as usize));
    let letter = match (answer.number, line.and_then(<[u8]>::first)) {
        // `.` where there is no line, or an empty one; `?` for a byte that is no letter.
        (3 | 4, Some(&first)) if first.is_ascii_alphabetic() => first as char,
        (3 | 4, Some(_)) => '?',
        (3 | 4, None) => '.',
        // A walk that ran out of nodes is refused one past the last line.
        (22, _) => '.',
        (6 | 20 | 21, Some(&first)) => first as char,
        (10..=13, _) => broken_letter(text, answer),
        _ => ' ',
    };
    let item = match answer.item {
        item @ 0..=9 => item.to_string(),
        10..=39 => "10+".into(),
        _ => "40+".into(),
    };
    (answer.number, letter, item)
}

/// The letter of the broken constraint: of the method on the node's line, after so many others.
fn broken_letter(text: &[u8], answer: Reply) -> char {
    let lines: Vec<&[u8]> = text.split(|&b| b == b'\n').collect();
    let node = std::str::from_utf8(lines[answer.line as usize - 1]).expect("a line that was read");
    let method: usize = node.split(',').nth(1).and_then(|m| m.parse().ok()).expect("a method");
    let at = (0..lines.len()).filter(|&at| lines[at].starts_with(b"M")).nth(method).expect("its line");
    lines[at + 1 + answer.item as usize][0].into()
}
