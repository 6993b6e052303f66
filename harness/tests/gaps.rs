//! The settled readings of Card 4 of document 02, each as a text and its answer; the dearest cases; both renderings on the inputs of
//! chosen size.

use harness::gen::gaps::{self, DEAR};
use harness::gen::{extremes, tangles};
use harness::lists::{Dirt, Lengths, Lists};
use harness::plain::{Found, Node};
use harness::{fast, plain};

/// The answer of both renderings, and the gaps found.
#[track_caller]
fn found_with(text: &[u8], lengths: Lengths) -> (Found, Vec<u32>) {
    let (mut ours, mut theirs) = (Lists::default(), Lists::default());
    ours.soil(Dirt::Counting);
    theirs.soil(Dirt::Counting);
    let (states, nodes, work) = ours.lend(lengths);
    let answer = plain::find_gaps(text, states, nodes, work);
    assert!(answer.number == 0 || states.iter().all(|&word| word == 0));
    assert!(answer.number == 0 || nodes.iter().all(|&node| node == Node::default()));
    assert!(work.iter().all(|&number| number == 0));
    let gaps = nodes.iter().filter(|node| node.letter == 2).map(|node| node.place).collect();
    let (states, nodes, work) = theirs.lend(lengths);
    assert_eq!(answer, fast::find_gaps(text, states, nodes, work));
    assert_eq!(ours.first_difference(&theirs), None);
    (answer, gaps)
}

#[track_caller]
fn found(text: &str) -> (Found, Vec<u32>) {
    found_with(text.as_bytes(), Lengths::EXACT)
}

fn refused(number: u32, line: u32, item: u32) -> (Found, Vec<u32>) {
    (Found { number, line, item, cues: 0, nodes: 0, tried: 0 }, vec![])
}

/// So many cues, each making one more proposition true, and so many empty tasks ahead of them, with these constraints.
fn row(cues: usize, empty: usize, constraints: &[&str]) -> String {
    let lines: String = constraints.iter().map(|line| format!("{line}\n")).collect();
    let subtasks =
        format!("{}{}", format!(",{}", cues + 1).repeat(empty), (0..cues).map(|a| format!(",{a}")).collect::<String>());
    let actions: String = (0..cues).map(|a| format!("A,0,0,1,{a},0\n")).collect();
    let leaves: String = (0..cues).map(|a| format!("L,{a},{}\n", a + 1)).collect();
    format!(
        "N,{cues},{cues},2,2,{cues},{cues},{}\nI,0\n{actions}M,{cues},{}{subtasks},{}\n{lines}M,{},0,0\nP{}\nD,0\n{}{leaves}",
        1 + empty + cues,
        empty + cues,
        constraints.len(),
        cues + 1,
        (0..cues).map(|a| format!(",{a}")).collect::<String>(),
        "E,1,0\n".repeat(empty),
    )
}

#[track_caller]
fn expect(cues: usize, constraints: &[&str], gaps: &[u32], tried: u32) {
    let (answer, found) = found(&row(cues, gaps.len(), constraints));
    let nodes = (1 + gaps.len() + cues) as u32;
    assert_eq!((answer, &found[..]), (Found { number: 0, line: 0, item: 0, cues: cues as u32, nodes, tried }, gaps));
}

/// Proposition p is true from state p + 1 on.
#[test]
fn dictionary_order() {
    expect(3, &[], &[0, 0], 1);
    expect(3, &["B,1,1"], &[2, 0], 9);
    expect(3, &["B,1,2"], &[0, 2], 3);
    expect(3, &["B,0,1", "B,1,2"], &[1, 2], 7);
    expect(3, &["B,2,3"], &[3, 3], 16);
    expect(3, &["O,1,0", "F,2,1"], &[3, 0], 13);
    // Gaps are compared as numbers: 9 comes before 10.
    expect(12, &["b,10,1", "B,8,1"], &[9], 10);
    expect(12, &["B,9,1"], &[10], 11);
    assert_eq!(
        found(&row(3, 2, &["B,0,1", "b,0,3"])),
        (Found { number: 0, line: 0, item: 0, cues: 3, nodes: 6, tried: 5 }, vec![1, 0])
    );
}

#[test]
fn each_letter() {
    expect(3, &["O,2,0"], &[2], 3);
    expect(3, &["B,1,1"], &[2], 3);
    expect(3, &["b,0,1", "B,0,2"], &[0, 1], 2);
    expect(3, &["F,1,1"], &[2], 3);
    expect(3, &["f,2,1", "F,1,3"], &[0, 2], 3);
    expect(3, &["W,1,1,8"], &[2], 3);
    expect(3, &["w,1,1,2", "O,0,1", "F,0,2"], &[0, 1], 2);
}

#[test]
fn no_choice() {
    assert_eq!(found(&row(3, 2, &["B,0,1", "b,0,1"])), refused(16, 0, 16));
    assert_eq!(found(&row(3, 0, &["O,1,0"])), refused(16, 0, 1));
    assert_eq!(found("N,0,0,1,1,0,0,1\nI,0\nM,0,0,0\nP\nE,0,0\n").0.tried, 1);
    assert_eq!(found("N,1,0,1,1,0,0,1\nI,0\nM,0,0,1\nB,0,0\nP\nE,0,0\n"), refused(16, 0, 1));
}

#[test]
fn limit() {
    for (cues, most) in [(1, 19), (2, 12), (3, 9), (4, 8), (5, 7), (6, 7), (7, 6), (8, 6), (9, 6), (11, 5)] {
        expect(cues, &[], &vec![0; most], 1);
        assert_eq!(found(&row(cues, most + 1, &[])), refused(15, 0, most as u32 + 1));
        // Nothing is tried then, not even what is broken whatever the gaps.
        assert_eq!(found(&row(cues, most + 1, &["b,0,0", "F,0,0", "f,0,0"])), refused(15, 0, most as u32 + 1));
    }
    assert_eq!(found(&row(1, 31, &[])), refused(15, 0, 31));
}

#[test]
fn no_cue() {
    for empty in [1, 19, 20, 31] {
        let text = format!(
            "N,0,0,2,2,0,0,{}\nI,0\nM,0,{empty}{},0\nM,1,0,0\nP\nD,0\n{}",
            empty + 1,
            ",1".repeat(empty),
            "E,1,0\n".repeat(empty)
        );
        assert_eq!(
            found(&text),
            (Found { number: 0, line: 0, item: 0, cues: 0, nodes: empty as u32 + 1, tried: 1 }, vec![0; empty])
        );
    }
}

#[test]
fn other_refusals_come_first() {
    let text = row(3, 2, &["B,0,1", "b,0,1"]);
    for (item, lengths) in [
        (1, Lengths { states: 8_007, ..Lengths::EXACT }),
        (2, Lengths { nodes: 2_999, ..Lengths::EXACT }),
        (3, Lengths { work: 16_383, ..Lengths::EXACT }),
    ] {
        assert_eq!(found_with(text.as_bytes(), lengths), refused(1, 0, item));
    }
    assert_eq!(found(&text.replacen("E,1,0", "E,1,4", 1)), refused(4, 12, 3));
    assert_eq!(found(&text.replacen("E,1,0", "E,1,04", 1)), refused(3, 12, 3));
    assert_eq!(found(&text.replacen("L,2,3", "L,2,2", 1)), refused(8, 16, 2));
    assert_eq!(found(&text.replacen("E,1,0", "E,1,3", 2)), refused(16, 0, 16));
}

#[test]
fn dear_cases() {
    for (cues, empty) in DEAR {
        let power = (cues as u32 + 1).pow(empty as u32);
        for (only_last, sixty_four) in [(false, false), (false, true), (true, false), (true, true)] {
            let text = gaps::dear(cues, empty, only_last, sixty_four).text();
            let mut lists = Lists::default();
            let (states, nodes, work) = lists.lend(Lengths::EXACT);
            let answer = fast::find_gaps(&text, states, nodes, work);
            let due = if only_last { (0, 0, power) } else { (16, power, 0) };
            assert_eq!((answer.number, answer.item, answer.tried), due, "{cues}, {empty}, {sixty_four}");
            if cues == 9 {
                assert_eq!(found_with(&text, Lengths::EXACT).0, answer);
            }
        }
    }
}

#[test]
fn both_renderings_agree() {
    for (name, text) in extremes::all().into_iter().chain(tangles::all()) {
        if gaps::affordable(&text) {
            println!("{name}");
            found_with(&text, Lengths::EXACT);
        }
    }
}
