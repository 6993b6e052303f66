//! The settled readings of Card 2 of document 02, each as a text and what is put out, and both renderings on the inputs of chosen size.

use harness::gen::{extremes, tangles};
use harness::lists::{Dirt, Lengths, Lists, OUTPUT};
use harness::plain::{Node, Written};
use harness::{fast, plain};

/// The panel case with these constraints of its goal's method; all of them are to hold.
fn panel(constraints: &[&str]) -> String {
    let lines: String = constraints.iter().map(|line| format!("{line}\n")).collect();
    format!(
        "N,12,3,2,3,3,2,4\nI,1,0\nA,0,1,0,1,0,0\nA,0,0,1,1,0\nA,1,1,0,1,2,1,1\nM,3,3,4,1,2,{}\n{lines}\
         M,4,1,0,0\nM,4,0,1\nB,0,0\nP,1,2\nD,0\nE,2,0\nL,1,1\nL,2,2\n",
        constraints.len()
    )
}

/// The answer of both renderings, and what is put out.
#[track_caller]
fn written(text: &str, lengths: Lengths, output: usize) -> (Written, String) {
    let (mut ours, mut theirs) = (Lists::with_output(), Lists::with_output());
    ours.soil(Dirt::Counting);
    theirs.soil(Dirt::Counting);
    let (states, nodes, work, bytes) = ours.lend_all(lengths, output);
    let answer = plain::write(text.as_bytes(), states, nodes, work, bytes);
    let put_out = String::from_utf8(bytes[..answer.length as usize].to_vec()).expect("a text");
    assert!(bytes[put_out.len()..].iter().all(|&byte| byte == 0));
    assert!(answer.number == 0 || states.iter().all(|&word| word == 0));
    assert!(answer.number == 0 || nodes.iter().all(|&node| node == Node::default()));
    let (states, nodes, work, bytes) = theirs.lend_all(lengths, output);
    assert_eq!(answer, fast::write(text.as_bytes(), states, nodes, work, bytes));
    assert_eq!(ours.first_difference(&theirs), None);
    (answer, put_out)
}

/// The panel case with the first constraints is put out with the others.
#[track_caller]
fn expect(constraints: &[&str], tidy: &[&str]) {
    let (answer, put_out) = written(&panel(constraints), Lengths::EXACT, OUTPUT);
    let length = put_out.len() as u32;
    assert_eq!(answer, Written { number: 0, line: 0, item: 0, cues: 2, nodes: 4, length });
    assert_eq!(put_out, panel(tidy));
}

fn refused(number: u32, line: u32, item: u32) -> Written {
    Written { number, line, item, cues: 0, nodes: 0, length: 0 }
}

#[test]
fn letters() {
    let tidy = ["O,1,2", "B,0,1", "b,2,0", "F,0,1", "f,5,7", "W,1,0,4", "w,1,2,4"];
    let mut reversed = tidy;
    reversed.reverse();
    expect(&tidy, &tidy);
    expect(&reversed, &tidy);
    // The letter comes before the fields.
    expect(&["b,1,0", "B,0,7"], &["B,0,7", "b,1,0"]);
    expect(&["w,0,3,0", "f,11,7"], &["f,11,7", "w,0,3,0"]);
}

#[test]
fn fields() {
    expect(&["b,10,0", "b,9,0"], &["b,9,0", "b,10,0"]);
    expect(&["b,9,7", "b,9,1", "b,10,0"], &["b,9,1", "b,9,7", "b,10,0"]);
    expect(&["O,1,2", "O,0,2"], &["O,0,2", "O,1,2"]);
    expect(&["w,2,5,4", "w,1,10,4", "w,1,9,7", "w,1,9,4"], &["w,1,9,4", "w,1,9,7", "w,1,10,4", "w,2,5,4"]);
}

#[test]
fn repeats() {
    expect(&["W,1,0,4", "O,1,2", "O,0,2", "O,1,2"], &["O,0,2", "O,1,2", "W,1,0,4"]);
    expect(&["O,1,2", "O,1,2", "O,1,2"], &["O,1,2"]);
    // Another method has the same line, and keeps it.
    expect(&["B,0,0"; 64], &["B,0,0"]);
    // c loses a digit.
    let nine = ["b,1,0", "b,2,0", "b,3,0", "b,4,0", "b,5,0", "b,6,0", "b,7,0", "b,8,0", "b,9,0"];
    expect(&[&nine[..], &["b,1,0"]].concat(), &nine);
    // The whole task and the set of all its subtasks mean the same, and both stay.
    expect(&["F,0,7", "F,0,0"], &["F,0,0", "F,0,7"]);
}

#[test]
fn short_outputs() {
    let text = panel(&["W,1,0,4", "O,1,2", "O,1,2"]);
    let needed = panel(&["O,1,2", "W,1,0,4"]).len();
    for output in [0, 1, needed - 1] {
        assert_eq!(written(&text, Lengths::EXACT, output).0, refused(14, 0, needed as u32));
    }
    for output in [needed, needed + 1, text.len(), OUTPUT] {
        assert_eq!(written(&text, Lengths::EXACT, output).0.length, needed as u32);
    }
}

#[test]
fn other_refusals_come_first() {
    let broken = panel(&["W,1,0,4", "O,2,1"]);
    for output in [0, OUTPUT] {
        assert_eq!(written(&broken, Lengths::EXACT, output).0, refused(10, 13, 1));
        assert_eq!(written("N\n", Lengths::EXACT, output).0, refused(3, 1, 2));
        for (item, lengths) in [
            (1, Lengths { states: 8_007, ..Lengths::EXACT }),
            (1, Lengths { states: 4_004, ..Lengths::EXACT }),
            (2, Lengths { nodes: 2_999, ..Lengths::EXACT }),
            (3, Lengths { work: 16_383, ..Lengths::EXACT }),
        ] {
            assert_eq!(written(&panel(&[]), lengths, output).0, refused(1, 0, item));
        }
    }
}

#[test]
fn both_renderings_agree() {
    for (name, text) in extremes::all().into_iter().chain(tangles::all()) {
        let (mut ours, mut theirs) = (Lists::with_output(), Lists::with_output());
        for output in [OUTPUT, text.len().min(OUTPUT), text.len().saturating_sub(1).min(OUTPUT), 0] {
            ours.soil(Dirt::Counting);
            theirs.soil(Dirt::Counting);
            let (states, nodes, work, bytes) = ours.lend_all(Lengths::EXACT, output);
            let answer = plain::write(&text, states, nodes, work, bytes);
            let (states, nodes, work, bytes) = theirs.lend_all(Lengths::EXACT, output);
            assert_eq!(answer, fast::write(&text, states, nodes, work, bytes), "{name}");
            assert_eq!(ours.first_difference(&theirs), None, "{name}");
        }
    }
}
