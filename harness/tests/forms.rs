//! The settled readings of Card 6 of document 02, one by one, each as texts and their answer; both renderings on the inputs of chosen
//! size; what the generated inputs promise.

use cuecheck::{NODES, STATES, WORK};
use harness::compare::PLAIN_IMPORT;
use harness::gen::forms::faults::{Fault, FAULTS};
use harness::gen::forms::{self, Texts, Timed};
use harness::gen::{gaps, Inputs, Rng};
use harness::lists::{Dirt, Lengths, Lists, MADE};
use harness::plain::{Imported, Node};
use harness::{fast, plain};
use std::collections::BTreeSet;

/// 01's panel case, with the case's own plan and nodes.
fn panel(plan_and_nodes: &str) -> String {
    let own = plan_and_nodes;
    let cues = own.lines().next().map_or(0, |plan| plan.split(',').count() - 1);
    let nodes = own.lines().count() - 1;
    format!(
        "N,3,3,2,3,3,{cues},{nodes}\nI,1,0\nA,0,1,0,1,0,0\nA,0,0,1,1,0\nA,1,1,0,1,2,1,1\n\
         M,3,3,4,1,2,3\nO,0,2\nO,1,2\nW,1,0,4\nM,4,1,0,0\nM,4,0,1\nB,0,0\n{own}"
    )
}

/// What the panel's form makes of it.
const MADE_LINES: &str = "P,1,2\nD,0\nE,2,0\nL,1,1\nL,2,2\n";

const NAMES: &str = "0,convert\n1,load\n2,take\n3,panel\n4,in-km/h\n0,whole\n1,by-convert\n2,as-is\n";

const FORM: &str = "==>\n1 load\n2 take\nroot 0\n0 panel -> whole 3 1 2\n3 in-km/h -> as-is\n<==\n";

/// What both renderings put out, and their answer as worked cases have it; after a refusal everything is zero.
#[track_caller]
fn imported_with(texts: &Texts, lengths: Lengths, room: usize) -> (String, String, Vec<Node>) {
    let Texts { case, names, form } = texts;
    let (mut ours, mut theirs) = (Lists::with_output_of(MADE), Lists::with_output_of(MADE));
    ours.soil(Dirt::Counting);
    theirs.soil(Dirt::Counting);
    let (states, nodes, work, output) = ours.lend_all(lengths, room);
    let answer = plain::import(case, names, form, states, nodes, work, output);
    let Imported { number, line, item, cues, nodes: count, tried, length } = answer;
    assert!(number == 0 || states.iter().all(|&word| word == 0));
    assert!(nodes[count as usize..].iter().all(|&node| node == Node::default()));
    assert!(work.iter().all(|&number| number == 0));
    assert!(output[length as usize..].iter().all(|&byte| byte == 0));
    let put_out = String::from_utf8(output[..length as usize].to_vec()).expect("a text");
    let records = nodes[..count as usize].to_vec();
    let (states, nodes, work, output) = theirs.lend_all(lengths, room);
    assert_eq!(answer, fast::import(case, names, form, states, nodes, work, output));
    assert_eq!(ours.first_difference(&theirs), None);
    let told = match number {
        0 => format!("Y,{cues},{count},{tried},{length}"),
        _ => format!("R,{number},{line},{item}"),
    };
    (told, put_out, records)
}

fn texts(case: &str, names: &str, form: &str) -> Texts {
    let [case, names, form] = [case, names, form].map(|text| text.as_bytes().to_vec());
    Texts { case, names, form }
}

/// The answer and what is put out, with room for all.
#[track_caller]
fn imported(case: &str, names: &str, form: &str) -> (String, String) {
    let (told, put_out, _) = imported_with(&texts(case, names, form), Lengths::EXACT, MADE);
    (told, put_out)
}

/// The panel's form or its name list, with one thing in place of another, has this answer.
#[track_caller]
fn expect(old: &str, new: &str, due: &str) {
    let (names, form) = (NAMES.contains(old), FORM.contains(old));
    assert!(names != form, "in one of the texts: {old}");
    let told = match names {
        true => imported(&panel("P\nD,0\n"), &NAMES.replacen(old, new, 1), FORM),
        false => imported(&panel("P\nD,0\n"), NAMES, &FORM.replacen(old, new, 1)),
    };
    assert_eq!(told.0, due, "{old:?}, {new:?}");
}

/// A form of these lines has this answer, with the panel's case and name list.
#[track_caller]
fn expect_lines(lines: &[&str], due: &str) {
    let form: String = lines.iter().map(|line| format!("{line}\n")).collect();
    assert_eq!(imported(&panel("P\nD,0\n"), NAMES, &form).0, due, "{form}");
}

/// A case without actions, whose tasks are decomposed by the empty method `e`, by `u` with one subtask or by `v` with two: the tree is
/// nothing but ids.
const BARE: (&str, &str) =
    ("N,0,0,1,3,0,0,1\nI,0\nM,0,0,0\nM,0,1,0,0\nM,0,2,0,0,0\nP\nE,0,0\n", "0,t\n0,e\n1,u\n2,v\n");

/// A form of these compound lines, `->` and the task left out, for that case.
#[track_caller]
fn expect_bare(root: &str, lines: &[&str], due: &str) {
    let compound = |line: &&str| line.replacen(' ', " t -> ", 1) + "\n";
    let form = format!("==>\nroot {root}\n{}<==\n", lines.iter().map(compound).collect::<String>());
    assert_eq!(imported(BARE.0, BARE.1, &form).0, due, "{form}");
}

#[test]
fn found() {
    let made = panel(MADE_LINES);
    assert_eq!(imported(&panel("P\nD,0\n"), NAMES, FORM), ("Y,2,4,1,150".to_string(), made.clone()));
    assert_eq!(made.len(), 150);
}

// ---------------------------------------------------------------- the case beside

#[test]
fn the_case_need_not_be_accepted() {
    // Plans that don't run, nodes that are no tree, levels, positions that are claimed twice: all of it is replaced.
    for own in ["P\nE,0,0\n", "P,2,2\nL,2,1\nL,2,1\n", "P,1,2\nD,2\nD,2\n", MADE_LINES] {
        assert_eq!(imported(&panel(own), NAMES, FORM).1, panel(MADE_LINES));
    }
}

#[test]
fn the_case_must_be_readable_whole() {
    let own = |own: &str| imported(&panel(own), NAMES, FORM).0;
    assert_eq!(own("P,1,x\nD,0\n"), "R,3,13,3");
    assert_eq!(own("P,1,3\nD,0\n"), "R,4,13,3");
    assert_eq!(own("P\nD,00\n"), "R,3,14,2");
    assert_eq!(own("P\nD,3\n"), "R,4,14,2");
    assert_eq!(own("P,1\nE,2,2\n"), "R,4,14,3");
    let case = panel("P\nD,0\n");
    assert_eq!(imported(&(case.clone() + "x"), NAMES, FORM).0, "R,3,15,1");
    assert_eq!(imported("", "", "").0, "R,3,1,0");
    assert_eq!(imported(&(case + &"x".repeat(65_536)), NAMES, FORM).0, "R,2,0,0");
}

// ---------------------------------------------------------------- the name list

#[test]
fn a_line_for_each_task_and_then_for_each_method() {
    // Methods are numbered from 0 again, and none is left out or comes besides.
    expect("0,whole", "5,whole", "R,17,6,1");
    expect("1,load\n", "", "R,17,2,1");
    expect("2,as-is\n", "", "R,17,8,1");
    expect("2,as-is\n", "2,as-is\n3,more\n", "R,17,9,1");
    expect("4,in-km/h\n", "4,in-km/h\n5,more\n", "R,17,6,1");
}

#[test]
fn another_number_is_another_shape() {
    for number in ["0", "2", "01", "4294967297", "1 ", " 1", "+1", "", "x"] {
        expect("1,load\n", &format!("{number},load\n"), "R,17,2,1");
    }
    // Also where the name is listed again.
    expect("1,load\n", "2,convert\n", "R,17,2,1");
}

#[test]
fn one_name_for_a_task_and_a_method() {
    let names = NAMES.replace("whole", "panel").replace("as-is", "load");
    let form = FORM.replace("whole", "panel").replace("as-is", "load");
    assert_eq!(imported(&panel("P\nD,0\n"), &names, &form).0, "Y,2,4,1,150");
}

#[test]
fn listed_again_among_the_tasks_or_among_the_methods() {
    // The later line; actions and compound tasks are listed together.
    expect("2,take", "2,load", "R,18,3,1");
    expect("4,in-km/h", "4,convert", "R,18,5,1");
    expect("2,as-is", "2,whole", "R,18,8,1");
    // Alike is not the same.
    expect("0,convert", "0,convert.", "Y,2,4,1,150");
    expect("0,convert", "0,Load", "Y,2,4,1,150");
    expect("0,convert", "0,loa", "Y,2,4,1,150");
}

#[test]
fn names_of_bytes_33_to_126_but_comma() {
    let all: String = (33..=126u8).filter(|&byte| byte != b',').map(char::from).collect();
    expect("0,convert", &format!("0,{all}"), "Y,2,4,1,150");
    for name in
        ["", " ", "a b", "a,b", ",", "a,", "a ", " a", "a\tb", "a\r", "a\0", "a\x1f", "a\x7f", "a\u{80}", "\u{e9}"]
    {
        expect("0,convert", &format!("0,{name}"), "R,17,1,1");
    }
    for (old, new) in
        [("1 load", "1 lo,ad"), ("1 load", "1 load\r"), ("1 load", "1 lo\x7fad"), ("1 load", "1 lo\u{e9}ad")]
    {
        expect(old, new, "R,17,2,0");
    }
    expect("0 panel", "0 pa,nel", "R,17,5,0");
    expect("-> whole", "-> who,le", "R,17,5,0");
}

#[test]
fn names_that_look_like_other_words() {
    for words in
        [["root", "->", "<==", "==>"], ["<==", "root", "->", "7"], ["1", "2", "0", "3"], ["->", "0", "root", "-"]]
    {
        let [load, panel_name, whole, as_is] = words;
        let swap = |text: &str| {
            let text = text.replace("load", load).replace(" panel", &format!(" {panel_name}"));
            let text = text.replace(",panel", &format!(",{panel_name}"));
            text.replace("whole", whole).replace("as-is", as_is)
        };
        assert_eq!(imported(&panel("P\nD,0\n"), &swap(NAMES), &swap(FORM)).1, panel(MADE_LINES), "{words:?}");
    }
}

#[test]
fn names_and_texts_have_no_limit_of_length() {
    for length in [7, 8, 9, 15, 16, 17, 300, 70_000] {
        let long = "x".repeat(length);
        let swap = |text: &str| text.replace("load", &long).replace("take", &format!("{long}y"));
        let named = |form: &str| imported(&panel("P\nD,0\n"), &swap(NAMES), &swap(form)).0;
        assert_eq!(named(FORM), "Y,2,4,1,150");
        assert_eq!(named(&FORM.replace("1 load", "1 takex")), "R,18,2,0");
        assert_eq!(named(&FORM.replace("1 load", "1 loady")), "R,5,13,1");
        let other = &format!("1 {}z", &long[1..]);
        assert_eq!(named(&FORM.replace("1 load", other)), "R,18,2,0");
    }
}

// ---------------------------------------------------------------- line feeds

#[test]
fn a_line_is_first_looked_at_for_its_line_feed() {
    // Whatever it holds: nothing, what is due, an unknown name, or what has no shape.
    let names: Vec<&str> = NAMES.split_inclusive('\n').collect();
    let form: Vec<&str> = FORM.split_inclusive('\n').collect();
    for held in ["", "0,convert", "1 load", "1 unknown", "root 0", "<==", "0 panel -> whole", "\r", "x"] {
        for count in 0..names.len() {
            let text = names[..count].concat() + held;
            assert_eq!(imported(&panel("P\nD,0\n"), &text, FORM).0, format!("R,17,{},1", count + 1));
        }
        for count in 0..form.len() {
            let text = form[..count].concat() + held;
            assert_eq!(imported(&panel("P\nD,0\n"), NAMES, &text).0, format!("R,17,{},0", count + 1));
        }
    }
}

#[test]
fn any_byte_after_the_last_due_line() {
    for over in ["\n", " ", "x", "\0", "<==\n", "0,more\n", "\r\n"] {
        assert_eq!(imported(&panel("P\nD,0\n"), &format!("{NAMES}{over}"), FORM).0, "R,17,9,1");
        assert_eq!(imported(&panel("P\nD,0\n"), NAMES, &format!("{FORM}{over}")).0, "R,17,8,0");
    }
}

// ---------------------------------------------------------------- order

#[test]
fn order_of_the_refusals() {
    let lent = |lengths: Lengths| imported_with(&texts("", "", ""), lengths, 0).0;
    assert_eq!(lent(Lengths { states: 8_007, nodes: 2_999, work: 16_383 }), "R,1,0,1");
    assert_eq!(lent(Lengths { nodes: 2_999, work: 16_383, ..Lengths::EXACT }), "R,1,0,2");
    assert_eq!(lent(Lengths { work: 16_383, ..Lengths::EXACT }), "R,1,0,3");
    let case = panel("P\nD,0\n");
    // The case, the name list, the form, the ids, the output, the gaps.
    let broken = |from: usize| {
        let case = if from > 0 { case.replace("I,1,0", "I,0") } else { case.replace("P\n", "Q\n") };
        let names = if from > 1 { NAMES.to_string() } else { NAMES.replace("2,as-is", "3,as-is") };
        let form = match from {
            0..=2 => FORM.replace("<==", "<="),
            3 => FORM.replace("whole 3 1 2", "whole 7 1 2"),
            _ => FORM.to_string(),
        };
        let room = if from > 4 { MADE } else { 147 };
        imported_with(&texts(&case, &names, &form), Lengths::EXACT, room).0
    };
    let due = ["R,3,13,1", "R,17,8,1", "R,17,7,0", "R,19,5,0", "R,14,0,148", "R,16,0,3"];
    assert_eq!((0..6).map(broken).collect::<Vec<_>>(), due);
}

#[test]
fn line_by_line_17_and_then_18() {
    // 18 in line 3 comes before 17 in line 4, 17 before 18 on one line.
    let unknown = FORM.replace("2 take", "2 tack");
    assert_eq!(imported(&panel("P\nD,0\n"), NAMES, &unknown.replace("root 0", "root")).0, "R,18,3,0");
    assert_eq!(imported(&panel("P\nD,0\n"), NAMES, &unknown.replace("tack\n", "tack \n")).0, "R,17,3,0");
    assert_eq!(imported(&panel("P\nD,0\n"), NAMES, &unknown.replace("1 load", "1  load")).0, "R,17,2,0");
    let again = NAMES.replace("2,take", "2,load");
    assert_eq!(imported(&panel("P\nD,0\n"), &again.replace("3,panel", "3,"), FORM).0, "R,18,3,1");
    assert_eq!(imported(&panel("P\nD,0\n"), &again.replace("1,load", "0,load"), FORM).0, "R,17,2,1");
    // The name list to its end, before the form; the form to its end, before the ids.
    assert_eq!(imported(&panel("P\nD,0\n"), &format!("{NAMES}x"), "").0, "R,17,9,1");
    assert_eq!(imported(&panel("P\nD,0\n"), &again, "x").0, "R,18,3,1");
    assert_eq!(imported(&panel("P\nD,0\n"), NAMES, &(FORM.replace("2 take", "1 take") + "x")).0, "R,17,8,0");
    assert_eq!(imported(&panel("P\nD,0\n"), NAMES, &FORM.replace("2 take", "1 take")).0, "R,19,2,0");
}

// ---------------------------------------------------------------- shapes

#[test]
fn words_parted_by_just_one_space() {
    for (line, words) in [(2, "1 load"), (4, "root 0"), (5, "0 panel -> whole 3 1 2"), (6, "3 in-km/h -> as-is")] {
        let due = format!("R,17,{line},0");
        for other in [format!(" {words}"), format!("{words} "), format!("{words}\r"), format!("{words}\t")] {
            expect(words, &other, &due);
        }
        for (at, _) in words.match_indices(' ') {
            for part in ["  ", "\t", " \t", "\r", "\u{a0}"] {
                expect(words, &format!("{}{part}{}", &words[..at], &words[at + 1..]), &due);
            }
        }
    }
    for words in ["==> ", " ==>", "==>\r", "=>", "===>", "", "==> x"] {
        expect("==>\n", &format!("{words}\n"), "R,17,1,0");
    }
    for words in ["<== ", " <==", "<==\r", "<=", "<===", "", "<== x", "<==<=="] {
        expect("<==\n", &format!("{words}\n"), "R,17,7,0");
    }
}

#[test]
fn ids_are_plain_numbers() {
    for id in ["4294967295", "0", "10", "9", "3000000000"] {
        let form = FORM.replace("1 load", &format!("{id} load")).replace("whole 3 1 2", &format!("whole 3 {id} 2"));
        let form = form.replace("root 0", "root 5").replace("0 panel", "5 panel");
        assert_eq!(imported(&panel("P\nD,0\n"), NAMES, &form).1, panel(MADE_LINES));
    }
    for id in ["4294967296", "01", "00", "", "x", "1x", "+1", "-1", "1.0", "18446744073709551617", "\u{661}", "1,"] {
        expect("1 load", &format!("{id} load"), "R,17,2,0");
        expect("root 0", &format!("root {id}"), "R,17,4,0");
        expect("0 panel", &format!("{id} panel"), "R,17,5,0");
        expect("whole 3 1 2", &format!("whole 3 {id} 2"), "R,17,5,0");
        expect("whole 3 1 2", &format!("whole 3 1 {id}"), "R,17,5,0");
    }
}

#[test]
fn action_lines_ahead_of_the_root_line() {
    for line in ["<==", "0 panel -> whole 3 1 2", "roots 0", "Root 0", "==>", "", "1", "load 1", "1 load 2"] {
        expect_lines(&["==>", "1 load", line, "2 take", "root 0", "0 panel -> whole 3 1 2", "<=="], "R,17,3,0");
    }
    // Whatever follows the word `root`, it is the root line.
    expect("1 load", "root load", "R,17,2,0");
}

#[test]
fn compound_lines_behind_the_root_line() {
    for line in ["2 take", "root 0", "root", "==>", "", "3 in-km/h", "3 in-km/h ->", "3 in-km/h as-is", "3 -> as-is"] {
        expect("3 in-km/h -> as-is", line, "R,17,6,0");
    }
    for arrow in ["- >", "=>", "->->", "-", ">", "→", "-> ->"] {
        expect("-> as-is", &format!("{arrow} as-is"), "R,17,6,0");
    }
}

#[test]
fn one_root_line_with_one_id() {
    expect("root 0\n", "", "R,17,4,0");
    expect("root 0", "root", "R,17,4,0");
    expect("root 0", "root 0 0", "R,17,4,0");
    expect("root 0", "root root", "R,17,4,0");
    expect("root 0", "root 0\nroot 0", "R,17,5,0");
    expect("==>\n", "==>\nroot 0\n", "R,17,3,0");
}

#[test]
fn an_id_for_each_subtask() {
    // The method without subtasks has none.
    expect("whole 3 1 2", "whole 3 1", "R,18,5,0");
    expect("whole 3 1 2", "whole 3 1 2 4", "R,18,5,0");
    expect("whole 3 1 2", "whole", "R,18,5,0");
    expect("-> as-is", "-> as-is 3", "R,18,6,0");
    expect("-> as-is", "-> by-convert", "R,18,6,0");
    // The shape of all ids comes first, however many they are.
    let many = "-> as-is".to_string() + &" 5".repeat(40);
    expect("-> as-is", &many, "R,18,6,0");
    expect("-> as-is", &(many + " 05"), "R,17,6,0");
}

// ---------------------------------------------------------------- names of the form

#[test]
fn names_for_their_use() {
    // An action line wants an action's name.
    for name in ["unknown", "panel", "whole", "Load", "loa", "load1"] {
        expect("1 load", &format!("1 {name}"), "R,18,2,0");
    }
    // A compound line a compound task's, and after the arrow a method's.
    for name in ["unknown", "load", "whole", "pane", "panell"] {
        expect("0 panel", &format!("0 {name}"), "R,18,5,0");
    }
    for name in ["unknown", "load", "panel", "whol", "wholee"] {
        expect("-> whole", &format!("-> {name}"), "R,18,5,0");
    }
}

#[test]
fn the_methods_task_is_the_named_one() {
    expect("0 panel", "0 in-km/h", "R,18,5,0");
    expect("3 in-km/h", "3 panel", "R,18,6,0");
    // Also where the number of subtasks is right.
    expect("3 in-km/h -> as-is", "3 panel -> by-convert 9", "R,18,6,0");
}

// ---------------------------------------------------------------- 3,000 lines

/// A form of so many action and compound lines, the first so many of them actions.
fn long_form(actions: usize, lines: usize, wrong: &str) -> String {
    let action: String = (0..actions).map(|n| format!("{n} load\n")).collect();
    let compound: String = (actions..lines).map(|n| format!("{n} in-km/h -> as-is\n")).collect();
    format!("==>\n{action}root {}\n{compound}{wrong}<==\n", lines - 1)
}

#[test]
fn the_3001st_line() {
    // With 3,000 lines number 19 comes up, on line 2 or, without actions, on line 3.
    for (actions, due) in [(0, "R,19,3,0"), (1, "R,19,2,0"), (2_999, "R,19,2,0"), (3_000, "R,19,2,0")] {
        let form = |lines: usize| imported(&panel("P\nD,0\n"), NAMES, &long_form(actions, lines, "")).0;
        assert_eq!(form(3_000), due);
        // The first line, and the root line, are not among them.
        assert_eq!(form(3_001), "R,17,3003,0");
    }
    let form = |form: &str| imported(&panel("P\nD,0\n"), NAMES, form).0;
    assert_eq!(form(&long_form(3_001, 3_001, "")), "R,17,3002,0");
    // Before its names are looked at; but the lines ahead of it come first.
    assert_eq!(form(&long_form(10, 3_000, "7 unknown -> unknown\n")), "R,17,3003,0");
    assert_eq!(form(&long_form(10, 2_999, "7 unknown -> unknown\n")), "R,18,3002,0");
    assert_eq!(form(&long_form(10, 3_000, "").replacen("9 load", "9 panel", 1)), "R,18,11,0");
}

// ---------------------------------------------------------------- ids

#[test]
fn one_test_after_all_lines() {
    // The least line with any fault: here 9 is not reached, 1 is defined twice, 7 is never defined, the root is under a parent.
    expect_lines(&["==>", "9 load", "1 load", "1 take", "root 0", "0 panel -> whole 7 1 0", "<=="], "R,19,2,0");
    expect_lines(&["==>", "1 load", "9 load", "1 take", "root 0", "0 panel -> whole 7 1 0", "<=="], "R,19,2,0");
    expect_lines(
        &["==>", "2 load", "1 take", "root 0", "3 in-km/h -> as-is", "0 panel -> whole 7 1 2", "<=="],
        "R,19,5,0",
    );
    expect_lines(
        &["==>", "2 load", "1 take", "root 0", "0 panel -> whole 7 1 2", "3 in-km/h -> as-is", "<=="],
        "R,19,5,0",
    );
    expect_lines(&["==>", "2 load", "1 take", "root 0", "0 panel -> whole 7 1 1", "<=="], "R,19,2,0");
    expect_bare("0", &["0 v 1 2", "1 e", "2 u 3"], "R,19,5,0");
    expect_bare("0", &["2 u 3", "0 v 1 2", "1 u 1"], "R,19,3,0");
    expect_bare("0", &["0 v 1 2", "1 u 1", "2 u 3"], "R,19,4,0");
}

#[test]
fn an_id_defined_twice() {
    // The first of the lines that define it: two action lines, two compound lines, or one of each.
    expect_lines(
        &["==>", "2 load", "1 load", "1 take", "root 0", "0 panel -> whole 3 1 2", "3 in-km/h -> as-is", "<=="],
        "R,19,3,0",
    );
    expect_bare("0", &["0 v 1 2", "2 e", "1 e", "2 e"], "R,19,4,0");
    expect_bare("0", &["0 v 1 2", "2 e", "1 e", "0 e"], "R,19,3,0");
    expect_lines(
        &["==>", "1 load", "2 take", "3 load", "root 0", "3 in-km/h -> as-is", "0 panel -> whole 3 1 2", "<=="],
        "R,19,4,0",
    );
    // Three times.
    expect_bare("0", &["0 u 1", "1 e", "1 e", "1 e"], "R,19,4,0");
}

#[test]
fn twice_a_subtask() {
    // The line that defines the id: below both uses, between them, above them; on one line or on two.
    expect_bare("0", &["0 v 1 1", "1 e"], "R,19,4,0");
    expect_bare("0", &["1 e", "0 v 1 1"], "R,19,3,0");
    expect_bare("0", &["0 v 1 2", "1 u 3", "2 u 3", "3 e"], "R,19,6,0");
    expect_bare("0", &["0 v 1 2", "1 u 3", "3 e", "2 u 3"], "R,19,5,0");
    expect_bare("0", &["3 e", "0 v 1 2", "1 u 3", "2 u 3"], "R,19,3,0");
    expect_bare("0", &["0 v 1 2", "1 u 2", "2 e"], "R,19,5,0");
    // Also a subtask of a line that is not reached.
    expect_bare("0", &["0 u 1", "1 e", "2 u 1"], "R,19,4,0");
}

#[test]
fn the_root_under_a_parent() {
    expect_bare("0", &["0 u 0"], "R,19,3,0");
    expect_bare("0", &["1 u 0", "0 u 1"], "R,19,4,0");
    expect_bare("0", &["1 e", "0 v 1 0"], "R,19,4,0");
    // Also under one that is not reached; that line comes later.
    expect_bare("0", &["0 e", "1 u 0"], "R,19,3,0");
}

#[test]
fn what_is_not_reached() {
    expect_bare("0", &["0 e", "1 e"], "R,19,4,0");
    expect_bare("0", &["1 e", "0 e"], "R,19,3,0");
    // A ring, with everything under a parent.
    expect_bare("0", &["0 e", "1 u 1"], "R,19,4,0");
    expect_bare("0", &["0 e", "2 u 1", "3 u 2", "1 u 3"], "R,19,4,0");
    expect_bare("0", &["0 u 4", "4 e", "2 v 1 5", "1 u 2", "5 e"], "R,19,5,0");
    expect_lines(
        &["==>", "1 load", "2 take", "9 take", "root 0", "0 panel -> whole 3 1 2", "3 in-km/h -> as-is", "<=="],
        "R,19,4,0",
    );
    // What lies above the root.
    expect_bare("1", &["0 u 1", "1 e"], "R,19,3,0");
}

#[test]
fn reached_through_every_line_that_defines_an_id() {
    // 2 and 3 are reached by the second line of 1 alone, so that the first fault is that 1 is defined twice.
    expect_bare("0", &["2 e", "3 e", "0 u 1", "1 e", "1 v 2 3"], "R,19,6,0");
    // The same of the root.
    expect_bare("0", &["2 e", "3 e", "0 e", "0 v 2 3"], "R,19,5,0");
    // A second line makes its subtasks subtasks once more: 2 is twice a subtask.
    expect_bare("0", &["2 e", "0 u 1", "1 u 2", "1 u 2"], "R,19,3,0");
    // And the root's id a subtask.
    expect_bare("0", &["0 u 1", "1 e", "1 u 0"], "R,19,3,0");
}

#[test]
fn an_id_never_defined() {
    // The line that uses it, the first of them if there are two.
    expect_bare("0", &["1 u 7", "0 u 1"], "R,19,3,0");
    expect_bare("0", &["0 v 1 2", "1 u 7", "2 u 7"], "R,19,4,0");
    expect_bare("0", &["0 v 7 7"], "R,19,3,0");
    // The root line too: nothing is reached then, and the first action line comes before it, if there is one.
    expect_bare("7", &[], "R,19,2,0");
    expect_bare("7", &["0 e"], "R,19,2,0");
    expect_lines(&["==>", "1 load", "root 7", "0 panel -> whole 3 1 2", "<=="], "R,19,2,0");
    expect_lines(&["==>", "1 load", "2 take", "root 7", "<=="], "R,19,2,0");
}

// ---------------------------------------------------------------- the case made

#[test]
fn preorder_by_the_subtask_ids() {
    // Whatever the order of the compound lines.
    let lines = ["0 panel -> whole 30 10 20\n", "30 in-km/h -> by-convert 5\n"];
    let case = panel("P\nD,0\n").replace("I,1,0", "I,0");
    for [one, other] in [lines, [lines[1], lines[0]]] {
        let form = format!("==>\n5 convert\n10 load\n20 take\nroot 0\n{one}{other}<==\n");
        let made = case.replace(",0,1\nI", ",3,5\nI").replace("P\nD,0\n", "P,0,1,2\nD,0\nD,1\nL,0,1\nL,1,2\nL,2,3\n");
        assert_eq!(imported(&case, NAMES, &form), (format!("Y,3,5,1,{}", made.len()), made));
    }
}

#[test]
fn positions_in_the_order_of_the_action_lines() {
    let form = "==>\n10 load\n5 convert\n20 take\nroot 0\n0 panel -> whole 30 10 20\n30 in-km/h -> by-convert 5\n<==\n";
    let case = panel("P\nD,0\n").replace("I,1,0", "I,0");
    assert!(imported(&case, NAMES, form).1.ends_with("P,1,0,2\nD,0\nD,1\nL,0,2\nL,1,1\nL,2,3\n"));
    // Which subtask an action is goes by its id, not by its line.
    let twice = ("N,0,1,1,1,1,0,1\nI,0\nA,0,0,0,0\nM,1,2,0,0,0\nP\nD,0\n", "0,a\n1,t\n0,m\n");
    assert!(imported(twice.0, twice.1, "==>\n1 a\n2 a\nroot 0\n0 t -> m 2 1\n<==\n")
        .1
        .ends_with("D,0\nL,0,2\nL,0,1\n"));
}

#[test]
fn all_other_lines_are_the_cases_own() {
    // Constraints out of order and repeated, of either sign, stay so.
    let case = panel("P\nD,0\n").replace("M,3,3,4,1,2,3\n", "M,3,3,4,1,2,6\nw,1,2,4\nO,1,2\nO,1,2\n");
    let made = case.replace(",0,1\nI", ",2,4\nI").replace("P\nD,0\n", MADE_LINES);
    assert_eq!(imported(&case, NAMES, FORM), (format!("Y,2,4,1,{}", made.len()), made));
}

#[test]
fn the_output_keeps_gaps_0() {
    // Gap 1 is found, and is in the record.
    let case = panel("P\nD,0\n").replace("I,1,0", "I,0").replace("A,0,0,1,1,0", "A,0,0,2,0,1,0");
    let (told, made, records) = imported_with(&texts(&case, NAMES, FORM), Lengths::EXACT, MADE);
    assert_eq!(told, format!("Y,2,4,2,{}", made.len()));
    assert!(made.ends_with(MADE_LINES));
    assert_eq!(records[1], Node { letter: 2, label: 2, place: 1, start: 3, end: 3 });
}

// ---------------------------------------------------------------- 14 and what follows it

#[test]
fn short_outputs() {
    let room = |texts: &Texts, room: usize| imported_with(texts, Lengths::EXACT, room).0;
    let sound = texts(&panel("P\nD,0\n"), NAMES, FORM);
    for length in [0, 1, 149] {
        assert_eq!(room(&sound, length), "R,14,0,150");
    }
    for length in [150, 151, 400, MADE] {
        assert_eq!(room(&sound, length), "Y,2,4,1,150");
    }
    // Before every refusal of the call that finds the gaps.
    let none = texts(&panel("P\nD,0\n").replace("I,1,0", "I,0"), NAMES, FORM);
    assert_eq!((room(&none, 147), room(&none, 148)), ("R,14,0,148".to_string(), "R,16,0,3".to_string()));
    let late = texts(&panel("P\nD,0\n"), NAMES, &FORM.replace("1 load\n2 take", "2 take\n1 load"));
    assert_eq!((room(&late, 149), room(&late, 150)), ("R,14,0,150".to_string(), "R,5,13,1".to_string()));
}

#[test]
fn too_long_a_text_made() {
    let named = |name: &str| forms::all().into_iter().find(|(other, _)| *other == name).expect("an input").1;
    let told = |texts: &Texts, room: usize| imported_with(texts, Lengths::EXACT, room).0;
    for (name, length, due) in
        [("65535 bytes made", 65_535, "Y,1000,3000,1,65535"), ("65536 bytes made", 65_536, "R,2,0,0")]
    {
        let texts = named(name);
        assert_eq!(told(&texts, length), due);
        assert_eq!(told(&texts, length - 1), format!("R,14,0,{length}"));
    }
    // 14's item also where it is far over.
    let texts = named("83000 bytes made");
    let short = told(&texts, 0);
    let length: usize = short.rsplit(',').next().and_then(|item| item.parse().ok()).expect("an item");
    assert!(short.starts_with("R,14,0,") && length > 83_000, "{short}");
    assert_eq!((told(&texts, length - 1), told(&texts, length)), (short, "R,2,0,0".to_string()));
}

#[test]
fn over_1000_action_lines() {
    let told = |name: &str| {
        let (_, texts) = forms::all().into_iter().find(|(other, _)| *other == name).expect("an input");
        imported_with(&texts, Lengths::EXACT, MADE).0
    };
    assert!(told("3000 lines, 1000 actions").starts_with("Y,1000,3000,1,"));
    assert_eq!(told("3000 lines, 1001 actions"), "R,4,1,7");
}

#[test]
fn another_task_than_expected() {
    let node = |form: &str| imported(&panel("P\nD,0\n"), NAMES, form).0;
    // The root is not of the goal's task; an action as root; a subtask of another task, at its own node line.
    assert_eq!(node("==>\nroot 3\n3 in-km/h -> as-is\n<==\n"), "R,6,14,0");
    assert_eq!(node("==>\n1 load\nroot 1\n<==\n"), "R,6,14,0");
    assert_eq!(node(&FORM.replace("whole 3 1 2", "whole 1 3 2")), "R,6,15,0");
    assert_eq!(node(&FORM.replace("whole 3 1 2", "whole 3 2 1")), "R,6,16,0");
    let deeper = "==>\n1 load\n2 take\n4 load\nroot 0\n0 panel -> whole 3 1 2\n3 in-km/h -> by-convert 4\n<==\n";
    assert_eq!(node(deeper), "R,6,16,0");
}

/// Of the numbers that a bad tree has only 6 can occur. The case's own tree is read, but not walked; of the tree made each letter is that
/// of its method, and what would be lacking or over is 18 or 19.
#[test]
fn of_a_bad_tree_only_6() {
    for own in [
        "P,1,2\nD,0\nD,2\nL,1,1\nL,2,2\n",
        "P,1,2\nD,0\nE,1,0\nL,1,1\nL,2,2\n",
        "P,1,2\nD,0\nE,2,0\nL,1,1\nL,2,2\nD,2\n",
        "P,1,2\nD,0\nE,2,0\nL,1,1\n",
    ] {
        assert_eq!(imported(&panel(own), NAMES, FORM).1, panel(MADE_LINES), "{own}");
    }
    expect("whole 3 1 2", "whole", "R,18,5,0");
    expect("whole 3 1 2", "whole 3 1", "R,18,5,0");
    expect("whole 3 1 2", "whole 3 1 2 4", "R,18,5,0");
    expect("-> as-is", "-> by-convert", "R,18,6,0");
    expect("-> as-is", "-> as-is 1", "R,18,6,0");
    expect("3 in-km/h -> as-is\n", "", "R,19,5,0");
    expect("<==", "4 in-km/h -> as-is\n<==", "R,19,7,0");
    expect("root 0", "4 load\nroot 0", "R,19,4,0");
}

/// On level 65 too, 6 comes ahead of 7.
#[test]
fn another_task_on_level_65() {
    let case = "N,0,0,2,3,0,0,1\nI,0\nM,0,0,0\nM,0,1,0,0\nM,1,0,0\nP\nE,0,0\n";
    let ending = |last: &str| {
        let lines: String = (1..65).map(|n| format!("{n} t -> u {}\n", n + 1)).collect();
        let form = format!("==>\nroot 1\n{lines}65 {last}\n<==\n");
        imported(case, "0,t\n1,s\n0,e\n1,u\n2,f\n", &form).0
    };
    assert_eq!((ending("t -> e"), ending("s -> f")), ("R,7,71,0".to_string(), "R,6,71,0".to_string()));
}

#[test]
fn other_refusals_of_finding() {
    let levels = |count: usize| {
        let lines: String = (1..count).map(|n| format!("{n} t -> u {}\n", n + 1)).collect();
        imported(BARE.0, BARE.1, &format!("==>\nroot 1\n{lines}{count} t -> e\n<==\n")).0
    };
    assert!(levels(64).starts_with("Y,0,64,1,"));
    assert_eq!(levels(65), "R,7,71,0");
    assert_eq!(levels(3_000), "R,7,71,0");
    // 20 empty tasks and a cue are too many choices, 19 are not.
    let row = |empty: usize| {
        let case =
            format!("N,0,1,2,2,1,0,1\nI,0\nA,0,0,0,0\nM,1,{}{},0,0\nM,2,0,0\nP\nD,0\n", empty + 1, ",2".repeat(empty));
        let ids: String = (2..empty + 2).map(|id| format!(" {id}")).collect();
        let lines: String = (2..empty + 2).map(|id| format!("{id} z -> none\n")).collect();
        let form = format!("==>\n1 a\nroot 0\n0 g -> all{ids} 1\n{lines}<==\n");
        imported(&case, "0,a\n1,g\n2,z\n0,all\n1,none\n", &form).0
    };
    assert!(row(19).starts_with("Y,1,21,1,"));
    assert_eq!(row(20), "R,15,0,20");
}

// ---------------------------------------------------------------- lists

#[test]
fn lists_of_any_length() {
    let sound = texts(&panel("P\nD,0\n"), NAMES, FORM);
    let longer = Lengths { states: 8_020, nodes: 3_010, work: 16_400 };
    assert_eq!(imported_with(&sound, longer, 400).0, "Y,2,4,1,150");
    for (item, lengths) in [
        (1, Lengths { states: 0, ..Lengths::EXACT }),
        (1, Lengths { states: 4_004, ..Lengths::EXACT }),
        (2, Lengths { nodes: 0, ..Lengths::EXACT }),
        (3, Lengths { work: 0, ..Lengths::EXACT }),
    ] {
        assert_eq!(imported_with(&sound, lengths, 400).0, format!("R,1,0,{item}"));
        assert_eq!(imported_with(&sound, lengths, 0).0, format!("R,1,0,{item}"));
    }
}

// ---------------------------------------------------------------- the generated inputs

#[test]
fn inputs_of_chosen_size() {
    for (name, texts) in forms::all() {
        let told = imported_with(&texts, Lengths::EXACT, MADE).0;
        println!("{name}: {told}");
        imported_with(&texts, Lengths::EXACT, 0);
        let due = match name {
            "3000 lines, 1001 actions" => "R,4,1,7",
            "3001 lines, a compound one more" | "3001 lines, an action more" => "R,17,3003,0",
            "65536 bytes made" | "83000 bytes made" => "R,2,0,0",
            "a ring of 3000" | "96000 subtasks" | "one id 3000 times" => "R,19,3,0",
            "a ring of 2999 apart" => "R,19,4,0",
            "65 levels" | "3000 levels" => "R,7,",
            "3000 nodes, most of them empty" => "R,15,0,",
            _ => "Y,",
        };
        assert!(told.starts_with(due), "{name}: {told}");
    }
}

/// Those that are timed are accepted, have as many lines as their names say, and make the case that is said, but for its gap.
#[test]
fn timed_inputs() {
    for Timed { name, texts, made } in forms::timed() {
        let (told, put_out, records) = imported_with(&texts, Lengths::EXACT, made.len());
        assert!(told.starts_with("Y,"), "{name}: {told}");
        let lines = texts.form.iter().filter(|&&byte| byte == b'\n').count() - 3;
        assert!(name.starts_with(&format!("{lines} lines")) || name == "four nodes", "{name}: {lines}");
        let (states, nodes, work) = (&mut [0; STATES], &mut [Node::default(); NODES], &mut [0; WORK]);
        assert_eq!(plain::check(&made, states, nodes, work).number, 0, "{name}");
        assert_eq!(records, nodes[..records.len()], "{name}");
        let made = String::from_utf8(made).expect("a text");
        let without_gap = |line: &str| match line.rsplit_once(',') {
            Some((front, _)) if line.starts_with("E,") => format!("{front},0\n"),
            _ => format!("{line}\n"),
        };
        assert_eq!(put_out, made.lines().map(without_gap).collect::<String>(), "{name}");
    }
}

/// 2,048 task names that differ, and all have the hash of the proved call's table.
#[test]
fn timed_names_of_a_hash() {
    let Timed { texts, .. } = forms::timed().pop().expect("an input");
    let list = String::from_utf8(texts.names).expect("a text");
    let tasks: BTreeSet<&str> = list.lines().take(2_048).map(|line| line.split_once(',').expect("a name").1).collect();
    assert_eq!(tasks.len(), 2_048);
    let hash = |name: &str| name.bytes().fold(0, |hash: u32, byte| hash.wrapping_mul(31).wrapping_add(byte.into()));
    assert_eq!(tasks.iter().map(|name| hash(name)).collect::<BTreeSet<u32>>().len(), 1);
}

/// How many of so many inputs with this fault are refused with its number, and how many are accepted.
fn with_fault(fault: &'static Fault, count: u64) -> (u64, u64) {
    let mut lists = Lists::with_output_of(MADE);
    let mut due = (0, 0);
    for number in 0..count {
        let rng = &mut Rng::new(number);
        let draft = gaps::sought(rng);
        let texts = forms::damaged(rng, &draft, &[fault]);
        if forms::affordable(&texts) {
            let answer = PLAIN_IMPORT(&texts, &mut lists, Lengths::EXACT, MADE);
            due.0 += u64::from(answer.number == fault.number);
            due.1 += u64::from(answer.number == 0);
        }
    }
    due
}

#[test]
fn each_fault_has_its_number() {
    for fault in FAULTS {
        let (refused, accepted) = with_fault(fault, 300);
        println!("{}: {refused} of 300 have number {}, {accepted} are accepted", fault.name, fault.number);
        assert!(refused >= 40, "{}: {refused}", fault.name);
    }
}

#[test]
fn inputs_are_of_all_sorts() {
    let inputs = Inputs::new(6);
    let mut lists = Lists::with_output_of(MADE);
    let mut answers = std::collections::BTreeMap::new();
    for number in 0..6_000 {
        let texts = inputs.form(&mut inputs.rng(number));
        let answer = PLAIN_IMPORT(&texts, &mut lists, Lengths::EXACT, MADE);
        *answers.entry((answer.number, if answer.number < 17 { 0 } else { answer.item })).or_insert(0) += 1;
    }
    println!("{answers:?}");
    assert!(answers[&(0, 0)] >= 2_000);
    for sort in [(3, 0), (4, 0), (5, 0), (6, 0), (7, 0), (15, 0), (16, 0), (17, 0), (17, 1), (18, 0), (18, 1), (19, 0)]
    {
        assert!(answers[&sort] >= 20, "{sort:?}");
    }
    assert!(answers.contains_key(&(2, 0)));
    // What finding can't refuse of a tree that is made.
    assert!(answers.keys().all(|(number, _)| ![8, 9, 20, 21, 22].contains(number)));
}
