//! Name lists and plan forms, against the clear rendering of the import call; and the words of some faults.

use cues::case::{self, Case, Unread};
use cues::form;
use cues::names::{self, Names};
use harness::compare::PLAIN_IMPORT;
use harness::gen::forms::Texts;
use harness::gen::{Inputs, Rng};
use harness::lists::{Lengths, Lists, MADE};
use harness::plain::find_gaps;
use std::collections::BTreeMap;

const CASE: &[u8] = include_bytes!("../../../crates/cuecheck/stdin");
const NAMES: &[u8] = include_bytes!("../../../examples/panel.names");
const FORM: &[u8] = include_bytes!("../../../examples/panel.form");

/// How often each number came up, with its item where that tells the name list from the form.
type Counts = BTreeMap<(u32, u32), u32>;

// ---------------------------------------------------------------- against the clear rendering

#[test]
fn generated_inputs_agree() {
    let inputs = Inputs::new(6);
    let mut lists = Lists::with_output_of(MADE);
    let mut counts = Counts::new();
    for number in 0..5_000 {
        compare(&inputs.form(&mut inputs.rng(number)), &mut lists, &mut counts);
    }
    println!("{counts:?}");
    for (key, least) in [((17, 0), 100), ((17, 1), 100), ((18, 0), 100), ((18, 1), 100), ((19, 0), 100), ((0, 0), 1_000)] {
        assert!(counts.get(&key) >= Some(&least), "{key:?} in {counts:?}");
    }
}

/// Every byte of the panel's name list and of its form changed, dropped or put in.
#[test]
fn single_bytes_agree() {
    let mut lists = Lists::with_output_of(MADE);
    let mut counts = Counts::new();
    for names in edits(NAMES) {
        compare(&Texts { case: CASE.into(), names, form: FORM.into() }, &mut lists, &mut counts);
    }
    for form in edits(FORM) {
        compare(&Texts { case: CASE.into(), names: NAMES.into(), form }, &mut lists, &mut counts);
    }
    println!("{counts:?}");
}

fn edits(text: &[u8]) -> Vec<Vec<u8>> {
    let bytes = b"\0\t\n\r ,-/019<=>ahorts~\x7f\x80\xff";
    let dropped = (0..text.len()).map(|at| [&text[..at], &text[at + 1..]].concat());
    let cut = (0..text.len()).map(|at| text[..at].to_vec());
    let pairs = || (0..text.len()).flat_map(|at| bytes.iter().map(move |&byte| (at, byte)));
    let changed = pairs().map(|(at, byte)| [&text[..at], &[byte], &text[at + 1..]].concat());
    let put_in = pairs().map(|(at, byte)| [&text[..at], &[byte], &text[at..]].concat());
    let behind = bytes.iter().map(|&byte| [text, &[byte]].concat());
    dropped.chain(cut).chain(changed).chain(put_in).chain(behind).collect()
}

/// Forms with few ids, drawn at random or for a tree of which then little is changed: 19 in all its ways.
#[test]
fn tangled_ids_agree() {
    let case = b"N,0,1,1,4,1,0,1\nI,0\nA,0,0,0,0\nM,1,0,0\nM,1,1,1,0\nM,1,2,1,0,0\nM,1,3,0,1,1,0\nP\nE,0,0\n";
    let names = b"0,a\n1,t\n0,m0\n1,m1\n2,m2\n3,m3\n";
    let mut lists = Lists::with_output_of(MADE);
    let mut counts = Counts::new();
    for seed in 0..20_000 {
        let form = tangle(&mut Rng::new(seed));
        compare(&Texts { case: case.to_vec(), names: names.to_vec(), form }, &mut lists, &mut counts);
    }
    println!("{counts:?}");
    // 6 is of the text made: a leaf where a compound task is due, or the other way round.
    assert!(counts[&(19, 0)] >= 5_000 && counts[&(6, 0)] >= 5_000 && counts[&(0, 0)] >= 1_000, "{counts:?}");
}

/// A form of up to five compound lines and the actions that go with them. Ids are handed out from 1 on, so that each is used
/// once; some are changed then.
fn tangle(rng: &mut Rng) -> Vec<u8> {
    let counts: Vec<usize> = (0..=rng.below(5)).map(|_| rng.below(4)).collect();
    let compounds = counts.len();
    let total = compounds.max(1 + counts.iter().sum::<usize>());
    let odd = *rng.pick(&[0, 0, 3, 10, 100]);
    let mut id = |id: usize| if rng.percent(odd) { rng.below(9) } else { id };
    let mut form = String::from("==>\n");
    for cue in compounds..total {
        form += &format!("{} a\n", id(cue));
    }
    form += &format!("root {}\n", id(0));
    let mut given = 0;
    for (number, &count) in counts.iter().enumerate() {
        let subtasks: String = (given + 1..=given + count).map(|subtask| format!(" {}", id(subtask))).collect();
        form += &format!("{} t -> m{count}{subtasks}\n", id(number));
        given += count;
    }
    (form + "<==\n").into_bytes()
}

/// Forms of about 3,000 action and compound lines together.
#[test]
fn the_line_too_many() {
    let case = b"N,0,1,1,2,1,0,1\nI,0\nA,0,0,0,0\nM,1,0,0\nM,1,1,1,0\nP\nE,0,0\n";
    let names = b"0,a\n1,t\n0,end\n1,on\n";
    let mut lists = Lists::with_output_of(MADE);
    let mut counts = Counts::new();
    let pairs = [(0, 2_999), (0, 3_000), (0, 3_001), (1, 2_999), (1, 3_000), (2_999, 1), (3_000, 0), (3_000, 1), (3_001, 0)];
    for (cues, compounds) in pairs {
        let actions: String = (0..cues).map(|id| format!("{} a\n", 9_000 + id)).collect();
        let chain: String = (1..compounds).map(|id| format!("{} t -> on {id}\n", id - 1)).collect();
        let last = if compounds > 0 { format!("{} t -> end\n", compounds - 1) } else { String::new() };
        let form = format!("==>\n{actions}root 0\n{chain}{last}<==\n").into_bytes();
        compare(&Texts { case: case.to_vec(), names: names.to_vec(), form }, &mut lists, &mut counts);
    }
    // Too many is said ahead of a name that isn't listed.
    for front in [format!("{}5 x\nroot 0\n", "4 a\n".repeat(3_000)), format!("{}root 0\n5 x -> y\n", "4 a\n".repeat(3_000))] {
        let form = format!("==>\n{front}<==\n").into_bytes();
        compare(&Texts { case: case.to_vec(), names: names.to_vec(), form }, &mut lists, &mut counts);
    }
    assert_eq!(counts, Counts::from([((7, 0), 2), ((17, 0), 6), ((19, 0), 3)]));
}

/// The same answer as the clear rendering's, and the same text.
fn compare(texts: &Texts, lists: &mut Lists, counts: &mut Counts) {
    let answer = PLAIN_IMPORT(texts, lists, Lengths::EXACT, MADE);
    let told = (answer.number, answer.line, answer.item);
    let kind = (answer.number, if matches!(answer.number, 17..=19) { answer.item } else { 0 });
    *counts.entry(kind).or_default() += 1;
    let shown = || String::from_utf8_lossy(&texts.shown()).into_owned();
    match ours(texts) {
        Err(fault) => {
            assert_eq!((fault.number, fault.line, fault.item), told, "{fault:?}\n{}", shown());
            marks_its_line(texts, &fault);
        }
        Ok(made) if answer.number == 0 => assert!(made == lists.output()[..answer.length as usize], "{}", shown()),
        Ok(made) if answer.number == 14 => assert_eq!(made.len(), answer.item as usize, "{}", shown()),
        Ok(made) => {
            let (states, nodes, work) = lists.lend(Lengths::EXACT);
            let found = find_gaps(&made, states, nodes, work);
            assert_eq!((found.number, found.line, found.item), told, "{}", shown());
        }
    }
}

fn ours(Texts { case, names, form }: &Texts) -> Result<Vec<u8>, Unread> {
    let (read, fault) = case::read(case);
    let (None, Some(header)) = (fault.clone(), read.header) else { return Err(fault.expect("a fault")) };
    let names = names::read(names, &header)?;
    form::made(case, &read, &names, form)
}

/// A fault has the bytes of the line that it names, and marks some of them or the place behind them.
fn marks_its_line(Texts { case, names, form }: &Texts, fault: &Unread) {
    let text = match (fault.number, fault.item) {
        (2, _) => return,
        (17.., 1) => names,
        (17.., _) => form,
        _ => case,
    };
    let line = text.split(|&byte| byte == b'\n').nth(fault.line as usize - 1).unwrap_or(b"");
    assert_eq!(fault.text, line, "{fault:?}");
    assert!(fault.mark.start < fault.mark.end && fault.mark.end <= line.len() + 1, "{fault:?}");
    assert!(!fault.wrong.is_empty() && !fault.due.is_empty(), "{fault:?}");
}

// ---------------------------------------------------------------- words

fn panel() -> Case {
    let (case, fault) = case::read(CASE);
    assert!(fault.is_none());
    case
}

fn panel_names() -> Names {
    names::read(NAMES, &panel().header.expect("a header")).expect("names")
}

fn replaced(text: &[u8], line: usize, by: &str) -> Vec<u8> {
    let mut lines: Vec<&[u8]> = text.split_inclusive(|&byte| byte == b'\n').collect();
    lines[line - 1] = by.as_bytes();
    lines.concat()
}

/// Number, line, item, what is marked, what is wrong and what was due.
type Told<'a> = ((u32, u32, u32), &'a str, &'a str, &'a str);

fn tells(fault: &Unread, ((number, line, item), marked, wrong, due): Told) {
    assert_eq!((fault.number, fault.line, fault.item), (number, line, item), "{fault:?}");
    let end = fault.mark.end.min(fault.text.len());
    let bytes = fault.text.get(fault.mark.start..end).unwrap_or(b"");
    assert_eq!(String::from_utf8_lossy(bytes), marked, "{fault:?}");
    assert_eq!((fault.wrong.as_str(), fault.due.as_str()), (wrong, due));
}

#[test]
fn the_panel_is_made() {
    let made = form::made(CASE, &panel(), &panel_names(), FORM).expect("a text");
    assert_eq!(String::from_utf8_lossy(&made), String::from_utf8_lossy(CASE));
    assert_eq!(made.len(), 150);
}

#[test]
fn the_words_for_a_name_list() {
    let task = "a line for task 2: `2,` and a name";
    let (first, again) =
        ("the name `load` stands for task 1 already, on line 2", "the name `whole` stands for method 0 already, on line 6");
    let name = "a line for task 2: `2,` and a name; a name has bytes 33 to 126, but no comma";
    let faults: [(usize, &str, Told); 11] = [
        (3, "2,load\n", ((18, 3, 1), "load", first, "a name that no other task has")),
        (7, "1,whole\n", ((18, 7, 1), "whole", again, "a name that no other method has")),
        (6, "5,whole\n", ((17, 6, 1), "5", "another number than is due here", "a line for method 0: `0,` and a name")),
        (3, "02,take\n", ((17, 3, 1), "02", "a number with a leading zero", task)),
        (3, "take,2\n", ((17, 3, 1), "take", "not a plain number", task)),
        (3, "2\n", ((17, 3, 1), "", "a field is missing", task)),
        (3, "2,\n", ((17, 3, 1), "", "an empty field", task)),
        (3, "\n", ((17, 3, 1), "", "an empty line", task)),
        (3, "2,take\r\n", ((17, 3, 1), "take\r", "a name with a carriage return", name)),
        (3, "2,take,air\n", ((17, 3, 1), "air", "a surplus field", "the end of the line, after the name")),
        (8, "2,as-is", ((17, 8, 1), "", "the line has no line feed", "a line for method 2: `2,` and a name")),
    ];
    let header = panel().header.expect("a header");
    for (line, by, told) in faults {
        tells(&names::read(&replaced(NAMES, line, by), &header).expect_err(by), told);
    }
    let over = names::read(b"", &header).expect_err("no line");
    tells(&over, ((17, 1, 1), "", "the text is over", "a line for task 0: `0,` and a name"));
    let surplus = names::read(&[NAMES, b"3,more\n"].concat(), &header).expect_err("a line more");
    tells(&surplus, ((17, 9, 1), "3,more", "a surplus line", "the end of the text: the case has no more tasks and methods"));
}

fn each_form(faults: &[(usize, &str, Told)]) {
    for &(line, by, told) in faults {
        tells(&form::made(CASE, &panel(), &panel_names(), &replaced(FORM, line, by)).expect_err(by), told);
    }
}

#[test]
fn the_words_for_shapes() {
    let front = "an action line, `id name`, or the root line, `root id`";
    let back = "a compound line, `id task -> method` and an id for each subtask, or `<==`";
    let only_actions = "the end of the line: ahead of the root line stand only action lines, `id name`";
    let only_compounds = "`->`: after the root line stand only compound lines, `id task -> method` and the subtasks' ids";
    let spaces = "an empty word: two spaces, or one at an end of the line";
    let subtask = "a subtask's id, or the end of the line";
    let over = "a number over 4,294,967,295";
    each_form(&[
        (1, "=>\n", ((17, 1, 0), "=>", "another word than is due here", "`==>`, the first line")),
        (3, "take\n", ((17, 3, 0), "take", "not a plain number", front)),
        (3, "2\n", ((17, 3, 0), "", "a word is missing", "the action's name")),
        (4, "root  0\n", ((17, 4, 0), " ", spaces, "the root's id")),
        (4, "root 0 3\n", ((17, 4, 0), "3", "a surplus word", "the end of the line: there is one root")),
        (4, "", ((17, 4, 0), "->", "a surplus word", only_actions)),
        (5, "3 load\n", ((17, 5, 0), "", "a word is missing", only_compounds)),
        (5, "root 0\n", ((17, 5, 0), "root", "not a plain number", back)),
        (5, "0 panel -> whole 3 1 2 \n", ((17, 5, 0), "", spaces, subtask)),
        (5, "0 panel -> whole 3 1 4294967296\n", ((17, 5, 0), "4294967296", over, subtask)),
        (7, "", ((17, 7, 0), "", "the text is over", back)),
        (7, "<==\n<==\n", ((17, 8, 0), "<==", "a surplus line", "the end of the text, after `<==`")),
    ]);
}

#[test]
fn the_words_for_names() {
    let count = "3, as many as method 0, `whole`, has subtasks";
    let (action, another) =
        ("the name `load` stands for task 1, an action", "the name `whole` stands for method 0, which is one of task 3");
    each_form(&[
        (3, "2 panel\n", ((18, 3, 0), "panel", "the name `panel` stands for task 3, a compound task", "an action's name")),
        (3, "2 go\n", ((18, 3, 0), "go", "no task has the name `go`", "an action's name")),
        (5, "0 load -> whole 3 1 2\n", ((18, 5, 0), "load", action, "a compound task's name")),
        (5, "0 panel -> half 3 1 2\n", ((18, 5, 0), "half", "no method has the name `half`", "a method's name")),
        (6, "3 in-km/h -> whole\n", ((18, 6, 0), "whole", another, "the name of a method of task 4")),
        (5, "0 panel -> whole 3 1\n", ((18, 5, 0), "", "2 subtask ids", count)),
        (5, "0 panel -> whole 3 1 2 40 5\n", ((18, 5, 0), "40", "5 subtask ids", count)),
        (6, "3 in-km/h -> as-is 7\n", ((18, 6, 0), "7", "1 subtask id", "0, as many as method 2, `as-is`, has subtasks")),
    ]);
}

#[test]
fn the_words_for_ids() {
    let root = "a root that is no line's subtask";
    let once = "an id that is a subtask once";
    let own = "an id that one line defines";
    let used = "the id of an action line or of a compound line";
    each_form(&[
        (3, "1 take\n", ((19, 2, 0), "1", "id 1 is defined twice, on lines 2 and 3", own)),
        (6, "2 in-km/h -> as-is\n", ((19, 3, 0), "2", "id 2 is defined twice, on lines 3 and 6", own)),
        (5, "0 panel -> whole 3 1 1\n", ((19, 2, 0), "1", "id 1 stands twice among the subtasks, on line 5", once)),
        (6, "3 in-km/h -> by-convert 2\n", ((19, 3, 0), "2", "id 2 stands twice among the subtasks, on lines 5 and 6", once)),
        (6, "3 in-km/h -> by-convert 0\n", ((19, 5, 0), "0", "id 0 is the root's, and a subtask on line 6", root)),
        (5, "0 panel -> whole 70 1 2\n", ((19, 5, 0), "70", "no line defines id 70", used)),
    ]);
    each_unreached(&[
        (4, "9 take\nroot 0\n", 4, "9", "it is no line's subtask"),
        (4, "9 take\nroot 0\n8 in-km/h -> by-convert 9\n", 4, "9", "it is a subtask on line 6, which isn't reached either"),
        (6, "3 in-km/h -> as-is\n8 in-km/h -> by-convert 8\n", 7, "8", "it is a subtask of its own line"),
        (4, "root 70\n", 2, "1", "no line defines the root's id, 70"),
    ]);
    let empty = form::made(CASE, &panel(), &panel_names(), b"==>\nroot 12\n<==\n").expect_err("no root");
    tells(&empty, ((19, 2, 0), "12", "no line defines id 12", used));
}

fn each_unreached(faults: &[(usize, &str, u32, &str, &str)]) {
    for &(line, by, told, id, why) in faults {
        let wrong = format!("id {id} isn't reached from the root: {why}");
        each_form(&[(line, by, ((19, told, 0), id, &wrong, "an id that the root leads to through subtasks"))]);
    }
}

/// Long names are cut in the words, and a long line is read in one go.
#[test]
fn long_lines() {
    let name = "x".repeat(1_000_000);
    let form = replaced(FORM, 3, &format!("2 {name}\n"));
    let fault = form::made(CASE, &panel(), &panel_names(), &form).expect_err("a long name");
    assert_eq!(fault.wrong, format!("no task has the name `{}`..", &name[..60]));
    let form = replaced(FORM, 5, &format!("0 panel -> whole{}\n", " 1".repeat(1_000_000)));
    let fault = form::made(CASE, &panel(), &panel_names(), &form).expect_err("many ids");
    assert_eq!((fault.number, fault.line, fault.wrong.as_str()), (18, 5, "1000000 subtask ids"));
}
