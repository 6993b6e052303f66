//! The program as it is run: answers, words for every number that it can answer, statuses, files.

use std::collections::BTreeMap;
use std::fs;
use std::io::Write;
use std::path::{Path, PathBuf};
use std::process::{Command, Output, Stdio};

fn top() -> PathBuf {
    Path::new(env!("CARGO_MANIFEST_DIR")).join("../..")
}

fn cues(words: &[&str]) -> Output {
    Command::new(env!("CARGO_BIN_EXE_cues")).args(words).output().expect("cues runs")
}

fn out(output: &Output) -> String {
    String::from_utf8(output.stdout.clone()).expect("text")
}

fn err(output: &Output) -> String {
    String::from_utf8(output.stderr.clone()).expect("text")
}

fn status(output: &Output) -> i32 {
    output.status.code().expect("a status")
}

/// A file of the repository, as an argument.
fn file(path: &str) -> String {
    top().join(path).to_str().expect("a path").into()
}

/// A new folder for a test's own files.
fn folder(name: &str) -> PathBuf {
    let folder = std::env::temp_dir().join(format!("cues-{name}-{}", std::process::id()));
    let _ = fs::remove_dir_all(&folder);
    fs::create_dir_all(&folder).expect("a folder");
    folder
}

/// The panel case with one line replaced.
fn panel_with(line: usize, text: &str) -> Vec<u8> {
    let panel = fs::read_to_string(top().join("crates/cuecheck/stdin")).expect("the panel case");
    let mut lines: Vec<&str> = panel.lines().collect();
    lines[line - 1] = text;
    (lines.join("\n") + "\n").into()
}

/// The first stored case of each answer, by number; the words ahead of the answer are files and lengths.
fn stored(program: &str) -> BTreeMap<u32, (Vec<String>, String)> {
    let lines = fs::read_to_string(top().join("crates").join(program).join("stdout")).expect("stored answers");
    let mut first = BTreeMap::new();
    for line in lines.lines() {
        let words: Vec<&str> = line.split(' ').collect();
        let Some(number) = words.last().and_then(|answer| answer.strip_prefix("R,")).and_then(|rest| rest.split(',').next())
        else {
            continue;
        };
        let files = words.iter().filter(|word| word.contains('.')).map(|name| file(&format!("crates/{program}/data/{name}")));
        // Lists shorter than asked are another matter: the tool lends enough.
        if let Ok(number @ 2..) = number.parse::<u32>() {
            first.entry(number).or_insert((files.collect(), words[words.len() - 1].to_string()));
        }
    }
    first
}

// ---------------------------------------------------------------- words

/// What the words of a number have to tell.
fn due(number: u32) -> &'static [&'static str] {
    match number {
        2 => &["more than 65,535 bytes"],
        3 => &["line ", "expected: ", " | ", "^"],
        4 => &["line ", ", field ", "expected: ", "^"],
        5 => &["cue ", "missing: ", "forbidden: ", "state "],
        6..=8 | 20..=22 => &["the node's path:", "  line ", "expected: ", "stands there: "],
        9 => &["expected: a leaf at position ", "stands there: no"],
        10 => &["the node's path:", "constraint ", ": O,", " stands ", "so f = ", "so c = ", "tried: f < c; broken: "],
        11 => &["the node's path:", "constraint ", " stands ", "so c = ", "tried in state ", "first broken in state "],
        12 => &["the node's path:", "constraint ", " stands ", "so f = ", "tried in state ", "first broken in state "],
        13 => &["the node's path:", "constraint ", " stands ", "so f = ", "so c = ", "tried in state", "first broken in state "],
        15 => &["gaps for each of ", "empty task"],
        16 => &["choice", "each broken; first broken:"],
        _ => &["line ", "expected: ", " | ", "^"],
    }
}

fn assert_words(number: u32, said: &str) {
    assert!(said.contains(&format!("rule {number}: ")), "{said}");
    for words in due(number) {
        assert!(said.contains(words), "`{words}` is missing for {number}:\n{said}");
    }
}

#[test]
fn words_for_every_number_of_check() {
    let first = stored("vectors");
    let numbers: Vec<u32> = first.keys().copied().collect();
    assert_eq!(numbers, [2, 3, 4, 5, 6, 7, 8, 9, 10, 11, 12, 13, 20, 21, 22]);
    for (number, (files, answer)) in first {
        let output = cues(&["check", &files[0]]);
        let said = out(&output);
        assert_eq!(status(&output), 1);
        assert_eq!(said.lines().next(), Some(answer.as_str()));
        assert_words(number, &said);
    }
}

#[test]
fn words_for_the_numbers_of_gaps_and_import() {
    let gaps = stored("gapsvectors");
    for number in [15, 16] {
        let (files, answer) = &gaps[&number];
        let output = cues(&["gaps", &files[0]]);
        assert_eq!((status(&output), out(&output).as_str()), (1, ""));
        assert_eq!(err(&output).lines().next(), Some(answer.as_str()));
        assert_words(number, &err(&output));
    }
    let imports = stored("importvectors");
    for number in [3, 4, 17, 18, 19] {
        let (files, answer) = &imports[&number];
        let output = cues(&["import", &files[0], &files[1], &files[2]]);
        assert_eq!((status(&output), out(&output).as_str()), (1, ""));
        assert_eq!(err(&output).lines().next(), Some(answer.as_str()));
        assert_words(number, &err(&output));
        assert!(err(&output).contains("\nin the "), "{}", err(&output));
    }
}

#[test]
fn a_broken_between_word_for_word() {
    let output = cues(&["check", &file("examples/refused.case"), "--names", &file("examples/panel.names")]);
    let due = "\
R,13,14,2
rule 13: a condition between is broken
the node's path:
  line 14: the root, panel, by method whole
constraint 2 of its method, line 9: W,1,0,4
  between subtask 0 (in-km/h) and subtask 2 (take): proposition 0 is true in each state
  subtask 0 (in-km/h) stands in gap 0 (doubled 1), so f = 0
  subtask 2 (take) stands at cue 2 (doubled 4), so c = 2
tried in states 0 and 1 (in gaps 0 and 1)
first broken in state 0 (in gap 0): proposition 0 is false
";
    assert_eq!((out(&output).as_str(), err(&output).as_str(), status(&output)), (due, "", 1));
}

#[test]
fn a_field_marked_under_its_line() {
    let folder = folder("marked");
    for (line, text, due) in [
        (2, "I,1,00", "line 2, field 3: a number with a leading zero\nexpected: a proposition that is true at the start\n  2 | I,1,00\n    |     ^^\n"),
        (2, "I,1,3", "line 2, field 3: outside its range\nexpected: a proposition that is true at the start, 0 to 2\n  2 | I,1,3\n    |     ^\n"),
        (13, "P,1", "line 13, field 3: a field is missing\nexpected: the action of cue 2\n  13 | P,1\n     |    ^\n"),
        (15, "E\t,2", "line 15, field 1: another letter than is due here\nexpected: D, E or L, for a node\n  15 | E\\t,2\n     | ^^^\n"),
    ] {
        let path = folder.join("marked.case");
        fs::write(&path, panel_with(line, text)).expect("a case");
        let said = out(&cues(&["check", path.to_str().expect("a path")]));
        assert!(said.ends_with(due), "{said}");
    }
    let _ = fs::remove_dir_all(folder);
}

// ---------------------------------------------------------------- statuses and answers

#[test]
fn statuses() {
    let (yes, no) = (file("crates/cuecheck/stdin"), file("examples/refused.case"));
    for (words, due) in [
        (vec!["check", &yes], 0),
        (vec!["check", &yes, &yes], 0),
        (vec!["check", &yes, &no], 1),
        (vec!["check", &yes, "no such file"], 2),
        (vec!["check", &no, "no such file", &yes], 2),
        (vec!["check"], 2),
        (vec![], 2),
        (vec!["judge", &yes], 2),
        (vec!["check", "--loud", &yes], 2),
        (vec!["check", "-o", "x", &yes], 2),
        (vec!["check", "--json", "--quiet", &yes], 2),
        (vec!["check", "-", "-"], 2),
        (vec!["replay", &yes, &yes], 2),
        (vec!["import", &yes], 2),
        (vec!["view"], 2),
        (vec!["write", &yes, "-o"], 2),
        (vec!["help"], 0),
        (vec!["check", "--help"], 0),
        (vec!["replay", &no], 0),
        (vec!["write", &no], 1),
    ] {
        let output = cues(&words);
        assert_eq!(status(&output), due, "{words:?}: {}{}", out(&output), err(&output));
        assert!(due != 2 || err(&output).starts_with("cues: "), "{words:?}");
    }
}

#[test]
fn answers_of_many_files() {
    let (yes, no) = (file("crates/cuecheck/stdin"), file("examples/refused.case"));
    assert_eq!(out(&cues(&["check", "-q", &yes, &no, &yes])), "Y,2,4\nR,13,14,2\nY,2,4\n");
    let said = out(&cues(&["check", &yes, &no]));
    assert!(said.starts_with(&format!("==> {yes} <==\nY,2,4\n==> {no} <==\nR,13,14,2\nrule 13: ")), "{said}");
}

#[test]
fn answers_of_all_stored_cases_as_cuecheck_prints_them() {
    let lines = fs::read_to_string(top().join("crates/vectors/stdout")).expect("stored answers");
    let (names, answers): (Vec<&str>, Vec<&str>) = lines.lines().filter_map(|line| line.split_once(' ')).unzip();
    assert!(names.len() > 1_000);
    let files: Vec<String> = names.iter().map(|name| file(&format!("crates/vectors/data/{name}"))).collect();
    let words: Vec<&str> = ["check", "--quiet"].into_iter().chain(files.iter().map(String::as_str)).collect();
    let output = cues(&words);
    assert_eq!(out(&output).lines().collect::<Vec<_>>(), answers);
    assert_eq!(status(&output), 1);
}

#[test]
fn a_line_of_json_for_each_file() {
    let (yes, no) = (file("crates/cuecheck/stdin"), file("examples/refused.case"));
    let output = cues(&["check", "--json", &yes, &no, "no such file"]);
    assert_eq!(status(&output), 2);
    let said = out(&output);
    let lines: Vec<&str> = said.lines().collect();
    let [first, second, third] = lines[..] else { panic!("{said}") };
    let accepted = r#""answer":"Y,2,4","accepted":true,"cues":2,"nodes":4,"number":0,"line":0,"item":0,"rule":"","explained":true,"words":[]}"#;
    assert_eq!(first, format!("{{\"file\":\"{yes}\",{accepted}"));
    let refused = r#""answer":"R,13,14,2","accepted":false,"cues":0,"nodes":0,"number":13,"line":14,"item":2,"rule":"a condition between is broken","explained":true,"words":["rule 13: "#;
    assert!(second.starts_with(&format!("{{\"file\":\"{no}\",{refused}")), "{second}");
    assert!(third.starts_with(r#"{"file":"no such file","error":""#), "{third}");
}

#[test]
fn standard_input() {
    let mut child = Command::new(env!("CARGO_BIN_EXE_cues"))
        .args(["check", "-q", "-"])
        .stdin(Stdio::piped())
        .stdout(Stdio::piped())
        .spawn()
        .expect("cues runs");
    child.stdin.take().expect("a pipe").write_all(&panel_with(2, "I,0")).expect("written");
    assert_eq!(out(&child.wait_with_output().expect("an end")), "R,13,14,2\n");
}

#[test]
fn a_name_list_that_does_not_go_with_the_case() {
    let folder = folder("names");
    let names = folder.join("short.names");
    fs::write(&names, "0,convert\n1,load\n").expect("a name list");
    let (names, no) = (names.to_str().expect("a path"), file("examples/refused.case"));
    let output = cues(&["check", "--names", names, &no]);
    assert_eq!(status(&output), 2);
    assert!(out(&output).starts_with("R,13,14,2\nrule 13: "), "the verdict stands: {}", out(&output));
    assert!(err(&output).contains("line 3: the text is over"), "{}", err(&output));
    for command in ["view", "write", "gaps", "replay"] {
        let output = cues(&[command, "--names", names, &no]);
        assert_eq!((status(&output), out(&output).as_str()), (2, ""));
    }
    let _ = fs::remove_dir_all(folder);
}

// ---------------------------------------------------------------- outputs

#[test]
fn outputs_of_the_other_calls() {
    let (panel, gaps) = (file("examples/panel.case"), file("examples/gaps.case"));
    let (names, form) = (file("examples/panel.names"), file("examples/panel.form"));
    let replayed = cues(&["replay", &panel]);
    assert_eq!((out(&replayed).as_str(), err(&replayed).as_str()), ("S,0,1,0\nS,1,2,0,1\nS,2,2,0,2\n", "Y,2,4\n"));
    let written = cues(&["write", &panel]);
    assert_eq!(
        (out(&written), err(&written)),
        (fs::read_to_string(top().join("crates/cuecheck/stdin")).expect("the panel case"), "Y,2,4,150\n".into())
    );
    let found = cues(&["gaps", &gaps]);
    assert_eq!((out(&found).as_str(), err(&found).as_str()), ("line 15: E,2,1\n", "Y,2,4,2\n"));
    let made = cues(&["import", &panel, &names, &form]);
    assert_eq!(status(&made), 0);
    assert!(out(&made).ends_with("P,1,2\nD,0\nE,2,0\nL,1,1\nL,2,2\n"), "{}", out(&made));
    assert!(err(&made).starts_with("Y,2,4,1,"), "{}", err(&made));
}

#[test]
fn nothing_is_written_over_an_input() {
    let folder = folder("over");
    let path = folder.join("panel.case");
    fs::copy(file("examples/panel.case"), &path).expect("a case");
    std::os::unix::fs::symlink(&path, folder.join("link")).expect("a link");
    fs::hard_link(&path, folder.join("hard")).expect("a link");
    let before = fs::read(&path).expect("the case");
    let path = path.to_str().expect("a path");
    for over in ["panel.case", "./panel.case", "link", "hard"] {
        for command in ["write", "view", "replay", "gaps"] {
            let over = folder.join(over);
            let output = cues(&[command, path, "-o", over.to_str().expect("a path")]);
            assert_eq!(status(&output), 2, "{command} over {}", over.display());
            assert_eq!(fs::read(path).expect("the case"), before);
        }
    }
    let names = file("examples/panel.names");
    let (own_names, own_form) = (folder.join("names"), folder.join("form"));
    fs::copy(&names, &own_names).expect("a name list");
    fs::copy(file("examples/panel.form"), &own_form).expect("a form");
    for over in [&own_names, &own_form] {
        let [names, form, over] = [&own_names, &own_form, over].map(|path| path.to_str().expect("a path"));
        assert_eq!(status(&cues(&["import", path, names, form, "-o", over])), 2);
    }
    assert_eq!(fs::read(&own_names).expect("the names"), fs::read(names).expect("the names"));
    let other = folder.join("tidy.case");
    assert_eq!(status(&cues(&["write", path, "-o", other.to_str().expect("a path")])), 0);
    assert_eq!(fs::read(&other).expect("the tidy text"), fs::read(file("crates/cuecheck/stdin")).expect("the panel case"));
    let _ = fs::remove_dir_all(folder);
}

#[test]
fn a_refusal_leaves_no_output() {
    let folder = folder("refused");
    let output = folder.join("tidy.case");
    let said = cues(&["write", &file("examples/refused.case"), "-o", output.to_str().expect("a path")]);
    assert_eq!((status(&said), output.exists()), (1, false));
    let _ = fs::remove_dir_all(folder);
}
