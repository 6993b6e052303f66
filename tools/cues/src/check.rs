//! `cues check`: file after file, the answer and, refused, the spot in words.

use crate::calls::{refused, Lists};
use crate::explain;
use crate::files;
use crate::json::{object, string, strings};
use crate::judge::{judge, Spot};
use crate::options::Options;
use std::io::{self, IsTerminal, Write};
use std::path::Path;
use std::time::{Duration, Instant};

/// What came of the files so far.
#[derive(Default)]
pub struct Count {
    pub accepted: usize,
    pub refused: usize,
    pub unread: usize,
}

impl Count {
    pub fn status(&self) -> u8 {
        match (self.unread, self.refused) {
            (0, 0) => 0,
            (0, _) => 1,
            _ => 2,
        }
    }

    fn words(&self) -> String {
        let all = self.accepted + self.refused + self.unread;
        let unread = if self.unread > 0 { format!(", {} not read", self.unread) } else { String::new() };
        format!("{all} files: {} accepted, {} refused{unread}", self.accepted, self.refused)
    }
}

/// A case's answer, and the words for it.
pub struct Answer {
    pub cues: u32,
    pub nodes: u32,
    /// Number 0: accepted.
    pub spot: Spot,
    pub rule: &'static str,
    /// As they are printed under a refusal.
    pub words: Vec<String>,
    pub explained: bool,
    /// Why the name list doesn't go with the case.
    pub names: Option<Vec<String>>,
}

impl Answer {
    pub fn text(&self) -> String {
        match self.spot.0 {
            0 => format!("Y,{},{}", self.cues, self.nodes),
            _ => refused(self.spot),
        }
    }
}

/// Judges a text by the proved call; the words, and whether the name list fits, are looked for only if they are wanted.
pub fn answer(text: &[u8], lists: &mut Lists, names: Option<&[u8]>, worded: bool) -> Answer {
    let reply = lists.check(text);
    let spot = (reply.number, reply.line, reply.item);
    let mut answer =
        Answer { cues: reply.cues, nodes: reply.nodes, spot, rule: "", words: Vec::new(), explained: true, names: None };
    if !worded || (reply.number == 0 && names.is_none()) {
        return answer;
    }
    let judged = judge(text);
    let labels = explain::labels(&judged, names).unwrap_or_else(|wrong| {
        answer.names = Some(wrong);
        crate::labels::Labels::new(&judged.case, None)
    });
    if reply.number != 0 {
        let words = explain::checked(spot, &judged, &labels);
        (answer.rule, answer.explained, answer.words) = (words.rule, words.details.is_some(), words.lines(reply.number));
    }
    answer
}

/// Judges every file in turn.
pub fn run(options: &Options) -> Result<Count, String> {
    let names = options.names.as_deref().map(files::read_all).transpose()?;
    let (mut lists, mut count) = (Lists::default(), Count::default());
    let mut out = io::BufWriter::new(io::stdout().lock());
    let mut progress = Progress::new(options.files.len());
    for file in &options.files {
        let printed = match files::read_case(file) {
            Ok(text) => {
                let answer = answer(&text, &mut lists, names.as_deref(), !options.quiet);
                tally(&mut count, file, &answer);
                print(&mut out, options, file, &answer)
            }
            Err(error) => {
                count.unread += 1;
                progress.clear();
                eprintln!("cues: {error}");
                if options.json {
                    writeln!(out, "{}", object(&[("file", string(&files::name(file))), ("error", string(&error))]))
                } else {
                    Ok(())
                }
            }
        };
        printed.map_err(|error| format!("standard output: {error}"))?;
        progress.show(&count);
    }
    out.flush().map_err(|error| format!("standard output: {error}"))?;
    progress.end(&count);
    Ok(count)
}

fn tally(count: &mut Count, file: &Path, answer: &Answer) {
    match answer.spot.0 {
        0 => count.accepted += 1,
        _ => count.refused += 1,
    }
    if let Some(wrong) = &answer.names {
        count.unread += 1;
        eprintln!("cues: the name list does not go with {}:\n{}", files::name(file), wrong.join("\n"));
    }
}

fn print(out: &mut impl Write, options: &Options, file: &Path, answer: &Answer) -> io::Result<()> {
    if options.json {
        return writeln!(out, "{}", line_of_json(&files::name(file), answer));
    }
    // As `head` does, so that each answer has its line to itself.
    if options.files.len() > 1 && !options.quiet {
        writeln!(out, "==> {} <==", files::name(file))?;
    }
    writeln!(out, "{}", answer.text())?;
    for line in &answer.words {
        writeln!(out, "{line}")?;
    }
    Ok(())
}

fn line_of_json(file: &str, answer: &Answer) -> String {
    let (number, line, item) = answer.spot;
    object(&[
        ("file", string(file)),
        ("answer", string(&answer.text())),
        ("accepted", (number == 0).to_string()),
        ("cues", answer.cues.to_string()),
        ("nodes", answer.nodes.to_string()),
        ("number", number.to_string()),
        ("line", line.to_string()),
        ("item", item.to_string()),
        ("rule", string(answer.rule)),
        ("explained", answer.explained.to_string()),
        ("words", strings(&answer.words)),
    ])
}

/// A count of many files on standard error, where that is a terminal.
struct Progress {
    files: usize,
    is_shown: bool,
    /// Answers on the same terminal tell how far it is.
    is_running: bool,
    last: Instant,
}

impl Progress {
    fn new(files: usize) -> Progress {
        let is_shown = files > 1 && io::stderr().is_terminal();
        Progress { files, is_shown, is_running: is_shown && !io::stdout().is_terminal(), last: Instant::now() }
    }

    fn show(&mut self, count: &Count) {
        if self.is_running && self.last.elapsed() > Duration::from_millis(100) {
            self.last = Instant::now();
            eprint!("\r\x1b[K{} of {}", count.words(), self.files);
        }
    }

    fn clear(&self) {
        if self.is_running {
            eprint!("\r\x1b[K");
        }
    }

    fn end(&self, count: &Count) {
        self.clear();
        if self.is_shown {
            eprintln!("{}", count.words());
        }
    }
}
