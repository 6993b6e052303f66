//! The commands that put something out: a call, its answer and words on standard error, its output in a file or on standard output.

use crate::calls::{refused, Lists};
use crate::case::members;
use crate::explain;
use crate::files;
use crate::judge::{judge, Spot};
use crate::labels::Labels;
use crate::options::{Command, Options};
use crate::words::Words;
use cuecheck::{Node, Set, WORDS};
use std::fmt::Write;

/// What a command comes to.
pub enum Outcome {
    /// The answer, more lines beside it, and the output.
    Accepted {
        answer: String,
        beside: Vec<String>,
        output: Vec<u8>,
    },
    Refused {
        spot: Spot,
        words: Words,
    },
}

/// Runs a command on its files; true if the case was accepted.
pub fn run(options: &Options) -> Result<bool, String> {
    files::apart(options.output.as_ref(), options.inputs())?;
    let outcome = match options.command {
        Command::Import => import(options)?,
        _ => on_one_file(options)?,
    };
    match outcome {
        Outcome::Accepted { answer, beside, output } => {
            files::put_out(options.output.as_ref(), &output)?;
            tell(&answer, &beside);
            Ok(true)
        }
        Outcome::Refused { spot, words } => {
            let lines = if options.quiet { Vec::new() } else { words.lines(spot.0) };
            tell(&refused(spot), &lines);
            Ok(false)
        }
    }
}

fn tell(answer: &str, lines: &[String]) {
    eprintln!("{answer}");
    for line in lines {
        eprintln!("{line}");
    }
}

fn on_one_file(options: &Options) -> Result<Outcome, String> {
    let text = files::read_case(&options.files[0])?;
    let names = options.names.as_deref().map(files::read_all).transpose()?;
    let labels = explain::labels(&judge(&text), names.as_deref()).map_err(|lines| lines.join("\n"))?;
    let mut lists = Lists::default();
    Ok(match options.command {
        Command::Replay => replay(&text, &mut lists, &labels),
        Command::Gaps => gaps(&text, &mut lists, &labels),
        _ => write(&text, &mut lists, &labels),
    })
}

fn replay(text: &[u8], lists: &mut Lists, labels: &Labels) -> Outcome {
    let reply = lists.replay(text);
    let spot = (reply.number, reply.line, reply.item);
    if reply.number != 0 {
        return Outcome::Refused { spot, words: explain::replayed(spot, &judge(text), labels) };
    }
    let rows = lists.states.chunks_exact(WORDS).take(reply.cues as usize + 1);
    let mut output = String::new();
    for (number, row) in rows.enumerate() {
        let members = members(&Set::try_from(row).unwrap_or_default());
        let _ = write!(output, "S,{number},{}", members.len());
        for p in members {
            let _ = write!(output, ",{p}");
        }
        output.push('\n');
    }
    Outcome::Accepted { answer: format!("Y,{},{}", reply.cues, reply.nodes), beside: Vec::new(), output: output.into() }
}

fn write(text: &[u8], lists: &mut Lists, labels: &Labels) -> Outcome {
    let reply = lists.write(text);
    let spot = (reply.number, reply.line, reply.item);
    if reply.number != 0 {
        return Outcome::Refused { spot, words: explain::checked(spot, &judge(text), labels) };
    }
    let output = lists.output[..reply.length as usize].to_vec();
    Outcome::Accepted { answer: format!("Y,{},{},{}", reply.cues, reply.nodes, reply.length), beside: Vec::new(), output }
}

fn gaps(text: &[u8], lists: &mut Lists, labels: &Labels) -> Outcome {
    let reply = lists.find_gaps(text);
    let spot = (reply.number, reply.line, reply.item);
    let judged = judge(text);
    if reply.number != 0 {
        return Outcome::Refused { spot, words: explain::found(spot, judged, text.len(), labels) };
    }
    let found = gaps_found(&lists.nodes[..reply.nodes as usize], judged.case.node_line(0));
    let output = found.iter().map(|line| format!("{line}\n")).collect::<String>().into();
    Outcome::Accepted { answer: format!("Y,{},{},{}", reply.cues, reply.nodes, reply.tried), beside: Vec::new(), output }
}

fn import(options: &Options) -> Result<Outcome, String> {
    let [text, names, form] = &options.files[..] else { return Err("it takes three files: CASE NAMES FORM".into()) };
    let (text, names, form) = (files::read_case(text)?, files::read_all(names)?, files::read_all(form)?);
    let mut lists = Lists::default();
    let reply = lists.import(&text, &names, &form);
    let spot = (reply.number, reply.line, reply.item);
    if reply.number != 0 {
        return Ok(Outcome::Refused { spot, words: explain::imported(spot, &text, &names, &form) });
    }
    let output = lists.output[..reply.length as usize].to_vec();
    let beside = gaps_found(&lists.nodes[..reply.nodes as usize], judge(&output).case.node_line(0));
    Ok(Outcome::Accepted { answer: format!("Y,{},{},{},{}", reply.cues, reply.nodes, reply.tried, reply.length), beside, output })
}

/// Each empty task's line, as it should stand.
fn gaps_found(nodes: &[Node], first_line: u32) -> Vec<String> {
    let lines = (first_line..).zip(nodes).filter(|(_, node)| node.letter == 2);
    lines.map(|(line, node)| format!("line {line}: E,{},{}", node.label, node.place)).collect()
}
