//! Prints what the program of a folder of stored cases for the write call has to print, by the plain rendering: for each case
//! the five words of the folder's file `args`, the answer, and the text put out. Fails if the fast rendering says another thing.
//!
//! stored FOLDER

use harness::fast;
use harness::lists::{Dirt, Lengths, Lists};
use harness::plain::{self, Written};
use std::io::{Result, Write};
use std::path::PathBuf;

fn main() -> Result<()> {
    let folder = PathBuf::from(std::env::args_os().nth(1).expect("a folder"));
    let args = std::fs::read_to_string(folder.join("args"))?;
    let words: Vec<&str> = args.lines().collect();
    let (mut ours, mut theirs) = (Lists::with_output(), Lists::with_output());
    let mut out = std::io::stdout().lock();
    for case in words.chunks(5) {
        let text = std::fs::read(folder.join("data").join(case[0]))?;
        let number = |at: usize| case[at].parse().expect("a length");
        let lengths = Lengths { states: number(2), nodes: number(3), work: number(4) };
        ours.soil(Dirt::Same(u32::MAX));
        theirs.soil(Dirt::Same(u32::MAX));
        let (states, nodes, work, output) = ours.lend_all(lengths, number(1));
        let written = plain::write(&text, states, nodes, work, output);
        let (states, nodes, work, output) = theirs.lend_all(lengths, number(1));
        assert_eq!(written, fast::write(&text, states, nodes, work, output), "{}", case[0]);
        assert_eq!(ours.first_difference(&theirs), None, "{}", case[0]);
        writeln!(out, "{} {}", case.join(" "), printed(written))?;
        out.write_all(&ours.output()[..written.length as usize])?;
    }
    Ok(())
}

fn printed(answer: Written) -> String {
    match answer {
        Written { number: 0, cues, nodes, length, .. } => format!("Y,{cues},{nodes},{length}"),
        Written { number, line, item, .. } => format!("R,{number},{line},{item}"),
    }
}
