//! Prints what the program of a folder of stored cases for the call that finds the gaps has to print, by the plain rendering: for each
//! case the four words of the folder's file `args`, the answer and, if it is accepted, a line with T and the five numbers of each
//! node's record. Fails if the fast rendering says another thing.
//!
//! stored_gaps FOLDER

use harness::fast;
use harness::lists::{Dirt, Lengths, Lists};
use harness::plain::{self, Found, Node};
use std::io::{Result, Write};
use std::path::PathBuf;

fn main() -> Result<()> {
    let folder = PathBuf::from(std::env::args_os().nth(1).expect("a folder"));
    let args = std::fs::read_to_string(folder.join("args"))?;
    let words: Vec<&str> = args.lines().collect();
    let (mut ours, mut theirs) = (Lists::default(), Lists::default());
    let mut out = std::io::stdout().lock();
    for case in words.chunks(4) {
        let text = std::fs::read(folder.join("data").join(case[0]))?;
        let number = |at: usize| case[at].parse().expect("a length");
        let lengths = Lengths { states: number(1), nodes: number(2), work: number(3) };
        ours.soil(Dirt::Same(u32::MAX));
        theirs.soil(Dirt::Same(u32::MAX));
        let (states, nodes, work) = theirs.lend(lengths);
        let found = fast::find_gaps(&text, states, nodes, work);
        let (states, nodes, work) = ours.lend(lengths);
        assert_eq!(plain::find_gaps(&text, states, nodes, work), found, "{}", case[0]);
        writeln!(out, "{} {}", case.join(" "), printed(found))?;
        for &Node { letter, label, place, start, end } in &nodes[..found.nodes as usize] {
            writeln!(out, "T,{letter},{label},{place},{start},{end}")?;
        }
        assert_eq!(ours.first_difference(&theirs), None, "{}", case[0]);
    }
    Ok(())
}

fn printed(answer: Found) -> String {
    match answer {
        Found { number: 0, cues, nodes, tried, .. } => format!("Y,{cues},{nodes},{tried}"),
        Found { number, line, item, .. } => format!("R,{number},{line},{item}"),
    }
}
