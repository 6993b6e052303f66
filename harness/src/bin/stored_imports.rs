//! Prints what the program of a folder of stored cases for the import call has to print, by the plain rendering: for each case the
//! seven words of the folder's file `args`, the answer and, if it is accepted, a line with T and the five numbers of each node's record,
//! and the text put out. Fails if the fast rendering says another thing, or if a file is longer than the program reads.
//!
//! stored_imports FOLDER

use harness::fast;
use harness::lists::{Dirt, Lengths, Lists, MADE};
use harness::plain::{self, Imported, Node};
use std::io::{Result, Write};
use std::path::PathBuf;

/// The most that the program reads of a file.
const READ: usize = 65_536;

fn main() -> Result<()> {
    let folder = PathBuf::from(std::env::args_os().nth(1).expect("a folder"));
    let args = std::fs::read_to_string(folder.join("args"))?;
    let words: Vec<&str> = args.lines().collect();
    let (mut ours, mut theirs) = (Lists::with_output_of(MADE), Lists::with_output_of(MADE));
    let mut out = std::io::stdout().lock();
    for case in words.chunks(7) {
        let [text, names, form] =
            [0, 1, 2].map(|at| std::fs::read(folder.join("data").join(case[at])).expect(case[at]));
        assert!([&text, &names, &form].iter().all(|file| file.len() <= READ), "{case:?}");
        let number = |at: usize| case[at].parse().expect("a length");
        let lengths = Lengths { states: number(4), nodes: number(5), work: number(6) };
        ours.soil(Dirt::Same(u32::MAX));
        theirs.soil(Dirt::Same(u32::MAX));
        let (states, nodes, work, output) = theirs.lend_all(lengths, number(3));
        let imported = fast::import(&text, &names, &form, states, nodes, work, output);
        let (states, nodes, work, output) = ours.lend_all(lengths, number(3));
        assert_eq!(plain::import(&text, &names, &form, states, nodes, work, output), imported, "{case:?}");
        writeln!(out, "{} {}", case.join(" "), printed(imported))?;
        for &Node { letter, label, place, start, end } in &nodes[..imported.nodes as usize] {
            writeln!(out, "T,{letter},{label},{place},{start},{end}")?;
        }
        out.write_all(&output[..imported.length as usize])?;
        assert_eq!(ours.first_difference(&theirs), None, "{case:?}");
    }
    Ok(())
}

fn printed(answer: Imported) -> String {
    match answer {
        Imported { number: 0, cues, nodes, tried, length, .. } => format!("Y,{cues},{nodes},{tried},{length}"),
        Imported { number, line, item, .. } => format!("R,{number},{line},{item}"),
    }
}
