//! The call that finds the gaps, on one case: prints `Y,k,n,tried` and, for each empty task, its node's number from 0 and the gap found, or
//! `R,number,line,item`.
//!
//!     gaps [FILE]
//!
//! Without FILE the case is read from standard input.

use std::fs::File;
use std::io::{self, Read, Write};

use cuecheck::{Node, NODES, STATES, TEXT, WORK};

fn main() -> io::Result<()> {
    let input: Box<dyn Read> = match std::env::args_os().nth(1) {
        Some(file) => Box::new(File::open(file)?),
        None => Box::new(io::stdin()),
    };
    // One byte more than a case may have, so that a longer input is not cut to a fitting length.
    let mut text = Vec::new();
    input.take(TEXT as u64 + 1).read_to_end(&mut text)?;

    let mut states = vec![0; STATES];
    let mut nodes = vec![Node::default(); NODES];
    let mut work = vec![0; WORK];
    let mut out = io::stdout().lock();
    match cuecheck::find_gaps(&text, &mut states, &mut nodes, &mut work).result() {
        Ok(placed) => {
            writeln!(out, "Y,{},{},{}", placed.cues, placed.nodes, placed.tried)?;
            for (number, node) in nodes.iter().enumerate().filter(|(_, node)| node.letter == 2) {
                writeln!(out, "node {number}: gap {}", node.place)?;
            }
        }
        Err(refusal) => writeln!(out, "R,{},{},{}", refusal.number, refusal.line, refusal.item)?,
    }
    Ok(())
}
