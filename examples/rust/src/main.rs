//! The check call on one case: prints `Y,k,n` or `R,number,line,item`. Given `nodes`, prints the record of each node of an accepted case too.
//!
//!     check [FILE [nodes]]
//!
//! Without FILE the case is read from standard input.

use std::fs::File;
use std::io::{self, Read, Write};

use cuecheck::{Node, NODES, STATES, TEXT, WORK};

fn main() -> io::Result<()> {
    let arguments: Vec<_> = std::env::args_os().skip(1).collect();
    let input: Box<dyn Read> = match arguments.first() {
        Some(file) => Box::new(File::open(file)?),
        None => Box::new(io::stdin()),
    };
    // One byte more than a case may have, so that a longer input is not cut to a fitting length.
    let mut text = Vec::new();
    input.take(TEXT as u64 + 1).read_to_end(&mut text)?;

    let mut states = vec![0; STATES];
    let mut nodes = vec![Node::default(); NODES];
    let mut work = vec![0; WORK];
    let mut out = io::stdout().lock();
    match cuecheck::check(&text, &mut states, &mut nodes, &mut work).result() {
        Ok(accepted) => {
            writeln!(out, "Y,{},{}", accepted.cues, accepted.nodes)?;
            if arguments.get(1).is_some_and(|word| word == "nodes") {
                for n in &nodes[..accepted.nodes as usize] {
                    writeln!(out, "{},{},{},{},{}", n.letter, n.label, n.place, n.start, n.end)?;
                }
            }
        }
        Err(refusal) => writeln!(out, "R,{},{},{}", refusal.number, refusal.line, refusal.item)?,
    }
    Ok(())
}
