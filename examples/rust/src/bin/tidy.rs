//! The write call on one case: puts the tidy text out. A refused case gives `R,number,line,item` on standard error, and status 1.
//!
//!     tidy [FILE]
//!
//! Without FILE the case is read from standard input.

use std::fs::File;
use std::io::{self, Read, Write};

use cuecheck::{Node, NODES, STATES, TEXT, WORK};

fn main() -> io::Result<()> {
    let input: Box<dyn Read> = match std::env::args_os().nth(1) {
        Some(file) => Box::new(File::open(file)?),
        None => Box::new(io::stdin()),
    };
    // One byte more than a case may have, so that a longer input is not cut to a fitting length.
    let mut text = Vec::new();
    input.take(TEXT as u64 + 1).read_to_end(&mut text)?;

    let mut states = vec![0; STATES];
    let mut nodes = vec![Node::default(); NODES];
    let mut work = vec![0; WORK];
    // The text put out is never longer than the one that came.
    let mut output = vec![0; text.len()];
    match cuecheck::write(&text, &mut states, &mut nodes, &mut work, &mut output).result() {
        Ok(tidied) => io::stdout().write_all(&output[..tidied.length as usize]),
        Err(refusal) => {
            eprintln!("R,{},{},{}", refusal.number, refusal.line, refusal.item);
            std::process::exit(1);
        }
    }
}
