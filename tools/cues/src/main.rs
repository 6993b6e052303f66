//! `cues`: see `options::HELP`.

use cues::options::{self, Command};
use cues::{check, commands, view};
use std::process::ExitCode;

fn main() -> ExitCode {
    match run() {
        Ok(status) => ExitCode::from(status),
        Err(error) => {
            eprintln!("cues: {error}");
            ExitCode::from(2)
        }
    }
}

/// The status: 0 accepted, 1 refused, 2 for what can't be done.
fn run() -> Result<u8, String> {
    let options = options::parse(std::env::args_os().skip(1)).map_err(|error| format!("{error}; `cues help` tells the use"))?;
    let Some(options) = options else {
        print!("{}", options::HELP);
        return Ok(0);
    };
    match options.command {
        Command::Check => check::run(&options).map(|count| count.status()),
        Command::View => view::run(&options).map(|accepted| u8::from(!accepted)),
        _ => commands::run(&options).map(|accepted| u8::from(!accepted)),
    }
}
