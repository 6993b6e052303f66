//! Files that are read and written: `-` is standard input, and nothing is written over what is read.

use cuecheck::TEXT;
use std::fs::{self, File};
use std::io::{self, Read, Write};
use std::os::unix::fs::MetadataExt;
use std::path::{Path, PathBuf};

/// A case: no more of it than shows that it is too long.
pub fn read_case(path: &Path) -> Result<Vec<u8>, String> {
    read(path, TEXT as u64 + 1)
}

/// A name list or a plan form, which may have any length.
pub fn read_all(path: &Path) -> Result<Vec<u8>, String> {
    read(path, u64::MAX)
}

fn read(path: &Path, most: u64) -> Result<Vec<u8>, String> {
    let mut bytes = Vec::new();
    let read = match path.as_os_str() == "-" {
        true => io::stdin().lock().take(most).read_to_end(&mut bytes),
        false => File::open(path).and_then(|file| file.take(most).read_to_end(&mut bytes)),
    };
    read.map(|_| bytes).map_err(|error| format!("{}: {error}", path.display()))
}

/// How a file is called.
pub fn name(path: &Path) -> String {
    match path.as_os_str() == "-" {
        true => "standard input".into(),
        false => path.display().to_string(),
    }
}

/// Refuses an output that is one of the inputs, by whatever name.
pub fn apart<'a>(output: Option<&PathBuf>, inputs: impl Iterator<Item = &'a PathBuf>) -> Result<(), String> {
    let Some(output) = output else { return Ok(()) };
    let Some(written) = identity(output) else { return Ok(()) };
    for input in inputs {
        let read = if input.as_os_str() == "-" { identity(Path::new("/dev/stdin")) } else { identity(input) };
        if read == Some(written) {
            return Err(format!("{} is read: it is not written over", output.display()));
        }
    }
    Ok(())
}

/// What tells a regular file from every other; none if there is no such file yet.
fn identity(path: &Path) -> Option<(u64, u64)> {
    fs::metadata(path).ok().filter(fs::Metadata::is_file).map(|file| (file.dev(), file.ino()))
}

/// Puts out all of it, to the file or to standard output.
pub fn put_out(output: Option<&PathBuf>, bytes: &[u8]) -> Result<(), String> {
    match output {
        Some(path) => fs::write(path, bytes).map_err(|error| format!("{}: {error}", path.display())),
        None => {
            let mut out = io::stdout().lock();
            out.write_all(bytes).and_then(|()| out.flush()).map_err(|error| format!("standard output: {error}"))
        }
    }
}
