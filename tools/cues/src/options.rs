//! The command line.

use std::ffi::OsString;
use std::path::PathBuf;

pub const HELP: &str = "\
cues: judges cue lists by the proved calls, and says where and why one is refused

  cues check FILE...              judge each case
  cues view FILE -o PAGE.html     draw a case as a page
  cues replay FILE                run the plan: a line S,state,count,propositions for each state
  cues write FILE                 put out the tidy text of an accepted case
  cues gaps FILE                  find the gaps of the empty tasks: a line for each, as it should stand
  cues import CASE NAMES FORM     make a case of a plan in the competition's form

  -o FILE, --output FILE   where the output goes; standard output without it. Never over a file that is read
  --names FILE             call tasks and methods by a name list (lines of number and name by comma)
  -q, --quiet              answers only, no words
  --json                   check only: a line of JSON for each file
  -                        in the place of a file: standard input
  --                       what follows are files

check prints each answer (Y,k,n or R,number,line,item) and, for a refusal, words. The other commands print theirs on standard error.
Status: 0 accepted (check: all of them), 1 refused (check: some), 2 wrong use, or a file that can't be read or written.
";

#[derive(Clone, Copy, Debug, PartialEq, Eq)]
pub enum Command {
    Check,
    View,
    Replay,
    Write,
    Gaps,
    Import,
}

#[derive(Debug)]
pub struct Options {
    pub command: Command,
    pub files: Vec<PathBuf>,
    pub output: Option<PathBuf>,
    pub names: Option<PathBuf>,
    pub quiet: bool,
    pub json: bool,
}

/// What is asked for; none for help.
pub fn parse(words: impl Iterator<Item = OsString>) -> Result<Option<Options>, String> {
    let mut words = words;
    let command = match words.next().as_ref().and_then(|word| word.to_str()) {
        Some("check") => Command::Check,
        Some("view") => Command::View,
        Some("replay") => Command::Replay,
        Some("write") => Command::Write,
        Some("gaps") => Command::Gaps,
        Some("import") => Command::Import,
        Some("help" | "--help" | "-h") => return Ok(None),
        Some(other) => return Err(format!("no command `{other}`")),
        None => return Err("a command is missing".into()),
    };
    let mut options = Options { command, files: Vec::new(), output: None, names: None, quiet: false, json: false };
    while let Some(word) = words.next() {
        match word.to_str() {
            Some("--help" | "-h") => return Ok(None),
            Some("-q" | "--quiet") => options.quiet = true,
            Some("--json") => options.json = true,
            Some("-o" | "--output") => once(&mut options.output, "-o", words.next())?,
            Some("--names") => once(&mut options.names, "--names", words.next())?,
            Some("--") => options.files.extend(words.by_ref().map(PathBuf::from)),
            Some(option) if option.starts_with('-') && option != "-" => return Err(format!("no option `{option}`")),
            _ => options.files.push(word.into()),
        }
    }
    options.fit()?;
    Ok(Some(options))
}

fn once(place: &mut Option<PathBuf>, option: &str, value: Option<OsString>) -> Result<(), String> {
    let value = value.ok_or(format!("{option} needs a file"))?;
    match place.replace(value.into()) {
        None => Ok(()),
        Some(_) => Err(format!("{option} stands twice")),
    }
}

impl Options {
    /// Whether the options and the number of files go with the command.
    fn fit(&self) -> Result<(), String> {
        let is_check = self.command == Command::Check;
        let files = match self.command {
            Command::Check => 1..=usize::MAX,
            Command::Import => 3..=3,
            _ => 1..=1,
        };
        if !files.contains(&self.files.len()) {
            let due = if self.command == Command::Import { "three files: CASE NAMES FORM" } else { "a file" };
            return Err(format!("{} files; it takes {due}", self.files.len()));
        }
        let read_twice = self.inputs().filter(|file| file.as_os_str() == "-").count() > 1;
        for (wrong, why) in [
            (self.json && !is_check, "--json goes with check"),
            (self.json && self.quiet, "--json and --quiet don't go together"),
            (self.output.is_some() && is_check, "check has no output file"),
            (self.names.is_some() && self.command == Command::Import, "import has its name list among the files"),
            (read_twice, "standard input can be read once only"),
        ] {
            if wrong {
                return Err(why.into());
            }
        }
        Ok(())
    }

    /// Every file that is read.
    pub fn inputs(&self) -> impl Iterator<Item = &PathBuf> {
        self.files.iter().chain(&self.names)
    }
}
