// The command line: what is to be done, with which files and limits.
use crate::search::Limits;
use std::fmt;
use std::path::PathBuf;
use std::time::Duration;

pub const USAGE: &str = "\
usage: plan ORDER [--one] [--html FILE] [--svg FILE] [--json FILE] [--csv FILE] [--rest FILE] [--stamp FILE]
            [--seconds N] [--memory SIZE] [--turning yes|no]
       plan check ORDER PLAN.json [--html FILE] [--svg FILE] [--seconds N] [--memory SIZE] [--turning yes|no]
       plan recheck STAMP [--memory SIZE]
       plan --help | --version
SIZE is the greatest table, as 512M or 2G; 1G if it is not said.";

/// A table for a plate of the greatest size under weights of 0 always fits.
const LEAST_MEMORY: u64 = 16 << 20;

#[derive(Clone, Debug, PartialEq, Eq)]
pub enum Command {
    Plan { order: PathBuf },
    Check { order: PathBuf, plan: PathBuf },
    Recheck { stamp: PathBuf },
    Help,
    Version,
}

/// What may be written, by the name of its option.
#[derive(Clone, Copy, Debug, PartialEq, Eq)]
pub enum Form {
    Html,
    Svg,
    Json,
    Csv,
    Rest,
    Stamp,
}

const FORMS: [(&str, Form); 6] = [
    ("html", Form::Html),
    ("svg", Form::Svg),
    ("json", Form::Json),
    ("csv", Form::Csv),
    ("rest", Form::Rest),
    ("stamp", Form::Stamp),
];

/// The options that each command uses beside the files that a plan is written to.
const CHECK: [&str; 5] = ["html", "svg", "seconds", "memory", "turning"];
const RECHECK: [&str; 1] = ["memory"];

/// What is wrong with a command line.
#[derive(Clone, Debug, PartialEq, Eq)]
pub enum Wrong {
    NoOption(String),
    NoValue(String),
    Value(String),
    Twice(String),
    Unused { command: &'static str, option: String },
    Files(String),
    NoOrder,
    Seconds(String),
    Memory(String),
    Turning(String),
}

impl fmt::Display for Wrong {
    fn fmt(&self, f: &mut fmt::Formatter) -> fmt::Result {
        match self {
            Wrong::NoOption(option) => write!(f, "there is no option {option}"),
            Wrong::NoValue(option) => write!(f, "--{option} needs a value"),
            Wrong::Value(option) => write!(f, "--{option} takes no value"),
            Wrong::Twice(option) => write!(f, "--{option} is said twice"),
            Wrong::Unused { command, option } => write!(f, "{command} does not use --{option}"),
            Wrong::Files(command) => write!(f, "{command} has other files than it needs"),
            Wrong::NoOrder => write!(f, "one order is needed"),
            Wrong::Seconds(value) => write!(f, "--seconds needs a number, and {value} is none"),
            Wrong::Memory(value) => {
                write!(f, "--memory needs a size of at least 16M, as 512M or 2G, and not {value}")
            }
            Wrong::Turning(value) => write!(f, "--turning needs yes or no, and not {value}"),
        }
    }
}

impl std::error::Error for Wrong {}

#[derive(Clone, Debug)]
pub struct Options {
    pub command: Command,
    /// Plan one board, not the whole order.
    pub one: bool,
    pub outputs: Vec<(Form, PathBuf)>,
    pub turning: Option<bool>,
    pub limits: Limits,
}

impl Options {
    /// Reads the words of a command line, or says what is wrong with them.
    pub fn read(words: impl Iterator<Item = String>) -> Result<Options, Wrong> {
        let limits = Limits::default();
        let command = Command::Plan { order: PathBuf::new() };
        let mut options = Options { command, one: false, outputs: Vec::new(), turning: None, limits };
        let (mut files, mut named, mut words) = (Vec::new(), Vec::new(), words);
        while let Some(word) = words.next() {
            match word.strip_prefix("--") {
                Some("help") => return Ok(Options { command: Command::Help, ..options }),
                Some("version") => return Ok(Options { command: Command::Version, ..options }),
                Some(option) => {
                    let (name, value) = match option.split_once('=') {
                        Some((name, value)) => (name.to_string(), Some(value.to_string())),
                        None => (option.to_string(), None),
                    };
                    options.set(&name, value, &mut words)?;
                    named.push(name);
                }
                None if word == "-h" => return Ok(Options { command: Command::Help, ..options }),
                None if word.starts_with('-') && word.len() > 1 => return Err(Wrong::NoOption(word)),
                None => files.push(word),
            }
        }
        options.command = command_of(&files)?;
        options.refuse_unused(&named)?;
        Ok(options)
    }

    fn set(
        &mut self,
        name: &str,
        value: Option<String>,
        words: &mut impl Iterator<Item = String>,
    ) -> Result<(), Wrong> {
        if name == "one" {
            self.one = true;
            return value.map_or(Ok(()), |_| Err(Wrong::Value(name.to_string())));
        }
        let mut needed =
            || value.clone().or_else(|| words.next()).ok_or_else(|| Wrong::NoValue(name.to_string()));
        if let Some((_, form)) = FORMS.iter().find(|(form, _)| *form == name) {
            let path = needed()?;
            if self.outputs.iter().any(|(other, _)| other == form) {
                return Err(Wrong::Twice(name.to_string()));
            }
            self.outputs.push((*form, path.into()));
            return Ok(());
        }
        match name {
            "seconds" => self.limits.seconds = Some(seconds(&needed()?)?),
            "memory" => self.limits.memory = memory(&needed()?)?,
            "turning" => self.turning = Some(turning(&needed()?)?),
            _ => return Err(Wrong::NoOption(format!("--{name}"))),
        }
        Ok(())
    }

    fn refuse_unused(&self, named: &[String]) -> Result<(), Wrong> {
        let (command, used) = match self.command {
            Command::Check { .. } => ("check", &CHECK[..]),
            Command::Recheck { .. } => ("recheck", &RECHECK[..]),
            _ => return Ok(()),
        };
        match named.iter().find(|name| !used.contains(&name.as_str())) {
            Some(name) => Err(Wrong::Unused { command, option: name.clone() }),
            None => Ok(()),
        }
    }
}

fn command_of(files: &[String]) -> Result<Command, Wrong> {
    let files: Vec<&str> = files.iter().map(String::as_str).collect();
    match files[..] {
        ["check", order, plan] => Ok(Command::Check { order: order.into(), plan: plan.into() }),
        ["recheck", stamp] => Ok(Command::Recheck { stamp: stamp.into() }),
        ["check" | "recheck", ..] => Err(Wrong::Files(files[0].to_string())),
        [order] => Ok(Command::Plan { order: order.into() }),
        _ => Err(Wrong::NoOrder),
    }
}

fn seconds(value: &str) -> Result<Duration, Wrong> {
    let seconds = value.parse().ok().and_then(|seconds| Duration::try_from_secs_f64(seconds).ok());
    seconds.ok_or_else(|| Wrong::Seconds(value.to_string()))
}

fn memory(value: &str) -> Result<u64, Wrong> {
    let (digits, shift) = match value.strip_suffix(['K', 'M', 'G']) {
        Some(digits) if value.ends_with('K') => (digits, 10),
        Some(digits) if value.ends_with('M') => (digits, 20),
        Some(digits) => (digits, 30),
        None => (value, 0),
    };
    let bytes = digits.parse::<u64>().ok().and_then(|number| number.checked_mul(1 << shift));
    let bytes = bytes.filter(|bytes| *bytes >= LEAST_MEMORY);
    bytes.ok_or_else(|| Wrong::Memory(value.to_string()))
}

fn turning(value: &str) -> Result<bool, Wrong> {
    match value {
        "yes" => Ok(true),
        "no" => Ok(false),
        _ => Err(Wrong::Turning(value.to_string())),
    }
}
