// Why the command gave no plan, or not all that was asked for.
use crate::json;
use crate::order::Fault;
use crate::stamp;
use std::path::{Path, PathBuf};
use std::{fmt, io};

#[derive(Debug)]
pub enum Error {
    /// The order has faults.
    Faults { file: PathBuf, faults: Vec<Fault> },
    /// A file cannot be read or written.
    File { file: PathBuf, error: io::Error },
    /// A plan that is checked is not written as it should be.
    Document { file: PathBuf, wrong: json::Expected },
    /// A stamp is not right.
    Stamp { file: PathBuf, wrong: stamp::Wrong },
    /// An output is named that is an input, or that is named twice.
    Clash { file: PathBuf, with: &'static str },
    /// The order has no plan, or the plan of a file is not right.
    Plan { file: PathBuf, wrong: planner_search::Error },
}

/// The faults that are shown.
const SHOWN: usize = 20;

impl Error {
    pub fn file(file: &Path, error: io::Error) -> Error {
        Error::File { file: file.to_path_buf(), error }
    }

    pub fn plan(file: &Path, wrong: planner_search::Error) -> Error {
        Error::Plan { file: file.to_path_buf(), wrong }
    }

    pub fn document(file: &Path, wrong: json::Expected) -> Error {
        Error::Document { file: file.to_path_buf(), wrong }
    }

    pub fn stamp(file: &Path, wrong: stamp::Wrong) -> Error {
        Error::Stamp { file: file.to_path_buf(), wrong }
    }
}

impl fmt::Display for Error {
    fn fmt(&self, f: &mut fmt::Formatter) -> fmt::Result {
        match self {
            Error::Faults { file, faults } => {
                let shown: Vec<String> =
                    faults.iter().take(SHOWN).map(|fault| format!("{}: {fault}", file.display())).collect();
                write!(f, "{}", shown.join("\n"))?;
                match faults.len().checked_sub(SHOWN) {
                    Some(more @ 1..) => write!(f, "\n{}: {more} more faults", file.display()),
                    _ => Ok(()),
                }
            }
            Error::File { file, error } => write!(f, "{}: {error}", file.display()),
            Error::Document { file, wrong } => write!(f, "{}: {wrong}", file.display()),
            Error::Stamp { file, wrong } => write!(f, "{}: {wrong}", file.display()),
            Error::Clash { file, with } => {
                write!(f, "{}: an output may not be {with}", file.display())
            }
            Error::Plan { file, wrong } => write!(f, "{}: {wrong}", file.display()),
        }
    }
}

impl std::error::Error for Error {}
