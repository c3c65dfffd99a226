// What is wrong in an order file: where, what was expected and what stands there.
use super::cells::Cell;
use std::fmt;

/// A fault of a line that is known: what its column should have held.
#[derive(Clone, Debug, PartialEq, Eq)]
pub struct Expected {
    pub column: usize,
    pub expected: String,
    pub found: String,
}

/// A fault with its place. Lines and columns count from 1.
#[derive(Clone, Debug, PartialEq, Eq)]
pub struct Fault {
    pub line: usize,
    pub column: usize,
    pub expected: String,
    pub found: String,
}

impl Expected {
    pub fn at(column: usize, expected: impl Into<String>, found: impl Into<String>) -> Expected {
        Expected { column, expected: expected.into(), found: found.into() }
    }

    /// A cell that should have held something else.
    pub fn in_cell(cell: &Cell, expected: impl Into<String>) -> Expected {
        let found = match cell.text.as_str() {
            "" => "an empty cell".to_string(),
            text => format!("\"{text}\""),
        };
        Expected::at(cell.column, expected, found)
    }

    /// Something that is missing after the last cell of a line.
    pub fn after(cells: &[Cell], expected: impl Into<String>) -> Expected {
        let column = cells.last().map_or(1, |last| last.column + last.text.chars().count());
        Expected::at(column, expected, "the line's end")
    }

    pub fn on(self, line: usize) -> Fault {
        let Expected { column, expected, found } = self;
        Fault { line, column, expected, found }
    }
}

impl fmt::Display for Fault {
    fn fmt(&self, f: &mut fmt::Formatter) -> fmt::Result {
        let Fault { line, column, expected, found } = self;
        write!(f, "line {line}, column {column}: expected {expected}, found {found}")
    }
}
