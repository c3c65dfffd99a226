// A line of an order file as cells, each with its column. A line with a tab is separated by tabs, else one with a
// semicolon by semicolons, any other by commas; a cell may stand in quotes, and a # where a cell begins opens a
// comment.
use super::fault::Expected;

/// A cell, without the blanks around it. Columns count characters from 1.
#[derive(Clone, Debug, PartialEq, Eq)]
pub struct Cell {
    pub text: String,
    pub column: usize,
    pub gap: Gap,
}

/// What stands between a cell and the one before.
#[derive(Clone, Copy, Debug, PartialEq, Eq)]
pub enum Gap {
    /// A separator and a blank.
    Blank,
    /// A comma as separator, right between two digits.
    DigitComma,
    /// A separator, or nothing.
    Other,
}

struct Line {
    chars: Vec<char>,
    at: usize,
    separator: char,
}

/// The cells of a line up to the last that is not empty.
pub fn cells(line: &str) -> Result<Vec<Cell>, Expected> {
    let chars: Vec<char> = line.chars().collect();
    let mut line = Line { separator: separator(&chars), chars, at: 0 };
    let mut cells = Vec::new();
    loop {
        line.skip_blanks();
        if line.next() == Some('#') {
            break;
        }
        cells.push(line.cell()?);
        if line.next().is_none() {
            break;
        }
        line.at += 1;
    }
    let last = cells.iter().rposition(|cell| !cell.text.is_empty());
    cells.truncate(last.map_or(0, |last| last + 1));
    Ok(cells)
}

/// What separates the cells of a line: a tab or else a semicolon, outside quotes and before a comment, or else a comma.
fn separator(chars: &[char]) -> char {
    let (mut quoted, mut begins, mut separator) = (false, true, ',');
    for next in chars {
        match next {
            // After a closing quote a second one opens the cell again.
            '"' if quoted || begins => quoted = !quoted,
            _ if quoted => {}
            '#' if begins => break,
            '\t' => return '\t',
            ';' => (begins, separator) = (true, ';'),
            ',' => begins = true,
            _ => begins &= next.is_whitespace(),
        }
    }
    separator
}

impl Line {
    fn next(&self) -> Option<char> {
        self.chars.get(self.at).copied()
    }

    fn ends_cell(&self) -> bool {
        self.next().is_none_or(|next| next == self.separator)
    }

    fn skip_blanks(&mut self) {
        while self.next().is_some_and(|next| next.is_whitespace() && next != self.separator) {
            self.at += 1;
        }
    }

    fn cell(&mut self) -> Result<Cell, Expected> {
        let (column, gap) = (self.at + 1, self.gap());
        let text = if self.next() == Some('"') { self.quoted()? } else { self.bare() };
        Ok(Cell { text, column, gap })
    }

    /// What stands before the cell that begins here.
    fn gap(&self) -> Gap {
        let digit = |at: usize| self.chars.get(at).is_some_and(char::is_ascii_digit);
        match self.chars[..self.at] {
            [.., before, ','] if self.separator == ',' && before.is_ascii_digit() && digit(self.at) => {
                Gap::DigitComma
            }
            [.., last] if last != self.separator => Gap::Blank,
            _ => Gap::Other,
        }
    }

    fn bare(&mut self) -> String {
        let start = self.at;
        while !self.ends_cell() {
            self.at += 1;
        }
        let text: String = self.chars[start..self.at].iter().collect();
        text.trim().to_string()
    }

    /// A cell in quotes; a quote inside is written twice.
    fn quoted(&mut self) -> Result<String, Expected> {
        let mut text = String::new();
        self.at += 1;
        loop {
            match (self.next(), self.chars.get(self.at + 1)) {
                (None, _) => return Err(Expected::at(self.at + 1, "a closing quote", "the line's end")),
                (Some('"'), Some('"')) => self.at += 1,
                (Some('"'), _) => break,
                _ => {}
            }
            text.extend(self.next());
            self.at += 1;
        }
        self.at += 1;
        self.skip_blanks();
        if self.ends_cell() {
            Ok(text.trim().to_string())
        } else {
            Err(Expected::at(self.at + 1, "the cell's end after the closing quote", "more text"))
        }
    }
}
