// A decimal comma in a line that is separated by commas parts its number in two. That can only be suspected: where
// the other commas have a blank after them, and where a fault stands beside it.
use super::cells::{Cell, Gap};
use super::fault::Expected;

const CURE: &str = "a decimal comma needs quotes around the number, or ; between the cells";

/// Refuses a comma between two digits where other commas of the line have a blank after them, and where the line has
/// the cells that it needs without it.
pub fn suspect(cells: &[Cell], needed: usize) -> Result<(), Expected> {
    let parted = |cell: &Cell| cell.gap == Gap::DigitComma;
    let spaced = cells.iter().any(|cell| cell.gap == Gap::Blank);
    let without = cells.len() - cells.iter().filter(|cell| parted(cell)).count();
    match cells.windows(2).find(|pair| parted(&pair[1])) {
        Some([first, second]) if spaced && without >= needed => {
            let found = format!("\"{},{}\"", first.text, second.text);
            let expected = format!("a blank after each comma, or after none; {CURE}");
            Err(Expected::at(first.column, expected, found))
        }
        _ => Ok(()),
    }
}

/// A fault of a line, with a word of the decimal comma where it stands beside a comma between two digits.
pub fn explain(fault: Expected, cells: &[Cell]) -> Expected {
    let beside =
        |pair: &[Cell]| pair[1].gap == Gap::DigitComma && pair.iter().any(|cell| cell.column == fault.column);
    if cells.windows(2).any(beside) {
        Expected { expected: format!("{}; {CURE}", fault.expected), ..fault }
    } else {
        fault
    }
}
