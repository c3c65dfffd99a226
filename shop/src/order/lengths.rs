// Lengths as orders write them: millimetres, or inches with decimals or a fraction, of 25.4 mm each. A comma is a
// decimal comma, unless it could part thousands.
use super::cells::Cell;
use super::fault::Expected;
use crate::millimetres::Millimetres;

/// An inch in thousandths of a millimetre.
const INCH: u64 = 25_400;
const INCHES: [&str; 8] = ["\"", "″", "”", "''", "inches", "inch", "in.", "in"];
const MOST_DECIMALS: usize = 6;

#[derive(Clone, Copy, PartialEq, Eq)]
enum Unit {
    Millimetres,
    Inches,
}

/// Why a text is not a length.
pub enum NoLength {
    /// Its comma may part thousands or decimals.
    Ambiguous,
    Other,
}

impl NoLength {
    /// The fault of a cell that should have held a length.
    pub fn in_cell(&self, cell: &Cell, expected: &str) -> Expected {
        match self {
            NoLength::Ambiguous => {
                let (thousands, decimals) = (cell.text.replace(',', ""), cell.text.replace(',', "."));
                let either = "as a comma before three digits may part thousands or decimals";
                Expected::in_cell(cell, format!("{thousands} or {decimals}, {either}"))
            }
            NoLength::Other => Expected::in_cell(cell, expected),
        }
    }
}

/// Reads `720`, `3.2`, `3,2`, `720 mm`, `96"`, `23 1/2"` or `23.5 in`.
pub fn length(text: &str) -> Result<Millimetres, NoLength> {
    let (number, unit) = measure(text);
    in_unit(number, unit.unwrap_or(Unit::Millimetres))
}

/// A length above 0.
pub fn side(text: &str) -> Result<Millimetres, NoLength> {
    above_zero(length(text)?)
}

/// Two sides as `2440 x 1220` or `96 x 48 in`: a unit after the second is that of both.
pub fn sides(text: &str) -> Result<[Millimetres; 2], NoLength> {
    let (first, second) = text.split_once(['x', 'X', '×']).ok_or(NoLength::Other)?;
    let ((first, own), (second, unit)) = (measure(first), measure(second));
    let unit = unit.unwrap_or(Unit::Millimetres);
    Ok([above_zero(in_unit(first, own.unwrap_or(unit))?)?, above_zero(in_unit(second, unit)?)?])
}

fn above_zero(length: Millimetres) -> Result<Millimetres, NoLength> {
    if length > Millimetres::ZERO {
        Ok(length)
    } else {
        Err(NoLength::Other)
    }
}

/// The number of a length and its unit, if it has one.
fn measure(text: &str) -> (&str, Option<Unit>) {
    let text = text.trim();
    let ending = |word: &&str| {
        let start = text.len().checked_sub(word.len())?;
        let (number, unit) = text.split_at_checked(start)?;
        unit.eq_ignore_ascii_case(word).then_some(number.trim_end())
    };
    match (ending(&"mm"), INCHES.iter().find_map(ending)) {
        (Some(number), _) => (number, Some(Unit::Millimetres)),
        (None, Some(number)) => (number, Some(Unit::Inches)),
        (None, None) => (text, None),
    }
}

fn in_unit(number: &str, unit: Unit) -> Result<Millimetres, NoLength> {
    if is_ambiguous(number) {
        return Err(NoLength::Ambiguous);
    }
    let length = match unit {
        Unit::Millimetres => Millimetres::read(number),
        Unit::Inches => inches(number),
    };
    length.ok_or(NoLength::Other)
}

/// Whether a comma may part thousands: one to three digits before it, the first not 0, and three after it.
fn is_ambiguous(number: &str) -> bool {
    number.split_once(',').is_some_and(|(before, after)| {
        let thousands = whole(before).is_some() && before.len() <= 3 && !before.starts_with('0');
        thousands && whole(after).is_some() && after.len() == 3
    })
}

/// Inches to the nearest thousandth of a millimetre.
fn inches(number: &str) -> Option<Millimetres> {
    let [above, below] = match number.split_once('/') {
        Some((before, below)) => fraction(before, below)?,
        None => decimal(number)?,
    };
    Millimetres::within((2 * INCH * above + below) / (2 * below))
}

/// `3` and `4` of `3/4`, or `23 1` and `2` of `23 1/2`, as numerator and denominator.
fn fraction(before: &str, below: &str) -> Option<[u64; 2]> {
    let (inches, above) = before.rsplit_once([' ', '-']).unwrap_or(("0", before));
    let [inches, above, below] = [whole(inches.trim_end())?, whole(above)?, whole(below)?];
    (above < below).then_some([inches * below + above, below])
}

/// `23`, `23.5` or `.75` as numerator and denominator.
fn decimal(number: &str) -> Option<[u64; 2]> {
    let (inches, decimals) = number.split_once(['.', ',']).unwrap_or((number, "0"));
    let inches = if inches.is_empty() { "0" } else { inches };
    if decimals.len() > MOST_DECIMALS {
        return None;
    }
    let below = 10u64.pow(decimals.len() as u32);
    Some([whole(inches)? * below + whole(decimals)?, below])
}

fn whole(digits: &str) -> Option<u64> {
    let is_number = digits.len() <= 7 && digits.bytes().all(|byte| byte.is_ascii_digit());
    digits.parse().ok().filter(|_| is_number)
}
