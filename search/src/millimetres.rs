// Lengths in millimetres with up to three decimals, kept exactly as whole thousandths.
use std::fmt;

/// The greatest length that is read, in thousandths: a hundred metres, as the planner's true sizes have it.
const MOST: u64 = 100_000_000;

/// A length in thousandths of a millimetre.
#[derive(Clone, Copy, Debug, Default, PartialEq, Eq, PartialOrd, Ord, Hash)]
pub struct Millimetres(u32);

impl Millimetres {
    pub const ZERO: Millimetres = Millimetres(0);

    pub const fn of_thousandths(thousandths: u32) -> Millimetres {
        Millimetres(thousandths)
    }

    pub const fn thousandths(self) -> u32 {
        self.0
    }

    /// Reads `720`, `3.2`, `3,2` or `720 mm`.
    pub fn read(text: &str) -> Option<Millimetres> {
        let text = text.strip_suffix("mm").unwrap_or(text).trim_end();
        let (whole, decimals) = text.split_once(['.', ',']).unwrap_or((text, ""));
        let digits = |part: &str| part.bytes().all(|byte| byte.is_ascii_digit());
        if whole.is_empty() || whole.len() > 7 || decimals.len() > 3 {
            return None;
        }
        if !digits(whole) || !digits(decimals) || text.ends_with(['.', ',']) {
            return None;
        }
        let thousandths: u64 = format!("{whole}{decimals:0<3}").parse().ok()?;
        Millimetres::within(thousandths)
    }

    /// So many thousandths, if they are not above the greatest length.
    pub fn within(thousandths: u64) -> Option<Millimetres> {
        (thousandths <= MOST).then_some(Millimetres(thousandths as u32))
    }

    pub fn as_f64(self) -> f64 {
        f64::from(self.0) / 1000.0
    }
}

impl fmt::Display for Millimetres {
    fn fmt(&self, f: &mut fmt::Formatter) -> fmt::Result {
        let (whole, rest) = (self.0 / 1000, self.0 % 1000);
        if rest == 0 {
            f.pad(&whole.to_string())
        } else {
            let digits = format!("{rest:03}");
            f.pad(&format!("{whole}.{}", digits.trim_end_matches('0')))
        }
    }
}
