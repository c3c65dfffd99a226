// The text of an order file, in one of the codes that spreadsheets write: UTF-8, UTF-16 with its mark, or
// Windows-1252, which has Latin-1 within it and no mark of its own.
use super::fault::{Expected, Fault};

const TEXT: &str = "text in UTF-8, in UTF-16 with its mark or in Windows-1252";

/// What Windows-1252 has at 0x80 to 0x9f; a blank where it has nothing.
const HIGH: &str = "€ ‚ƒ„…†‡ˆ‰Š‹Œ Ž  ‘’“”•–—˜™š›œ žŸ";

/// The most characters of a cell that a notice shows.
const SHOWN: usize = 40;

/// A text without its mark, and a notice where its code was guessed.
pub struct Decoded {
    pub text: String,
    pub notice: Option<String>,
}

pub fn decode(bytes: &[u8]) -> Result<Decoded, Fault> {
    let decoded = match bytes {
        [b'P', b'K', 3, 4, ..] => Err(after("", "a sheet exported as CSV", "a workbook")),
        [0xef, 0xbb, 0xbf, rest @ ..] => utf8(rest),
        [0xff, 0xfe, rest @ ..] => utf16(rest, u16::from_le_bytes),
        [0xfe, 0xff, rest @ ..] => utf16(rest, u16::from_be_bytes),
        _ => utf8(bytes).or_else(|_| windows_1252(bytes)),
    }?;
    match decoded.text.find('\0') {
        Some(at) => Err(after(&decoded.text[..at], TEXT, "a zero byte")),
        None => Ok(decoded),
    }
}

/// A fault behind the text that could be read.
fn after(before: &str, expected: &str, found: &str) -> Fault {
    let line = before.split('\n').count();
    let column = before.split('\n').next_back().map_or(0, |last| last.chars().count()) + 1;
    Expected::at(column, expected, found).on(line)
}

fn utf8(bytes: &[u8]) -> Result<Decoded, Fault> {
    let text = std::str::from_utf8(bytes).map_err(|error| {
        let before = String::from_utf8_lossy(&bytes[..error.valid_up_to()]);
        after(&before, "text in UTF-8, as its mark says", "a byte of another code")
    })?;
    Ok(Decoded { text: text.to_string(), notice: None })
}

fn utf16(bytes: &[u8], unit: fn([u8; 2]) -> u16) -> Result<Decoded, Fault> {
    let pairs = bytes.chunks_exact(2);
    let odd = !pairs.remainder().is_empty();
    let mut text = String::new();
    for character in char::decode_utf16(pairs.map(|pair| unit([pair[0], pair[1]]))) {
        let broken = |_| after(&text, "text in UTF-16, as its mark says", "half a character");
        text.push(character.map_err(broken)?);
    }
    if odd {
        return Err(after(&text, "text in UTF-16, as its mark says", "half a character"));
    }
    Ok(Decoded { text, notice: None })
}

fn windows_1252(bytes: &[u8]) -> Result<Decoded, Fault> {
    let mut text = String::new();
    for byte in bytes {
        let high = (0x80..=0x9f).contains(byte).then(|| HIGH.chars().nth(usize::from(byte - 0x80)));
        let character = high.flatten().unwrap_or(char::from(*byte));
        if high.is_some() && character == ' ' {
            return Err(after(&text, TEXT, "a byte of another code"));
        }
        text.push(character);
    }
    let cell = text.split([',', ';', '\t', '"', '\n']).find(|cell| !cell.is_ascii()).unwrap_or_default();
    let shown: String = cell.trim().chars().take(SHOWN).collect();
    let notice = format!("the file is not in UTF-8: it is read as Windows-1252, with a cell \"{shown}\"");
    Ok(Decoded { text, notice: Some(notice) })
}
