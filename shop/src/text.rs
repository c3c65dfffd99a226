// Words on paper: how wide they are, how they are cut to a width, and how XML has them. Every text of a drawing is
// stretched or pressed to the width that is computed here, so that no browser's letters leave their box.

/// The width of text in heights of its letters, as common sans-serif letters have it.
pub fn text_width(text: &str) -> f64 {
    text.chars().map(letter_width).sum()
}

fn letter_width(letter: char) -> f64 {
    match letter {
        'i' | 'j' | 'l' | '.' | ',' | ':' | ';' | '\'' | '|' | ' ' | 'I' => 0.3,
        'm' | 'w' | 'M' | 'W' | '@' | '%' | '→' | '↑' => 0.9,
        'A'..='Z' => 0.7,
        letter if letter >= '\u{2e80}' => 1.0,
        _ => 0.56,
    }
}

/// A name cut to a width, in heights of its letters.
pub fn shortened(name: &str, room: f64) -> String {
    if text_width(name) <= room {
        return name.to_string();
    }
    let mut short = String::new();
    let mut width = text_width("…");
    for letter in name.chars() {
        width += letter_width(letter);
        if width > room {
            break;
        }
        short.push(letter);
    }
    short + "…"
}

/// Text as XML and HTML have it; characters that they have not become a mark.
pub fn escaped(text: &str) -> String {
    let mut safe = String::new();
    for letter in text.chars() {
        match letter {
            '&' => safe.push_str("&amp;"),
            '<' => safe.push_str("&lt;"),
            '>' => safe.push_str("&gt;"),
            '"' => safe.push_str("&quot;"),
            '\u{fffe}' | '\u{ffff}' => safe.push('\u{fffd}'),
            control if control.is_control() => safe.push('\u{fffd}'),
            letter => safe.push(letter),
        }
    }
    safe
}

/// The letter of a panel, by its line: A to Z, then AA, AB and so on. Letters are not confused with numbers of cuts.
pub fn letter(panel: usize) -> String {
    let mut letters = Vec::new();
    let mut rest = panel + 1;
    while rest > 0 {
        letters.push(char::from(b'A' + ((rest - 1) % 26) as u8));
        rest = (rest - 1) / 26;
    }
    letters.iter().rev().collect()
}

#[cfg(test)]
mod tests {
    use super::*;

    #[test]
    fn letters_run_on() {
        assert_eq!([0, 25, 26, 51, 52, 701, 702].map(letter), ["A", "Z", "AA", "AZ", "BA", "ZZ", "AAA"]);
    }

    #[test]
    fn names_are_cut_to_their_room() {
        assert_eq!(shortened("side", 9.0), "side");
        let short = shortened("a very long name of a panel", 5.0);
        assert!(text_width(&short) <= 5.0 && short.ends_with('…'), "{short}");
        assert_eq!(shortened("wide", 0.1), "…");
    }
}
