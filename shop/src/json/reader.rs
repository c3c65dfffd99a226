// Reads JSON. A fault says line, column and what was expected there.
use super::{Expected, Value};

/// The deepest nesting that is read: no plan of a board is deeper.
const DEEPEST: usize = 40_000;

/// The text of a file, without the mark that some programs put before it.
pub fn text_of(bytes: &[u8]) -> Read<String> {
    let text = std::str::from_utf8(bytes).map_err(|_| Expected::of_all("UTF-8"))?;
    Ok(text.strip_prefix('\u{feff}').unwrap_or(text).to_string())
}

struct Reader<'a> {
    text: &'a str,
    at: usize,
    depth: usize,
}

type Read<T> = Result<T, Expected>;

pub fn read(text: &str) -> Read<Value> {
    let mut reader = Reader { text, at: 0, depth: 0 };
    let value = reader.value()?;
    reader.skip_blanks();
    if reader.at < text.len() {
        return Err(reader.expected("the end of the file"));
    }
    Ok(value)
}

impl Reader<'_> {
    fn expected(&self, what: &str) -> Expected {
        let before = &self.text[..self.at];
        let line = before.split('\n').count();
        let column = before.rsplit('\n').next().map_or(0, |last| last.chars().count()) + 1;
        Expected::at(format!("line {line}, column {column}"), what)
    }

    fn rest(&self) -> &str {
        &self.text[self.at..]
    }

    fn skip_blanks(&mut self) {
        self.at = self.text.len() - self.rest().trim_start_matches([' ', '\t', '\n', '\r']).len();
    }

    /// Passes a word, if it stands here.
    fn pass(&mut self, word: &str) -> bool {
        self.skip_blanks();
        let here = self.rest().starts_with(word);
        self.at += if here { word.len() } else { 0 };
        here
    }

    fn value(&mut self) -> Read<Value> {
        self.skip_blanks();
        match self.rest().chars().next() {
            Some('{') => self.nested(Self::object),
            Some('[') => self.nested(Self::list),
            Some('"') => self.text().map(Value::Text),
            Some('-' | '0'..='9') => Ok(self.number()),
            _ if self.pass("true") => Ok(Value::Truth(true)),
            _ if self.pass("false") => Ok(Value::Truth(false)),
            _ if self.pass("null") => Ok(Value::Null),
            _ => Err(self.expected("a JSON value")),
        }
    }

    fn nested(&mut self, read: fn(&mut Self) -> Read<Value>) -> Read<Value> {
        self.depth += 1;
        if self.depth > DEEPEST {
            return Err(self.expected("a plan that is nested less deeply"));
        }
        self.at += 1;
        let value = read(self);
        self.depth -= 1;
        value
    }

    fn object(&mut self) -> Read<Value> {
        let mut members = Vec::new();
        if self.pass("}") {
            return Ok(Value::Object(members));
        }
        loop {
            self.skip_blanks();
            let name = self.text()?;
            if !self.pass(":") {
                return Err(self.expected("a colon"));
            }
            members.push((name, self.value()?));
            if self.pass("}") {
                return Ok(Value::Object(members));
            }
            if !self.pass(",") {
                return Err(self.expected("a comma or a closing brace"));
            }
        }
    }

    fn list(&mut self) -> Read<Value> {
        let mut values = Vec::new();
        if self.pass("]") {
            return Ok(Value::List(values));
        }
        loop {
            values.push(self.value()?);
            if self.pass("]") {
                return Ok(Value::List(values));
            }
            if !self.pass(",") {
                return Err(self.expected("a comma or a closing bracket"));
            }
        }
    }

    fn number(&mut self) -> Value {
        let inside = |c: char| c.is_ascii_digit() || matches!(c, '-' | '+' | '.' | 'e' | 'E');
        let rest = self.rest();
        let digits = rest.len() - rest.trim_start_matches(inside).len();
        let number = rest[..digits].to_string();
        self.at += digits;
        Value::Number(number)
    }

    fn text(&mut self) -> Read<String> {
        if !self.rest().starts_with('"') {
            return Err(self.expected("a text in quotes"));
        }
        self.at += 1;
        let mut text = String::new();
        loop {
            let letter = self.rest().chars().next().ok_or_else(|| self.expected("a closing quote"))?;
            self.at += letter.len_utf8();
            match letter {
                '"' => return Ok(text),
                '\\' => text.push(self.escape()?),
                letter => text.push(letter),
            }
        }
    }

    fn escape(&mut self) -> Read<char> {
        let letter = self.rest().chars().next();
        self.at += letter.map_or(0, char::len_utf8);
        match letter {
            Some('n') => Ok('\n'),
            Some('t') => Ok('\t'),
            Some('r') => Ok('\r'),
            Some('b') => Ok('\u{8}'),
            Some('f') => Ok('\u{c}'),
            Some(letter @ ('"' | '\\' | '/')) => Ok(letter),
            Some('u') => self.coded(),
            _ => Err(self.expected("an escape of JSON")),
        }
    }

    /// A letter by its code; one above the first 65,536 stands as two codes.
    fn coded(&mut self) -> Read<char> {
        let high = self.code()?;
        let code = match high {
            0xD800..=0xDBFF if self.rest().starts_with("\\u") => {
                self.at += 2;
                0x1_0000 + ((high - 0xD800) << 10) + (self.code()? & 0x3FF)
            }
            code => code,
        };
        char::from_u32(code).ok_or_else(|| self.expected("the code of a letter"))
    }

    fn code(&mut self) -> Read<u32> {
        let digits = self.rest().get(..4).and_then(|four| u32::from_str_radix(four, 16).ok());
        let code = digits.ok_or_else(|| self.expected("four hexadecimal digits"))?;
        self.at += 4;
        Ok(code)
    }
}
