// JSON values, their writing and their reading. Numbers are kept as they are written, so that millimetres stay
// exact.
mod plans;
mod reader;

pub use plans::{document, evidence, filed, tree_document};
pub use reader::{read, text_of};

use std::fmt;

/// What a document should have held, and where.
#[derive(Clone, Debug, PartialEq, Eq)]
pub struct Expected {
    pub place: Option<String>,
    pub what: String,
}

#[derive(Clone, Debug, PartialEq, Eq)]
pub enum Value {
    Null,
    Truth(bool),
    Number(String),
    Text(String),
    List(Vec<Value>),
    Object(Vec<(String, Value)>),
}

impl Expected {
    pub fn at(place: impl Into<String>, what: impl Into<String>) -> Expected {
        Expected { place: Some(place.into()), what: what.into() }
    }

    /// Of the document as a whole.
    pub fn of_all(what: impl Into<String>) -> Expected {
        Expected { place: None, what: what.into() }
    }
}

impl fmt::Display for Expected {
    fn fmt(&self, f: &mut fmt::Formatter) -> fmt::Result {
        let place = self.place.as_ref().map_or(String::new(), |place| format!("{place}: "));
        write!(f, "{place}expected {}", self.what)
    }
}

impl std::error::Error for Expected {}

impl Value {
    pub fn number(number: impl ToString) -> Value {
        Value::Number(number.to_string())
    }

    pub fn text(text: impl ToString) -> Value {
        Value::Text(text.to_string())
    }

    pub fn object<const N: usize>(members: [(&str, Value); N]) -> Value {
        Value::Object(members.into_iter().map(|(name, value)| (name.to_string(), value)).collect())
    }

    /// A member of an object.
    pub fn get(&self, name: &str) -> Option<&Value> {
        match self {
            Value::Object(members) => members.iter().find(|(n, _)| n == name).map(|(_, value)| value),
            _ => None,
        }
    }

    fn is_flat(&self) -> bool {
        let inner = |value: &Value| matches!(value, Value::List(_) | Value::Object(_));
        match self {
            Value::List(values) => !values.iter().any(inner),
            Value::Object(members) => !members.iter().any(|(_, value)| inner(value)),
            _ => true,
        }
    }

    /// Writes a value; one that holds no others stands on one line.
    fn write(&self, f: &mut fmt::Formatter, indent: usize) -> fmt::Result {
        match self {
            Value::Null => write!(f, "null"),
            Value::Truth(truth) => write!(f, "{truth}"),
            Value::Number(number) => write!(f, "{number}"),
            Value::Text(text) => write_text(f, text),
            Value::List(values) => {
                self.write_all(f, indent, ['[', ']'], values, |f, value, indent| value.write(f, indent))
            }
            Value::Object(members) => {
                self.write_all(f, indent, ['{', '}'], members, |f, (name, value), indent| {
                    write_text(f, name)?;
                    write!(f, ": ")?;
                    value.write(f, indent)
                })
            }
        }
    }

    fn write_all<T>(
        &self,
        f: &mut fmt::Formatter,
        indent: usize,
        [open, close]: [char; 2],
        items: &[T],
        item: impl Fn(&mut fmt::Formatter, &T, usize) -> fmt::Result,
    ) -> fmt::Result {
        let (gap, end, inner) = match self.is_flat() {
            true => (" ".to_string(), String::new(), indent),
            false => (format!("\n{:1$}", "", indent + 1), format!("\n{:1$}", "", indent), indent + 1),
        };
        write!(f, "{open}")?;
        for (index, value) in items.iter().enumerate() {
            let before = if index > 0 { "," } else { "" };
            let gap = if index == 0 && self.is_flat() { "" } else { gap.as_str() };
            write!(f, "{before}{gap}")?;
            item(f, value, inner)?;
        }
        write!(f, "{end}{close}")
    }
}

impl fmt::Display for Value {
    fn fmt(&self, f: &mut fmt::Formatter) -> fmt::Result {
        self.write(f, 0)
    }
}

fn write_text(f: &mut fmt::Formatter, text: &str) -> fmt::Result {
    write!(f, "\"")?;
    for letter in text.chars() {
        match letter {
            '"' | '\\' => write!(f, "\\{letter}")?,
            control if control < ' ' => write!(f, "\\u{:04x}", u32::from(control))?,
            letter => write!(f, "{letter}")?,
        }
    }
    write!(f, "\"")
}
