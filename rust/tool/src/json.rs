//! JSON objects, written field by field.

use std::fmt::{Display, Write};

/// An object, a line of JSON.
pub struct Object(String);

impl Object {
    pub fn new() -> Self {
        Self(String::new())
    }

    /// A field whose value is JSON already: a number, `true`, `null`, a list or an object.
    pub fn field(mut self, name: &str, value: impl Display) -> Self {
        if !self.0.is_empty() {
            self.0.push(',');
        }
        self.0 += &quoted(name);
        // Writing to a String never fails.
        write!(self.0, ":{value}").unwrap_or_default();
        self
    }

    pub fn text(self, name: &str, value: impl Display) -> Self {
        let value = quoted(&value.to_string());
        self.field(name, value)
    }

    /// A text, or `null`.
    pub fn maybe(self, name: &str, value: Option<impl Display>) -> Self {
        match value {
            Some(value) => self.text(name, value),
            None => self.field(name, "null"),
        }
    }

    pub fn end(self) -> String {
        format!("{{{}}}", self.0)
    }
}

/// A list of JSON values.
pub fn list(values: impl Iterator<Item = String>) -> String {
    format!("[{}]", values.collect::<Vec<_>>().join(","))
}

/// A list of texts.
pub fn texts(values: impl Iterator<Item = impl Display>) -> String {
    list(values.map(|value| quoted(&value.to_string())))
}

pub fn quoted(text: &str) -> String {
    let mut out = String::with_capacity(text.len() + 2);
    out.push('"');
    for letter in text.chars() {
        match letter {
            '"' | '\\' => out.extend(['\\', letter]),
            '\n' => out += "\\n",
            // Control characters must not stand in a JSON text.
            '\0'..='\u{1f}' => write!(out, "\\u{:04x}", u32::from(letter)).unwrap_or_default(),
            _ => out.push(letter),
        }
    }
    out.push('"');
    out
}

#[cfg(test)]
mod tests {
    use super::*;

    #[test]
    fn what_must_be_escaped_is() {
        assert_eq!(quoted("a\"b\\c\nd\te"), r#""a\"b\\c\nd\u0009e""#);
        let object = Object::new().text("a", "é").field("b", 1);
        assert_eq!(
            object.maybe("c", None::<u8>).end(),
            r#"{"a":"é","b":1,"c":null}"#
        );
        assert_eq!(texts(["x", "y"].iter()), r#"["x","y"]"#);
    }
}
