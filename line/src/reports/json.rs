//! JSON as RFC 8259 has it: values, and their text.

use std::fmt::{self, Display, Write};

/// A value.
#[derive(Debug, Clone, PartialEq, Eq)]
pub enum Json {
    Null,
    Number(u64),
    Text(String),
    List(Vec<Json>),
    /// Names with their values, in the order in which they are written.
    Object(Vec<(&'static str, Json)>),
}

impl Json {
    pub fn text(text: impl Into<String>) -> Json {
        Json::Text(text.into())
    }

    /// A text, or null where there is none.
    pub fn text_or_null(text: Option<&str>) -> Json {
        text.map_or(Json::Null, Json::text)
    }

    /// A list of texts.
    pub fn texts(all: &[String]) -> Json {
        Json::List(all.iter().map(Json::text).collect())
    }

    fn write(&self, to: &mut fmt::Formatter, depth: usize) -> fmt::Result {
        match self {
            Json::Null => to.write_str("null"),
            Json::Number(number) => write!(to, "{number}"),
            Json::Text(text) => quoted(to, text),
            Json::List(all) => enclosed(to, '[', ']', depth, all, |to, value| {
                value.write(to, depth + 1)
            }),
            Json::Object(all) => enclosed(to, '{', '}', depth, all, |to, (name, value)| {
                quoted(to, name)?;
                to.write_str(": ")?;
                value.write(to, depth + 1)
            }),
        }
    }
}

impl Display for Json {
    fn fmt(&self, to: &mut fmt::Formatter) -> fmt::Result {
        self.write(to, 0)
    }
}

/// Things between brackets, one a line, as deep as they are.
fn enclosed<T>(
    to: &mut fmt::Formatter,
    open: char,
    close: char,
    depth: usize,
    all: &[T],
    each: impl Fn(&mut fmt::Formatter, &T) -> fmt::Result,
) -> fmt::Result {
    to.write_char(open)?;
    for (number, one) in all.iter().enumerate() {
        let before = if number == 0 { "" } else { "," };
        write!(to, "{before}\n{:1$}", "", 2 * (depth + 1))?;
        each(to, one)?;
    }
    if !all.is_empty() {
        write!(to, "\n{:1$}", "", 2 * depth)?;
    }
    to.write_char(close)
}

/// A text between quotes, with what must be escaped.
fn quoted(to: &mut fmt::Formatter, text: &str) -> fmt::Result {
    to.write_char('"')?;
    for c in text.chars() {
        match c {
            '"' => to.write_str("\\\"")?,
            '\\' => to.write_str("\\\\")?,
            '\n' => to.write_str("\\n")?,
            c if c.is_control() => write!(to, "\\u{:04x}", u32::from(c))?,
            c => to.write_char(c)?,
        }
    }
    to.write_char('"')
}

#[cfg(test)]
mod tests {
    use super::*;

    #[test]
    fn values_are_written_as_they_must() {
        assert_eq!(Json::Null.to_string(), "null");
        assert_eq!(Json::Number(u64::MAX).to_string(), "18446744073709551615");
        assert_eq!(Json::List(vec![]).to_string(), "[]");
        assert_eq!(Json::Object(vec![]).to_string(), "{}");
        let nested = Json::Object(vec![
            ("a", Json::List(vec![Json::Number(1), Json::Null])),
            ("b", Json::text("c")),
        ]);
        let written = "{\n  \"a\": [\n    1,\n    null\n  ],\n  \"b\": \"c\"\n}";
        assert_eq!(nested.to_string(), written);
    }

    #[test]
    fn what_would_end_a_text_or_is_no_character_is_escaped() {
        let text = Json::text("a\"b\\c\nd\te\u{0}\u{1F}\u{7F}é</script>");
        let written = "\"a\\\"b\\\\c\\nd\\u0009e\\u0000\\u001f\\u007fé</script>\"";
        assert_eq!(text.to_string(), written);
    }
}
