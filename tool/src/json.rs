//! JSON as text: what `--json` prints, on one line.

use std::fmt::{self, Display, Formatter, Write};

pub enum Json {
    Null,
    Bool(bool),
    Number(u64),
    Text(String),
    List(Vec<Json>),
    Object(Vec<(&'static str, Json)>),
}

impl Json {
    pub fn list<T: Into<Json>>(items: impl IntoIterator<Item = T>) -> Self {
        Json::List(items.into_iter().map(Into::into).collect())
    }
}

impl Display for Json {
    fn fmt(&self, out: &mut Formatter) -> fmt::Result {
        match self {
            Json::Null => out.write_str("null"),
            Json::Bool(value) => write!(out, "{value}"),
            Json::Number(value) => write!(out, "{value}"),
            Json::Text(text) => write_text(out, text),
            Json::List(items) => write_all(out, '[', items, ']', |out, item| write!(out, "{item}")),
            Json::Object(fields) => write_all(out, '{', fields, '}', |out, (name, value)| {
                write_text(out, name)?;
                write!(out, ": {value}")
            }),
        }
    }
}

fn write_all<T>(
    out: &mut Formatter,
    begin: char,
    items: &[T],
    end: char,
    write_one: impl Fn(&mut Formatter, &T) -> fmt::Result,
) -> fmt::Result {
    out.write_char(begin)?;
    for (index, item) in items.iter().enumerate() {
        if index > 0 {
            out.write_str(", ")?;
        }
        write_one(out, item)?;
    }
    out.write_char(end)
}

fn write_text(out: &mut Formatter, text: &str) -> fmt::Result {
    out.write_char('"')?;
    for character in text.chars() {
        match character {
            '"' | '\\' => write!(out, "\\{character}")?,
            _ if character < ' ' => write!(out, "\\u{:04x}", u32::from(character))?,
            _ => out.write_char(character)?,
        }
    }
    out.write_char('"')
}

macro_rules! numbers {
    ($($kind:ty)*) => {
        $(impl From<$kind> for Json {
            fn from(value: $kind) -> Self {
                Json::Number(value as u64)
            }
        })*
    };
}

numbers!(u8 u16 u32 u64 usize);

impl From<bool> for Json {
    fn from(value: bool) -> Self {
        Json::Bool(value)
    }
}

impl From<&str> for Json {
    fn from(text: &str) -> Self {
        Json::Text(text.to_string())
    }
}

impl<T: Into<Json>> From<Option<T>> for Json {
    fn from(value: Option<T>) -> Self {
        value.map_or(Json::Null, Into::into)
    }
}
