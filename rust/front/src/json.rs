//! JSON, as far as it is written here.

use std::fmt;

#[derive(Clone, Debug)]
pub enum Json {
    Number(u64),
    Text(String),
    List(Vec<Json>),
    Object(Vec<(&'static str, Json)>),
}

impl Json {
    pub fn text(text: impl Into<String>) -> Json {
        Json::Text(text.into())
    }

    pub fn texts<'a>(texts: impl IntoIterator<Item = &'a str>) -> Json {
        Json::List(texts.into_iter().map(Json::text).collect())
    }
}

/// The values with a comma between them.
fn joined<T>(
    out: &mut fmt::Formatter,
    values: &[T],
    mut write: impl FnMut(&mut fmt::Formatter, &T) -> fmt::Result,
) -> fmt::Result {
    for (place, value) in values.iter().enumerate() {
        if place > 0 {
            out.write_str(",")?;
        }
        write(out, value)?;
    }
    Ok(())
}

fn quoted(out: &mut fmt::Formatter, text: &str) -> fmt::Result {
    out.write_str("\"")?;
    for character in text.chars() {
        match character {
            '"' | '\\' => write!(out, "\\{character}")?,
            '\0'..='\x1f' => write!(out, "\\u{:04x}", character as u32)?,
            _ => write!(out, "{character}")?,
        }
    }
    out.write_str("\"")
}

impl fmt::Display for Json {
    fn fmt(&self, out: &mut fmt::Formatter) -> fmt::Result {
        match self {
            Json::Number(number) => write!(out, "{number}"),
            Json::Text(text) => quoted(out, text),
            Json::List(values) => {
                out.write_str("[")?;
                joined(out, values, |out, value| value.fmt(out))?;
                out.write_str("]")
            }
            Json::Object(fields) => {
                out.write_str("{")?;
                joined(out, fields, |out, (name, value)| {
                    quoted(out, name)?;
                    write!(out, ":{value}")
                })?;
                out.write_str("}")
            }
        }
    }
}

#[cfg(test)]
mod tests {
    use super::*;

    #[test]
    fn values() {
        let value = Json::Object(vec![
            ("set", Json::texts(["lamp", "dark"])),
            ("units", Json::Number(7)),
            ("none", Json::List(Vec::new())),
            ("text", Json::text("a \"b\" \\ \n\u{e9}")),
        ]);
        let expected = r#"{"set":["lamp","dark"],"units":7,"none":[],"text":"a \"b\" \\ \u000a"#
            .to_string()
            + "\u{e9}\"}";
        assert_eq!(value.to_string(), expected);
    }
}
