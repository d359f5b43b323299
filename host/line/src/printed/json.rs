//! JSON as text. Objects and arrays are put together from parts that are JSON already; objects of plain values are read back.
use std::fmt::Display;
use std::iter::Peekable;
use std::str::Chars;

/// A string, with what JSON asks to be escaped.
pub fn string(text: &str) -> String {
    let mut json = String::from("\"");
    for c in text.chars() {
        match c {
            '"' | '\\' => json.extend(['\\', c]),
            c if c.is_control() => json += &format!("\\u{:04x}", c as u32),
            c => json.push(c),
        }
    }
    json + "\""
}

pub fn array(parts: impl IntoIterator<Item = impl Display>) -> String {
    let parts: Vec<String> = parts.into_iter().map(|part| part.to_string()).collect();
    format!("[{}]", parts.join(", "))
}

pub fn object(fields: &[(&str, String)]) -> String {
    let fields: Vec<String> = fields.iter().map(|(name, value)| format!("{}: {value}", string(name))).collect();
    format!("{{{}}}", fields.join(", "))
}

/// An array with a line for each part.
pub fn lines(parts: impl Iterator<Item = String>) -> String {
    let parts: Vec<String> = parts.collect();
    if parts.is_empty() { String::from("[]") } else { format!("[\n{}\n]", parts.join(",\n")) }
}

/// An object with a line for each field: all that a command prints.
pub fn document(fields: &[(&str, String)]) -> String {
    format!("{{\n{}\n}}", members(fields))
}

/// The fields of such an object.
pub fn members(fields: &[(&str, String)]) -> String {
    fields.iter().map(|(name, value)| format!("{}: {value}", string(name))).collect::<Vec<_>>().join(",\n")
}

/// The same without line breaks: what is JSON has none within its strings.
pub fn one_line(json: &str) -> String {
    json.replace(",\n", ", ").replace('\n', "")
}

/// The value, or null.
pub fn maybe(value: Option<impl Display>) -> String {
    value.map_or_else(|| String::from("null"), |value| value.to_string())
}

/// Tenths as a number with one digit behind the point.
pub fn tenths(value: i32) -> String {
    format!("{}{}.{}", if value < 0 { "-" } else { "" }, value.unsigned_abs() / 10, value.unsigned_abs() % 10)
}

/// A value of an object that has no others within.
#[derive(Debug, PartialEq)]
pub enum Value {
    Null,
    Bool(bool),
    Number(i128),
    Text(String),
}

/// The members of an object of plain values, in their order; numbers are whole ones. `None` where the text is something else.
pub fn flat(text: &str) -> Option<Vec<(String, Value)>> {
    let (mut rest, mut members) = (text.chars().peekable(), Vec::new());
    mark(&mut rest, '{')?;
    if mark(&mut rest, '}').is_none() {
        loop {
            let name = text_of(&mut rest)?;
            mark(&mut rest, ':')?;
            members.push((name, value(&mut rest)?));
            if mark(&mut rest, ',').is_none() {
                break;
            }
        }
        mark(&mut rest, '}')?;
    }
    spaces(&mut rest);
    rest.next().is_none().then_some(members)
}

fn spaces(rest: &mut Peekable<Chars>) {
    while rest.next_if(|c| matches!(c, ' ' | '\t' | '\r' | '\n')).is_some() {}
}

fn mark(rest: &mut Peekable<Chars>, wanted: char) -> Option<char> {
    spaces(rest);
    rest.next_if_eq(&wanted)
}

fn value(rest: &mut Peekable<Chars>) -> Option<Value> {
    spaces(rest);
    if rest.peek() == Some(&'"') {
        return text_of(rest).map(Value::Text);
    }
    let mut word = String::new();
    while let Some(c) = rest.next_if(|c| c.is_ascii_alphanumeric() || *c == '-') {
        word.push(c);
    }
    match word.as_str() {
        "null" => Some(Value::Null),
        "true" => Some(Value::Bool(true)),
        "false" => Some(Value::Bool(false)),
        number => number.parse().ok().map(Value::Number),
    }
}

fn text_of(rest: &mut Peekable<Chars>) -> Option<String> {
    mark(rest, '"')?;
    let mut text = String::new();
    loop {
        match rest.next()? {
            '"' => return Some(text),
            '\\' => text.push(match rest.next()? {
                'u' => char::from_u32(u32::from_str_radix(&rest.by_ref().take(4).collect::<String>(), 16).ok()?)?,
                c @ ('"' | '\\' | '/') => c,
                _ => return None,
            }),
            c if c.is_control() => return None,
            c => text.push(c),
        }
    }
}

#[cfg(test)]
mod tests {
    use super::*;

    #[test]
    fn objects_are_read_back() {
        let name = "a\"b\\c\nd\u{7f}é";
        let line = object(&[("a", string(name)), ("b", maybe(None::<u8>)), ("c", String::from("-7")), ("d", String::from("true"))]);
        let wanted = [("a", Value::Text(name.to_string())), ("b", Value::Null), ("c", Value::Number(-7)), ("d", Value::Bool(true))];
        assert_eq!(flat(&line), Some(wanted.map(|(name, value)| (name.to_string(), value)).into()));
        assert_eq!(flat(" { } "), Some(Vec::new()));
        for bad in [
            "",
            "{",
            "{}x",
            "{\"a\":}",
            "{\"a\":1,}",
            "{\"a\":1.5}",
            "{\"a\":[1]}",
            "{\"a\":\"\\q\"}",
            "{\"a\":\"\\ud800\"}",
            "{\"a",
            "{a:1}",
        ] {
            assert_eq!(flat(bad), None, "{bad}");
        }
        // Every beginning of a line is none.
        assert!((0..line.len()).filter(|at| line.is_char_boundary(*at)).all(|at| flat(&line[..at]).is_none()));
    }

    #[test]
    fn strings_are_escaped() {
        assert_eq!(string("a\"b\\c\nd\u{7f}é"), "\"a\\\"b\\\\c\\u000ad\\u007fé\"");
        assert_eq!(object(&[("a", array([1, 2])), ("b", maybe(None::<u8>))]), "{\"a\": [1, 2], \"b\": null}");
        assert_eq!((tenths(-3), tenths(297), tenths(0)), (String::from("-0.3"), String::from("29.7"), String::from("0.0")));
    }
}
