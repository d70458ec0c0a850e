//! Answers as JSON: one object for each, numbers whole, as the program printed them.

use crate::answers::lines;
use crate::explain::schedule::{Row, Speed};
use serde_json::{json, Map, Number, Value};
use std::str::FromStr;

/// The lines of an answer: key, and what stands behind it.
fn entries(answer: &[u8]) -> Vec<(String, String)> {
    let split = |line: &[u8]| {
        let line = String::from_utf8_lossy(line).into_owned();
        match line.split_once('=') {
            Some((key, value)) => (key.to_string(), value.to_string()),
            None => (line, String::new()),
        }
    };
    lines(answer).map(split).collect()
}

/// Digits go through as they are, however many.
fn value(text: &str) -> Value {
    let digits = text.strip_prefix('-').unwrap_or(text);
    let is_number = !digits.is_empty() && digits.bytes().all(|byte| byte.is_ascii_digit());
    match Number::from_str(text) {
        Ok(number) if is_number => Value::Number(number),
        _ => Value::String(text.to_string()),
    }
}

/// The values between commas, by name.
fn object(names: &[&str], text: &str) -> Value {
    Value::Object(names.iter().zip(text.split(',')).map(|(name, part)| (name.to_string(), value(part))).collect())
}

fn push(out: &mut Map<String, Value>, name: &str, entry: Value) {
    if let Value::Array(entries) = out.entry(name).or_insert_with(|| json!([])) {
        entries.push(entry);
    }
}

fn written(out: Map<String, Value>) -> String {
    format!("{}\n", Value::Object(out))
}

/// A plan sheet or a figure sheet; `name` where there are several, `why` where it is a refusal.
pub fn sheet(command: &str, answer: &[u8], name: Option<String>, why: Option<&str>) -> String {
    let mut out = Map::new();
    out.extend(name.map(|name| ("sheet".to_string(), Value::String(name))));
    for (key, text) in entries(answer) {
        match key.as_str() {
            "detours" => {
                out.insert(key, json!([]));
            }
            "detour" => push(&mut out, "detours", object(&["from", "to"], &text)),
            "buys" if command == "buys" => push(&mut out, "detours", object(&["from", "to", "buys"], &text)),
            "time" => push(&mut out, "times", object(&["file", "time", "leg"], &text)),
            "tape" => {
                out.insert(key, Value::String(text));
            }
            _ => {
                out.insert(key, value(&text));
            }
        }
    }
    if command == "plan" && why.is_none() {
        out.entry("times").or_insert_with(|| json!([]));
    }
    out.extend(why.map(|why| ("why".to_string(), Value::String(why.to_string()))));
    written(out)
}

/// A plan sheet, and who gets which file when.
pub fn recall(answer: &[u8], rows: &[Row], speed: Speed) -> String {
    let row = |row: &Row| {
        let mut out = Map::new();
        out.insert("time".to_string(), json!(row.time));
        if let Some(seconds) = speed.seconds(row.time) {
            out.insert("seconds".to_string(), json!(seconds));
            out.extend(speed.moment(seconds).map(|moment| ("at".to_string(), Value::String(moment.replace(' ', "T")))));
        }
        out.insert("leg".to_string(), json!(row.leg));
        out.insert("reads".to_string(), value(&row.reads));
        out.insert("file".to_string(), json!(row.file));
        out.extend(row.path.map(|path| ("path".to_string(), Value::String(String::from_utf8_lossy(path).into_owned()))));
        Value::Object(out)
    };
    let sheet = sheet("plan", answer, None, None);
    let rows = Value::Array(rows.iter().map(row).collect());
    format!("{},\"files\":{rows}}}\n", sheet.trim_end().trim_end_matches('}'))
}

pub fn check(answer: &[u8], why: Option<&str>) -> String {
    let mut out = Map::new();
    for (key, text) in entries(answer) {
        let behind = text.strip_prefix("no,").map(value);
        match key.as_str() {
            "formed" | "walk" | "least" => {
                let name = match key.as_str() {
                    "formed" => "detour",
                    "walk" => "line",
                    _ => "less",
                };
                out.insert(key, Value::Bool(text == "yes"));
                out.extend(behind.map(|behind| (name.to_string(), behind)));
            }
            "found" | "expected" => {
                out.insert(key, Value::String(text));
            }
            _ => {
                out.insert(key, value(&text));
            }
        }
    }
    out.extend(why.map(|why| ("why".to_string(), Value::String(why.to_string()))));
    written(out)
}

pub fn month(page: &[u8], why: Option<&str>) -> String {
    let mut out = Map::new();
    for (key, text) in entries(page) {
        match key.as_str() {
            "refusals" => {
                out.insert(key, json!([]));
            }
            "refusal" => push(&mut out, "refusals", object(&["number", "sheets"], &text)),
            "mean" => {
                out.insert(key, object(&["whole", "remainder"], &text));
            }
            "longest" => {
                out.insert(key, object(&["time", "tape", "file"], &text));
            }
            _ => {
                out.insert(key, value(&text));
            }
        }
    }
    if let Some(Value::Object(longest)) = out.get_mut("longest") {
        if let Some(tape) = longest.get_mut("tape") {
            *tape = Value::String(tape.as_str().map_or_else(|| tape.to_string(), str::to_string));
        }
    }
    out.extend(why.map(|why| ("why".to_string(), Value::String(why.to_string()))));
    written(out)
}

#[cfg(test)]
mod tests {
    use super::*;

    #[test]
    fn whole_numbers() {
        let big = "123456789012345678901234567890";
        let text = sheet("plan", format!("tape=7\nsum={big}\ndetours=0\n").as_bytes(), None, None);
        assert_eq!(text, format!("{{\"tape\":\"7\",\"sum\":{big},\"detours\":[],\"times\":[]}}\n"));
    }

    #[test]
    fn checks() {
        assert_eq!(
            check(b"formed=yes\nwalk=no,9\nleast=no,198\nfound=a\nexpected=b\n", None),
            "{\"formed\":true,\"walk\":false,\"line\":9,\"least\":false,\"less\":198,\"found\":\"a\",\"expected\":\"b\"}\n"
        );
        assert_eq!(month(b"refusals=1\nrefusal=11,1\nmean=77,6\nlongest=133,7,4\n", None), "{\"refusals\":[{\"number\":11,\"sheets\":1}],\"mean\":{\"whole\":77,\"remainder\":6},\"longest\":{\"time\":133,\"tape\":\"7\",\"file\":4}}\n");
    }
}
