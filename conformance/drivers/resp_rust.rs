/* This project's crate for Rust: its Decoder.
 * ours
 * needs: rustc {C}/lib/libresp.a
 * make: rustc --edition 2021 -O --crate-type rlib --crate-name resp -L native={C}/lib -l static=resp --out-dir {OUT}.d {TOP}/bindings/rust/src/lib.rs
 * make: rustc --edition 2021 -O --extern resp={OUT}.d/libresp.rlib -L native={C}/lib -o {OUT} {FILE}
 * run: {OUT} */
use resp::{Decoder, Limits, Value, Version};
use std::io::{self, BufRead, Write};

/// Returns bytes as a JSON string with a character for each byte.
fn text(bytes: &[u8]) -> String {
    let escaped = bytes.iter().map(|&byte| match byte {
        b'"' | b'\\' | 0..=31 | 127..=255 => format!("\\u{byte:04x}"),
        _ => char::from(byte).to_string(),
    });
    format!("\"{}\"", escaped.collect::<String>())
}

fn list(values: &[Value]) -> String {
    let told: Vec<String> = values.iter().map(told).collect();
    format!("[{}]", told.join(", "))
}

fn pairs(pairs: &[(Value, Value)]) -> String {
    let told: Vec<String> = pairs.iter().map(|(key, value)| format!("[{}, {}]", told(key), told(value))).collect();
    format!("[{}]", told.join(", "))
}

fn told(value: &Value) -> String {
    match value {
        Value::Null => "[\"null\"]".to_string(),
        Value::Bool(truth) => format!("[\"boolean\", {truth}]"),
        Value::Int(number) => format!("[\"integer\", \"{number}\"]"),
        Value::Simple(bytes) => format!("[\"simple\", {}]", text(bytes)),
        Value::Error(bytes) => format!("[\"error\", {}]", text(bytes)),
        Value::Double(bytes) => format!("[\"double\", {}]", text(bytes)),
        Value::Bulk(bytes) => format!("[\"bulk\", {}]", text(bytes)),
        Value::BulkError(bytes) => format!("[\"bulkerror\", {}]", text(bytes)),
        Value::Verbatim(format, bytes) => format!("[\"verbatim\", {}, {}]", text(format), text(bytes)),
        Value::Big { negative, digits } => format!("[\"big\", {}]", text(&[if *negative { b"-" } else { &b""[..] }, digits].concat())),
        Value::Array(members) => format!("[\"array\", {}]", list(members)),
        Value::Set(members) => format!("[\"set\", {}]", list(members)),
        Value::Push(members) => format!("[\"push\", {}]", list(members)),
        Value::Map(members) => format!("[\"map\", {}]", pairs(members)),
        Value::Attribute(members, value) => format!("[\"attribute\", {}, {}]", pairs(members), told(value)),
        _ => "[\"unknown\"]".to_string(),
    }
}

fn judge(line: &str) -> String {
    let words: Vec<&str> = line.split_whitespace().collect();
    let version = if words[1] == "3" { Version::Three } else { Version::Two };
    let limits = Limits { doubles: version == Version::Three, ..Limits::default() };
    let mut decoder = Decoder::new(version, &limits).expect("limits within their ranges");
    let (mut values, mut end) = (Vec::new(), "more");
    for piece in words.get(2).unwrap_or(&"").split(',').filter(|piece| *piece != "end") {
        let bytes: Vec<u8> = (0..piece.len()).step_by(2).map(|at| u8::from_str_radix(&piece[at..at + 2], 16).unwrap()).collect();
        decoder.feed(&bytes);
        while let Some(value) = decoder.next_value().unwrap_or_else(|_| { end = "error"; None }) {
            values.push(told(&value));
        }
    }
    format!("{{\"id\": \"{}\", \"values\": [{}], \"end\": \"{end}\"}}", words[0], values.join(", "))
}

fn main() {
    if std::env::args().any(|word| word == "--about") {
        println!("{{\"parser\": \"resp, Rust\", \"profiles\": [\"resp2\", \"resp3\", \"streamed\"], \"same\": [[\"null\", \"nullbulk\", \"nullarray\"]]}}");
        return;
    }
    let mut out = io::stdout();
    for line in io::stdin().lock().lines() {
        writeln!(out, "{}", judge(&line.expect("a line of text"))).and_then(|()| out.flush()).expect("an open output");
    }
}
