//! Tests of the scanner in rows: texts and their events, at every cut; and of its other calls.

use resp::{command, Aggregate, BadLimits, Busy, Cause, CommandError, Event, Fault, Limits, Scanner, Text, Version};
use std::fmt::Write;

/// Returns the events of pieces: `_`, `#1`, `:7`, the type byte of a text and its bytes in quotes, the type byte of an
/// aggregate with the number of its members, `]` for a close, `.` for done, and a fault.
fn said(version: Version, limits: &Limits, pieces: &[&[u8]]) -> String {
    let mut scanner = Scanner::new(version, limits).expect("limits");
    let mut said = String::new();
    for piece in pieces {
        let mut rest = *piece;
        loop {
            match scanner.step(rest) {
                Ok(step) => {
                    rest = &rest[step.used..];
                    match step.event {
                        Some(event) => say(&mut said, event),
                        None => break,
                    }
                }
                Err(fault) => {
                    assert_eq!(scanner.step(b"+"), Err(fault));
                    assert_eq!(scanner.finish(), Err(fault));
                    write!(said, "!{fault}").expect("a string");
                    return said;
                }
            }
        }
    }
    if let Err(fault) = scanner.finish() {
        write!(said, "!{fault}").expect("a string");
    }
    said
}

/// The same with `scan` for each piece.
fn said_by_scans(version: Version, limits: &Limits, pieces: &[&[u8]]) -> String {
    let mut scanner = Scanner::new(version, limits).expect("limits");
    let mut said = String::new();
    for piece in pieces {
        let mut fault = None;
        for event in scanner.scan(piece) {
            assert_eq!(fault, None, "an event after a fault");
            match event {
                Ok(event) => say(&mut said, event),
                Err(it) => fault = Some(it),
            }
        }
        if let Some(fault) = fault {
            assert_eq!(scanner.scan(b"+").collect::<Vec<_>>(), [Err(fault)]);
            assert_eq!(scanner.finish(), Err(fault));
            write!(said, "!{fault}").expect("a string");
            return said;
        }
    }
    if let Err(fault) = scanner.finish() {
        write!(said, "!{fault}").expect("a string");
    }
    said
}

fn say(said: &mut String, event: Event<'_>) {
    match event {
        Event::Null => said.push('_'),
        Event::Bool(truth) => said.push_str(if truth { "#t" } else { "#f" }),
        Event::Int(number) => write!(said, ":{number}").expect("a string"),
        Event::Text(Text::Simple) => said.push_str("+\""),
        Event::Text(Text::Error) => said.push_str("-\""),
        Event::Text(Text::Double) => said.push_str(",\""),
        Event::Text(Text::Bulk) => said.push_str("$\""),
        Event::Text(Text::BulkError) => said.push_str("!\""),
        Event::Text(Text::Verbatim(format)) => write!(said, "={}\"", format.escape_ascii()).expect("a string"),
        Event::Text(Text::Big { negative }) => said.push_str(if negative { "(-\"" } else { "(\"" }),
        Event::Part(part) => write!(said, "{}", part.escape_ascii()).expect("a string"),
        Event::TextEnd => said.push('"'),
        Event::Open(kind, members) => {
            said.push(match kind {
                Aggregate::Array => '*',
                Aggregate::Set => '~',
                Aggregate::Map => '%',
                Aggregate::Attribute => '|',
                Aggregate::Push => '>',
            });
            match members {
                Some(members) => write!(said, "{members}").expect("a string"),
                None => said.push('?'),
            }
        }
        Event::Close => said.push(']'),
        Event::Done => said.push('.'),
    }
}

fn check(version: Version, limits: &Limits, text: &[u8], wanted: &str) {
    for cut in 0..=text.len() {
        let pieces = [&text[..cut], &text[cut..]];
        assert_eq!(said(version, limits, &pieces), wanted, "cut at {cut}");
        assert_eq!(said_by_scans(version, limits, &pieces), wanted, "scanned, cut at {cut}");
    }
    let bytes: Vec<&[u8]> = text.chunks(1).flat_map(|byte| [byte, b""]).collect();
    assert_eq!(said(version, limits, &bytes), wanted, "byte by byte");
    assert_eq!(said_by_scans(version, limits, &bytes), wanted, "scanned, byte by byte");
}

#[test]
fn version_two() {
    let limits = Limits::default();
    for (text, wanted) in [
        (&b"+OK\r\n"[..], "+\"OK\"."),
        (b"-ERR no\r\n", "-\"ERR no\"."),
        (b":-9223372036854775808\r\n", ":-9223372036854775808."),
        (b":9223372036854775808\r\n", "!Range at byte 19 of the value"),
        (b"$5\r\nhe\r\no\r\n", "$\"he\\r\\no\"."),
        (b"$-1\r\n*-1\r\n", "_._."),
        (b"*2\r\n*1\r\n+a\r\n:-1\r\n", "*2*1+\"a\"]:-1]."),
        (b"_\r\n", "!Version at byte 0 of the value"),
        (b"$5\r\nhel", "$\"hel!Truncated at byte 7 of the value"),
    ] {
        check(Version::Two, &limits, text, wanted);
    }
}

#[test]
fn version_three() {
    let limits = Limits::default();
    for (text, wanted) in [
        (&b"_\r\n#t\r\n#f\r\n"[..], "_.#t.#f."),
        (b"(-0012\r\n(0\r\n", "(-\"12\".(\"\"."),
        (b"!3\r\nE x\r\n", "!\"E x\"."),
        (b"=7\r\ntxt:abc\r\n", "=txt\"abc\"."),
        (b"$?\r\n;4\r\nhell\r\n;1\r\no\r\n;0\r\n", "$\"hello\"."),
        (b"*?\r\n:1\r\n.\r\n", "*?:1]."),
        (b"%1\r\n+k\r\n~1\r\n:1\r\n", "%1+\"k\"~1:1]]."),
        (b"|1\r\n+a\r\n:1\r\n+v\r\n", "|1+\"a\":1+\"v\"]."),
        (b">1\r\n+m\r\n", ">1+\"m\"]."),
        (b"*1\r\n>", "*1!NestedPush at byte 4 of the value"),
        (b",1.5\r\n", ",\"1.5\"."),
    ] {
        check(Version::Three, &limits, text, wanted);
    }
    let limits = Limits { streamed: false, doubles: false, ..Limits::default() };
    check(Version::Three, &limits, b",1.5\r\n", "!Double at byte 0 of the value");
    check(Version::Three, &limits, b"*?\r\n", "!Streamed at byte 1 of the value");
}

#[test]
fn many_events() {
    let limits = Limits { depth: 128, ..Limits::default() };
    for members in 55..75 {
        let text = format!("*{members}\r\n{}+OK\r\n", ":7\r\n".repeat(members));
        let wanted = format!("*{members}{}].+\"OK\".", ":7".repeat(members));
        check(Version::Two, &limits, text.as_bytes(), &wanted);
    }
    for depth in [63, 64, 65, 128] {
        let text = format!("{}$2\r\nab\r\n!", "*1\r\n".repeat(depth));
        let wanted = format!("{}$\"ab\"{}.!Version at byte 0 of the value", "*1".repeat(depth), "]".repeat(depth));
        check(Version::Two, &limits, text.as_bytes(), &wanted);
    }
}

#[test]
fn a_scan_that_is_dropped_has_taken_the_piece() {
    let mut scanner = Scanner::new(Version::Two, &Limits::default()).expect("limits");
    let text = format!("{}*1\r\n", "+a\r\n".repeat(1000));
    for asked in [0, 1, 3, 100, 3999] {
        assert_eq!(scanner.scan(text.as_bytes()).take(asked).count(), asked);
        assert_eq!((scanner.depth(), scanner.taken()), (1, 4));
        let events: Result<Vec<Event>, Fault> = scanner.scan(b":1\r\n").collect();
        assert_eq!(events, Ok(vec![Event::Int(1), Event::Close, Event::Done]));
    }
    scanner.scan(b"+a\r\n:x+").next();
    assert_eq!(scanner.finish(), Err(Fault { cause: Cause::Syntax, at: 1 }));
}

#[test]
fn calls() {
    assert!(matches!(Scanner::new(Version::Two, &Limits { depth: 3, ..Limits::default() }), Err(BadLimits)));
    let mut scanner = Scanner::new(Version::Two, &Limits::default()).expect("limits");
    assert_eq!(scanner.needed(), 3);
    assert_eq!(scanner.step(b"*1\r\n$5\r\n").expect("an open").used, 4);
    assert_eq!((scanner.depth(), scanner.taken(), scanner.needed()), (1, 4, 3));
    assert_eq!(scanner.set_version(Version::Three), Err(Busy));
    assert_eq!(scanner.finish(), Err(Fault { cause: Cause::Truncated, at: 4 }));
    let mut scanner = Scanner::new(Version::Two, &Limits::default()).expect("limits");
    assert_eq!(scanner.set_version(Version::Three), Ok(()));
    assert_eq!(scanner.step(b"_\r\n").expect("a null").event, Some(Event::Null));
}

#[test]
fn commands() {
    let limits = Limits { length: 64, total: 256, items: 16, ..Limits::default() };
    let no_words: [&str; 0] = [];
    assert_eq!(command(&limits, &no_words), Ok(b"*0\r\n".to_vec()));
    assert_eq!(command(&limits, &["SET", "", "a\r\n"]), Ok(b"*3\r\n$3\r\nSET\r\n$0\r\n\r\n$3\r\na\r\n\r\n".to_vec()));
    assert_eq!(command(&limits, &[[0; 65]]), Err(CommandError::Length));
    assert_eq!(command(&limits, &["a"; 17]), Err(CommandError::Items));
    assert_eq!(command(&limits, &[[0; 64]; 4]), Err(CommandError::Total));
    assert_eq!(command(&Limits { depth: 3, ..limits }, &["a"]), Err(CommandError::BadLimits));
}

/// Returns the parts of a text that is read in two pieces, by steps and by `scan`: each with its range in the piece.
fn parts<'a>(pieces: [&'a [u8]; 2], by_steps: bool) -> Vec<(&'a [u8], Option<std::ops::Range<usize>>)> {
    let mut scanner = Scanner::new(Version::Three, &Limits::default()).expect("limits");
    let mut parts = Vec::new();
    for piece in pieces {
        let mut events = Vec::new();
        if by_steps {
            let mut rest = piece;
            loop {
                let step = scanner.step(rest).expect("a step");
                rest = &rest[step.used..];
                match step.event {
                    Some(event) => events.push(event),
                    None => break,
                }
            }
        } else {
            events.extend(scanner.scan(piece).map(|event| event.expect("an event")));
        }
        for event in events {
            match event {
                Event::Part(part) => parts.push((part, event.range(piece))),
                _ => assert_eq!(event.range(piece), None),
            }
        }
    }
    parts
}

#[test]
fn ranges_of_parts() {
    for by_steps in [false, true] {
        assert_eq!(parts([b"+OK\r\n$5\r\nhel", b"lo\r\n"], by_steps).iter().map(|it| it.1.clone()).collect::<Vec<_>>(), [
            Some(1..3),
            Some(9..12),
            Some(0..2)
        ]);
        // Each part is in its piece, or has no range.
        for text in [&b"(0012\r\n(1200\r\n(-0\r\n(00\r\n(123\r\n"[..], b"=6\r\ntxt:ab\r\n$?\r\n;2\r\nab\r\n;0\r\n"] {
            for cut in 0..=text.len() {
                let (first, second) = text.split_at(cut);
                for (part, range) in parts([first, second], by_steps) {
                    match range {
                        Some(range) => assert!(first.get(range.clone()) == Some(part) || second.get(range) == Some(part)),
                        None => assert!(part.len() == 1 && part[0].is_ascii_digit(), "{part:?}"),
                    }
                }
            }
        }
    }
    // The first digit of a big number after leading zeros that ended a piece.
    assert_eq!(parts([b"(00", b"12\r\n"], true), [(&b"1"[..], None), (&b"2"[..], Some(1..2))]);
}
