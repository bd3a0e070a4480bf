//! Values that are read at every cut, and their texts.

use resp::Value::{self, Array, Attribute, Bool, Bulk, BulkError, Double, Int, Map, Null, Push, Set, Simple, Verbatim};
use resp::{AppendError, Cause, Decoder, Fault, Limits, Version};

fn bytes(text: &str) -> Vec<u8> {
    text.as_bytes().to_vec()
}

/// Values and their canonical text in version 3.
fn rows() -> Vec<(&'static [u8], Value)> {
    vec![
        (b"_\r\n", Null),
        (b"#t\r\n", Bool(true)),
        (b"#f\r\n", Bool(false)),
        (b":-9223372036854775808\r\n", Int(i64::MIN)),
        (b"+OK\r\n", Simple(bytes("OK"))),
        (b"+\r\n", Simple(bytes(""))),
        (b"-ERR no\r\n", Value::Error(bytes("ERR no"))),
        (b",1.5\r\n", Double(bytes("1.5"))),
        (b"$0\r\n\r\n", Bulk(bytes(""))),
        (b"$6\r\nab\r\ncd\r\n", Bulk(bytes("ab\r\ncd"))),
        (b"!3\r\nE x\r\n", BulkError(bytes("E x"))),
        (b"=7\r\ntxt:abc\r\n", Verbatim(*b"txt", bytes("abc"))),
        (b"(-12\r\n", Value::Big { negative: true, digits: bytes("12") }),
        (b"(0\r\n", Value::Big { negative: false, digits: bytes("0") }),
        (b"*0\r\n", Array(vec![])),
        (b"*2\r\n*1\r\n:1\r\n+a\r\n", Array(vec![Array(vec![Int(1)]), Simple(bytes("a"))])),
        (b"~1\r\n:1\r\n", Set(vec![Int(1)])),
        (b"%2\r\n+a\r\n:1\r\n_\r\n%0\r\n", Map(vec![(Simple(bytes("a")), Int(1)), (Null, Map(vec![]))])),
        (b">1\r\n+m\r\n", Push(vec![Simple(bytes("m"))])),
        (
            b"|1\r\n+a\r\n:1\r\n*1\r\n|1\r\n:2\r\n:3\r\n+v\r\n",
            Attribute(
                vec![(Simple(bytes("a")), Int(1))],
                Box::new(Array(vec![Attribute(vec![(Int(2), Int(3))], Box::new(Simple(bytes("v"))))])),
            ),
        ),
    ]
}

/// Returns the values of pieces.
fn read(version: Version, pieces: &[&[u8]]) -> Result<Vec<Value>, Fault> {
    let mut decoder = Decoder::new(version, &Limits::default()).expect("limits");
    let mut values = Vec::new();
    for piece in pieces {
        decoder.feed(piece);
        while let Some(value) = decoder.next_value()? {
            values.push(value);
        }
    }
    decoder.finish()?;
    Ok(values)
}

#[test]
fn values_at_every_cut() {
    for (text, value) in rows() {
        let twice = [text, text].concat();
        let wanted = vec![value.clone(), value.clone()];
        for cut in 0..=twice.len() {
            assert_eq!(read(Version::Three, &[&twice[..cut], &twice[cut..]]), Ok(wanted.clone()));
        }
        let pieces: Vec<&[u8]> = twice.chunks(1).collect();
        assert_eq!(read(Version::Three, &pieces), Ok(wanted));
        let mut written = b"before".to_vec();
        assert_eq!(value.append_to(Version::Three, &mut written), Ok(()));
        assert_eq!(written, [&b"before"[..], text].concat());
    }
    let other = b"$?\r\n;2\r\nab\r\n;0\r\n*?\r\n:1\r\n.\r\n*-1\r\n(+007\r\n";
    let wanted = vec![Bulk(bytes("ab")), Array(vec![Int(1)]), Null, Value::Big { negative: false, digits: bytes("7") }];
    assert_eq!(read(Version::Three, &[other]), Ok(wanted));
}

#[test]
fn long_texts_are_written() {
    for length in [0, 1, 26, 27, 28, 29, 100, 100_000] {
        let mut written = Vec::new();
        assert_eq!(Bulk(vec![b'x'; length]).append_to(Version::Two, &mut written), Ok(()));
        assert_eq!(read(Version::Two, &[&written]), Ok(vec![Bulk(vec![b'x'; length])]));
    }
}

#[test]
fn versions() {
    let in_two = [0, 3, 4, 5, 6, 8, 9, 14, 15];
    for (at, (_, value)) in rows().into_iter().enumerate() {
        let mut written = b"before".to_vec();
        let appended = value.append_to(Version::Two, &mut written);
        if in_two.contains(&at) {
            assert_eq!(read(Version::Two, &[&written[6..]]), Ok(vec![value]));
        } else {
            assert_eq!((appended, &written[..]), (Err(AppendError::Version), &b"before"[..]));
        }
    }
    let mut written = Vec::new();
    assert_eq!(Null.append_to(Version::Two, &mut written), Ok(()));
    assert_eq!(written, b"$-1\r\n");
}

#[test]
fn refusals() {
    let mut decoder = Decoder::new(Version::Two, &Limits::default()).expect("limits");
    decoder.feed(b":1\r\n*1\r\n:2\r\n*1\r\n:x\r\n:3\r\n");
    assert_eq!(decoder.next_value(), Ok(Some(Int(1))));
    assert_eq!(decoder.next_value(), Ok(Some(Array(vec![Int(2)]))));
    let fault = Fault { cause: Cause::Syntax, at: 5 };
    for _ in 0..2 {
        assert_eq!(decoder.next_value(), Err(fault));
        decoder.feed(b":4\r\n");
    }
    assert_eq!(decoder.finish(), Err(fault));
    assert_eq!(read(Version::Two, &[b"*1\r\n"]), Err(Fault { cause: Cause::Truncated, at: 4 }));
    for (text, at) in [(",\r\n", 1), (",abc\r\n", 1), (",.5\r\n", 1), (",1.\r\n", 3), (",0x1p3\r\n", 2), (",nan(1)\r\n", 4)] {
        let refused = Err(Fault { cause: Cause::Syntax, at });
        assert_eq!(read(Version::Three, &[text.as_bytes()]), refused, "{text}");
    }
    let mut written = b"before".to_vec();
    let bad = |digits: &str, negative| Value::Big { negative, digits: bytes(digits) };
    for (value, wanted) in [
        (Array(vec![Int(1), Simple(bytes("a\n"))]), AppendError::BadLine),
        (Value::Error(bytes("\r")), AppendError::BadLine),
        (Double(bytes("1\r")), AppendError::BadDigits),
        (Double(bytes("abc")), AppendError::BadDigits),
        (Double(bytes(".5")), AppendError::BadDigits),
        (bad("", false), AppendError::BadDigits),
        (bad("01", false), AppendError::BadDigits),
        (bad("0", true), AppendError::BadDigits),
        (bad("1a", true), AppendError::BadDigits),
    ] {
        assert_eq!(value.append_to(Version::Three, &mut written), Err(wanted));
        assert_eq!(written, b"before");
    }
}

#[test]
fn the_version_changes_between_values() {
    let mut decoder = Decoder::new(Version::Two, &Limits::default()).expect("limits");
    decoder.feed(b"+a\r\n");
    assert_eq!(decoder.set_version(Version::Three), Ok(()));
    decoder.feed(b"_\r\n*1");
    assert!(decoder.set_version(Version::Two).is_err());
    assert_eq!([decoder.next_value(), decoder.next_value(), decoder.next_value()], [
        Ok(Some(Simple(bytes("a")))),
        Ok(Some(Null)),
        Ok(None)
    ]);
}
