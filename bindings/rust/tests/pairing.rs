//! Conversations over HELLO, at every cut.

use resp::{Cause, Event, Fault, Limits, PairError, Pairing, QueueError, Version};
use std::fmt::Write;

/// Returns the ends of the values in pieces, as `number.` or `push.`, nulls as `_`, and the error.
fn said(pairing: &mut Pairing, pieces: &[&[u8]]) -> String {
    let mut said = String::new();
    for piece in pieces {
        let mut rest = *piece;
        loop {
            match pairing.step(rest) {
                Ok(step) => {
                    rest = &rest[step.used..];
                    match step.event {
                        Some((Some(number), Event::Done)) => write!(said, "{number}.").expect("a string"),
                        Some((None, Event::Done)) => said.push_str("push."),
                        Some((_, Event::Null)) => said.push('_'),
                        Some(_) => (),
                        None => break,
                    }
                }
                Err(error) => {
                    write!(said, "!{error}").expect("a string");
                    return said;
                }
            }
        }
    }
    said
}

/// Runs a conversation whole, cut in two at each byte, and byte by byte. A command is 0, or the version that a HELLO
/// asks for.
fn check(commands: &[u32], text: &[u8], wanted: &str, version: Version) {
    let mut cuts: Vec<Vec<&[u8]>> = (0..=text.len()).map(|at| vec![&text[..at], &text[at..]]).collect();
    cuts.push(text.chunks(1).collect());
    for pieces in cuts {
        let mut pairing = Pairing::new(&Limits::default()).expect("limits");
        for (at, hello) in commands.iter().enumerate() {
            let number = match hello {
                0 => pairing.queue(),
                2 => pairing.hello(Version::Two),
                _ => pairing.hello(Version::Three),
            };
            assert_eq!(number, Ok(at as u64 + 1));
        }
        assert_eq!(said(&mut pairing, &pieces), wanted, "{pieces:?}");
        assert_eq!(pairing.version(), version);
    }
}

#[test]
fn conversations() {
    check(&[0, 0], b"+OK\r\n$-1\r\n", "1._2.", Version::Two);
    check(&[0, 3, 0], b"$-1\r\n%1\r\n+a\r\n_\r\n_\r\n", "_1._2._3.", Version::Three);
    check(&[3], b">1\r\n+a\r\n-ERR no\r\n>0\r\n", "push.1.!Version at byte 0 of the value", Version::Two);
    check(&[3, 0], b"-NOPROTO\r\n_\r\n", "1.!Version at byte 0 of the value", Version::Two);
    check(&[3, 0], b"%0\r\n|1\r\n+a\r\n+b\r\n#t\r\n", "1.2.", Version::Three);
    check(&[0], b"+OK\r\n+OK\r\n", "1.!no command asked for this value", Version::Two);
}

#[test]
fn refusals() {
    let mut pairing = Pairing::new(&Limits::default()).expect("limits");
    assert_eq!(pairing.step(b"+OK\r\n"), Err(PairError::Unasked));
    assert_eq!(pairing.hello(Version::Three), Ok(1));
    assert_eq!(pairing.hello(Version::Two), Err(QueueError::HelloWaits));
    assert_eq!(pairing.queue(), Ok(2));
    assert_eq!(said(&mut pairing, &[b"+OK\r\n"]), "1.");
    assert_eq!(pairing.hello(Version::Two), Ok(3));
    assert_eq!(pairing.step(b"x"), Err(PairError::Fault(Fault { cause: Cause::Syntax, at: 0 })));
    assert_eq!(pairing.finish(), Err(Fault { cause: Cause::Syntax, at: 0 }));
}

#[test]
fn commands() {
    let mut pairing = Pairing::new(&Limits::default()).expect("limits");
    let unpaired: [&[&str]; 13] = [
        &[],
        &["SUBSCRIBE", "a"],
        &["unsubscribe"],
        &["PSUBSCRIBE", "a"],
        &["PUNSUBSCRIBE"],
        &["SSUBSCRIBE", "a"],
        &["SUNSUBSCRIBE"],
        &["MONITOR"],
        &["SYNC"],
        &["psync", "?", "-1"],
        &["RESET"],
        &["CLIENT", "REPLY", "OFF"],
        &["client", "reply"],
    ];
    for words in unpaired {
        assert_eq!(pairing.queue_command(words), Err(QueueError::Unpaired), "{words:?}");
    }
    let paired: [&[&str]; 6] =
        [&["GET", "RESET"], &["HELLO"], &["HELLO", "4"], &["CLIENT", "ID"], &["CLIENT"], &["hello", "3", "SETNAME", "a"]];
    for (at, words) in paired.iter().enumerate() {
        assert_eq!(pairing.queue_command(words), Ok(at as u64 + 1), "{words:?}");
    }
    assert_eq!(pairing.queue_command(&[b"HELLO".to_vec(), b"2".to_vec()]), Err(QueueError::HelloWaits));
    assert_eq!(said(&mut pairing, &[b":1\r\n:2\r\n:3\r\n:4\r\n:5\r\n%0\r\n"]), "1.2.3.4.5.6.");
    assert_eq!(pairing.version(), Version::Three);
}

#[test]
fn subscriptions() {
    let subscribed = b">3\r\n+subscribe\r\n+a\r\n:1\r\n";
    let mut pairing = Pairing::new(&Limits::default()).expect("limits");
    assert_eq!(pairing.hello(Version::Three), Ok(1));
    assert_eq!(pairing.queue_command(&["SUBSCRIBE", "a"]), Err(QueueError::Unpaired));
    assert_eq!(said(&mut pairing, &[b"%0\r\n"]), "1.");
    assert_eq!(pairing.queue_command(&["SUBSCRIBE", "a", "b"]), Ok(2));
    assert_eq!(pairing.queue_command(&["SUBSCRIBE", "c"]), Err(QueueError::PushesWait));
    assert_eq!(pairing.queue_command(&["GET", "a"]), Ok(3));
    assert_eq!(said(&mut pairing, &[subscribed, subscribed, b":1\r\n"]), "push.push.3.");
    assert_eq!(pairing.queue_command(&["SUBSCRIBE", "c"]), Ok(4));
    assert_eq!(pairing.queue(), Ok(5));
    assert_eq!(said(&mut pairing, &[b"-NOPERM no\r\n:1\r\n"]), "4.5.");
}
