//! Frames at every cut, where their texts are, and errors.

use bytes::{Bytes, BytesMut};
use resp::{Cause, Decoder as Reader, Limits, QueueError, Value, Version};
use resp_tokio::{Client, Codec, CodecError, Frame, Received, ReplyError};
use tokio_util::codec::{Decoder, Encoder};

/// Values of each kind, one after another.
const VALUES: &[u8] = b"+OK\r\n-ERR no\r\n:-7\r\n$5\r\nhe\r\no\r\n$0\r\n\r\n$-1\r\n*-1\r\n_\r\n#t\r\n,1.5\r\n(-0012\r\n(00\r\n(7\r\n\
!3\r\nE x\r\n=7\r\ntxt:abc\r\n$?\r\n;4\r\nhell\r\n;1\r\no\r\n;0\r\n*0\r\n*2\r\n:1\r\n*1\r\n+a\r\n*?\r\n:1\r\n.\r\n\
%1\r\n+k\r\n~1\r\n:1\r\n%?\r\n.\r\n|1\r\n+a\r\n:1\r\n+v\r\n>2\r\n+m\r\n+n\r\n";

fn codec() -> Codec {
    Codec::new(Version::Three, &Limits::default()).unwrap()
}

/// Decodes all frames in the pieces.
fn frames(pieces: &[&[u8]]) -> Result<Vec<Frame>, CodecError> {
    let (mut codec, mut buffer, mut frames) = (codec(), BytesMut::new(), Vec::new());
    for piece in pieces {
        buffer.extend_from_slice(piece);
        while let Some(frame) = codec.decode(&mut buffer)? {
            frames.push(frame);
        }
    }
    assert_eq!(codec.decode_eof(&mut buffer)?, None);
    Ok(frames)
}

fn owned(bytes: &Bytes) -> Vec<u8> {
    bytes.to_vec()
}

fn pairs(pairs: &[(Frame, Frame)]) -> Vec<(Value, Value)> {
    pairs.iter().map(|(key, value)| (value_of(key), value_of(value))).collect()
}

/// The value of a frame, with bytes of its own.
fn value_of(frame: &Frame) -> Value {
    let values = |members: &[Frame]| members.iter().map(value_of).collect();
    match frame {
        Frame::Null => Value::Null,
        Frame::Bool(truth) => Value::Bool(*truth),
        Frame::Int(number) => Value::Int(*number),
        Frame::Simple(text) => Value::Simple(owned(text)),
        Frame::Error(text) => Value::Error(owned(text)),
        Frame::Double(text) => Value::Double(owned(text)),
        Frame::Bulk(text) => Value::Bulk(owned(text)),
        Frame::BulkError(text) => Value::BulkError(owned(text)),
        Frame::Verbatim(format, text) => Value::Verbatim(*format, owned(text)),
        Frame::Big { negative, digits } => Value::Big { negative: *negative, digits: owned(digits) },
        Frame::Array(members) => Value::Array(values(members)),
        Frame::Set(members) => Value::Set(values(members)),
        Frame::Push(members) => Value::Push(values(members)),
        Frame::Map(members) => Value::Map(pairs(members)),
        Frame::Attribute(members, value) => Value::Attribute(pairs(members), Box::new(value_of(value))),
        _ => unreachable!(),
    }
}

#[test]
fn frames_are_the_values_at_every_cut() {
    let mut reader = Reader::new(Version::Three, &Limits::default()).unwrap();
    reader.feed(VALUES);
    let mut wanted = Vec::new();
    while let Some(value) = reader.next_value().unwrap() {
        wanted.push(value);
    }
    assert_eq!(wanted.len(), 23);
    for cut in 0..=VALUES.len() {
        let (first, rest) = VALUES.split_at(cut);
        let found: Vec<_> = frames(&[first, rest]).unwrap().iter().map(value_of).collect();
        assert_eq!(found, wanted, "cut at {cut}");
    }
    let bytes: Vec<_> = VALUES.chunks(1).collect();
    assert_eq!(frames(&bytes).unwrap().iter().map(value_of).collect::<Vec<_>>(), wanted);
}

#[test]
fn texts_are_slices_of_the_buffer() {
    let mut buffer = BytesMut::from(&b"*3\r\n$5\r\nhello\r\n=7\r\ntxt:abc\r\n(-0012\r\n"[..]);
    let begin = buffer.as_ptr() as usize;
    let members = match codec().decode(&mut buffer).unwrap() {
        Some(Frame::Array(members)) => members,
        other => panic!("{other:?}"),
    };
    let texts = members.iter().map(|member| match member {
        Frame::Bulk(text) | Frame::Verbatim(_, text) | Frame::Big { digits: text, .. } => text,
        other => panic!("{other:?}"),
    });
    let places: Vec<_> = texts.map(|text| (text.as_ptr() as usize - begin, text.len())).collect();
    assert_eq!(places, [(8, 5), (23, 3), (32, 2)]);
}

#[test]
fn a_frame_is_taken_from_the_buffer_alone() {
    let (mut codec, mut buffer) = (codec(), BytesMut::from(&b":1\r\n:2\r\n+O"[..]));
    assert_eq!(codec.decode(&mut buffer).unwrap(), Some(Frame::Int(1)));
    assert_eq!(&buffer[..], b":2\r\n+O");
    assert_eq!(codec.decode(&mut buffer).unwrap(), Some(Frame::Int(2)));
    assert_eq!(codec.decode(&mut buffer).unwrap(), None);
    assert_eq!(&buffer[..], b"+O");
}

#[test]
fn a_rejected_byte_is_an_error_after_the_frames_before_it() {
    let (mut codec, mut buffer) = (codec(), BytesMut::from(&b"+OK\r\n:1x\r\n"[..]));
    assert_eq!(codec.decode(&mut buffer).unwrap(), Some(Frame::Simple("OK".into())));
    for _ in 0..2 {
        match codec.decode(&mut buffer) {
            Err(CodecError::Fault(fault)) => assert_eq!((fault.cause, fault.at), (Cause::Syntax, 2)),
            other => panic!("{other:?}"),
        }
    }
}

#[test]
fn an_input_that_ends_inside_a_value_is_an_error() {
    let (mut codec, mut buffer) = (codec(), BytesMut::from(&b"+OK\r\n$3\r\nab"[..]));
    assert_eq!(codec.decode_eof(&mut buffer).unwrap(), Some(Frame::Simple("OK".into())));
    match codec.decode_eof(&mut buffer) {
        Err(CodecError::Fault(fault)) => assert_eq!((fault.cause, fault.at), (Cause::Truncated, 6)),
        other => panic!("{other:?}"),
    }
}

/// Decodes what a server sends to a client that has sent these commands.
fn received(commands: &[&[&str]], pieces: &[&[u8]]) -> Result<Vec<Received>, CodecError> {
    let (mut client, mut buffer, mut found) = (Client::new(&Limits::default()).unwrap(), BytesMut::new(), Vec::new());
    for command in commands {
        client.encode(*command, &mut BytesMut::new())?;
    }
    for piece in pieces {
        buffer.extend_from_slice(piece);
        while let Some(received) = client.decode(&mut buffer)? {
            found.push(received);
        }
    }
    assert_eq!(client.decode_eof(&mut buffer)?, None);
    Ok(found)
}

#[test]
fn each_reply_is_read_in_its_version_at_every_cut() {
    let text = b"*0\r\n%1\r\n+proto\r\n:3\r\n>1\r\n+note\r\n|1\r\n+a\r\n:1\r\n#t\r\n-ERR no\r\n*1\r\n-ERR in\r\n!2\r\nNO\r\n";
    let commands: [&[&str]; 6] = [&["KEYS", "*"], &["HELLO", "3"], &["GET", "a"], &["GET", "b"], &["EXEC"], &["GET", "c"]];
    let simple = |text: &'static str| Frame::Simple(text.into());
    let wanted = [
        Received::Reply(1, Ok(Frame::Array(vec![]))),
        Received::Reply(2, Ok(Frame::Map(vec![(simple("proto"), Frame::Int(3))]))),
        Received::Push(vec![simple("note")]),
        Received::Reply(3, Ok(Frame::Bool(true))),
        Received::Reply(4, Err(ReplyError("ERR no".into()))),
        Received::Reply(5, Ok(Frame::Array(vec![Frame::Error("ERR in".into())]))),
        Received::Reply(6, Err(ReplyError("NO".into()))),
    ];
    for cut in 0..=text.len() {
        let (first, rest) = text.split_at(cut);
        assert_eq!(received(&commands, &[first, rest]).unwrap(), wanted, "cut at {cut}");
    }
}

#[test]
fn after_a_refused_hello_the_version_stays() {
    let refused = received(&[&["HELLO", "3"], &["GET", "a"]], &[b"-NOPROTO no\r\n_\r\n"]);
    assert!(matches!(refused, Err(CodecError::Fault(fault)) if fault.cause == Cause::Version && fault.at == 0));
}

#[test]
fn a_reply_that_no_command_asked_for_is_an_error() {
    assert!(matches!(received(&[&["PING"]], &[b"+PONG\r\n+OK\r\n"]), Err(CodecError::Unasked)));
}

#[test]
fn a_command_that_is_not_paired_is_not_written() {
    let (mut client, mut sent) = (Client::new(&Limits::default()).unwrap(), BytesMut::new());
    let error = client.encode(&["MONITOR"][..], &mut sent);
    assert!(matches!(error, Err(CodecError::Queue(QueueError::Unpaired))));
    let error = client.encode(&[] as &[&str], &mut sent);
    assert!(matches!(error, Err(CodecError::Queue(QueueError::Unpaired))));
    let limits = Limits { length: 64, ..Limits::default() };
    let error = Client::new(&limits).unwrap().encode(&[&[b'x'; 65][..]][..], &mut sent);
    assert!(matches!(error, Err(CodecError::Command(_))));
    assert!(sent.is_empty());
    client.encode(&["PING"][..], &mut sent).unwrap();
    assert_eq!(client.decode(&mut BytesMut::from("+PONG\r\n")).unwrap(), Some(Received::Reply(1, Ok(Frame::Simple("PONG".into())))));
}

#[test]
fn a_command_over_the_limits_is_not_written() {
    let limits = Limits { length: 64, ..Limits::default() };
    let mut codec = Codec::new(Version::Two, &limits).unwrap();
    let mut sent = BytesMut::from(&b"before"[..]);
    let long = [b'x'; 65];
    assert!(matches!(codec.encode(&[&long[..]][..], &mut sent), Err(CodecError::Command(_))));
    assert_eq!(&sent[..], b"before");
}
