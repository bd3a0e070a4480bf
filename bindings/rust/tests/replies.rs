//! Whole replies as nodes: their values, and why reading stops.

use resp::{replies, Aggregate, BadLimits, Decoder, Kind, Limits, Node, Stop, Text, Value, Version};

/// Texts of whole replies that are plain.
const PLAIN: [&[u8]; 8] = [
    b"+OK\r\n",
    b"-ERR no\r\n:-9223372036854775808\r\n:9223372036854775807\r\n",
    b"$5\r\nhe\r\no\r\n$0\r\n\r\n$-1\r\n*-1\r\n_\r\n",
    b"#t\r\n#f\r\n,1.5\r\n!3\r\nE x\r\n=7\r\ntxt:abc\r\n",
    b"*0\r\n*2\r\n*1\r\n+a\r\n:-1\r\n",
    b"%2\r\n+k\r\n~1\r\n:1\r\n$1\r\nl\r\n_\r\n",
    b"|1\r\n+a\r\n:1\r\n*1\r\n+v\r\n",
    b">2\r\n+m\r\n+n\r\n",
];

fn values(text: &[u8]) -> Vec<Value> {
    let mut decoder = Decoder::new(Version::Three, &Limits::default()).unwrap();
    decoder.feed(text);
    std::iter::from_fn(|| decoder.next_value().unwrap()).collect()
}

fn stop(text: &[u8], room: usize) -> (usize, usize, Stop) {
    let mut nodes = vec![Node::default(); room];
    let read = replies(Version::Three, &Limits::default(), text, &mut nodes).unwrap();
    (read.iter().count(), read.used(), read.stop())
}

#[test]
fn replies_are_the_values_of_the_decoder() {
    for text in PLAIN {
        let mut nodes = vec![Node::default(); text.len() / 3];
        let read = replies(Version::Three, &Limits::default(), text, &mut nodes).unwrap();
        let owned: Vec<Value> = read.iter().map(|reply| reply.to_owned()).collect();
        assert_eq!(owned, values(text));
        assert_eq!((read.used(), read.stop()), (text.len(), Stop::Whole));
    }
}

#[test]
fn a_reply_is_read_once_it_is_whole() {
    for text in PLAIN {
        for end in 0..text.len() {
            let mut nodes = vec![Node::default(); text.len()];
            let read = replies(Version::Three, &Limits::default(), &text[..end], &mut nodes).unwrap();
            let owned: Vec<Value> = read.iter().map(|reply| reply.to_owned()).collect();
            assert_eq!(owned, values(&text[..end]));
            assert_eq!(read.stop(), if read.used() == end { Stop::Whole } else { Stop::Truncated });
        }
    }
}

#[test]
fn a_member_is_found() {
    let text = b"%3\r\n:1\r\n+one\r\n+list\r\n*2\r\n+a\r\n+b\r\n$4\r\nrole\r\n+master\r\n";
    let mut nodes = [Node::default(); 16];
    let read = replies(Version::Three, &Limits::default(), text, &mut nodes).unwrap();
    let reply = read.iter().next().unwrap();
    assert_eq!(reply.kind(), Kind::Aggregate(Aggregate::Map, 6));
    assert_eq!(reply.get(b"role").unwrap().kind(), Kind::Text(Text::Simple, b"master"));
    let list = reply.get(b"list").unwrap();
    assert_eq!(list.members().map(|member| member.to_owned()).last(), Some(Value::Simple(b"b".to_vec())));
    assert!(reply.get(b"one").is_none() && reply.get(b"").is_none() && list.get(b"a").is_none());
}

#[test]
fn reading_stops_for_a_reason() {
    assert_eq!(stop(b"", 0), (0, 0, Stop::Whole));
    assert_eq!(stop(b"+", 0), (0, 0, Stop::Truncated));
    assert_eq!(stop(b"+\r\n", 0), (0, 0, Stop::NoRoom));
    assert_eq!(stop(b"+\r\n*2\r\n+a\r\n+b\r\n", 3), (1, 3, Stop::NoRoom));
    assert_eq!(stop(b"+\r\n*2\r\n+a\r\n+b\r\n", 4), (2, 15, Stop::Whole));
    assert_eq!(stop(b":1\r\n*?\r\n.\r\n", 4), (1, 4, Stop::NotPlain));
    assert_eq!(stop(b":1\r\n(12\r\n", 3), (1, 4, Stop::NotPlain));
    assert_eq!(stop(b"*2\r\n:+1\r\n:2\r\n", 0), (0, 0, Stop::NotPlain));
    assert_eq!(stop(b":1\r\n:x\r\n", 3), (1, 4, Stop::Refused));
    let limits = Limits { depth: 3, ..Limits::default() };
    assert_eq!(replies(Version::Two, &limits, b"", &mut []).map(|read| read.used()), Err(BadLimits));
}
