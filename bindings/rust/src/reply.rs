//! Whole replies, as nodes in memory of the caller.

use crate::{raw, Aggregate, BadLimits, Limits, Text, Value, Version};

/// A value without members, or the beginning of an aggregate. [`replies`] writes an array of them.
#[derive(Clone, Copy, Debug, Default)]
#[repr(transparent)]
pub struct Node(raw::Node);

/// Why [`replies`] has read no further reply.
#[derive(Clone, Copy, Debug, PartialEq, Eq)]
#[non_exhaustive]
pub enum Stop {
    /// The buffer has nothing else.
    Whole,
    /// The bytes left are the beginning of a reply.
    Truncated,
    /// The next reply is whole and of another form than those of `NotPlain`, and it has more nodes than
    /// are left.
    NoRoom,
    /// The next reply is whole, and has a streamed string or aggregate, a big number, an integer with a
    /// `+`, or more than 16 aggregates inside one another, however many nodes are left.
    NotPlain,
    /// The next reply has a wrong byte. A [`crate::Scanner`] of the bytes left returns the fault.
    Refused,
}

/// The replies of a buffer, in order. [`replies`] returns them.
#[derive(Clone, Copy, Debug)]
pub struct Replies<'a> {
    nodes: &'a [Node],
    buffer: &'a [u8],
    used: usize,
    stop: Stop,
}

/// A reply, or a value inside it. Its texts are borrowed from the buffer.
#[derive(Clone, Copy, Debug)]
pub struct Reply<'a> {
    node: &'a Node,
    inner: &'a [Node],
    buffer: &'a [u8],
}

/// What a [`Reply`] is.
#[derive(Clone, Copy, Debug, PartialEq, Eq)]
#[non_exhaustive]
pub enum Kind<'a> {
    /// Null, in any of its encodings.
    Null,
    /// A boolean.
    Bool(bool),
    /// An integer.
    Int(i64),
    /// A text.
    Text(Text, &'a [u8]),
    /// An aggregate, with the number of its members. Keys and values of a map or an attribute are
    /// members, and so is the value that an attribute annotates.
    Aggregate(Aggregate, usize),
}

/// The members of a [`Reply`], or all [`Replies`], in order.
#[derive(Clone, Copy, Debug)]
pub struct Members<'a> {
    nodes: &'a [Node],
    buffer: &'a [u8],
}

/// Reads all replies that are whole in the buffer into these nodes. It copies no text and allocates
/// nothing. As many nodes as a third of the bytes of the buffer are enough for each buffer.
///
/// # Errors
///
/// [`BadLimits`] if a limit is outside its range.
///
/// # Examples
///
/// ```
/// use resp::{replies, Kind, Limits, Node, Stop, Text, Version};
///
/// let mut nodes = [Node::default(); 16];
/// let read = replies(Version::Three, &Limits::default(), b"%1\r\n+role\r\n$6\r\nmaster\r\n:7", &mut nodes)?;
/// let reply = read.iter().next().expect("one reply is whole");
/// let role = reply.get(b"role").expect("the map has this key");
/// assert_eq!(role.kind(), Kind::Text(Text::Bulk, b"master"));
/// assert_eq!((read.used(), read.stop()), (23, Stop::Truncated));
/// # Ok::<(), Box<dyn std::error::Error>>(())
/// ```
pub fn replies<'a>(
    version: Version,
    limits: &Limits,
    buffer: &'a [u8],
    nodes: &'a mut [Node],
) -> Result<Replies<'a>, BadLimits> {
    let limits = raw::Limits::from(limits);
    let mut told = raw::Replies::default();
    // SAFETY: the pointers are to our own memory and to the slices, which have these lengths. A `Node` is
    // a `raw::Node`.
    let cause = unsafe {
        let room = nodes.as_mut_ptr().cast();
        raw::resp_reply_read(version as u32, &limits, buffer.as_ptr(), buffer.len(), room, nodes.len(), &mut told)
    };
    let stop = match cause {
        raw::OK => Stop::Whole,
        raw::TRUNCATED => Stop::Truncated,
        raw::NO_ROOM => Stop::NoRoom,
        raw::NOT_PLAIN => Stop::NotPlain,
        raw::BAD_LIMITS => return Err(BadLimits),
        _ => Stop::Refused,
    };
    Ok(Replies { nodes: &nodes[..told.nodes], buffer, used: told.used, stop })
}

impl<'a> Replies<'a> {
    /// Returns the replies in order.
    pub fn iter(&self) -> Members<'a> {
        Members { nodes: self.nodes, buffer: self.buffer }
    }

    /// Returns the number of bytes of the buffer that belong to the replies.
    pub fn used(&self) -> usize {
        self.used
    }

    /// Returns why no further reply was read.
    pub fn stop(&self) -> Stop {
        self.stop
    }
}

impl<'a> IntoIterator for Replies<'a> {
    type Item = Reply<'a>;
    type IntoIter = Members<'a>;

    fn into_iter(self) -> Members<'a> {
        self.iter()
    }
}

impl<'a> Iterator for Members<'a> {
    type Item = Reply<'a>;

    fn next(&mut self) -> Option<Reply<'a>> {
        let (node, rest) = self.nodes.split_first()?;
        let (inner, rest) = rest.split_at(node.0.size - 1);
        self.nodes = rest;
        Some(Reply { node, inner, buffer: self.buffer })
    }
}

impl<'a> Reply<'a> {
    /// Returns what the value is.
    pub fn kind(&self) -> Kind<'a> {
        let node = &self.node.0;
        match node.kind {
            raw::NULL_NODE => Kind::Null,
            raw::BOOL_NODE => Kind::Bool(node.number != 0),
            raw::INT_NODE => Kind::Int(node.number),
            raw::TEXT_NODE => Kind::Text(self.text(), &self.buffer[node.start..node.start + node.length]),
            _ => Kind::Aggregate(self.aggregate(), node.length),
        }
    }

    fn text(&self) -> Text {
        match self.node.0.form {
            0 => Text::Simple,
            1 => Text::Error,
            2 => Text::Double,
            3 => Text::Bulk,
            4 => Text::BulkError,
            5 => Text::Verbatim(self.node.0.format),
            _ => Text::Big { negative: self.node.0.number != 0 },
        }
    }

    fn aggregate(&self) -> Aggregate {
        match u32::from(self.node.0.form) {
            raw::ARRAY => Aggregate::Array,
            raw::SET => Aggregate::Set,
            raw::MAP => Aggregate::Map,
            raw::ATTRIBUTE => Aggregate::Attribute,
            _ => Aggregate::Push,
        }
    }

    /// Returns the members in order. A value that is no aggregate has none.
    pub fn members(&self) -> Members<'a> {
        Members { nodes: self.inner, buffer: self.buffer }
    }

    /// Returns the value of the first key of a map that is a text with these bytes. It looks at each key in
    /// turn.
    pub fn get(&self, key: &[u8]) -> Option<Reply<'a>> {
        if !matches!(self.kind(), Kind::Aggregate(Aggregate::Map, _)) {
            return None;
        }
        let mut members = self.members();
        while let (Some(name), Some(value)) = (members.next(), members.next()) {
            if matches!(name.kind(), Kind::Text(_, text) if text == key) {
                return Some(value);
            }
        }
        None
    }

    /// Copies the value into memory of its own.
    pub fn to_owned(&self) -> Value {
        match self.kind() {
            Kind::Null => Value::Null,
            Kind::Bool(truth) => Value::Bool(truth),
            Kind::Int(number) => Value::Int(number),
            Kind::Text(kind, text) => owned_text(kind, text.to_vec()),
            Kind::Aggregate(Aggregate::Array, _) => Value::Array(self.owned_members()),
            Kind::Aggregate(Aggregate::Set, _) => Value::Set(self.owned_members()),
            Kind::Aggregate(Aggregate::Push, _) => Value::Push(self.owned_members()),
            Kind::Aggregate(Aggregate::Map, _) => Value::Map(self.owned_pairs()),
            Kind::Aggregate(Aggregate::Attribute, _) => {
                let last = self.members().last().map_or(Value::Null, |reply| reply.to_owned());
                Value::Attribute(self.owned_pairs(), Box::new(last))
            }
        }
    }

    fn owned_members(&self) -> Vec<Value> {
        self.members().map(|reply| reply.to_owned()).collect()
    }

    fn owned_pairs(&self) -> Vec<(Value, Value)> {
        let mut members = self.members();
        let mut pairs = Vec::with_capacity(self.node.0.length / 2);
        while let (Some(key), Some(value)) = (members.next(), members.next()) {
            pairs.push((key.to_owned(), value.to_owned()));
        }
        pairs
    }
}

fn owned_text(kind: Text, text: Vec<u8>) -> Value {
    match kind {
        Text::Simple => Value::Simple(text),
        Text::Error => Value::Error(text),
        Text::Double => Value::Double(text),
        Text::Bulk => Value::Bulk(text),
        Text::BulkError => Value::BulkError(text),
        Text::Verbatim(format) => Value::Verbatim(format, text),
        Text::Big { negative } => Value::Big { negative, digits: text },
    }
}
