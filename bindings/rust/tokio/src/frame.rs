//! Frames, and how they are put together from events.

use bytes::{Bytes, BytesMut};
use resp::{Aggregate, Event, Text};
use std::ops::Range;

/// A value whose texts are slices of the buffer that it was read from. Each slice keeps the bytes of the
/// whole top-level value in memory.
#[derive(Clone, Debug, PartialEq, Eq, Hash)]
#[non_exhaustive]
pub enum Frame {
    /// Null, in any of its encodings.
    Null,
    /// A boolean.
    Bool(bool),
    /// An integer.
    Int(i64),
    /// A simple string, without CR and LF.
    Simple(Bytes),
    /// A simple error, without CR and LF.
    Error(Bytes),
    /// A double, as its text: a number, `inf`, `-inf`, `nan` or `-nan`.
    Double(Bytes),
    /// A bulk string.
    Bulk(Bytes),
    /// A bulk error.
    BulkError(Bytes),
    /// A verbatim string: the three bytes of its format, and its text.
    Verbatim([u8; 3], Bytes),
    /// A big number.
    Big {
        /// Whether it is negative.
        negative: bool,
        /// The digits, without leading zeros. Zero has the digit `0`.
        digits: Bytes,
    },
    /// An array.
    Array(Vec<Frame>),
    /// A set.
    Set(Vec<Frame>),
    /// A map, as its pairs in the order received.
    Map(Vec<(Frame, Frame)>),
    /// A push.
    Push(Vec<Frame>),
    /// A value with an attribute in front of it: the pairs of the attribute, and the value.
    Attribute(Vec<(Frame, Frame)>, Box<Frame>),
}

/// The value that is being read: how many bytes of the buffer were read, all of this value, and its parts.
#[derive(Default)]
pub(crate) struct Begun {
    pub(crate) read: usize,
    parts: Vec<Part>,
}

/// A part of a value that was read, with places in the buffer.
enum Part {
    Whole(Frame),
    Text(Text, Vec<Range<usize>>),
    Open(Aggregate),
    Close,
}

impl Begun {
    /// Adds the part of an event, which ends where the value was read up to.
    pub(crate) fn add(&mut self, event: Event<'_>) {
        let part = match event {
            Event::Null => Part::Whole(Frame::Null),
            Event::Bool(truth) => Part::Whole(Frame::Bool(truth)),
            Event::Int(number) => Part::Whole(Frame::Int(number)),
            Event::Text(kind) => Part::Text(kind, Vec::new()),
            Event::Open(kind, _) => Part::Open(kind),
            Event::Close => Part::Close,
            // The bytes of a part are the last that were read, also those of a digit that used no byte.
            Event::Part(bytes) => return self.extend(self.read - bytes.len()..self.read),
            Event::TextEnd | Event::Done => return,
        };
        self.parts.push(part);
    }

    /// Adds bytes to the text that is being read.
    fn extend(&mut self, bytes: Range<usize>) {
        if let Some(Part::Text(_, ranges)) = self.parts.last_mut() {
            match ranges.last_mut() {
                Some(last) if last.end == bytes.start => last.end = bytes.end,
                _ => ranges.push(bytes),
            }
        }
    }

    /// Takes the bytes of the complete value from the front of the buffer, and returns its frame.
    pub(crate) fn end(&mut self, buffer: &mut BytesMut) -> Option<Frame> {
        let text = buffer.split_to(self.read).freeze();
        self.read = 0;
        frame_of(self.parts.drain(..), &text)
    }
}

/// Returns the frame of all parts of a value.
fn frame_of(parts: impl Iterator<Item = Part>, text: &Bytes) -> Option<Frame> {
    let mut open: Vec<(Aggregate, Vec<Frame>)> = Vec::new();
    let mut whole = None;
    for part in parts {
        let frame = match part {
            Part::Open(kind) => {
                open.push((kind, Vec::new()));
                continue;
            }
            Part::Close => match open.pop() {
                Some((kind, members)) => aggregate_frame(kind, members),
                None => continue,
            },
            Part::Whole(frame) => frame,
            Part::Text(kind, ranges) => text_frame(kind, joined(&ranges, text)),
        };
        match open.last_mut() {
            Some((_, members)) => members.push(frame),
            None => whole = Some(frame),
        }
    }
    whole
}

/// Returns the bytes at these places. Only the chunks of a streamed string are copied.
fn joined(ranges: &[Range<usize>], text: &Bytes) -> Bytes {
    match ranges {
        [] => Bytes::new(),
        [range] => text.slice(range.clone()),
        ranges => ranges.iter().flat_map(|range| &text[range.clone()]).copied().collect::<Vec<u8>>().into(),
    }
}

fn text_frame(kind: Text, bytes: Bytes) -> Frame {
    match kind {
        Text::Simple => Frame::Simple(bytes),
        Text::Error => Frame::Error(bytes),
        Text::Double => Frame::Double(bytes),
        Text::Bulk => Frame::Bulk(bytes),
        Text::BulkError => Frame::BulkError(bytes),
        Text::Verbatim(format) => Frame::Verbatim(format, bytes),
        Text::Big { negative } => {
            let digits = if bytes.is_empty() { Bytes::from_static(b"0") } else { bytes };
            Frame::Big { negative, digits }
        }
    }
}

fn aggregate_frame(kind: Aggregate, mut members: Vec<Frame>) -> Frame {
    match kind {
        Aggregate::Array => Frame::Array(members),
        Aggregate::Set => Frame::Set(members),
        Aggregate::Map => Frame::Map(pairs(members)),
        Aggregate::Push => Frame::Push(members),
        Aggregate::Attribute => {
            // The last member is the value that the attribute annotates.
            let value = members.pop().unwrap_or(Frame::Null);
            Frame::Attribute(pairs(members), Box::new(value))
        }
    }
}

fn pairs(members: Vec<Frame>) -> Vec<(Frame, Frame)> {
    let mut members = members.into_iter();
    let mut pairs = Vec::with_capacity(members.len() / 2);
    while let (Some(key), Some(value)) = (members.next(), members.next()) {
        pairs.push((key, value));
    }
    pairs
}
