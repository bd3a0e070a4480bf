//! Makes values from events.

use crate::{Aggregate, BadLimits, Event, Fault, Limits, Scanner, Text, Value, Version};
use std::collections::VecDeque;

/// Reads values from pieces of any size, and keeps a value that is not complete.
///
/// # Examples
///
/// ```
/// use resp::{Decoder, Limits, Value, Version};
///
/// let mut decoder = Decoder::new(Version::Three, &Limits::default())?;
/// decoder.feed(b"+OK\r\n*2\r\n:7\r\n");
/// assert_eq!(decoder.next_value()?, Some(Value::Simple(b"OK".to_vec())));
/// assert_eq!(decoder.next_value()?, None);
/// decoder.feed(b"_\r\n");
/// assert_eq!(decoder.next_value()?, Some(Value::Array(vec![Value::Int(7), Value::Null])));
/// # Ok::<(), Box<dyn std::error::Error>>(())
/// ```
pub struct Decoder {
    scanner: Scanner,
    values: Values,
    fault: Option<Fault>,
}

/// The values that were read, and the one that is being read.
#[derive(Default)]
struct Values {
    complete: VecDeque<Value>,
    open: Vec<Open>,
    /// The text that is being read, and the last value that is inside no aggregate.
    text: Option<(Text, Vec<u8>)>,
    last: Option<Value>,
}

/// An open aggregate and its members so far.
struct Open {
    kind: Aggregate,
    members: Vec<Value>,
}

impl Decoder {
    /// Creates a decoder of this version with these limits.
    ///
    /// # Errors
    ///
    /// [`BadLimits`] if a limit is outside its range.
    pub fn new(version: Version, limits: &Limits) -> Result<Decoder, BadLimits> {
        Ok(Decoder { scanner: Scanner::new(version, limits)?, values: Values::default(), fault: None })
    }

    /// Reads a piece. All of its values are read in one version. After a fault it reads nothing.
    pub fn feed(&mut self, piece: &[u8]) {
        for event in self.scanner.scan(piece) {
            match event {
                Ok(event) => self.values.add(event),
                Err(fault) => self.fault = Some(fault),
            }
        }
    }

    /// Returns the next value, or `None` if it is not complete.
    ///
    /// # Errors
    ///
    /// The fault of the first byte that no valid value can contain there, after the values before it.
    /// Every later call returns it again.
    pub fn next_value(&mut self) -> Result<Option<Value>, Fault> {
        match (self.values.complete.pop_front(), self.fault) {
            (Some(value), _) => Ok(Some(value)),
            (None, Some(fault)) => Err(fault),
            (None, None) => Ok(None),
        }
    }

    /// Reports the end of the input.
    ///
    /// # Errors
    ///
    /// [`crate::Cause::Truncated`] inside a value, and the fault of an earlier piece.
    pub fn finish(&mut self) -> Result<(), Fault> {
        self.scanner.finish()
    }

    /// Sets the version of the values of the next pieces.
    ///
    /// # Errors
    ///
    /// [`crate::Busy`] inside a value, and after a fault.
    pub fn set_version(&mut self, version: Version) -> Result<(), crate::Busy> {
        self.scanner.set_version(version)
    }
}

impl Values {
    fn add(&mut self, event: Event<'_>) {
        match event {
            Event::Null => self.end_value(Value::Null),
            Event::Bool(truth) => self.end_value(Value::Bool(truth)),
            Event::Int(number) => self.end_value(Value::Int(number)),
            Event::Text(kind) => self.text = Some((kind, Vec::new())),
            Event::Part(part) => {
                if let Some((_, bytes)) = &mut self.text {
                    bytes.extend_from_slice(part);
                }
            }
            Event::TextEnd => {
                if let Some((kind, bytes)) = self.text.take() {
                    self.end_value(text_value(kind, bytes));
                }
            }
            // The number of members is not believed before they arrive.
            Event::Open(kind, _) => self.open.push(Open { kind, members: Vec::new() }),
            Event::Close => {
                if let Some(open) = self.open.pop() {
                    self.end_value(aggregate_value(open));
                }
            }
            Event::Done => self.complete.extend(self.last.take()),
        }
    }

    fn end_value(&mut self, value: Value) {
        match self.open.last_mut() {
            Some(open) => open.members.push(value),
            None => self.last = Some(value),
        }
    }
}

fn text_value(kind: Text, bytes: Vec<u8>) -> Value {
    match kind {
        Text::Simple => Value::Simple(bytes),
        Text::Error => Value::Error(bytes),
        Text::Double => Value::Double(bytes),
        Text::Bulk => Value::Bulk(bytes),
        Text::BulkError => Value::BulkError(bytes),
        Text::Verbatim(format) => Value::Verbatim(format, bytes),
        Text::Big { negative } => {
            let digits = if bytes.is_empty() { b"0".to_vec() } else { bytes };
            Value::Big { negative, digits }
        }
    }
}

fn pairs(members: Vec<Value>) -> Vec<(Value, Value)> {
    let mut members = members.into_iter();
    let mut pairs = Vec::with_capacity(members.len() / 2);
    while let (Some(key), Some(value)) = (members.next(), members.next()) {
        pairs.push((key, value));
    }
    pairs
}

fn aggregate_value(open: Open) -> Value {
    let mut members = open.members;
    match open.kind {
        Aggregate::Array => Value::Array(members),
        Aggregate::Set => Value::Set(members),
        Aggregate::Map => Value::Map(pairs(members)),
        Aggregate::Push => Value::Push(members),
        Aggregate::Attribute => {
            // The last member is the value that the attribute annotates.
            let value = members.pop().unwrap_or(Value::Null);
            Value::Attribute(pairs(members), Box::new(value))
        }
    }
}
