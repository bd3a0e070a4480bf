//! Reads RESP2 and RESP3, the wire protocol of Redis, from pieces of any size, and returns events or
//! values. Writes commands and values, and pairs replies with commands.
//!
//! This crate wraps the C library `libresp`. Its scanner is proved: the events are those of the
//! grammar, and the first byte that no valid value can contain there is an error. The crate itself is
//! tested. A [`Scanner`] copies nothing: each part of a text is borrowed from your input, except that the
//! first digit of a big number may be borrowed from a static ([`Event::Part`]).
//!
//! # Examples
//!
//! ```
//! use resp::{Event, Limits, Scanner, Version};
//!
//! let mut scanner = Scanner::new(Version::Three, &Limits::default())?;
//! let mut events = Vec::new();
//! for event in scanner.scan(b"*2\r\n+OK\r\n:7\r\n") {
//!     events.push(event?);
//! }
//! assert_eq!(events[3], Event::TextEnd);
//! assert_eq!(events[4], Event::Int(7));
//! # Ok::<(), Box<dyn std::error::Error>>(())
//! ```

mod command;
mod decoder;
mod pairing;
mod raw;
mod reply;
mod scan;
mod value;

pub use command::{command, command_into, CommandError};
pub use decoder::Decoder;
pub use pairing::{PairError, Paired, Pairing, QueueError};
pub use reply::{replies, Kind, Members, Node, Replies, Reply, Stop};
pub use scan::Scan;
pub use value::{AppendError, Value};

use std::error::Error;
use std::fmt;
use std::ops::Range;

/// A version of the protocol.
#[derive(Clone, Copy, Debug, PartialEq, Eq)]
pub enum Version {
    /// RESP2. A connection begins in it.
    Two = 2,
    /// RESP3, which a client asks for with HELLO.
    Three = 3,
}

/// The limits within which values are read. The default is the limits of `resp_limits_standard`.
#[derive(Clone, Copy, Debug, PartialEq, Eq)]
pub struct Limits {
    /// The most aggregates inside one another, 4 to 128.
    pub depth: u64,
    /// The most bytes of one text, 64 to 1,073,741,824.
    pub length: u64,
    /// The most bytes of one top-level value, 256 to 1,099,511,627,776.
    pub total: u64,
    /// The most members of an array, set or push, or pairs of a map or attribute, 16 to
    /// 1,099,511,627,776.
    pub items: u64,
    /// Whether streamed strings and aggregates are accepted.
    pub streamed: bool,
    /// Whether doubles are accepted, in version 3.
    pub doubles: bool,
}

impl Default for Limits {
    fn default() -> Limits {
        let mut limits = raw::Limits::default();
        // SAFETY: the pointer is to our own limits.
        unsafe { raw::resp_limits_standard(&mut limits) };
        let raw::Limits { depth, length, total, items, streamed, doubles } = limits;
        Limits { depth, length, total, items, streamed, doubles }
    }
}

/// The error of limits: a limit is outside its range.
#[derive(Clone, Copy, Debug, PartialEq, Eq)]
pub struct BadLimits;

/// The error of [`Scanner::set_version`]: a value was begun, or there was a fault. Nothing changes.
#[derive(Clone, Copy, Debug, PartialEq, Eq)]
pub struct Busy;

/// The reason of a [`Fault`].
#[derive(Clone, Copy, Debug, PartialEq, Eq)]
#[non_exhaustive]
pub enum Cause {
    /// No value of version 2 or 3 can contain this byte here.
    Syntax,
    /// A double, while the limits don't allow doubles.
    Double,
    /// A type of version 3, while version 2 is read.
    Version,
    /// A push inside another value.
    NestedPush,
    /// An integer doesn't fit into signed 64 bits.
    Range,
    /// Aggregates are nested deeper than the limit.
    Depth,
    /// A text is longer than the limit.
    Length,
    /// The value can't end within the limit of its bytes.
    Total,
    /// The input ended inside a value.
    Truncated,
    /// A streamed string or aggregate, while the limits don't allow them.
    Streamed,
    /// An aggregate has more members or pairs than the limit.
    Items,
}

/// The error of a wrong byte, or of an input that ends inside a value.
#[derive(Clone, Copy, Debug, PartialEq, Eq)]
pub struct Fault {
    /// The reason.
    pub cause: Cause,
    /// The index of the byte in its value: the number of bytes of the value before it.
    pub at: u64,
}

impl fmt::Display for BadLimits {
    fn fmt(&self, f: &mut fmt::Formatter<'_>) -> fmt::Result {
        f.write_str("a limit is out of range")
    }
}

impl fmt::Display for Busy {
    fn fmt(&self, f: &mut fmt::Formatter<'_>) -> fmt::Result {
        f.write_str("the version cannot change inside a value or after an error")
    }
}

impl fmt::Display for Fault {
    fn fmt(&self, f: &mut fmt::Formatter<'_>) -> fmt::Result {
        write!(f, "{:?} at byte {} of the value", self.cause, self.at)
    }
}

impl Error for BadLimits {}
impl Error for Busy {}
impl Error for Fault {}

/// The kinds of text.
#[derive(Clone, Copy, Debug, PartialEq, Eq)]
pub enum Text {
    /// A simple string.
    Simple,
    /// A simple error.
    Error,
    /// A double, as the text that was received. Only if the limits allow doubles.
    Double,
    /// A bulk string, counted or streamed.
    Bulk,
    /// A bulk error.
    BulkError,
    /// A verbatim string, with the three bytes of its format.
    Verbatim([u8; 3]),
    /// A big number. Its text is the digits without leading zeros; the text of zero is empty.
    Big {
        /// Whether it is negative.
        negative: bool,
    },
}

/// The kinds of aggregate.
#[derive(Clone, Copy, Debug, PartialEq, Eq)]
pub enum Aggregate {
    /// An array.
    Array,
    /// A set.
    Set,
    /// A map. Keys and values alternate.
    Map,
    /// An attribute: keys and values alternate, and the value that it annotates follows.
    Attribute,
    /// A push, only at the top level.
    Push,
}

/// An event.
#[derive(Clone, Copy, Debug, PartialEq, Eq)]
pub enum Event<'a> {
    /// Null, in any of its encodings.
    Null,
    /// A boolean.
    Bool(bool),
    /// An integer.
    Int(i64),
    /// A text begins. Its parts follow, then [`Event::TextEnd`].
    Text(Text),
    /// Some bytes of the text, never empty. They are borrowed from the piece, except that the first digit
    /// of a big number may be a part of its own which is borrowed from a static. [`Event::range`] returns
    /// `None` for that part.
    Part(&'a [u8]),
    /// The text has ended.
    TextEnd,
    /// An aggregate begins, with the number of its members, or of its pairs in a map or an attribute, or
    /// `None` if it is streamed. Its members follow, then [`Event::Close`].
    Open(Aggregate, Option<u64>),
    /// The innermost aggregate has ended. An attribute ends after the value that it annotates.
    Close,
    /// The top-level value is complete.
    Done,
}

impl Event<'_> {
    /// Returns where in the piece the bytes of a part are, or `None` if they are not in the piece, and for
    /// another event. `piece` is the piece that the event was read from, or any slice that contains it.
    ///
    /// # Examples
    ///
    /// ```
    /// use resp::{Event, Limits, Scanner, Version};
    ///
    /// let mut scanner = Scanner::new(Version::Two, &Limits::default())?;
    /// let piece = b"$5\r\nhello\r\n";
    /// let parts: Vec<_> = scanner.scan(piece).flatten().filter_map(|event| event.range(piece)).collect();
    /// assert_eq!(parts, [4..9]);
    /// # Ok::<(), resp::BadLimits>(())
    /// ```
    pub fn range(&self, piece: &[u8]) -> Option<Range<usize>> {
        let part = match self {
            Event::Part(part) => part,
            _ => return None,
        };
        let start = (part.as_ptr() as usize).checked_sub(piece.as_ptr() as usize)?;
        (start < piece.len()).then_some(start..start + part.len())
    }
}

/// The result of [`Scanner::step`].
#[derive(Clone, Copy, Debug, PartialEq, Eq)]
pub struct Step<'a> {
    /// The number of bytes read from the front of the piece; the whole piece if there is no event.
    pub used: usize,
    /// The event, if there is one.
    pub event: Option<Event<'a>>,
}

/// Reads values one after another, from pieces of any size. It allocates only in [`Scanner::new`].
pub struct Scanner {
    memory: Box<[u64]>,
    /// The array for the events of one call.
    events: Box<[raw::Event]>,
}

/// The most events of one call.
const MOST_EVENTS: usize = 64;

impl Scanner {
    /// Creates a scanner of this version with these limits.
    ///
    /// # Errors
    ///
    /// [`BadLimits`] if a limit is outside its range.
    pub fn new(version: Version, limits: &Limits) -> Result<Scanner, BadLimits> {
        // SAFETY: these two calls have no arguments.
        let (size, align) = unsafe { (raw::resp_scanner_size(), raw::resp_scanner_align()) };
        assert!(align <= std::mem::align_of::<u64>());
        let mut scanner = Scanner {
            memory: vec![0; size / 8 + 1].into_boxed_slice(),
            events: vec![raw::Event::default(); MOST_EVENTS].into_boxed_slice(),
        };
        let limits = raw::Limits::from(limits);
        // SAFETY: the memory has the size and the alignment, and is not moved.
        match unsafe { raw::resp_scanner_init(&mut scanner.raw(), version as u32, &limits) } {
            raw::OK => Ok(scanner),
            _ => Err(BadLimits),
        }
    }

    fn raw(&mut self) -> raw::Scanner {
        raw::Scanner { memory: self.memory.as_mut_ptr().cast() }
    }

    /// Reads the whole piece, and returns an iterator over its events. They are the events of
    /// [`Scanner::step`], and the iterator is faster.
    ///
    /// All values of the piece are read in one version. To change it after a value, use steps.
    ///
    /// # Errors
    ///
    /// The last item is the fault of the first byte that no valid value can contain there. Every later
    /// call returns only that fault.
    ///
    /// # Examples
    ///
    /// ```
    /// use resp::{Event, Limits, Scanner, Text, Version};
    ///
    /// let mut scanner = Scanner::new(Version::Two, &Limits::default())?;
    /// let mut words = Vec::new();
    /// for piece in [&b"+OK\r\n$5\r\nhel"[..], b"lo\r\n"] {
    ///     for event in scanner.scan(piece) {
    ///         match event? {
    ///             Event::Text(_) => words.push(Vec::new()),
    ///             Event::Part(part) => words.last_mut().unwrap().extend_from_slice(part),
    ///             _ => (),
    ///         }
    ///     }
    /// }
    /// assert_eq!(words, [&b"OK"[..], b"hello"]);
    /// # Ok::<(), Box<dyn std::error::Error>>(())
    /// ```
    pub fn scan<'s, 'a>(&'s mut self, piece: &'a [u8]) -> Scan<'s, 'a> {
        Scan::new(self, piece)
    }

    /// Writes events of the piece to the array. Returns how many, the number of bytes read, and the error
    /// of the byte after them or `raw::OK`.
    fn raw_scan(&mut self, piece: &[u8]) -> (raw::Scanned, u32) {
        let mut scanned = raw::Scanned::default();
        let (mut scanner, room) = (self.raw(), self.events.len());
        // SAFETY: `new` has initialised the scanner, and the piece and the array have these lengths.
        let cause = unsafe {
            let events = self.events.as_mut_ptr();
            raw::resp_scanner_scan(&mut scanner, piece.as_ptr(), piece.len(), events, room, &mut scanned)
        };
        (scanned, cause)
    }

    /// Reads the piece up to the next event or its end. A step may return an event without reading a
    /// byte, so call it until it returns no event, with an empty piece too.
    ///
    /// # Errors
    ///
    /// The fault of the first byte that no valid value can contain there. Every later step returns the
    /// same fault.
    pub fn step<'a>(&mut self, piece: &'a [u8]) -> Result<Step<'a>, Fault> {
        let event = self.raw_step(piece)?;
        Ok(Step { used: event.used, event: event.told(piece) })
    }

    fn raw_step(&mut self, piece: &[u8]) -> Result<raw::Event, Fault> {
        let mut event = raw::Event::default();
        // SAFETY: `new` has initialised the scanner, and the piece has this length.
        let cause =
            unsafe { raw::resp_scanner_step(&mut self.raw(), piece.as_ptr(), piece.len(), &mut event) };
        match cause {
            raw::OK => Ok(event),
            cause => Err(self.fault(cause)),
        }
    }

    /// Reports the end of the input.
    ///
    /// # Errors
    ///
    /// [`Cause::Truncated`] inside a value, and the fault of an earlier call again.
    pub fn finish(&mut self) -> Result<(), Fault> {
        // SAFETY: `new` has initialised the scanner.
        match unsafe { raw::resp_scanner_finish(&mut self.raw()) } {
            raw::OK => Ok(()),
            cause => Err(self.fault(cause)),
        }
    }

    fn fault(&mut self, cause: u32) -> Fault {
        Fault { cause: raw::cause(cause), at: self.taken() }
    }

    /// Sets the version of the next values.
    ///
    /// # Errors
    ///
    /// [`Busy`] between the first byte of a value and its [`Event::Done`], and after a fault.
    pub fn set_version(&mut self, version: Version) -> Result<(), Busy> {
        // SAFETY: `new` has initialised the scanner.
        match unsafe { raw::resp_scanner_set_version(&mut self.raw(), version as u32) } {
            raw::OK => Ok(()),
            _ => Err(Busy),
        }
    }

    /// Returns the number of open aggregates: [`Event::Open`] was returned, and [`Event::Close`] not yet.
    pub fn depth(&mut self) -> usize {
        // SAFETY: `new` has initialised the scanner.
        unsafe { raw::resp_scanner_depth(&mut self.raw()) }
    }

    /// Returns the number of bytes read of the current value, 0 between values. A wrong byte isn't counted.
    pub fn taken(&mut self) -> u64 {
        // SAFETY: `new` has initialised the scanner.
        unsafe { raw::resp_scanner_taken(&mut self.raw()) }
    }

    /// Returns the smallest number of bytes that can complete the value, whatever the limit of total: 3
    /// between values, and 0 if only events remain. After a fault the result has no meaning.
    pub fn needed(&mut self) -> u64 {
        // SAFETY: `new` has initialised the scanner.
        unsafe { raw::resp_scanner_needed(&mut self.raw()) }
    }
}
