//! The declarations of `resp.h`.

use crate::{Aggregate, Cause, Event as Told, Limits as Given, Text};
use std::ffi::c_void;

pub const OK: u32 = 0;
pub const LENGTH: u32 = 7;
pub const TOTAL: u32 = 8;
pub const TRUNCATED: u32 = 9;
pub const ITEMS: u32 = 13;
pub const BAD_LINE: u32 = 60;
pub const BAD_LIMITS: u32 = 63;
pub const NO_ROOM: u32 = 65;
pub const HELLO_WAITS: u32 = 67;
pub const UNPAIRED: u32 = 68;
pub const PUSHES_WAIT: u32 = 69;
pub const NOT_PLAIN: u32 = 70;

/// `RESP_NULL` of a node.
pub const NULL_NODE: u8 = 1;

/// `RESP_BOOL` of a node.
pub const BOOL_NODE: u8 = 2;

/// `RESP_INT` of a node.
pub const INT_NODE: u8 = 3;

/// `RESP_TEXT` of a node.
pub const TEXT_NODE: u8 = 4;

/// `RESP_COMMAND_SUBSCRIBING`.
pub const SUBSCRIBING: u32 = 16;

/// `RESP_ARRAY`.
pub const ARRAY: u32 = 0;

/// `RESP_SET`.
pub const SET: u32 = 1;

/// `RESP_MAP`.
pub const MAP: u32 = 2;

/// `RESP_ATTRIBUTE`.
pub const ATTRIBUTE: u32 = 3;

/// `RESP_PUSH`.
pub const PUSH: u32 = 4;

#[repr(C)]
pub struct Scanner {
    pub memory: *mut c_void,
}

#[repr(C)]
#[derive(Default)]
pub struct Limits {
    pub depth: u64,
    pub length: u64,
    pub total: u64,
    pub items: u64,
    pub streamed: bool,
    pub doubles: bool,
}

#[repr(C)]
#[derive(Clone, Default)]
pub struct Event {
    pub kind: u32,
    pub form: u32,
    pub number: i64,
    pub members: u64,
    pub used: usize,
    pub part: usize,
    pub format: [u8; 3],
    pub digit: u8,
}

#[repr(C)]
#[derive(Default)]
pub struct Scanned {
    pub count: usize,
    pub used: usize,
}

#[repr(C)]
#[derive(Clone, Copy, Debug, Default)]
pub struct Node {
    pub kind: u8,
    pub form: u8,
    pub format: [u8; 3],
    pub number: i64,
    pub start: usize,
    pub length: usize,
    pub size: usize,
}

#[repr(C)]
#[derive(Default)]
pub struct Replies {
    pub nodes: usize,
    pub used: usize,
}

#[repr(C)]
#[derive(Default)]
pub struct Pairing {
    pub version: u32,
    pub hello: u32,
    pub before: u64,
    pub beyond: u64,
    pub answered: u64,
    pub nested: u64,
    pub refuses: u32,
    pub first: u32,
    pub pushes: u64,
    pub before_pushes: u64,
}

extern "C" {
    pub fn resp_limits_standard(limits: *mut Limits);
    pub fn resp_scanner_size() -> usize;
    pub fn resp_scanner_align() -> usize;
    pub fn resp_scanner_init(scanner: *mut Scanner, version: u32, limits: *const Limits) -> u32;
    pub fn resp_scanner_step(scanner: *mut Scanner, piece: *const u8, length: usize, event: *mut Event) -> u32;
    pub fn resp_scanner_scan(
        scanner: *mut Scanner,
        piece: *const u8,
        length: usize,
        events: *mut Event,
        room: usize,
        scanned: *mut Scanned,
    ) -> u32;
    pub fn resp_scanner_finish(scanner: *mut Scanner) -> u32;
    pub fn resp_scanner_set_version(scanner: *mut Scanner, version: u32) -> u32;
    pub fn resp_scanner_depth(scanner: *mut Scanner) -> usize;
    pub fn resp_scanner_taken(scanner: *mut Scanner) -> u64;
    pub fn resp_scanner_needed(scanner: *mut Scanner) -> u64;
    pub fn resp_reply_read(
        version: u32,
        limits: *const Limits,
        buffer: *const u8,
        length: usize,
        nodes: *mut Node,
        room: usize,
        replies: *mut Replies,
    ) -> u32;
    pub fn resp_pairing_init(pairing: *mut Pairing);
    pub fn resp_command_kind(
        count: usize,
        name: *const u8,
        name_length: usize,
        argument: *const u8,
        argument_length: usize,
    ) -> u32;
    pub fn resp_pairing_queue(pairing: *mut Pairing, kind: u32, number: *mut u64) -> u32;
    pub fn resp_pairing_queue_pushes(pairing: *mut Pairing, pushes: u64, number: *mut u64) -> u32;
    pub fn resp_pairing_first(pairing: *mut Pairing, byte: u8, version: *mut u32) -> u32;
    pub fn resp_pairing_take(pairing: *mut Pairing, event: *const Event, number: *mut u64);
    pub fn resp_command_size(limits: *const Limits, lengths: *const usize, count: usize, size: *mut usize) -> u32;
    pub fn resp_write_head(room: *mut u8, length: usize, kind: u32, members: u64, size: *mut usize) -> u32;
    pub fn resp_write_null(room: *mut u8, length: usize, version: u32, size: *mut usize) -> u32;
    pub fn resp_write_bool(room: *mut u8, length: usize, truth: bool, size: *mut usize) -> u32;
    pub fn resp_write_int(room: *mut u8, length: usize, number: i64, size: *mut usize) -> u32;
    pub fn resp_write_simple(
        room: *mut u8,
        length: usize,
        text: *const u8,
        count: usize,
        size: *mut usize,
    ) -> u32;
    pub fn resp_write_error(
        room: *mut u8,
        length: usize,
        text: *const u8,
        count: usize,
        size: *mut usize,
    ) -> u32;
    pub fn resp_write_double(
        room: *mut u8,
        length: usize,
        text: *const u8,
        count: usize,
        size: *mut usize,
    ) -> u32;
    pub fn resp_write_bulk_error(
        room: *mut u8,
        length: usize,
        bytes: *const u8,
        count: usize,
        size: *mut usize,
    ) -> u32;
    pub fn resp_write_verbatim(
        room: *mut u8,
        length: usize,
        format: *const [u8; 3],
        text: *const u8,
        count: usize,
        size: *mut usize,
    ) -> u32;
    pub fn resp_write_big(
        room: *mut u8,
        length: usize,
        negative: bool,
        digits: *const u8,
        count: usize,
        size: *mut usize,
    ) -> u32;
    pub fn resp_write_bulk(
        room: *mut u8,
        length: usize,
        bytes: *const u8,
        count: usize,
        size: *mut usize,
    ) -> u32;
}

impl From<&Given> for Limits {
    fn from(limits: &Given) -> Limits {
        let &Given { depth, length, total, items, streamed, doubles } = limits;
        Limits { depth, length, total, items, streamed, doubles }
    }
}

/// The digits that a part may consist of if it used no byte.
static DIGITS: [u8; 10] = *b"0123456789";

/// `RESP_WHOLE`.
const WHOLE: u32 = 10;

impl Event {
    /// Returns the bytes of a whole text, which are in the piece before CR LF, or `None` for another event.
    pub fn whole<'a>(&self, piece: &'a [u8]) -> Option<&'a [u8]> {
        let end = (self.kind == WHOLE).then(|| self.used - 2)?;
        Some(&piece[end - self.part..end])
    }

    /// Returns the event, whose part borrows from the piece. For a whole text this is its beginning.
    pub fn told<'a>(&self, piece: &'a [u8]) -> Option<Told<'a>> {
        Some(match self.kind {
            0 => return None,
            1 => Told::Null,
            2 => Told::Bool(self.number != 0),
            3 => Told::Int(self.number),
            4 | WHOLE => Told::Text(self.text()),
            5 if self.used == 0 => {
                let digit = usize::from(self.digit - b'0');
                Told::Part(&DIGITS[digit..=digit])
            }
            5 => Told::Part(&piece[self.used - self.part..self.used]),
            6 => Told::TextEnd,
            7 => Told::Open(self.aggregate(), (self.members != u64::MAX).then_some(self.members)),
            8 => Told::Close,
            _ => Told::Done,
        })
    }

    fn text(&self) -> Text {
        match self.form {
            0 => Text::Simple,
            1 => Text::Error,
            2 => Text::Double,
            3 => Text::Bulk,
            4 => Text::BulkError,
            5 => Text::Verbatim(self.format),
            _ => Text::Big { negative: self.number != 0 },
        }
    }

    fn aggregate(&self) -> Aggregate {
        match self.form {
            0 => Aggregate::Array,
            1 => Aggregate::Set,
            2 => Aggregate::Map,
            3 => Aggregate::Attribute,
            _ => Aggregate::Push,
        }
    }
}

/// Returns the cause with this number. Only the causes of a step and of the end occur.
pub fn cause(number: u32) -> Cause {
    match number {
        1 => Cause::Syntax,
        2 => Cause::Double,
        3 => Cause::Version,
        4 => Cause::NestedPush,
        5 => Cause::Range,
        6 => Cause::Depth,
        7 => Cause::Length,
        8 => Cause::Total,
        9 => Cause::Truncated,
        12 => Cause::Streamed,
        _ => Cause::Items,
    }
}
