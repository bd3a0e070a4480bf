//! Values with bytes of their own, and their texts.

use crate::{raw, Version};
use std::error::Error;
use std::fmt;

/// A value that owns its bytes. [`crate::Decoder`] returns it, and [`Value::append_to`] writes its text.
#[derive(Clone, Debug, PartialEq, Eq, Hash)]
#[non_exhaustive]
pub enum Value {
    /// Null, in any of its encodings.
    Null,
    /// A boolean.
    Bool(bool),
    /// An integer.
    Int(i64),
    /// A simple string, without CR and LF.
    Simple(Vec<u8>),
    /// A simple error, without CR and LF.
    Error(Vec<u8>),
    /// A double, as its text: a number, `inf`, `-inf`, `nan` or `-nan`.
    Double(Vec<u8>),
    /// A bulk string.
    Bulk(Vec<u8>),
    /// A bulk error.
    BulkError(Vec<u8>),
    /// A verbatim string: the three bytes of its format, and its text.
    Verbatim([u8; 3], Vec<u8>),
    /// A big number.
    Big {
        /// Whether it is negative.
        negative: bool,
        /// The digits, without leading zeros. Zero has the digit `0`.
        digits: Vec<u8>,
    },
    /// An array.
    Array(Vec<Value>),
    /// A set.
    Set(Vec<Value>),
    /// A map, as its pairs in the order received.
    Map(Vec<(Value, Value)>),
    /// A push.
    Push(Vec<Value>),
    /// A value with an attribute in front of it: the pairs of the attribute, and the value.
    Attribute(Vec<(Value, Value)>, Box<Value>),
}

/// The error of [`Value::append_to`]. The bytes are unchanged.
#[derive(Clone, Copy, Debug, PartialEq, Eq)]
#[non_exhaustive]
pub enum AppendError {
    /// Version 2 does not have this value, or a value inside it.
    Version,
    /// A simple string or an error contains CR or LF.
    BadLine,
    /// The digits of a big number are empty, have another byte than digits or a leading zero, or are a
    /// negative zero; or the text of a double is not one.
    BadDigits,
}

impl fmt::Display for AppendError {
    fn fmt(&self, f: &mut fmt::Formatter<'_>) -> fmt::Result {
        f.write_str(match self {
            AppendError::Version => "version 2 does not have this value",
            AppendError::BadLine => "a line contains CR or LF",
            AppendError::BadDigits => "this is not the text of a number",
        })
    }
}

impl Error for AppendError {}

/// A call of the library that writes: a buffer, its length, and the size that is set.
type Write<'a> = &'a dyn Fn(*mut u8, usize, &mut usize) -> u32;

/// Appends the text that a call writes. The call is made a second time if the room was too small.
fn append(to: &mut Vec<u8>, write: Write<'_>) -> Result<(), AppendError> {
    let begin = to.len();
    let mut room = 32;
    loop {
        to.resize(begin + room, 0);
        let rest = &mut to[begin..];
        let mut size = 0;
        let cause = write(rest.as_mut_ptr(), rest.len(), &mut size);
        to.truncate(begin + if cause == raw::OK { size } else { 0 });
        match cause {
            raw::OK => return Ok(()),
            raw::NO_ROOM => room = size,
            raw::BAD_LINE => return Err(AppendError::BadLine),
            _ => return Err(AppendError::BadDigits),
        }
    }
}

/// A call of the library that writes a text.
type WriteText = unsafe extern "C" fn(*mut u8, usize, *const u8, usize, *mut usize) -> u32;

fn append_text(to: &mut Vec<u8>, write: WriteText, text: &[u8]) -> Result<(), AppendError> {
    // SAFETY: the room and the text have these lengths, and do not overlap.
    append(to, &|room, length, size| unsafe { write(room, length, text.as_ptr(), text.len(), size) })
}

fn append_head(to: &mut Vec<u8>, kind: u32, members: usize) -> Result<(), AppendError> {
    // SAFETY: the room has this length.
    append(to, &|room, length, size| unsafe { raw::resp_write_head(room, length, kind, members as u64, size) })
}

fn append_pairs(to: &mut Vec<u8>, version: Version, pairs: &[(Value, Value)]) -> Result<(), AppendError> {
    for (key, value) in pairs {
        key.append(version, to)?;
        value.append(version, to)?;
    }
    Ok(())
}

impl Value {
    /// Appends the canonical text of the value in this version: numbers without plus sign and leading
    /// zeros, strings and aggregates with their length, never streamed.
    ///
    /// # Errors
    ///
    /// The first [`AppendError`] of the value and the values inside it. `to` is then unchanged.
    ///
    /// # Examples
    ///
    /// ```
    /// use resp::{Value, Version};
    ///
    /// let mut text = Vec::new();
    /// Value::Array(vec![Value::Simple(b"OK".to_vec()), Value::Null]).append_to(Version::Three, &mut text)?;
    /// assert_eq!(text, b"*2\r\n+OK\r\n_\r\n");
    /// # Ok::<(), resp::AppendError>(())
    /// ```
    pub fn append_to(&self, version: Version, to: &mut Vec<u8>) -> Result<(), AppendError> {
        let begin = to.len();
        let appended = self.append(version, to);
        if appended.is_err() {
            to.truncate(begin);
        }
        appended
    }

    fn is_in_both_versions(&self) -> bool {
        matches!(
            self,
            Value::Null | Value::Int(_) | Value::Simple(_) | Value::Error(_) | Value::Bulk(_) | Value::Array(_)
        )
    }

    fn append(&self, version: Version, to: &mut Vec<u8>) -> Result<(), AppendError> {
        if version == Version::Two && !self.is_in_both_versions() {
            return Err(AppendError::Version);
        }
        // SAFETY of the calls: each buffer has the length that is given with it, and they do not overlap.
        match self {
            Value::Null => {
                append(to, &|room, length, size| unsafe { raw::resp_write_null(room, length, version as u32, size) })
            }
            Value::Bool(truth) => {
                append(to, &|room, length, size| unsafe { raw::resp_write_bool(room, length, *truth, size) })
            }
            Value::Int(number) => {
                append(to, &|room, length, size| unsafe { raw::resp_write_int(room, length, *number, size) })
            }
            Value::Simple(text) => append_text(to, raw::resp_write_simple, text),
            Value::Error(text) => append_text(to, raw::resp_write_error, text),
            Value::Double(text) => append_text(to, raw::resp_write_double, text),
            Value::Bulk(text) => append_text(to, raw::resp_write_bulk, text),
            Value::BulkError(text) => append_text(to, raw::resp_write_bulk_error, text),
            Value::Verbatim(format, text) => append(to, &|room, length, size| unsafe {
                raw::resp_write_verbatim(room, length, format, text.as_ptr(), text.len(), size)
            }),
            Value::Big { negative, digits } => append(to, &|room, length, size| unsafe {
                raw::resp_write_big(room, length, *negative, digits.as_ptr(), digits.len(), size)
            }),
            Value::Array(members) => Value::append_members(to, version, raw::ARRAY, members),
            Value::Set(members) => Value::append_members(to, version, raw::SET, members),
            Value::Push(members) => Value::append_members(to, version, raw::PUSH, members),
            Value::Map(pairs) => {
                append_head(to, raw::MAP, pairs.len())?;
                append_pairs(to, version, pairs)
            }
            Value::Attribute(pairs, value) => {
                append_head(to, raw::ATTRIBUTE, pairs.len())?;
                append_pairs(to, version, pairs)?;
                value.append(version, to)
            }
        }
    }

    fn append_members(to: &mut Vec<u8>, version: Version, kind: u32, members: &[Value]) -> Result<(), AppendError> {
        append_head(to, kind, members.len())?;
        members.iter().try_for_each(|member| member.append(version, to))
    }
}
