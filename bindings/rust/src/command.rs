//! Commands, as a client sends them.

use crate::{raw, Limits};
use std::error::Error;
use std::fmt;

/// The error of [`command`] and [`command_into`].
#[derive(Clone, Copy, Debug, PartialEq, Eq)]
#[non_exhaustive]
pub enum CommandError {
    /// A limit is outside its range.
    BadLimits,
    /// A word is over the limit of length.
    Length,
    /// There are more words than the limit of items, and no word is over the limit of length.
    Items,
    /// The text is over the limit of total, and the command is over no other limit.
    Total,
}

impl fmt::Display for CommandError {
    fn fmt(&self, f: &mut fmt::Formatter<'_>) -> fmt::Result {
        f.write_str(match self {
            CommandError::BadLimits => "a limit is out of range",
            CommandError::Length => "a word exceeds the limit of length",
            CommandError::Items => "there are more words than the limit of items",
            CommandError::Total => "the command exceeds the limit of total",
        })
    }
}

impl Error for CommandError {}

/// Returns the bytes of a command: an array of its words as bulk strings.
///
/// A command has at least one word: a server does not reply to an empty command.
///
/// # Errors
///
/// The first limit that the command is over, or [`CommandError::BadLimits`].
///
/// # Examples
///
/// ```
/// use resp::{command, Limits};
///
/// let text = command(&Limits::default(), &["GET", "key"])?;
/// assert_eq!(text, b"*2\r\n$3\r\nGET\r\n$3\r\nkey\r\n");
/// # Ok::<(), resp::CommandError>(())
/// ```
pub fn command<W: AsRef<[u8]>>(limits: &Limits, words: &[W]) -> Result<Vec<u8>, CommandError> {
    let mut text = Vec::new();
    command_into(limits, words, &mut text)?;
    Ok(text)
}

/// Appends the bytes of a command, which [`command`] returns.
///
/// # Errors
///
/// Those of [`command`]. `to` is then unchanged.
///
/// # Examples
///
/// ```
/// use resp::{command_into, Limits};
///
/// let mut text = Vec::new();
/// for key in ["a", "b"] {
///     command_into(&Limits::default(), &["GET", key], &mut text)?;
/// }
/// assert_eq!(text, b"*2\r\n$3\r\nGET\r\n$1\r\na\r\n*2\r\n$3\r\nGET\r\n$1\r\nb\r\n");
/// # Ok::<(), resp::CommandError>(())
/// ```
pub fn command_into<W: AsRef<[u8]>>(limits: &Limits, words: &[W], to: &mut Vec<u8>) -> Result<(), CommandError> {
    let words: Vec<&[u8]> = words.iter().map(AsRef::as_ref).collect();
    let lengths: Vec<usize> = words.iter().map(|word| word.len()).collect();
    let begin = to.len();
    to.resize(begin + size(limits, &lengths)?, 0);
    let mut rest: &mut [u8] = &mut to[begin..];
    let mut used = 0;
    // SAFETY: we own the buffer, which has this length.
    let cause =
        unsafe { raw::resp_write_head(rest.as_mut_ptr(), rest.len(), raw::ARRAY, words.len() as u64, &mut used) };
    assert_eq!(cause, raw::OK);
    for word in words {
        rest = &mut rest[used..];
        // SAFETY: we own the buffer, which has this length. The word has that length and lies elsewhere.
        let cause =
            unsafe { raw::resp_write_bulk(rest.as_mut_ptr(), rest.len(), word.as_ptr(), word.len(), &mut used) };
        assert_eq!(cause, raw::OK);
    }
    Ok(())
}

/// Returns the number of bytes of a command, from the lengths of its words.
fn size(limits: &Limits, lengths: &[usize]) -> Result<usize, CommandError> {
    let mut size = 0;
    let limits = raw::Limits::from(limits);
    // SAFETY: each pointer is to our own data, and there are `len()` lengths.
    match unsafe { raw::resp_command_size(&limits, lengths.as_ptr(), lengths.len(), &mut size) } {
        raw::OK => Ok(size),
        raw::LENGTH => Err(CommandError::Length),
        raw::ITEMS => Err(CommandError::Items),
        raw::TOTAL => Err(CommandError::Total),
        _ => Err(CommandError::BadLimits),
    }
}
