//! Codecs for `tokio_util::codec`: a [`Client`] encodes commands, and decodes their replies and pushes. A [`Codec`] decodes
//! values of one version. The texts of their frames are slices of the buffer.
//!
//! It is a crate of its own, so that the crate `resp` has no dependency.

mod client;
mod frame;

pub use client::{Client, Received, ReplyError};
pub use frame::Frame;

use bytes::BytesMut;
use frame::Begun;
use resp::{command_into, BadLimits, CommandError, Event, Fault, Limits, PairError, QueueError, Scanner, Version};
use std::error::Error;
use std::{fmt, io};
use tokio_util::codec::{Decoder, Encoder};

/// The error of a [`Codec`] or a [`Client`].
#[derive(Debug)]
#[non_exhaustive]
pub enum CodecError {
    /// A byte was rejected, or the input ended inside a value. Every later call returns this again.
    Fault(Fault),
    /// A command exceeds the limits. Nothing was written.
    Command(CommandError),
    /// A command cannot be paired with its reply. Nothing was written.
    Queue(QueueError),
    /// The server sent a value, other than a push, that answers no command.
    Unasked,
    /// The connection failed.
    Io(io::Error),
}

impl fmt::Display for CodecError {
    fn fmt(&self, f: &mut fmt::Formatter<'_>) -> fmt::Result {
        match self {
            CodecError::Fault(fault) => fault.fmt(f),
            CodecError::Command(error) => error.fmt(f),
            CodecError::Queue(error) => error.fmt(f),
            CodecError::Unasked => PairError::Unasked.fmt(f),
            CodecError::Io(error) => error.fmt(f),
        }
    }
}

impl Error for CodecError {}

impl From<io::Error> for CodecError {
    fn from(error: io::Error) -> CodecError {
        CodecError::Io(error)
    }
}

/// Decodes values of one version into [`Frame`]s, and encodes commands, for `tokio_util::codec::Framed`. It does not
/// pair replies with commands: [`Client`] does.
///
/// # Examples
///
/// ```
/// use bytes::BytesMut;
/// use resp::{Limits, Version};
/// use resp_tokio::{Codec, Frame};
/// use tokio_util::codec::{Decoder, Encoder};
///
/// let mut codec = Codec::new(Version::Two, &Limits::default())?;
/// let mut sent = BytesMut::new();
/// codec.encode(&["GET", "key"][..], &mut sent)?;
/// assert_eq!(&sent[..], b"*2\r\n$3\r\nGET\r\n$3\r\nkey\r\n");
///
/// let mut received = BytesMut::from(&b"$5\r\nhello\r\n+O"[..]);
/// assert_eq!(codec.decode(&mut received)?, Some(Frame::Bulk("hello".into())));
/// assert_eq!(codec.decode(&mut received)?, None);
/// # Ok::<(), Box<dyn std::error::Error>>(())
/// ```
pub struct Codec {
    scanner: Scanner,
    limits: Limits,
    begun: Begun,
}

impl Codec {
    /// Creates a codec that decodes values of this version. The limits hold for values and commands.
    ///
    /// # Errors
    ///
    /// [`BadLimits`] if a limit is outside its range.
    pub fn new(version: Version, limits: &Limits) -> Result<Codec, BadLimits> {
        Ok(Codec { scanner: Scanner::new(version, limits)?, limits: *limits, begun: Begun::default() })
    }
}

impl Decoder for Codec {
    type Item = Frame;
    type Error = CodecError;

    fn decode(&mut self, buffer: &mut BytesMut) -> Result<Option<Frame>, CodecError> {
        loop {
            let step = self.scanner.step(&buffer[self.begun.read..]).map_err(CodecError::Fault)?;
            self.begun.read += step.used;
            match step.event {
                None => return Ok(None),
                Some(Event::Done) => return Ok(self.begun.end(buffer)),
                Some(event) => self.begun.add(event),
            }
        }
    }

    fn decode_eof(&mut self, buffer: &mut BytesMut) -> Result<Option<Frame>, CodecError> {
        match self.decode(buffer)? {
            Some(frame) => Ok(Some(frame)),
            None => self.scanner.finish().map(|()| None).map_err(CodecError::Fault),
        }
    }
}

impl<W: AsRef<[u8]>> Encoder<&[W]> for Codec {
    type Error = CodecError;

    fn encode(&mut self, words: &[W], buffer: &mut BytesMut) -> Result<(), CodecError> {
        let mut text = Vec::new();
        command_into(&self.limits, words, &mut text).map_err(CodecError::Command)?;
        buffer.extend_from_slice(&text);
        Ok(())
    }
}
