//! The codec of a client, which knows which command a reply answers.

use crate::frame::Begun;
use crate::{CodecError, Frame};
use bytes::{Bytes, BytesMut};
use resp::{command_into, BadLimits, Event, Limits, PairError, Pairing, Version};
use std::error::Error;
use std::fmt;
use tokio_util::codec::{Decoder, Encoder};

/// What a server sent.
#[derive(Clone, Debug, PartialEq, Eq)]
pub enum Received {
    /// The reply to the command with this number. The first command that was encoded has the number 1.
    Reply(u64, Result<Frame, ReplyError>),
    /// A push, which answers no command, as its members.
    Push(Vec<Frame>),
}

/// An error that the server replied to a command.
#[derive(Clone, Debug, PartialEq, Eq, Hash)]
pub struct ReplyError(pub Bytes);

impl fmt::Display for ReplyError {
    fn fmt(&self, f: &mut fmt::Formatter<'_>) -> fmt::Result {
        f.write_str(&String::from_utf8_lossy(&self.0))
    }
}

impl Error for ReplyError {}

/// Encodes the commands of a connection, and decodes what the server sends, for `tokio_util::codec::Framed`.
///
/// It begins in version 2. It reads each reply in its version: after the reply to HELLO 3, unless it is an error, in
/// version 3. An error reply is an `Err`, and not a [`Frame`], so `?` does not pass over it. An error inside an array, as
/// in the reply to EXEC, is a [`Frame::Error`].
///
/// # Examples
///
/// ```
/// use bytes::BytesMut;
/// use resp::Limits;
/// use resp_tokio::{Client, Frame, Received, ReplyError};
/// use tokio_util::codec::{Decoder, Encoder};
///
/// let mut client = Client::new(&Limits::default())?;
/// let mut sent = BytesMut::new();
/// client.encode(&["HELLO", "3"][..], &mut sent)?;
/// client.encode(&["INCR", "key"][..], &mut sent)?;
///
/// let mut received = BytesMut::from(&b"%0\r\n>1\r\n+note\r\n-ERR no\r\n"[..]);
/// assert_eq!(client.decode(&mut received)?, Some(Received::Reply(1, Ok(Frame::Map(vec![])))));
/// assert_eq!(client.decode(&mut received)?, Some(Received::Push(vec![Frame::Simple("note".into())])));
/// assert_eq!(client.decode(&mut received)?, Some(Received::Reply(2, Err(ReplyError("ERR no".into())))));
/// # Ok::<(), Box<dyn std::error::Error>>(())
/// ```
pub struct Client {
    pairing: Pairing,
    limits: Limits,
    begun: Begun,
}

impl Client {
    /// Creates the codec of a new connection. The limits hold for commands and for what the server sends.
    ///
    /// # Errors
    ///
    /// [`BadLimits`] if a limit is outside its range.
    pub fn new(limits: &Limits) -> Result<Client, BadLimits> {
        Ok(Client { pairing: Pairing::new(limits)?, limits: *limits, begun: Begun::default() })
    }

    /// Returns the version: 2, or that of the last HELLO whose reply was not an error.
    pub fn version(&self) -> Version {
        self.pairing.version()
    }
}

impl Decoder for Client {
    type Item = Received;
    type Error = CodecError;

    fn decode(&mut self, buffer: &mut BytesMut) -> Result<Option<Received>, CodecError> {
        loop {
            let step = self.pairing.step(&buffer[self.begun.read..]).map_err(|error| match error {
                PairError::Fault(fault) => CodecError::Fault(fault),
                _ => CodecError::Unasked,
            })?;
            self.begun.read += step.used;
            match step.event {
                None => return Ok(None),
                Some((number, Event::Done)) => return Ok(self.begun.end(buffer).map(|frame| received(number, frame))),
                Some((_, event)) => self.begun.add(event),
            }
        }
    }

    fn decode_eof(&mut self, buffer: &mut BytesMut) -> Result<Option<Received>, CodecError> {
        match self.decode(buffer)? {
            Some(received) => Ok(Some(received)),
            None => self.pairing.finish().map(|()| None).map_err(CodecError::Fault),
        }
    }
}

impl<W: AsRef<[u8]>> Encoder<&[W]> for Client {
    type Error = CodecError;

    fn encode(&mut self, words: &[W], buffer: &mut BytesMut) -> Result<(), CodecError> {
        let mut text = Vec::new();
        command_into(&self.limits, words, &mut text).map_err(CodecError::Command)?;
        self.pairing.queue_command(words).map_err(CodecError::Queue)?;
        buffer.extend_from_slice(&text);
        Ok(())
    }
}

/// Returns what a frame with this number is. Attributes in front of a reply or push are dropped.
fn received(number: Option<u64>, frame: Frame) -> Received {
    match (number, frame) {
        (number, Frame::Attribute(_, frame)) => received(number, *frame),
        (_, Frame::Push(members)) => Received::Push(members),
        // Only pushes have no number.
        (None, frame) => Received::Push(vec![frame]),
        (Some(number), Frame::Error(text) | Frame::BulkError(text)) => Received::Reply(number, Err(ReplyError(text))),
        (Some(number), frame) => Received::Reply(number, Ok(frame)),
    }
}
