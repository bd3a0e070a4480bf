//! Pairs replies with commands, and reads each reply in its version.

use crate::{raw, BadLimits, Event, Fault, Limits, Scanner, Version};
use std::error::Error;
use std::fmt;

/// The error of [`Pairing::queue_command`], [`Pairing::queue`] and [`Pairing::hello`]. Nothing changes.
#[derive(Clone, Copy, Debug, PartialEq, Eq)]
#[non_exhaustive]
pub enum QueueError {
    /// The command does not have exactly one reply, or it changes the version in another way than HELLO:
    /// MONITOR, SYNC, PSYNC, RESET, CLIENT REPLY, and a command without a word; and SUBSCRIBE, PSUBSCRIBE,
    /// SSUBSCRIBE, UNSUBSCRIBE, PUNSUBSCRIBE, SUNSUBSCRIBE in version 2, while a HELLO that asks for a
    /// version waits, or without a channel. Later replies would be paired with the wrong commands.
    Unpaired,
    /// Another command that pushes answer waits.
    PushesWait,
    /// Another HELLO that asks for a version waits for its reply.
    HelloWaits,
    /// 2^63 commands were queued.
    TooMany,
}

/// The error of [`Pairing::step`].
#[derive(Clone, Copy, Debug, PartialEq, Eq)]
#[non_exhaustive]
pub enum PairError {
    /// A value other than a push arrived while no command waits. Nothing was read. Queue the command,
    /// and give the same bytes again.
    Unasked,
    /// A wrong byte. Every later step returns the same fault.
    Fault(Fault),
}

impl fmt::Display for QueueError {
    fn fmt(&self, f: &mut fmt::Formatter<'_>) -> fmt::Result {
        f.write_str(match self {
            QueueError::Unpaired => "the command does not have exactly one reply, or changes the version",
            QueueError::PushesWait => "a command that pushes answer waits",
            QueueError::HelloWaits => "a HELLO with a version waits",
            QueueError::TooMany => "the numbers of commands are used up",
        })
    }
}

impl fmt::Display for PairError {
    fn fmt(&self, f: &mut fmt::Formatter<'_>) -> fmt::Result {
        match self {
            PairError::Unasked => f.write_str("no command asked for this value"),
            PairError::Fault(fault) => fault.fmt(f),
        }
    }
}

impl Error for QueueError {}
impl Error for PairError {}

/// Returns the number of a command that was counted, or the error.
fn queued(cause: u32, number: u64) -> Result<u64, QueueError> {
    match cause {
        raw::OK => Ok(number),
        raw::UNPAIRED => Err(QueueError::Unpaired),
        raw::PUSHES_WAIT => Err(QueueError::PushesWait),
        raw::HELLO_WAITS => Err(QueueError::HelloWaits),
        _ => Err(QueueError::TooMany),
    }
}

/// The result of [`Pairing::step`].
#[derive(Clone, Copy, Debug, PartialEq, Eq)]
pub struct Paired<'a> {
    /// The number of bytes read from the front of the piece; the whole piece if there is no event.
    pub used: usize,
    /// The event, with the number of the reply that it belongs to, from 1, or `None` for a push.
    pub event: Option<(Option<u64>, Event<'a>)>,
}

/// Reads the replies to the commands that were queued, each in its version, and returns their events
/// with the numbers of the commands.
///
/// # Examples
///
/// ```
/// use resp::{Event, Limits, Pairing, Version};
///
/// let mut pairing = Pairing::new(&Limits::default())?;
/// assert_eq!(pairing.queue_command(&["HELLO", "3"]), Ok(1));
/// assert_eq!(pairing.queue_command(&["GET", "key"]), Ok(2));
/// let mut rest: &[u8] = b"%0\r\n_\r\n";
/// let mut last = None;
/// while let Some(event) = {
///     let step = pairing.step(rest)?;
///     rest = &rest[step.used..];
///     step.event
/// } {
///     last = Some(event);
/// }
/// assert_eq!(last, Some((Some(2), Event::Done)));
/// assert_eq!(pairing.version(), Version::Three);
/// # Ok::<(), Box<dyn std::error::Error>>(())
/// ```
pub struct Pairing {
    scanner: Scanner,
    pairing: raw::Pairing,
}

impl Pairing {
    /// Creates a pairing of version 2. No command waits.
    ///
    /// # Errors
    ///
    /// [`BadLimits`] if a limit is outside its range.
    pub fn new(limits: &Limits) -> Result<Pairing, BadLimits> {
        let mut pairing = raw::Pairing::default();
        // SAFETY: the pointer is to our own pairing.
        unsafe { raw::resp_pairing_init(&mut pairing) };
        Ok(Pairing { scanner: Scanner::new(Version::Two, limits)?, pairing })
    }

    /// Counts a command that is sent with these words, and returns the number of its reply. After the reply
    /// to a HELLO that asks for a version, unless it is an error, values are read in that version.
    ///
    /// In version 3 SUBSCRIBE, PSUBSCRIBE, SSUBSCRIBE and their UN- forms are answered by a push for each
    /// channel, or by one error. Such a command waits until so many pushes arrived while it waited first,
    /// or until a reply. Other pushes count too: if messages arrive meanwhile, its wait ends early, and
    /// later replies still have the right numbers unless the server rejects the command.
    ///
    /// # Errors
    ///
    /// [`QueueError::Unpaired`] for a command that is not paired, [`QueueError::HelloWaits`] for a HELLO
    /// that asks for a version while another one waits, [`QueueError::PushesWait`] for a command that
    /// pushes answer while another one waits, and [`QueueError::TooMany`] after 2^63 commands.
    pub fn queue_command<W: AsRef<[u8]>>(&mut self, words: &[W]) -> Result<u64, QueueError> {
        let name = words.first().map_or(&[][..], AsRef::as_ref);
        let argument = words.get(1).map_or(&[][..], AsRef::as_ref);
        // SAFETY: the two words have these lengths.
        let kind = unsafe {
            raw::resp_command_kind(words.len(), name.as_ptr(), name.len(), argument.as_ptr(), argument.len())
        };
        if kind != raw::SUBSCRIBING {
            return self.queue_kind(kind);
        }
        let mut number = 0;
        // SAFETY: `new` has initialised the pairing, and the other pointer is to our own number.
        queued(unsafe { raw::resp_pairing_queue_pushes(&mut self.pairing, words.len() as u64 - 1, &mut number) }, number)
    }

    /// Counts a command that is sent, without its words, and returns the number of its reply.
    ///
    /// The command must have exactly one reply, and not change the version, which this call cannot check.
    /// Otherwise later replies are paired with the wrong commands.
    ///
    /// # Errors
    ///
    /// [`QueueError::TooMany`] after 2^63 commands.
    pub fn queue(&mut self) -> Result<u64, QueueError> {
        self.queue_kind(0)
    }

    /// Counts a HELLO that asks for this version, and returns the number of its reply. After the reply,
    /// unless it is an error, values are read in that version.
    ///
    /// # Errors
    ///
    /// [`QueueError::HelloWaits`] while another HELLO that asks for a version waits, and
    /// [`QueueError::TooMany`] after 2^63 commands.
    pub fn hello(&mut self, version: Version) -> Result<u64, QueueError> {
        self.queue_kind(version as u32)
    }

    fn queue_kind(&mut self, kind: u32) -> Result<u64, QueueError> {
        let mut number = 0;
        // SAFETY: `new` has initialised the pairing, and the other pointer is to our own number.
        queued(unsafe { raw::resp_pairing_queue(&mut self.pairing, kind, &mut number) }, number)
    }

    /// Returns the version: 2, or that of the last HELLO whose reply was not an error.
    pub fn version(&self) -> Version {
        match self.pairing.version {
            3 => Version::Three,
            _ => Version::Two,
        }
    }

    /// Reads the piece up to the next event or its end, like [`Scanner::step`].
    ///
    /// # Errors
    ///
    /// [`PairError::Unasked`] for a value that no command asked for, and the faults of [`Scanner::step`].
    pub fn step<'a>(&mut self, piece: &'a [u8]) -> Result<Paired<'a>, PairError> {
        if let Some(first) = piece.first().filter(|_| self.scanner.taken() == 0) {
            let mut version = 0;
            // SAFETY: `new` has initialised the pairing, and the other pointer is to our own number.
            if unsafe { raw::resp_pairing_first(&mut self.pairing, *first, &mut version) } != raw::OK {
                return Err(PairError::Unasked);
            }
            // After a fault the scanner keeps its version, and the step returns the fault again.
            let _ = self.scanner.set_version(if version == 3 { Version::Three } else { Version::Two });
        }
        let event = self.scanner.raw_step(piece).map_err(PairError::Fault)?;
        let mut number = 0;
        // SAFETY: as above, and the event is our own.
        unsafe { raw::resp_pairing_take(&mut self.pairing, &event, &mut number) };
        let told = event.told(piece).map(|it| ((number > 0).then_some(number), it));
        Ok(Paired { used: event.used, event: told })
    }

    /// Reports the end of the input.
    ///
    /// # Errors
    ///
    /// [`crate::Cause::Truncated`] inside a value, and the fault of an earlier step again.
    pub fn finish(&mut self) -> Result<(), Fault> {
        self.scanner.finish()
    }
}
