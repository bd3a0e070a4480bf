//! The iterator over the events of a piece. One call of the library returns many events.

use crate::{raw, Event, Fault, Scanner};

/// The iterator over the events of a piece, made by [`Scanner::scan`]. Events borrow from the piece, and
/// not from the scanner.
///
/// If the iterator is dropped early, its other events are lost: the scanner has then read the whole
/// piece, or up to a wrong byte.
pub struct Scan<'s, 'a> {
    scanner: &'s mut Scanner,
    /// The piece after the bytes of the returned events, and how many bytes of it the scanner has read.
    rest: &'a [u8],
    taken: usize,
    /// The number of events from the last call of the library, and how many of them were returned.
    told: usize,
    given: usize,
    /// The events of a whole text that are still to be returned.
    whole: Whole<'a>,
    /// Whether the array of events was full, and the error after its events.
    is_full: bool,
    cause: u32,
}

/// The events of a whole text that are still to be returned.
enum Whole<'a> {
    Nothing,
    Part(&'a [u8]),
    End,
}

impl<'s, 'a> Scan<'s, 'a> {
    pub(crate) fn new(scanner: &'s mut Scanner, piece: &'a [u8]) -> Scan<'s, 'a> {
        Scan { scanner, rest: piece, taken: 0, told: 0, given: 0, whole: Whole::Nothing, is_full: true, cause: raw::OK }
    }

    /// Returns the next event of a whole text that was begun.
    fn whole_next(&mut self) -> Option<Event<'a>> {
        match std::mem::replace(&mut self.whole, Whole::Nothing) {
            Whole::Nothing => None,
            Whole::Part(part) => {
                self.whole = Whole::End;
                Some(Event::Part(part))
            }
            Whole::End => Some(Event::TextEnd),
        }
    }

    /// Asks the library for more events, after all events were returned.
    fn tell(&mut self) {
        self.rest = &self.rest[self.taken..];
        let (scanned, cause) = self.scanner.raw_scan(self.rest);
        self.taken = scanned.used;
        self.told = scanned.count;
        self.given = 0;
        self.is_full = cause == raw::OK && scanned.count == self.scanner.events.len();
        self.cause = cause;
    }
}

impl<'a> Iterator for Scan<'_, 'a> {
    type Item = Result<Event<'a>, Fault>;

    fn next(&mut self) -> Option<Result<Event<'a>, Fault>> {
        if let Some(event) = self.whole_next() {
            return Some(Ok(event));
        }
        if self.given == self.told && self.is_full {
            self.tell();
        }
        if self.given == self.told {
            let cause = std::mem::replace(&mut self.cause, raw::OK);
            return (cause != raw::OK).then(|| Err(self.scanner.fault(cause)));
        }
        let event = &self.scanner.events[self.given];
        let told = event.told(self.rest);
        self.whole = match event.whole(self.rest) {
            Some([]) => Whole::End,
            Some(part) => Whole::Part(part),
            None => Whole::Nothing,
        };
        self.rest = &self.rest[event.used..];
        self.taken -= event.used;
        self.given += 1;
        told.map(Ok)
    }
}

impl Drop for Scan<'_, '_> {
    fn drop(&mut self) {
        while self.is_full {
            self.tell();
        }
    }
}
