//! A store of places, routes and marks that answers lines.

use crate::Error;
use crate::exports::{NO_MEMORY, OK, Own, RawRouteBook, SHORT, TOO_LARGE};
use std::fmt;

/// How far lines were answered.
#[derive(Clone, Copy, Debug, PartialEq, Eq)]
pub struct Progress {
    /// How many bytes of the input are taken: its whole lines that are carried out.
    pub taken: usize,
    /// How many bytes of the room their replies are.
    pub written: usize,
    /// Whether the next line had no room for its reply, and so is not carried out.
    pub is_short: bool,
}

/// A store of places, routes of stops and marks, which answers lines of text. Its language is that
/// of the program `route_book`.
///
/// It takes its memory when it is made, and none later. It is neither `Send` nor `Sync`, since
/// nothing proved speaks of threads.
pub struct RouteBook {
    // The exports write the struct, also where they only read.
    raw: Own<RawRouteBook>,
}

fn made(status: u8) -> Result<(), Error> {
    match status {
        OK => Ok(()),
        NO_MEMORY => Err(Error::NoMemory),
        TOO_LARGE => Err(Error::TooLarge),
        other => unreachable!("a store answered {other}"),
    }
}

fn is_short(status: u8) -> bool {
    match status {
        OK => false,
        SHORT => true,
        other => unreachable!("a store answered {other}"),
    }
}

impl RouteBook {
    /// The room that is enough for the reply to each line but `all` and `walk`. The reply to those
    /// has a line of at most so many bytes for each place or stop, and the line `end`.
    pub const LINE: usize = 59;

    /// An empty store with room for so many places, stops and marks.
    ///
    /// # Errors
    /// `TooLarge` if the rooms together are past 4,294,967,295, or `NoMemory`.
    pub fn new(places: usize, stops: usize, marks: usize) -> Result<RouteBook, Error> {
        let raw = Own::<RawRouteBook>::zeros();
        made(raw.make(places, stops, marks))?;
        Ok(RouteBook { raw })
    }

    /// Carries out the whole lines of the input one after another, and writes their replies from
    /// the front of the room on, until no whole line is left or one has no room for its reply:
    /// a list as much as it takes, and each other line `LINE` bytes.
    ///
    /// What follows the last LF is not taken: give it again, with what comes behind it.
    pub fn run(&mut self, input: &[u8], room: &mut [u8]) -> Progress {
        let (mut taken, mut written) = (0, 0);
        let status = self.raw.run(input, room, &mut taken, &mut written);
        Progress {
            taken,
            written,
            is_short: is_short(status),
        }
    }

    /// Carries out the whole lines of the input, and appends their replies. It gives how many bytes
    /// of the input these lines are. What follows the last LF is not taken.
    pub fn answer(&mut self, input: &[u8], replies: &mut Vec<u8>) -> usize {
        let (mut begun, mut room) = (0, 1024);
        loop {
            let end = replies.len();
            replies.resize(end + room, 0);
            let progress = self.run(&input[begun..], &mut replies[end..]);
            replies.truncate(end + progress.written);
            begun += progress.taken;
            if !progress.is_short {
                return begun;
            }
            room *= 2;
        }
    }

    /// What a new store with these rooms answers to a whole input, as the program `route_book`
    /// does. What follows the last LF is answered `bad`.
    ///
    /// # Errors
    /// As at `new`.
    pub fn answer_all(
        places: usize,
        stops: usize,
        marks: usize,
        input: &[u8],
    ) -> Result<Vec<u8>, Error> {
        let rooms = [places, stops, marks];
        let mut replies = vec![0; 1024];
        loop {
            let (mut taken, mut written) = (0, 0);
            match Own::<RawRouteBook>::answer(rooms, input, &mut replies, &mut taken, &mut written)
            {
                // The store is gone, so all is answered once more in a larger room.
                SHORT => replies.resize(2 * replies.len(), 0),
                status => {
                    made(status)?;
                    replies.truncate(written);
                    return Ok(replies);
                }
            }
        }
    }

    fn counted(&self, count: fn(&Own<RawRouteBook>, &mut usize) -> u8) -> usize {
        let mut found = 0;
        is_short(count(&self.raw, &mut found));
        found
    }

    /// How many places live.
    #[must_use]
    pub fn places(&self) -> usize {
        self.counted(Own::<RawRouteBook>::places)
    }

    /// How many stops live.
    #[must_use]
    pub fn stops(&self) -> usize {
        self.counted(Own::<RawRouteBook>::stops)
    }

    /// How many marks live.
    #[must_use]
    pub fn marks(&self) -> usize {
        self.counted(Own::<RawRouteBook>::marks)
    }

    /// Moves all items to the front of their memory, as the line `pack` does. It changes no reply.
    pub fn pack(&mut self) {
        is_short(self.raw.pack());
    }
}

impl Drop for RouteBook {
    fn drop(&mut self) {
        self.raw.free();
    }
}

impl fmt::Debug for RouteBook {
    fn fmt(&self, f: &mut fmt::Formatter<'_>) -> fmt::Result {
        f.debug_struct("RouteBook")
            .field("places", &self.places())
            .field("stops", &self.stops())
            .field("marks", &self.marks())
            .finish()
    }
}
