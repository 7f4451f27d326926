//! usage: calls map|ord OPERATION LEN STEPS PASSES
//!        calls store PLACES STOPS MARKS <LINES
//!
//! The operations of `timed.rs` by the calls of the static libraries, through the Cargo package of
//! `embed/`, and the lines of a store by one call each.
mod timed;

use route_arenas::{OrdHandle, OrdMap, RouteBook, SlotHandle, SlotMap};
use std::env;
use std::io::{self, Read, Write};
use std::process::ExitCode;
use timed::Entries;

/// A map, and where its entries are by their numbers.
struct Slots {
    map: SlotMap,
    handles: Vec<SlotHandle>,
}

impl Entries for Slots {
    fn make(len: usize) -> Self {
        let map = SlotMap::new().expect("memory");
        Slots { map, handles: vec![SlotHandle::from_bits(0); len] }
    }

    #[inline(always)]
    fn put(&mut self, n: usize) -> Option<u64> {
        *self.handles.get_mut(n)? = self.map.insert(n as u64).ok()?;
        Some(n as u64)
    }

    #[inline(always)]
    fn read(&self, n: usize) -> Option<u64> {
        self.map.get(*self.handles.get(n)?)
    }

    #[inline(always)]
    fn take(&mut self, n: usize) -> Option<u64> {
        self.map.remove(*self.handles.get(n)?)
    }

    fn walk(&self, laps: &mut timed::Laps) -> u64 {
        timed::walk(self.map.iter().map(|(_, value)| value), laps)
    }

    fn renumber(&mut self) {}
}

/// The same of an ordered map, whose entries go by their keys, or are removed by their handles.
struct Keys<const BY_HANDLE: bool> {
    map: OrdMap,
    handles: Vec<OrdHandle>,
}

/// A key whose order is far from that of the numbers, as in `ordered.rs`.
fn key(n: usize) -> u64 {
    let mut z = (n as u64).wrapping_mul(0x9e37_79b9_7f4a_7c15);
    z = (z ^ (z >> 30)).wrapping_mul(0xbf58_476d_1ce4_e5b9);
    z = (z ^ (z >> 27)).wrapping_mul(0x94d0_49bb_1331_11eb);
    z ^ (z >> 31)
}

impl<const BY_HANDLE: bool> Entries for Keys<BY_HANDLE> {
    fn make(len: usize) -> Self {
        let map = OrdMap::new().expect("memory");
        Keys { map, handles: vec![OrdHandle::from_bits(0); len] }
    }

    #[inline(always)]
    fn put(&mut self, n: usize) -> Option<u64> {
        *self.handles.get_mut(n)? = self.map.insert(key(n), n as u64).ok()?.0;
        Some(n as u64)
    }

    #[inline(always)]
    fn read(&self, n: usize) -> Option<u64> {
        self.map.value(key(n))
    }

    #[inline(always)]
    fn take(&mut self, n: usize) -> Option<u64> {
        if BY_HANDLE {
            Some(self.map.remove(*self.handles.get(n)?)?.1)
        } else {
            self.map.remove_key(key(n))
        }
    }

    fn walk(&self, laps: &mut timed::Laps) -> u64 {
        timed::walk(self.map.iter().map(|(_, _, value)| value), laps)
    }

    fn renumber(&mut self) {}
}

/// Answers each line by one call.
fn store(rooms: &[String]) -> Option<()> {
    let [places, stops, marks] = rooms else {
        return None;
    };
    let mut book =
        RouteBook::new(places.parse().ok()?, stops.parse().ok()?, marks.parse().ok()?).ok()?;
    let mut lines = Vec::new();
    io::stdin().read_to_end(&mut lines).ok()?;
    let mut out = io::stdout().lock();
    let mut room = vec![0; 1 << 20];
    let mut end = 0;
    for line in lines.split_inclusive(|byte| *byte == b'\n') {
        let mut progress = book.run(line, &mut room[end..]);
        end += progress.written;
        while progress.is_short {
            // A list may want more than all of the room.
            out.write_all(&room[..end]).ok()?;
            if end == 0 {
                room.resize(2 * room.len(), 0);
            }
            progress = book.run(line, &mut room);
            end = progress.written;
        }
    }
    out.write_all(&room[..end]).ok()
}

fn main() -> ExitCode {
    let args: Vec<String> = env::args().collect();
    let done = match args.get(1).map(String::as_str) {
        Some("map") => timed::run::<Slots>(&args[2..]),
        Some("ord") if args.get(2).is_some_and(|it| it == "cancel") => {
            let mut words = args[2..].to_vec();
            words[0] = "remove".into();
            timed::run::<Keys<true>>(&words)
        }
        Some("ord") => timed::run::<Keys<false>>(&args[2..]),
        Some("store") => store(&args[2..]),
        _ => None,
    };
    if done.is_some() { ExitCode::SUCCESS } else { ExitCode::from(2) }
}
