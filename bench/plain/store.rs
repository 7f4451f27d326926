//! The store's line language over std's `BTreeSet` and `HashMap`: `store PLACES STOPS MARKS`, from
//! the standard input to the standard output. A reply is written before the next line is carried
//! out.
use std::collections::{BTreeSet, HashMap};
use std::io::{self, BufRead, Write};
use std::ops::Bound::{Excluded, Unbounded};

#[derive(Clone, Copy)]
struct Word {
    len: u8,
    bytes: [u8; 16],
}

impl Word {
    fn new(text: &[u8]) -> Option<Word> {
        let is_word = |b: &u8| b.is_ascii_lowercase() || b.is_ascii_digit();
        if text.is_empty() || text.len() > 16 || !text.iter().all(is_word) {
            return None;
        }
        let mut bytes = [0; 16];
        bytes[..text.len()].copy_from_slice(text);
        Some(Word { len: text.len() as u8, bytes })
    }

    fn as_bytes(&self) -> &[u8] {
        &self.bytes[..self.len as usize]
    }
}

struct Place {
    key: u64,
    word: Word,
}

#[derive(Clone, Copy)]
struct Stop {
    place: u64,
    prev: Option<u64>,
    next: Option<u64>,
}

struct Mark {
    place: u64,
    stop: u64,
}

enum Item {
    Place(Place),
    Stop(Stop),
    Mark(Mark),
}

enum Refusal {
    Unknown,
    Gone,
    Kind,
    No,
    Full,
}

use Refusal::{Full, Gone, Kind, No, Unknown};

/// A number without leading zeros.
fn number(field: &[u8]) -> Option<u64> {
    if field.is_empty() || (field.len() > 1 && field[0] == b'0') {
        return None;
    }
    let mut number: u64 = 0;
    for &digit in field {
        if !digit.is_ascii_digit() {
            return None;
        }
        number = number.checked_mul(10)?.checked_add((digit - b'0') as u64)?;
    }
    Some(number)
}

struct Store {
    rooms: [usize; 3],
    stops: usize,
    marks: usize,
    last: u64,
    /// Keys with their tickets.
    by_key: BTreeSet<(u64, u64)>,
    items: HashMap<u64, Item>,
}

impl Store {
    fn holder(&self, ticket: u64) -> Result<&Item, Refusal> {
        match self.items.get(&ticket) {
            Some(item) => Ok(item),
            None if ticket == 0 || ticket > self.last => Err(Unknown),
            None => Err(Gone),
        }
    }

    fn place_at(&self, ticket: u64) -> Result<&Place, Refusal> {
        match self.holder(ticket)? {
            Item::Place(place) => Ok(place),
            _ => Err(Kind),
        }
    }

    fn stop_at(&self, ticket: u64) -> Result<Stop, Refusal> {
        match self.holder(ticket)? {
            Item::Stop(stop) => Ok(*stop),
            _ => Err(Kind),
        }
    }

    fn stop_mut(&mut self, ticket: u64) -> &mut Stop {
        match self.items.get_mut(&ticket) {
            Some(Item::Stop(stop)) => stop,
            _ => unreachable!(),
        }
    }

    fn link(&mut self, first: u64, second: u64) {
        self.stop_mut(first).next = Some(second);
        self.stop_mut(second).prev = Some(first);
    }

    fn part(&mut self, first: u64, second: u64) {
        self.stop_mut(first).next = None;
        self.stop_mut(second).prev = None;
    }

    fn ticket(&mut self, is_full: bool) -> Result<u64, Refusal> {
        if is_full || self.last == u64::MAX {
            return Err(Full);
        }
        self.last += 1;
        Ok(self.last)
    }

    fn place(&mut self, key: u64, word: Word, out: &mut Vec<u8>) -> Result<(), Refusal> {
        let ticket = self.ticket(self.by_key.len() >= self.rooms[0])?;
        self.by_key.insert((key, ticket));
        self.items.insert(ticket, Item::Place(Place { key, word }));
        push(out, ticket);
        Ok(())
    }

    fn word(&mut self, ticket: u64, word: Word, out: &mut Vec<u8>) -> Result<(), Refusal> {
        self.place_at(ticket)?;
        let Some(Item::Place(place)) = self.items.get_mut(&ticket) else {
            unreachable!()
        };
        let old = std::mem::replace(&mut place.word, word);
        out.extend_from_slice(b"old ");
        out.extend_from_slice(old.as_bytes());
        Ok(())
    }

    /// A stop at a place, behind another stop if there is one.
    fn stop(&mut self, behind: Option<u64>, place: u64, out: &mut Vec<u8>) -> Result<(), Refusal> {
        let ticket = self.ticket(self.stops >= self.rooms[1])?;
        self.stops += 1;
        let next = behind.and_then(|s| self.stop_mut(s).next);
        self.items.insert(ticket, Item::Stop(Stop { place, prev: None, next: None }));
        if let Some(next) = next {
            self.link(ticket, next);
        }
        if let Some(behind) = behind {
            self.link(behind, ticket);
        }
        push(out, ticket);
        Ok(())
    }

    fn mark(&mut self, place: u64, stop: u64, out: &mut Vec<u8>) -> Result<(), Refusal> {
        self.place_at(place)?;
        self.stop_at(stop)?;
        let ticket = self.ticket(self.marks >= self.rooms[2])?;
        self.marks += 1;
        self.items.insert(ticket, Item::Mark(Mark { place, stop }));
        push(out, ticket);
        Ok(())
    }

    fn show(&self, ticket: u64, out: &mut Vec<u8>) -> Result<(), Refusal> {
        match self.holder(ticket)? {
            Item::Place(place) => {
                push(out, place.key);
                out.push(b' ');
                out.extend_from_slice(place.word.as_bytes());
            }
            Item::Stop(stop) => {
                out.extend_from_slice(b"at ");
                self.reference(stop.place, out);
            }
            Item::Mark(mark) => {
                self.reference(mark.place, out);
                out.push(b' ');
                self.reference(mark.stop, out);
            }
        }
        Ok(())
    }

    fn reference(&self, ticket: u64, out: &mut Vec<u8>) {
        if self.items.contains_key(&ticket) {
            push(out, ticket);
        } else {
            out.extend_from_slice(b"gone");
        }
    }

    fn join(&mut self, s: u64, u: u64) -> Result<(), Refusal> {
        let (first, second) = (self.stop_at(s)?, self.stop_at(u)?);
        if first.next.is_some() || second.prev.is_some() {
            return Err(No);
        }
        self.link(s, u);
        Ok(())
    }

    fn cut(&mut self, s: u64) -> Result<(), Refusal> {
        let next = self.stop_at(s)?.next.ok_or(No)?;
        self.part(s, next);
        Ok(())
    }

    fn swap(&mut self, s: u64, u: u64) -> Result<(), Refusal> {
        let (first, second) = (self.stop_at(s)?, self.stop_at(u)?);
        let (after_s, after_u) = (first.next.ok_or(No)?, second.next.ok_or(No)?);
        if s != u {
            self.link(s, after_u);
            self.link(u, after_s);
        }
        Ok(())
    }

    fn walk(&self, s: u64, out: &mut Vec<u8>) -> Result<(), Refusal> {
        let first = self.stop_at(s)?;
        let mut at = Some(s);
        while let Some(ticket) = at {
            at = self.walked(ticket, out).next;
            if at == Some(s) {
                return Ok(());
            }
        }
        at = first.prev;
        while let Some(ticket) = at {
            at = self.walked(ticket, out).prev;
        }
        Ok(())
    }

    fn walked(&self, ticket: u64, out: &mut Vec<u8>) -> Stop {
        let Some(Item::Stop(stop)) = self.items.get(&ticket) else {
            unreachable!()
        };
        push(out, ticket);
        out.push(b' ');
        self.reference(stop.place, out);
        out.push(b'\n');
        *stop
    }

    fn remove(&mut self, ticket: u64) -> Result<(), Refusal> {
        self.holder(ticket)?;
        match self.items.remove(&ticket) {
            Some(Item::Place(place)) => {
                self.by_key.remove(&(place.key, ticket));
            }
            Some(Item::Stop(stop)) => {
                self.stops -= 1;
                match (stop.prev, stop.next) {
                    (Some(prev), Some(next)) if prev != ticket => self.link(prev, next),
                    (Some(prev), None) => self.stop_mut(prev).next = None,
                    (None, Some(next)) => self.stop_mut(next).prev = None,
                    _ => {}
                }
            }
            Some(Item::Mark(_)) => self.marks -= 1,
            None => {}
        }
        Ok(())
    }

    fn all(&self, out: &mut Vec<u8>) {
        for &(key, ticket) in &self.by_key {
            let Some(Item::Place(place)) = self.items.get(&ticket) else {
                unreachable!()
            };
            push(out, ticket);
            out.push(b' ');
            push(out, key);
            out.push(b' ');
            out.extend_from_slice(place.word.as_bytes());
            out.push(b'\n');
        }
    }

    /// Carries out a line: `None` if it spells no command.
    fn answer(&mut self, line: &[u8], out: &mut Vec<u8>) -> Option<Result<(), Refusal>> {
        if line.len() > 69 {
            return None;
        }
        let mut fields = line.split(|&b| b == b' ');
        let mut all = [&b""[..]; 5];
        let mut count = 0;
        while let Some(field) = fields.next() {
            *all.get_mut(count)? = field;
            count += 1;
        }
        let n = |i: usize| number(all[i]);
        let ok = |done: Result<(), Refusal>, out: &mut Vec<u8>| {
            done.inspect(|()| out.extend_from_slice(b"ok"))
        };
        let end = |done: Result<(), Refusal>, out: &mut Vec<u8>| {
            done.inspect(|()| out.extend_from_slice(b"end"))
        };
        Some(match (all[0], count) {
            (b"place", 3) => {
                let (key, word) = (n(1)?, Word::new(all[2])?);
                self.place(key, word, out)
            }
            (b"place", 5) if all[3] == b"near" => {
                let (key, word, near) = (n(1)?, Word::new(all[2])?, n(4)?);
                match self.place_at(near) {
                    Ok(_) => self.place(key, word, out),
                    Err(refusal) => Err(refusal),
                }
            }
            (b"word", 3) => {
                let (ticket, word) = (n(1)?, Word::new(all[2])?);
                self.word(ticket, word, out)
            }
            (b"show", 2) => self.show(n(1)?, out),
            (b"find", 2) => {
                let key = n(1)?;
                let from = self.by_key.range((key, 0)..).next();
                push_or_none(out, from.filter(|e| e.0 == key).map(|e| e.1));
                Ok(())
            }
            (b"floor", 2) => {
                push_or_none(out, self.by_key.range(..=(n(1)?, u64::MAX)).next_back().map(|e| e.1));
                Ok(())
            }
            (b"after", 2) => {
                let ticket = n(1)?;
                self.place_at(ticket).map(|place| {
                    let later = (Excluded((place.key, ticket)), Unbounded);
                    push_or_none(out, self.by_key.range(later).next().map(|e| e.1));
                })
            }
            (b"before", 2) => {
                let ticket = n(1)?;
                self.place_at(ticket).map(|place| {
                    let earlier = self.by_key.range(..(place.key, ticket)).next_back();
                    push_or_none(out, earlier.map(|e| e.1));
                })
            }
            (b"all", 1) => {
                self.all(out);
                end(Ok(()), out)
            }
            (b"remove", 2) => ok(self.remove(n(1)?), out),
            (b"start", 2) => {
                let place = n(1)?;
                match self.place_at(place) {
                    Ok(_) => self.stop(None, place, out),
                    Err(refusal) => Err(refusal),
                }
            }
            (b"extend", 3) => {
                let (behind, place) = (n(1)?, n(2)?);
                match self.stop_at(behind).and_then(|_| self.place_at(place)) {
                    Ok(_) => self.stop(Some(behind), place, out),
                    Err(refusal) => Err(refusal),
                }
            }
            (b"join", 3) => ok(self.join(n(1)?, n(2)?), out),
            (b"cut", 2) => ok(self.cut(n(1)?), out),
            (b"swap", 3) => ok(self.swap(n(1)?, n(2)?), out),
            (b"walk", 2) => end(self.walk(n(1)?, out), out),
            (b"mark", 3) => self.mark(n(1)?, n(2)?, out),
            (b"pack", 1) => ok(Ok(()), out),
            _ => return None,
        })
    }
}

fn push(out: &mut Vec<u8>, mut number: u64) {
    let mut digits = [0; 20];
    let mut at = 20;
    loop {
        at -= 1;
        digits[at] = b'0' + (number % 10) as u8;
        number /= 10;
        if number == 0 {
            break;
        }
    }
    out.extend_from_slice(&digits[at..]);
}

fn push_or_none(out: &mut Vec<u8>, ticket: Option<u64>) {
    match ticket {
        Some(ticket) => push(out, ticket),
        None => out.extend_from_slice(b"none"),
    }
}

fn main() -> io::Result<()> {
    let rooms: Vec<usize> = std::env::args().skip(1).map(|a| a.parse().unwrap()).collect();
    let mut store = Store {
        rooms: [rooms[0], rooms[1], rooms[2]],
        stops: 0,
        marks: 0,
        last: 0,
        by_key: BTreeSet::new(),
        // It grows, as a user's would.
        items: HashMap::new(),
    };
    let (mut input, mut output) = (io::stdin().lock(), io::stdout().lock());
    let (mut line, mut reply) = (Vec::new(), Vec::new());
    while input.read_until(b'\n', &mut line)? > 0 {
        let is_whole = line.pop_if(|b| *b == b'\n').is_some();
        match store.answer(if is_whole { &line } else { b"" }, &mut reply) {
            Some(Ok(())) => {}
            Some(Err(refusal)) => reply.extend_from_slice(match refusal {
                Unknown => b"unknown",
                Gone => b"gone",
                Kind => b"kind",
                No => b"no",
                Full => b"full",
            }),
            None => reply.extend_from_slice(b"bad"),
        }
        reply.push(b'\n');
        output.write_all(&reply)?;
        line.clear();
        reply.clear();
    }
    output.flush()
}
