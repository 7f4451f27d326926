//! usage: chains slab|list queue|turn|rotate|walk|iterate|fill|renumber|transfer|clone STEPS, with
//! the operations of the Rattle program `bench`, over a doubly linked list in a slab by hand, or
//! over std's `LinkedList`.
mod timed;

use std::collections::LinkedList;
use std::env;
use std::process::ExitCode;
use timed::Entries;

/// How many links there are before the steps.
const LEN: usize = 4096;

/// A linear congruential generator; its upper bits are the sequence.
struct Sequence {
    state: u64,
}

impl Sequence {
    fn new() -> Self {
        Sequence { state: 1 }
    }

    fn number(&mut self) -> u64 {
        self.state = self
            .state
            .wrapping_mul(6364136223846793005)
            .wrapping_add(1442695040888963407);
        self.state
    }
}

/// No link.
const NONE: usize = usize::MAX;

/// A link of a slab: a free one names the next free one, and has no value.
#[derive(Clone)]
struct Link {
    prev: usize,
    next: usize,
    value: Option<u64>,
}

/// Doubly linked lists in a vector, with indexes by hand.
#[derive(Clone)]
struct Slab {
    links: Vec<Link>,
    free: usize,
}

impl Slab {
    fn new() -> Self {
        Slab {
            links: Vec::new(),
            free: NONE,
        }
    }

    /// Puts a value after the link at `at`, or alone where it is `NONE`.
    fn insert_after(&mut self, at: usize, value: u64) -> usize {
        let next = if at == NONE { NONE } else { self.links[at].next };
        let link = Link {
            prev: at,
            next,
            value: Some(value),
        };
        let index = self.free;
        let index = if index == NONE {
            self.links.push(link);
            self.links.len() - 1
        } else {
            let place = &mut self.links[index];
            self.free = place.next;
            *place = link;
            index
        };
        if at != NONE {
            self.links[at].next = index;
        }
        if next != NONE {
            self.links[next].prev = index;
        }
        index
    }

    /// Takes the link at `at` out, and gives its next and its value.
    fn remove(&mut self, at: usize) -> Option<(usize, u64)> {
        let link = self.links.get_mut(at)?;
        let value = link.value.take()?;
        let (prev, next) = (link.prev, link.next);
        link.next = self.free;
        self.free = at;
        if prev != NONE {
            self.links[prev].next = next;
        }
        if next != NONE {
            self.links[next].prev = prev;
        }
        Some((next, value))
    }
}

/// So many links of one list, whose indexes come shuffled.
fn shuffled(len: usize) -> Slab {
    let mut sequence = Sequence::new();
    let mut slab = Slab::new();
    let mut links = Vec::with_capacity(len);
    links.push(slab.insert_after(NONE, sequence.number()));
    for n in 1..len {
        let number = sequence.number();
        let before = links[(number >> 33) as usize % n];
        links.push(slab.insert_after(before, number));
    }
    slab
}

impl Slab {
    /// The values along the list of the first link, which is its start.
    fn along(&self) -> impl Iterator<Item = u64> + '_ {
        let mut at = 0;
        std::iter::from_fn(move || {
            let link = self.links.get(at)?;
            at = link.next;
            link.value
        })
    }

    /// The same list, collected in order and built anew.
    fn renumbered(&self) -> Slab {
        let values: Vec<u64> = self.along().collect();
        let mut slab = Slab {
            links: Vec::with_capacity(values.len()),
            free: NONE,
        };
        let mut last = NONE;
        for value in values {
            last = slab.insert_after(last, value);
        }
        slab
    }
}

/// A list in a slab, with its first and its last link.
fn slab(sequence: &mut Sequence) -> (Slab, usize, usize) {
    let mut slab = Slab::new();
    let first = slab.insert_after(NONE, sequence.number());
    let mut last = first;
    for _ in 1..LEN {
        last = slab.insert_after(last, sequence.number());
    }
    (slab, first, last)
}

fn in_slab(operation: &str, steps: usize) -> Option<u64> {
    if let "fill" | "renumber" | "transfer" | "clone" = operation {
        let slab = shuffled(steps);
        let slab = match operation {
            "renumber" | "transfer" => slab.renumbered(),
            "clone" => slab.clone(),
            _ => slab,
        };
        let sum = |sum: u64, value| sum.wrapping_mul(31).wrapping_add(value);
        return Some(slab.along().fold(0, sum));
    }
    let mut sequence = Sequence::new();
    let (mut slab, mut first, mut last) = slab(&mut sequence);
    let mut sum = 0u64;
    match operation {
        "queue" => {
            for _ in 0..steps {
                last = slab.insert_after(last, sequence.number());
                let Some((next, value)) = slab.remove(first) else {
                    break;
                };
                first = next;
                sum = sum.wrapping_mul(31).wrapping_add(value);
            }
        }
        "turn" => {
            for _ in 0..steps {
                let Some((next, value)) = slab.remove(first) else {
                    break;
                };
                first = next;
                sum = sum.wrapping_mul(31).wrapping_add(value);
                last = slab.insert_after(last, value);
            }
        }
        "rotate" => {
            slab.links[last].next = first;
            slab.links[first].prev = last;
            for _ in 0..steps {
                let link = &slab.links[first];
                let Some(value) = link.value else {
                    break;
                };
                first = link.next;
                sum = sum.wrapping_mul(31).wrapping_add(value);
            }
        }
        "walk" | "iterate" => {
            let mut at = first;
            for _ in 0..steps {
                if at == NONE {
                    at = first;
                }
                let link = &slab.links[at];
                let Some(value) = link.value else {
                    break;
                };
                at = link.next;
                sum = sum.wrapping_mul(31).wrapping_add(value);
            }
        }
        _ => return None,
    }
    Some(sum)
}

fn in_list(operation: &str, steps: usize) -> Option<u64> {
    let mut sequence = Sequence::new();
    let mut list: LinkedList<u64> = (0..LEN).map(|_| sequence.number()).collect();
    let mut sum = 0u64;
    match operation {
        "queue" => {
            for _ in 0..steps {
                list.push_back(sequence.number());
                if let Some(value) = list.pop_front() {
                    sum = sum.wrapping_mul(31).wrapping_add(value);
                }
            }
        }
        // A list has no ring: it is turned by its ends.
        "turn" | "rotate" => {
            for _ in 0..steps {
                if let Some(value) = list.pop_front() {
                    sum = sum.wrapping_mul(31).wrapping_add(value);
                    list.push_back(value);
                }
            }
        }
        "walk" | "iterate" => {
            let mut left = steps;
            while left > 0 {
                for value in list.iter().take(left) {
                    left -= 1;
                    sum = sum.wrapping_mul(31).wrapping_add(*value);
                }
            }
        }
        _ => return None,
    }
    Some(sum)
}

/// Links of one list, each of which is put in behind one that is there. The first one in is the
/// first of the list. A link without a next one is read and removed without its value, as in the
/// Rattle program.
struct Numbered {
    slab: Slab,
    places: Vec<usize>,
    sequence: timed::Sequence,
}

impl Entries for Numbered {
    fn make(len: usize) -> Self {
        Numbered { slab: Slab::new(), places: vec![NONE; len], sequence: timed::Sequence::new() }
    }

    #[inline(always)]
    fn put(&mut self, n: usize) -> Option<u64> {
        let before = if n == 0 { NONE } else { *self.places.get(self.sequence.below(n))? };
        let place = self.slab.insert_after(before, n as u64);
        *self.places.get_mut(n)? = place;
        Some(n as u64)
    }

    #[inline(always)]
    fn read(&self, n: usize) -> Option<u64> {
        let link = self.slab.links.get(*self.places.get(n)?)?;
        if link.next == NONE { None } else { link.value }
    }

    #[inline(always)]
    fn take(&mut self, n: usize) -> Option<u64> {
        let (next, value) = self.slab.remove(*self.places.get(n)?)?;
        if next == NONE { None } else { Some(value) }
    }

    fn walk(&self, laps: &mut timed::Laps) -> u64 {
        timed::walk(self.slab.along(), laps)
    }

    fn renumber(&mut self) {
        self.slab = self.slab.renumbered();
    }
}

fn main() -> ExitCode {
    let args: Vec<String> = env::args().collect();
    if let [_, word, words @ ..] = args.as_slice()
        && word == "timed"
        && timed::run::<Numbered>(words).is_some()
    {
        return ExitCode::SUCCESS;
    }
    let sum = match args.as_slice() {
        [_, kind, operation, steps] => steps.parse().ok().and_then(|steps| match kind.as_str() {
            "slab" => in_slab(operation, steps),
            "list" => in_list(operation, steps),
            _ => None,
        }),
        _ => None,
    };
    match sum {
        Some(sum) => {
            println!("{sum}");
            ExitCode::SUCCESS
        }
        None => {
            eprintln!(
                "usage: chains slab|list queue|turn|rotate|walk|iterate STEPS, \
                chains slab fill|renumber|transfer|clone STEPS"
            );
            eprintln!("       chains timed insert|remove|walk|canonical_walk LEN STEPS PASSES");
            ExitCode::from(2)
        }
    }
}
