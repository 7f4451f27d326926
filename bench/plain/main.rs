//! usage: plain insert|remove|remove_inx|get|write|advance|iterate|clone|drain|churn|loop STEPS,
//! with the operations of the Rattle program `bench`, over the plain arena, or over that of
//! `slotmap` where it is built with `--cfg slotmap`.
#[cfg_attr(slotmap, path = "slotmap.rs")]
mod arena;
mod timed;

use arena::{Arena, Pointer};
use std::env;
use std::process::ExitCode;
use timed::Entries;

/// How many pointers a table has.
const TABLE: usize = 4096;

/// How many of them find an entry where each fourth one is removed.
const THINNED: usize = 3072;

/// A linear congruential generator; its upper bits are the sequence.
struct Sequence {
    state: u64,
}

impl Sequence {
    fn new() -> Self {
        Sequence { state: 1 }
    }

    fn number(&mut self) -> u64 {
        self.state = self
            .state
            .wrapping_mul(6364136223846793005)
            .wrapping_add(1442695040888963407);
        self.state
    }

    /// A place of a table.
    fn place(&mut self) -> usize {
        (self.number() >> 52) as usize
    }
}

/// An arena with this many entries, and their pointers.
fn filled(len: usize) -> (Arena<u64>, Vec<Pointer>) {
    let mut arena = Arena::new();
    let mut pointers = Vec::with_capacity(len);
    let mut sequence = Sequence::new();
    for _ in 0..len {
        pointers.push(arena.insert(sequence.number()));
    }
    (arena, pointers)
}

/// An arena with an entry for each place of a table, and the table of their pointers.
fn filled_table() -> (Arena<u64>, [Pointer; TABLE]) {
    let mut arena = Arena::new();
    let mut table = [Pointer::invalid(); TABLE];
    let mut sequence = Sequence::new();
    for pointer in &mut table {
        *pointer = arena.insert(sequence.number());
    }
    (arena, table)
}

fn remove(steps: usize) -> u64 {
    let (mut arena, mut pointers) = filled(steps);
    let mut sequence = Sequence::new();
    let mut sum = 0u64;
    for _ in 0..steps {
        let len = pointers.len();
        if len == 0 {
            break;
        }
        let place = (sequence.number() >> 33) as usize % len;
        if let Some(value) = arena.remove(pointers.swap_remove(place)) {
            sum = sum.wrapping_mul(31).wrapping_add(value);
        }
    }
    sum
}

fn remove_inx(steps: usize) -> u64 {
    let (mut arena, mut pointers) = filled(steps);
    let mut sequence = Sequence::new();
    let mut sum = 0u64;
    for _ in 0..steps {
        let len = pointers.len();
        if len == 0 {
            break;
        }
        let place = (sequence.number() >> 33) as usize % len;
        if let Some(value) = arena.remove_inx(pointers.swap_remove(place)) {
            sum = sum.wrapping_mul(31).wrapping_add(value);
        }
    }
    sum
}

/// The arena of a table without the entry of each fourth place, and the table.
fn thinned_table() -> (Arena<u64>, [Pointer; TABLE]) {
    let (mut arena, table) = filled_table();
    for pointer in table.iter().step_by(4) {
        arena.remove(*pointer);
    }
    (arena, table)
}

fn get(steps: usize) -> u64 {
    let (arena, table) = thinned_table();
    let mut sequence = Sequence::new();
    let mut sum = 0u64;
    for _ in 0..steps {
        if let Some(value) = arena.get(table[sequence.place()]) {
            sum = sum.wrapping_add(*value);
        }
    }
    sum
}

fn write(steps: usize) -> u64 {
    let (mut arena, table) = thinned_table();
    let mut sequence = Sequence::new();
    let mut sum = 0u64;
    for _ in 0..steps {
        if let Some(value) = arena.get_mut(table[sequence.place()]) {
            sum = sum.wrapping_add(*value);
            *value = sum;
        }
    }
    sum
}

fn advance(steps: usize) -> u64 {
    let (arena, _table) = thinned_table();
    let mut entries = arena.iter();
    let mut sum = 0u64;
    for _ in 0..steps {
        match entries.next() {
            Some((_, value)) => sum = sum.wrapping_mul(31).wrapping_add(*value),
            None => entries = arena.iter(),
        }
    }
    sum
}

fn iterate(steps: usize) -> u64 {
    let (arena, _table) = thinned_table();
    let mut left = steps;
    let mut sum = 0u64;
    for _ in 0..steps / THINNED + 1 {
        for (_, value) in arena.iter() {
            if left == 0 {
                break;
            }
            left -= 1;
            sum = sum.wrapping_mul(31).wrapping_add(*value);
        }
    }
    sum
}

fn clone(steps: usize) -> u64 {
    let (arena, pointers) = filled(steps);
    let copy = arena.clone();
    match pointers.last() {
        Some(last) => copy.get(*last).copied().unwrap_or(0),
        None => 0,
    }
}

fn drain(steps: usize) -> u64 {
    let (mut arena, _pointers) = filled(steps);
    let mut sum = 0u64;
    for value in arena.drain() {
        sum = sum.wrapping_mul(31).wrapping_add(value);
    }
    sum
}

fn churn(steps: usize) -> u64 {
    let (mut arena, mut table) = filled_table();
    let mut sequence = Sequence::new();
    let mut sum = 0u64;
    for _ in 0..steps {
        if let Some(value) = arena.get(table[sequence.place()]) {
            sum = sum.wrapping_add(*value);
        }
        let place = sequence.place();
        match arena.remove(table[place]) {
            Some(value) => sum = sum.wrapping_mul(31).wrapping_add(value),
            None => table[place] = arena.insert(sum),
        }
    }
    sum
}

fn read_table(steps: usize) -> u64 {
    let (_arena, table) = filled_table();
    let mut sequence = Sequence::new();
    let mut sum = 0u64;
    for _ in 0..steps {
        sum = sum.wrapping_add(table[sequence.place()].part());
    }
    sum
}

/// An arena, and where its entries are by their numbers.
struct Numbered {
    arena: Arena<u64>,
    pointers: Vec<Pointer>,
}

impl Entries for Numbered {
    fn make(len: usize) -> Self {
        Numbered { arena: Arena::new(), pointers: vec![Pointer::invalid(); len] }
    }

    #[inline(always)]
    fn put(&mut self, n: usize) -> Option<u64> {
        let pointer = self.arena.insert(n as u64);
        *self.pointers.get_mut(n)? = pointer;
        Some(n as u64)
    }

    #[inline(always)]
    fn read(&self, n: usize) -> Option<u64> {
        self.arena.get(*self.pointers.get(n)?).copied()
    }

    #[inline(always)]
    fn take(&mut self, n: usize) -> Option<u64> {
        self.arena.remove(*self.pointers.get(n)?)
    }

    fn walk(&self, laps: &mut timed::Laps) -> u64 {
        timed::walk(self.arena.iter().map(|(_, value)| *value), laps)
    }

    #[inline(never)]
    fn rewrite(&mut self, laps: &mut timed::Laps) -> u64 {
        let written = self.arena.values_mut().map(|value| {
            *value = value.wrapping_add(1);
            *value
        });
        timed::walk(written, laps)
    }

    fn renumber(&mut self) {}
}

fn run(operation: &str, steps: usize) -> Option<u64> {
    match operation {
        "insert" => Some(filled(steps).1.len() as u64),
        "remove" => Some(remove(steps)),
        "remove_inx" => Some(remove_inx(steps)),
        "get" => Some(get(steps)),
        "write" => Some(write(steps)),
        // The plain arenas have no advancer, and go by their iterator.
        "advance" => Some(advance(steps)),
        "iterate" => Some(iterate(steps)),
        "clone" => Some(clone(steps)),
        "drain" => Some(drain(steps)),
        "churn" => Some(churn(steps)),
        "loop" => Some(read_table(steps)),
        _ => None,
    }
}

fn main() -> ExitCode {
    let args: Vec<String> = env::args().collect();
    if let [_, word, words @ ..] = args.as_slice()
        && word == "timed"
        && timed::run::<Numbered>(words).is_some()
    {
        return ExitCode::SUCCESS;
    }
    let sum = match args.as_slice() {
        [_, operation, steps] => steps.parse().ok().and_then(|steps| run(operation, steps)),
        _ => None,
    };
    match sum {
        Some(sum) => {
            println!("{sum}");
            ExitCode::SUCCESS
        }
        None => {
            eprintln!(
                "usage: plain insert|remove|remove_inx|get|write|advance|iterate|clone|drain|churn|\
                loop STEPS"
            );
            eprintln!("       plain timed insert|find|remove|churn|walk LEN STEPS PASSES");
            ExitCode::from(2)
        }
    }
}
