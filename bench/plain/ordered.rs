//! usage: ordered map|slab insert|find|remove|cancel|walk|renumber|transfer|clone LEN STEPS, with
//! the operations of the Rattle program `bench`, over std's `BTreeMap` from keys to values, or over
//! one from keys to the indexes of a slab that holds the entries.
mod timed;

use std::collections::BTreeMap;
use std::env;
use std::process::ExitCode;
use timed::{Entries, with};

/// The key that is put in as the nth. No two are the same, and they come shuffled.
fn key(n: usize) -> u64 {
    let z = (n as u64).wrapping_mul(0x9e37_79b9_7f4a_7c15);
    let z = (z ^ (z >> 30)).wrapping_mul(0xbf58_476d_1ce4_e5b9);
    let z = (z ^ (z >> 27)).wrapping_mul(0x94d0_49bb_1331_11eb);
    z ^ (z >> 31)
}

/// No slot.
const NONE: usize = usize::MAX;

/// A slot of a slab, which is taken, or names the next free one.
#[derive(Clone)]
enum Slot {
    Taken { key: u64, value: u64 },
    Free { next: usize },
}

/// Entries that stay where they are, and the index of each by its key.
#[derive(Clone)]
struct Slab {
    slots: Vec<Slot>,
    free: usize,
    indexes: BTreeMap<u64, usize>,
}

impl Slab {
    fn new() -> Self {
        Slab {
            slots: Vec::new(),
            free: NONE,
            indexes: BTreeMap::new(),
        }
    }

    fn insert(&mut self, key: u64, value: u64) -> usize {
        let slot = Slot::Taken { key, value };
        let index = match self.slots.get_mut(self.free) {
            Some(place) => {
                let index = self.free;
                if let Slot::Free { next } = *place {
                    self.free = next;
                }
                *place = slot;
                index
            }
            None => {
                self.slots.push(slot);
                self.slots.len() - 1
            }
        };
        self.indexes.insert(key, index);
        index
    }

    fn value(&self, index: usize) -> Option<u64> {
        match self.slots.get(index) {
            Some(Slot::Taken { value, .. }) => Some(*value),
            _ => None,
        }
    }

    /// The entries in the order of their keys, in the first slots.
    fn renumbered(&self) -> Slab {
        let entries: Vec<(u64, u64)> = self
            .indexes
            .iter()
            .filter_map(|(key, index)| Some((*key, self.value(*index)?)))
            .collect();
        Slab {
            slots: entries.iter().map(|&(key, value)| Slot::Taken { key, value }).collect(),
            free: NONE,
            indexes: entries.iter().enumerate().map(|(index, &(key, _))| (key, index)).collect(),
        }
    }

    fn values(&self) -> impl Iterator<Item = u64> + '_ {
        self.indexes.values().filter_map(|index| self.value(*index))
    }

    fn take(&mut self, index: usize) -> Option<(u64, u64)> {
        match self.slots.get_mut(index) {
            Some(place) => {
                if let Slot::Taken { key, value } = *place {
                    *place = Slot::Free { next: self.free };
                    self.free = index;
                    Some((key, value))
                } else {
                    None
                }
            }
            None => None,
        }
    }
}

/// The checksum of the values in the order of their keys.
fn sum_of(values: impl Iterator<Item = u64>) -> u64 {
    values.fold(0, with)
}

fn in_map(operation: &str, len: usize, steps: usize) -> Option<u64> {
    let mut map = BTreeMap::new();
    let mut keys = Vec::with_capacity(len);
    for n in 0..len {
        let key = key(n);
        map.insert(key, n as u64);
        keys.push(key);
    }
    let mut sum = 0u64;
    match operation {
        "insert" => sum = map.len() as u64,
        "find" => {
            let mut n = 0;
            for _ in 0..steps {
                if let Some(value) = map.get(&key(n)) {
                    sum = with(sum, *value);
                }
                n += 1;
                if n == len {
                    n = 0;
                }
            }
        }
        "remove" => {
            for n in 0..steps {
                if let Some(value) = map.remove(&key(n)) {
                    sum = with(sum, value);
                }
            }
        }
        // A map has no other reference to an entry than its key.
        "cancel" => {
            for key in keys.iter().take(steps) {
                if let Some(value) = map.remove(key) {
                    sum = with(sum, value);
                }
            }
        }
        "walk" => {
            let mut left = steps;
            while left > 0 {
                for value in map.values().take(left) {
                    left -= 1;
                    sum = with(sum, *value);
                }
            }
        }
        // What is collected in order is built anew.
        "renumber" | "transfer" => {
            if steps > 0 {
                map = map.into_iter().collect();
            }
            sum = sum_of(map.values().copied());
        }
        "clone" => {
            sum = if steps > 0 {
                sum_of(map.clone().values().copied())
            } else {
                sum_of(map.values().copied())
            };
        }
        _ => return None,
    }
    Some(sum)
}

fn in_slab(operation: &str, len: usize, steps: usize) -> Option<u64> {
    let mut slab = Slab::new();
    let mut places = Vec::with_capacity(len);
    for n in 0..len {
        places.push(slab.insert(key(n), n as u64));
    }
    let mut sum = 0u64;
    match operation {
        "insert" => sum = slab.indexes.len() as u64,
        "find" => {
            let mut n = 0;
            for _ in 0..steps {
                if let Some(index) = slab.indexes.get(&key(n)) {
                    if let Some(value) = slab.value(*index) {
                        sum = with(sum, value);
                    }
                }
                n += 1;
                if n == len {
                    n = 0;
                }
            }
        }
        "remove" => {
            for n in 0..steps {
                if let Some(index) = slab.indexes.remove(&key(n)) {
                    if let Some((_, value)) = slab.take(index) {
                        sum = with(sum, value);
                    }
                }
            }
        }
        "cancel" => {
            for index in places.iter().take(steps) {
                if let Some((key, value)) = slab.take(*index) {
                    slab.indexes.remove(&key);
                    sum = with(sum, value);
                }
            }
        }
        "walk" => {
            let mut left = steps;
            while left > 0 {
                for index in slab.indexes.values().take(left) {
                    left -= 1;
                    if let Some(value) = slab.value(*index) {
                        sum = with(sum, value);
                    }
                }
            }
        }
        "renumber" | "transfer" => {
            if steps > 0 {
                slab = slab.renumbered();
            }
            sum = sum_of(slab.values());
        }
        "clone" => {
            sum = if steps > 0 {
                sum_of(slab.clone().values())
            } else {
                sum_of(slab.values())
            };
        }
        _ => return None,
    }
    Some(sum)
}

impl Entries for BTreeMap<u64, u64> {
    fn make(_len: usize) -> Self {
        BTreeMap::new()
    }

    #[inline(always)]
    fn put(&mut self, n: usize) -> Option<u64> {
        self.insert(key(n), n as u64);
        Some(n as u64)
    }

    #[inline(always)]
    fn read(&self, n: usize) -> Option<u64> {
        self.get(&key(n)).copied()
    }

    #[inline(always)]
    fn take(&mut self, n: usize) -> Option<u64> {
        self.remove(&key(n))
    }

    fn walk(&self, laps: &mut timed::Laps) -> u64 {
        timed::walk(self.values().copied(), laps)
    }

    fn renumber(&mut self) {
        *self = std::mem::take(self).into_iter().collect();
    }
}

/// Entries in a slab, which are removed by their indexes there, or by their keys.
struct Numbered<const BY_INDEX: bool> {
    slab: Slab,
    places: Vec<usize>,
}

impl<const BY_INDEX: bool> Entries for Numbered<BY_INDEX> {
    fn make(len: usize) -> Self {
        Numbered { slab: Slab::new(), places: vec![NONE; len] }
    }

    #[inline(always)]
    fn put(&mut self, n: usize) -> Option<u64> {
        let place = self.slab.insert(key(n), n as u64);
        *self.places.get_mut(n)? = place;
        Some(n as u64)
    }

    #[inline(always)]
    fn read(&self, n: usize) -> Option<u64> {
        self.slab.value(*self.slab.indexes.get(&key(n))?)
    }

    #[inline(always)]
    fn take(&mut self, n: usize) -> Option<u64> {
        if BY_INDEX {
            let (key, value) = self.slab.take(*self.places.get(n)?)?;
            self.slab.indexes.remove(&key);
            Some(value)
        } else {
            let index = self.slab.indexes.remove(&key(n))?;
            Some(self.slab.take(index)?.1)
        }
    }

    fn walk(&self, laps: &mut timed::Laps) -> u64 {
        timed::walk(self.slab.values(), laps)
    }

    fn renumber(&mut self) {
        self.slab = self.slab.renumbered();
    }
}

/// Times an operation, if these are words for that. A map has no other reference to an entry than
/// its key.
fn time(words: &[String]) -> Option<()> {
    let [word, kind, words @ ..] = words else {
        return None;
    };
    if word != "timed" {
        return None;
    }
    let is_cancel = words.first().is_some_and(|operation| operation == "cancel");
    let mut words = words.to_vec();
    if is_cancel {
        words[0] = "remove".to_string();
    }
    match kind.as_str() {
        "map" => timed::run::<BTreeMap<u64, u64>>(&words),
        "slab" if is_cancel => timed::run::<Numbered<true>>(&words),
        "slab" => timed::run::<Numbered<false>>(&words),
        _ => None,
    }
}

fn main() -> ExitCode {
    let args: Vec<String> = env::args().collect();
    if time(&args[1..]).is_some() {
        return ExitCode::SUCCESS;
    }
    let sum = match args.as_slice() {
        [_, kind, operation, len, steps] => match (len.parse(), steps.parse()) {
            (Ok(len), Ok(steps)) => match kind.as_str() {
                "map" => in_map(operation, len, steps),
                "slab" => in_slab(operation, len, steps),
                _ => None,
            },
            _ => None,
        },
        _ => None,
    };
    match sum {
        Some(sum) => {
            println!("{sum}");
            ExitCode::SUCCESS
        }
        None => {
            eprintln!(
                "usage: ordered map|slab insert|find|remove|cancel|walk|renumber|transfer|clone \
                LEN STEPS"
            );
            eprintln!(
                "       ordered timed map|slab insert|find|remove|cancel|churn|walk|\
                canonical_find|canonical_walk LEN STEPS PASSES"
            );
            ExitCode::from(2)
        }
    }
}
