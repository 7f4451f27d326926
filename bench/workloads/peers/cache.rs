//! A `HashMap` from keys to the indexes of a linked list in a vector. With `--cfg quick` it has a
//! quick hash, as that of `rustc-hash`, in place of std's.
mod common;
use common::{lap, print, with, Random};
use std::collections::HashMap;
use std::hash::BuildHasherDefault;
use std::time::Instant;

const NONE: u32 = u32::MAX;

#[cfg(quick)]
#[derive(Default)]
struct Quick(u64);

#[cfg(quick)]
impl std::hash::Hasher for Quick {
    fn write(&mut self, _: &[u8]) {
        unreachable!()
    }
    fn write_u64(&mut self, n: u64) {
        self.0 = (self.0.rotate_left(5) ^ n).wrapping_mul(0x517c_c1b7_2722_0a95).rotate_left(26);
    }
    fn finish(&self) -> u64 {
        self.0
    }
}

#[cfg(quick)]
type Build = BuildHasherDefault<Quick>;
#[cfg(not(quick))]
type Build = BuildHasherDefault<std::collections::hash_map::DefaultHasher>;

struct Entry {
    key: u64,
    value: u64,
    prev: u32,
    next: u32,
}

struct Cache {
    map: HashMap<u64, u32, Build>,
    entries: Vec<Entry>,
    first: u32,
    last: u32,
    most: usize,
}

impl Cache {
    fn new(most: usize) -> Self {
        Cache {
            map: HashMap::default(),
            entries: Vec::with_capacity(most),
            first: NONE,
            last: NONE,
            most,
        }
    }

    fn get(&mut self, key: u64) -> Option<u64> {
        let at = *self.map.get(&key)?;
        if at != self.first {
            self.unlink(at);
            self.link_front(at);
        }
        Some(self.entries[at as usize].value)
    }

    fn unlink(&mut self, at: u32) {
        let Entry { prev, next, .. } = self.entries[at as usize];
        if prev == NONE {
            self.first = next;
        } else {
            self.entries[prev as usize].next = next;
        }
        if next == NONE {
            self.last = prev;
        } else {
            self.entries[next as usize].prev = prev;
        }
    }

    fn link_front(&mut self, at: u32) {
        let first = self.first;
        let entry = &mut self.entries[at as usize];
        entry.prev = NONE;
        entry.next = first;
        if first == NONE {
            self.last = at;
        } else {
            self.entries[first as usize].prev = at;
        }
        self.first = at;
    }

    // Puts in an entry that is not there, and answers the value that goes for it.
    fn put(&mut self, key: u64, value: u64) -> u64 {
        let mut gone = 0;
        let at = if self.entries.len() >= self.most {
            let at = self.last;
            self.unlink(at);
            let entry = &mut self.entries[at as usize];
            self.map.remove(&entry.key);
            gone = entry.value;
            entry.key = key;
            entry.value = value;
            at
        } else {
            self.entries.push(Entry { key, value, prev: NONE, next: NONE });
            self.entries.len() as u32 - 1
        };
        self.link_front(at);
        self.map.insert(key, at);
        gone
    }

    fn walk(&self) -> u64 {
        let mut sum = 0;
        let mut at = self.first;
        while at != NONE {
            let entry = &self.entries[at as usize];
            sum = with(sum, entry.value);
            at = entry.next;
        }
        sum
    }
}

fn scattered(key: u64) -> u64 {
    key.wrapping_mul(0x9e37_79b9_7f4a_7c15)
}

fn main() {
    let n = std::env::args().nth(1).map_or(500, |n| n.parse::<u64>().unwrap());
    let mut random = Random(0x9e37_79b9_7f4a_7c15);
    let mut cache = Cache::new(n as usize);
    let mut sum = 0;
    let mut fill = Vec::new();
    let mut start = Instant::now();
    for k in 0..n {
        sum = with(sum, cache.put(scattered(k), k));
        if k % 1000 == 999 {
            lap(&mut start, &mut fill);
        }
    }
    let mut mixed = Vec::new();
    let mut hits = 0u64;
    start = Instant::now();
    for k in 0..n {
        // Low numbers come more often.
        let top = random.below(n * 3) + 1;
        let number = random.below(top);
        let key = scattered(number);
        let value = match cache.get(key) {
            Some(value) => {
                hits += 1;
                value
            }
            None => cache.put(key, number),
        };
        sum = with(sum, value);
        if k % 1000 == 999 {
            lap(&mut start, &mut mixed);
        }
    }
    let mut walk = Vec::new();
    start = Instant::now();
    sum = with(sum, cache.walk());
    lap(&mut start, &mut walk);
    println!("sum {sum} entries {} {} hits {hits}", cache.entries.len(), cache.map.len());
    print("fill", &fill);
    print("mixed", &mixed);
    print("walk", &walk);
}
