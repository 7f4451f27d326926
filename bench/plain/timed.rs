//! Times steps on many entries, a thousand at a time, as `timed.rt` of the Rattle program `bench`.
use std::time::Instant;

/// Entries that go by numbers from 0 on.
pub trait Entries {
    fn make(len: usize) -> Self;

    fn put(&mut self, n: usize) -> Option<u64>;

    fn read(&self, n: usize) -> Option<u64>;

    fn take(&mut self, n: usize) -> Option<u64>;

    /// A checksum of the values in their order.
    fn walk(&self, laps: &mut Laps) -> u64;

    /// Writes each value, in their order: a checksum of what is written.
    fn rewrite(&mut self, _laps: &mut Laps) -> u64 {
        0
    }

    fn renumber(&mut self);
}

/// How many steps are timed together.
const PIECE: usize = 1000;

/// How far the next one lies from an entry in a far order.
const FAR: usize = 7919;

/// What each thousand steps took, in nanoseconds.
pub struct Laps {
    start: Instant,
    times: Vec<u64>,
}

impl Laps {
    /// The number of steps that a piece starts with.
    pub fn start(&mut self) -> usize {
        self.start = Instant::now();
        PIECE
    }

    /// Counts a step, and answers how many are left.
    #[inline(always)]
    pub fn step(&mut self, left: usize) -> usize {
        if left > 1 {
            left - 1
        } else {
            self.lap();
            self.start()
        }
    }

    #[inline(never)]
    fn lap(&mut self) {
        self.times.push(self.start.elapsed().as_nanos() as u64);
    }
}

/// A linear congruential generator; its upper bits are the sequence.
pub struct Sequence {
    state: u64,
}

impl Sequence {
    pub fn new() -> Self {
        Sequence { state: 1 }
    }

    /// A number below this one.
    pub fn below(&mut self, bound: usize) -> usize {
        self.state = self
            .state
            .wrapping_mul(6364136223846793005)
            .wrapping_add(1442695040888963407);
        ((self.state >> 32).wrapping_mul(bound as u64) >> 32) as usize
    }
}

pub fn with(sum: u64, number: u64) -> u64 {
    sum.wrapping_mul(31).wrapping_add(number)
}

/// Carries out the words OPERATION LEN STEPS PASSES: a line for each thousand steps, and a
/// checksum.
pub fn run<T: Entries>(words: &[String]) -> Option<()> {
    let [operation, len, steps, passes] = words else {
        return None;
    };
    let (len, steps) = (len.parse().ok()?, steps.parse().ok()?);
    let mut laps = Laps {
        start: Instant::now(),
        times: Vec::new(),
    };
    let mut sum = 0;
    for _ in 0..passes.parse::<usize>().ok()? {
        sum = pass::<T>(&mut laps, operation, len, steps)?;
    }
    for time in laps.times {
        println!("{time}");
    }
    println!("{sum}");
    Some(())
}

fn pass<T: Entries>(laps: &mut Laps, operation: &str, len: usize, steps: usize) -> Option<u64> {
    let mut entries = T::make(len);
    if operation == "insert" {
        return Some(go::<T, INSERT>(&mut entries, laps, len, steps));
    }
    for n in 0..len {
        entries.put(n);
    }
    filled(&mut entries, laps, operation, len, steps)
}

/// An operation on entries that are there.
fn filled<T: Entries>(
    entries: &mut T,
    laps: &mut Laps,
    operation: &str,
    len: usize,
    steps: usize,
) -> Option<u64> {
    let operation = match operation.strip_prefix("canonical_") {
        Some(operation) => {
            entries.renumber();
            operation
        }
        None => operation,
    };
    match operation {
        "find" => Some(go::<T, FIND>(entries, laps, len, steps)),
        "remove" => Some(go::<T, REMOVE>(entries, laps, len, steps)),
        "churn" => Some(go::<T, CHURN>(entries, laps, len, steps)),
        "walk" | "rewrite" if steps == 0 => Some(0),
        "walk" => Some(entries.walk(laps)),
        "rewrite" => Some(entries.rewrite(laps)),
        _ => None,
    }
}

const INSERT: usize = 0;

const FIND: usize = 1;

const REMOVE: usize = 2;

const CHURN: usize = 3;

#[inline(never)]
fn go<T: Entries, const OPERATION: usize>(
    entries: &mut T,
    laps: &mut Laps,
    len: usize,
    steps: usize,
) -> u64 {
    let mut pace = Pace {
        len,
        stride: if len == 0 { 0 } else { FAR % len },
        far: 0,
        sequence: Sequence::new(),
    };
    let mut sum = 0;
    let mut done = 0;
    while done < steps {
        let end = steps.min(done + PIECE);
        laps.start();
        sum = piece::<T, OPERATION>(entries, &mut pace, done, end, sum);
        laps.lap();
        done = end;
    }
    sum
}

/// What goes from step to step.
struct Pace {
    len: usize,
    stride: usize,
    far: usize,
    sequence: Sequence,
}

/// The steps between two looks at the clock. They are a function of their own, so that what they
/// count stays in registers.
#[inline(never)]
fn piece<T: Entries, const OPERATION: usize>(
    entries: &mut T,
    pace: &mut Pace,
    start: usize,
    end: usize,
    sum: u64,
) -> u64 {
    let Pace { len, stride, mut far, .. } = *pace;
    let mut sum = sum;
    for n in start..end {
        let value = match OPERATION {
            INSERT => entries.put(n),
            FIND => entries.read(far),
            REMOVE => entries.take(far),
            _ => churn(entries, &mut pace.sequence, len),
        };
        if let Some(value) = value {
            sum = with(sum, value);
        }
        far += stride;
        if far >= len {
            far -= len;
        }
    }
    pace.far = far;
    sum
}

/// Reads one entry, and removes another or puts it back.
#[inline(always)]
fn churn<T: Entries>(entries: &mut T, sequence: &mut Sequence, len: usize) -> Option<u64> {
    let read = entries.read(sequence.below(len)).unwrap_or(0);
    let n = sequence.below(len);
    let changed = match entries.take(n) {
        Some(value) => value,
        None => entries.put(n)?,
    };
    Some(read.wrapping_add(changed))
}

/// The checksum of values that are gone over.
#[inline(never)]
pub fn walk(values: impl Iterator<Item = u64>, laps: &mut Laps) -> u64 {
    let mut sum = 0;
    let mut left = laps.start();
    for value in values {
        sum = with(sum, value);
        left = laps.step(left);
    }
    sum
}
