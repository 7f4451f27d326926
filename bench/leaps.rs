//! leaps: reads the trace of `valgrind --tool=lackey --trace-mem=yes`, and prints how many
//! instructions, stores, misses of the second cache and leaps it has.
//!
//! A leap is a miss for which a processor waits: the line lies within three of none of the last
//! eight that were missed. The caches have 48 KiB and 1 MiB.
use std::io::{self, BufRead, BufReader};

const LINE: u64 = 64;

/// A cache that drops what was not used for longest in a set.
struct Cache {
    ways: usize,
    lines: Vec<u64>,
}

impl Cache {
    fn new(size: usize, ways: usize) -> Self {
        Cache {
            ways,
            lines: vec![u64::MAX; size / LINE as usize],
        }
    }

    /// Takes a line in, and says whether it was there.
    fn hits(&mut self, line: u64) -> bool {
        let first = line as usize % (self.lines.len() / self.ways) * self.ways;
        let set = &mut self.lines[first..first + self.ways];
        let place = set.iter().position(|&it| it == line);
        set[..=place.unwrap_or(self.ways - 1)].rotate_right(1);
        set[0] = line;
        place.is_some()
    }
}

/// The kind, the address and the size of a line ` L 1ffe,8` of the trace, where data is read (L),
/// written (S) or both (M).
fn access(text: &[u8]) -> Option<(u8, u64, u64)> {
    let (kind, rest) = text.split_at_checked(3)?;
    if kind[0] != b' ' || kind[2] != b' ' {
        return None;
    }
    let (address, size) = std::str::from_utf8(rest).ok()?.trim_end().split_once(',')?;
    Some((kind[1], u64::from_str_radix(address, 16).ok()?, size.parse().ok()?))
}

fn main() -> io::Result<()> {
    let (mut first, mut second) = (Cache::new(48 << 10, 12), Cache::new(1 << 20, 16));
    let (mut instructions, mut stores, mut misses, mut leaps) = (0u64, 0u64, 0u64, 0u64);
    let (mut missed, mut at) = ([0u64; 8], 0);
    let mut input = BufReader::with_capacity(1 << 20, io::stdin().lock());
    let mut text = Vec::new();
    while input.read_until(b'\n', &mut text)? > 0 {
        if text.starts_with(b"I  ") {
            instructions += 1;
        } else if let Some((kind, address, size)) = access(&text) {
            if kind != b'L' {
                stores += 1;
            }
            for line in address / LINE..=(address + size - 1) / LINE {
                if !first.hits(line) && !second.hits(line) {
                    misses += 1;
                    if missed.iter().all(|it| it.abs_diff(line) > 3) {
                        leaps += 1;
                    }
                    missed[at] = line;
                    at = (at + 1) % missed.len();
                }
            }
        }
        text.clear();
    }
    println!("{instructions} {stores} {misses} {leaps}");
    Ok(())
}
