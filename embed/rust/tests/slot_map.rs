//! The slot map beside std's map: random calls, stale handles of every kind, each refusal.

use route_arenas::{Error, SlotHandle, SlotMap};
use std::collections::{HashMap, HashSet};

/// Numbers that look random, the same in each run.
struct Numbers(u64);

impl Numbers {
    fn next(&mut self) -> u64 {
        self.0 ^= self.0 << 13;
        self.0 ^= self.0 >> 7;
        self.0 ^= self.0 << 17;
        self.0
    }

    fn below(&mut self, bound: usize) -> usize {
        (self.next() % bound as u64) as usize
    }
}

fn compare(map: &SlotMap, model: &HashMap<SlotHandle, u64>, stale: &HashSet<SlotHandle>) {
    assert_eq!(map.len(), model.len());
    assert_eq!(map.is_empty(), model.is_empty());
    let read: Vec<_> = map.iter().collect();
    assert_eq!(read.len(), model.len());
    assert!(
        read.windows(2)
            .all(|pair| pair[0].0.to_bits() as u32 <= pair[1].0.to_bits() as u32)
    );
    assert_eq!(read.into_iter().collect::<HashMap<_, _>>(), *model);
    for handle in stale {
        assert_eq!(map.get(*handle), None);
    }
}

#[test]
fn random_calls_beside_a_hash_map() -> Result<(), Error> {
    let mut numbers = Numbers(88_172_645_463_325_252);
    let mut map = SlotMap::new()?;
    let (mut model, mut stale) = (HashMap::new(), HashSet::new());
    let mut given: Vec<SlotHandle> = Vec::new();
    for step in 0..100_000 {
        let value = numbers.next();
        match numbers.below(100) {
            0..50 => {
                let handle = map.insert(value)?;
                assert_eq!(model.insert(handle, value), None);
                assert!(!stale.contains(&handle), "a handle was given twice");
                given.push(handle);
            }
            50..80 if !given.is_empty() => {
                let handle = given[numbers.below(given.len())];
                let was = model.remove(&handle);
                assert_eq!(map.contains(handle), was.is_some());
                assert_eq!(map.remove(handle), was);
                stale.insert(handle);
            }
            80..98 if !given.is_empty() => {
                let handle = given[numbers.below(given.len())];
                assert_eq!(map.get(handle), model.get(&handle).copied());
                assert_eq!(map.set(handle, value), model.contains_key(&handle));
                if let Some(own) = model.get_mut(&handle) {
                    *own = value;
                }
            }
            98 if step % 20 == 0 => {
                let moved = map.compress()?;
                assert_eq!(moved.len(), model.len());
                model = moved
                    .iter()
                    .map(|(old, new)| (*new, model.remove(old).expect("an entry")))
                    .collect();
                stale.extend(moved.iter().map(|(old, _)| *old));
                given.extend(moved.iter().map(|(_, new)| *new));
            }
            99 if step % 50 == 0 => {
                map.clear();
                stale.extend(model.drain().map(|(handle, _)| handle));
            }
            _ => {}
        }
        if step % 10_000 == 0 {
            compare(&map, &model, &stale);
        }
    }
    compare(&map, &model, &stale);
    Ok(())
}

#[test]
fn handles_that_were_made_up_find_nothing() -> Result<(), Error> {
    let mut map = SlotMap::new()?;
    let own = map.insert(1)?;
    for bits in [
        0,
        own.to_bits() & 0xffff_ffff,
        own.to_bits() & !0xffff_ffff,
        u64::MAX,
    ] {
        let handle = SlotHandle::from_bits(bits);
        assert_eq!((map.get(handle), map.contains(handle)), (None, false));
        assert_eq!((map.set(handle, 2), map.remove(handle)), (false, None));
    }
    assert_eq!(SlotHandle::from_bits(own.to_bits()), own);
    assert_eq!(map.get(own), Some(1));
    Ok(())
}

#[test]
fn rooms_and_their_refusals() -> Result<(), Error> {
    let mut map = SlotMap::new()?;
    assert_eq!(map.capacity(), 0);
    map.reserve(10)?;
    map.reserve(3)?;
    assert_eq!(map.capacity(), 10);
    assert_eq!(map.reserve(4_294_967_296), Err(Error::Full));
    assert_eq!((map.capacity(), map.len()), (10, 0));
    assert_eq!(Error::Full.to_string(), "there is an entry at each index");
    Ok(())
}
