//! The ordered map beside std's `BTreeMap`: random calls, stale handles of every kind, ranges, each
//! refusal.

use route_arenas::{Error, Nearest, OrdHandle, OrdMap};
use std::collections::{BTreeMap, HashMap, HashSet};
use std::ops::Bound;

/// Numbers that look random, the same in each run.
struct Numbers(u64);

impl Numbers {
    fn next(&mut self) -> u64 {
        self.0 ^= self.0 << 13;
        self.0 ^= self.0 >> 7;
        self.0 ^= self.0 << 17;
        self.0
    }

    fn below(&mut self, bound: u64) -> u64 {
        self.next() % bound
    }
}

/// What std has of the same calls: the handle and the value by key.
#[derive(Default)]
struct Model {
    entries: BTreeMap<u64, (OrdHandle, u64)>,
    keys: HashMap<OrdHandle, u64>,
    stale: HashSet<OrdHandle>,
}

impl Model {
    fn end(&mut self, key: u64) -> Option<u64> {
        let (handle, value) = self.entries.remove(&key)?;
        self.keys.remove(&handle);
        self.stale.insert(handle);
        Some(value)
    }
}

fn around(map: &OrdMap, model: &Model, key: u64) {
    let handle = |entry: Option<(&u64, &(OrdHandle, u64))>| entry.map(|(_, own)| own.0);
    let above = (Bound::Excluded(key), Bound::Unbounded);
    assert_eq!(map.find(key), model.entries.get(&key).map(|own| own.0));
    assert_eq!(map.value(key), model.entries.get(&key).map(|own| own.1));
    assert_eq!(map.contains_key(key), model.entries.contains_key(&key));
    assert_eq!(
        map.lower_bound(key),
        handle(model.entries.range(key..).next())
    );
    assert_eq!(
        map.upper_bound(key),
        handle(model.entries.range(above).next())
    );
    assert_eq!(map.first(), handle(model.entries.first_key_value()));
    assert_eq!(map.last(), handle(model.entries.last_key_value()));
    let (up, down) = (
        handle(model.entries.range(above).next()),
        handle(model.entries.range(..key).next_back()),
    );
    match map.nearest(key) {
        Some(Nearest::Equal(own)) => assert_eq!(map.find(key), Some(own)),
        Some(Nearest::Above(own)) => assert_eq!((map.find(key), up), (None, Some(own))),
        Some(Nearest::Below(own)) => assert_eq!((map.find(key), down), (None, Some(own))),
        None => assert!(model.entries.is_empty()),
    }
    if let Some(own) = map.find(key) {
        assert_eq!((map.next(own), map.previous(own)), (up, down));
    }
}

fn compare(map: &OrdMap, model: &Model) {
    assert_eq!(map.len(), model.entries.len());
    assert_eq!(map.is_empty(), model.entries.is_empty());
    let read: Vec<_> = map.iter().collect();
    let wanted: Vec<_> = model
        .entries
        .iter()
        .map(|(key, own)| (own.0, *key, own.1))
        .collect();
    assert_eq!(read, wanted);
    for handle in &model.stale {
        assert_eq!(map.get(*handle), None);
    }
}

#[test]
fn random_calls_beside_a_tree_map() -> Result<(), Error> {
    let mut numbers = Numbers(88_172_645_463_325_252);
    let (mut map, mut model) = (OrdMap::new()?, Model::default());
    let mut given: Vec<OrdHandle> = Vec::new();
    for step in 0..100_000u64 {
        let (key, value) = (numbers.below(2_000), numbers.next());
        match numbers.below(100) {
            0..15 => {
                let (handle, there) = map.get_or_insert(key, value)?;
                let own = *model.entries.entry(key).or_insert((handle, value));
                assert_eq!((handle, there), own);
                assert_eq!(*model.keys.entry(handle).or_insert(key), key);
                assert!(!model.stale.contains(&handle), "a handle was given twice");
                given.push(handle);
            }
            15..40 => {
                let (handle, was) = map.insert(key, value)?;
                let old = model.entries.insert(key, (handle, value));
                assert_eq!(was, old.map(|own| own.1));
                match old {
                    Some(own) => assert_eq!(own.0, handle),
                    None => assert_eq!(model.keys.insert(handle, key), None),
                }
                assert!(!model.stale.contains(&handle), "a handle was given twice");
                given.push(handle);
            }
            40..55 => assert_eq!(map.remove_key(key), model.end(key)),
            55..70 if !given.is_empty() => {
                let handle = given[numbers.below(given.len() as u64) as usize];
                let own = model.keys.get(&handle).copied();
                let gone = own.and_then(|key| Some((key, model.end(key)?)));
                assert_eq!(map.remove(handle), gone);
            }
            70..85 if !given.is_empty() => {
                let handle = given[numbers.below(given.len() as u64) as usize];
                let own = model.keys.get(&handle).copied();
                assert_eq!(map.get(handle), own.map(|key| (key, model.entries[&key].1)));
                assert_eq!(map.set(handle, value), own.is_some());
                if let Some(key) = own {
                    model.entries.insert(key, (handle, value));
                } else {
                    assert_eq!((map.next(handle), map.previous(handle)), (None, None));
                }
            }
            99 if step % 100 == 0 => {
                map.clear();
                let keys: Vec<u64> = model.entries.keys().copied().collect();
                for key in keys {
                    model.end(key);
                }
            }
            _ => around(&map, &model, key),
        }
        if step % 10_000 == 0 {
            compare(&map, &model);
        }
    }
    compare(&map, &model);
    Ok(())
}

#[test]
fn ranges_beside_a_tree_map() -> Result<(), Error> {
    let mut numbers = Numbers(362_436_069);
    let (mut map, mut model) = (OrdMap::new()?, BTreeMap::new());
    for _ in 0..300 {
        let (key, value) = (numbers.below(1_000), numbers.next());
        map.insert(key, value)?;
        model.insert(key, value);
    }
    map.insert(u64::MAX, 1)?;
    model.insert(u64::MAX, 1);
    for _ in 0..2_000 {
        let (low, high) = (numbers.below(500), 500 + numbers.below(500));
        let mut bound = |key| match numbers.below(3) {
            0 => Bound::Included(key),
            1 => Bound::Excluded(key),
            _ => Bound::Unbounded,
        };
        let keys = (bound(low), bound(high));
        let read: Vec<_> = map
            .range(keys)
            .map(|(_, key, value)| (key, value))
            .collect();
        let wanted: Vec<_> = model
            .range(keys)
            .map(|(key, value)| (*key, *value))
            .collect();
        assert_eq!(read, wanted);
    }
    assert_eq!(map.range(5..5).next(), None);
    assert_eq!(map.range(..0).next(), None);
    assert_eq!(
        map.range((Bound::Excluded(u64::MAX), Bound::Unbounded))
            .next(),
        None
    );
    let mut all = map.iter();
    assert_eq!(all.by_ref().count(), model.len());
    assert_eq!(all.next(), None);
    Ok(())
}

#[test]
fn handles_that_were_made_up_find_nothing() -> Result<(), Error> {
    let mut map = OrdMap::new()?;
    let (own, _) = map.insert(7, 1)?;
    for bits in [
        0,
        own.to_bits() & 0xffff_ffff,
        own.to_bits() & !0xffff_ffff,
        u64::MAX,
    ] {
        let handle = OrdHandle::from_bits(bits);
        assert_eq!((map.get(handle), map.next(handle)), (None, None));
        assert_eq!((map.set(handle, 2), map.remove(handle)), (false, None));
    }
    assert_eq!(OrdHandle::from_bits(own.to_bits()), own);
    assert_eq!(map.get(own), Some((7, 1)));
    assert_eq!(format!("{map:?}"), "{7: 1}");
    Ok(())
}

#[test]
fn rooms_and_their_refusals() -> Result<(), Error> {
    let mut map = OrdMap::new()?;
    assert_eq!(map.capacity(), 0);
    map.reserve(10)?;
    map.reserve(3)?;
    assert_eq!(map.capacity(), 10);
    assert_eq!(map.reserve(4_294_967_296), Err(Error::Full));
    assert_eq!((map.capacity(), map.len()), (10, 0));
    Ok(())
}
