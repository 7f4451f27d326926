//! An ordered map of 64-bit keys and values.

use crate::Error;
use crate::exports::{
    FOUND, FULL, NO_ENTRY, NO_MEMORY, NOT_FOUND, OK, Own, REPLACED, RawOrdMap, SPENT,
};
use std::fmt;
use std::ops::{Bound, RangeBounds};

/// The handle of an entry of an `OrdMap`. It finds that entry, and nothing once that is removed,
/// whatever is stored later. One of another map finds what its numbers name, or nothing.
#[repr(C)]
#[derive(Clone, Copy, PartialEq, Eq, PartialOrd, Ord, Hash)]
pub struct OrdHandle {
    index: u32,
    generation: u32,
}

impl OrdHandle {
    const NONE: OrdHandle = OrdHandle {
        index: 0,
        generation: 0,
    };

    /// The handle as one number, which `from_bits` turns back.
    #[must_use]
    pub fn to_bits(self) -> u64 {
        u64::from(self.generation) << 32 | u64::from(self.index)
    }

    /// The handle of such a number. Of any other it finds what its numbers name, or nothing.
    #[must_use]
    pub fn from_bits(bits: u64) -> OrdHandle {
        OrdHandle {
            index: bits as u32,
            generation: (bits >> 32) as u32,
        }
    }
}

impl fmt::Debug for OrdHandle {
    fn fmt(&self, f: &mut fmt::Formatter<'_>) -> fmt::Result {
        write!(f, "OrdHandle({}, {})", self.index, self.generation)
    }
}

/// What `OrdMap::nearest` found.
#[derive(Clone, Copy, Debug, PartialEq, Eq, Hash)]
pub enum Nearest {
    /// The entry with the key.
    Equal(OrdHandle),
    /// No entry has the key, and this is the first one above it.
    Above(OrdHandle),
    /// No entry has the key, and this is the last one below it.
    Below(OrdHandle),
}

/// An ordered map: values of 64 bits by keys of 64 bits, each of which it has once, under handles
/// that are never given twice.
///
/// It is neither `Send` nor `Sync`, since nothing proved speaks of threads.
///
/// ```
/// use route_arenas::OrdMap;
///
/// let mut prices = OrdMap::new()?;
/// prices.insert(105, 1050)?;
/// let (handle, _) = prices.insert(101, 1010)?;
/// assert_eq!(prices.get(handle), Some((101, 1010)));
/// assert_eq!(prices.range(102..).map(|(_, key, _)| key).collect::<Vec<_>>(), [105]);
/// # Ok::<(), route_arenas::Error>(())
/// ```
pub struct OrdMap {
    // The exports write the struct, also where they only read.
    raw: Own<RawOrdMap>,
}

fn error(status: u8) -> Error {
    match status {
        NO_MEMORY => Error::NoMemory,
        FULL => Error::Full,
        SPENT => Error::Spent,
        other => unreachable!("a map answered {other}"),
    }
}

#[inline]
fn done(status: u8) -> Result<(), Error> {
    if status == OK {
        Ok(())
    } else {
        Err(error(status))
    }
}

#[inline]
fn found(status: u8) -> bool {
    match status {
        OK => true,
        NOT_FOUND | NO_ENTRY => false,
        other => unreachable!("a map answered {other}"),
    }
}

impl OrdMap {
    /// An empty map.
    ///
    /// # Errors
    /// `NoMemory` if the memory for the map itself was refused.
    pub fn new() -> Result<OrdMap, Error> {
        let raw = Own::<RawOrdMap>::zeros();
        done(raw.make())?;
        Ok(OrdMap { raw })
    }

    /// How many entries there are.
    #[must_use]
    pub fn len(&self) -> usize {
        let mut length = 0;
        found(self.raw.length(&mut length));
        length
    }

    /// Whether there is no entry.
    #[must_use]
    pub fn is_empty(&self) -> bool {
        self.len() == 0
    }

    /// How many entries fit before the map takes more memory.
    #[must_use]
    pub fn capacity(&self) -> usize {
        let mut capacity = 0;
        found(self.raw.capacity(&mut capacity));
        capacity
    }

    /// Makes room for `min` entries, by a growth to exactly that if there is less.
    ///
    /// # Errors
    /// `Full` if `min` is past 4,294,967,295, or `NoMemory`; the map is then as it was.
    pub fn reserve(&mut self, min: usize) -> Result<(), Error> {
        done(self.raw.reserve(min))
    }

    /// Puts a value in at a key, and gives the handle of the entry, and the value that gave way, if
    /// the key had one; the entry then keeps its handle, and no memory is taken.
    ///
    /// # Errors
    /// `NoMemory`, `Full` or `Spent`, at a key that has no entry; the map is then as it was.
    #[inline]
    pub fn insert(&mut self, key: u64, value: u64) -> Result<(OrdHandle, Option<u64>), Error> {
        let (mut handle, mut was) = (OrdHandle::NONE, 0);
        match self.raw.insert(key, value, &mut handle, &mut was) {
            OK => Ok((handle, None)),
            REPLACED => Ok((handle, Some(was))),
            other => Err(error(other)),
        }
    }

    /// The handle and the value of the entry with this key; if there is none, this value is put in.
    /// An entry that is there stays as it is, and no memory is taken.
    ///
    /// # Errors
    /// `NoMemory`, `Full` or `Spent`, at a key that has no entry; the map is then as it was.
    ///
    /// ```
    /// # use route_arenas::OrdMap;
    /// let mut counts = OrdMap::new()?;
    /// for word in [7, 3, 7] {
    ///     let (handle, count) = counts.get_or_insert(word, 0)?;
    ///     counts.set(handle, count + 1);
    /// }
    /// assert_eq!((counts.value(3), counts.value(7)), (Some(1), Some(2)));
    /// # Ok::<(), route_arenas::Error>(())
    /// ```
    #[inline]
    pub fn get_or_insert(&mut self, key: u64, value: u64) -> Result<(OrdHandle, u64), Error> {
        let (mut handle, mut there) = (OrdHandle::NONE, 0);
        match self.raw.get_or_insert(key, value, &mut handle, &mut there) {
            OK => Ok((handle, value)),
            FOUND => Ok((handle, there)),
            other => Err(error(other)),
        }
    }

    // The handle that a call writes.
    #[inline]
    fn handle_by(
        &self,
        call: impl FnOnce(&Own<RawOrdMap>, &mut OrdHandle) -> u8,
    ) -> Option<OrdHandle> {
        let mut handle = OrdHandle::NONE;
        found(call(&self.raw, &mut handle)).then_some(handle)
    }

    /// The handle of the entry with this key.
    #[must_use]
    #[inline]
    pub fn find(&self, key: u64) -> Option<OrdHandle> {
        self.handle_by(|raw, handle| raw.find(key, handle))
    }

    /// Whether an entry has this key.
    #[must_use]
    #[inline]
    pub fn contains_key(&self, key: u64) -> bool {
        self.find(key).is_some()
    }

    /// The value at this key.
    #[must_use]
    #[inline]
    pub fn value(&self, key: u64) -> Option<u64> {
        Some(self.get(self.find(key)?)?.1)
    }

    /// The entry with this key, or else one of the two neighbors of its place; which of them, if
    /// there are both, is the library's choice.
    #[must_use]
    #[inline]
    pub fn nearest(&self, key: u64) -> Option<Nearest> {
        let mut side = 0;
        let handle = self.handle_by(|raw, handle| raw.nearest(key, handle, &mut side))?;
        Some(match side {
            0 => Nearest::Equal(handle),
            1 => Nearest::Above(handle),
            _ => Nearest::Below(handle),
        })
    }

    /// The handle of the first entry whose key is not below this one.
    #[must_use]
    #[inline]
    pub fn lower_bound(&self, key: u64) -> Option<OrdHandle> {
        self.handle_by(|raw, handle| raw.lower_bound(key, handle))
    }

    /// The handle of the first entry whose key is above this one.
    #[must_use]
    #[inline]
    pub fn upper_bound(&self, key: u64) -> Option<OrdHandle> {
        self.handle_by(|raw, handle| raw.upper_bound(key, handle))
    }

    /// The handle of the entry with the least key.
    #[must_use]
    #[inline]
    pub fn first(&self) -> Option<OrdHandle> {
        self.handle_by(Own::<RawOrdMap>::first)
    }

    /// The handle of the entry with the greatest key.
    #[must_use]
    #[inline]
    pub fn last(&self) -> Option<OrdHandle> {
        self.handle_by(Own::<RawOrdMap>::last)
    }

    /// The handle of the entry behind that which the handle finds, in the order of the keys. It is
    /// `None` if the handle finds none, or there is none behind it.
    #[must_use]
    #[inline]
    pub fn next(&self, handle: OrdHandle) -> Option<OrdHandle> {
        self.handle_by(|raw, next| raw.next(handle, next))
    }

    /// The handle of the entry before that which the handle finds, in the order of the keys. It is
    /// `None` if the handle finds none, or there is none before it.
    #[must_use]
    #[inline]
    pub fn previous(&self, handle: OrdHandle) -> Option<OrdHandle> {
        self.handle_by(|raw, previous| raw.previous(handle, previous))
    }

    /// The key and the value that the handle finds.
    #[must_use]
    #[inline]
    pub fn get(&self, handle: OrdHandle) -> Option<(u64, u64)> {
        let (mut key, mut value) = (0, 0);
        found(self.raw.get(handle, &mut key, &mut value)).then_some((key, value))
    }

    /// Puts a value in place of the one that the handle finds, and says whether it finds one. The
    /// key stays.
    #[inline]
    pub fn set(&mut self, handle: OrdHandle, value: u64) -> bool {
        found(self.raw.set(handle, value))
    }

    /// Removes the entry that the handle finds, and gives its key and its value.
    #[inline]
    pub fn remove(&mut self, handle: OrdHandle) -> Option<(u64, u64)> {
        let (mut key, mut value) = (0, 0);
        found(self.raw.remove(handle, &mut key, &mut value)).then_some((key, value))
    }

    /// Removes the entry with this key, and gives its value.
    #[inline]
    pub fn remove_key(&mut self, key: u64) -> Option<u64> {
        let mut value = 0;
        found(self.raw.remove_key(key, &mut value)).then_some(value)
    }

    /// Removes every entry. The capacity stays.
    pub fn clear(&mut self) {
        found(self.raw.clear());
    }

    /// The handles, the keys and the values, in the order of the keys. They are read 64 at a time.
    pub fn iter(&self) -> OrdIter<'_> {
        self.range(..)
    }

    /// The same of the entries whose keys are in a range. One that ends before it starts has none.
    pub fn range(&self, keys: impl RangeBounds<u64>) -> OrdIter<'_> {
        let from = match keys.start_bound() {
            Bound::Included(key) => self.lower_bound(*key),
            Bound::Excluded(key) => self.upper_bound(*key),
            Bound::Unbounded => Some(OrdHandle::NONE),
        };
        let end = match keys.end_bound() {
            Bound::Included(key) => Some(*key),
            Bound::Excluded(key) => key.checked_sub(1),
            Bound::Unbounded => Some(u64::MAX),
        };
        OrdIter {
            map: self,
            from: from.filter(|_| end.is_some()),
            last: end.unwrap_or(0),
            handles: [OrdHandle::NONE; 64],
            keys: [0; 64],
            values: [0; 64],
            at: 0,
            end: 0,
        }
    }
}

impl Drop for OrdMap {
    fn drop(&mut self) {
        self.raw.free();
    }
}

impl fmt::Debug for OrdMap {
    fn fmt(&self, f: &mut fmt::Formatter<'_>) -> fmt::Result {
        f.debug_map()
            .entries(self.iter().map(|(_, key, value)| (key, value)))
            .finish()
    }
}

impl<'a> IntoIterator for &'a OrdMap {
    type Item = (OrdHandle, u64, u64);
    type IntoIter = OrdIter<'a>;

    fn into_iter(self) -> OrdIter<'a> {
        self.iter()
    }
}

/// The handles, the keys and the values of an `OrdMap`, in the order of the keys.
pub struct OrdIter<'a> {
    map: &'a OrdMap,
    // Where the next read begins, if there is one more, and the greatest key that is given.
    from: Option<OrdHandle>,
    last: u64,
    // What was read and is not given yet.
    handles: [OrdHandle; 64],
    keys: [u64; 64],
    values: [u64; 64],
    at: usize,
    end: usize,
}

impl Iterator for OrdIter<'_> {
    type Item = (OrdHandle, u64, u64);

    #[inline]
    fn next(&mut self) -> Option<(OrdHandle, u64, u64)> {
        if self.at == self.end {
            let mut from = self.from.take()?;
            (self.at, self.end) = (0, 0);
            found(self.map.raw.entries(
                &mut from,
                &mut self.handles,
                &mut self.keys,
                &mut self.values,
                &mut self.end,
            ));
            self.from = Some(from).filter(|handle| *handle != OrdHandle::NONE);
            if self.end == 0 {
                return None;
            }
        }
        let k = self.at;
        if self.keys[k] > self.last {
            (self.from, self.end) = (None, self.at);
            return None;
        }
        self.at += 1;
        Some((self.handles[k], self.keys[k], self.values[k]))
    }
}

impl std::iter::FusedIterator for OrdIter<'_> {}
