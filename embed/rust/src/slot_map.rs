//! A slot map of 64-bit values.

use crate::Error;
use crate::exports::{FULL, NO_MEMORY, NOT_FOUND, OK, Own, RawSlotMap, SPENT};
use std::fmt;

/// The handle of an entry of a `SlotMap`. It finds that entry, and nothing once that is removed,
/// whatever is stored later. One of another map finds what its numbers name, or nothing.
#[repr(C)]
#[derive(Clone, Copy, PartialEq, Eq, PartialOrd, Ord, Hash)]
pub struct SlotHandle {
    index: u32,
    generation: u32,
}

impl SlotHandle {
    const NONE: SlotHandle = SlotHandle {
        index: 0,
        generation: 0,
    };

    /// The handle as one number, which `from_bits` turns back.
    #[must_use]
    pub fn to_bits(self) -> u64 {
        u64::from(self.generation) << 32 | u64::from(self.index)
    }

    /// The handle of such a number. Of any other it finds what its numbers name, or nothing.
    #[must_use]
    pub fn from_bits(bits: u64) -> SlotHandle {
        SlotHandle {
            index: bits as u32,
            generation: (bits >> 32) as u32,
        }
    }
}

impl fmt::Debug for SlotHandle {
    fn fmt(&self, f: &mut fmt::Formatter<'_>) -> fmt::Result {
        write!(f, "SlotHandle({}, {})", self.index, self.generation)
    }
}

/// A slot map: values of 64 bits under handles that are never given twice.
///
/// It is neither `Send` nor `Sync`, since nothing proved speaks of threads.
pub struct SlotMap {
    // The exports write the struct, also where they only read.
    raw: Own<RawSlotMap>,
}

#[inline]
fn done(status: u8) -> Result<(), Error> {
    match status {
        OK => Ok(()),
        NO_MEMORY => Err(Error::NoMemory),
        FULL => Err(Error::Full),
        SPENT => Err(Error::Spent),
        other => unreachable!("a map answered {other}"),
    }
}

#[inline]
fn found(status: u8) -> bool {
    match status {
        OK => true,
        NOT_FOUND => false,
        other => unreachable!("a map answered {other}"),
    }
}

impl SlotMap {
    /// An empty map.
    ///
    /// # Errors
    /// `NoMemory` if the memory for the map itself was refused.
    pub fn new() -> Result<SlotMap, Error> {
        let raw = Own::<RawSlotMap>::zeros();
        done(raw.make())?;
        Ok(SlotMap { raw })
    }

    /// How many entries there are.
    #[must_use]
    pub fn len(&self) -> usize {
        let mut length = 0;
        found(self.raw.length(&mut length));
        length
    }

    /// Whether there is no entry.
    #[must_use]
    pub fn is_empty(&self) -> bool {
        self.len() == 0
    }

    /// How many entries fit before the map takes more memory.
    #[must_use]
    pub fn capacity(&self) -> usize {
        let mut capacity = 0;
        found(self.raw.capacity(&mut capacity));
        capacity
    }

    /// Makes room for `min` entries, by a growth to exactly that if there is less.
    ///
    /// # Errors
    /// `Full` if `min` is past 4,294,967,295, or `NoMemory`; the map is then as it was.
    pub fn reserve(&mut self, min: usize) -> Result<(), Error> {
        done(self.raw.reserve(min))
    }

    /// Stores a value, and gives its handle.
    ///
    /// # Errors
    /// `NoMemory`, `Full` or `Spent`; the map is then as it was.
    #[inline]
    pub fn insert(&mut self, value: u64) -> Result<SlotHandle, Error> {
        let mut handle = SlotHandle::NONE;
        done(self.raw.insert(value, &mut handle))?;
        Ok(handle)
    }

    /// The value that the handle finds.
    #[must_use]
    #[inline]
    pub fn get(&self, handle: SlotHandle) -> Option<u64> {
        let mut value = 0;
        found(self.raw.get(handle, &mut value)).then_some(value)
    }

    /// Whether the handle finds an entry.
    #[must_use]
    #[inline]
    pub fn contains(&self, handle: SlotHandle) -> bool {
        found(self.raw.contains(handle))
    }

    /// Puts a value in place of the one that the handle finds, and says whether it finds one.
    #[inline]
    pub fn set(&mut self, handle: SlotHandle, value: u64) -> bool {
        found(self.raw.set(handle, value))
    }

    /// Removes the entry that the handle finds, and gives its value.
    #[inline]
    pub fn remove(&mut self, handle: SlotHandle) -> Option<u64> {
        let mut value = 0;
        found(self.raw.remove(handle, &mut value)).then_some(value)
    }

    /// Removes every entry. The capacity stays.
    pub fn clear(&mut self) {
        found(self.raw.clear());
    }

    /// Moves the entries to the indexes from 1 on, and gives the old and the new handle of each, in
    /// the order of the indexes. The old ones find nothing from then on. The map takes no memory.
    ///
    /// # Errors
    /// `Spent` if no generation is left for the new handles; the map is then as it was.
    pub fn compress(&mut self) -> Result<Vec<(SlotHandle, SlotHandle)>, Error> {
        let length = self.len();
        let mut old = vec![SlotHandle::NONE; length];
        let mut new = old.clone();
        let mut written = 0;
        done(self.raw.compress(&mut old, &mut new, &mut written))?;
        Ok(old.into_iter().zip(new).take(written).collect())
    }

    /// The handles and the values, by rising index. They are read 64 at a time.
    pub fn iter(&self) -> Iter<'_> {
        Iter {
            map: self,
            last: 0,
            handles: [SlotHandle::NONE; 64],
            values: [0; 64],
            at: 0,
            end: 0,
        }
    }
}

impl Drop for SlotMap {
    fn drop(&mut self) {
        self.raw.free();
    }
}

impl fmt::Debug for SlotMap {
    fn fmt(&self, f: &mut fmt::Formatter<'_>) -> fmt::Result {
        f.debug_map().entries(self).finish()
    }
}

impl<'a> IntoIterator for &'a SlotMap {
    type Item = (SlotHandle, u64);
    type IntoIter = Iter<'a>;

    fn into_iter(self) -> Iter<'a> {
        self.iter()
    }
}

/// The handles and the values of a `SlotMap`, by rising index.
pub struct Iter<'a> {
    map: &'a SlotMap,
    // The index of the last entry that was read, and those read that are not given yet.
    last: u32,
    handles: [SlotHandle; 64],
    values: [u64; 64],
    at: usize,
    end: usize,
}

impl Iterator for Iter<'_> {
    type Item = (SlotHandle, u64);

    #[inline]
    fn next(&mut self) -> Option<(SlotHandle, u64)> {
        if self.at == self.end {
            self.at = 0;
            found(self.map.raw.read(
                &mut self.last,
                &mut self.handles,
                &mut self.values,
                &mut self.end,
            ));
        }
        if self.at == self.end {
            return None;
        }
        self.at += 1;
        Some((self.handles[self.at - 1], self.values[self.at - 1]))
    }
}

impl std::iter::FusedIterator for Iter<'_> {}
