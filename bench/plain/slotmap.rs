//! The arena of the crate `slotmap`, with the calls of `arena.rs`.
use slotmap::{DefaultKey, Key, SlotMap};

#[derive(Clone, Copy)]
pub struct Pointer(DefaultKey);

impl Pointer {
    pub fn invalid() -> Self {
        Pointer(DefaultKey::null())
    }

    pub fn part(self) -> u64 {
        self.0.data().as_ffi() & 0xffff_ffff
    }
}

#[derive(Clone)]
pub struct Arena<T>(SlotMap<DefaultKey, T>);

impl<T> Arena<T> {
    pub fn new() -> Self {
        Arena(SlotMap::new())
    }

    pub fn insert(&mut self, value: T) -> Pointer {
        Pointer(self.0.insert(value))
    }

    pub fn get(&self, pointer: Pointer) -> Option<&T> {
        self.0.get(pointer.0)
    }

    pub fn get_mut(&mut self, pointer: Pointer) -> Option<&mut T> {
        self.0.get_mut(pointer.0)
    }

    pub fn iter(&self) -> impl Iterator<Item = (Pointer, &T)> {
        self.0.iter().map(|(key, value)| (Pointer(key), value))
    }

    pub fn values_mut(&mut self) -> impl Iterator<Item = &mut T> {
        self.0.values_mut()
    }

    /// `slotmap` has no removal by an index, so this is one by the key.
    pub fn remove_inx(&mut self, pointer: Pointer) -> Option<T> {
        self.0.remove(pointer.0)
    }

    pub fn remove(&mut self, pointer: Pointer) -> Option<T> {
        self.0.remove(pointer.0)
    }

    /// Removes all entries, and gives their values in the order of the indexes.
    pub fn drain(&mut self) -> impl Iterator<Item = T> {
        self.0.drain().map(|(_, value)| value)
    }
}
