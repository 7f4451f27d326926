//! A plain arena: slots in a `Vec`, a free list through the free ones, and a counter of removals
//! that new entries take as their generation. The benchmark compares the proved arena with it.
use std::num::{NonZeroU64, NonZeroUsize};

#[derive(Clone, Copy)]
pub struct Pointer {
    index: NonZeroUsize,
    generation: NonZeroU64,
}

#[derive(Clone)]
enum Slot<T> {
    Free(Option<NonZeroUsize>),
    Used(NonZeroU64, T),
}

#[derive(Clone)]
pub struct Arena<T> {
    slots: Vec<Slot<T>>,
    generation: NonZeroU64,
    free: Option<NonZeroUsize>,
    len: usize,
}

impl Pointer {
    /// A pointer to nothing.
    pub fn invalid() -> Self {
        Pointer {
            index: NonZeroUsize::MAX,
            generation: NonZeroU64::MIN,
        }
    }

    /// A part of it, for a loop that reads pointers alone.
    pub fn part(self) -> u64 {
        self.generation.get()
    }
}

impl<T> Arena<T> {
    pub fn new() -> Self {
        Arena {
            slots: Vec::new(),
            generation: NonZeroU64::MIN.saturating_add(1),
            free: None,
            len: 0,
        }
    }

    pub fn insert(&mut self, value: T) -> Pointer {
        let slot = Slot::Used(self.generation, value);
        let index = match self.free {
            Some(index) => {
                let place = &mut self.slots[index.get() - 1];
                if let Slot::Free(next) = *place {
                    self.free = next;
                }
                *place = slot;
                index
            }
            None => {
                self.slots.push(slot);
                NonZeroUsize::new(self.slots.len()).expect("a slot was pushed")
            }
        };
        self.len += 1;
        Pointer {
            index,
            generation: self.generation,
        }
    }

    pub fn get(&self, pointer: Pointer) -> Option<&T> {
        match self.slots.get(pointer.index.get() - 1) {
            Some(Slot::Used(generation, value)) if *generation == pointer.generation => Some(value),
            _ => None,
        }
    }

    pub fn get_mut(&mut self, pointer: Pointer) -> Option<&mut T> {
        match self.slots.get_mut(pointer.index.get() - 1) {
            Some(Slot::Used(generation, value)) if *generation == pointer.generation => Some(value),
            _ => None,
        }
    }

    /// The pointers and values, in the order of the indexes.
    pub fn iter(&self) -> impl Iterator<Item = (Pointer, &T)> {
        self.slots
            .iter()
            .zip(1..)
            .filter_map(|(slot, index)| match slot {
                Slot::Used(generation, value) => {
                    let index = NonZeroUsize::new(index)?;
                    Some((
                        Pointer {
                            index,
                            generation: *generation,
                        },
                        value,
                    ))
                }
                Slot::Free(_) => None,
            })
    }

    /// The values, for writing, in the order of the indexes.
    pub fn values_mut(&mut self) -> impl Iterator<Item = &mut T> {
        self.slots.iter_mut().filter_map(|slot| match slot {
            Slot::Used(_, value) => Some(value),
            Slot::Free(_) => None,
        })
    }

    pub fn remove(&mut self, pointer: Pointer) -> Option<T> {
        self.get(pointer)?;
        self.remove_inx(pointer)
    }

    /// Removes by the index alone.
    pub fn remove_inx(&mut self, pointer: Pointer) -> Option<T> {
        let place = self.slots.get_mut(pointer.index.get() - 1)?;
        if let Slot::Free(_) = place {
            return None;
        }
        let slot = std::mem::replace(place, Slot::Free(self.free));
        self.free = Some(pointer.index);
        self.len -= 1;
        self.generation = match self.generation.checked_add(1) {
            Some(next) => next,
            None => NonZeroU64::MIN.saturating_add(1),
        };
        match slot {
            Slot::Used(_, value) => Some(value),
            Slot::Free(_) => None,
        }
    }

    /// Removes all entries, and gives their values in the order of the indexes.
    pub fn drain(&mut self) -> impl Iterator<Item = T> {
        self.free = None;
        self.len = 0;
        let generation = &mut self.generation;
        self.slots.drain(..).filter_map(move |slot| match slot {
            Slot::Used(_, value) => {
                *generation = match generation.checked_add(1) {
                    Some(next) => next,
                    None => NonZeroU64::MIN.saturating_add(1),
                };
                Some(value)
            }
            Slot::Free(_) => None,
        })
    }
}
