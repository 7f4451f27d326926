//! The exports of the static libraries, and the only unsafe code of the package: each is called by
//! one safe function here.
//!
//! What a call owes: the struct is made of zeros, is never copied, and is used by one thread at a
//! time; no two references overlap; those to arrays are not null. References of Rust are just that,
//! and what holds one of the structs is neither `Clone` nor, since that is a raw pointer, `Send` or
//! `Sync`. It may move, since no export keeps its address, and nothing uses it where it was.

use crate::{OrdHandle, SlotHandle};
use std::cell::UnsafeCell;
use std::ptr;

/// A struct that each export may write, also one that only reads. No reference to it is ever made,
/// and no call on it is under way while another begins: an export calls nothing back, and a cell is
/// not `Sync`.
pub(crate) struct Own<T>(UnsafeCell<T>);

/// What a holder of C keeps.
#[repr(C)]
pub(crate) struct RawSlotMap {
    at: *mut u8,
    is_made: bool,
}

pub(crate) const OK: u8 = 0;
pub(crate) const NO_MEMORY: u8 = 1;
pub(crate) const FULL: u8 = 2;
pub(crate) const SPENT: u8 = 3;
pub(crate) const NOT_FOUND: u8 = 4;

unsafe extern "C" {
    fn slot_map_new(map: *mut RawSlotMap) -> u8;
    fn slot_map_free(map: *mut RawSlotMap);
    fn slot_map_length(map: *mut RawSlotMap, length: *mut usize) -> u8;
    fn slot_map_capacity(map: *mut RawSlotMap, capacity: *mut usize) -> u8;
    fn slot_map_reserve(map: *mut RawSlotMap, min: usize) -> u8;
    fn slot_map_insert(map: *mut RawSlotMap, value: u64, handle: *mut SlotHandle) -> u8;
    fn slot_map_get(map: *mut RawSlotMap, handle: SlotHandle, value: *mut u64) -> u8;
    fn slot_map_contains(map: *mut RawSlotMap, handle: SlotHandle) -> u8;
    fn slot_map_set(map: *mut RawSlotMap, handle: SlotHandle, value: u64) -> u8;
    fn slot_map_remove(map: *mut RawSlotMap, handle: SlotHandle, value: *mut u64) -> u8;
    fn slot_map_clear(map: *mut RawSlotMap) -> u8;
    fn slot_map_compress(
        map: *mut RawSlotMap,
        old_handles: *mut SlotHandle,
        old_length: usize,
        new_handles: *mut SlotHandle,
        new_length: usize,
        written: *mut usize,
    ) -> u8;
    fn slot_map_read(
        map: *mut RawSlotMap,
        last: *mut u32,
        handles: *mut SlotHandle,
        handles_length: usize,
        values: *mut u64,
        values_length: usize,
        written: *mut usize,
    ) -> u8;
}

impl Own<RawSlotMap> {
    /// A struct of zeros, which keeps no map.
    pub(crate) fn zeros() -> Own<RawSlotMap> {
        Own(UnsafeCell::new(RawSlotMap {
            at: ptr::null_mut(),
            is_made: false,
        }))
    }

    pub(crate) fn make(&self) -> u8 {
        // SAFETY: the struct was made of zeros, or by an export, and stands in its cell.
        unsafe { slot_map_new(self.0.get()) }
    }

    pub(crate) fn free(&self) {
        // SAFETY: as at `make`; what it keeps is freed, and it keeps nothing from then on.
        unsafe { slot_map_free(self.0.get()) }
    }

    pub(crate) fn length(&self, length: &mut usize) -> u8 {
        // SAFETY: as at `make`, and `length` is borrowed apart from it.
        unsafe { slot_map_length(self.0.get(), length) }
    }

    pub(crate) fn capacity(&self, capacity: &mut usize) -> u8 {
        // SAFETY: as at `length`.
        unsafe { slot_map_capacity(self.0.get(), capacity) }
    }

    pub(crate) fn reserve(&self, min: usize) -> u8 {
        // SAFETY: as at `make`.
        unsafe { slot_map_reserve(self.0.get(), min) }
    }

    #[inline]
    pub(crate) fn insert(&self, value: u64, handle: &mut SlotHandle) -> u8 {
        // SAFETY: as at `length`.
        unsafe { slot_map_insert(self.0.get(), value, handle) }
    }

    #[inline]
    pub(crate) fn get(&self, handle: SlotHandle, value: &mut u64) -> u8 {
        // SAFETY: as at `length`.
        unsafe { slot_map_get(self.0.get(), handle, value) }
    }

    #[inline]
    pub(crate) fn contains(&self, handle: SlotHandle) -> u8 {
        // SAFETY: as at `make`.
        unsafe { slot_map_contains(self.0.get(), handle) }
    }

    #[inline]
    pub(crate) fn set(&self, handle: SlotHandle, value: u64) -> u8 {
        // SAFETY: as at `make`.
        unsafe { slot_map_set(self.0.get(), handle, value) }
    }

    #[inline]
    pub(crate) fn remove(&self, handle: SlotHandle, value: &mut u64) -> u8 {
        // SAFETY: as at `length`.
        unsafe { slot_map_remove(self.0.get(), handle, value) }
    }

    pub(crate) fn clear(&self) -> u8 {
        // SAFETY: as at `make`.
        unsafe { slot_map_clear(self.0.get()) }
    }

    pub(crate) fn compress(
        &self,
        old: &mut [SlotHandle],
        new: &mut [SlotHandle],
        written: &mut usize,
    ) -> u8 {
        // SAFETY: as at `length`; each pointer is that of a slice of the length beside it.
        unsafe {
            slot_map_compress(
                self.0.get(),
                old.as_mut_ptr(),
                old.len(),
                new.as_mut_ptr(),
                new.len(),
                written,
            )
        }
    }

    pub(crate) fn read(
        &self,
        last: &mut u32,
        handles: &mut [SlotHandle],
        values: &mut [u64],
        written: &mut usize,
    ) -> u8 {
        // SAFETY: as at `compress`.
        unsafe {
            slot_map_read(
                self.0.get(),
                last,
                handles.as_mut_ptr(),
                handles.len(),
                values.as_mut_ptr(),
                values.len(),
                written,
            )
        }
    }
}

/// What a holder of C keeps of an ordered map.
#[repr(C)]
pub(crate) struct RawOrdMap {
    at: *mut u8,
    is_made: bool,
}

pub(crate) const NO_ENTRY: u8 = 7;
pub(crate) const REPLACED: u8 = 8;
pub(crate) const FOUND: u8 = 9;

unsafe extern "C" {
    fn ord_map_new(map: *mut RawOrdMap) -> u8;
    fn ord_map_free(map: *mut RawOrdMap);
    fn ord_map_length(map: *mut RawOrdMap, length: *mut usize) -> u8;
    fn ord_map_capacity(map: *mut RawOrdMap, capacity: *mut usize) -> u8;
    fn ord_map_reserve(map: *mut RawOrdMap, min: usize) -> u8;
    fn ord_map_insert(
        map: *mut RawOrdMap,
        key: u64,
        value: u64,
        handle: *mut OrdHandle,
        was: *mut u64,
    ) -> u8;
    fn ord_map_get_or_insert(
        map: *mut RawOrdMap,
        key: u64,
        value: u64,
        handle: *mut OrdHandle,
        found: *mut u64,
    ) -> u8;
    fn ord_map_find(map: *mut RawOrdMap, key: u64, handle: *mut OrdHandle) -> u8;
    fn ord_map_nearest(map: *mut RawOrdMap, key: u64, handle: *mut OrdHandle, side: *mut u8) -> u8;
    fn ord_map_lower_bound(map: *mut RawOrdMap, key: u64, handle: *mut OrdHandle) -> u8;
    fn ord_map_upper_bound(map: *mut RawOrdMap, key: u64, handle: *mut OrdHandle) -> u8;
    fn ord_map_get(map: *mut RawOrdMap, handle: OrdHandle, key: *mut u64, value: *mut u64) -> u8;
    fn ord_map_set(map: *mut RawOrdMap, handle: OrdHandle, value: u64) -> u8;
    fn ord_map_remove(map: *mut RawOrdMap, handle: OrdHandle, key: *mut u64, value: *mut u64)
    -> u8;
    fn ord_map_remove_key(map: *mut RawOrdMap, key: u64, value: *mut u64) -> u8;
    fn ord_map_first(map: *mut RawOrdMap, handle: *mut OrdHandle) -> u8;
    fn ord_map_last(map: *mut RawOrdMap, handle: *mut OrdHandle) -> u8;
    fn ord_map_next(map: *mut RawOrdMap, handle: OrdHandle, next: *mut OrdHandle) -> u8;
    fn ord_map_previous(map: *mut RawOrdMap, handle: OrdHandle, previous: *mut OrdHandle) -> u8;
    fn ord_map_clear(map: *mut RawOrdMap) -> u8;
    fn ord_map_entries(
        map: *mut RawOrdMap,
        from: *mut OrdHandle,
        handles: *mut OrdHandle,
        handles_length: usize,
        keys: *mut u64,
        keys_length: usize,
        values: *mut u64,
        values_length: usize,
        written: *mut usize,
    ) -> u8;
}

impl Own<RawOrdMap> {
    /// A struct of zeros, which keeps no map.
    pub(crate) fn zeros() -> Own<RawOrdMap> {
        Own(UnsafeCell::new(RawOrdMap {
            at: ptr::null_mut(),
            is_made: false,
        }))
    }

    pub(crate) fn make(&self) -> u8 {
        // SAFETY: the struct was made of zeros, or by an export, and stands in its cell.
        unsafe { ord_map_new(self.0.get()) }
    }

    pub(crate) fn free(&self) {
        // SAFETY: as at `make`; what it keeps is freed, and it keeps nothing from then on.
        unsafe { ord_map_free(self.0.get()) }
    }

    pub(crate) fn length(&self, length: &mut usize) -> u8 {
        // SAFETY: as at `make`, and `length` is borrowed apart from it.
        unsafe { ord_map_length(self.0.get(), length) }
    }

    pub(crate) fn capacity(&self, capacity: &mut usize) -> u8 {
        // SAFETY: as at `length`.
        unsafe { ord_map_capacity(self.0.get(), capacity) }
    }

    pub(crate) fn reserve(&self, min: usize) -> u8 {
        // SAFETY: as at `make`.
        unsafe { ord_map_reserve(self.0.get(), min) }
    }

    #[inline]
    pub(crate) fn insert(&self, key: u64, value: u64, handle: &mut OrdHandle, was: &mut u64) -> u8 {
        // SAFETY: as at `length`; `handle` and `was` are borrowed apart from each other too.
        unsafe { ord_map_insert(self.0.get(), key, value, handle, was) }
    }

    #[inline]
    pub(crate) fn get_or_insert(
        &self,
        key: u64,
        value: u64,
        handle: &mut OrdHandle,
        found: &mut u64,
    ) -> u8 {
        // SAFETY: as at `insert`.
        unsafe { ord_map_get_or_insert(self.0.get(), key, value, handle, found) }
    }

    #[inline]
    pub(crate) fn find(&self, key: u64, handle: &mut OrdHandle) -> u8 {
        // SAFETY: as at `length`.
        unsafe { ord_map_find(self.0.get(), key, handle) }
    }

    #[inline]
    pub(crate) fn nearest(&self, key: u64, handle: &mut OrdHandle, side: &mut u8) -> u8 {
        // SAFETY: as at `insert`.
        unsafe { ord_map_nearest(self.0.get(), key, handle, side) }
    }

    #[inline]
    pub(crate) fn lower_bound(&self, key: u64, handle: &mut OrdHandle) -> u8 {
        // SAFETY: as at `length`.
        unsafe { ord_map_lower_bound(self.0.get(), key, handle) }
    }

    #[inline]
    pub(crate) fn upper_bound(&self, key: u64, handle: &mut OrdHandle) -> u8 {
        // SAFETY: as at `length`.
        unsafe { ord_map_upper_bound(self.0.get(), key, handle) }
    }

    #[inline]
    pub(crate) fn get(&self, handle: OrdHandle, key: &mut u64, value: &mut u64) -> u8 {
        // SAFETY: as at `insert`.
        unsafe { ord_map_get(self.0.get(), handle, key, value) }
    }

    #[inline]
    pub(crate) fn set(&self, handle: OrdHandle, value: u64) -> u8 {
        // SAFETY: as at `make`.
        unsafe { ord_map_set(self.0.get(), handle, value) }
    }

    #[inline]
    pub(crate) fn remove(&self, handle: OrdHandle, key: &mut u64, value: &mut u64) -> u8 {
        // SAFETY: as at `insert`.
        unsafe { ord_map_remove(self.0.get(), handle, key, value) }
    }

    #[inline]
    pub(crate) fn remove_key(&self, key: u64, value: &mut u64) -> u8 {
        // SAFETY: as at `length`.
        unsafe { ord_map_remove_key(self.0.get(), key, value) }
    }

    #[inline]
    pub(crate) fn first(&self, handle: &mut OrdHandle) -> u8 {
        // SAFETY: as at `length`.
        unsafe { ord_map_first(self.0.get(), handle) }
    }

    #[inline]
    pub(crate) fn last(&self, handle: &mut OrdHandle) -> u8 {
        // SAFETY: as at `length`.
        unsafe { ord_map_last(self.0.get(), handle) }
    }

    #[inline]
    pub(crate) fn next(&self, handle: OrdHandle, next: &mut OrdHandle) -> u8 {
        // SAFETY: as at `length`.
        unsafe { ord_map_next(self.0.get(), handle, next) }
    }

    #[inline]
    pub(crate) fn previous(&self, handle: OrdHandle, previous: &mut OrdHandle) -> u8 {
        // SAFETY: as at `length`.
        unsafe { ord_map_previous(self.0.get(), handle, previous) }
    }

    pub(crate) fn clear(&self) -> u8 {
        // SAFETY: as at `make`.
        unsafe { ord_map_clear(self.0.get()) }
    }

    pub(crate) fn entries(
        &self,
        from: &mut OrdHandle,
        handles: &mut [OrdHandle],
        keys: &mut [u64],
        values: &mut [u64],
        written: &mut usize,
    ) -> u8 {
        // SAFETY: as at `insert`; each pointer is that of a slice of the length beside it.
        unsafe {
            ord_map_entries(
                self.0.get(),
                from,
                handles.as_mut_ptr(),
                handles.len(),
                keys.as_mut_ptr(),
                keys.len(),
                values.as_mut_ptr(),
                values.len(),
                written,
            )
        }
    }
}

/// What a holder of C keeps of a store.
#[repr(C)]
pub(crate) struct RawRouteBook {
    at: *mut u8,
    is_made: bool,
}

pub(crate) const TOO_LARGE: u8 = 2;
pub(crate) const SHORT: u8 = 7;

unsafe extern "C" {
    fn route_book_new(book: *mut RawRouteBook, places: usize, stops: usize, marks: usize) -> u8;
    fn route_book_free(book: *mut RawRouteBook);
    fn route_book_places(book: *mut RawRouteBook, count: *mut usize) -> u8;
    fn route_book_stops(book: *mut RawRouteBook, count: *mut usize) -> u8;
    fn route_book_marks(book: *mut RawRouteBook, count: *mut usize) -> u8;
    fn route_book_pack(book: *mut RawRouteBook) -> u8;
    fn route_book_run(
        book: *mut RawRouteBook,
        input: *const u8,
        input_length: usize,
        room: *mut u8,
        room_length: usize,
        taken: *mut usize,
        written: *mut usize,
    ) -> u8;
    fn route_book_answer(
        places: usize,
        stops: usize,
        marks: usize,
        input: *const u8,
        input_length: usize,
        room: *mut u8,
        room_length: usize,
        taken: *mut usize,
        written: *mut usize,
    ) -> u8;
}

impl Own<RawRouteBook> {
    /// A struct of zeros, which keeps no store.
    pub(crate) fn zeros() -> Own<RawRouteBook> {
        Own(UnsafeCell::new(RawRouteBook {
            at: ptr::null_mut(),
            is_made: false,
        }))
    }

    pub(crate) fn make(&self, places: usize, stops: usize, marks: usize) -> u8 {
        // SAFETY: the struct was made of zeros, or by an export, and stands in its cell.
        unsafe { route_book_new(self.0.get(), places, stops, marks) }
    }

    pub(crate) fn free(&self) {
        // SAFETY: as at `make`; what it keeps is freed, and it keeps nothing from then on.
        unsafe { route_book_free(self.0.get()) }
    }

    pub(crate) fn places(&self, count: &mut usize) -> u8 {
        // SAFETY: as at `make`, and `count` is borrowed apart from it.
        unsafe { route_book_places(self.0.get(), count) }
    }

    pub(crate) fn stops(&self, count: &mut usize) -> u8 {
        // SAFETY: as at `places`.
        unsafe { route_book_stops(self.0.get(), count) }
    }

    pub(crate) fn marks(&self, count: &mut usize) -> u8 {
        // SAFETY: as at `places`.
        unsafe { route_book_marks(self.0.get(), count) }
    }

    pub(crate) fn pack(&self) -> u8 {
        // SAFETY: as at `make`.
        unsafe { route_book_pack(self.0.get()) }
    }

    pub(crate) fn run(
        &self,
        input: &[u8],
        room: &mut [u8],
        taken: &mut usize,
        written: &mut usize,
    ) -> u8 {
        // SAFETY: as at `places`; each pointer is that of a slice of the length beside it.
        unsafe {
            route_book_run(
                self.0.get(),
                input.as_ptr(),
                input.len(),
                room.as_mut_ptr(),
                room.len(),
                taken,
                written,
            )
        }
    }

    pub(crate) fn answer(
        rooms: [usize; 3],
        input: &[u8],
        room: &mut [u8],
        taken: &mut usize,
        written: &mut usize,
    ) -> u8 {
        // SAFETY: each pointer is that of a slice of the length beside it, and all are borrowed
        // apart from each other for the call.
        unsafe {
            route_book_answer(
                rooms[0],
                rooms[1],
                rooms[2],
                input.as_ptr(),
                input.len(),
                room.as_mut_ptr(),
                room.len(),
                taken,
                written,
            )
        }
    }
}
