//! The C functions of the verified archives, and all of this crate's unsafe code.
//!
//! What each bit of an answer means is said in crate `packing`; the contracts of `otap_handheld`, `otap_vehicle` and `otap_desk` determine
//! every byte that a call writes. Every call takes slices of any length and content.
#![allow(unsafe_code)]

use crate::kinds::Handheld;
#[cfg(feature = "vehicle")]
use crate::kinds::Vehicle;

/// The functions of one kind's archive. It cannot be named outside this crate, so that no other kind is made.
pub trait Calls {
    fn start(store: &mut [u8]) -> u32;
    fn judge(message: &[u8], store: &[u8], reply: &mut [u8]) -> u64;
    fn commit(message: &[u8], store: &mut [u8], reply: &mut [u8]) -> u64;
    fn export(part: u32, store: &[u8], buffer: &mut [u8]) -> u64;
    fn row_number(table: u32, row: u32, store: &[u8], scratch: &[u8]) -> u32;
    fn row_part(table: u32, row: u32, store: &[u8], scratch: &mut [u8]) -> u64;
    fn counts(store: &[u8]) -> u64;
    fn line_of(id_type: u32, digits: &[u8], store: &[u8]) -> u64;
    fn entry(table: u32, index: u32, store: &[u8]) -> u64;
    fn entry_digits(table: u32, index: u32, store: &[u8], digits: &mut [u8]) -> u64;
    fn channel(position: u32, store: &[u8]) -> u64;
    fn emergency_key(store: &[u8]) -> u64;
    fn home_numbers(store: &[u8]) -> u64;
    fn system_code(store: &[u8]) -> u64;
    fn report(query: &[u8], index: u32, store: &[u8], buffer: &mut [u8]) -> u64;
}

/// The archive takes every length as 64 bits, on every processor.
fn length(lent: &[u8]) -> u64 {
    lent.len() as u64
}

/// The functions of an archive, whose names differ from another's in how they begin.
macro_rules! archive {
    ($kind:ty, $begin:literal) => {
        const _: () = {
            unsafe extern "C" {
                #[link_name = concat!($begin, "start")]
                fn start(store: *mut u8, store_length: u64) -> u32;
                #[link_name = concat!($begin, "judge")]
                fn judge(
                    message: *const u8,
                    message_length: u64,
                    store: *const u8,
                    store_length: u64,
                    reply: *mut u8,
                    reply_length: u64,
                ) -> u64;
                #[link_name = concat!($begin, "commit")]
                fn commit(
                    message: *const u8,
                    message_length: u64,
                    store: *mut u8,
                    store_length: u64,
                    reply: *mut u8,
                    reply_length: u64,
                ) -> u64;
                #[link_name = concat!($begin, "export")]
                fn export(
                    part: u32,
                    store: *const u8,
                    store_length: u64,
                    buffer: *mut u8,
                    buffer_length: u64,
                ) -> u64;
                #[link_name = concat!($begin, "row_number")]
                fn row_number(
                    table: u32,
                    row: u32,
                    store: *const u8,
                    store_length: u64,
                    scratch: *const u8,
                    scratch_length: u64,
                ) -> u32;
                #[link_name = concat!($begin, "row_part")]
                fn row_part(
                    table: u32,
                    row: u32,
                    store: *const u8,
                    store_length: u64,
                    scratch: *mut u8,
                    scratch_length: u64,
                ) -> u64;
                #[link_name = concat!($begin, "counts")]
                fn counts(store: *const u8, store_length: u64) -> u64;
                #[link_name = concat!($begin, "line_of")]
                fn line_of(
                    id_type: u32,
                    digits: *const u8,
                    digits_length: u64,
                    store: *const u8,
                    store_length: u64,
                ) -> u64;
                #[link_name = concat!($begin, "entry")]
                fn entry(table: u32, index: u32, store: *const u8, store_length: u64) -> u64;
                #[link_name = concat!($begin, "entry_digits")]
                fn entry_digits(
                    table: u32,
                    index: u32,
                    store: *const u8,
                    store_length: u64,
                    digits: *mut u8,
                    digits_length: u64,
                ) -> u64;
                #[link_name = concat!($begin, "channel")]
                fn channel(position: u32, store: *const u8, store_length: u64) -> u64;
                #[link_name = concat!($begin, "emergency_key")]
                fn emergency_key(store: *const u8, store_length: u64) -> u64;
                #[link_name = concat!($begin, "home_numbers")]
                fn home_numbers(store: *const u8, store_length: u64) -> u64;
                #[link_name = concat!($begin, "system_code")]
                fn system_code(store: *const u8, store_length: u64) -> u64;
                #[link_name = concat!($begin, "report")]
                fn report(
                    query: *const u8,
                    query_length: u64,
                    index: u32,
                    store: *const u8,
                    store_length: u64,
                    buffer: *mut u8,
                    buffer_length: u64,
                ) -> u64;
            }

            impl Calls for $kind {
                fn start(store: &mut [u8]) -> u32 {
                    // SAFETY: the slice is live and ours alone for the call, which stays within its length.
                    unsafe { start(store.as_mut_ptr(), length(store)) }
                }

                fn judge(message: &[u8], store: &[u8], reply: &mut [u8]) -> u64 {
                    let (m, s, r) = (message.as_ptr(), store.as_ptr(), reply.as_mut_ptr());
                    // SAFETY: the slices are live for the call, and the store and the message, only read, do not overlap the reply.
                    unsafe { judge(m, length(message), s, length(store), r, length(reply)) }
                }

                fn commit(message: &[u8], store: &mut [u8], reply: &mut [u8]) -> u64 {
                    let (m, s, r) = (message.as_ptr(), store.as_mut_ptr(), reply.as_mut_ptr());
                    // SAFETY: the slices are live for the call, and no borrow overlaps one that may be written.
                    unsafe { commit(m, length(message), s, length(store), r, length(reply)) }
                }

                fn export(part: u32, store: &[u8], buffer: &mut [u8]) -> u64 {
                    let (s, b) = (store.as_ptr(), buffer.as_mut_ptr());
                    // SAFETY: the slices are live for the call, and the store, only read, does not overlap the buffer.
                    unsafe { export(part, s, length(store), b, length(buffer)) }
                }

                fn row_number(table: u32, row: u32, store: &[u8], scratch: &[u8]) -> u32 {
                    let (s, w) = (store.as_ptr(), scratch.as_ptr());
                    // SAFETY: the slices are live for the call, which only reads them.
                    unsafe { row_number(table, row, s, length(store), w, length(scratch)) }
                }

                fn row_part(table: u32, row: u32, store: &[u8], scratch: &mut [u8]) -> u64 {
                    let (s, w) = (store.as_ptr(), scratch.as_mut_ptr());
                    // SAFETY: the slices are live for the call, and the store, only read, does not overlap the scratch.
                    unsafe { row_part(table, row, s, length(store), w, length(scratch)) }
                }

                fn counts(store: &[u8]) -> u64 {
                    // SAFETY: the slice is live for the call, which only reads it.
                    unsafe { counts(store.as_ptr(), length(store)) }
                }

                fn line_of(id_type: u32, digits: &[u8], store: &[u8]) -> u64 {
                    let (d, s) = (digits.as_ptr(), store.as_ptr());
                    // SAFETY: the slices are live for the call, which only reads them.
                    unsafe { line_of(id_type, d, length(digits), s, length(store)) }
                }

                fn entry(table: u32, index: u32, store: &[u8]) -> u64 {
                    // SAFETY: the slice is live for the call, which only reads it.
                    unsafe { entry(table, index, store.as_ptr(), length(store)) }
                }

                fn entry_digits(table: u32, index: u32, store: &[u8], digits: &mut [u8]) -> u64 {
                    let (s, d) = (store.as_ptr(), digits.as_mut_ptr());
                    // SAFETY: the slices are live for the call, and the store, only read, does not overlap the digits.
                    unsafe { entry_digits(table, index, s, length(store), d, length(digits)) }
                }

                fn channel(position: u32, store: &[u8]) -> u64 {
                    // SAFETY: the slice is live for the call, which only reads it.
                    unsafe { channel(position, store.as_ptr(), length(store)) }
                }

                fn emergency_key(store: &[u8]) -> u64 {
                    // SAFETY: as above.
                    unsafe { emergency_key(store.as_ptr(), length(store)) }
                }

                fn home_numbers(store: &[u8]) -> u64 {
                    // SAFETY: as above.
                    unsafe { home_numbers(store.as_ptr(), length(store)) }
                }

                fn system_code(store: &[u8]) -> u64 {
                    // SAFETY: as above.
                    unsafe { system_code(store.as_ptr(), length(store)) }
                }

                fn report(query: &[u8], index: u32, store: &[u8], buffer: &mut [u8]) -> u64 {
                    let (q, s, b) = (query.as_ptr(), store.as_ptr(), buffer.as_mut_ptr());
                    // SAFETY: the slices are live for the call, and the query and the store, only read, do not overlap the buffer.
                    unsafe { report(q, length(query), index, s, length(store), b, length(buffer)) }
                }
            }
        };
    };
}

archive!(Handheld, "otap_");
#[cfg(feature = "vehicle")]
archive!(Vehicle, "otap_vehicle_");

unsafe extern "C" {
    // These have no buffers, so that every call is sound; they are no set's, and in the hand-held's archive alone.
    pub safe fn otap_individual_of_dialled(dialled: u32) -> u64;
    pub safe fn otap_group_of_dialled(dialled: u32) -> u64;
    pub safe fn otap_dialled_of_individual(address: u32) -> u64;
    pub safe fn otap_dialled_of_group(address: u32) -> u64;
    pub safe fn otap_transmit(channel: u32) -> u64;
    pub safe fn otap_receive(channel: u32) -> u64;
    pub safe fn otap_channel_of_transmit(frequency: u32) -> u64;
}

#[cfg(feature = "office")]
pub use office::{report_entry, report_places, OfficeCalls};

#[cfg(feature = "office")]
mod office {
    use super::length;
    use crate::kinds::{Handheld, Vehicle};

    /// The functions of the office's archive that go by a kind's sizes.
    pub trait OfficeCalls {
        fn read_report(message: &[u8]) -> u64;
        fn join(first: &[u8], second: &[u8], buffer: &mut [u8]) -> u64;
        fn check_update(first: &[u8], second: &[u8], request: &[u8]) -> u64;
        fn propose(first: &[u8], second: &[u8], buffer: &mut [u8]) -> u64;
    }

    /// Those of a kind, by how their names begin.
    macro_rules! office {
        ($kind:ty, $begin:literal) => {
            const _: () = {
                unsafe extern "C" {
                    #[link_name = concat!($begin, "read_report")]
                    fn read_report(message: *const u8, message_length: u64) -> u64;
                    #[link_name = concat!($begin, "join")]
                    fn join(
                        first: *const u8,
                        first_length: u64,
                        second: *const u8,
                        second_length: u64,
                        buffer: *mut u8,
                        buffer_length: u64,
                    ) -> u64;
                    #[link_name = concat!($begin, "check_update")]
                    fn check_update(
                        first: *const u8,
                        first_length: u64,
                        second: *const u8,
                        second_length: u64,
                        request: *const u8,
                        request_length: u64,
                    ) -> u64;
                    #[link_name = concat!($begin, "propose")]
                    fn propose(
                        first: *const u8,
                        first_length: u64,
                        second: *const u8,
                        second_length: u64,
                        buffer: *mut u8,
                        buffer_length: u64,
                    ) -> u64;
                }

                impl OfficeCalls for $kind {
                    fn read_report(message: &[u8]) -> u64 {
                        // SAFETY: the slice is live for the call, which only reads it.
                        unsafe { read_report(message.as_ptr(), length(message)) }
                    }

                    fn join(first: &[u8], second: &[u8], buffer: &mut [u8]) -> u64 {
                        let (f, s, b) = (first.as_ptr(), second.as_ptr(), buffer.as_mut_ptr());
                        // SAFETY: the slices are live for the call, and the two requests, only read, do not overlap the buffer.
                        unsafe { join(f, length(first), s, length(second), b, length(buffer)) }
                    }

                    fn check_update(first: &[u8], second: &[u8], request: &[u8]) -> u64 {
                        let (f, s, r) = (first.as_ptr(), second.as_ptr(), request.as_ptr());
                        let (first, second, request) =
                            (length(first), length(second), length(request));
                        // SAFETY: the slices are live for the call, which only reads them.
                        unsafe { check_update(f, first, s, second, r, request) }
                    }

                    fn propose(first: &[u8], second: &[u8], buffer: &mut [u8]) -> u64 {
                        let (f, s, b) = (first.as_ptr(), second.as_ptr(), buffer.as_mut_ptr());
                        // SAFETY: the slices are live for the call, and the two stores, only read, do not overlap the buffer.
                        unsafe { propose(f, length(first), s, length(second), b, length(buffer)) }
                    }
                }
            };
        };
    }

    office!(Handheld, "otap_");
    office!(Vehicle, "otap_vehicle_");

    unsafe extern "C" {
        fn otap_report_entry(message: *const u8, message_length: u64, at: u32) -> u64;
        fn otap_report_places(message: *const u8, message_length: u64, at: u32) -> u64;
    }

    pub fn report_entry(message: &[u8], at: u32) -> u64 {
        // SAFETY: the slice is live for the call, which only reads it.
        unsafe { otap_report_entry(message.as_ptr(), length(message), at) }
    }

    pub fn report_places(message: &[u8], at: u32) -> u64 {
        // SAFETY: as above.
        unsafe { otap_report_places(message.as_ptr(), length(message), at) }
    }
}

#[cfg(feature = "desk")]
pub mod desk {
    //! The functions of the desk's archive.
    use super::length;

    unsafe extern "C" {
        fn otap_plain_start(area: *mut u8, area_length: u64) -> u32;
        fn otap_plain_take(
            message: *const u8,
            message_length: u64,
            area: *mut u8,
            area_length: u64,
            reply: *mut u8,
            reply_length: u64,
        ) -> u64;
        fn otap_plain_row_number(
            table: u32,
            row: u32,
            area: *const u8,
            area_length: u64,
            scratch: *const u8,
            scratch_length: u64,
        ) -> u32;
        fn otap_plain_row_part(
            table: u32,
            row: u32,
            area: *const u8,
            area_length: u64,
            scratch: *mut u8,
            scratch_length: u64,
        ) -> u64;
    }

    pub fn start(area: &mut [u8]) -> u32 {
        // SAFETY: the slice is live and ours alone for the call, which stays within its length.
        unsafe { otap_plain_start(area.as_mut_ptr(), length(area)) }
    }

    pub fn take(message: &[u8], area: &mut [u8], reply: &mut [u8]) -> u64 {
        let (m, a, r) = (message.as_ptr(), area.as_mut_ptr(), reply.as_mut_ptr());
        // SAFETY: the slices are live for the call, and no borrow overlaps one that may be written.
        unsafe { otap_plain_take(m, length(message), a, length(area), r, length(reply)) }
    }

    pub fn row_number(table: u32, row: u32, area: &[u8], scratch: &[u8]) -> u32 {
        let (a, w) = (area.as_ptr(), scratch.as_ptr());
        // SAFETY: the slices are live for the call, which only reads them.
        unsafe { otap_plain_row_number(table, row, a, length(area), w, length(scratch)) }
    }

    pub fn row_part(table: u32, row: u32, area: &[u8], scratch: &mut [u8]) -> u64 {
        let (a, w) = (area.as_ptr(), scratch.as_mut_ptr());
        // SAFETY: the slices are live for the call, and the area, only read, does not overlap the scratch.
        unsafe { otap_plain_row_part(table, row, a, length(area), w, length(scratch)) }
    }
}
