//! C functions themselves, for the numbers of parts and tables that the face has no name for, and for bits that it passes over.
#![allow(unsafe_code)]

use otap::{Handheld, Vehicle};

/// The functions of a kind of set, in its own archive and in the office's.
pub trait Raw {
    fn otap_export(part: u32, store: &[u8], buffer: &mut [u8]) -> u64;
    fn otap_row_number(table: u32, row: u32, store: &[u8], scratch: &[u8]) -> u32;
    fn otap_row_part(table: u32, row: u32, store: &[u8], scratch: &mut [u8]) -> u64;
    fn otap_counts(store: &[u8]) -> u64;
    fn otap_line_of(id_type: u32, digits: &[u8], store: &[u8]) -> u64;
    fn otap_entry(table: u32, index: u32, store: &[u8]) -> u64;
    fn otap_entry_digits(table: u32, index: u32, store: &[u8], digits: &mut [u8]) -> u64;
    fn otap_channel(position: u32, store: &[u8]) -> u64;
    fn otap_emergency_key(store: &[u8]) -> u64;
    fn otap_home_numbers(store: &[u8]) -> u64;
    fn otap_system_code(store: &[u8]) -> u64;
    fn otap_report(query: &[u8], index: u32, store: &[u8], buffer: &mut [u8]) -> u64;
    fn otap_read_report(message: &[u8]) -> u64;
    fn otap_join(first: &[u8], second: &[u8], buffer: &mut [u8]) -> u64;
    fn otap_check_update(first: &[u8], second: &[u8], request: &[u8]) -> u64;
    fn otap_propose(first: &[u8], second: &[u8], buffer: &mut [u8]) -> u64;
}

/// Those of one kind, by how their names begin.
macro_rules! raw {
    ($kind:ty, $begin:literal) => {
        const _: () = {
            unsafe extern "C" {
                #[link_name = concat!($begin, "export")]
                fn export(
                    part: u32,
                    store: *const u8,
                    store_length: u64,
                    buffer: *mut u8,
                    length: u64,
                ) -> u64;
                #[link_name = concat!($begin, "row_number")]
                fn row_number(
                    table: u32,
                    row: u32,
                    store: *const u8,
                    store_length: u64,
                    scratch: *const u8,
                    length: u64,
                ) -> u32;
                #[link_name = concat!($begin, "row_part")]
                fn row_part(
                    table: u32,
                    row: u32,
                    store: *const u8,
                    store_length: u64,
                    scratch: *mut u8,
                    length: u64,
                ) -> u64;
                #[link_name = concat!($begin, "counts")]
                fn counts(store: *const u8, store_length: u64) -> u64;
                #[link_name = concat!($begin, "line_of")]
                fn line_of(
                    id_type: u32,
                    digits: *const u8,
                    length: u64,
                    store: *const u8,
                    store_length: u64,
                ) -> u64;
                #[link_name = concat!($begin, "entry")]
                fn entry(table: u32, index: u32, store: *const u8, store_length: u64) -> u64;
                #[link_name = concat!($begin, "entry_digits")]
                fn entry_digits(
                    table: u32,
                    index: u32,
                    store: *const u8,
                    store_length: u64,
                    digits: *mut u8,
                    length: u64,
                ) -> u64;
                #[link_name = concat!($begin, "channel")]
                fn channel(position: u32, store: *const u8, store_length: u64) -> u64;
                #[link_name = concat!($begin, "emergency_key")]
                fn emergency_key(store: *const u8, store_length: u64) -> u64;
                #[link_name = concat!($begin, "home_numbers")]
                fn home_numbers(store: *const u8, store_length: u64) -> u64;
                #[link_name = concat!($begin, "system_code")]
                fn system_code(store: *const u8, store_length: u64) -> u64;
                #[link_name = concat!($begin, "report")]
                fn report(
                    query: *const u8,
                    query_length: u64,
                    index: u32,
                    store: *const u8,
                    store_length: u64,
                    buffer: *mut u8,
                    length: u64,
                ) -> u64;
                #[link_name = concat!($begin, "read_report")]
                fn read_report(message: *const u8, length: u64) -> u64;
                #[link_name = concat!($begin, "join")]
                fn join(
                    first: *const u8,
                    first_length: u64,
                    second: *const u8,
                    second_length: u64,
                    buffer: *mut u8,
                    length: u64,
                ) -> u64;
                #[link_name = concat!($begin, "check_update")]
                fn check_update(
                    first: *const u8,
                    first_length: u64,
                    second: *const u8,
                    second_length: u64,
                    request: *const u8,
                    length: u64,
                ) -> u64;
                #[link_name = concat!($begin, "propose")]
                fn propose(
                    first: *const u8,
                    first_length: u64,
                    second: *const u8,
                    second_length: u64,
                    buffer: *mut u8,
                    length: u64,
                ) -> u64;
            }

            impl Raw for $kind {
                fn otap_export(part: u32, store: &[u8], buffer: &mut [u8]) -> u64 {
                    let (store_length, length) = (store.len() as u64, buffer.len() as u64);
                    // SAFETY: the slices are live for the call and do not overlap.
                    unsafe {
                        export(part, store.as_ptr(), store_length, buffer.as_mut_ptr(), length)
                    }
                }

                fn otap_row_number(table: u32, row: u32, store: &[u8], scratch: &[u8]) -> u32 {
                    let (store_length, length) = (store.len() as u64, scratch.len() as u64);
                    // SAFETY: the slices are live for the call, which only reads them.
                    unsafe {
                        row_number(
                            table,
                            row,
                            store.as_ptr(),
                            store_length,
                            scratch.as_ptr(),
                            length,
                        )
                    }
                }

                fn otap_row_part(table: u32, row: u32, store: &[u8], scratch: &mut [u8]) -> u64 {
                    let (store_length, length) = (store.len() as u64, scratch.len() as u64);
                    // SAFETY: the slices are live for the call and do not overlap.
                    unsafe {
                        row_part(
                            table,
                            row,
                            store.as_ptr(),
                            store_length,
                            scratch.as_mut_ptr(),
                            length,
                        )
                    }
                }

                fn otap_counts(store: &[u8]) -> u64 {
                    // SAFETY: the slice is live for the call, which only reads it.
                    unsafe { counts(store.as_ptr(), store.len() as u64) }
                }

                fn otap_line_of(id_type: u32, digits: &[u8], store: &[u8]) -> u64 {
                    let (length, store_length) = (digits.len() as u64, store.len() as u64);
                    // SAFETY: the slices are live for the call, which only reads them.
                    unsafe {
                        line_of(id_type, digits.as_ptr(), length, store.as_ptr(), store_length)
                    }
                }

                fn otap_entry(table: u32, index: u32, store: &[u8]) -> u64 {
                    // SAFETY: the slice is live for the call, which only reads it.
                    unsafe { entry(table, index, store.as_ptr(), store.len() as u64) }
                }

                fn otap_entry_digits(
                    table: u32,
                    index: u32,
                    store: &[u8],
                    digits: &mut [u8],
                ) -> u64 {
                    let (store_length, length) = (store.len() as u64, digits.len() as u64);
                    let (store, digits) = (store.as_ptr(), digits.as_mut_ptr());
                    // SAFETY: the slices are live for the call and do not overlap.
                    unsafe { entry_digits(table, index, store, store_length, digits, length) }
                }

                fn otap_channel(position: u32, store: &[u8]) -> u64 {
                    // SAFETY: the slice is live for the call, which only reads it.
                    unsafe { channel(position, store.as_ptr(), store.len() as u64) }
                }

                fn otap_emergency_key(store: &[u8]) -> u64 {
                    // SAFETY: as above.
                    unsafe { emergency_key(store.as_ptr(), store.len() as u64) }
                }

                fn otap_home_numbers(store: &[u8]) -> u64 {
                    // SAFETY: as above.
                    unsafe { home_numbers(store.as_ptr(), store.len() as u64) }
                }

                fn otap_system_code(store: &[u8]) -> u64 {
                    // SAFETY: as above.
                    unsafe { system_code(store.as_ptr(), store.len() as u64) }
                }

                fn otap_report(query: &[u8], index: u32, store: &[u8], buffer: &mut [u8]) -> u64 {
                    let (query_length, store_length) = (query.len() as u64, store.len() as u64);
                    let (query, store, length) =
                        (query.as_ptr(), store.as_ptr(), buffer.len() as u64);
                    let buffer = buffer.as_mut_ptr();
                    // SAFETY: the slices are live for the call and do not overlap.
                    unsafe {
                        report(query, query_length, index, store, store_length, buffer, length)
                    }
                }

                fn otap_read_report(message: &[u8]) -> u64 {
                    // SAFETY: the slice is live for the call, which only reads it.
                    unsafe { read_report(message.as_ptr(), message.len() as u64) }
                }

                fn otap_join(first: &[u8], second: &[u8], buffer: &mut [u8]) -> u64 {
                    let (first_length, second_length) = (first.len() as u64, second.len() as u64);
                    let (first, second, length) =
                        (first.as_ptr(), second.as_ptr(), buffer.len() as u64);
                    let buffer = buffer.as_mut_ptr();
                    // SAFETY: the slices are live for the call, and the buffer overlaps neither request.
                    unsafe { join(first, first_length, second, second_length, buffer, length) }
                }

                fn otap_check_update(first: &[u8], second: &[u8], request: &[u8]) -> u64 {
                    let (first_length, second_length) = (first.len() as u64, second.len() as u64);
                    let (first, second, length) =
                        (first.as_ptr(), second.as_ptr(), request.len() as u64);
                    let request = request.as_ptr();
                    // SAFETY: the slices are live for the call, which only reads them.
                    unsafe {
                        check_update(first, first_length, second, second_length, request, length)
                    }
                }

                fn otap_propose(first: &[u8], second: &[u8], buffer: &mut [u8]) -> u64 {
                    let (first_length, second_length) = (first.len() as u64, second.len() as u64);
                    let (first, second, length) =
                        (first.as_ptr(), second.as_ptr(), buffer.len() as u64);
                    let buffer = buffer.as_mut_ptr();
                    // SAFETY: the slices are live for the call, and the buffer overlaps neither store.
                    unsafe { propose(first, first_length, second, second_length, buffer, length) }
                }
            }
        };
    };
}

raw!(Handheld, "otap_");
raw!(Vehicle, "otap_vehicle_");

unsafe extern "C" {
    fn otap_report_entry(message: *const u8, length: u64, at: u32) -> u64;
    fn otap_report_places(message: *const u8, length: u64, at: u32) -> u64;
}

pub fn report_entry(message: &[u8], at: u32) -> u64 {
    // SAFETY: the slice is live for the call, which only reads it.
    unsafe { otap_report_entry(message.as_ptr(), message.len() as u64, at) }
}

pub fn report_places(message: &[u8], at: u32) -> u64 {
    // SAFETY: as above.
    unsafe { otap_report_places(message.as_ptr(), message.len() as u64, at) }
}

unsafe extern "C" {
    fn otap_plain_start(area: *mut u8, length: u64) -> u32;
    fn otap_plain_take(
        message: *const u8,
        message_length: u64,
        area: *mut u8,
        area_length: u64,
        reply: *mut u8,
        length: u64,
    ) -> u64;
    fn otap_plain_row_number(
        table: u32,
        row: u32,
        area: *const u8,
        area_length: u64,
        scratch: *const u8,
        length: u64,
    ) -> u32;
    fn otap_plain_row_part(
        table: u32,
        row: u32,
        area: *const u8,
        area_length: u64,
        scratch: *mut u8,
        length: u64,
    ) -> u64;
}

pub fn plain_start(area: &mut [u8]) -> u32 {
    // SAFETY: the slice is live for the call, and its own.
    unsafe { otap_plain_start(area.as_mut_ptr(), area.len() as u64) }
}

pub fn plain_take(message: &[u8], area: &mut [u8], reply: &mut [u8]) -> u64 {
    let (message_length, area_length) = (message.len() as u64, area.len() as u64);
    let (message, area, length) = (message.as_ptr(), area.as_mut_ptr(), reply.len() as u64);
    let reply = reply.as_mut_ptr();
    // SAFETY: the slices are live for the call and do not overlap.
    unsafe { otap_plain_take(message, message_length, area, area_length, reply, length) }
}

pub fn plain_row_number(table: u32, row: u32, area: &[u8], scratch: &[u8]) -> u32 {
    let (area_length, length) = (area.len() as u64, scratch.len() as u64);
    let (area, scratch) = (area.as_ptr(), scratch.as_ptr());
    // SAFETY: the slices are live for the call, which only reads them.
    unsafe { otap_plain_row_number(table, row, area, area_length, scratch, length) }
}

pub fn plain_row_part(table: u32, row: u32, area: &[u8], scratch: &mut [u8]) -> u64 {
    let (area_length, length) = (area.len() as u64, scratch.len() as u64);
    let (area, scratch) = (area.as_ptr(), scratch.as_mut_ptr());
    // SAFETY: the slices are live for the call and do not overlap.
    unsafe { otap_plain_row_part(table, row, area, area_length, scratch, length) }
}
