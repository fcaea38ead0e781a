// SPDX-License-Identifier: Apache-2.0 AND BSD-3-Clause
//! What the static library exports, as `bindings/c/jambcopper.h` has it, with slices in the place of pointers and lengths. Every
//! function answers a number (docs/RULES.md, R1), and any slice of any length and contents is allowed.

use std::mem::MaybeUninit;

pub const RECORD_WORDS: usize = 15;
pub const QUEUE_WORDS: usize = 6;
pub const ANSWER_WORDS: usize = 9;
pub const REQUEST_BYTES: usize = 24;
pub const RESPONSE_BYTES: usize = 10;
pub const RESPONSE_WORDS: usize = 2;
pub const CONFIG_BYTES: usize = 56;
pub const CONFIG_WORDS: usize = 7;
pub const PLUG_WORDS: usize = 2;
pub const SAVE_FIELDS: usize = 6;
pub const SAVE_SCRATCH: usize = 32_768;
pub const SAVE_MAX_TEXT_BYTES: usize = 1_648_502;
pub const SAVE_MAX_OLD_BYTES: usize = 262_144;

/// The kinds of a pending host call, word 11 of the record.
pub const PENDING_NOTHING: u64 = 0;
pub const PENDING_CREATE: u64 = 1;
pub const PENDING_DISCARD: u64 = 2;
pub const PENDING_DISCARD_ONE: u64 = 3;

/// Kinds of an answer, word 0: the host is to discard, the request has ended, the available ring has no head.
pub const KIND_DISCARD: u64 = 2;
pub const KIND_SERVED: u64 = 5;
pub const KIND_EMPTY: u64 = 7;

/// The word of an answer that has the used length.
pub const ANSWER_LENGTH: usize = 7;

/// The functions as C has them.
mod c {
    extern "C" {
        pub fn jambcopper_make(
            record: *mut u64,
            record_words: usize,
            capacity_mib: u64,
            requested_mib: u64,
            several: bool,
            node_given: bool,
            node: u16,
            boot: u64,
        ) -> u64;
        pub fn jambcopper_place(
            record: *mut u64,
            record_words: usize,
            bitmap: *mut u8,
            bitmap_bytes: usize,
            table: *mut u64,
            table_words: usize,
            start: u64,
            size: u64,
            slots: *const u32,
            slot_count: usize,
            answer: *mut u64,
            answer_words: usize,
        ) -> u64;
        pub fn jambcopper_set_requested_size(
            record: *mut u64,
            record_words: usize,
            bitmap: *const u8,
            bitmap_bytes: usize,
            table: *const u64,
            table_words: usize,
            requested_mib: u64,
            answer: *mut u64,
            answer_words: usize,
        ) -> u64;
        pub fn jambcopper_request(
            record: *mut u64,
            record_words: usize,
            bitmap: *mut u8,
            bitmap_bytes: usize,
            table: *const u64,
            table_words: usize,
            mem: *mut u8,
            mem_bytes: usize,
            base: u64,
            descriptors: u64,
            head: u16,
            answer: *mut u64,
            answer_words: usize,
        ) -> u64;
        pub fn jambcopper_host_answer(
            record: *mut u64,
            record_words: usize,
            bitmap: *mut u8,
            bitmap_bytes: usize,
            table: *mut u64,
            table_words: usize,
            mem: *mut u8,
            mem_bytes: usize,
            base: u64,
            ok: bool,
            host: u64,
            answer: *mut u64,
            answer_words: usize,
        ) -> u64;
        pub fn jambcopper_queue_make(
            queue: *mut u64,
            queue_words: usize,
            descriptors: u64,
            available: u64,
            used: u64,
        ) -> u64;
        pub fn jambcopper_serve(
            record: *mut u64,
            record_words: usize,
            queue: *mut u64,
            queue_words: usize,
            bitmap: *mut u8,
            bitmap_bytes: usize,
            table: *const u64,
            table_words: usize,
            mem: *mut u8,
            mem_bytes: usize,
            base: u64,
            answer: *mut u64,
            answer_words: usize,
        ) -> u64;
        pub fn jambcopper_serve_answer(
            record: *mut u64,
            record_words: usize,
            queue: *mut u64,
            queue_words: usize,
            bitmap: *mut u8,
            bitmap_bytes: usize,
            table: *mut u64,
            table_words: usize,
            mem: *mut u8,
            mem_bytes: usize,
            base: u64,
            ok: bool,
            host: u64,
            answer: *mut u64,
            answer_words: usize,
        ) -> u64;
        pub fn jambcopper_read_config(
            record: *const u64,
            record_words: usize,
            offset: u64,
            data: *mut u8,
            data_bytes: usize,
        ) -> u64;
        pub fn jambcopper_write_config(
            record: *const u64,
            record_words: usize,
            offset: u64,
            data: *const u8,
            data_bytes: usize,
        ) -> u64;
        pub fn jambcopper_driver_write_request(
            bytes: *mut u8,
            byte_count: usize,
            request_type: u16,
            address: u64,
            blocks: u16,
        ) -> u64;
        pub fn jambcopper_driver_read_response(
            bytes: *const u8,
            byte_count: usize,
            response: *mut u64,
            response_words: usize,
        ) -> u64;
        pub fn jambcopper_driver_read_config(
            bytes: *const u8,
            byte_count: usize,
            config: *mut u64,
            config_words: usize,
        ) -> u64;
        pub fn jambcopper_driver_plan(
            config: *const u8,
            config_bytes: usize,
            bitmap: *const u8,
            bitmap_bytes: usize,
            plug: *mut u64,
            plug_words: usize,
        ) -> u64;
        pub fn jambcopper_save_length(
            record: *const u64,
            record_words: usize,
            bitmap: *const u8,
            bitmap_bytes: usize,
            length: *mut u64,
            length_words: usize,
        ) -> u64;
        pub fn jambcopper_save(
            record: *const u64,
            record_words: usize,
            bitmap: *const u8,
            bitmap_bytes: usize,
            text: *mut u8,
            text_bytes: usize,
            length: *mut u64,
            length_words: usize,
        ) -> u64;
        pub fn jambcopper_restore(
            record: *mut u64,
            record_words: usize,
            bitmap: *mut u8,
            bitmap_bytes: usize,
            text: *const u8,
            text_bytes: usize,
        ) -> u64;
        pub fn jambcopper_old_to_new(
            fields: *const u64,
            field_words: usize,
            old: *const u8,
            old_bytes: usize,
            scratch: *mut u8,
            scratch_bytes: usize,
            text: *mut u8,
            text_bytes: usize,
            length: *mut u64,
            length_words: usize,
        ) -> u64;
        pub fn jambcopper_new_to_old(
            text: *const u8,
            text_bytes: usize,
            scratch: *mut u8,
            scratch_bytes: usize,
            old: *mut u8,
            old_bytes: usize,
            fields: *mut u64,
            field_words: usize,
        ) -> u64;
    }
}

/// The memory that a device works on: its record, its bitmap and its map table.
pub struct Lent<'a> {
    pub record: &'a mut [u64],
    pub bitmap: &'a mut [u8],
    pub table: &'a mut [u64],
}

// SAFETY, for every call below: each pointer and length is one live slice, no two of them overlap where one is written, and the
// functions are proved to touch nothing else.

#[inline]
pub fn make(
    record: &mut [u64],
    capacity_mib: u64,
    requested_mib: u64,
    several: bool,
    node_given: bool,
    node: u16,
    boot: u64,
) -> u64 {
    unsafe {
        c::jambcopper_make(
            record.as_mut_ptr(),
            record.len(),
            capacity_mib,
            requested_mib,
            several,
            node_given,
            node,
            boot,
        )
    }
}

#[inline]
pub fn queue_make(queue: &mut [u64], descriptors: u64, available: u64, used: u64) -> u64 {
    unsafe {
        c::jambcopper_queue_make(
            queue.as_mut_ptr(),
            queue.len(),
            descriptors,
            available,
            used,
        )
    }
}

/// Memory, all of which is written.
///
/// # Safety
/// Only the library gets it, which leaves every byte written.
unsafe fn all_written(mem: &mut [u8]) -> &mut [MaybeUninit<u8>] {
    &mut *(mem as *mut [u8] as *mut [MaybeUninit<u8>])
}

impl Lent<'_> {
    #[inline]
    pub fn place(self, start: u64, size: u64, slots: &[u32], answer: &mut [u64]) -> u64 {
        unsafe {
            c::jambcopper_place(
                self.record.as_mut_ptr(),
                self.record.len(),
                self.bitmap.as_mut_ptr(),
                self.bitmap.len(),
                self.table.as_mut_ptr(),
                self.table.len(),
                start,
                size,
                slots.as_ptr(),
                slots.len(),
                answer.as_mut_ptr(),
                answer.len(),
            )
        }
    }

    #[inline]
    pub fn set_requested_size(self, requested_mib: u64, answer: &mut [u64]) -> u64 {
        unsafe {
            c::jambcopper_set_requested_size(
                self.record.as_mut_ptr(),
                self.record.len(),
                self.bitmap.as_ptr(),
                self.bitmap.len(),
                self.table.as_ptr(),
                self.table.len(),
                requested_mib,
                answer.as_mut_ptr(),
                answer.len(),
            )
        }
    }

    #[inline]
    pub fn request(
        self,
        mem: &mut [u8],
        base: u64,
        descriptors: u64,
        head: u16,
        answer: &mut [u64],
    ) -> u64 {
        unsafe {
            c::jambcopper_request(
                self.record.as_mut_ptr(),
                self.record.len(),
                self.bitmap.as_mut_ptr(),
                self.bitmap.len(),
                self.table.as_ptr(),
                self.table.len(),
                mem.as_mut_ptr(),
                mem.len(),
                base,
                descriptors,
                head,
                answer.as_mut_ptr(),
                answer.len(),
            )
        }
    }

    #[inline]
    pub fn host_answer(
        self,
        mem: &mut [u8],
        base: u64,
        ok: bool,
        host: u64,
        answer: &mut [u64],
    ) -> u64 {
        unsafe {
            c::jambcopper_host_answer(
                self.record.as_mut_ptr(),
                self.record.len(),
                self.bitmap.as_mut_ptr(),
                self.bitmap.len(),
                self.table.as_mut_ptr(),
                self.table.len(),
                mem.as_mut_ptr(),
                mem.len(),
                base,
                ok,
                host,
                answer.as_mut_ptr(),
                answer.len(),
            )
        }
    }

    #[inline]
    pub fn serve(self, queue: &mut [u64], mem: &mut [u8], base: u64, answer: &mut [u64]) -> u64 {
        unsafe { self.serve_at(queue, all_written(mem), base, answer) }
    }

    /// As `serve`, in memory of which some bytes may not be written yet.
    ///
    /// # Safety
    /// What the call reads of it is written.
    #[inline]
    pub unsafe fn serve_at(
        self,
        queue: &mut [u64],
        mem: &mut [MaybeUninit<u8>],
        base: u64,
        answer: &mut [u64],
    ) -> u64 {
        c::jambcopper_serve(
            self.record.as_mut_ptr(),
            self.record.len(),
            queue.as_mut_ptr(),
            queue.len(),
            self.bitmap.as_mut_ptr(),
            self.bitmap.len(),
            self.table.as_ptr(),
            self.table.len(),
            mem.as_mut_ptr().cast(),
            mem.len(),
            base,
            answer.as_mut_ptr(),
            answer.len(),
        )
    }

    #[inline]
    pub fn serve_answer(
        self,
        queue: &mut [u64],
        mem: &mut [u8],
        base: u64,
        ok: bool,
        host: u64,
        answer: &mut [u64],
    ) -> u64 {
        unsafe { self.serve_answer_at(queue, all_written(mem), base, ok, host, answer) }
    }

    /// As `serve_answer`, in memory of which some bytes may not be written yet.
    ///
    /// # Safety
    /// What the call reads of it, which is nothing, is written.
    #[inline]
    pub unsafe fn serve_answer_at(
        self,
        queue: &mut [u64],
        mem: &mut [MaybeUninit<u8>],
        base: u64,
        ok: bool,
        host: u64,
        answer: &mut [u64],
    ) -> u64 {
        c::jambcopper_serve_answer(
            self.record.as_mut_ptr(),
            self.record.len(),
            queue.as_mut_ptr(),
            queue.len(),
            self.bitmap.as_mut_ptr(),
            self.bitmap.len(),
            self.table.as_mut_ptr(),
            self.table.len(),
            mem.as_mut_ptr().cast(),
            mem.len(),
            base,
            ok,
            host,
            answer.as_mut_ptr(),
            answer.len(),
        )
    }
}

#[inline]
pub fn read_config(record: &[u64], offset: u64, data: &mut [u8]) -> u64 {
    unsafe {
        c::jambcopper_read_config(
            record.as_ptr(),
            record.len(),
            offset,
            data.as_mut_ptr(),
            data.len(),
        )
    }
}

#[inline]
pub fn write_config(record: &[u64], offset: u64, data: &[u8]) -> u64 {
    unsafe {
        c::jambcopper_write_config(
            record.as_ptr(),
            record.len(),
            offset,
            data.as_ptr(),
            data.len(),
        )
    }
}

#[inline]
pub fn driver_write_request(bytes: &mut [u8], request_type: u16, address: u64, blocks: u16) -> u64 {
    unsafe {
        c::jambcopper_driver_write_request(
            bytes.as_mut_ptr(),
            bytes.len(),
            request_type,
            address,
            blocks,
        )
    }
}

#[inline]
pub fn driver_read_response(bytes: &[u8], response: &mut [u64]) -> u64 {
    unsafe {
        c::jambcopper_driver_read_response(
            bytes.as_ptr(),
            bytes.len(),
            response.as_mut_ptr(),
            response.len(),
        )
    }
}

#[inline]
pub fn driver_read_config(bytes: &[u8], config: &mut [u64]) -> u64 {
    unsafe {
        c::jambcopper_driver_read_config(
            bytes.as_ptr(),
            bytes.len(),
            config.as_mut_ptr(),
            config.len(),
        )
    }
}

#[inline]
pub fn driver_plan(config: &[u8], bitmap: &[u8], plug: &mut [u64]) -> u64 {
    unsafe {
        c::jambcopper_driver_plan(
            config.as_ptr(),
            config.len(),
            bitmap.as_ptr(),
            bitmap.len(),
            plug.as_mut_ptr(),
            plug.len(),
        )
    }
}

#[inline]
pub fn save_length(record: &[u64], bitmap: &[u8], length: &mut [u64]) -> u64 {
    unsafe {
        c::jambcopper_save_length(
            record.as_ptr(),
            record.len(),
            bitmap.as_ptr(),
            bitmap.len(),
            length.as_mut_ptr(),
            length.len(),
        )
    }
}

#[inline]
pub fn save(record: &[u64], bitmap: &[u8], text: &mut [u8], length: &mut [u64]) -> u64 {
    unsafe {
        c::jambcopper_save(
            record.as_ptr(),
            record.len(),
            bitmap.as_ptr(),
            bitmap.len(),
            text.as_mut_ptr(),
            text.len(),
            length.as_mut_ptr(),
            length.len(),
        )
    }
}

#[inline]
pub fn restore(record: &mut [u64], bitmap: &mut [u8], text: &[u8]) -> u64 {
    unsafe {
        c::jambcopper_restore(
            record.as_mut_ptr(),
            record.len(),
            bitmap.as_mut_ptr(),
            bitmap.len(),
            text.as_ptr(),
            text.len(),
        )
    }
}

#[inline]
pub fn old_to_new(
    fields: &[u64],
    old: &[u8],
    scratch: &mut [u8],
    text: &mut [u8],
    length: &mut [u64],
) -> u64 {
    unsafe {
        c::jambcopper_old_to_new(
            fields.as_ptr(),
            fields.len(),
            old.as_ptr(),
            old.len(),
            scratch.as_mut_ptr(),
            scratch.len(),
            text.as_mut_ptr(),
            text.len(),
            length.as_mut_ptr(),
            length.len(),
        )
    }
}

#[inline]
pub fn new_to_old(text: &[u8], scratch: &mut [u8], old: &mut [u8], fields: &mut [u64]) -> u64 {
    unsafe {
        c::jambcopper_new_to_old(
            text.as_ptr(),
            text.len(),
            scratch.as_mut_ptr(),
            scratch.len(),
            old.as_mut_ptr(),
            old.len(),
            fields.as_mut_ptr(),
            fields.len(),
        )
    }
}
