//! The calls of bindings/c/h5i.h.

use core::ffi::c_void;
use core::marker::PhantomData;

/// A session's place. All zeros are a closed one.
#[repr(C)]
pub struct Slot {
    is_open: bool,
    at: *mut c_void,
    /// It stays on its thread.
    thread: PhantomData<*mut c_void>,
}

impl Slot {
    pub const CLOSED: Slot = Slot { is_open: false, at: core::ptr::null_mut(), thread: PhantomData };
}

#[repr(C)]
#[derive(Clone, Copy)]
pub struct RawType {
    pub size: u8,
    pub is_signed: bool,
    pub is_big: bool,
}

#[repr(C)]
pub struct RawAbout {
    pub kind: u32,
    pub storage: u32,
    pub rank: u32,
    pub of: RawType,
    pub fill: [u8; 8],
    pub dims: [u64; 32],
    pub maxima: [u64; 32],
    pub chunks: [u64; 32],
}

impl RawAbout {
    pub const NONE: RawAbout = RawAbout {
        kind: 0,
        storage: 0,
        rank: 0,
        of: RawType { size: 1, is_signed: false, is_big: false },
        fill: [0; 8],
        dims: [0; 32],
        maxima: [0; 32],
        chunks: [0; 32],
    };
}

type Bytes = *const u8;
type List = *const u64;

// Each takes a slot by its address, and slices as a pointer and a length.
unsafe extern "C" {
    pub fn h5i_create(slot: *mut Slot) -> u32;
    pub fn h5i_open(slot: *mut Slot, bytes: Bytes, length: usize, place: *mut u64) -> u32;
    pub fn h5i_close(slot: *mut Slot);
    pub fn h5i_image_length(slot: *mut Slot) -> usize;
    pub fn h5i_image(slot: *mut Slot, room: *mut u8, length: usize) -> u32;
    pub fn h5i_run(slot: *mut Slot, script: Bytes, length: usize) -> u32;
    pub fn h5i_text_length(slot: *mut Slot) -> usize;
    pub fn h5i_text(slot: *mut Slot, room: *mut u8, length: usize) -> u32;
    pub fn h5i_stat(slot: *mut Slot, path: Bytes, length: usize, about: *mut RawAbout) -> u32;
    pub fn h5i_number(slot: *mut Slot, path: Bytes, length: usize, number: *mut u32) -> u32;
    pub fn h5i_list(slot: *mut Slot, path: Bytes, length: usize) -> u32;
    pub fn h5i_link_text(slot: *mut Slot, path: Bytes, length: usize) -> u32;
    pub fn h5i_attributes(slot: *mut Slot, path: Bytes, length: usize) -> u32;
    pub fn h5i_attribute(slot: *mut Slot, path: Bytes, path_length: usize, name: Bytes, name_length: usize, about: *mut RawAbout) -> u32;
    pub fn h5i_attribute_values(slot: *mut Slot, path: Bytes, path_length: usize, name: Bytes, name_length: usize, room: *mut u8, length: usize) -> u32;
    pub fn h5i_read(
        slot: *mut Slot, path: Bytes, path_length: usize, start: List, starts: usize, stride: List, strides: usize, count: List, counts: usize,
        block: List, blocks: usize, room: *mut u8, length: usize,
    ) -> u32;
    pub fn h5i_create_group(slot: *mut Slot, path: Bytes, length: usize) -> u32;
    pub fn h5i_create_array(
        slot: *mut Slot, path: Bytes, path_length: usize, of: RawType, dims: List, rank: usize, maxima: List, maxima_length: usize, storage: u32,
        chunks: *const u32, chunks_length: usize, fill: Bytes, fill_length: usize,
    ) -> u32;
    pub fn h5i_hard_link(slot: *mut Slot, target: Bytes, target_length: usize, path: Bytes, path_length: usize) -> u32;
    pub fn h5i_soft_link(slot: *mut Slot, text: Bytes, text_length: usize, path: Bytes, path_length: usize) -> u32;
    pub fn h5i_unlink(slot: *mut Slot, path: Bytes, length: usize) -> u32;
    pub fn h5i_set_attribute(
        slot: *mut Slot, path: Bytes, path_length: usize, name: Bytes, name_length: usize, of: RawType, dims: List, rank: usize, values: Bytes,
        values_length: usize,
    ) -> u32;
    pub fn h5i_remove_attribute(slot: *mut Slot, path: Bytes, path_length: usize, name: Bytes, name_length: usize) -> u32;
    pub fn h5i_write(
        slot: *mut Slot, path: Bytes, path_length: usize, start: List, starts: usize, stride: List, strides: usize, count: List, counts: usize,
        block: List, blocks: usize, of: RawType, values: Bytes, values_length: usize,
    ) -> u32;
    pub fn h5i_resize(slot: *mut Slot, path: Bytes, path_length: usize, dims: List, rank: usize) -> u32;
    pub fn h5i_repack(slot: *mut Slot) -> u32;
    pub fn h5i_open_view(
        slot: *mut Slot, path: Bytes, path_length: usize, start: List, starts: usize, stride: List, strides: usize, count: List, counts: usize,
        block: List, blocks: usize, number: *mut u32,
    ) -> u32;
    pub fn h5i_shown_length(slot: *mut Slot, number: u32, length: *mut usize) -> u32;
    pub fn h5i_show(slot: *mut Slot, number: u32, room: *mut u8, length: usize) -> u32;
    pub fn h5i_close_view(slot: *mut Slot, number: u32) -> u32;
}
