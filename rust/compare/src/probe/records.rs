#[repr(C)]
#[derive(Clone, Copy, Debug, PartialEq, Eq)]
pub struct Header {
    pub offset: u32,
    pub objects: usize,
    pub bed_or_isf: usize,
    pub beds: usize,
    pub elements: usize,
}

#[repr(C)]
#[derive(Clone, Copy, Debug, PartialEq, Eq)]
pub struct Block {
    pub offset: i64,
    pub ramp: i64,
}

#[repr(C)]
#[derive(Clone, Copy, Debug, PartialEq, Eq)]
pub struct Info {
    pub head: u32,
    pub gain: u32,
    pub size: u32,
    pub distance: u32,
    pub screen: u32,
    pub x: u32,
    pub y: u32,
    pub z: u32,
    pub send: u32,
}

unsafe extern "C" {
    fn probe_refusal(meta: *const u8, length: usize) -> u32;
    fn probe_updates(meta: *const u8, length: usize) -> usize;
    fn probe_update_place(meta: *const u8, length: usize, i: usize) -> usize;
    fn probe_header(meta: *const u8, length: usize, u: usize) -> Header;
    fn probe_blocks(meta: *const u8, length: usize, e: usize) -> usize;
    fn probe_element_after(meta: *const u8, length: usize, objects: usize, e: usize) -> usize;
    fn probe_object_place(meta: *const u8, length: usize, e: usize, o: usize, b: usize) -> usize;
    fn probe_block(meta: *const u8, length: usize, r: usize) -> Block;
    fn probe_info(meta: *const u8, length: usize, r: usize) -> Info;
    fn probe_next_offset(meta: *const u8, length: usize, t: u32, end: u32) -> u32;
    fn probe_sent_at(meta: *const u8, length: usize, t: u32, from: usize) -> usize;
}

/// 5, 6, or 0 for neither.
pub fn refusal(meta: &[u8]) -> u32 {
    unsafe { probe_refusal(meta.as_ptr(), meta.len()) }
}

pub fn updates(meta: &[u8]) -> usize {
    unsafe { probe_updates(meta.as_ptr(), meta.len()) }
}

/// The record of update i.
pub fn update_place(meta: &[u8], i: usize) -> usize {
    unsafe { probe_update_place(meta.as_ptr(), meta.len(), i) }
}

pub fn header(meta: &[u8], u: usize) -> Header {
    unsafe { probe_header(meta.as_ptr(), meta.len(), u) }
}

pub fn blocks(meta: &[u8], e: usize) -> usize {
    unsafe { probe_blocks(meta.as_ptr(), meta.len(), e) }
}

/// The record after the element at e.
pub fn element_after(meta: &[u8], objects: usize, e: usize) -> usize {
    unsafe { probe_element_after(meta.as_ptr(), meta.len(), objects, e) }
}

/// The record of object o in block b of the element at e.
pub fn object_place(meta: &[u8], e: usize, o: usize, b: usize) -> usize {
    unsafe { probe_object_place(meta.as_ptr(), meta.len(), e, o, b) }
}

pub fn block(meta: &[u8], r: usize) -> Block {
    unsafe { probe_block(meta.as_ptr(), meta.len(), r) }
}

pub fn info(meta: &[u8], r: usize) -> Info {
    unsafe { probe_info(meta.as_ptr(), meta.len(), r) }
}

/// The least sample offset above t, where it is below `end`, else `end`.
pub fn next_offset(meta: &[u8], t: u32, end: u32) -> u32 {
    unsafe { probe_next_offset(meta.as_ptr(), meta.len(), t, end) }
}

/// The first update from `from` on whose sample offset is t, or their number.
pub fn sent_at(meta: &[u8], t: u32, from: usize) -> usize {
    unsafe { probe_sent_at(meta.as_ptr(), meta.len(), t, from) }
}
