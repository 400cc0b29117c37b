//! The calls of `include/ndc.h`, as they stand there.

/// What C keeps of a node. Zeros are none.
#[repr(C)]
pub struct Handle {
    pub at: *mut u8,
}

/// What a node takes at most.
#[repr(C)]
#[derive(Clone, Copy, Debug)]
pub struct Bounds {
    /// The greatest frame that is heard, in bytes.
    pub frame: u64,
    /// How many messages may be put off in each shard.
    pub waiting: u64,
    /// How many entries of each shard of each source may be told and not learned.
    pub held: u64,
    /// How many messages may be set aside.
    pub letters: u64,
}

pub const DONE: i32 = 0;
pub const UNREADABLE: i32 = 2;
pub const SPENT: i32 = 3;
pub const MEMORY: i32 = 4;
pub const WRONG_UNIT: i32 = -7;

extern "C" {
    pub fn ndc_words(code: i32, out: *mut u8, out_len: u64, len: &mut u64) -> i32;
    pub fn ndc_open(
        node: &mut Handle,
        header: *const u8,
        header_len: u64,
        name: *const u8,
        name_len: u64,
        bounds: &Bounds,
    ) -> i32;
    pub fn ndc_load(
        node: &mut Handle,
        kept: *const u8,
        kept_len: u64,
        bounds: &Bounds,
        dropped: &mut u64,
        line: &mut u64,
    ) -> i32;
    pub fn ndc_close(node: &mut Handle);
    pub fn ndc_line(node: &mut Handle, line: *const u8, line_len: u64, len: &mut u64) -> i32;
    pub fn ndc_hear(node: &mut Handle, frame: *const u8, frame_len: u64, len: &mut u64) -> i32;
    pub fn ndc_ask(node: &mut Handle, name: *const u8, name_len: u64, len: &mut u64) -> i32;
    pub fn ndc_changes(node: &mut Handle, unit: &mut u64, len: &mut u64) -> i32;
    pub fn ndc_stored(node: &mut Handle, unit: u64) -> i32;
    pub fn ndc_store(node: &mut Handle, unit: &mut u64, len: &mut u64) -> i32;
    pub fn ndc_reply(node: &mut Handle, out: *mut u8, out_len: u64, len: &mut u64) -> i32;
}
