//! The calls of nemesis.h that this crate uses, as they stand there.

pub const OK: u32 = 0;
pub const PENDING: u32 = 1;
pub const SENT: u32 = 2;
pub const RECEIVED: u32 = 3;
pub const MOVED: u32 = 11;

/// Cells of a rank, and bytes of the eager limit, where there is no reason for others.
pub const CELLS: u32 = 8;
pub const EAGER: u32 = 1024;

#[repr(C)]
#[derive(Clone, Copy)]
pub struct Handle {
    at: *mut std::ffi::c_void,
}

impl Handle {
    pub fn empty() -> Self {
        Handle {
            at: std::ptr::null_mut(),
        }
    }
}

#[repr(C)]
#[derive(Default)]
pub struct Status {
    pub from: u32,
    pub tag: u32,
    pub length: u32,
}

extern "C" {
    pub fn nm_world_new(ranks: *mut Handle, count: usize, cells: u32, eager: u32) -> u32;
    pub fn nm_number(rank: *mut Handle) -> u32;
    pub fn nm_count(rank: *mut Handle) -> u32;
    pub fn nm_isend(
        rank: *mut Handle,
        name: u32,
        to: u32,
        tag: u32,
        context: u32,
        body: *const u8,
        length: usize,
    ) -> u32;
    pub fn nm_irecv(rank: *mut Handle, name: u32, from: u32, tag: u32, context: u32, capacity: u32) -> u32;
    pub fn nm_test(rank: *mut Handle, name: u32, status: *mut Status, body: *mut u8, room: usize) -> u32;
    pub fn nm_progress(rank: *mut Handle) -> u32;
    pub fn nm_rank_free(rank: Handle);
}
