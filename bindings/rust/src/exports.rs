//! What the static library argus_c exports.

#[repr(C)]
pub(crate) struct Handle {
    pub(crate) mark: u32,
    pub(crate) error: u32,
    pub(crate) seat: *mut u8,
}

#[link(name = "argus_c", kind = "static")]
#[link(name = "libc_c", kind = "static")]
extern "C" {
    pub(crate) fn argus_c_open(handle: &mut Handle, setup: *const u8, n: usize) -> u32;
    pub(crate) fn argus_c_reopen(handle: &mut Handle, setup: *const u8, n: usize, stores: *const u8, m: usize) -> u32;
    pub(crate) fn argus_c_changed(handle: &mut Handle, guardian: &mut u32) -> u32;
    pub(crate) fn argus_c_store(handle: &mut Handle, guardian: u32, place: *mut u8, room: usize, len: &mut usize) -> u32;
    pub(crate) fn argus_c_kept(handle: &mut Handle, guardian: u32) -> u32;
    pub(crate) fn argus_c_step(handle: &mut Handle, line: *const u8, n: usize) -> u32;
    pub(crate) fn argus_c_answer(handle: &mut Handle, place: *mut u8, room: usize, len: &mut usize) -> u32;
    pub(crate) fn argus_c_base(handle: &mut Handle, guardian: u32, number: u32, place: *mut u8, room: usize, len: &mut usize) -> u32;
    pub(crate) fn argus_c_close(handle: &mut Handle) -> u32;
    pub(crate) fn argus_c_top(handle: &mut Handle, guardian: u32) -> u32;
    pub(crate) fn argus_c_nest(handle: &mut Handle, action: *const u8, n: usize) -> u32;
    pub(crate) fn argus_c_call(handle: &mut Handle, action: *const u8, n: usize, guardian: u32) -> u32;
    pub(crate) fn argus_c_op(handle: &mut Handle, action: *const u8, n: usize, guardian: u32, number: u32, wanted: *const u8, m: usize) -> u32;
    pub(crate) fn argus_c_commit(handle: &mut Handle, action: *const u8, n: usize) -> u32;
    pub(crate) fn argus_c_abort(handle: &mut Handle, action: *const u8, n: usize) -> u32;
    pub(crate) fn argus_c_close_top(handle: &mut Handle, top: *const u8, n: usize) -> u32;
    pub(crate) fn argus_c_prepare(handle: &mut Handle, guardian: u32, top: *const u8, n: usize) -> u32;
    pub(crate) fn argus_c_decide(handle: &mut Handle, top: *const u8, n: usize) -> u32;
    pub(crate) fn argus_c_tell(handle: &mut Handle, guardian: u32, action: *const u8, n: usize) -> u32;
    pub(crate) fn argus_c_crash(handle: &mut Handle, guardian: u32) -> u32;
    pub(crate) fn argus_c_recover(handle: &mut Handle, guardian: u32) -> u32;
}
