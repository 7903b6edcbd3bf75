//! The calls on a session and their types, as declared in `pespbench.h`, which documents them.

use std::ffi::c_void;

/// The report of a call, in the numbers of the header.
#[repr(C)]
#[derive(Clone, Copy, Debug, Default)]
pub struct Told {
    pub length: u64,
    pub place: u64,
    pub status: u32,
    pub reason: u32,
    pub field: u32,
}

/// The result of a search, in the numbers of the header.
#[repr(C)]
#[derive(Clone, Copy, Debug, Default)]
pub struct Found {
    pub cost: u64,
    pub lower_bound: u64,
    pub state: u32,
    pub goes_on: u32,
}

/// A session, whose contents only the library reads or writes. One that is not open is closed.
#[repr(C)]
pub struct Raw {
    pub at: *mut c_void,
    pub is_open: bool,
}

#[allow(clippy::too_many_arguments)]
extern "C" {
    pub fn pesp_open(
        period: u16,
        activities: *const u8,
        activities_length: usize,
        fixed: *const u8,
        fixed_length: usize,
        times: *const u8,
        times_length: usize,
        session: *mut Raw,
        told: *mut Told,
    );
    pub fn pesp_version() -> u32;
    pub fn pesp_close(session: *mut Raw);
    pub fn pesp_ask(session: *mut Raw, line: *const u8, line_length: usize, out: *mut u8, out_length: usize, told: *mut Told);
    pub fn pesp_cost(session: *mut Raw, cost: *mut u64, told: *mut Told);
    pub fn pesp_try_move(session: *mut Raw, event: u32, time: u16, change: *mut i64, told: *mut Told);
    pub fn pesp_events(session: *mut Raw, out: *mut u32, out_length: usize, told: *mut Told);
    pub fn pesp_times(session: *mut Raw, out: *mut u16, out_length: usize, told: *mut Told);
    pub fn pesp_domain(session: *mut Raw, event: u32, out: *mut u8, out_length: usize, told: *mut Told);
    pub fn pesp_search(session: *mut Raw, nodes: u64, out: *mut u16, out_length: usize, found: *mut Found, told: *mut Told);
}
