//! The library's functions and structs as the C header has them. [`crate::Machine`] is what a program uses.
#![allow(missing_docs)]
use std::os::raw::c_void;

#[repr(C)]
pub struct Handle {
    pub is_open: u32,
    pub kept: *mut c_void,
}

#[repr(C)]
#[derive(Clone, Copy, Debug, Default, PartialEq, Eq)]
pub struct Limits {
    pub shmmax: u64,
    pub shmmni: u64,
    pub shmall: u64,
    pub frames: u64,
    pub memlock: u64,
    pub most_pieces: u64,
    pub most_processes: u64,
    pub most_slots: u64,
    pub rules: u64,
}

#[repr(C)]
#[derive(Clone, Copy)]
pub struct Area {
    pub kind: u32,
    pub slots: u32,
}

#[repr(C)]
#[derive(Clone, Copy)]
pub struct Failure {
    pub area: u32,
    pub side: u32,
    pub is_write: u32,
    pub unused: u32,
    pub call: u64,
}

#[repr(C)]
#[derive(Clone, Copy, Default)]
pub struct Process {
    pub pid: u32,
    pub is_born: u32,
    pub uid: u32,
    pub gid: u32,
}

#[repr(C)]
#[derive(Clone, Copy, Debug, Default, PartialEq, Eq)]
pub struct Segment {
    pub size: u64,
    pub atime: u64,
    pub dtime: u64,
    pub ctime: u64,
    pub id: i32,
    pub key: u32,
    pub uid: u32,
    pub gid: u32,
    pub cuid: u32,
    pub cgid: u32,
    pub mode: u32,
    pub status: u32,
    pub cpid: u32,
    pub lpid: u32,
    pub nattch: u32,
    pub index: u32,
}

#[repr(C)]
#[derive(Clone, Copy, Debug, Default, PartialEq, Eq)]
pub struct Tally {
    pub events: u64,
    pub segments: u64,
    pub reserved: u64,
    pub locked: u64,
    pub frames: u64,
    pub resident: u64,
    pub dirty: u64,
    pub slots: u64,
    pub used: u64,
    pub ins: u64,
    pub outs: u64,
    pub failures: u64,
}

#[repr(C)]
#[derive(Clone, Copy, Debug, Default, PartialEq, Eq)]
pub struct Flushed {
    pub written: u64,
    pub failed: u64,
}

#[repr(C)]
#[derive(Clone, Copy, Debug, Default, PartialEq, Eq)]
pub struct Usage {
    pub used_ids: u64,
    pub pages: u64,
    pub resident: u64,
    pub swapped: u64,
    pub highest: u64,
}

#[repr(C)]
#[derive(Clone, Copy, Default)]
pub struct Piece {
    pub base: u64,
    pub segment: u32,
    pub first_page: u32,
    pub pages: u32,
    pub is_writable: u32,
    pub may_write: u32,
    pub unused: u32,
}

#[repr(C)]
#[derive(Clone, Copy, Default)]
pub struct Frame {
    pub id: i32,
    pub page: u32,
    pub is_referenced: u32,
    pub is_dirty: u32,
    pub is_lent: u32,
    pub is_locked: u32,
}

extern "C" {
    pub fn nog_open(
        machine: *mut Handle,
        limits: *const Limits,
        areas: *const Area,
        area_count: usize,
        failures: *const Failure,
        failure_count: usize,
        processes: *const Process,
        process_count: usize,
    ) -> u32;
    pub fn nog_close(machine: *mut Handle) -> u32;
    pub fn nog_get(machine: *mut Handle, pid: u32, key: u32, size: u64, mode: u32, flags: u32, id: *mut i32) -> u32;
    pub fn nog_attach(machine: *mut Handle, pid: u32, id: i32, addr: u64, flags: u32, at: *mut u64) -> u32;
    pub fn nog_detach(machine: *mut Handle, pid: u32, addr: u64) -> u32;
    pub fn nog_stat(machine: *mut Handle, pid: u32, id: i32, segment: *mut Segment) -> u32;
    pub fn nog_set(machine: *mut Handle, pid: u32, id: i32, uid: u32, gid: u32, mode: u32) -> u32;
    pub fn nog_remove(machine: *mut Handle, pid: u32, id: i32) -> u32;
    pub fn nog_lock(machine: *mut Handle, pid: u32, id: i32) -> u32;
    pub fn nog_unlock(machine: *mut Handle, pid: u32, id: i32) -> u32;
    pub fn nog_load(machine: *mut Handle, pid: u32, addr: u64, bytes: *mut u8, len: usize) -> u32;
    pub fn nog_store(machine: *mut Handle, pid: u32, addr: u64, bytes: *const u8, len: usize) -> u32;
    pub fn nog_add(machine: *mut Handle, pid: u32, addr: u64, add: u64, before: *mut u64) -> u32;
    pub fn nog_exchange(machine: *mut Handle, pid: u32, addr: u64, bytes: *const u8, len: usize, before: *mut u8, before_len: usize) -> u32;
    pub fn nog_compare_exchange(machine: *mut Handle, pid: u32, addr: u64, expected: *const u8, expected_len: usize, bytes: *const u8, len: usize, before: *mut u8, before_len: usize) -> u32;
    pub fn nog_fork(machine: *mut Handle, pid: u32, child: u32) -> u32;
    pub fn nog_exec(machine: *mut Handle, pid: u32) -> u32;
    pub fn nog_exit(machine: *mut Handle, pid: u32) -> u32;
    pub fn nog_swapoff(machine: *mut Handle, pid: u32, area: u32) -> u32;
    pub fn nog_admit(machine: *mut Handle, process: *const Process) -> u32;
    pub fn nog_dismiss(machine: *mut Handle, pid: u32) -> u32;
    pub fn nog_reserve(machine: *mut Handle, pid: u32, addr: u64, len: u64) -> u32;
    pub fn nog_release(machine: *mut Handle, pid: u32, addr: u64, len: u64) -> u32;
    pub fn nog_set_user(machine: *mut Handle, pid: u32, uid: u32, gid: u32) -> u32;
    pub fn nog_set_time(machine: *mut Handle, time: u64) -> u32;
    pub fn nog_set_limits(machine: *mut Handle, shmmax: u64, shmmni: u64, shmall: u64, memlock: u64) -> u32;
    pub fn nog_swapon(machine: *mut Handle, area: *const Area, failures: *const Failure, failure_count: usize) -> u32;
    pub fn nog_fail(machine: *mut Handle, failure: *const Failure, is_lasting: u32) -> u32;
    pub fn nog_fail_page(machine: *mut Handle, id: i32, page: u32) -> u32;
    pub fn nog_unmap(machine: *mut Handle, pid: u32, addr: u64, len: u64) -> u32;
    pub fn nog_protect(machine: *mut Handle, pid: u32, addr: u64, len: u64, is_writable: u32) -> u32;
    pub fn nog_snapshot(machine: *mut Handle, copy: *mut Handle) -> u32;
    pub fn nog_read(machine: *mut Handle, pid: u32, addr: u64, bytes: *mut u8, len: usize, done: *mut u64) -> u32;
    pub fn nog_write(machine: *mut Handle, pid: u32, addr: u64, bytes: *const u8, len: usize, done: *mut u64) -> u32;
    pub fn nog_lend(machine: *mut Handle, id: i32, page: u32, bytes: *mut u8, len: usize) -> u32;
    pub fn nog_give_back(machine: *mut Handle, id: i32, page: u32, bytes: *const u8, len: usize) -> u32;
    pub fn nog_leaver(machine: *mut Handle, frame: *mut Frame) -> u32;
    pub fn nog_frame_at(machine: *mut Handle, place: u32, frame: *mut Frame) -> u32;
    pub fn nog_page_at(machine: *mut Handle, pid: u32, addr: u64, id: *mut i32, page: *mut u32, is_writable: *mut u32) -> u32;
    pub fn nog_loans(machine: *mut Handle, pages: *mut u64) -> u32;
    pub fn nog_piece_of(machine: *mut Handle, pid: u32, addr: u64, piece: *mut Piece) -> u32;
    pub fn nog_segment_of(machine: *mut Handle, id: i32, segment: *mut Segment) -> u32;
    pub fn nog_limits_of(machine: *mut Handle, limits: *mut Limits) -> u32;
    pub fn nog_pages_of(machine: *mut Handle, id: i32, resident: *mut u64, swapped: *mut u64) -> u32;
    pub fn nog_gone(machine: *mut Handle, told: *mut u32, told_count: usize, id: *mut i32) -> u32;
    pub fn nog_changes(machine: *mut Handle, pid: u32, count: *mut u64) -> u32;
    pub fn nog_flush(machine: *mut Handle, pages: u64, flushed: *mut Flushed) -> u32;
    pub fn nog_tally_of(machine: *mut Handle, tally: *mut Tally) -> u32;
    pub fn nog_indexes(machine: *mut Handle, indexes: *mut u32) -> u32;
    pub fn nog_segment_at(machine: *mut Handle, index: u32, segment: *mut Segment) -> u32;
    pub fn nog_stat_at(machine: *mut Handle, pid: u32, index: u32, segment: *mut Segment) -> u32;
    pub fn nog_info(machine: *mut Handle, usage: *mut Usage) -> u32;
    pub fn nog_piece_at(machine: *mut Handle, pid: u32, index: u32, piece: *mut Piece) -> u32;
    pub fn nog_process_at(machine: *mut Handle, index: u32, process: *mut Process) -> u32;
    pub fn nog_failed_at(machine: *mut Handle, pid: u32, addr: u64, len: u64, is_write: u32, at: *mut u64) -> u32;
    pub fn nog_absent_at(machine: *mut Handle, pid: u32, addr: u64, len: u64, at: *mut u64) -> u32;
    pub fn nog_copy(machine: *mut Handle, from: u32, from_addr: u64, to: u32, to_addr: u64, len: u64, done: *mut u64) -> u32;
    pub fn nog_calls(machine: *mut Handle, calls: *mut u64) -> u32;
    pub fn nog_text(code: u32, text: *mut u8, size: usize, len: *mut usize) -> u32;
    pub fn nog_version() -> u32;
    pub fn nog_layout(which: u32, field: u32, value: *mut usize) -> u32;
}
