//! The calls of `jvhost.h`.

use std::ffi::c_char;

#[repr(C)]
#[derive(Clone, Copy)]
pub struct Bytes {
    pub bytes: *const u8,
    pub length: usize,
}

#[repr(C)]
pub struct Guest {
    pub size: usize,
    pub files: *const Bytes,
    pub file_count: usize,
    pub main: Bytes,
    pub input: Bytes,
    pub cells: u32,
    pub words: u32,
    pub output: u32,
}

#[repr(C)]
#[derive(Default)]
pub struct Seen {
    pub size: usize,
    pub steps: u64,
    pub throws: u64,
    pub output: usize,
    pub verdicts: usize,
    pub end: u32,
}

#[repr(C)]
#[derive(Clone, Copy, Default)]
pub struct Verdict {
    pub kind: u32,
    pub method: u32,
    pub offset: u32,
    pub rule: u32,
}

#[repr(C)]
#[derive(Default)]
pub struct Fault {
    pub size: usize,
    pub file: usize,
    pub kind: u32,
}

#[repr(C)]
#[derive(Default)]
pub struct Place {
    pub size: usize,
    pub class_name: usize,
    pub method: usize,
    pub descriptor: usize,
    pub offset: u32,
}

#[repr(C)]
pub struct HostPart {
    pub kept: *mut u8,
    pub owned: *mut u8,
    pub holds: u32,
}

#[repr(C)]
pub struct Handle {
    pub host: HostPart,
    pub copies: *mut u8,
}

extern "C" {
    pub fn jvhost_code_text(code: u32) -> *const c_char;
    pub fn jvhost_version() -> *const c_char;
    pub fn jvhost_new(host: *mut Handle) -> u32;
    pub fn jvhost_new_with_library(host: *mut Handle, files: *const Bytes, file_count: usize, fault: *mut Fault) -> u32;
    pub fn jvhost_free(host: *mut Handle);
    pub fn jvhost_admit_copy(host: *mut Handle, guest: *const Guest, id: *mut u32) -> u32;
    pub fn jvhost_turn(host: *mut Handle, id: u32, steps: u32, taken: *mut u64) -> u32;
    pub fn jvhost_run(host: *mut Handle, steps: u32, rounds: u32, taken: *mut u32) -> u32;
    pub fn jvhost_feed(host: *mut Handle, id: u32, bytes: *const u8, length: usize) -> u32;
    pub fn jvhost_observe(host: *mut Handle, id: u32, seen: *mut Seen) -> u32;
    pub fn jvhost_output(host: *mut Handle, id: u32, from: usize, room: *mut u8, room_length: usize, copied: *mut usize) -> u32;
    pub fn jvhost_last(host: *mut Handle, id: u32, room: *mut u8, room_length: usize, length: *mut usize) -> u32;
    pub fn jvhost_end_class(host: *mut Handle, id: u32, room: *mut u8, room_length: usize, length: *mut usize) -> u32;
    pub fn jvhost_place(host: *mut Handle, id: u32, place: *mut Place, room: *mut u8, room_length: usize) -> u32;
    pub fn jvhost_verdict(host: *mut Handle, id: u32, file: usize, verdict: *mut Verdict) -> u32;
    pub fn jvhost_verdict_text(verdict: *const Verdict, room: *mut u8, room_length: usize, length: *mut usize) -> u32;
    pub fn jvhost_check(files: *const Bytes, file_count: usize, verdicts: *mut Verdict, room: usize) -> u32;
    pub fn jvhost_judge(guest: *const Guest, steps: u32, seen: *mut Seen, output: *mut u8, output_length: usize) -> u32;
    pub fn jvhost_check_beside(host: *mut Handle, files: *const Bytes, file_count: usize, verdicts: *mut Verdict, room: usize) -> u32;
    pub fn jvhost_judge_beside(
        host: *mut Handle,
        guest: *const Guest,
        steps: u32,
        seen: *mut Seen,
        output: *mut u8,
        output_length: usize,
    ) -> u32;
}
