//! What `cordspar.h` declares, as it is; the comments stand there.
#![allow(missing_docs)]

#[repr(C)]
pub struct Program {
    _private: [u8; 0],
}

#[repr(C)]
pub struct Run {
    _private: [u8; 0],
}

#[repr(C)]
#[derive(Default)]
pub struct Error {
    pub line: u64,
    pub column: u64,
    pub rule: u64,
    pub source: i32,
    pub kind: i32,
}

pub const DONE: i32 = 0;
pub const REFUSED: i32 = 2;
pub const FAILED: i32 = 3;
pub const FAULT: i32 = 4;
pub const BUDGET: i32 = 5;

pub const TRACE: i32 = 0;
pub const STACK: i32 = 1;
pub const STORE: i32 = 2;
pub const BINDINGS: i32 = 3;
pub const HISTORY: i32 = 4;

extern "C" {
    pub fn cordspar_version() -> u32;

    pub fn cordspar_program_new(
        text: *const u8,
        length: usize,
        out: *mut *mut Program,
        error: *mut Error,
    ) -> i32;
    pub fn cordspar_program_free(program: *mut Program);

    pub fn cordspar_run_new(
        program: *mut Program,
        query: *const u8,
        length: usize,
        budget: u64,
        trace: u32,
        out: *mut *mut Run,
        error: *mut Error,
    ) -> i32;
    pub fn cordspar_run_free(run: *mut Run);
    pub fn cordspar_run_steps(run: *const Run) -> u64;
    pub fn cordspar_run_fault(run: *const Run) -> i32;
    pub fn cordspar_run_count(run: *const Run, part: i32) -> usize;
    pub fn cordspar_run_text(run: *const Run, buffer: *mut u8, size: usize) -> usize;
    pub fn cordspar_run_item(
        run: *const Run,
        part: i32,
        k: usize,
        buffer: *mut u8,
        size: usize,
    ) -> usize;

    pub fn cordspar_error_text(error: *const Error, buffer: *mut u8, size: usize) -> usize;
}
