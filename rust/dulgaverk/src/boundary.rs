//! The declared boundary, as in include/dulgaverk.h: a slice is a pointer and a length, in that order.

use std::mem::{offset_of, size_of};

#[repr(C)]
pub struct Answer {
    pub number: u8,
    pub file: u8,
    pub place: usize,
    pub row: u16,
    pub step: u16,
    pub branch: u16,
}

/// A row, step or branch where there is none.
pub const NONE: u16 = 65_535;

#[repr(C)]
pub struct ReadResult {
    pub answer: Answer,
    pub count: usize,
    pub k: u8,
    pub edition: u8,
}

#[repr(C)]
pub struct WriteResult {
    pub answer: Answer,
    pub count: usize,
}

#[repr(C)]
pub struct ShortenResult {
    pub answer: Answer,
    pub rows: usize,
    pub count: usize,
}

#[repr(C)]
pub struct Tested {
    pub answer: Answer,
    pub holds: bool,
}

#[repr(C)]
#[derive(Clone, Copy)]
pub struct Part {
    pub start: usize,
    pub end: usize,
}

#[repr(C)]
#[derive(Clone, Copy)]
pub struct Job {
    pub a: Part,
    pub b: Part,
    pub proof: Part,
}

#[repr(C)]
#[derive(Clone, Copy)]
pub struct Slot {
    pub waiting: usize,
    pub job: Job,
}

#[repr(C)]
#[derive(Clone, Copy)]
pub struct Scheduler {
    pub slots: [Slot; 8],
    pub first: usize,
}

#[repr(C)]
pub struct Changed {
    pub scheduler: Scheduler,
    pub answer: Answer,
}

#[repr(C)]
pub struct Turned {
    pub scheduler: Scheduler,
    pub result: WriteResult,
    pub seat: usize,
    pub idle: bool,
}

// The layout that the C test asserts of the header too.
const _: () = {
    assert!(size_of::<Answer>() == 24);
    assert!(offset_of!(Answer, number) == 0 && offset_of!(Answer, file) == 1);
    assert!(offset_of!(Answer, place) == 8 && offset_of!(Answer, row) == 16);
    assert!(offset_of!(Answer, step) == 18 && offset_of!(Answer, branch) == 20);
    assert!(size_of::<ReadResult>() == 40 && offset_of!(ReadResult, count) == 24);
    assert!(offset_of!(ReadResult, k) == 32 && offset_of!(ReadResult, edition) == 33);
    assert!(size_of::<WriteResult>() == 32 && offset_of!(WriteResult, count) == 24);
    assert!(size_of::<ShortenResult>() == 40 && offset_of!(ShortenResult, rows) == 24);
    assert!(offset_of!(ShortenResult, count) == 32);
    assert!(size_of::<Tested>() == 32 && offset_of!(Tested, holds) == 24);
    assert!(size_of::<Job>() == 48 && offset_of!(Job, b) == 16 && offset_of!(Job, proof) == 32);
    assert!(size_of::<Slot>() == 56 && offset_of!(Slot, job) == 8);
    assert!(size_of::<Scheduler>() == 456 && offset_of!(Scheduler, first) == 448);
    assert!(size_of::<Changed>() == 480 && offset_of!(Changed, answer) == 456);
    assert!(size_of::<Turned>() == 504 && offset_of!(Turned, result) == 456);
    assert!(offset_of!(Turned, seat) == 488 && offset_of!(Turned, idle) == 496);
};

extern "C" {
    pub fn dulgaverk_read(
        file: *const u8,
        file_len: usize,
        kinds: *mut u8,
        kinds_len: usize,
        numbers: *mut i32,
        numbers_len: usize,
    ) -> ReadResult;
    pub fn dulgaverk_write(
        edition: usize,
        k: usize,
        kinds: *const u8,
        kinds_len: usize,
        numbers: *const i32,
        numbers_len: usize,
        out: *mut u8,
        out_len: usize,
    ) -> WriteResult;
    pub fn dulgaverk_show_answer(
        a: *const u8,
        a_len: usize,
        b: *const u8,
        b_len: usize,
        line: usize,
    ) -> Answer;
    pub fn dulgaverk_show(
        a: *const u8,
        a_len: usize,
        b: *const u8,
        b_len: usize,
        line: usize,
        out: *mut u8,
        out_len: usize,
    ) -> usize;
    pub fn dulgaverk_check(
        a: *const u8,
        a_len: usize,
        b: *const u8,
        b_len: usize,
        proof: *const u8,
        proof_len: usize,
        out: *mut u8,
        out_len: usize,
    ) -> WriteResult;
    pub fn dulgaverk_shorten(
        a: *const u8,
        a_len: usize,
        b: *const u8,
        b_len: usize,
        proof: *const u8,
        proof_len: usize,
        report: *mut u8,
        report_len: usize,
        out: *mut u8,
        out_len: usize,
    ) -> ShortenResult;
    pub fn dulgaverk_guards(
        buffer: *const u8,
        buffer_len: usize,
        lengths: *const usize,
        lengths_len: usize,
        proof: *const u8,
        proof_len: usize,
        out: *mut u8,
        out_len: usize,
        sizes: *mut usize,
        sizes_len: usize,
    ) -> WriteResult;
    pub fn dulgaverk_test(
        formula: *const u8,
        formula_len: usize,
        values: *const i32,
        values_len: usize,
    ) -> Tested;
    pub fn dulgaverk_turn_bundle(
        file: *const u8,
        file_len: usize,
        edition: usize,
        out: *mut u8,
        out_len: usize,
    ) -> WriteResult;
    pub fn dulgaverk_turn_proof(
        file: *const u8,
        file_len: usize,
        edition: usize,
        out: *mut u8,
        out_len: usize,
    ) -> WriteResult;
    pub fn dulgaverk_scheduler_empty() -> Scheduler;
    pub fn dulgaverk_scheduler_submit(state: Scheduler, seat: usize, job: Job) -> Changed;
    pub fn dulgaverk_scheduler_cancel(state: Scheduler, seat: usize) -> Changed;
    pub fn dulgaverk_scheduler_turn(
        state: Scheduler,
        buffer: *const u8,
        buffer_len: usize,
        out: *mut u8,
        out_len: usize,
    ) -> Turned;
    pub fn dulgaverk_test_list(
        formula: *const u8,
        formula_len: usize,
        k: usize,
        values: *const i32,
        values_len: usize,
        out: *mut u8,
        out_len: usize,
    ) -> WriteResult;
    pub fn dulgaverk_print(
        formula: *const u8,
        formula_len: usize,
        out: *mut u8,
        out_len: usize,
    ) -> WriteResult;
    pub fn dulgaverk_print_words(
        formula: *const u8,
        formula_len: usize,
        out: *mut u8,
        out_len: usize,
    ) -> WriteResult;
    pub fn dulgaverk_next_proof(
        a: *const u8,
        a_len: usize,
        b: *const u8,
        b_len: usize,
        table: *const u8,
        table_len: usize,
        out: *mut u8,
        out_len: usize,
    ) -> WriteResult;
}
