//! The proved library, by the functions that `crates/bench_calls` exports. Nothing compares these declarations with it but the results, which are compared
//! before anything is timed.

use crate::ask::{Ask, Kind};

/// `done` is false where memory failed.
#[repr(C)]
struct Told {
    done: bool,
    number: u64,
}

unsafe extern "C" {
    fn bench_calls_load(journal: *const u8, length: usize) -> Told;
    fn bench_calls_append(
        journal: *const u8,
        length: usize,
        base: u32,
        len: u32,
        times: *const u32,
        count: usize,
        rounds: u32,
    ) -> Told;
    fn bench_calls_insert(
        journal: *const u8,
        length: usize,
        base: u32,
        level: u8,
        len: u32,
        places: *const u32,
        count: usize,
        rounds: u32,
    ) -> Told;
    fn bench_calls_reading(
        journal: *const u8,
        length: usize,
        version: u32,
        positions: *const u32,
        count: usize,
        rounds: u32,
    ) -> Told;
    fn bench_calls_span(
        journal: *const u8,
        length: usize,
        version: u32,
        len: u32,
        starts: *const u32,
        count: usize,
        rounds: u32,
    ) -> Told;
    fn bench_calls_summary(
        journal: *const u8,
        length: usize,
        version: u32,
        len: u32,
        starts: *const u32,
        count: usize,
        rounds: u32,
    ) -> Told;
}

pub fn run(journal: &[u8], ask: &Ask) -> u64 {
    let (at, length, numbers, count, rounds) =
        (journal.as_ptr(), journal.len(), ask.numbers.as_ptr(), ask.numbers.len(), ask.rounds);
    // SAFETY: the declarations above fit `crates/bench_calls/src/lib.rt`, none of whose functions requires anything; pointers and lengths are those of
    // slices that are borrowed for the call.
    let told = unsafe {
        match ask.kind {
            Kind::Load => bench_calls_load(at, length),
            Kind::Append { base, len } => bench_calls_append(at, length, base, len, numbers, count, rounds),
            Kind::Insert { base, level, len } => bench_calls_insert(at, length, base, level, len, numbers, count, rounds),
            Kind::Reading { version } => bench_calls_reading(at, length, version, numbers, count, rounds),
            Kind::Span { version, len } => bench_calls_span(at, length, version, len, numbers, count, rounds),
            Kind::Summary { version, len } => bench_calls_summary(at, length, version, len, numbers, count, rounds),
        }
    };
    assert!(told.done, "memory failed");
    told.number
}
