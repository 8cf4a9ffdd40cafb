//! The exported functions of the proved crate `bridge`, as its static library has them.

#[repr(C)]
#[derive(Clone, Copy, PartialEq, Eq, Debug)]
pub struct Refused {
    pub number: u64,
    pub place: u64,
}

#[repr(C)]
#[derive(Clone, Copy, PartialEq, Eq, Debug)]
pub struct FirstAnswer {
    pub refused: Refused,
    pub found: bool,
    pub tick: u64,
    pub evaluations: u64,
}

#[repr(C)]
#[derive(Clone, Copy, PartialEq, Eq, Debug)]
pub struct HeightAnswer {
    pub refused: Refused,
    pub height: i64,
}

#[repr(C)]
#[derive(Clone, Copy, Debug)]
pub struct NearAnswer {
    pub refused: Refused,
    pub height: f64,
    pub error: f64,
}

#[repr(C)]
#[derive(Clone, Copy, Debug)]
pub struct SightingAnswer {
    pub refused: Refused,
    pub seen: bool,
    pub above: f64,
}

#[repr(C)]
#[derive(Clone, Copy, PartialEq, Eq, Debug)]
pub struct Part {
    pub place: u64,
    pub length: u64,
}

#[repr(C)]
#[derive(Clone, Copy, PartialEq, Eq, Debug)]
pub struct GapAnswer {
    pub refused: Refused,
    pub found: bool,
    pub span: u64,
}

#[repr(C)]
#[derive(Clone, Copy, PartialEq, Eq, Debug)]
pub struct TableAnswer {
    pub refused: Refused,
    pub entries: u64,
    pub rises: bool,
    pub evaluations: u64,
}

#[repr(C)]
#[derive(Clone, Copy, PartialEq, Eq, Debug)]
pub struct CountAnswer {
    pub refused: Refused,
    pub ticks: u64,
}

#[repr(C)]
#[derive(Clone, Copy, PartialEq, Eq, Debug)]
pub struct HighestAnswer {
    pub refused: Refused,
    pub tick: u64,
}

// A lent slice is a pointer and then a length.
mod exported {
    use super::*;

    extern "C" {
        pub fn pocketmica_check(spans: *const i32, count: usize) -> Refused;
        pub fn pocketmica_first(
            spans: *const i32,
            count: usize,
            line: i64,
            from: u64,
            what: u64,
        ) -> FirstAnswer;
        pub fn pocketmica_height(spans: *const i32, count: usize, tick: u64) -> HeightAnswer;
        pub fn pocketmica_near(spans: *const i32, count: usize, tick: u64) -> NearAnswer;
        pub fn pocketmica_sighting(
            spans: *const i32,
            count: usize,
            line: i64,
            tick: u64,
        ) -> SightingAnswer;
        pub fn pocketmica_spans(spans: *const i32, count: usize, first: u64, end: u64) -> Part;
        pub fn pocketmica_gap(spans: *const i32, count: usize) -> GapAnswer;
        pub fn pocketmica_tick(span: u16, tick: u16) -> u64;
        pub fn pocketmica_count(spans: *const i32, count: usize, line: i64) -> CountAnswer;
        pub fn pocketmica_highest(spans: *const i32, count: usize) -> HighestAnswer;
        pub fn pocketmica_table(
            spans: *const i32,
            count: usize,
            line: i64,
            from: u64,
            end: u64,
            into: *mut u64,
            room: usize,
        ) -> TableAnswer;
    }
}

pub fn check(spans: &[i32]) -> Refused {
    unsafe { exported::pocketmica_check(spans.as_ptr(), spans.len()) }
}

pub fn first(spans: &[i32], line: i64, from: u64, what: u64) -> FirstAnswer {
    unsafe { exported::pocketmica_first(spans.as_ptr(), spans.len(), line, from, what) }
}

pub fn height(spans: &[i32], tick: u64) -> HeightAnswer {
    unsafe { exported::pocketmica_height(spans.as_ptr(), spans.len(), tick) }
}

pub fn near(spans: &[i32], tick: u64) -> NearAnswer {
    unsafe { exported::pocketmica_near(spans.as_ptr(), spans.len(), tick) }
}

pub fn sighting(spans: &[i32], line: i64, tick: u64) -> SightingAnswer {
    unsafe { exported::pocketmica_sighting(spans.as_ptr(), spans.len(), line, tick) }
}

pub fn spans(spans: &[i32], first: u64, end: u64) -> Part {
    unsafe { exported::pocketmica_spans(spans.as_ptr(), spans.len(), first, end) }
}

pub fn gap(spans: &[i32]) -> GapAnswer {
    unsafe { exported::pocketmica_gap(spans.as_ptr(), spans.len()) }
}

pub fn tick(span: u16, tick: u16) -> u64 {
    unsafe { exported::pocketmica_tick(span, tick) }
}

pub fn count(spans: &[i32], line: i64) -> CountAnswer {
    unsafe { exported::pocketmica_count(spans.as_ptr(), spans.len(), line) }
}

pub fn highest(spans: &[i32]) -> HighestAnswer {
    unsafe { exported::pocketmica_highest(spans.as_ptr(), spans.len()) }
}

pub fn table(spans: &[i32], line: i64, from: u64, end: u64, into: &mut [u64]) -> TableAnswer {
    unsafe {
        exported::pocketmica_table(
            spans.as_ptr(),
            spans.len(),
            line,
            from,
            end,
            into.as_mut_ptr(),
            into.len(),
        )
    }
}
