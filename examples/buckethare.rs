//! The C interface of Buckethare for Rust: safe functions over slices, and the header's constants.
//!
//! A function has the name of its C function without the prefix `bh_`, a constant that of the
//! header without `BH_`. The header says what each does and answers. A function returns the answer,
//! and with it what the C function puts into `out`. What C asks for is kept: a slice is never null,
//! Rust's borrows keep what a call writes from all others, and two shared slices of one call are
//! copied where they could overlap.
//!
//! For editions 2018 and 2021. Link with libbuckethare.
#![allow(dead_code)]

pub const VERSION: &str = "0.16.0";

// Answers.
pub const DONE: u32 = 0;
pub const STOPPED: u32 = 1;
pub const BAD_ARGUMENT: u32 = 9;
pub const NO_MEMORY: u32 = 10;
pub const BAD_PIXEL_SIZE: u32 = 11;
pub const BAD_CONTROL: u32 = 12;
pub const BAD_PITCH: u32 = 13;
pub const BAD_WINDOW: u32 = 14;
pub const BAD_PLACE: u32 = 15;
pub const BAD_START: u32 = 16;
pub const PAST_END: u32 = 17;
pub const BAD_SIZE: u32 = 18;
pub const NO_CACHE: u32 = 19;
pub const BAD_FORM: u32 = 20;
pub const BAD_NAME: u32 = 21;
pub const BAD_VALUE: u32 = 22;
pub const TOO_MANY: u32 = 23;
pub const NO_POINT: u32 = 24;

// Indices of the cycles of a field move, and modes of MOVE.
pub const CYCLES_READ: usize = 0;
pub const CYCLES_WRITE: usize = 1;
pub const INDIRECT: u32 = 0;
pub const POSTINCREMENT: u32 = 1;
pub const PREDECREMENT: u32 = 2;

// Indices of the settings, and numbers of a plan's names.
pub const SETTINGS: usize = 13;
pub const SADDR: usize = 0;
pub const SPTCH: usize = 1;
pub const DADDR: usize = 2;
pub const DPTCH: usize = 3;
pub const OFFSET: usize = 4;
pub const WSTART: usize = 5;
pub const WEND: usize = 6;
pub const DYDX: usize = 7;
pub const COLOR0: usize = 8;
pub const COLOR1: usize = 9;
pub const CONTROL: usize = 10;
pub const PSIZE: usize = 11;
pub const PMASK: usize = 12;
pub const SEED: usize = 13;

// Indices of the results of PIXT and DRAV.
pub const PIXEL_RESULTS: usize = 4;
pub const PIXEL_VISITED: usize = 0;
pub const PIXEL_V: usize = 1;
pub const PIXEL_REQUEST: usize = 2;
pub const PIXEL_VALUE: usize = 3;

// Drawings, and indices of their results.
pub const FILL_L: u32 = 0;
pub const FILL_XY: u32 = 1;
pub const PIXBLT_L_L: u32 = 2;
pub const PIXBLT_L_XY: u32 = 3;
pub const PIXBLT_XY_L: u32 = 4;
pub const PIXBLT_XY_XY: u32 = 5;
pub const PIXBLT_B_L: u32 = 6;
pub const PIXBLT_B_XY: u32 = 7;
pub const DRAW_RESULTS: usize = 7;
pub const DRAW_PLACE: usize = 0;
pub const DRAW_VISITED: usize = 1;
pub const DRAW_V: usize = 2;
pub const DRAW_REQUEST: usize = 3;
pub const DRAW_SADDR: usize = 4;
pub const DRAW_DADDR: usize = 5;
pub const DRAW_DYDX: usize = 6;

// Indices of the time of a FILL.
pub const FILL_RESULTS: usize = 4;
pub const FILL_SETUP: usize = 0;
pub const FILL_TRANSFER: usize = 1;
pub const FILL_ADJUSTMENT: usize = 2;
pub const FILL_STATES: usize = 3;

// The cache state, and kinds of a fetch.
pub const CACHE_NUMBERS: usize = 12;
pub const CACHE_SEGMENT: usize = 0;
pub const CACHE_FLAGS: usize = 4;
pub const CACHE_ORDER: usize = 8;
pub const CACHE_FRESH: [u32; CACHE_NUMBERS] = [0, 0, 0, 0, 0, 0, 0, 0, 0, 1, 2, 3];
pub const HIT: u32 = 0;
pub const SUBSEGMENT_MISS: u32 = 1;
pub const SEGMENT_MISS: u32 = 2;
pub const DISABLED: u32 = 3;
pub const REFUSED: u32 = 19;

// A plan's names, table and lines, and indices of an axis and of the results of reading.
pub const NAMES: usize = 14;
pub const TABLE: usize = 528;
pub const AXIS_NAME: usize = 0;
pub const AXIS_COUNT: usize = 1;
pub const AXIS_VALUES: usize = 2;
pub const PLAN_RESULTS: usize = 5;
pub const PLAN_LINE: usize = 0;
pub const PLAN_WORDS: usize = 1;
pub const PLAN_DRAW: usize = 2;
pub const PLAN_AXES: usize = 3;
pub const PLAN_POINTS: usize = 4;
pub const LINE: usize = 80;

extern "C" {
    fn bh_field_read(memory: *const u16, words: usize, address: u32, size: u32, is_signed: u32,
                     out: *mut u32, out_length: usize) -> u32;
    fn bh_field_write(memory: *mut u16, words: usize, address: u32, size: u32, value: u32) -> u32;
    fn bh_field_cycles(address: u32, size: u32, out: *mut u32, out_length: usize) -> u32;
    fn bh_move_states(address: u32, size: u32, mode: u32, is_signed: u32, is_cached: u32,
                      out: *mut u32, out_length: usize) -> u32;
    fn bh_pixt_to_linear(memory: *mut u16, words: usize, settings: *const u32,
                         settings_length: usize, value: u32, address: u32, v: u32, out: *mut u32,
                         out_length: usize) -> u32;
    fn bh_pixt_to_xy(memory: *mut u16, words: usize, settings: *const u32, settings_length: usize,
                     value: u32, xy: u32, v: u32, out: *mut u32, out_length: usize) -> u32;
    fn bh_pixt_from_linear(memory: *const u16, words: usize, settings: *const u32,
                           settings_length: usize, address: u32, v: u32, out: *mut u32,
                           out_length: usize) -> u32;
    fn bh_pixt_from_xy(memory: *const u16, words: usize, settings: *const u32,
                       settings_length: usize, xy: u32, v: u32, out: *mut u32,
                       out_length: usize) -> u32;
    fn bh_drav(memory: *mut u16, words: usize, settings: *const u32, settings_length: usize,
               step: u32, point: u32, v: u32, out: *mut u32, out_length: usize) -> u32;
    fn bh_draw(memory: *mut u16, words: usize, operation: u32, settings: *const u32,
               settings_length: usize, place: u64, v: u32, budget: u64, out: *mut u64,
               out_length: usize) -> u32;
    fn bh_outcome(words: usize, operation: u32, settings: *const u32, settings_length: usize,
                  place: u64, v: u32, budget: u64, out: *mut u64, out_length: usize) -> u32;
    fn bh_fill_states(words: usize, operation: u32, settings: *const u32, settings_length: usize,
                      out: *mut u64, out_length: usize) -> u32;
    fn bh_fetch(state: *mut u32, state_length: usize, address: u32, control: u16, out: *mut u32,
                out_length: usize) -> u32;
    fn bh_fill_image(memory: *mut u16, words: usize, seed: u64) -> u32;
    fn bh_changed(before: *const u16, words_before: usize, after: *const u16, words_after: usize,
                  out: *mut u64, out_length: usize) -> u32;
    fn bh_plan_read(text: *const u8, length: usize, table: *mut u64, table_length: usize,
                    out: *mut u64, out_length: usize) -> u32;
    fn bh_experiment(table: *const u64, table_length: usize, axes: u64, point: u64, out: *mut u64,
                     out_length: usize) -> u32;
    fn bh_lines(table: *const u64, table_length: usize, axes: u64, draw: u64, first: u64,
                count: u64, image: *mut u16, image_words: usize, memory: *mut u16,
                memory_words: usize, out: *mut u8, out_length: usize, bytes: *mut u64,
                bytes_length: usize) -> u32;
    fn bh_put_heading(out: *mut u8, out_length: usize, at: usize) -> usize;
    fn bh_put_refused(out: *mut u8, out_length: usize, at: usize, number: u64,
                      line: u64) -> usize;
}

pub type Settings = [u32; SETTINGS];
pub type Pixel = [u32; PIXEL_RESULTS];
pub type Drawn = [u64; DRAW_RESULTS];

/// Settings from some of them, each with its index; the others are 0.
pub const fn settings(given: &[(usize, u32)]) -> Settings {
    let mut all = [0; SETTINGS];
    let mut i = 0;
    while i < given.len() {
        all[given[i].0] = given[i].1;
        i += 1;
    }
    all
}

// ---- Fields

pub fn field_read(memory: &[u16], address: u32, size: u32, is_signed: bool) -> (u32, u32) {
    let mut out = 0;
    let answer = unsafe {
        bh_field_read(memory.as_ptr(), memory.len(), address, size, is_signed as u32, &mut out, 1)
    };
    (answer, out)
}

pub fn field_write(memory: &mut [u16], address: u32, size: u32, value: u32) -> u32 {
    unsafe { bh_field_write(memory.as_mut_ptr(), memory.len(), address, size, value) }
}

pub fn field_cycles(address: u32, size: u32) -> (u32, [u32; 2]) {
    let mut out = [0; 2];
    let answer = unsafe { bh_field_cycles(address, size, out.as_mut_ptr(), out.len()) };
    (answer, out)
}

pub fn move_states(address: u32, size: u32, mode: u32, is_signed: bool,
                   is_cached: bool) -> (u32, u32) {
    let mut out = 0;
    let answer = unsafe {
        bh_move_states(address, size, mode, is_signed as u32, is_cached as u32, &mut out, 1)
    };
    (answer, out)
}

// ---- Single pixels

pub fn pixt_to_linear(memory: &mut [u16], settings: &Settings, value: u32, address: u32,
                      v: bool) -> (u32, Pixel) {
    let mut out = [0; PIXEL_RESULTS];
    let answer = unsafe {
        bh_pixt_to_linear(memory.as_mut_ptr(), memory.len(), settings.as_ptr(), settings.len(),
                          value, address, v as u32, out.as_mut_ptr(), out.len())
    };
    (answer, out)
}

pub fn pixt_to_xy(memory: &mut [u16], settings: &Settings, value: u32, xy: u32,
                  v: bool) -> (u32, Pixel) {
    let mut out = [0; PIXEL_RESULTS];
    let answer = unsafe {
        bh_pixt_to_xy(memory.as_mut_ptr(), memory.len(), settings.as_ptr(), settings.len(), value,
                      xy, v as u32, out.as_mut_ptr(), out.len())
    };
    (answer, out)
}

pub fn pixt_from_linear(memory: &[u16], settings: &Settings, address: u32,
                        v: bool) -> (u32, Pixel) {
    let settings = *settings;
    let mut out = [0; PIXEL_RESULTS];
    let answer = unsafe {
        bh_pixt_from_linear(memory.as_ptr(), memory.len(), settings.as_ptr(), settings.len(),
                            address, v as u32, out.as_mut_ptr(), out.len())
    };
    (answer, out)
}

pub fn pixt_from_xy(memory: &[u16], settings: &Settings, xy: u32, v: bool) -> (u32, Pixel) {
    let settings = *settings;
    let mut out = [0; PIXEL_RESULTS];
    let answer = unsafe {
        bh_pixt_from_xy(memory.as_ptr(), memory.len(), settings.as_ptr(), settings.len(), xy,
                        v as u32, out.as_mut_ptr(), out.len())
    };
    (answer, out)
}

pub fn drav(memory: &mut [u16], settings: &Settings, step: u32, point: u32,
            v: bool) -> (u32, Pixel) {
    let mut out = [0; PIXEL_RESULTS];
    let answer = unsafe {
        bh_drav(memory.as_mut_ptr(), memory.len(), settings.as_ptr(), settings.len(), step, point,
                v as u32, out.as_mut_ptr(), out.len())
    };
    (answer, out)
}

// ---- Drawings

pub fn draw(memory: &mut [u16], operation: u32, settings: &Settings, place: u64, v: bool,
            budget: u64) -> (u32, Drawn) {
    let mut out = [0; DRAW_RESULTS];
    let answer = unsafe {
        bh_draw(memory.as_mut_ptr(), memory.len(), operation, settings.as_ptr(), settings.len(),
                place, v as u32, budget, out.as_mut_ptr(), out.len())
    };
    (answer, out)
}

pub fn outcome(words: usize, operation: u32, settings: &Settings, place: u64, v: bool,
               budget: u64) -> (u32, Drawn) {
    let mut out = [0; DRAW_RESULTS];
    let answer = unsafe {
        bh_outcome(words, operation, settings.as_ptr(), settings.len(), place, v as u32, budget,
                   out.as_mut_ptr(), out.len())
    };
    (answer, out)
}

pub fn fill_states(words: usize, operation: u32,
                   settings: &Settings) -> (u32, [u64; FILL_RESULTS]) {
    let mut out = [0; FILL_RESULTS];
    let answer = unsafe {
        bh_fill_states(words, operation, settings.as_ptr(), settings.len(), out.as_mut_ptr(),
                       out.len())
    };
    (answer, out)
}

// ---- Instruction cache

/// The answer and the kind. The state is `CACHE_FRESH` at first.
pub fn fetch(state: &mut [u32; CACHE_NUMBERS], address: u32, control: u16) -> (u32, u32) {
    let mut out = 0;
    let answer = unsafe {
        bh_fetch(state.as_mut_ptr(), state.len(), address, control, &mut out, 1)
    };
    (answer, out)
}

// ---- Images

pub fn fill_image(memory: &mut [u16], seed: u64) -> u32 {
    unsafe { bh_fill_image(memory.as_mut_ptr(), memory.len(), seed) }
}

pub fn changed(before: &[u16], after: &[u16]) -> (u32, u64) {
    let (first, second) = (before.as_ptr_range(), after.as_ptr_range());
    if first.start < second.end && second.start < first.end {
        return changed(&before.to_vec(), after);
    }
    let mut out = 0;
    let answer = unsafe {
        bh_changed(before.as_ptr(), before.len(), after.as_ptr(), after.len(), &mut out, 1)
    };
    (answer, out)
}

// ---- Plans

pub fn plan_read(text: &[u8], table: &mut [u64; TABLE]) -> (u32, [u64; PLAN_RESULTS]) {
    let mut out = [0; PLAN_RESULTS];
    let answer = unsafe {
        bh_plan_read(text.as_ptr(), text.len(), table.as_mut_ptr(), table.len(), out.as_mut_ptr(),
                     out.len())
    };
    (answer, out)
}

pub fn experiment(table: &[u64], axes: u64, point: u64) -> (u32, [u64; NAMES]) {
    let mut out = [0; NAMES];
    let answer = unsafe {
        bh_experiment(table.as_ptr(), table.len(), axes, point, out.as_mut_ptr(), out.len())
    };
    (answer, out)
}

/// The answer, and how many bytes of `out` the lines are.
#[allow(clippy::too_many_arguments)]
pub fn lines(table: &[u64], axes: u64, draw: u64, first: u64, count: u64, image: &mut [u16],
             memory: &mut [u16], out: &mut [u8]) -> (u32, usize) {
    let mut bytes = 0;
    let answer = unsafe {
        bh_lines(table.as_ptr(), table.len(), axes, draw, first, count, image.as_mut_ptr(),
                 image.len(), memory.as_mut_ptr(), memory.len(), out.as_mut_ptr(), out.len(),
                 &mut bytes, 1)
    };
    (answer, bytes as usize)
}

pub fn put_heading(out: &mut [u8], at: usize) -> usize {
    unsafe { bh_put_heading(out.as_mut_ptr(), out.len(), at) }
}

pub fn put_refused(out: &mut [u8], at: usize, number: u64, line: u64) -> usize {
    unsafe { bh_put_refused(out.as_mut_ptr(), out.len(), at, number, line) }
}
