//! What `kimorefo.h` declares. Nothing checks that it is what the library has.

pub const FOUND: u32 = 0;
pub const LAWFUL: u32 = 0;
pub const NO_PATH: u32 = 1;
pub const BROKEN: u32 = 1;
pub const REFUSED: u32 = 3;
pub const START_BLOCKED: u32 = 4;
pub const NO_MEMORY: u32 = 7;
pub const NO_ROOM: u32 = 9;

extern "C" {
    pub fn kimorefo_plan(
        text: *const u8,
        text_bytes: usize,
        full: bool,
        room: *mut u8,
        room_bytes: usize,
        count: *mut usize,
        line: *mut u32,
        kind: *mut u32,
    ) -> u32;

    pub fn kimorefo_smooth(
        text: *const u8,
        text_bytes: usize,
        room: *mut u8,
        room_bytes: usize,
        count: *mut usize,
        line: *mut u32,
        kind: *mut u32,
    ) -> u32;

    pub fn kimorefo_check(
        text: *const u8,
        text_bytes: usize,
        report: *const u8,
        report_bytes: usize,
        line: *mut u32,
        kind: *mut u32,
        law: *mut u32,
    ) -> u32;

    pub fn kimorefo_version() -> u32;

    pub fn kimorefo_logic(room: *mut u8, room_bytes: usize, count: *mut usize) -> u32;
}
