//! The functions of the static library as C sees them: a buffer is its address and its length. Every answer that is a
//! number is a value times 65536, plus the sum of the missing flags times 256, plus the refusal's number.

/// The kinds of instructions, a description's first number.
pub const PREDICATED: u32 = 1;
pub const QUARTER: u32 = 2;
pub const ZERO: u32 = 3;

/// How many numbers describe a word: the kind, and what the encode function of that kind takes, or zeros.
pub const FIELDS: usize = 11;

unsafe extern "C" {
    pub safe fn birdaghol_decode(flags: u32, word: u32) -> u64;

    pub fn birdaghol_print(flags: u32, word: u32, room: *mut u8, room_len: usize) -> u64;

    pub fn birdaghol_read(flags: u32, line: *const u8, line_len: usize) -> u64;

    pub safe fn birdaghol_encode_predicated(
        element_bytes: u32,
        products: u32,
        first_unsigned: bool,
        second_unsigned: bool,
        subtract: bool,
        tile: u32,
        pn: u32,
        pm: u32,
        zn: u32,
        zm: u32,
    ) -> u64;

    pub safe fn birdaghol_encode_quarter(
        element_bytes: u32,
        products: u32,
        first_unsigned: bool,
        second_unsigned: bool,
        subtract: bool,
        tile: u32,
        first: u32,
        first_pair: bool,
        second: u32,
        second_pair: bool,
    ) -> u64;

    pub safe fn birdaghol_encode_zero(mask: u8) -> u64;

    pub fn birdaghol_describe(flags: u32, word: u32, fields: *mut u32, fields_len: usize) -> u64;

    pub safe fn birdaghol_order_matters(flags: u32, a: u32, b: u32) -> bool;

    pub fn birdaghol_execute(
        flags: u32,
        streaming: bool,
        za_on: bool,
        vb: usize,
        z: *const u8,
        z_len: usize,
        p: *const u8,
        p_len: usize,
        za: *mut u8,
        za_len: usize,
        word: u32,
    ) -> u64;

    pub fn birdaghol_run(
        flags: u32,
        streaming: bool,
        za_on: bool,
        vb: usize,
        z: *const u8,
        z_len: usize,
        p: *const u8,
        p_len: usize,
        za: *mut u8,
        za_len: usize,
        words: *const u32,
        words_len: usize,
    ) -> u64;

    pub fn birdaghol_capture_write(
        flags: u32,
        streaming: bool,
        za_on: bool,
        vb: usize,
        words: *const u32,
        words_len: usize,
        z: *const u8,
        z_len: usize,
        p: *const u8,
        p_len: usize,
        za: *const u8,
        za_len: usize,
        file: *mut u8,
        file_len: usize,
    ) -> u64;

    pub fn birdaghol_capture_read(
        file: *const u8,
        file_len: usize,
        words: *mut u32,
        words_len: usize,
        z: *mut u8,
        z_len: usize,
        p: *mut u8,
        p_len: usize,
        za: *mut u8,
        za_len: usize,
    ) -> u64;
}
