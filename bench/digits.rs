//! Digits in base 36, for the readers in plain Rust.

/// Has a bit that no digit has.
pub const NO_DIGIT: u8 = 0x40;

/// What each byte is worth.
pub static DIGITS: [u8; 256] = {
    let mut digits = [NO_DIGIT; 256];
    let mut i = 0;
    while i < 36 {
        digits[b"0123456789ABCDEFGHIJKLMNOPQRSTUVWXYZ"[i] as usize] = i as u8;
        i += 1;
    }
    digits
};
