//! The two functions that docs/FIRMWARE.md offers to C, as Rust functions.

use crate::frame::Frame;
use crate::terms;

/// The cause, 1 or 2, for which twelve bytes are no frame; 0 where neither
/// holds, and 255 for any other length.
pub fn frame_fault(bytes: &[u8]) -> u8 {
    match <&[u8; 12]>::try_from(bytes) {
        Ok(bytes) => match Frame::from_bytes(bytes).content() {
            Ok(_) => 0,
            Err(fault) => fault.cause.number(),
        },
        Err(_) => 255,
    }
}

/// SW + RW + K, and 0 where one of the four is out of range.
pub fn least_numbers(send_window: u32, receive_window: u32, lifetime: u32, gap: u32) -> u32 {
    terms::least_numbers(send_window, receive_window, lifetime, gap).unwrap_or(0)
}

#[cfg(test)]
mod tests {
    use super::*;

    #[test]
    fn faults() {
        let mut bytes = [0; 12];
        assert_eq!(frame_fault(&bytes), 1);
        bytes[0] = 0xC0;
        assert_eq!(frame_fault(&bytes), 0);
        bytes[11] = 1;
        assert_eq!(frame_fault(&bytes), 2);
        bytes[0] = 0x40;
        assert_eq!(frame_fault(&bytes), 0);
        assert_eq!(frame_fault(&bytes[1..]), 255);
        assert_eq!(frame_fault(&[]), 255);
        assert_eq!(frame_fault(&[0x40; 13]), 255);
    }

    #[test]
    fn least() {
        assert_eq!(least_numbers(2, 2, 3, 2), 6);
        assert_eq!(least_numbers(4_096, 4_096, 65_535, 1), 73_727);
        assert_eq!(least_numbers(4_097, 1, 1, 1), 0);
        assert_eq!(least_numbers(1, 1, 0, 1), 0);
        assert_eq!(least_numbers(1, 1, 1, 65_536), 0);
    }
}
