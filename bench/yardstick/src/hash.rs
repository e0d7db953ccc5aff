//! A short hash of bytes and of small numbers: the usual one of the standard library costs more than the rest of a lookup here.

use std::hash::{BuildHasherDefault, Hasher};

pub type Quick = BuildHasherDefault<Mixed>;

/// FNV-1a's prime of 64 bits.
const BYTE_FACTOR: u64 = 0x0100_0000_01b3;
/// 2^64 divided by the golden ratio, odd.
const NUMBER_FACTOR: u64 = 0x9e37_79b9_7f4a_7c15;

#[derive(Default)]
pub struct Mixed(u64);

impl Hasher for Mixed {
    fn finish(&self) -> u64 {
        self.0
    }

    fn write(&mut self, bytes: &[u8]) {
        for byte in bytes {
            self.0 = (self.0 ^ u64::from(*byte)).wrapping_mul(BYTE_FACTOR);
        }
    }

    fn write_u32(&mut self, number: u32) {
        self.0 = (self.0 ^ u64::from(number)).wrapping_mul(NUMBER_FACTOR);
    }

    fn write_usize(&mut self, number: usize) {
        self.write_u32(number as u32);
    }
}
