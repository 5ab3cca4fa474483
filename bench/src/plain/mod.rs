//! The same jobs in plain Rust, as one would write them for their own sake.

pub mod codecs;
pub mod filters;
pub mod mail;
pub mod matching;
pub mod programs;
pub mod scripts;
pub mod sha256;
#[cfg(sqlite)]
pub mod store;

/// A number in which each octet counts with its place.
pub fn checksum(octets: &[u8]) -> u64 {
    octets.iter().fold(7u64, |sum, octet| sum.wrapping_mul(31).wrapping_add(u64::from(*octet)))
}

/// What stands for octets: their checksum where there are no rounds to be timed, else their length.
pub fn told(octets: &[u8], rounds: u32) -> u64 {
    if rounds == 0 { checksum(octets) } else { octets.len() as u64 }
}

/// The sum over so many rounds, or over one.
pub fn total(rounds: u32, mut round: impl FnMut() -> u64) -> u64 {
    (0..rounds.max(1)).fold(0u64, |sum, _| sum.wrapping_add(std::hint::black_box(round())))
}
