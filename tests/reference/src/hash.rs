//! FNV-1a with 64 bits, over bytes; numbers go in as eight bytes, low byte first.

pub fn of_bytes(bytes: impl IntoIterator<Item = u8>) -> u64 {
    bytes.into_iter().fold(0xcbf2_9ce4_8422_2325, |hash, byte| {
        (hash ^ byte as u64).wrapping_mul(0x0000_0100_0000_01b3)
    })
}

pub fn of_numbers(numbers: &[i64]) -> u64 {
    of_bytes(numbers.iter().flat_map(|number| number.to_le_bytes()))
}
