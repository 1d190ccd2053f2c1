//! Numbers and strings as a file has them, for the tests here, those of depot, and compare/.

/// A number, seven bits a byte.
pub fn varint(mut value: u64) -> Vec<u8> {
    let mut bytes = vec![];
    while value >= 128 {
        bytes.push(value as u8 | 128);
        value >>= 7;
    }
    bytes.push(value as u8);
    bytes
}

/// The number of a signed value: odd where it is negative.
pub fn number_of(value: i64) -> u64 {
    value.unsigned_abs() * 2 + u64::from(value < 0)
}

pub fn signed(value: i64) -> Vec<u8> {
    varint(number_of(value))
}

pub fn string(text: &str) -> Vec<u8> {
    varint(text.len() as u64).into_iter().chain(text.bytes().map(|byte| byte ^ 0x80)).collect()
}
