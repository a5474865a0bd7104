//! Numbers from bytes, the byte of most weight first.

/// One to four bytes as a number that is never negative.
pub fn unsigned(bytes: &[u8]) -> u32 {
    assert!((1..=4).contains(&bytes.len()));
    bytes.iter().fold(0u32, |number, byte| (number << 8) | u32::from(*byte))
}

/// One to four bytes as a two's complement number.
pub fn signed(bytes: &[u8]) -> i32 {
    let plain = i64::from(unsigned(bytes));
    let whole = 1i64 << (8 * bytes.len());
    let value = if plain >= whole / 2 { plain - whole } else { plain };
    i32::try_from(value).expect("four bytes at most")
}

/// A character's code or a font's number: only its form of four bytes has a sign.
pub fn signed_if_four(bytes: &[u8]) -> i32 {
    if bytes.len() == 4 {
        signed(bytes)
    } else {
        i32::try_from(unsigned(bytes)).expect("three bytes at most")
    }
}

#[cfg(test)]
mod tests {
    use super::*;

    #[test]
    fn both_readings() {
        assert_eq!(unsigned(&[255]), 255);
        assert_eq!(signed(&[255]), -1);
        assert_eq!(signed(&[127]), 127);
        assert_eq!(unsigned(&[1, 2]), 258);
        assert_eq!(signed(&[128, 0]), -32_768);
        assert_eq!(unsigned(&[255, 255, 255]), 16_777_215);
        assert_eq!(signed(&[255, 255, 255]), -1);
        assert_eq!(unsigned(&[255, 255, 255, 255]), u32::MAX);
        assert_eq!(signed(&[128, 0, 0, 0]), i32::MIN);
        assert_eq!(signed(&[127, 255, 255, 255]), i32::MAX);
        assert_eq!(signed_if_four(&[255, 255, 255]), 16_777_215);
        assert_eq!(signed_if_four(&[255, 255, 255, 255]), -1);
    }
}
