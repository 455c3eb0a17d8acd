//! The check byte, by long division of polynomials over GF(2).

/// The divisor x^8+x^4+x^3+x^2+1, highest power first.
const DIVISOR: [bool; 9] = [true, false, false, false, true, true, true, false, true];

/// The bits of some bytes, each byte high bit first.
pub fn bits_of(bytes: &[u8]) -> Vec<bool> {
    let one = |byte: &u8| {
        let byte = *byte;
        (0..8).map(move |k| byte & (0x80 >> k) != 0)
    };
    bytes.iter().flat_map(one).collect()
}

/// The whole bytes that some bits make, high bit first; leftover bits are dropped.
pub fn bytes_of(bits: &[bool]) -> Vec<u8> {
    let one = |eight: &[bool]| eight.iter().fold(0, |byte, bit| byte * 2 + u8::from(*bit));
    bits.chunks_exact(8).map(one).collect()
}

/// What is left of a dividend of at least eight bits, as one byte.
fn remainder(mut dividend: Vec<bool>) -> u8 {
    let quotient_places = dividend.len() - 8;
    for place in 0..quotient_places {
        if dividend[place] {
            for (offset, bit) in DIVISOR.iter().enumerate() {
                dividend[place + offset] ^= bit;
            }
        }
    }
    bytes_of(&dividend[quotient_places..])[0]
}

/// The register after these bytes, when it is all ones before the first of them.
///
/// Starting with all ones is the same as inverting the first eight bits divided.
pub fn register(bytes: &[u8]) -> u8 {
    let mut dividend = bits_of(bytes);
    dividend.extend([false; 8]);
    for bit in &mut dividend[..8] {
        *bit = !*bit;
    }
    remainder(dividend)
}

/// The check byte of these bytes: the register, inverted.
pub fn check(bytes: &[u8]) -> u8 {
    !register(bytes)
}

/// These bytes with their check byte after them.
pub fn with_check(bytes: &[u8]) -> Vec<u8> {
    [bytes, &[check(bytes)]].concat()
}
