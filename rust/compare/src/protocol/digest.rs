//! The digest of bytes, and how digests of parts join.

/// What the digest is multiplied by at each byte.
const FACTOR: u64 = 8_388_593;
/// The digest is taken modulo 2^40.
const MASK: u64 = (1 << 40) - 1;
/// How many bytes are taken at a time.
const STRIDE: usize = 8;
/// The powers of the factor for each byte of a stride, the first byte's first.
const POWERS: [u64; STRIDE] = {
    let mut powers = [1u64; STRIDE];
    let mut at = STRIDE - 1;
    while at > 0 {
        powers[at - 1] = powers[at].wrapping_mul(FACTOR);
        at -= 1;
    }
    powers
};

/// The digest of bytes: h starts as 0 and for each byte becomes
/// (h * 8,388,593 + byte + 1) mod 2^40.
pub fn digest(bytes: &[u8]) -> u64 {
    let strides = bytes.chunks_exact(STRIDE);
    let rest = strides.remainder();
    let whole = strides.fold(0, |h: u64, stride| {
        let sum = stride
            .iter()
            .zip(POWERS)
            .fold(0, |sum: u64, (&byte, power)| {
                sum.wrapping_add(power.wrapping_mul(u64::from(byte) + 1))
            });
        h.wrapping_mul(POWERS[0].wrapping_mul(FACTOR))
            .wrapping_add(sum)
    });
    rest.iter().fold(whole, |h, &byte| {
        h.wrapping_mul(FACTOR).wrapping_add(u64::from(byte) + 1)
    }) & MASK
}

/// The factor to the power of a length.
pub fn power(length: usize) -> u64 {
    let (mut power, mut square, mut left) = (1u64, FACTOR, length);
    while left > 0 {
        if left % 2 == 1 {
            power = power.wrapping_mul(square);
        }
        square = square.wrapping_mul(square);
        left /= 2;
    }
    power
}

/// The digest of bytes whose first part has the digest `h` and whose rest has
/// the digest `rest` and a length of which `power` is the [`power`].
pub fn joined(h: u64, rest: u64, power: u64) -> u64 {
    h.wrapping_mul(power).wrapping_add(rest) & MASK
}

#[cfg(test)]
mod tests {
    use super::*;
    use crate::protocol::ram_of;

    #[test]
    fn digests_by_hand() {
        assert_eq!(digest(&[]), 0);
        assert_eq!(digest(&[0]), 1);
        assert_eq!(digest(&[165]), 166);
        assert_eq!(digest(&[1, 2]), 2 * 8_388_593 + 3);
        let whole: u64 = (256 * 8_388_593 + 256) * 8_388_593 + 256;
        assert_eq!(digest(&[255; 3]), whole % (1 << 40));
    }

    #[test]
    fn digests_byte_by_byte() {
        let bytes = ram_of(1_000, 9);
        for length in [0, 1, 7, 8, 9, 15, 16, 17, 776, 1_000] {
            let plain = bytes[..length].iter().fold(0, |h: u64, &byte| {
                (h * 8_388_593 + u64::from(byte) + 1) % (1 << 40)
            });
            assert_eq!(digest(&bytes[..length]), plain, "{length}");
        }
    }

    #[test]
    fn digests_join() {
        let bytes = ram_of(5_000, 3);
        for cut in [0, 1, 1_024, 4_999, 5_000] {
            let (first, rest) = bytes.split_at(cut);
            let whole = joined(digest(first), digest(rest), power(rest.len()));
            assert_eq!(whole, digest(&bytes), "{cut}");
        }
    }
}
