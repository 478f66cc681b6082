//! CRC32C, the Castagnoli sum of RFC 3720 (004 section 4.7 and 8.1: polynomial
//! 0x1EDC6F41).

/// The polynomial 0x1EDC6F41 with its bits turned round: the sum takes the
/// lowest bit of each byte first.
const REFLECTED: u32 = 0x82F6_3B78;

/// The sum over all the bytes, bit by bit.
pub fn crc32c(bytes: &[u8]) -> u32 {
    let mut rest = 0xFFFF_FFFF;
    for &byte in bytes {
        rest ^= u32::from(byte);
        for _ in 0..8 {
            let low = rest & 1;
            rest >>= 1;
            if low == 1 {
                rest ^= REFLECTED;
            }
        }
    }
    rest ^ 0xFFFF_FFFF
}

#[cfg(test)]
mod tests {
    use super::crc32c;

    /// RFC 3720 B.4 prints the sum as bytes, lowest first.
    fn printed(bytes: &[u8]) -> [u8; 4] {
        crc32c(bytes).to_le_bytes()
    }

    #[test]
    fn vectors_of_rfc_3720_b_4() {
        let rising: Vec<u8> = (0..32).collect();
        let falling: Vec<u8> = (0..32).rev().collect();
        assert_eq!(printed(&[0; 32]), [0xAA, 0x36, 0x91, 0x8A]);
        assert_eq!(printed(&[0xFF; 32]), [0x43, 0xAB, 0xA8, 0x62]);
        assert_eq!(printed(&rising), [0x4E, 0x79, 0xDD, 0x46]);
        assert_eq!(printed(&falling), [0x5C, 0xDB, 0x3F, 0x11]);
        let mut read_10 = [0u8; 48];
        read_10[0] = 0x01;
        read_10[1] = 0xC0;
        read_10[16] = 0x14;
        read_10[22] = 0x04;
        read_10[27] = 0x14;
        read_10[31] = 0x18;
        read_10[32] = 0x28;
        read_10[40] = 0x02;
        assert_eq!(printed(&read_10), [0x56, 0x3A, 0x96, 0xD9]);
    }

    #[test]
    fn usual_check_value() {
        assert_eq!(crc32c(b"123456789"), 0xE306_9283);
        assert_eq!(crc32c(b""), 0);
    }
}
