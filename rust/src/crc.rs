//! The CRC-32 of a block (P1): that of IEEE 802.3, reflected, eight bytes at a time
//! ("slicing by eight").

/// The polynomial 04C11DB7 with its bits in reverse order: the lowest one comes first.
const POLYNOMIAL: u32 = 0xEDB8_8320;
/// Bytes that are taken together.
const SLICE: usize = 8;

/// What a byte leaves behind when so many zero bytes follow it: one table for each place
/// in a slice, the last place first.
static TABLES: [[u32; 256]; SLICE] = tables();

const fn tables() -> [[u32; 256]; SLICE] {
    let mut tables = [[0; 256]; SLICE];
    let mut byte = 0;
    while byte < 256 {
        let mut left = byte as u32;
        let mut bit = 0;
        while bit < 8 {
            left = if left & 1 == 0 { left >> 1 } else { left >> 1 ^ POLYNOMIAL };
            bit += 1;
        }
        tables[0][byte] = left;
        byte += 1;
    }
    let mut zeros = 1;
    while zeros < SLICE {
        let mut byte = 0;
        while byte < 256 {
            let left = tables[zeros - 1][byte];
            tables[zeros][byte] = left >> 8 ^ tables[0][left as usize & 0xFF];
            byte += 1;
        }
        zeros += 1;
    }
    tables
}

/// The CRC-32 of these bytes. It begins with all bits set and ends with all bits turned.
pub fn crc32(bytes: &[u8]) -> u32 {
    let (slices, rest) = bytes.as_chunks::<SLICE>();
    let left = slices.iter().fold(u32::MAX, |left, slice| {
        let [a, b, c, d, e, f, g, h] = *slice;
        let [i, j, k, l] = left.to_le_bytes();
        let of = |zeros: usize, byte: u8| TABLES[zeros][usize::from(byte)];
        of(7, a ^ i)
            ^ of(6, b ^ j)
            ^ of(5, c ^ k)
            ^ of(4, d ^ l)
            ^ of(3, e)
            ^ of(2, f)
            ^ of(1, g)
            ^ of(0, h)
    });
    !rest.iter().fold(left, |left, byte| left >> 8 ^ TABLES[0][usize::from(left as u8 ^ byte)])
}
