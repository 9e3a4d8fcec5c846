//! Numbers from little-endian bytes, as files and lent slices have them.

pub fn words(bytes: &[u8]) -> Vec<u32> {
    let word = |four: &[u8]| u32::from_le_bytes([four[0], four[1], four[2], four[3]]);
    bytes.chunks_exact(4).map(word).collect()
}

pub fn halves(bytes: &[u8]) -> Vec<u16> {
    let half = |two: &[u8]| u16::from_le_bytes([two[0], two[1]]);
    bytes.chunks_exact(2).map(half).collect()
}

#[cfg(test)]
mod tests {
    use super::*;

    #[test]
    fn the_first_byte_is_the_lowest() {
        let bytes = [1, 2, 3, 4, 255, 0, 0, 128];
        assert_eq!(words(&bytes), [0x0403_0201, 0x8000_00ff]);
        assert_eq!(halves(&bytes), [0x0201, 0x0403, 0x00ff, 0x8000]);
    }
}
