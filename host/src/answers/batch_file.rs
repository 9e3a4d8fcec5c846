//! The batch file of document 01: remark, values, draws, and a trailer that points back to them.

use super::little_endian::words;
use super::settings::Settings;

pub const MAX_FILE_BYTES: usize = 65_536;
const TRAILER_WORDS: usize = 9;
const TRAILER_BYTES: usize = 4 * TRAILER_WORDS;

#[derive(Clone, Debug, PartialEq)]
pub struct Batch {
    pub remark: Vec<u8>,
    pub rows: u32,
    pub dim: u32,
    /// Row after row, rows·dim of them.
    pub values: Vec<f32>,
    pub draws: Vec<u32>,
    pub settings: Settings,
}

impl Batch {
    pub fn file_bytes(&self) -> usize {
        self.remark.len() + 4 * self.values.len() + 4 * self.draws.len() + TRAILER_BYTES
    }

    /// The file, or how long it would be where that is too long.
    pub fn to_file(&self) -> Result<Vec<u8>, usize> {
        let length = self.file_bytes();
        if length > MAX_FILE_BYTES {
            return Err(length);
        }
        let mut file = self.remark.clone();
        let values_start = file.len();
        put_words(&mut file, self.values.iter().map(|value| value.to_bits()));
        let draws_start = file.len();
        put_words(&mut file, self.draws.iter().copied());
        let trailer: [u32; TRAILER_WORDS] = [
            values_start as u32,
            draws_start as u32,
            self.rows,
            self.dim,
            self.draws.len() as u32,
            self.settings.limit,
            self.settings.branching,
            self.settings.weight.to_bits(),
            self.settings.budget,
        ];
        put_words(&mut file, trailer);
        Ok(file)
    }

    /// Nothing where the file does not have the shape; 128 bits hold every product of its numbers.
    pub fn from_file(file: &[u8]) -> Option<Self> {
        if file.len() > MAX_FILE_BYTES {
            return None;
        }
        let trailer_start = file.len().checked_sub(TRAILER_BYTES)?;
        let trailer = words(&file[trailer_start..]);
        let wide = |word: usize| trailer[word] as u128;
        let draws_follow = wide(1) == wide(0) + 4 * wide(2) * wide(3);
        let trailer_follows = trailer_start as u128 == wide(1) + 4 * wide(4);
        if !draws_follow || !trailer_follows {
            return None;
        }
        let (values_start, draws_start) = (trailer[0] as usize, trailer[1] as usize);
        let bits = words(&file[values_start..draws_start]);
        Some(Self {
            remark: file[..values_start].to_vec(),
            rows: trailer[2],
            dim: trailer[3],
            values: bits.into_iter().map(f32::from_bits).collect(),
            draws: words(&file[draws_start..trailer_start]),
            settings: Settings {
                limit: trailer[5],
                branching: trailer[6],
                weight: f32::from_bits(trailer[7]),
                budget: trailer[8],
            },
        })
    }
}

/// What keeps a file from having the shape of a batch file, in its own numbers.
pub fn misshapen(file: &[u8]) -> String {
    let length = file.len();
    if length > MAX_FILE_BYTES {
        return format!("it has {length} bytes; a batch file has at most {MAX_FILE_BYTES}");
    }
    let Some(trailer_start) = length.checked_sub(TRAILER_BYTES) else {
        return format!("it has {length} bytes; the trailer alone has {TRAILER_BYTES}");
    };
    let trailer = words(&file[trailer_start..]);
    format!(
        "its trailer says {} rows of {} readings from byte {} on and {} draws from byte {} on, which should follow each other up to the trailer at byte {trailer_start}",
        trailer[2], trailer[3], trailer[0], trailer[4], trailer[1]
    )
}

fn put_words(file: &mut Vec<u8>, words: impl IntoIterator<Item = u32>) {
    for word in words {
        file.extend_from_slice(&word.to_le_bytes());
    }
}

#[cfg(test)]
mod tests {
    use super::*;

    /// P1 of document 01 with a remark of three bytes, so that nothing is aligned.
    fn p1() -> Batch {
        Batch {
            remark: b"lot".to_vec(),
            rows: 4,
            dim: 1,
            values: vec![0.0, 1.0, 10.0, 11.0],
            draws: vec![0],
            settings: Settings {
                limit: 2,
                branching: 2,
                weight: 0.5,
                budget: 4,
            },
        }
    }

    #[test]
    fn the_trailer_has_nine_words_in_order() {
        let file = p1().to_file().unwrap();
        assert_eq!(file.len(), 3 + 16 + 4 + 36);
        assert_eq!(&file[..3], b"lot");
        let trailer = words(&file[file.len() - 36..]);
        assert_eq!(trailer, [3, 19, 4, 1, 1, 2, 2, 0.5f32.to_bits(), 4]);
    }

    #[test]
    fn what_is_written_is_read_again() {
        let batch = p1();
        assert_eq!(
            Batch::from_file(&batch.to_file().unwrap()),
            Some(batch.clone())
        );
        assert_eq!(batch.file_bytes(), batch.to_file().unwrap().len());
    }

    #[test]
    fn the_longest_file_is_written_and_read_and_one_byte_more_is_not() {
        let mut batch = p1();
        batch.remark = vec![b'x'; MAX_FILE_BYTES - 56];
        let file = batch.to_file().unwrap();
        assert_eq!(file.len(), MAX_FILE_BYTES);
        assert!(Batch::from_file(&file).is_some());
        batch.remark.push(b'x');
        assert_eq!(batch.to_file(), Err(MAX_FILE_BYTES + 1));
        let mut longer = vec![b'x'];
        longer.extend(file);
        assert!(Batch::from_file(&longer).is_none());
    }

    #[test]
    fn a_file_of_another_shape_is_not_read() {
        let file = p1().to_file().unwrap();
        assert!(Batch::from_file(&[]).is_none());
        assert!(Batch::from_file(&file[1..]).is_none());
        assert!(Batch::from_file(&file[..file.len() - 1]).is_none());
        // Four times rows times dim is 2^64 here, which 64 bits would take for no values.
        let wrapping = Batch {
            rows: 1 << 31,
            dim: 1 << 31,
            values: vec![],
            ..p1()
        };
        let wrapping = wrapping.to_file().unwrap();
        assert!(Batch::from_file(&wrapping).is_none());
    }

    #[test]
    fn what_is_wrong_with_a_shape_is_told_in_numbers() {
        let file = p1().to_file().unwrap();
        assert!(misshapen(&file[..35]).contains("35 bytes"));
        assert!(misshapen(&[0; MAX_FILE_BYTES + 1]).contains("65537 bytes"));
        let told = misshapen(&file[1..]);
        let words = "4 rows of 1 readings from byte 3 on and 1 draws from byte 19 on";
        assert!(told.contains(words) && told.ends_with("byte 22"), "{told}");
    }
}
