//! The listing of a batch file through its wrapper.

use engine::exported;

const LISTING: &[u8] = b"accepted groups 2 splits 1\n2: 2 3\n2: 0 1\n";

/// 01's example P1: readings 0, 1, 10, 11, one draw, and the trailer.
fn p1() -> Vec<u8> {
    file(11.0)
}

/// The same with another last reading.
fn file(last: f32) -> Vec<u8> {
    let mut file = Vec::new();
    for value in [0.0f32, 1.0, 10.0, last] {
        file.extend_from_slice(&value.to_le_bytes());
    }
    for number in [0u32, 0, 16, 4, 1, 1, 2, 2, 0, 4] {
        file.extend_from_slice(&number.to_le_bytes());
    }
    file
}

#[test]
fn the_listing_stands_in_front_and_the_rest_stays() {
    let mut text = [0xa5u8; 60];
    let length = exported::list(&p1(), &mut text) as usize;
    assert_eq!(&text[..length], LISTING);
    assert!(text[length..].iter().all(|&byte| byte == 0xa5));
}

#[test]
fn a_short_buffer_gets_the_front() {
    let mut text = [0u8; 10];
    let length = exported::list(&p1(), &mut text) as usize;
    assert_eq!(length, LISTING.len());
    assert_eq!(text, LISTING[..10]);
}

#[test]
fn a_file_without_shape_is_refused_by_eight() {
    let mut text = [0u8; 10];
    let length = exported::list(&p1()[1..], &mut text) as usize;
    assert_eq!(&text[..length], b"refused 8\n");
}

#[test]
fn a_row_that_matches_nothing_is_refused_by_nine() {
    let mut text = [0u8; 10];
    let length = exported::list(&file(f32::NAN), &mut text) as usize;
    assert_eq!(&text[..length], b"refused 9\n");
}
