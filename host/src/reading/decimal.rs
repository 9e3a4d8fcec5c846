//! Numbers as text: decimal, with an optional exponent, rounded to the nearest 32-bit float.

use super::traps;

/// Whether the words `nan`, `inf` and `-inf` stand for floats.
#[derive(Clone, Copy, Debug, PartialEq, Eq)]
pub enum Words {
    Taken,
    NotTaken,
}

/// A text that looks like a number, be it one that a float can take or not.
pub fn is_number(text: &str) -> bool {
    text.parse::<f32>().is_ok()
}

/// An overflow is never taken: only the words stand for what is not finite.
pub fn float(text: &str, words: Words) -> Result<f32, &'static str> {
    let value: f32 = text.parse().map_err(|_| traps::cell(text))?;
    let has_digits = text.contains(|character: char| character.is_ascii_digit());
    match (value.is_finite(), has_digits, words) {
        (true, _, _) | (false, false, Words::Taken) => Ok(value),
        (false, true, _) => Err("too large for a 32-bit float"),
        (false, false, Words::NotTaken) => Err("not a finite number"),
    }
}

#[cfg(test)]
mod tests {
    use super::*;

    #[test]
    fn decimal_numbers_are_taken() {
        for (text, value) in [("0.25", 0.25), ("-1e3", -1000.0), ("+.5", 0.5), ("7.", 7.0)] {
            assert_eq!(float(text, Words::NotTaken), Ok(value), "{text}");
        }
    }

    #[test]
    fn what_is_too_small_becomes_zero_with_its_sign() {
        let value = float("-1e-60", Words::NotTaken).unwrap();
        assert_eq!(value.to_bits(), (-0.0f32).to_bits());
    }

    #[test]
    fn the_largest_float_is_taken_and_the_next_power_is_not() {
        assert_eq!(float("3.4028235e38", Words::NotTaken), Ok(f32::MAX));
        for words in [Words::Taken, Words::NotTaken] {
            assert!(float("1e39", words).unwrap_err().contains("too large"));
            assert!(float("-1e39", words).unwrap_err().contains("too large"));
        }
    }

    #[test]
    fn words_are_taken_only_where_asked_for() {
        assert!(float("NaN", Words::Taken).unwrap().is_nan());
        assert_eq!(float("-inf", Words::Taken), Ok(f32::NEG_INFINITY));
        for text in ["nan", "inf", "-Infinity"] {
            assert!(float(text, Words::NotTaken).is_err(), "{text}");
            assert!(is_number(text), "{text}");
        }
    }

    #[test]
    fn other_texts_are_no_numbers() {
        for text in ["", "0,5", "0.1x", "1 000", "\u{2212}1", "0x10", "e5"] {
            assert!(float(text, Words::Taken).is_err(), "{text}");
            assert!(!is_number(text), "{text}");
        }
    }
}
