//! Text for the page: what comes from a file made harmless, and numbers that are short enough to read.

/// Text that can add no markup to the page, whatever a file has in it.
pub fn escape(text: &str) -> String {
    let mut safe = String::with_capacity(text.len());
    for character in text.chars() {
        match character {
            '&' => safe.push_str("&amp;"),
            '<' => safe.push_str("&lt;"),
            '>' => safe.push_str("&gt;"),
            '"' => safe.push_str("&quot;"),
            '\'' => safe.push_str("&#39;"),
            // HTML has no way to write these down at all.
            unprintable if unprintable.is_control() && !unprintable.is_ascii_whitespace() => {
                safe.push(char::REPLACEMENT_CHARACTER)
            }
            plain => safe.push(plain),
        }
    }
    safe
}

/// A number to three significant digits, for comparing at a glance.
pub fn short(value: f64) -> String {
    if !value.is_finite() {
        return String::from("not finite");
    }
    if value == 0.0 {
        return String::from("0");
    }
    let magnitude = value.abs().log10().floor() as i32;
    if !(-4..6).contains(&magnitude) {
        return format!("{value:.2e}");
    }
    let decimals = (2 - magnitude).max(0) as usize;
    format!("{value:.decimals$}")
}

/// The shortest decimal that gives back the value, for copying into a coefficient set.
pub fn exact(value: f32) -> String {
    if value.is_finite() {
        value.to_string()
    } else {
        String::from("not finite")
    }
}

/// A number with its noun, as in "1 meter" and "2 meters".
pub fn count(number: usize, one: &str, many: &str) -> String {
    let noun = if number == 1 { one } else { many };
    format!("{number} {noun}")
}

#[cfg(test)]
mod tests {
    use super::*;

    #[test]
    fn escapes_what_means_something_in_html() {
        assert_eq!(escape("a&<b>\"'"), "a&amp;&lt;b&gt;&quot;&#39;");
        assert_eq!(escape("Ü 0.5 Ib\tx"), "Ü 0.5 Ib\tx");
        assert_eq!(escape("a\0b\u{1b}"), "a\u{fffd}b\u{fffd}");
    }

    #[test]
    fn shortens_to_three_digits() {
        assert_eq!(short(0.0), "0");
        assert_eq!(short(0.031_249), "0.0312");
        assert_eq!(short(0.31), "0.310");
        assert_eq!(short(12.345), "12.3");
        assert_eq!(short(98_765.4), "98765");
        assert_eq!(short(3.4e38), "3.40e38");
        assert_eq!(short(1.25e-7), "1.25e-7");
        assert_eq!(short(f64::INFINITY), "not finite");
    }

    #[test]
    fn exact_values_give_back_the_reading() {
        for value in [0.1, -0.563, 1.0e-45, f32::MAX, -0.0] {
            assert_eq!(
                exact(value).parse::<f32>().map(f32::to_bits),
                Ok(value.to_bits())
            );
        }
        assert_eq!(exact(f32::NEG_INFINITY), "not finite");
        assert_eq!(exact(f32::NAN), "not finite");
    }

    #[test]
    fn one_is_not_many() {
        assert_eq!(count(0, "family", "families"), "0 families");
        assert_eq!(count(1, "family", "families"), "1 family");
        assert_eq!(count(2, "family", "families"), "2 families");
    }
}
