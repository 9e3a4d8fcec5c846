//! Names for the weights at which balancing behaves in its own way.

/// The kinds of `kind_of` that every comparison of grouping has to meet in a split.
pub const KINDS: [&str; 9] = [
    "split at weight NaN",
    "split at weight 0",
    "split at weight -0",
    "split at a tiny weight",
    "split at weight 0.25",
    "split at weight 1",
    "split at weight infinity",
    "split at weight -infinity",
    "split at a negative weight",
];

pub fn kind_of(weight: f32) -> &'static str {
    if weight.is_nan() {
        return KINDS[0];
    }
    match weight {
        0.0 if weight.is_sign_positive() => KINDS[1],
        0.0 => KINDS[2],
        0.25 => KINDS[4],
        1.0 => KINDS[5],
        f32::INFINITY => KINDS[6],
        f32::NEG_INFINITY => KINDS[7],
        _ if weight < 0.0 => KINDS[8],
        _ if weight < 1e-6 => KINDS[3],
        _ => "split at another weight",
    }
}

#[cfg(test)]
mod tests {
    use super::*;

    #[test]
    fn each_weight_has_its_kind() {
        let weights = [
            f32::NAN,
            0.0,
            -0.0,
            1e-9,
            0.25,
            1.0,
            f32::INFINITY,
            f32::NEG_INFINITY,
            -1.0,
        ];
        for (weight, kind) in weights.into_iter().zip(KINDS) {
            assert_eq!(kind_of(weight), kind);
        }
        assert_eq!(kind_of(0.5), "split at another weight");
    }
}
