//! The line that ties a batch to its serial numbers: program version, seed, and a digest of serials and settings, in front of the remark.

use super::draws::Draws;
use super::settings::Settings;

/// What the line in a batch file's remark says.
#[derive(Clone, Debug, PartialEq, Eq)]
pub struct Tie {
    pub version: String,
    pub seed: u64,
    pub digest: u64,
}

/// What a file of serial numbers is to a batch.
#[derive(Clone, Copy, Debug, PartialEq, Eq)]
pub enum Fit {
    /// These serials, in this order, with these settings.
    Same,
    /// The batch was made from readings without serial numbers.
    WithoutSerials,
    Other,
}

impl Tie {
    pub fn new(serials: Option<&[String]>, settings: Settings, draws: Draws) -> Self {
        let version = env!("CARGO_PKG_VERSION");
        Self {
            version: version.to_string(),
            seed: draws.seed,
            digest: digest(serials, settings, draws, version),
        }
    }

    pub fn line(&self) -> String {
        let Self {
            version,
            seed,
            digest,
        } = self;
        format!("families {version} seed {seed} digest {digest:016x}\n")
    }

    /// The tie of a remark that starts with such a line; other remarks have none.
    pub fn read(remark: &[u8]) -> Option<Self> {
        let end = remark.iter().position(|byte| *byte == b'\n')?;
        let line = std::str::from_utf8(&remark[..=end]).ok()?;
        let words: Vec<&str> = line.split_whitespace().collect();
        let ["families", version, "seed", seed, "digest", digest] = words[..] else {
            return None;
        };
        let tie = Self {
            version: version.to_string(),
            seed: seed.parse().ok()?,
            digest: u64::from_str_radix(digest, 16).ok()?,
        };
        (tie.line() == line).then_some(tie)
    }

    /// Compares serials with those that the batch was made with, by its own settings and number of draws.
    pub fn fit(&self, serials: &[String], settings: Settings, draws: usize) -> Fit {
        let draws = Draws {
            seed: self.seed,
            count: draws,
        };
        let of = |serials| digest(serials, settings, draws, &self.version);
        if self.digest == of(Some(serials)) {
            Fit::Same
        } else if self.digest == of(None) {
            Fit::WithoutSerials
        } else {
            Fit::Other
        }
    }
}

/// FNV-1a over 64 bits: it finds what somebody mixed up, and is no lock against one who means to deceive.
fn digest(serials: Option<&[String]>, settings: Settings, draws: Draws, version: &str) -> u64 {
    let mut hash = 0xcbf2_9ce4_8422_2325;
    let mut take = |bytes: &[u8]| {
        // Each part behind its length, so that no two lists give the same bytes.
        let length = (bytes.len() as u64).to_le_bytes();
        for byte in length.iter().chain(bytes) {
            hash = (hash ^ u64::from(*byte)).wrapping_mul(0x0100_0000_01b3);
        }
    };
    take(version.as_bytes());
    take(&draws.seed.to_le_bytes());
    for number in [
        draws.count as u32,
        settings.limit,
        settings.branching,
        settings.weight.to_bits(),
        settings.budget,
    ] {
        take(&number.to_le_bytes());
    }
    for serial in serials.into_iter().flatten() {
        take(serial.as_bytes());
    }
    hash
}

#[cfg(test)]
mod tests {
    use super::*;

    const SETTINGS: Settings = Settings {
        limit: 40,
        branching: 4,
        weight: 0.25,
        budget: 8,
    };
    const DRAWS: Draws = Draws { seed: 7, count: 3 };

    fn names(text: &str) -> Vec<String> {
        text.split(' ').map(String::from).collect()
    }

    fn tie(text: &str) -> Tie {
        Tie::new(Some(&names(text)), SETTINGS, DRAWS)
    }

    #[test]
    fn a_line_is_read_again_and_others_are_not() {
        let line = tie("A B").line();
        assert_eq!(Tie::read(line.as_bytes()), Some(tie("A B")));
        assert_eq!(
            Tie::read(format!("{line}lot 7").as_bytes()),
            Some(tie("A B"))
        );
        for other in [
            "",
            "lot 7",
            "families\n",
            "lot 7\n",
            line.trim_end(),
            &line[1..],
        ] {
            assert_eq!(Tie::read(other.as_bytes()), None, "{other:?}");
        }
        assert_eq!(Tie::read(line.replace(" seed", "  seed").as_bytes()), None);
    }

    #[test]
    fn serials_are_told_from_others_and_from_their_own_order() {
        let made = tie("A B");
        let fit = |text: &str| made.fit(&names(text), SETTINGS, 3);
        assert_eq!(fit("A B"), Fit::Same);
        for other in ["B A", "AB", "A B C", "A", "A b"] {
            assert_eq!(fit(other), Fit::Other, "{other}");
        }
        let without = Tie::new(None, SETTINGS, DRAWS);
        assert_eq!(without.fit(&names("A B"), SETTINGS, 3), Fit::WithoutSerials);
    }

    #[test]
    fn every_setting_counts() {
        let made = tie("A B");
        let fit = |settings, draws| made.fit(&names("A B"), settings, draws);
        assert_eq!(fit(SETTINGS, 4), Fit::Other);
        let changes: [fn(&mut Settings); 4] = [
            |settings| settings.limit += 1,
            |settings| settings.branching += 1,
            |settings| settings.weight = -settings.weight,
            |settings| settings.budget += 1,
        ];
        for change in changes {
            let mut settings = SETTINGS;
            change(&mut settings);
            assert_eq!(fit(settings, 3), Fit::Other, "{settings:?}");
        }
        let mut other = made.clone();
        other.seed += 1;
        assert_eq!(other.fit(&names("A B"), SETTINGS, 3), Fit::Other);
    }
}
