//! Writes the sample that the program `replay` holds the proved library to: cases with the oracle's answers, the strict ones of calls
//! that label, one record of `RECORD` bytes each (docs/REPLAY.md). The same bytes come out every time. How many of each kind goes to standard error.

use std::collections::BTreeMap;
use std::io::Write;

use oracle::calls::words_of;
use oracle::cases::{BatchCase, Case, ClosureBytesCase, KMeansCase, LabelBytesCase, TwoWays};
use oracle::refusal::{Mode, Refusal};

const RECORD: usize = 384;
const HEAD_WORDS: usize = 16;
const SEED: u64 = 20;

/// Cases of one operation, how many of them at most are refused by one number, and how many generated ones are looked at.
const CASES: usize = 160;
const REFUSED: usize = 16;
const LOOKED_AT: u64 = 4_000;

/// Splits that a case may spend in vain: each costs a hundred iterations.
const VAIN_SPLITS: u32 = 16;

/// A case that has a record: the words in front from word 6 on, and the four parts.
trait Stored: Case {
    const OPERATION: u32;

    /// What the record holds the proved library to.
    fn outcome(&self) -> Self::Outcome;

    fn words(&self, outcome: &Self::Outcome) -> Vec<u32>;

    fn parts(&self, outcome: &Self::Outcome) -> [Vec<u8>; 4];

    /// Whether a record can say all of the case, and the replay of it is quick.
    fn can_be_stored(&self, _outcome: &Self::Outcome) -> bool {
        true
    }
}

fn bytes_of(words: impl IntoIterator<Item = u32>) -> Vec<u8> {
    words.into_iter().flat_map(u32::to_le_bytes).collect()
}

impl Stored for LabelBytesCase {
    const OPERATION: u32 = 0;

    fn outcome(&self) -> Self::Outcome {
        self.run_in(Mode::Strict)
    }

    fn words(&self, _outcome: &Self::Outcome) -> Vec<u32> {
        vec![self.dim, self.k]
    }

    fn parts(&self, outcome: &Self::Outcome) -> [Vec<u8>; 4] {
        let (row, centroids) = (self.row.clone(), self.centroids.clone());
        [row, centroids, outcome.result.clone(), vec![]]
    }
}

impl Stored for KMeansCase {
    const OPERATION: u32 = 1;

    fn outcome(&self) -> Self::Outcome {
        self.run_in(Mode::Strict)
    }

    fn words(&self, outcome: &Self::Outcome) -> Vec<u32> {
        let n = &self.numbers;
        let (objective, restart, _) = outcome.answer.unwrap_or((0, 0, 0));
        vec![
            n.rows,
            n.dim,
            n.k,
            n.iterations,
            n.restarts,
            n.points_per_centroid,
            n.block,
            restart,
            objective as u32,
            (objective >> 32) as u32,
        ]
    }

    fn parts(&self, outcome: &Self::Outcome) -> [Vec<u8>; 4] {
        [
            bytes_of(self.draws.iter().copied()),
            bytes_of(self.values.iter().map(|value| value.to_bits())),
            bytes_of(outcome.labels.iter().map(|&label| u32::from(label))),
            bytes_of(outcome.centroids.iter().copied()),
        ]
    }

    /// The lengths of work slices follow from those of the values and of the labels.
    fn can_be_stored(&self, _outcome: &Self::Outcome) -> bool {
        self.work_fits
    }
}

impl Stored for BatchCase {
    const OPERATION: u32 = 2;

    fn outcome(&self) -> Self::Outcome {
        self.run()
    }

    fn words(&self, _outcome: &Self::Outcome) -> Vec<u32> {
        vec![]
    }

    fn parts(&self, outcome: &Self::Outcome) -> [Vec<u8>; 4] {
        [self.file.clone(), vec![], outcome.clone(), vec![]]
    }

    /// The budget stands last in a file; refusal 7 says that all of it was spent.
    fn can_be_stored(&self, outcome: &Self::Outcome) -> bool {
        let spent = Self::number(outcome) == Refusal::BudgetSpent.number();
        !spent || words_of(&self.file[self.file.len() - 4..])[0] <= VAIN_SPLITS
    }
}

impl Stored for ClosureBytesCase {
    const OPERATION: u32 = 3;

    fn outcome(&self) -> Self::Outcome {
        self.run()
    }

    fn words(&self, _outcome: &Self::Outcome) -> Vec<u32> {
        let replicas = u32::from(self.max_replicas);
        vec![self.dim, self.count, replicas, self.epsilon.to_bits()]
    }

    fn parts(&self, outcome: &Self::Outcome) -> [Vec<u8>; 4] {
        let (vector, centroids) = (self.vector.clone(), self.centroids.clone());
        [vector, centroids, outcome.result.clone(), vec![]]
    }
}

/// The record of a case, unless it is too long for one.
fn record<C: Stored>(case: &C, outcome: &C::Outcome) -> Option<Vec<u8>> {
    let parts = case.parts(outcome);
    let mut head = vec![C::OPERATION, C::number(outcome)];
    head.extend(parts.iter().map(|part| part.len() as u32));
    head.extend(case.words(outcome));
    head.resize(HEAD_WORDS, 0);
    let mut bytes = bytes_of(head);
    bytes.extend(parts.concat());
    if bytes.len() > RECORD {
        return None;
    }
    bytes.resize(RECORD, 0);
    Some(bytes)
}

/// Refused cases, some of each number, and then accepted ones: of the built cases and the generated ones, as far as they
/// have a record.
fn sample<C: Stored>() -> Vec<u8> {
    let generated = (0..LOOKED_AT).map(|index| C::generate(SEED, index));
    let mut by_number: BTreeMap<u32, Vec<Vec<u8>>> = BTreeMap::new();
    for case in C::built().into_iter().chain(generated) {
        let outcome = case.outcome();
        if !case.can_be_stored(&outcome) {
            continue;
        }
        let number = C::number(&outcome);
        let most = if number == 0 { CASES } else { REFUSED };
        let records = by_number.entry(number).or_default();
        if records.len() < most {
            records.extend(record(&case, &outcome));
        }
    }
    let mut accepted = by_number.remove(&0).unwrap_or_default();
    let mut records: Vec<Vec<u8>> = by_number.values().flatten().cloned().collect();
    accepted.truncate(CASES - records.len());
    let refused: Vec<String> = by_number
        .iter()
        .map(|(number, records)| format!("{} by {number}", records.len()))
        .collect();
    eprintln!(
        "{}: {} accepted, refused: {}",
        C::NAME,
        accepted.len(),
        refused.join(", ")
    );
    records.append(&mut accepted);
    assert_eq!(records.len(), CASES, "enough cases have a record");
    records.concat()
}

fn main() {
    let all = [
        sample::<LabelBytesCase>(),
        sample::<KMeansCase>(),
        sample::<BatchCase>(),
        sample::<ClosureBytesCase>(),
    ];
    std::io::stdout()
        .write_all(&all.concat())
        .expect("the sample is written");
}
