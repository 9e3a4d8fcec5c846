//! Cases of a grouping that is written, read and written again.

use super::{Case, GroupingCase, ReadOutcome, ReadResultCase, WriteOutcome, WriteResultCase};
use crate::random::Random;
use crate::results::ResultNumbers;

#[derive(Clone, Debug)]
pub struct ResultTripCase {
    pub grouping: WriteResultCase,
    /// Whether it is what a call of grouping left in its cells.
    pub is_called: bool,
}

#[derive(Clone, Debug, PartialEq, Eq)]
pub struct TripOutcome {
    pub written: WriteOutcome,
    pub read: ReadOutcome,
    pub again: WriteOutcome,
}

impl ResultTripCase {
    fn called(random: &mut Random) -> Option<Self> {
        let case = GroupingCase::any(random);
        let outcome = case.run();
        let groups = outcome.answer.ok()?.groups as usize;
        let dim = case.numbers.dim;
        let (ends, means) = (&outcome.ends[..groups], groups * dim as usize);
        let mut grouping =
            WriteResultCase::given(dim, &outcome.order, ends, &outcome.means[..means]);
        // Its unused cells are taken as they are too.
        (grouping.ends, grouping.means) = (outcome.ends, outcome.means);
        Some(Self {
            grouping,
            is_called: true,
        })
    }

    fn made(grouping: WriteResultCase) -> Self {
        Self {
            grouping,
            is_called: false,
        }
    }

    /// The trip with any writer and any reader.
    pub fn by(
        &self,
        write: impl Fn(&WriteResultCase) -> WriteOutcome,
        read: impl Fn(&ReadResultCase) -> ReadOutcome,
    ) -> TripOutcome {
        let written = write(&self.grouping);
        let read = read(&ReadResultCase::fitting(
            written.file.clone(),
            &self.grouping.numbers,
        ));
        let mut again = self.grouping.clone();
        (again.order, again.ends) = (read.order.clone(), read.ends.clone());
        again.means.clone_from(&read.means);
        TripOutcome {
            again: write(&again),
            written,
            read,
        }
    }

    /// Whether the grouping is what was read, and the bytes what was written first.
    pub fn comes_back(&self, outcome: &TripOutcome) -> bool {
        let (grouping, read) = (&self.grouping, &outcome.read);
        read.answer == Ok(grouping.numbers)
            && (&read.order, &read.ends) == (&grouping.order, &grouping.ends)
            && read.means == grouping.means
            && outcome.written == outcome.again
    }

    /// What the trip is there for.
    pub fn kinds(&self) -> Vec<&'static str> {
        let ResultNumbers { rows, groups, .. } = self.grouping.numbers;
        let means = &self.grouping.means;
        let is_odd_nan = |&bits: &u32| f32::from_bits(bits).is_nan() && bits != 0x7fc0_0000;
        let kinds = [
            ("no rows", rows == 0),
            ("one group", groups == 1),
            ("a group for each row", rows > 1 && groups == rows),
            ("unused cells", groups < rows),
            ("a NaN of unusual bits", means.iter().any(is_odd_nan)),
            ("a mean of -0.0", means.contains(&0x8000_0000)),
            ("cells of a call of grouping", self.is_called),
        ];
        kinds
            .iter()
            .filter(|kind| kind.1)
            .map(|kind| kind.0)
            .collect()
    }
}

impl Case for ResultTripCase {
    type Outcome = TripOutcome;
    const NAME: &'static str = "result trip";

    fn generate(seed: u64, index: u64) -> Self {
        let random = &mut Random::new(seed, 14, index);
        let called = random.once_in(16).then(|| Self::called(random)).flatten();
        called.unwrap_or_else(|| Self::made(WriteResultCase::sound(random)))
    }

    fn built() -> Vec<Self> {
        let largest = WriteResultCase::largest();
        let all = WriteResultCase::small().into_iter().chain([largest]);
        all.map(Self::made).collect()
    }

    fn run(&self) -> TripOutcome {
        self.by(Case::run, Case::run)
    }

    fn number(outcome: &TripOutcome) -> u32 {
        let numbers = [
            WriteResultCase::number(&outcome.written),
            ReadResultCase::number(&outcome.read),
            WriteResultCase::number(&outcome.again),
        ];
        numbers.into_iter().find(|&number| number > 0).unwrap_or(0)
    }
}
