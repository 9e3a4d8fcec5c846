//! The refusals of document 01 and of document 02's requests, by name so that the text that gives one says why; and the mode that
//! one of them goes by.

/// A refusal; its value is its number.
#[derive(Clone, Copy, Debug, PartialEq, Eq, PartialOrd, Ord)]
pub enum Refusal {
    OutOfRange = 1,
    WrongLength = 2,
    KAboveRows = 3,
    DrawCount = 4,
    NanDistance = 5,
    FewerThanBranching = 6,
    BudgetSpent = 7,
    FileShape = 8,
    UnplacedRow = 9,
    ResultFile = 10,
}

impl Refusal {
    pub const ALL: [Refusal; 10] = [
        Refusal::OutOfRange,
        Refusal::WrongLength,
        Refusal::KAboveRows,
        Refusal::DrawCount,
        Refusal::NanDistance,
        Refusal::FewerThanBranching,
        Refusal::BudgetSpent,
        Refusal::FileShape,
        Refusal::UnplacedRow,
        Refusal::ResultFile,
    ];

    pub fn number(self) -> u32 {
        self as u32
    }

    /// For a runner that hears a number from another implementation.
    pub fn from_number(number: u32) -> Option<Refusal> {
        Refusal::ALL
            .into_iter()
            .find(|refusal| refusal.number() == number)
    }
}

/// What a call does about rows that are unplaced (request (iii) of document 02).
#[derive(Clone, Copy, Debug, PartialEq, Eq)]
pub enum Mode {
    /// It is refused: what a caller gets that asks for nothing else.
    Strict,
    /// They have label 0 and are counted, as before that request.
    OldWay,
}

impl Mode {
    /// The old one first.
    pub const BOTH: [Mode; 2] = [Mode::OldWay, Mode::Strict];

    /// 9, where so many rows are unplaced and the caller did not ask for the old way.
    pub fn check_placed(self, unplaced: u32) -> Result<(), Refusal> {
        match (self, unplaced) {
            (Mode::OldWay, _) | (Mode::Strict, 0) => Ok(()),
            (Mode::Strict, _) => Err(Refusal::UnplacedRow),
        }
    }
}
