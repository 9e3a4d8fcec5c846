//! Speed of the result file's writer and readers against the oracle's plain ones, which make the same tests, side by side in one run on
//! one thread: ratios of medians, and bytes a second of files of several sizes: of the file alone, and of all that is lent, since unused
//! cells are looked at or filled too.
//!
//! `benchmark_results [ROUNDS] [WORD..]`: all, or what has these words in its name.

use compare::timing::{as_long, wanted};
use engine::exported::{self, ResultTold};
use oracle::cases::{Case, WriteResultCase};
use oracle::random::Random;
use oracle::results::{self, ResultCells, ResultLent, ResultNumbers};

/// Rows, dim and groups: none, a tray, batches whose cells are mostly unused, and files of which every cell is used, up to the longest.
const SHAPES: [(u32, u32, u32); 9] = [
    (0, 1, 0),
    (40, 6, 4),
    (400, 6, 25),
    (4_096, 3, 103),
    (4_096, 16, 400),
    (256, 16, 256),
    (1_024, 16, 1_024),
    (4_096, 16, 4_096),
    (4_096, 64, 4_096),
];

/// A grouping with its file, and room for one side's results.
struct Batch {
    case: WriteResultCase,
    file: Vec<u8>,
}

#[derive(Debug, PartialEq)]
struct Room {
    file: Vec<u8>,
    order: Vec<u16>,
    ends: Vec<u16>,
    means: Vec<u32>,
}

impl Batch {
    fn new(rows: u32, dim: u32, groups: u32) -> Self {
        let random = &mut Random::new(1, 89, u64::from(rows * 100 + groups));
        let case = WriteResultCase::of(random, rows, dim, groups);
        let file = case.run().file;
        Self { case, file }
    }

    fn room(&self) -> Room {
        Room {
            file: vec![0; self.case.file_bytes],
            order: vec![0; self.case.order.len()],
            ends: vec![0; self.case.ends.len()],
            means: vec![0; self.case.means.len()],
        }
    }

    /// How many bytes the cells have, used or not.
    fn cell_bytes(&self) -> usize {
        let WriteResultCase {
            order, ends, means, ..
        } = &self.case;
        2 * (order.len() + ends.len()) + 4 * means.len()
    }

    fn numbers(&self) -> exported::ResultNumbers {
        let ResultNumbers { rows, dim, groups } = self.case.numbers;
        exported::ResultNumbers { rows, dim, groups }
    }

    fn assert_told(&self, told: ResultTold) {
        let number = 0;
        let numbers = self.numbers();
        assert_eq!(told, ResultTold { number, numbers });
    }

    fn write(&self, room: &mut Room) {
        let WriteResultCase {
            order, ends, means, ..
        } = &self.case;
        let number = exported::write_result(self.numbers(), order, ends, means, &mut room.file);
        assert_eq!(number, 0);
    }

    fn write_plainly(&self, room: &mut Room) {
        let cells = ResultCells {
            order: &self.case.order,
            ends: &self.case.ends,
            means: &self.case.means,
        };
        assert_eq!(
            results::write(&self.case.numbers, cells, &mut room.file),
            Ok(())
        );
    }

    fn tell(&self, _: &mut Room) {
        self.assert_told(exported::result_numbers(&self.file));
    }

    fn tell_plainly(&self, _: &mut Room) {
        assert_eq!(results::numbers(&self.file), Ok(self.case.numbers));
    }

    fn read(&self, room: &mut Room) {
        let lent = (&mut room.order, &mut room.ends, &mut room.means);
        self.assert_told(exported::read_result(&self.file, lent.0, lent.1, lent.2));
    }

    fn read_plainly(&self, room: &mut Room) {
        let lent = ResultLent {
            order: &mut room.order,
            ends: &mut room.ends,
            means: &mut room.means,
        };
        assert_eq!(results::read(&self.file, lent), Ok(self.case.numbers));
    }
}

/// A call on a batch, into the room.
type Run = fn(&Batch, &mut Room);

/// What is measured: both sides, and whether they are lent cells.
struct Measured {
    name: &'static str,
    proved: Run,
    plain: Run,
    has_cells: bool,
}

const MEASURED: [Measured; 3] = [
    Measured {
        name: "written",
        proved: Batch::write,
        plain: Batch::write_plainly,
        has_cells: true,
    },
    Measured {
        name: "numbers",
        proved: Batch::tell,
        plain: Batch::tell_plainly,
        has_cells: false,
    },
    Measured {
        name: "read",
        proved: Batch::read,
        plain: Batch::read_plainly,
        has_cells: true,
    },
];

impl Measured {
    fn measure(&self, rounds: usize, batch: &Batch, name: &str) {
        let (mut mine, mut others) = (batch.room(), batch.room());
        let (proved, oracle) = as_long(
            rounds,
            || (self.proved)(batch, &mut mine),
            || (self.plain)(batch, &mut others),
        );
        assert_eq!(mine, others);
        let file = batch.file.len();
        let lent = match self.has_cells {
            true => file + batch.cell_bytes(),
            false => file,
        };
        println!(
            "{name}: {:5.2}x the oracle; {:8.2} µs to {:8.2} µs; {:6.0} MB/s, {:6.0} of all that is lent",
            oracle / proved,
            proved * 1e6,
            oracle * 1e6,
            file as f64 / proved / 1e6,
            lent as f64 / proved / 1e6,
        );
    }
}

fn main() {
    let rounds = std::env::args()
        .nth(1)
        .map_or(101, |word| word.parse().expect("a number"));
    for measured in &MEASURED {
        for (rows, dim, groups) in SHAPES {
            let batch = Batch::new(rows, dim, groups);
            let name = format!(
                "{:7} {rows:4} rows dim {dim:2} groups {groups:4} {:7} bytes",
                measured.name,
                batch.file.len(),
            );
            if wanted(&name) {
                measured.measure(rounds, &batch, &name);
            }
        }
    }
}
