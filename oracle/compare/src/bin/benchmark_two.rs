//! Speed of two builds of the exported library, side by side in one run on one thread: the old one's median time over the new one's,
//! and the same of every round. Both are called in the old way and with `spherical` off; where the new build has a strict way, that is then
//! timed against its own old way, and where it has `spherical`, off against on.
//!
//! `benchmark_two OLD.so NEW.so [ROUNDS] [WORD..]`: all, or what has these words in its name. A build becomes such a file by
//! `cc -shared -o NEW.so -Wl,--whole-archive target/staticlib/libexports.a -Wl,--no-whole-archive`. It may be one of before request
//! (iv) of document 02, whose functions have no place for `spherical`, of before (iii), whose plain names are the old way, or of before (ii),
//! whose functions have no place for how many rows are unplaced.

use std::env::args;
use std::ffi::{c_char, c_int, c_void, CString};
use std::mem::transmute;

use compare::timing::{medians, rounds_as_long, rows_around, values};
use oracle::random::Random;

extern "C" {
    fn dlopen(path: *const c_char, flags: c_int) -> *mut c_void;
    fn dlsym(library: *mut c_void, name: *const c_char) -> *mut c_void;
}

/// Names are bound at once, and seen by nobody else: both builds have the same names.
const NOW: c_int = 2;

/// A function by its address, with its place for how many rows are unplaced or without, and with what goes at the place for
/// `spherical`, if it has one.
#[derive(Clone, Copy)]
struct Function {
    at: *mut c_void,
    counts: bool,
    spherical: Option<u32>,
}

/// Calls a function of docs/HOST.md: the arguments up to the place for `spherical`, those from there to the place for the unplaced rows,
/// and those behind it, each with its type.
macro_rules! call {
    (
        $function:expr,
        [$($number:expr => $number_type:ty),*],
        [$($value:expr => $type:ty),*],
        [$($later:expr => $later_type:ty),*]
    ) => {{
        type First = unsafe extern "C" fn($($number_type,)* $($type,)* $($later_type),*) -> u32;
        type Counts = unsafe extern "C" fn($($number_type,)* $($type,)* *mut u32, $($later_type),*) -> u32;
        type Whole = unsafe extern "C" fn($($number_type,)* u32, $($type,)* *mut u32, $($later_type),*) -> u32;
        let Function { at, counts, spherical } = $function;
        let mut unplaced = 0;
        let number = unsafe {
            match (counts, spherical) {
                (false, _) => transmute::<*mut c_void, First>(at)($($number,)* $($value,)* $($later),*),
                (true, None) => transmute::<*mut c_void, Counts>(at)($($number,)* $($value,)* &mut unplaced, $($later),*),
                (true, Some(on)) => {
                    transmute::<*mut c_void, Whole>(at)($($number,)* on, $($value,)* &mut unplaced, $($later),*)
                }
            }
        };
        assert_eq!(number, 0);
    }};
}

/// A function in its two ways, of which a build of before request (iii) has no strict one, and its old way with `spherical` on, which one
/// of before (iv) does not have.
#[derive(Clone, Copy)]
struct Ways {
    old: Function,
    strict: Option<Function>,
    spherical: Option<Function>,
}

struct Build {
    label_rows: Ways,
    kmeans: Ways,
    group: Ways,
}

fn build(path: &str) -> Build {
    let text = |text: &str| CString::new(text).expect("no zero in a name");
    let library = unsafe { dlopen(text(path).as_ptr(), NOW) };
    assert!(!library.is_null(), "{path} cannot be opened");
    let find = |name: &str| unsafe { dlsym(library, text(name).as_ptr()) };
    // The functions that came with the counts, and with `spherical`.
    let counts = !find("families_place_rows").is_null();
    let has_spherical = !find("families_root").is_null();
    let ways = |name: &str, takes_spherical: bool| {
        let function = |at: *mut c_void| Function {
            at,
            counts,
            spherical: (takes_spherical && has_spherical).then_some(0),
        };
        let [plain, named] = [find(name), find(&format!("{name}_old_way"))];
        assert!(!plain.is_null(), "{path} has no {name}");
        let (old, strict) = match named.is_null() {
            true => (function(plain), None),
            false => (function(named), Some(function(plain))),
        };
        let spherical = old.spherical.map(|_| Function {
            spherical: Some(1),
            ..old
        });
        Ways {
            old,
            strict,
            spherical,
        }
    };
    Build {
        label_rows: ways("families_label_rows", false),
        kmeans: ways("families_kmeans", true),
        group: ways("families_group", true),
    }
}

/// Rows of a shape, and as many draws as a list may have, so that few calls go round.
struct Batch {
    rows: usize,
    dim: usize,
    values: Vec<f32>,
    draws: Vec<u32>,
}

const KINDS: [&str; 3] = ["clustered", "shapeless", "repeating"];

impl Batch {
    fn new(rows: usize, dim: usize, kind: &str) -> Self {
        let random = &mut Random::new(2, 97, (rows * 100 + dim) as u64);
        let values = match kind {
            "clustered" => rows_around(random, rows, dim, 25),
            "shapeless" => values(random, rows * dim),
            _ => values(random, 8 * dim)
                .into_iter()
                .cycle()
                .take(rows * dim)
                .collect(),
        };
        let draws = (0..4_096).map(|_| random.next_u32()).collect();
        Self {
            rows,
            dim,
            values,
            draws,
        }
    }

    /// The labels against as many centroids as there are.
    fn label_rows(&self, function: Function, centroids: &[f32]) -> Vec<u16> {
        let (rows, dim) = (self.rows, self.dim);
        let mut labels = vec![0; rows];
        call!(
            function,
            [
                rows as u32 => u32,
                dim as u32 => u32,
                (centroids.len() / dim) as u32 => u32
            ],
            [
                self.values.as_ptr() => *const f32,
                self.values.len() => usize,
                centroids.as_ptr() => *const f32,
                centroids.len() => usize,
                labels.as_mut_ptr() => *mut u16,
                labels.len() => usize
            ],
            []
        );
        labels
    }

    /// Labels and centroids, by bits.
    fn kmeans(&self, function: Function, k: usize) -> (Vec<u16>, Vec<u32>) {
        let (rows, dim) = (self.rows, self.dim);
        let mut labels = vec![0; rows];
        let mut centroids = vec![0.0; k * dim];
        let mut training = vec![0.0; rows * dim];
        let (mut objective, mut restart) = (0.0, 0);
        call!(
            function,
            [
                rows as u32 => u32,
                dim as u32 => u32,
                k as u32 => u32,
                25 => u32,
                2 => u32,
                256 => u32,
                32_768 => u32
            ],
            [
                self.draws.as_ptr() => *const u32,
                self.draws.len() => usize,
                self.values.as_ptr() => *const f32,
                self.values.len() => usize,
                labels.as_mut_ptr() => *mut u16,
                labels.len() => usize,
                centroids.as_mut_ptr() => *mut f32,
                centroids.len() => usize,
                &mut objective => *mut f64,
                &mut restart => *mut u32
            ],
            [
                training.as_mut_ptr() => *mut f32,
                training.len() => usize
            ]
        );
        (labels, bits(&centroids))
    }

    /// Row order and means, by bits.
    fn group(&self, function: Function, branching: u32) -> (Vec<u16>, Vec<u32>) {
        let (rows, dim) = (self.rows, self.dim);
        let mut order = vec![0; rows];
        let mut ends = vec![0; rows];
        let mut means = vec![0.0; rows * dim];
        let mut work = (vec![0.0; rows * dim], vec![0.0; rows * dim]);
        let (mut groups, mut splits) = (0, 0);
        call!(
            function,
            [
                rows as u32 => u32,
                dim as u32 => u32,
                branching.max(40) => u32, branching => u32,
                0.25 => f32,
                8_192 => u32
            ],
            [
                self.draws.as_ptr() => *const u32,
                self.draws.len() => usize,
                self.values.as_ptr() => *const f32,
                self.values.len() => usize,
                order.as_mut_ptr() => *mut u16,
                order.len() => usize,
                ends.as_mut_ptr() => *mut u16,
                ends.len() => usize,
                means.as_mut_ptr() => *mut f32,
                means.len() => usize,
                &mut groups => *mut u32,
                &mut splits => *mut u32
            ],
            [
                work.0.as_mut_ptr() => *mut f32,
                work.0.len() => usize,
                work.1.as_mut_ptr() => *mut f32,
                work.1.len() => usize
            ]
        );
        (order, bits(&means))
    }
}

fn bits(values: &[f32]) -> Vec<u32> {
    values.iter().map(|value| value.to_bits()).collect()
}

/// The old way of both builds, then both ways of the new one, and then its old way with `spherical` off and on.
fn measure<T: PartialEq>(
    rounds: usize,
    name: &str,
    [old, new]: [Ways; 2],
    call: impl Fn(Function) -> T,
) {
    if !args().skip(4).all(|word| name.contains(&word)) {
        return;
    }
    let call = &call;
    let calling = |function| move || call(function);
    in_turn(
        rounds,
        name,
        ["old", "new"],
        calling(old.old),
        calling(new.old),
    );
    if let Some(strict) = new.strict {
        let names = ["new in the old way", "new strict"];
        in_turn(rounds, name, names, calling(new.old), calling(strict));
    }
    if let Some(spherical) = new.spherical {
        let names = ["new", "new spherical"];
        in_turn(rounds, name, names, calling(new.old), calling(spherical));
    }
}

/// Two lines: both medians, their ratio, and whether both gave the same; and the ratio of every round.
fn in_turn<T: PartialEq>(
    rounds: usize,
    name: &str,
    [first, second]: [&str; 2],
    one: impl Fn() -> T,
    other: impl Fn() -> T,
) {
    let same = match one() == other() {
        true => "the same answers",
        false => "other answers",
    };
    let times = rounds_as_long(rounds, || drop(other()), || drop(one()));
    let (others, ones) = medians(&times);
    let (ones, others) = (ones * 1e6, others * 1e6);
    println!(
        "{name}: {first} {ones:.1} us, {second} {others:.1} us, {first}/{second} {:.3}, {same}",
        ones / others
    );
    let each = times.iter();
    let each = each.map(|(other, one)| format!("{:.3}", one / other));
    println!("    rounds: {}", each.collect::<Vec<_>>().join(" "));
}

/// Labelling at the shapes of `benchmark`.
fn measure_labelling(rounds: usize, old: &Build, new: &Build) {
    for (dim, k) in [(3, 16), (16, 16), (16, 64), (64, 64), (64, 16)] {
        for rows in [4_096, 40] {
            let batch = Batch::new(rows, dim, "shapeless");
            let centroids = values(&mut Random::new(3, 97, (dim * 100 + k) as u64), k * dim);
            let name = format!("labelling {rows}x{dim}, k {k}");
            let ways = [old.label_rows, new.label_rows];
            measure(rounds, &name, ways, |function| {
                batch.label_rows(function, &centroids)
            });
        }
    }
}

fn main() {
    let words: Vec<String> = args().skip(1).collect();
    let [old, new, rest @ ..] = &words[..] else {
        panic!("benchmark_two OLD.so NEW.so [ROUNDS] [WORD..]");
    };
    let rounds = rest
        .first()
        .map_or(9, |word| word.parse().expect("a number of rounds"));
    let (old, new) = (build(old), build(new));
    measure_labelling(rounds, &old, &new);
    for kind in KINDS {
        for (rows, dim, k) in [
            (4_096, 3, 16),
            (4_096, 16, 16),
            (4_096, 16, 64),
            (4_096, 64, 16),
            (40, 6, 4),
        ] {
            let batch = Batch::new(rows, dim, kind);
            let name = format!("k-means {rows}x{dim}, k {k}, {kind}");
            let ways = [old.kmeans, new.kmeans];
            measure(rounds, &name, ways, |function| batch.kmeans(function, k));
        }
        for (rows, dim, branching) in [
            (4_096, 3, 2),
            (4_096, 3, 16),
            (1_000, 16, 4),
            (41, 3, 2),
            (41, 16, 16),
        ] {
            let batch = Batch::new(rows, dim, kind);
            let name = format!("grouping {rows}x{dim}, branching {branching}, {kind}");
            let ways = [old.group, new.group];
            measure(rounds, &name, ways, |function| {
                batch.group(function, branching)
            });
        }
    }
}
