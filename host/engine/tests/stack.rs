//! Every wrapper on a thread with far less stack than its call takes, and what docs/BUFFERS.md states.

use std::thread;

use engine::exported::{self, GroupNumbers, GroupTold, GroupWork, KMeansNumbers, KMeansWork};
use engine::exported::{LabelTold, Mode, Placement, ResultNumbers, ResultTold};
use engine::stack;

/// Less than any call takes. The system may hand a new thread the stack of one that ended, of up to four times the size: those of the
/// threads that the wrappers make are larger.
const SMALL: usize = 24 << 10;

const VALUES: [f32; 4] = [0.0, 1.0, 10.0, 11.0];

const MODES: [Mode; 2] = [Mode::Strict, Mode::OldWay];

fn on_small_thread<T: Send + 'static>(call: impl FnOnce() -> T + Send + 'static) -> T {
    let builder = thread::Builder::new().stack_size(SMALL);
    builder.spawn(call).unwrap().join().unwrap()
}

fn bytes(values: &[f32]) -> Vec<u8> {
    let each = values.iter();
    each.flat_map(|value| value.to_le_bytes()).collect()
}

#[test]
fn label() {
    let told = on_small_thread(|| {
        let mut result = [0; 2];
        let centroids = bytes(&[5.0, 2.0, 7.0]);
        let row = bytes(&[2.5]);
        MODES.map(|mode| {
            let number = exported::label(mode, 1, 3, &row, &centroids, &mut result);
            (number, result)
        })
    });
    assert_eq!(told, [(0, [1, 0]); 2]);
}

#[test]
fn closure() {
    let told = on_small_thread(|| {
        let mut result = [0; 8];
        let (row, centroids) = (bytes(&[0.0]), bytes(&[2.0, 1.0, -1.0]));
        let number = exported::closure(1, 3, 3, 0.0, &row, &centroids, &mut result);
        (number, result)
    });
    assert_eq!(told, (0, [1, 0, 2, 0, 255, 255, 2, 0]));
}

#[test]
fn label_rows() {
    let told = on_small_thread(|| {
        let mut labels = [9; 4];
        MODES.map(|mode| {
            let told = exported::label_rows(mode, 4, 1, 2, &VALUES, &[9.0, 2.0], &mut labels);
            (told, labels)
        })
    });
    let expected = LabelTold {
        number: 0,
        unplaced: 0,
    };
    assert_eq!(told, [(expected, [1, 1, 0, 0]); 2]);
}

#[test]
fn place_rows() {
    let told = on_small_thread(|| {
        MODES.map(|mode| exported::place_rows(mode, 4, 1, 2, &VALUES, &[9.0, 2.0]))
    });
    let placed = |label, distance| Placement::Placed { label, distance };
    let expected = [
        placed(1, 4.0),
        placed(1, 1.0),
        placed(0, 1.0),
        placed(0, 4.0),
    ];
    for told in told {
        assert_eq!(told.as_deref(), Ok(&expected[..]));
    }
}

#[test]
fn kmeans() {
    let told = on_small_thread(|| {
        let numbers = KMeansNumbers {
            rows: 4,
            dim: 1,
            k: 2,
            iterations: 25,
            restarts: 2,
            points_per_centroid: 256,
            block: 32_768,
            spherical: false,
        };
        MODES.map(|mode| {
            let (mut labels, mut centroids) = ([9; 4], [9.0; 2]);
            let work = &mut KMeansWork::new(4, 1, 9.0);
            let lent = (&mut labels, &mut centroids);
            let told = exported::kmeans(mode, numbers, &[0], &VALUES, lent.0, lent.1, work);
            assert!(work.is_zero(), "the work slice ends all zero");
            assert_eq!(told.unplaced, 0);
            (told.number, told.objective, told.restart, labels, centroids)
        })
    });
    assert_eq!(told, [(0, 1.0, 0, [0, 0, 1, 1], [0.5, 10.5]); 2]);
}

#[test]
fn group() {
    let both = on_small_thread(|| {
        let numbers = GroupNumbers {
            rows: 4,
            dim: 1,
            limit: 2,
            branching: 2,
            weight: 0.0,
            budget: 4,
            spherical: false,
        };
        MODES.map(|mode| {
            let (mut order, mut ends, mut means) = ([9; 4], [9; 4], [9.0; 4]);
            let work = &mut GroupWork::new(4, 1, 9.0);
            let lent = (&mut order, &mut ends, &mut means);
            let told = exported::group(mode, numbers, &[0], &VALUES, lent.0, lent.1, lent.2, work);
            assert!(work.is_zero(), "work slices end all zero");
            (told, order, ends, means)
        })
    });
    let expected = GroupTold {
        number: 0,
        groups: 2,
        splits: 1,
        unplaced: 0,
    };
    for (told, order, ends, means) in both {
        assert_eq!(told, expected);
        assert_eq!((order, ends), ([2, 3, 0, 1], [2, 4, 65_535, 65_535]));
        assert_eq!(means, [10.5, 0.5, 0.0, 0.0]);
    }
}

#[test]
fn root() {
    let roots = on_small_thread(|| [2.0, -0.0].map(|x: f32| exported::root(x).to_bits()));
    assert_eq!(roots, [std::f32::consts::SQRT_2, -0.0].map(f32::to_bits));
}

#[test]
fn list() {
    let text = on_small_thread(|| {
        let mut file = bytes(&VALUES);
        for number in [0u32, 0, 16, 4, 1, 1, 2, 2, 0, 4] {
            file.extend_from_slice(&number.to_le_bytes());
        }
        let mut text = vec![0; 60];
        let length = exported::list(&file, &mut text);
        text.truncate(length as usize);
        String::from_utf8(text).unwrap()
    });
    assert_eq!(text, "accepted groups 2 splits 1\n2: 2 3\n2: 0 1\n");
}

#[test]
fn result_file() {
    let numbers = ResultNumbers {
        rows: 4,
        dim: 1,
        groups: 2,
    };
    let (order, ends, means) = ([2, 3, 0, 1], [2, 4, 65_535, 65_535], [7, 5, 0, 0]);
    let file = on_small_thread(move || {
        let mut file = [9; 44];
        let number = exported::write_result(numbers, &order, &ends, &means, &mut file);
        assert_eq!(number, 0);
        file
    });
    let expected = ResultTold { number: 0, numbers };
    let told = on_small_thread(move || exported::result_numbers(&file));
    assert_eq!(told, expected);
    let (told, cells) = on_small_thread(move || {
        let mut cells = ([9; 4], [9; 4], [9; 4]);
        let (order, ends, means) = &mut cells;
        (exported::read_result(&file, order, ends, means), cells)
    });
    assert_eq!((told, cells), (expected, (order, ends, means)));
}

#[test]
fn what_is_stated_stands_in_the_page_and_is_at_most_1_mib() {
    let page = include_str!("../../../docs/BUFFERS.md");
    for (name, stack) in stack::STATED {
        assert!(5 * SMALL < stack && stack <= 1 << 20, "{name}: {stack}");
        let stated = format!("| {} KiB |", stack >> 10);
        let mut rows = page.lines();
        let row = rows.find(|line| line.starts_with(&format!("| `{name}` |")));
        assert!(row.is_some_and(|row| row.ends_with(&stated)), "{name}");
    }
}
