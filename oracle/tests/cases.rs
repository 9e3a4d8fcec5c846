//! What holds of every generated case, and that the cases meet what they are there for.

use std::collections::BTreeMap;

use oracle::calls::{label_bytes, BLANK_CELL};
use oracle::cases::{
    BatchCase, Case, ClosureBytesCase, ClosureCase, GroupingCase, GroupingOutcome, KMeansCase,
    LabelBytesCase, LabelCase, PlaceCase, ReadResultCase, RestartsCase, ResultNumbersCase,
    ResultTripCase, SphericalCase, SphericalGroupingCase, TwoWays, WriteResultCase, ON, SHOWS,
};
use oracle::refusal::Mode;

const SEED: u64 = 7;
const CASES: u64 = 2_500;

/// The generated cases and then the built ones.
fn all<C: Case>() -> impl Iterator<Item = C> {
    (0..CASES)
        .map(|index| C::generate(SEED, index))
        .chain(C::built())
}

/// Asks that each of the numbers, 0 for an acceptance, is met by all cases and no other.
fn assert_met_by<C: Case>(run: impl Fn(&C) -> C::Outcome, numbers: &[u32]) {
    let mut met: BTreeMap<u32, usize> = BTreeMap::new();
    for case in all::<C>() {
        *met.entry(C::number(&run(&case))).or_default() += 1;
    }
    println!("{}: {met:?}", C::NAME);
    assert_eq!(met.keys().copied().collect::<Vec<_>>(), numbers);
    assert!(met[&0] as u64 > CASES / 3, "{} hardly accepts", C::NAME);
}

fn assert_met<C: Case>(numbers: &[u32]) {
    assert_met_by(C::run, numbers);
}

fn assert_strict_met<C: TwoWays>(numbers: &[u32]) {
    assert_met_by(|case: &C| case.run_in(Mode::Strict), numbers);
}

#[test]
fn every_refusal_is_met() {
    assert_met::<LabelCase>(&[0, 1, 2]);
    assert_met::<PlaceCase>(&[0, 1, 2]);
    assert_met::<KMeansCase>(&[0, 1, 2, 3, 4]);
    assert_met::<SphericalCase>(&[0, 1, 2, 3, 4]);
    assert_met::<SphericalGroupingCase>(&[0, 1, 2, 4, 6, 7]);
    assert_met::<ClosureCase>(&[0, 1, 2, 5]);
    assert_met::<LabelBytesCase>(&[0, 1, 2]);
    assert_met::<ClosureBytesCase>(&[0, 1, 2, 5]);
}

#[test]
fn every_refusal_is_met_in_the_strict_mode() {
    assert_strict_met::<LabelCase>(&[0, 1, 2, 9]);
    assert_strict_met::<PlaceCase>(&[0, 1, 2, 9]);
    assert_strict_met::<KMeansCase>(&[0, 1, 2, 3, 4, 9]);
    assert_strict_met::<SphericalCase>(&[0, 1, 2, 3, 4, 9]);
    assert_strict_met::<SphericalGroupingCase>(&[0, 1, 2, 4, 6, 7, 9]);
    assert_strict_met::<LabelBytesCase>(&[0, 1, 2, 9]);
    assert_strict_met::<GroupingCase>(&[0, 1, 2, 4, 6, 7, 9]);
}

/// Request (iii) of document 02: the strict way is the old one where nothing is unplaced.
fn assert_ways_go_together<C: TwoWays>() {
    for case in all::<C>() {
        let [old, strict] = Mode::BOTH.map(|mode| case.run_in(mode));
        assert!(C::go_together(&old, &strict), "{case:?}");
    }
}

#[test]
fn both_ways_go_together() {
    assert_ways_go_together::<LabelCase>();
    assert_ways_go_together::<PlaceCase>();
    assert_ways_go_together::<KMeansCase>();
    assert_ways_go_together::<RestartsCase>();
    assert_ways_go_together::<SphericalCase>();
    assert_ways_go_together::<SphericalGroupingCase>();
    assert_ways_go_together::<LabelBytesCase>();
    assert_ways_go_together::<GroupingCase>();
}

/// A row's bytes are refused by 9 exactly where labelling tells one unplaced row.
#[test]
fn bytes_of_an_unplaced_row_are_refused() {
    for case in all::<LabelCase>().filter(|case| case.rows == 1) {
        let Ok(unplaced) = case.run().answer else {
            continue;
        };
        let strict = LabelBytesCase::from(&case).run_in(Mode::Strict);
        assert_eq!(strict.number, 9 * unplaced, "{case:?}");
        assert_eq!(strict.result == [255; 2], unplaced == 1, "{case:?}");
    }
}

/// Two outcomes that do not go together, by the number of unplaced rows and by the refusals.
#[test]
fn what_does_not_go_together_is_seen() {
    let outcome = |answer| oracle::cases::LabelOutcome {
        answer,
        labels: vec![0],
    };
    use oracle::refusal::Refusal::{UnplacedRow, WrongLength};
    let together = |old, strict| LabelCase::go_together(&outcome(old), &outcome(strict));
    assert!(together(Ok(0), Ok(0)) && together(Ok(1), Err(UnplacedRow)));
    assert!(!together(Ok(1), Ok(1)) && !together(Ok(0), Err(UnplacedRow)));
    assert!(together(Err(WrongLength), Err(WrongLength)));
    assert!(!together(Err(WrongLength), Err(UnplacedRow)));
    assert!(!together(Err(WrongLength), Ok(0)));
}

#[test]
fn every_refusal_of_grouping_is_met() {
    assert_met::<GroupingCase>(&[0, 1, 2, 4, 6, 7]);
}

#[test]
fn every_refusal_of_the_program_is_met() {
    assert_met::<BatchCase>(&[0, 1, 4, 6, 7, 8, 9]);
}

#[test]
fn every_refusal_of_a_result_file_is_met() {
    assert_met::<WriteResultCase>(&[0, 1, 2, 10]);
    assert_met::<ReadResultCase>(&[0, 2, 10]);
    assert_met::<ResultNumbersCase>(&[0, 10]);
    assert_met::<ResultTripCase>(&[0]);
}

fn assert_repeatable<C: Case>() {
    for index in 0..60 {
        let (once, again) = (C::generate(SEED, index), C::generate(SEED, index));
        assert_eq!(format!("{once:?}"), format!("{again:?}"));
        assert_eq!(once.run(), again.run());
    }
}

#[test]
fn a_seed_and_an_index_name_a_case() {
    assert_repeatable::<LabelCase>();
    assert_repeatable::<PlaceCase>();
    assert_repeatable::<KMeansCase>();
    assert_repeatable::<GroupingCase>();
    assert_repeatable::<SphericalCase>();
    assert_repeatable::<SphericalGroupingCase>();
    assert_repeatable::<ClosureCase>();
    assert_repeatable::<LabelBytesCase>();
    assert_repeatable::<ClosureBytesCase>();
    assert_repeatable::<BatchCase>();
    assert_repeatable::<WriteResultCase>();
    assert_repeatable::<ReadResultCase>();
    assert_repeatable::<ResultNumbersCase>();
    assert_repeatable::<ResultTripCase>();
}

fn blank(cells: &[u16]) -> bool {
    cells.iter().all(|&cell| cell == BLANK_CELL)
}

fn zero(floats: &[u32]) -> bool {
    floats.iter().all(|&bits| bits == 0)
}

/// The outcomes of all cases, the old way's and the strict ones.
fn in_both_modes<C: TwoWays>() -> impl Iterator<Item = C::Outcome> {
    all::<C>().flat_map(|case| Mode::BOTH.map(|mode| case.run_in(mode)))
}

#[test]
fn a_refusal_leaves_only_blanks() {
    for outcome in in_both_modes::<LabelCase>() {
        assert!(outcome.answer.is_ok() || blank(&outcome.labels));
    }
    for outcome in in_both_modes::<PlaceCase>() {
        let blanks = blank(&outcome.labels) && zero(&outcome.distances);
        assert!(outcome.answer.is_ok() || blanks);
    }
    for outcome in in_both_modes::<KMeansCase>() {
        let blanks = blank(&outcome.labels) && zero(&outcome.centroids);
        assert!(outcome.answer.is_ok() || blanks);
    }
    for outcome in in_both_modes::<GroupingCase>() {
        let blanks = blank(&outcome.order) && blank(&outcome.ends) && zero(&outcome.means);
        assert!(outcome.answer.is_ok() || blanks);
    }
    for case in all::<ClosureCase>() {
        let outcome = case.run();
        assert!(outcome.answer.is_ok() || blank(&outcome.cells));
    }
    for outcome in in_both_modes::<LabelBytesCase>() {
        assert!(outcome.number == 0 || outcome.result.iter().all(|&byte| byte == 255));
    }
    for case in all::<ClosureBytesCase>() {
        let outcome = case.run();
        assert!(outcome.number == 0 || outcome.result.iter().all(|&byte| byte == 255));
    }
    for outcome in all::<WriteResultCase>().map(|case| case.run()) {
        assert!(outcome.answer.is_ok() || outcome.file.iter().all(|&byte| byte == 0));
    }
    for outcome in all::<ReadResultCase>().map(|case| case.run()) {
        let blanks = blank(&outcome.order) && blank(&outcome.ends) && zero(&outcome.means);
        assert!(outcome.answer.is_ok() || blanks);
    }
}

/// Each row once, each group of 1 to limit rows, and blanks where there are no more groups.
fn assert_partition(case: &GroupingCase, outcome: &GroupingOutcome, groups: usize) {
    let (ends, unused) = outcome.ends.split_at(groups);
    let mut start = 0;
    for &end in ends {
        assert!(start < end && u32::from(end - start) <= case.numbers.size_limit);
        start = end;
    }
    assert_eq!(u32::from(start), case.numbers.rows);
    assert!(blank(unused));
    assert!(zero(&outcome.means[groups * case.numbers.dim as usize..]));
    let mut rows = outcome.order.clone();
    rows.sort_unstable();
    assert!(rows.iter().zip(0..).all(|(&row, at)| row == at));
}

#[test]
fn an_accepted_grouping_holds_each_row_once() {
    let spherical = all::<SphericalGroupingCase>().map(|spherical| spherical.case);
    for case in all::<GroupingCase>().chain(spherical) {
        let outcome = case.run();
        if let Ok(accepted) = outcome.answer {
            assert_partition(&case, &outcome, accepted.groups as usize);
            assert!(accepted.splits <= case.numbers.budget);
        } else {
            assert!(blank(&outcome.order) && blank(&outcome.ends) && zero(&outcome.means));
        }
    }
}

/// Request (vi) of document 02: a grouping comes back, and so do the bytes of a file.
#[test]
fn results_come_back() {
    for case in all::<ResultTripCase>() {
        assert!(case.comes_back(&case.run()), "{case:?}");
    }
    for case in all::<ReadResultCase>() {
        let outcome = case.run();
        let told = ResultNumbersCase::from(case.clone()).run();
        let Ok(numbers) = outcome.answer else {
            let is_ten = ReadResultCase::number(&outcome) == 10;
            assert_eq!(told.is_err(), is_ten, "{case:?}");
            continue;
        };
        assert_eq!(told, Ok(numbers));
        let again = WriteResultCase {
            numbers,
            order: outcome.order,
            ends: outcome.ends,
            means: outcome.means,
            file_bytes: case.file.len(),
            wrong: vec![],
        };
        assert_eq!(again.run().file, case.file);
    }
}

/// A result case is refused for what was made wrong, and for nothing else.
#[test]
fn what_is_made_wrong_is_refused() {
    let lengths = "another length";
    for case in (0..CASES).map(|index| WriteResultCase::generate(SEED, index)) {
        let number = WriteResultCase::number(&case.run());
        let expected = |wrong: &&str| match *wrong {
            "rows out of range" | "dim out of range" => 1,
            "groups above rows in a file of before" | "groups that wrap" => 2,
            wrong if wrong.starts_with(lengths) => 2,
            _ => 10,
        };
        let first = case.wrong.iter().map(expected).min();
        assert_eq!(number, first.unwrap_or(0), "{case:?}");
    }
    for case in (0..CASES).map(|index| ReadResultCase::generate(SEED, index)) {
        let number = ReadResultCase::number(&case.run());
        // A mean that is changed is as good, and so is another dim where there are no rows.
        let may_be_sound = |wrong: &str| match wrong {
            "a byte changed" | "a bit changed" => true,
            "another number" | "other numbers of the same length" => case.mean_cells == 0,
            _ => false,
        };
        match case.wrong[..] {
            [] => assert_eq!(number, 0, "{case:?}"),
            [wrong] if wrong.starts_with(lengths) => assert_eq!(number, 2, "{case:?}"),
            [wrong, ..] if may_be_sound(wrong) => (),
            _ => assert_eq!(number, 10, "{case:?}"),
        }
    }
}

#[test]
fn a_label_depends_on_its_own_row() {
    let bytes =
        |values: &[f32]| -> Vec<u8> { values.iter().flat_map(|v| v.to_le_bytes()).collect() };
    for case in all::<LabelCase>() {
        let outcome = case.run();
        if outcome.answer.is_err() || case.rows > 60 {
            continue;
        }
        let centroids = bytes(&case.centroids);
        for (row, label) in case.values.chunks(case.dim as usize).zip(&outcome.labels) {
            let mut result = [0; 2];
            let row = bytes(row);
            let answer = label_bytes(
                Mode::OldWay,
                case.dim,
                case.k,
                &row,
                &centroids,
                &mut result,
            );
            assert_eq!((answer, u16::from_le_bytes(result)), (0, *label));
        }
    }
}

#[test]
fn kmeans_labels_are_labels_of_its_centroids() {
    let spherical = all::<SphericalCase>().map(|spherical| spherical.case);
    for case in all::<KMeansCase>().chain(spherical) {
        let outcome = case.run();
        if outcome.answer.is_err() {
            continue;
        }
        let labelling = LabelCase {
            rows: case.numbers.rows,
            dim: case.numbers.dim,
            k: case.numbers.k,
            values: case.values.clone(),
            centroids: outcome
                .centroids
                .iter()
                .copied()
                .map(f32::from_bits)
                .collect(),
            label_cells: case.label_cells,
        };
        let labelled = labelling.run();
        assert_eq!(labelled.labels, outcome.labels);
        // So both are refused by 9 alike.
        let [ours, theirs] = [
            KMeansCase::number(&case.run_in(Mode::Strict)),
            LabelCase::number(&labelling.run_in(Mode::Strict)),
        ];
        assert_eq!(ours, theirs);
        // Those of the restart kept, since the centroids are.
        assert_eq!(labelled.answer, outcome.answer.map(|found| found.2));
    }
}

/// Request (ii) of document 02: the count is that of infinite distances, and an unplaced row has label 0.
#[test]
fn unplaced_rows_are_those_at_infinity() {
    for case in all::<PlaceCase>() {
        let outcome = case.run();
        let Ok(unplaced) = outcome.answer else {
            continue;
        };
        let each = outcome.labels.iter().zip(&outcome.distances);
        let lost: Vec<_> = each
            .filter(|(_, &bits)| bits == f32::INFINITY.to_bits())
            .collect();
        assert_eq!(lost.len(), unplaced as usize);
        assert!(lost.iter().all(|(&label, _)| label == 0));
        let labelled = case.labelling.run();
        assert_eq!(labelled.answer, Ok(unplaced));
        assert_eq!(labelled.labels, outcome.labels);
    }
}

#[test]
fn a_batch_within_the_limit_has_no_unplaced_rows() {
    let mut case = GroupingCase::simple(&[f32::NAN, f32::NAN], 2, 2, 0.0, 9);
    assert_eq!(case.run().answer.unwrap().unplaced, 0);
    // Balancing alone parts them: four rows, then three of them, then two.
    case = GroupingCase::simple(&[f32::NAN; 4], 1, 2, 0.5, 9);
    let accepted = case.run().answer.unwrap();
    assert_eq!((accepted.splits, accepted.unplaced), (3, 4 + 3 + 2));
}

/// Request (iii) of document 02: where 9 meets the other refusals, and where it does not come.
#[test]
fn every_kind_of_refusal_by_nine_is_met() {
    let mut met: Vec<&str> = vec![];
    for case in all::<GroupingCase>() {
        let [old, strict] = Mode::BOTH.map(|mode| case.run_in(mode));
        met.extend(case.strict_kinds(&old, &strict));
    }
    for case in all::<RestartsCase>() {
        met.extend(case.0.strict_kinds(&case.run_in(Mode::Strict)));
    }
    for kind in [
        "refused 7, with a budget of 0 and a NaN row",
        "refused 6, with fewer rows than branching and a NaN row",
        "accepted within the limit, with a NaN row",
        "refused 9 after a split that places all rows",
        "refused 9 where the old way is refused by 6 or 7 later",
        "accepted, with unplaced rows in a restart not kept",
        "refused 9, with none unplaced in a restart not kept",
    ] {
        assert!(met.contains(&kind), "no case is `{kind}`");
    }
}

/// Asks that the accepted cases meet each of these kinds.
fn assert_kinds<C: Case>(kinds: fn(&C, &C::Outcome) -> Vec<&'static str>, needed: &[&'static str]) {
    let mut met: BTreeMap<&str, u64> = BTreeMap::new();
    for case in all::<C>() {
        let outcome = case.run();
        if C::number(&outcome) == 0 {
            for kind in kinds(&case, &outcome) {
                *met.entry(kind).or_default() += 1;
            }
        }
    }
    println!("{}: {met:?}", C::NAME);
    for kind in needed.iter().chain(&UNPLACED_ROWS) {
        assert!(met.contains_key(kind), "{} has no `{kind}`", C::NAME);
    }
}

const UNPLACED_ROWS: [&str; 3] = ["a NaN row", "an infinite row", "a row whose norm overflows"];

#[test]
fn every_kind_of_unplaced_row_is_met_in_labelling() {
    assert_kinds::<LabelCase>(
        |case, outcome| case.unplaced_kinds(&outcome.labels, outcome.answer.unwrap()),
        &[
            "a NaN centroid",
            "unplaced rows beside family 0",
            "all rows unplaced",
        ],
    );
    assert_kinds::<PlaceCase>(
        |case, outcome| case.unplaced_kinds(outcome),
        &["a NaN centroid", "unplaced rows beside a distance of 0"],
    );
}

#[test]
fn every_kind_of_unplaced_row_is_met_in_kmeans_and_grouping() {
    assert_kinds::<KMeansCase>(
        |case, outcome| case.unplaced_kinds(outcome.answer.unwrap().2),
        &["unplaced rows"],
    );
    assert_kinds::<RestartsCase>(
        |case, outcome| case.0.unplaced_kinds(outcome.answer.unwrap().2),
        &[
            "fewer unplaced than in the last restart",
            "more unplaced than in the last restart",
        ],
    );
    assert_kinds::<GroupingCase>(
        |case, outcome| case.unplaced_kinds(&outcome.answer.unwrap()),
        &[
            "unplaced rows",
            "one NaN row, several splits and more than one unplaced",
            "more unplaced than there are rows",
        ],
    );
}

/// Request (iv) of document 02: every number but 0 is on, and on shows.
#[test]
fn every_number_but_0_is_on() {
    let mut case = SphericalCase::built()[0].case.clone();
    let mut outcome_by = |number| {
        case.numbers.spherical = number;
        case.run()
    };
    let [off, on] = [0, 1].map(&mut outcome_by);
    assert_ne!(off, on);
    for number in [2, 256, 65_536, 1 << 31, u32::MAX] {
        assert_eq!(outcome_by(number), on, "{number}");
    }
}

/// The kinds that a tally needs are met by these few cases too.
#[test]
fn most_cases_show_that_the_setting_is_on() {
    let met = |kinds: Vec<Vec<&str>>| {
        [ON, SHOWS].map(|kind| kinds.iter().filter(|kinds| kinds.contains(&kind)).count())
    };
    let kmeans = all::<SphericalCase>().map(|case| case.kinds(Mode::OldWay, &case.run()));
    let grouping = all::<SphericalGroupingCase>();
    let grouping = grouping.map(|case| case.kinds(Mode::Strict, &case.run_in(Mode::Strict)));
    for [on, shows] in [met(kmeans.collect()), met(grouping.collect())] {
        println!("on {on}, other answers with it off {shows}");
        assert!(on as u64 > CASES / 2 && shows as u64 > CASES / 10);
    }
}

/// Two shapes at four scales: with it off the smaller rows of both are a family, with it on the rows of each are.
#[test]
fn gain_only_rows_are_grouped_by_shape() {
    let mut case = SphericalGroupingCase::gains().case;
    let outcome = case.run();
    let mut families: Vec<Vec<u16>> = [&outcome.order[..4], &outcome.order[4..]]
        .map(<[u16]>::to_vec)
        .into();
    families.sort();
    assert_eq!(outcome.ends[..2], [4, 8]);
    assert_eq!(families, [[0, 2, 4, 6], [1, 3, 5, 7]]);
    // A family's mean is that of its rows: the gains' mean, 1.875, times the shape.
    let first = f32::from_bits(outcome.means[0]).abs();
    assert!((first - 1.875 * 0.8).abs() < 1e-6 || (first - 1.875 * 0.6).abs() < 1e-6);
    case.numbers.spherical = 0;
    let mut family = case.run().order[..4].to_vec();
    family.sort_unstable();
    assert!(family.iter().any(|row| row % 2 == 0) && family.iter().any(|row| row % 2 == 1));
}

fn objective_of(case: &KMeansCase) -> (f64, u32) {
    let (bits, restart, _) = case.run().answer.unwrap();
    (f64::from_bits(bits), restart)
}

#[test]
fn a_nan_first_objective_is_never_beaten() {
    let case = KMeansCase::nan_objective(true);
    let (objective, restart) = objective_of(&case);
    assert!(objective.is_nan());
    assert_eq!(restart, 0);

    // The second restart alone: an infinite objective and other results, so the choice shows.
    let mut second = case.clone();
    second.numbers.restarts = 1;
    second.draws.drain(8..10);
    assert_eq!(objective_of(&second), (f64::INFINITY, 0));
    let (kept, other) = (case.run(), second.run());
    assert_ne!(kept.centroids, other.centroids);
}

#[test]
fn a_later_nan_objective_beats_nothing() {
    let case = KMeansCase::nan_objective(false);
    assert_eq!(objective_of(&case), (f64::INFINITY, 0));
    let mut second = case.clone();
    second.numbers.restarts = 1;
    second.draws.drain(8..10);
    assert!(objective_of(&second).0.is_nan());
}

#[test]
fn later_restarts_are_kept_and_ties_keep_the_first() {
    let mut later = 0;
    for case in all::<KMeansCase>() {
        if let Ok((_, restart, _)) = case.run().answer {
            later += u32::from(restart > 0);
        }
    }
    assert!(later > 0);
    let mut equal = KMeansCase::built()[3].clone();
    equal.numbers.restarts = 16;
    assert_eq!(objective_of(&equal), (0.0, 0));
}
