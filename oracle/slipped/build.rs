//! Copies the oracle's text once for each slip and turns the slip's place in the copy wrong.

use std::path::{Path, PathBuf};
use std::{env, fs};

/// A slip has the name of its module and stands in one file: what the oracle says there, in how
/// many places, and what the slip says instead.
struct Slip {
    name: &'static str,
    file: &'static str,
    edits: &'static [(&'static str, usize, &'static str)],
}

const SLIPS: [Slip; 37] = [
    // Scores are squared differences instead of the norm formula.
    Slip {
        name: "squared_differences",
        file: "kmeans.rs",
        edits: &[(
            "norm + column_norms[cluster] - 2.0 * dots[cluster]",
            2,
            "(0..dim).fold(0.0, |sum: f32, d| {
                let diff = block_data[row * dim + d] - columns[d * k + cluster];
                sum + diff * diff
            })",
        )],
    },
    // The objective widens to f64 before it subtracts.
    Slip {
        name: "widening_first",
        file: "kmeans.rs",
        edits: &[(
            "f64::from(point[d] - centroid[d])",
            1,
            "f64::from(point[d]) - f64::from(centroid[d])",
        )],
    },
    // The mean of a group is its sum times the inverse of its size.
    Slip {
        name: "inverse_mean",
        file: "clustering.rs",
        edits: &[("*sum /= count;", 1, "*sum *= 1.0 / count;")],
    },
    // Once a row has moved, the receiver's centroid is the mean of the rows it then holds.
    Slip {
        name: "balance_toward_mean",
        file: "clustering.rs",
        edits: &[
            (
                "for _round in 0..10 {",
                1,
                "let mut centroids = centroids.to_vec();
                for _round in 0..10 {",
            ),
            (
                "clusters[receiver].push(moved);",
                1,
                "clusters[receiver].push(moved);
                centroids[receiver] = compute_centroid(&clusters[receiver]);",
            ),
        ],
    },
    // The waiting group that came first is taken first.
    Slip {
        name: "first_come",
        file: "clustering.rs",
        edits: &[(
            "waiting.pop()",
            1,
            "(!waiting.is_empty()).then(|| waiting.remove(0))",
        )],
    },
    // A row as far as the last of a full pool takes that one's place.
    Slip {
        name: "equal_later_row",
        file: "kmeans.rs",
        edits: &[("entry.0 > last.0", 1, "entry.0 >= last.0")],
    },
    // Every pass through the draw list gives the same numbers: document 01's own rule, before
    // request (i) of document 02.
    Slip {
        name: "same_each_pass",
        file: "draws.rs",
        edits: &[(
            "wrapping_add(pass as u32)",
            1,
            "wrapping_add(0 * pass as u32)",
        )],
    },
    // Request (ii): a row of label 0 counts as unplaced.
    Slip {
        name: "zero_is_unplaced",
        file: "kmeans.rs",
        edits: &[(
            "matches!(found, Placement::Unplaced)",
            1,
            "found.label() == 0",
        )],
    },
    // Request (ii): an unplaced row's distance is zero.
    Slip {
        name: "unplaced_at_zero",
        file: "kmeans.rs",
        edits: &[(
            "Placement::Unplaced => f32::INFINITY",
            1,
            "Placement::Unplaced => 0.0",
        )],
    },
    // Request (ii): the count is that of the last restart, be another one kept.
    Slip {
        name: "last_restarts_count",
        file: "kmeans.rs",
        edits: &[
            (
                "let mut kept: Option<KMeansResult> = None;",
                1,
                "let mut kept: Option<KMeansResult> = None;
                let mut last = 0;",
            ),
            (
                "if restart == 0 {",
                1,
                "last = result.unplaced;
                if restart == 0 {",
            ),
            (
                "kept.unwrap()\n",
                1,
                "KMeansResult { unplaced: last, ..kept.unwrap() }\n",
            ),
        ],
    },
    // Request (ii): the labelling of the training rows counts as well as that of all rows.
    Slip {
        name: "training_counted",
        file: "kmeans.rs",
        edits: &[(
            "let unplaced = unplaced_of(&placements);",
            1,
            "let unplaced = unplaced_of(&placements)
                + unplaced_of(&assign_full_dataset(
                    training,
                    &training_norms,
                    k,
                    dim,
                    &columns,
                    &column_norms,
                    config.decode_block_size,
                ));",
        )],
    },
    // Request (ii): the first split's count is left out.
    Slip {
        name: "first_split_uncounted",
        file: "clustering.rs",
        edits: &[(
            "unplaced += lost;",
            1,
            "unplaced += if splits > 1 { lost } else { 0 };",
        )],
    },
    // Request (iii): a group is split, and refused by 9, before its budget is looked at.
    Slip {
        name: "nine_before_seven",
        file: "clustering.rs",
        edits: &[
            (
                "if splits == self.split_budget {",
                1,
                "let split = self.split_cluster(&cluster, draws)?;
                if splits == self.split_budget {",
            ),
            (
                "let (parts, lost) = self.split_cluster(&cluster, draws)?;",
                1,
                "let (parts, lost) = split;",
            ),
        ],
    },
    // Request (iii): an oversize group's rows are looked at before it is asked whether they are enough.
    Slip {
        name: "nine_before_six",
        file: "clustering.rs",
        edits: &[(
            "if cluster.size() < self.branching_factor {",
            1,
            "let norm = |row: &Member| row.vector.iter().fold(0.0, |sum: f32, v| sum + v * v);
                let lost = |row: &&Member| !norm(row).is_finite();
                self.mode.check_placed(cluster.data().iter().filter(lost).count() as u32)?;
                if cluster.size() < self.branching_factor {",
        )],
    },
    // Request (iii): all rows are looked at before anything is split.
    Slip {
        name: "whole_batch_first",
        file: "clustering.rs",
        edits: &[(
            "let mut waiting = vec![",
            1,
            "let norm = |row: &Member| row.vector.iter().fold(0.0, |sum: f32, v| sum + v * v);
        let lost = |row: &&Member| !norm(row).is_finite();
        self.mode.check_placed(data.iter().filter(lost).count() as u32)?;
        let mut waiting = vec![",
        )],
    },
    // Request (iii): only the first split is looked at.
    Slip {
        name: "first_split_alone",
        file: "clustering.rs",
        edits: &[(
            "let (parts, lost) = self.split_cluster(&cluster, draws)?;",
            1,
            "let mode = if splits > 1 { Mode::OldWay } else { self.mode };
                let (parts, lost) = Self { mode, ..*self }.split_cluster(&cluster, draws)?;",
        )],
    },
    // Request (iii): unplaced rows of any restart refuse, kept or not.
    Slip {
        name: "any_restart_refuses",
        file: "kmeans.rs",
        edits: &[
            (
                "let mut kept: Option<KMeansResult> = None;",
                1,
                "let mut kept: Option<KMeansResult> = None;
                let mut most = 0;",
            ),
            (
                "if restart == 0 {",
                1,
                "most = result.unplaced.max(most);
                if restart == 0 {",
            ),
            (
                "kept.unwrap()\n",
                1,
                "KMeansResult { unplaced: most, ..kept.unwrap() }\n",
            ),
        ],
    },
    // Request (iii): labels, and centroids, are written before 9 is looked for.
    Slip {
        name: "labels_left",
        file: "calls.rs",
        edits: &[
            (
                "mode.check_placed(unplaced)?;",
                2,
                "write_cells(labels, placements.iter().map(|found| found.label()));
                mode.check_placed(unplaced)?;",
            ),
            (
                "mode.check_placed(result.unplaced)?;",
                1,
                "write_cells(lent.labels, result.assignments.clone());
                mode.check_placed(result.unplaced)?;",
            ),
        ],
    },
    // Request (iii): after 9 the result bytes hold the label that the old way gives.
    Slip {
        name: "label_bytes_left",
        file: "calls.rs",
        edits: &[(
            "labelling(mode, 1, dim, k, &row, &centroids, &mut label)?;",
            1,
            "labelling(Mode::OldWay, 1, dim, k, &row, &centroids, &mut label)?;
            write_bytes(result, &label);
            labelling(mode, 1, dim, k, &row, &centroids, &mut label)?;",
        )],
    },
    // Request (iii): the listing goes on in the old way.
    Slip {
        name: "listing_in_old_way",
        file: "batch.rs",
        edits: &[("grouping(Mode::Strict,", 1, "grouping(Mode::OldWay,")],
    },
    // Request (iv): the rows are normalised.
    Slip {
        name: "rows_normalized",
        file: "kmeans.rs",
        edits: &[(
            "let picked = select_training_indices(",
            1,
            "let mut scaled = flat.to_vec();
    if config.spherical {
        normalize_centroids(&mut scaled, rows, dim);
    }
    let flat = &scaled[..];
    let picked = select_training_indices(",
        )],
    },
    // Request (iv): the picks are normalised before the first iteration.
    Slip {
        name: "picks_normalized",
        file: "kmeans.rs",
        edits: &[(
            "for _ in 0..iterations {",
            1,
            "if spherical {
        normalize_centroids(centroids, k, dim);
    }
    for _ in 0..iterations {",
        )],
    },
    // Request (iv): values are divided by the root.
    Slip {
        name: "divided_by_root",
        file: "kmeans.rs",
        edits: &[
            (
                "let inverse = norm.sqrt().recip();",
                1,
                "let root = norm.sqrt();",
            ),
            ("*value *= inverse;", 1, "*value /= root;"),
        ],
    },
    // Request (iv): the root of 2 at any scale is one unit too large.
    Slip {
        name: "root_one_off",
        file: "kmeans.rs",
        edits: &[(
            "norm.sqrt().recip()",
            1,
            "f32::from_bits(norm.sqrt().to_bits() + u32::from(norm.to_bits() << 8 == 0)).recip()",
        )],
    },
    // Request (iv): a centroid whose norm is NaN is normalised.
    Slip {
        name: "nan_normalized",
        file: "kmeans.rs",
        edits: &[("if norm > 0.0 {", 1, "if norm > 0.0 || norm.is_nan() {")],
    },
    // Request (iv): refilled centroids are left as they are.
    Slip {
        name: "refills_left_out",
        file: "kmeans.rs",
        edits: &[(
            "normalize_centroids(centroids, k, dim);",
            1,
            "for cluster in (0..k).filter(|&cluster| summary.counts[cluster] > 0) {
                normalize_centroids(&mut centroids[cluster * dim..][..dim], 1, dim);
            }",
        )],
    },
    // Request (iv): the last iteration ends with what the update gives.
    Slip {
        name: "last_left_out",
        file: "kmeans.rs",
        edits: &[
            (
                "for _ in 0..iterations {",
                1,
                "for iteration in 1..=iterations {",
            ),
            (
                "if spherical {",
                1,
                "if spherical && iteration < iterations {",
            ),
        ],
    },
    // Request (iv): grouping keeps the setting to itself, as the source's `run_kmeans` does.
    Slip {
        name: "not_passed_on",
        file: "clustering.rs",
        edits: &[(
            "self.max_iterations, self.spherical,",
            1,
            "self.max_iterations, false,",
        )],
    },
    // Request (iv): the means of families are normalised.
    Slip {
        name: "means_normalized",
        file: "clustering.rs",
        edits: &[(
            ".map(Cluster::from_data)",
            1,
            ".map(|part| {
                let mut part = Cluster::from_data(part);
                let norm = part.centroid.iter().fold(0.0, |sum: f32, v| sum + v * v);
                if self.spherical && norm > 0.0 {
                    part.centroid.iter_mut().for_each(|value| *value *= norm.sqrt().recip());
                }
                part
            })",
        )],
    },
    // Request (vi): an end may be that of the group before, so that a size may be zero.
    Slip {
        name: "equal_ends",
        file: "results.rs",
        edits: &[("if end <= last {", 1, "if end < last {")],
    },
    // Request (vi): ends rise, to whatever they come.
    Slip {
        name: "last_end_free",
        file: "results.rs",
        edits: &[("u32::from(last) == rows", 1, "u32::from(last) <= 65_535")],
    },
    // Request (vi): -0.0 is blank too, as a float that is compared with 0.0.
    Slip {
        name: "negative_zero_blank",
        file: "results.rs",
        edits: &[(
            "|&bits| bits == BLANK_BITS",
            1,
            "|&bits| f32::from_bits(bits) == f32::from_bits(BLANK_BITS)",
        )],
    },
    // Request (vi): the reader looks at lengths as soon as it knows the numbers.
    Slip {
        name: "two_before_ten",
        file: "results.rs",
        edits: &[(
            "let found = sound(file)?;",
            1,
            "lent.check_lengths(&shaped(file)?.numbers)?;
    let found = sound(file)?;",
        )],
    },
    // Request (vi): row numbers are written before the rest is looked at.
    Slip {
        name: "half_written",
        file: "results.rs",
        edits: &[(
            "cells.check_content(numbers)?;",
            1,
            "put(file, cells.order.iter().map(|row| row.to_le_bytes()));
    cells.check_content(numbers)?;",
        )],
    },
    // Request (vi): a row may be listed twice, in the place of another.
    Slip {
        name: "row_twice",
        file: "results.rs",
        edits: &[(
            "!std::mem::replace(seen, true)",
            1,
            "!std::mem::replace(seen, false)",
        )],
    },
    // Request (vi): all NaN means become one, as where they travel as floats that are compared.
    Slip {
        name: "one_nan",
        file: "results.rs",
        edits: &[(
            "|bits| bits.to_le_bytes()",
            1,
            "|&bits| crate::cases::float_bits(f32::from_bits(bits)).to_le_bytes()",
        )],
    },
    // Request (vi): the numbers of a file are told by its shape alone.
    Slip {
        name: "numbers_by_shape",
        file: "results.rs",
        edits: &[(
            "sound(file).map(|found| found.numbers)",
            1,
            "shaped(file).map(|found| found.numbers)",
        )],
    },
];

impl Slip {
    /// The text of a file with the slip in it; a place that is not found as stated fails the build.
    fn applied(&self, file: &Path, mut text: String) -> String {
        if file == Path::new(self.file) {
            for &(right, places, wrong) in self.edits {
                assert_eq!(text.matches(right).count(), places, "places of {right}");
                text = text.replace(right, wrong);
            }
        }
        text.replace("crate::", &format!("crate::{}::", self.name))
    }
}

/// The files below a folder, named from there.
fn files_below(root: &Path, folder: &Path) -> Vec<PathBuf> {
    let mut files = vec![];
    for entry in fs::read_dir(root.join(folder)).expect("the oracle's folder") {
        let path = folder.join(entry.expect("an entry").file_name());
        if root.join(&path).is_dir() {
            files.extend(files_below(root, &path));
        } else {
            files.push(path);
        }
    }
    files
}

fn main() {
    let folder = |name| PathBuf::from(env::var_os(name).expect("cargo says where"));
    let oracle = folder("CARGO_MANIFEST_DIR").join("../src");
    let out = folder("OUT_DIR");
    println!("cargo:rerun-if-changed={}", oracle.display());

    let mut modules = String::new();
    for slip in SLIPS {
        let copy = out.join(slip.name);
        for file in files_below(&oracle, Path::new("")) {
            let text = fs::read_to_string(oracle.join(&file)).expect("the oracle's text");
            let path = copy.join(&file);
            fs::create_dir_all(path.parent().expect("a folder")).expect("a folder for the copy");
            fs::write(path, slip.applied(&file, text)).expect("the copy");
        }
        let path = copy.join("lib.rs");
        // What only the right text reads is left unread.
        modules += &format!("#[allow(unused_variables)]\n#[path = {path:?}]\n");
        modules += &format!("pub mod {};\n", slip.name);
    }
    fs::write(out.join("modules.rs"), modules).expect("the list of modules");
}
