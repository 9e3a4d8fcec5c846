//! The oracle: the clustering part of lqhl/rabitq-rs (`src/kmeans.rs`, `src/mstg/clustering.rs`,
//! `src/mstg/closure.rs`, `l2_distance_sqr`), with the substitutions of document 01, as document 02
//! amends them, and no others.
//!
//! `kmeans`, `clustering`, `closure` and `math` have the functions of the source's files of these
//! names, in their order and with their order of steps, so that both can be held side by side
//! (docs/DIFFERENCES.md has the table); what the source does not have stands at their ends. `draws`
//! stands for the generator. `calls` puts the refusals and blank cells of document 01 on top, and
//! `batch` the file and its listing; `results` has the result file of document 02. `cases` makes the
//! inputs that another implementation is compared on; the package `slipped` has the wrong versions
//! that those inputs must tell apart.

pub mod batch;
pub mod calls;
pub mod cases;
pub mod closure;
pub mod clustering;
pub mod draws;
pub mod kmeans;
pub mod math;
pub mod random;
pub mod refusal;
pub mod results;
