//! Counts of what agreed, of what did not, and of the kinds of case that were met.

use std::collections::BTreeMap;
use std::fmt::Debug;

use oracle::cases::Case;
use oracle::refusal::Mode;

use crate::proved::{BothWays, Compared, Proved};

/// How many cases that differ are shown whole.
pub const SHOWN: u64 = 5;

/// A kind of case and the least number of times that a run has to meet it.
pub type Need = (&'static str, u64);

#[derive(Default)]
pub struct Tally {
    pub passed: u64,
    pub failed: u64,
    met: BTreeMap<String, u64>,
}

impl Tally {
    /// Hands a case to both sides.
    pub fn add<C: Compared>(&mut self, name: &str, case: &C) {
        let theirs = case.run();
        for kind in case.kinds(&theirs) {
            self.meet(kind);
        }
        self.judge(name, case, &case.proved(), &theirs);
    }

    /// Hands a case to both sides in both modes, and holds the proved library's two outcomes against each other too.
    pub fn add_both<C: BothWays>(&mut self, name: &str, case: &C) {
        let [old, strict] = Mode::BOTH.map(|mode| case.run_in(mode));
        let met = [case.kinds(&old), case.strict_kinds(&old, &strict)];
        for kind in met.concat() {
            self.meet(kind);
        }
        let [old_way, strict_way] = Mode::BOTH.map(|mode| case.proved_in(mode));
        self.judge(&format!("{name}, the old way,"), case, &old_way, &old);
        self.judge(&format!("{name}, strict,"), case, &strict_way, &strict);
        if !C::go_together(&old_way.outcome, &strict_way.outcome) {
            let text = format!(
                "{case:?}\nthe old way {:?}\nstrict {:?}",
                old_way.outcome, strict_way.outcome
            );
            self.fail(&format!("{} {name} between its two ways", C::NAME), &text);
        }
    }

    fn judge<C: Case>(
        &mut self,
        name: &str,
        case: &C,
        ours: &Proved<C::Outcome>,
        theirs: &C::Outcome,
    ) {
        if ours.outcome == *theirs && ours.tidy {
            self.passed += 1;
            return;
        }
        let text = format!(
            "{case:?}\nproved {:?}, all else as it should be: {}\noracle {theirs:?}",
            ours.outcome, ours.tidy
        );
        self.fail(&format!("{} {name}", C::NAME), &text);
    }

    /// Holds an answer against the oracle's.
    pub fn hold<T: Debug + PartialEq>(&mut self, name: &str, ours: &T, theirs: &T) {
        if ours == theirs {
            self.passed += 1;
        } else {
            self.fail(name, &format!("proved {ours:?}\noracle {theirs:?}"));
        }
    }

    fn fail(&mut self, name: &str, text: &str) {
        self.failed += 1;
        if self.failed <= SHOWN {
            println!("{name} differs:\n{text}");
        }
    }

    pub fn meet(&mut self, kind: String) {
        self.meet_times(kind, 1);
    }

    pub fn meet_times(&mut self, kind: String, times: u64) {
        *self.met.entry(kind).or_default() += times;
    }

    pub fn met(&self, kind: &str) -> u64 {
        self.met.get(kind).copied().unwrap_or(0)
    }

    /// A kind that was met too seldom fails the run, since what nobody tried agrees with everything.
    pub fn need(&mut self, name: &str, needs: &[Need]) {
        for &(kind, least) in needs {
            let met = self.met(kind);
            if met < least {
                self.failed += 1;
                println!("{name}: `{kind}` was met {met} times, {least} are needed");
            }
        }
    }

    /// The line that the gate counts, and what was met.
    pub fn report(&self, name: &str) {
        let met: Vec<String> = self
            .met
            .iter()
            .map(|(kind, times)| format!("{kind} {times}"))
            .collect();
        println!("{name}: {} passed, {} failed", self.passed, self.failed);
        println!("    met: {}", met.join(", "));
    }
}

/// The kind of an answer by its number.
pub fn number_kind(number: u32) -> String {
    match number {
        0 => "accepted".into(),
        _ => format!("refused {number}"),
    }
}

#[cfg(test)]
mod tests {
    use super::*;

    #[test]
    fn what_differs_is_counted_as_failed() {
        let mut tally = Tally::default();
        tally.hold("one", &1, &1);
        tally.hold("two", &1, &2);
        assert_eq!((tally.passed, tally.failed), (1, 1));
    }

    #[test]
    fn a_kind_met_too_seldom_fails_the_run() {
        let mut tally = Tally::default();
        tally.meet(number_kind(0));
        tally.meet(number_kind(7));
        tally.need("a run", &[("accepted", 1), ("refused 7", 1)]);
        assert_eq!(tally.failed, 0);
        tally.need("a run", &[("refused 7", 2), ("refused 8", 1)]);
        assert_eq!(tally.failed, 2);
    }
}
