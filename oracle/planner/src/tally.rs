//! What a run of cases covered: for each kind the answers and the refusals, and how often the
//! answers had what makes a plan interesting.

use crate::generate::Kind;
use crate::plan::{Plan, Stop};
use std::collections::BTreeMap;
use std::fmt;
use terms::{Action, Fault};

#[derive(Default)]
pub struct Tally {
    kinds: BTreeMap<Kind, Ends>,
    features: BTreeMap<&'static str, usize>,
    most: BTreeMap<&'static str, usize>,
    odd: Vec<String>,
}

#[derive(Default)]
struct Ends {
    answered: usize,
    refused: [usize; 13],
}

impl Tally {
    pub fn add(&mut self, kind: Kind, number: u64, answer: &Result<Plan, Stop>) {
        let ends = self.kinds.entry(kind).or_default();
        match answer {
            Ok(plan) => {
                ends.answered += 1;
                self.look(plan);
            }
            Err(Stop::Refused(n)) => ends.refused[usize::from(*n)] += 1,
            Err(Stop::Odd(fault)) => {
                self.odd
                    .push(format!("{} case {number}: {fault:?}", kind.name()));
            }
        }
    }

    fn look(&mut self, plan: &Plan) {
        let waits = |p: &crate::plan::PlannedPath| {
            p.actions
                .iter()
                .filter(|a| matches!(a, Action::Wait { .. }))
                .count()
        };
        let most_waits = plan.paths.iter().map(waits).max().unwrap_or(0);
        let features = [
            ("hints found", !plan.hints.is_empty()),
            ("10 hints or more", plan.hints.len() >= 10),
            ("64 hints", plan.hints.len() == 64),
            ("no arrival time", plan.arrivals == 0 && plan.sweeps > 0),
            ("2 arrival times or more", plan.arrivals >= 2),
            ("more sweeps than listed times", plan.sweeps > plan.arrivals),
            ("a time without a path", plan.paths.len() < plan.arrivals),
            ("a direct path", plan.paths.iter().any(|p| p.pops == 0)),
            ("a path with a wait", most_waits > 0),
            ("a path with 2 waits or more", most_waits > 1),
            ("10 pops or more", plan.paths.iter().any(|p| p.pops >= 10)),
            ("a hold below zero", plan.paths.iter().any(|p| p.hold < 0)),
        ];
        for (name, seen) in features {
            *self.features.entry(name).or_default() += usize::from(seen);
        }
        let sizes = [
            ("hints", plan.hints.len()),
            ("arrival times", plan.arrivals),
            ("sweeps", plan.sweeps),
            ("waits in a path", most_waits),
            (
                "pops for a path",
                plan.paths.iter().map(|p| p.pops).max().unwrap_or(0),
            ),
            (
                "actions in all",
                plan.paths.iter().map(|p| p.actions.len()).sum(),
            ),
        ];
        for (name, size) in sizes {
            let most = self.most.entry(name).or_default();
            *most = size.max(*most);
        }
    }

    /// Answers of the Rust that no rule covers.
    pub fn odd(&self) -> &[String] {
        &self.odd
    }

    /// How many answers had a feature, by its name.
    pub fn seen(&self, feature: &str) -> usize {
        self.features.get(feature).copied().unwrap_or(0)
    }

    /// How often a refusal was given.
    pub fn refused(&self, number: usize) -> usize {
        self.kinds.values().map(|ends| ends.refused[number]).sum()
    }
}

impl fmt::Display for Tally {
    fn fmt(&self, f: &mut fmt::Formatter<'_>) -> fmt::Result {
        write!(f, "{:<18}{:>9}", "kind", "answered")?;
        (1..=12).try_for_each(|n| write!(f, "{n:>7}"))?;
        writeln!(f)?;
        for (kind, ends) in &self.kinds {
            write!(f, "{:<18}{:>9}", kind.name(), ends.answered)?;
            ends.refused[1..]
                .iter()
                .try_for_each(|n| write!(f, "{n:>7}"))?;
            writeln!(f)?;
        }
        let answered: usize = self.kinds.values().map(|ends| ends.answered).sum();
        write!(f, "{:<18}{answered:>9}", "all")?;
        (1..=12).try_for_each(|n| write!(f, "{:>7}", self.refused(n)))?;
        writeln!(f)?;
        for (name, count) in &self.features {
            writeln!(f, "{name}: {count}")?;
        }
        for (name, size) in &self.most {
            writeln!(f, "most {name}: {size}")?;
        }
        Ok(())
    }
}

/// How the calls of one function ended.
#[derive(Default)]
pub struct Outcomes(BTreeMap<String, usize>);

impl Outcomes {
    pub fn add<T>(&mut self, answer: &Result<T, Fault>) {
        let end = match answer {
            Ok(_) => String::from("answered"),
            Err(fault) => match fault.number() {
                Some(n) => format!("refused {n}"),
                None => format!("{fault:?}"),
            },
        };
        *self.0.entry(end).or_default() += 1;
    }
}

impl fmt::Display for Outcomes {
    fn fmt(&self, f: &mut fmt::Formatter<'_>) -> fmt::Result {
        let ends: Vec<String> = self.0.iter().map(|(end, n)| format!("{end} {n}")).collect();
        f.write_str(&ends.join(", "))
    }
}
