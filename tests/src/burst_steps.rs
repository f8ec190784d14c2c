//! A burst of the scenes' text: its reports are those of the steps behind it, as
//! many as it has.

use crate::compare::{same, Verdict, BEFORE};
use crate::members::Record;

/// A burst that is to be taken once its reports are complete.
pub struct BurstSteps {
    /// How many reports it has.
    needed: usize,
    /// How many numbers its list has.
    pub length: usize,
    pub reports: Vec<Record>,
    /// Of each step, behind how many reports its own end, and its expected number.
    steps: Vec<(usize, u64)>,
}

impl BurstSteps {
    pub fn new(needed: usize, length: usize) -> Self {
        BurstSteps {
            needed,
            length,
            reports: Vec::new(),
            steps: Vec::new(),
        }
    }

    /// The reports of a step, and its expected number.
    pub fn add(&mut self, reports: &[Record], due: u64) {
        self.reports.extend(reports);
        self.steps.push((self.reports.len(), due));
    }

    /// Whether it has all of its reports. It may not get more.
    pub fn is_complete(&self) -> Result<bool, String> {
        match self.reports.len() <= self.needed {
            true => Ok(self.reports.len() == self.needed),
            false => Err(format!("a burst of {} has more reports", self.needed)),
        }
    }

    /// How many answers are compared: its own and that of each step.
    pub fn answers(&self) -> usize {
        1 + self.steps.len()
    }

    /// Each step's number is the last of its reports' numbers that is not 0, or 0.
    /// Behind the reports the list is as before.
    pub fn check(&self, list: &[u64]) -> Verdict {
        let mut start = 0;
        for (step, (end, due)) in self.steps.iter().enumerate() {
            let refused = list[start..*end].iter().rfind(|&&number| number != 0);
            let number = refused.copied().unwrap_or(0);
            let name = format_args!("the number of step {} behind the burst", step + 1);
            same(name, &number, due)?;
            start = *end;
        }
        check_kept(&list[start..])
    }
}

/// These numbers of a lent list are as before.
pub fn check_kept(numbers: &[u64]) -> Verdict {
    match numbers.iter().all(|&number| number == BEFORE) {
        true => Ok(()),
        false => Err(format!("the list is not as before: {numbers:?}")),
    }
}
