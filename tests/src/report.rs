//! Named cases, the comparisons that each makes, and the closing line.

use std::collections::BTreeMap;
use std::process::ExitCode;

/// The refusals' numbers reach to 20; 0 stands for an accepted call.
const ANSWERS: usize = 21;

/// What a case has compared so far.
#[derive(Default)]
pub struct Count {
    comparisons: u64,
    answers: [u64; ANSWERS],
    events: BTreeMap<&'static str, u64>,
}

impl Count {
    /// Counts a comparison; `difference` describes the input and both sides if they differ.
    pub fn check(&mut self, same: bool, difference: impl FnOnce() -> String) -> Result<(), String> {
        self.comparisons += 1;
        if same {
            Ok(())
        } else {
            Err(difference())
        }
    }

    /// Notes which answer was expected: 0 for an accepted call, else the refusal's number.
    pub fn expected(&mut self, number: u32) {
        self.answers[number as usize] += 1;
    }

    /// Notes that something happens in the inputs.
    pub fn event(&mut self, name: &'static str) {
        *self.events.entry(name).or_default() += 1;
    }

    /// Fails if one of these never happens: then the inputs would show nothing about it.
    pub fn needs(&self, names: &[&str]) -> Result<(), String> {
        match names.iter().find(|&name| !self.events.contains_key(name)) {
            Some(name) => Err(format!("no input leads to: {name}")),
            None => Ok(()),
        }
    }

    /// Fails if one of these answers was expected fewer times.
    pub fn often(&self, answers: &[u32], times: u64) -> Result<(), String> {
        match answers.iter().find(|&&number| self.answers[number as usize] < times) {
            Some(number) => Err(format!("fewer than {times} inputs lead to answer {number} (0: accepted)")),
            None => Ok(()),
        }
    }

    fn summary(&self) -> String {
        let mut text = format!("{} comparisons", self.comparisons);
        for (number, &times) in self.answers.iter().enumerate() {
            if times > 0 && number == 0 {
                text += &format!("; accepted {times}");
            } else if times > 0 {
                text += &format!("; refusal {number}: {times}");
            }
        }
        text += ")";
        text + &self.events_summary()
    }

    /// A line for each kind of events, "kind: this = 12; that = 3"; an event is named "kind: this".
    fn events_summary(&self) -> String {
        let mut text = String::new();
        let mut last = "";
        for (name, times) in &self.events {
            let (kind, what) = name.split_once(": ").unwrap_or(("", name));
            if last == kind && !text.is_empty() {
                text += &format!("; {what} = {times}");
            } else {
                text +=
                    &format!("\n        {kind}{}{what} = {times}", if kind.is_empty() { "" } else { ": " });
            }
            last = kind;
        }
        text
    }
}

/// A test. It stops at its first difference, and fails too if its inputs never lead to one of the
/// answers of `meets`: then they would show nothing about it.
pub struct Case {
    pub name: &'static str,
    pub meets: &'static [u32],
    pub run: fn(&mut Count) -> Result<(), String>,
}

impl Case {
    fn passes(&self) -> Result<Count, String> {
        let mut count = Count::default();
        (self.run)(&mut count)?;
        if count.comparisons == 0 {
            return Err("nothing was compared".to_string());
        }
        match self.meets.iter().find(|&&n| count.answers[n as usize] == 0) {
            Some(n) => Err(format!("no input leads to answer {n} (0: accepted)")),
            None => Ok(count),
        }
    }
}

/// Runs every case, prints a line for each and the closing line.
pub fn run(cases: &[Case]) -> ExitCode {
    let mut failed = 0;
    for case in cases {
        match case.passes() {
            Ok(count) => println!("ok      {} ({}", case.name, count.summary()),
            Err(why) => {
                failed += 1;
                println!("FAILED  {}\n        {why}", case.name);
            }
        }
    }
    println!("{} passed, {failed} failed", cases.len() - failed);
    if failed == 0 {
        ExitCode::SUCCESS
    } else {
        ExitCode::FAILURE
    }
}
