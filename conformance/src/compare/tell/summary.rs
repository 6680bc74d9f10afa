//! What the calls met and what they did not, in lines.

use super::coverage::Coverage;
use super::ranges::RANGES;
use crate::compare::call::{possible_answers, CALLS};

impl Coverage {
    /// What was never met, one line each.
    pub fn missing(&self) -> Vec<String> {
        let calls = (0..CALLS.len()).flat_map(|call| self.missing_of_call(call));
        let kinds = (1..10).flat_map(|kind| {
            let performed = (self.performed[kind] == 0).then(|| format!("kind {kind} performed"));
            let voted = (self.voted[kind] == 0).then(|| format!("kind {kind} voted for"));
            performed.into_iter().chain(voted)
        });
        let ends = RANGES
            .iter()
            .enumerate()
            .flat_map(|(i, (name, (low, high)))| {
                let low = (self.low[i] == 0).then(|| format!("{name}: {low}"));
                let high = (self.high[i] == 0).then(|| format!("{name}: {high}"));
                low.into_iter().chain(high)
            });
        let marks = self.notices.missing().into_iter();
        let marks = marks.chain(self.restarts.missing());
        let marks = marks.chain(self.doors.missing());
        let marks = marks.chain(self.settings.missing());
        let marks = marks.chain(self.evictions.missing());
        let marks = marks.chain(self.rosters.missing());
        let marks = marks.chain(self.shares.missing());
        calls.chain(kinds).chain(ends).chain(marks).collect()
    }

    fn missing_of_call(&self, call: usize) -> Vec<String> {
        let name = CALLS[call];
        let answers = possible_answers(call).into_iter();
        let never = answers.filter(|&answer| self.answers[call][answer as usize] == 0);
        let answers = never.map(|answer| format!("{name}: answer {answer}"));
        let lengths = ["one byte short", "exact", "longer"]
            .into_iter()
            .enumerate();
        let never = lengths.filter(|(i, _)| self.slices[call][*i] == 0);
        let slices = never.map(|(_, length)| format!("{name}: output slice {length}"));
        answers.chain(slices).collect()
    }

    /// Answers by call, then actions, one line each.
    pub fn summary(&self) -> Vec<String> {
        let mut lines = Vec::new();
        for (call, name) in CALLS.iter().enumerate() {
            let met = (0..129).filter(|&answer| self.answers[call][answer] > 0);
            let counts: Vec<String> = met
                .map(|answer| format!("{answer}: {}", self.answers[call][answer]))
                .collect();
            lines.push(format!("{name} answers  {}", counts.join("  ")));
        }
        for (name, counts) in [("performed", &self.performed), ("voted for", &self.voted)] {
            let counts: Vec<String> = (1..10)
                .map(|kind| format!("{kind}: {}", counts[kind]))
                .collect();
            lines.push(format!("kinds {name}  {}", counts.join("  ")));
        }
        lines.extend(self.notices.summary());
        lines.extend(self.restarts.summary());
        lines.extend(self.doors.summary());
        lines.extend(self.settings.summary());
        lines.extend(self.evictions.summary());
        lines.extend(self.rosters.summary());
        lines.extend(self.shares.summary());
        lines
    }
}
