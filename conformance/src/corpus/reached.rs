//! Which answers of which call the requests of the corpus reached. Derived calls don't count.

use super::answer::Answer;
use super::call::{Sort, SORTS};

#[derive(Default)]
pub struct Reached {
    met: Vec<(Sort, Answer, u64)>,
}

impl Reached {
    pub fn note(&mut self, sort: Sort, answer: Answer) {
        let found = self
            .met
            .iter_mut()
            .find(|met| (met.0, met.1) == (sort, answer));
        match found {
            Some((_, _, count)) => *count += 1,
            None => self.met.push((sort, answer, 1)),
        }
    }

    fn count(&self, sort: Sort, answer: Answer) -> u64 {
        let found = self.met.iter().find(|met| (met.0, met.1) == (sort, answer));
        found.map_or(0, |met| met.2)
    }

    /// A line for each call: its answers, and how often each was given.
    pub fn lines(&self) -> Vec<String> {
        let line = |sort: &Sort| {
            let answers = sort.answers().into_iter();
            let counts = answers.map(|a| format!("{a}: {}", self.count(*sort, a)));
            format!("{}: {}", sort.name(), counts.collect::<Vec<_>>().join(", "))
        };
        SORTS.iter().map(line).collect()
    }

    /// A line for each answer that no request has.
    pub fn missing(&self) -> Vec<String> {
        let all = SORTS.iter().flat_map(|sort| {
            let answers = sort.answers().into_iter();
            answers.map(|answer| (*sort, answer))
        });
        all.filter(|(sort, answer)| self.count(*sort, *answer) == 0)
            .map(|(sort, answer)| format!("{} never answers {answer}", sort.name()))
            .collect()
    }
}
