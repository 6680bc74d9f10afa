//! Marks: what the calls must meet, each with a name and a count of its own, in groups.

use std::marker::PhantomData;

/// The marks of a group and their names.
type Named<M> = &'static [(M, &'static str)];

pub trait Mark: Copy + 'static {
    /// All marks, in groups with a title.
    const GROUPS: &'static [(&'static str, Named<Self>)];
    const COUNT: usize;

    /// The place among all marks.
    fn place(self) -> usize;
}

/// The enum `Mark` of a module, with the titles of the groups and the names.
macro_rules! marks {
    ($($title:literal { $($id:ident $name:literal;)* })*) => {
        #[derive(Clone, Copy)]
        pub enum Mark { $($($id,)*)* }

        impl $crate::compare::tell::marks::Mark for Mark {
            const GROUPS: &'static [(&'static str, &'static [(Mark, &'static str)])] = &[
                $(($title, &[$((Mark::$id, $name)),*])),*
            ];
            const COUNT: usize = [$($(Mark::$id),*),*].len();

            fn place(self) -> usize {
                self as usize
            }
        }
    };
}
pub(super) use marks;

/// How often each mark was met.
pub struct Counts<M> {
    counts: Vec<u64>,
    marks: PhantomData<M>,
}

impl<M: Mark> Counts<M> {
    pub fn new() -> Counts<M> {
        Counts {
            counts: vec![0; M::COUNT],
            marks: PhantomData,
        }
    }

    pub fn meet(&mut self, mark: M) {
        self.add(mark, 1);
    }

    pub fn add(&mut self, mark: M, count: u64) {
        self.counts[mark.place()] += count;
    }

    pub fn meet_if(&mut self, marks: &[(bool, M)]) {
        for (_, mark) in marks.iter().filter(|(is_met, _)| *is_met) {
            self.meet(*mark);
        }
    }

    /// What was never met, one line each.
    pub fn missing(&self) -> Vec<String> {
        let marks = M::GROUPS.iter().flat_map(|(title, marks)| {
            let never = marks
                .iter()
                .filter(|(mark, _)| self.counts[mark.place()] == 0);
            never.map(move |(_, name)| format!("{title}: {name}"))
        });
        marks.collect()
    }

    /// A line for each group.
    pub fn summary(&self) -> Vec<String> {
        let line = |(title, marks): &(&str, Named<M>)| {
            let counts = marks.iter().map(|(mark, name)| {
                let count = self.counts[mark.place()];
                format!("{name}: {count}")
            });
            format!("{title}  {}", counts.collect::<Vec<_>>().join("  "))
        };
        M::GROUPS.iter().map(line).collect()
    }
}
