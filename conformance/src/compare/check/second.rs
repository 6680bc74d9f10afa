//! The second implementation, and the copy of it with the planted faults, as what calls are compared
//! with.

use crate::compare::call::Calls;

type Started = Result<Box<dyn ByValue>, u32>;

pub struct Second {
    pub calls: Calls,
    /// Starts a node by value, or gives the number of the refusal.
    pub start: fn(&[u8], &[u8]) -> Started,
    pub from_image: fn(&[u8]) -> Option<Box<dyn ByValue>>,
    /// What node-run prints.
    pub node_run: fn(&[u8]) -> Vec<u8>,
}

/// A node that a host holds by value; the calls give the number that C would get.
pub trait ByValue {
    fn deliver(&mut self, announcement: &[u8], sheet: &[u8]) -> u32;
    fn query(&mut self, query: &[u8]) -> u32;
    fn checkpoint(&self) -> Vec<u8>;
    /// The lines of the page.
    fn page(&self, day: u32) -> Vec<String>;
    fn image(&self) -> Vec<u8>;
    /// Whether its image is read as this node.
    fn reads_back(&self) -> bool;
}

/// Both have the same names, so one text serves both.
macro_rules! second {
    ($name:ident, $word:literal, $paper:path) => {
        pub const $name: Second = {
            use $paper as paper;
            Second {
                calls: Calls {
                    name: $word,
                    start: paper::image::node_start,
                    deliver: paper::image::node_deliver,
                    query: paper::image::node_query,
                    checkpoint: paper::image::node_checkpoint,
                    page: paper::page::node_page,
                    import: paper::roster::node_roster_import,
                    export: paper::roster::node_roster_export,
                    split: paper::shares::node_shares_split,
                    merge: paper::shares::node_shares_merge,
                    add: paper::shares::node_shares_add,
                },
                start: |checkpoint, start| match paper::start(checkpoint, start) {
                    Ok(node) => Ok(Box::new(node)),
                    Err(number) => Err(u32::from(number)),
                },
                from_image: |image| match paper::Node::from_image(image) {
                    Some(node) => Some(Box::new(node)),
                    None => None,
                },
                node_run: paper::run::node_run,
            }
        };

        const _: () = {
            use $paper as paper;
            impl ByValue for paper::Node {
                fn deliver(&mut self, announcement: &[u8], sheet: &[u8]) -> u32 {
                    paper::image::code(paper::Node::deliver(self, announcement, sheet))
                }

                fn query(&mut self, query: &[u8]) -> u32 {
                    paper::image::code(paper::Node::query(self, query))
                }

                fn checkpoint(&self) -> Vec<u8> {
                    paper::Node::checkpoint(self)
                }

                fn page(&self, day: u32) -> Vec<String> {
                    paper::Node::page(self, day)
                }

                fn image(&self) -> Vec<u8> {
                    paper::Node::image(self)
                }

                fn reads_back(&self) -> bool {
                    let image = paper::Node::image(self);
                    paper::Node::from_image(&image).as_ref() == Some(self)
                }
            }
        };
    };
}

second!(PAPER, "paper", crate::paper);
second!(FAULTY, "paper with the fault", crate::faulty::paper);
