//! The hosts of a park and what each holds.

use super::one_call::{self, Held};
use super::second::Second;
use crate::compare::call::{Call, Event, Outcome, Records, Request};

enum Host {
    ByValue(Held),
    Image(Option<Vec<u8>>),
}

pub struct Hosts {
    second: &'static Second,
    hosts: Vec<Host>,
}

impl Hosts {
    /// At first no host holds a node.
    pub fn new(second: &'static Second, by_value: &[bool]) -> Hosts {
        let host = |by_value: &bool| match by_value {
            true => Host::ByValue(None),
            false => Host::Image(None),
        };
        let hosts = by_value.iter().map(host).collect();
        Hosts { second, hosts }
    }

    pub fn count(&self) -> usize {
        self.hosts.len()
    }

    /// The image of the node that a host holds; a node by value gives its own.
    pub fn image(&self, host: usize) -> Option<Vec<u8>> {
        match &self.hosts[host] {
            Host::ByValue(node) => node.as_ref().map(|node| node.image()),
            Host::Image(image) => image.clone(),
        }
    }

    /// Makes a call at its host. None where the host holds no node and the call is not a start: a
    /// shortened history may ask for that.
    pub fn step(&mut self, call: &Call) -> Result<Option<Event>, String> {
        let image = self.image(call.host).unwrap_or_default();
        if image.is_empty() && !matches!(call.records, Records::Start(..)) {
            return Ok(None);
        }
        let host = &mut self.hosts[call.host];
        // By value only a checkpoint and a page have a slice, so the archive gets a slice that never
        // refuses the others.
        let any_room = matches!(host, Host::ByValue(_)) && !call.records.keeps_node();
        let least = if any_room {
            call.records.size(&image)
        } else {
            0
        };
        let request = Request {
            image,
            records: call.records.clone(),
            out: call.out.max(least),
        };
        let outcome = one_call::compare(self.second, &request)?;
        host.keep(self.second, &request, &outcome)?;
        let held = self.image(call.host).unwrap_or_default();
        Ok(Some(Event {
            request,
            outcome,
            held,
        }))
    }
}

impl Host {
    fn keep(
        &mut self,
        second: &Second,
        request: &Request,
        outcome: &Outcome,
    ) -> Result<(), String> {
        match self {
            Host::ByValue(held) => {
                *held = one_call::by_value(second, held.take(), request, outcome)?;
            }
            Host::Image(_) if request.records.keeps_node() => {}
            Host::Image(held) => {
                if let Some(image) = &outcome.written {
                    *held = Some(image.clone());
                }
            }
        }
        Ok(())
    }
}
