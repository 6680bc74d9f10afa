//! The stages of a comparison: requests that stand alone, damaged input, histories with streams,
//! rosters, shares and their renewals.

use super::call::{Event, History, Outcome, Request};
use super::check::claims::{Claims, Tally};
use super::check::hosts::Hosts;
use super::check::pages::WORDS;
use super::check::renewals::run as run_renewal;
use super::check::second::Second;
use super::check::{doors, one_call, program, rerun};
use super::make::histories::HistoryMaker;
use super::make::random::Random;
use super::make::{evictions, lone_requests, renewals, rosters, settings, shares, streams, sweeps};
use super::tell::coverage::Coverage;
use super::tell::kept_case::Case;
use super::tell::roster_marks::Mark;
use std::path::{Path, PathBuf};
use std::time::{Duration, Instant};

/// A difference and what it was found on.
pub struct Found {
    pub case: Case,
    pub what: String,
}

/// No line of progress is printed before so long after the last one.
const PAUSE: Duration = Duration::from_secs(4);

/// One history of so many is run again for each door, without the queries at the others.
const APART: u64 = 16;

pub struct Stages {
    second: &'static Second,
    /// The program for streams; without it none are compared.
    node_run: Option<PathBuf>,
    /// When the last line of progress was printed; none: no progress is told.
    told: Option<Instant>,
    pub coverage: Coverage,
    histories: u64,
    /// Histories with lawful starts and within the bound on double voters, whose claims were
    /// checked.
    within: u64,
    /// Histories beyond the bound in which two nodes at one cycle differ.
    split: u64,
    /// Sums of the tallies of the same name.
    shared: u64,
    tight: u64,
    regranted: u64,
    readmitted: u64,
    at_limit: u64,
    pages: u64,
    asked: [u64; WORDS.len()],
    /// Histories that were run again for each door.
    apart: u64,
    streams: u64,
}

impl Stages {
    pub fn new(second: &'static Second, node_run: Option<PathBuf>) -> Stages {
        Stages {
            second,
            node_run,
            told: None,
            coverage: Coverage::new(),
            histories: 0,
            within: 0,
            split: 0,
            shared: 0,
            tight: 0,
            regranted: 0,
            readmitted: 0,
            at_limit: 0,
            pages: 0,
            asked: [0; WORDS.len()],
            apart: 0,
            streams: 0,
        }
    }

    /// Tells how far it is, every few seconds.
    pub fn with_progress(self) -> Stages {
        Stages {
            told: Some(Instant::now()),
            ..self
        }
    }

    fn tell(&mut self) {
        if self.told.is_some_and(|told| told.elapsed() >= PAUSE) {
            self.told = Some(Instant::now());
            println!(
                "{} calls, {} histories, {} within the bound",
                self.coverage.calls, self.histories, self.within
            );
        }
    }

    fn request(&mut self, request: &Request) -> Result<(), String> {
        let outcome = one_call::compare_all(self.second, request)?;
        self.coverage.note(request, &outcome);
        self.tell();
        Ok(())
    }

    fn single(&mut self, request: Request) -> Result<(), Found> {
        self.request(&request).map_err(|what| Found {
            case: Case::Single(request),
            what,
        })
    }

    /// Pages and rosters with every date.
    pub fn dates(&mut self) -> Result<(), Found> {
        let mut all = lone_requests::dates().chain(rosters::dates());
        all.try_for_each(|request| self.single(request))
    }

    /// Imports and exports at their edges, then random ones until so many calls were made in all.
    pub fn rosters(&mut self, rng: &mut Random, until: u64) -> Result<(), Found> {
        for request in rosters::edges() {
            self.single(request)?;
        }
        while self.coverage.calls < until {
            self.single(rosters::any(rng))?;
        }
        Ok(())
    }

    /// Splits, merges and sums at their edges, then random ones until so many calls were made in all.
    pub fn shares(&mut self, rng: &mut Random, until: u64) -> Result<(), Found> {
        for request in shares::edges() {
            self.single(request)?;
        }
        while self.coverage.calls < until {
            self.single(shares::any(rng))?;
        }
        Ok(())
    }

    /// Every product of the field that a split or a merge can be asked for by itself.
    pub fn products(&mut self) -> Result<(), Found> {
        shares::products().try_for_each(|request| self.single(request))
    }

    /// Renewals of shares: every k and n, for small ones every choice of share numbers.
    pub fn renewals(&mut self, rng: &mut Random) -> Result<(), Found> {
        for renewal in renewals::all(rng) {
            let coverage = &mut self.coverage;
            let mut note = |request: &Request, outcome: &Outcome| coverage.note(request, outcome);
            match run_renewal(self.second, &renewal, &mut note) {
                Ok(mixed) => coverage.shares.renewals.note(&renewal, mixed),
                Err(what) => {
                    let case = Case::Renewal(renewal);
                    return Err(Found { case, what });
                }
            }
        }
        Ok(())
    }

    /// Long sums, the last longer than its count can tell.
    pub fn long_sums(&mut self) -> Result<(), Found> {
        shares::long_sums().try_for_each(|request| self.single(request))
    }

    /// Rosters damaged at every byte, cut at every length, with output slices of every length.
    pub fn damaged_rosters(&mut self, rng: &mut Random) -> Result<(), Found> {
        for base in rosters::bases(rng) {
            let mut last = None;
            let mut each = |request: &Request| {
                let made = self.request(request);
                last = made.is_err().then(|| request.clone());
                made
            };
            let swept = rosters::damage(&base, &mut each)
                .and_then(|()| rosters::cuts(&base, &mut each))
                .and_then(|()| rosters::rooms(&base, &mut each));
            if let (Err(what), Some(last)) = (swept, last) {
                let case = Case::Single(last);
                return Err(Found { case, what });
            }
            for mark in [Mark::SweptBytes, Mark::SweptCuts, Mark::SweptRooms] {
                self.coverage.rosters.meet(mark);
            }
        }
        Ok(())
    }

    /// Requests that stand alone, until so many calls were made in all.
    pub fn lone_requests(&mut self, rng: &mut Random, until: u64) -> Result<(), Found> {
        let mut requests = lone_requests::ends();
        requests.extend(settings::edges());
        requests.extend(evictions::edges());
        while self.coverage.calls < until {
            for request in requests {
                self.single(request)?;
            }
            requests = lone_requests::requests(rng);
        }
        Ok(())
    }

    /// Damaged input, whole sweeps until so many calls were made in all.
    pub fn damaged(&mut self, rng: &mut Random, until: u64) -> Result<(), Found> {
        while self.coverage.calls < until {
            let mut bases = sweeps::bases(rng);
            rng.shuffle(&mut bases);
            for base in &bases {
                if self.coverage.calls < until {
                    self.sweep(rng, base)?;
                }
            }
        }
        Ok(())
    }

    fn sweep(&mut self, rng: &mut Random, base: &Request) -> Result<(), Found> {
        let mut last = base.clone();
        let mut each = |request: &Request| {
            let made = self.request(request);
            if made.is_err() {
                last = request.clone();
            }
            made
        };
        let swept =
            sweeps::sweep(rng, base, &mut each).and_then(|()| sweeps::row_counts(base, &mut each));
        swept.map_err(|what| Found {
            case: Case::Single(last),
            what,
        })
    }

    /// Random histories until so many calls were made in all.
    pub fn histories(&mut self, rng: &mut Random, until: u64) -> Result<(), Found> {
        while self.coverage.calls < until {
            let seed = rng.number();
            let (history, tally) = run_random(self.second, seed, &mut self.coverage)?;
            self.add(&tally);
            if self.histories % APART == 1 {
                self.apart(&history)?;
            }
            if let Some(program) = self.node_run.clone() {
                let input = streams::of_history(rng, &history);
                self.streams += 1;
                let same = program::compare(self.second, &program, &input);
                same.map_err(|what| Found {
                    case: Case::Stream(input),
                    what,
                })?;
            }
        }
        Ok(())
    }

    fn apart(&mut self, history: &History) -> Result<(), Found> {
        self.apart += 1;
        doors::apart(self.second, history).map_err(|(_, what)| Found {
            case: Case::History(history.clone()),
            what,
        })
    }

    fn add(&mut self, tally: &Tally) {
        self.histories += 1;
        self.within += u64::from(tally.within);
        self.split += u64::from(tally.split);
        self.tight += tally.tight;
        if tally.within {
            self.shared += tally.shared;
            self.regranted += tally.regranted;
            self.readmitted += tally.readmitted;
            self.at_limit += tally.at_limit;
            self.pages += tally.pages;
        }
        for (sum, lines) in self.asked.iter_mut().zip(tally.asked) {
            *sum += lines;
        }
        self.tell();
    }

    /// What was never met, one line each.
    pub fn missing(&self) -> Vec<String> {
        let mut lines = self.coverage.missing();
        let regranted = "login open beyond the limit since it was granted again, within the bound";
        let readmitted =
            "evicted login open beyond the limit since it was granted again, within the bound";
        let at_limit = "ended login open on the last day of the limit, within the bound";
        let pages = "two pages at one cycle for one day, within the bound";
        let split = "history beyond the bound with two states at one cycle";
        let counts = [
            (self.within, "history within the bound"),
            (self.split, split),
            (self.shared, "two nodes at one cycle, within the bound"),
            (self.tight, "exactly 2m+1 double voters"),
            (self.regranted, regranted),
            (self.readmitted, readmitted),
            (self.at_limit, at_limit),
            (self.pages, pages),
            (self.apart, "history run again for each door"),
        ];
        let never = counts.iter().filter(|(count, _)| *count == 0);
        lines.extend(never.map(|(_, what)| what.to_string()));
        let words = WORDS.iter().zip(&self.asked);
        let never = words.filter(|(_, asked)| **asked == 0);
        lines.extend(never.map(|((word, _), _)| format!("line that reads {word}, with a query")));
        lines
    }

    /// What was met, one line each.
    pub fn summary(&self) -> Vec<String> {
        let asked = WORDS.iter().zip(&self.asked);
        let asked: Vec<String> = asked.map(|((word, _), n)| format!("{word}: {n}")).collect();
        let mut lines = vec![
            format!(
                "{} histories, {} within the bound, {} streams",
                self.histories, self.within, self.streams
            ),
            format!(
                "within the bound: {} nodes at a cycle that another had reached",
                self.shared
            ),
            format!(
                "ended logins: {} open since granted again, {} open on the last day of the limit",
                self.regranted, self.at_limit
            ),
            format!(
                "evicted logins: {} open since granted again",
                self.readmitted
            ),
            format!(
                "beyond the bound: {} histories split, {} pairs with exactly 2m+1 double voters",
                self.split, self.tight
            ),
            format!(
                "pages: {} at a cycle and for a day that another had, within the bound",
                self.pages
            ),
            format!("lines that a query agrees with  {}", asked.join("  ")),
            format!(
                "doors: {} histories run again for each, without the queries at the others",
                self.apart
            ),
        ];
        lines.extend(self.coverage.summary());
        lines
    }
}

/// A random history that shows no difference.
pub fn random_history(second: &'static Second, seed: u64) -> Result<History, Found> {
    let (history, _) = run_random(second, seed, &mut Coverage::new())?;
    Ok(history)
}

/// Makes and runs a random history. Hands it back with what it showed.
fn run_random(
    second: &'static Second,
    seed: u64,
    coverage: &mut Coverage,
) -> Result<(History, Tally), Found> {
    coverage.begin();
    let (mut maker, mut history) = HistoryMaker::new(Random::new(seed));
    let mut hosts = Hosts::new(second, &history.by_value);
    let mut claims = Claims::new(&history.first);
    for _ in 0..maker.length() {
        let call = maker.call(&hosts);
        let by_value = history.by_value[call.host];
        let made = hosts.step(&call);
        history.calls.push(call);
        let mut take_up = |event: Option<Event>| {
            let Some(event) = event else { return Ok(()) };
            coverage.note_event(&event, by_value);
            maker.learn(&event);
            claims.note(&event)
        };
        if let Err(what) = made.and_then(&mut take_up) {
            let case = Case::History(history);
            return Err(Found { case, what });
        }
    }
    match claims.verdict() {
        Ok(tally) => Ok((history, tally)),
        Err(what) => Err(Found {
            case: Case::History(history),
            what,
        }),
    }
}

impl Found {
    /// The same difference on the shortest case that can be found.
    pub fn shorten(self, second: &'static Second, node_run: Option<&Path>) -> Found {
        match (self.case, node_run) {
            (Case::History(history), _) => {
                let (history, what) = rerun::shorten(second, history, self.what);
                let case = Case::History(history);
                Found { case, what }
            }
            (Case::Stream(input), Some(program)) => {
                let case = Case::Stream(program::shorten(second, program, &input));
                Found { case, ..self }
            }
            (Case::Single(request), _) => {
                let (request, what) = rerun::shorten_roster(second, request, self.what);
                let case = Case::Single(request);
                Found { case, what }
            }
            (case, _) => Found { case, ..self },
        }
    }
}
