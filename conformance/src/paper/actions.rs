//! What the nine actions do to a state.

use super::announcement::{Action, Announcement};
use super::state::{Day, Login, Notices, Proposal, Seat, Standing, State, MOST_LOGINS};

/// Request A3: "Lapsed rows, judged by the announced day, are dropped".
pub fn without_lapsed(state: &State, announced: Day) -> State {
    let mut left = state.clone();
    left.proposals.retain(|p| !is_lapsed(p, announced));
    left
}

/// Request A3: "lapses on day 61".
fn is_lapsed(proposal: &Proposal, announced: Day) -> bool {
    announced.since(proposal.day) >= 61
}

/// Where in the list "the ripe proposal of lowest cycle with the same kind and arguments" stands.
pub fn ripe(state: &State, announcement: &Announcement) -> Option<usize> {
    let listed = state.proposals.iter().enumerate();
    let in_time = |p: &Proposal| is_ripe(p, announcement.day, state.notices);
    let fitting = listed.filter(|(_, p)| is_equal(p, announcement) && in_time(p));
    fitting.min_by_key(|(_, p)| p.cycle).map(|(at, _)| at)
}

/// The arguments are compared as bytes: a notice of zero is equal to zero alone (request A7).
fn is_equal(proposal: &Proposal, announcement: &Announcement) -> bool {
    proposal.subject == announcement.subject()
}

/// "ripe means announced day minus proposal day is at least 7"; request A3: "ripe from 7 to 60 days";
/// request A6, of a rejoin's: "ripe from 2 to 60 days"; request A7 lets the park set the 7 and the 2.
fn is_ripe(proposal: &Proposal, announced: Day, in_force: Notices) -> bool {
    let least = i64::from(match proposal.subject.kind {
        7 => in_force.restart,
        _ => in_force.ordinary,
    });
    (least..=60).contains(&announced.since(proposal.day))
}

/// Where document 01 gives 11 to a grant: "table full and the row is needed". A grant "adds or replaces
/// the login", so a listed one needs no row.
pub fn lacks_row(state: &State, login: u32) -> bool {
    let needed = !state.logins.contains_key(&login);
    state.logins.len() >= MOST_LOGINS && needed
}

/// The login that a grant evicts where it lacks a row (02, A8: drops), if there is one: "the row with the
/// earliest end day, the smallest login among equals, if that end day lies before the announced day".
pub fn evicted(state: &State, announced: Day) -> Option<u32> {
    let rows = state.logins.iter();
    let earliest = rows.min_by_key(|(login, row)| (row.end, **login));
    let (login, row) = earliest?;
    let is_over = row.end < announced;
    is_over.then_some(*login)
}

/// The state after the action: "cycle plus 1, day as announced". Defined for every state and
/// announcement, since rule 12 asks what an action would leave.
pub fn perform(state: &State, announcement: &Announcement) -> State {
    let mut next = state.clone();
    // Request A7: "Ripeness is judged by the notices in force before the action."
    if announcement.is_proposed() {
        use_up(&mut next, announcement);
    }
    act(&mut next, announcement);
    next.cycle = state.cycle.next();
    next.day = announcement.day;
    next
}

/// "also use up the ripe proposal", rejoin too (request A6)
fn use_up(state: &mut State, announcement: &Announcement) {
    if let Some(at) = ripe(state, announcement) {
        state.proposals.remove(at);
    }
}

fn act(state: &mut State, announcement: &Announcement) {
    match &announcement.action {
        // "adds a proposal with this cycle and day"
        Action::Propose(subject) => state.proposals.push(Proposal {
            cycle: state.cycle,
            day: announcement.day,
            subject: subject.clone(),
        }),
        // "drops that cycle's proposal"
        Action::Cancel(cycle) => state.proposals.retain(|p| p.cycle != *cycle),
        // "sets them"
        Action::Minima(minima, named) => {
            state.minima = *minima;
            set_notices(&mut state.notices, *named);
        }
        Action::Grant { login, end, rights } => {
            let (end, rights) = (*end, *rights);
            grant(state, announcement.day, *login, Login { end, rights });
        }
        // "drops it"
        Action::End { login } => drop(state.logins.remove(login)),
        of_seat => act_on_seat(state, of_seat),
    }
}

/// "adds or replaces the login"; request A8: "Where document 01 gives 11 to a grant, performing it now
/// drops the row".
fn grant(state: &mut State, announced: Day, login: u32, row: Login) {
    if lacks_row(state, login) {
        evict(state, announced);
    }
    state.logins.insert(login, row);
}

fn evict(state: &mut State, announced: Day) {
    if let Some(login) = evicted(state, announced) {
        state.logins.remove(&login);
    }
}

/// Request A7: "zero meaning keep".
fn set_notices(in_force: &mut Notices, named: Notices) {
    if named.ordinary != 0 {
        in_force.ordinary = named.ordinary;
    }
    if named.restart != 0 {
        in_force.restart = named.restart;
    }
}

fn act_on_seat(state: &mut State, action: &Action) {
    let (seat, standing, life) = match *action {
        // "1: certified to present; 0: back"
        Action::Presents { seat, flag: true } => (seat, Some(Standing::Present), None),
        Action::Presents { seat, flag: false } => (seat, Some(Standing::Certified), None),
        // "free to certified, with that life"
        Action::Certify { seat, life } => (seat, Some(Standing::Certified), Some(life)),
        // "certified or present to retired"
        Action::Remove { seat } => (seat, Some(Standing::Retired), None),
        // "raises that seat's life"
        Action::Rejoin { seat, life } => (seat, None, Some(life)),
        _ => return,
    };
    let old = state.seat(seat);
    let to = Seat {
        standing: standing.unwrap_or(old.standing),
        life: life.unwrap_or(old.life),
    };
    state.set_seat(seat, to);
}
