//! The run: soundness of a state, the next order, and replies.

use crate::check::Network;
use crate::plan::MOST_DESKS;

pub const STATE_LENGTH: usize = 65;

/// Byte 0 is the current way (0 is calling off), byte b the code of booking b.
pub type State = [u8; STATE_LENGTH];

pub const FREE: u8 = 0;
pub const REQUESTED: u8 = 1;
pub const HELD: u8 = 2;
pub const LOST: u8 = 3;
pub const RETURNING: u8 = 4;

pub fn start() -> State {
    let mut state = [FREE; STATE_LENGTH];
    state[0] = 1;
    state
}

fn current_way(state: &State) -> usize {
    usize::from(state[0])
}

fn in_current_way(network: &Network, state: &State, booking: usize) -> bool {
    network.plan.is_in_way(booking, current_way(state))
}

/// The bookings with this code, rising.
pub fn with_code(network: &Network, state: &State, code: u8) -> Vec<usize> {
    network.plan.bookings().filter(|&b| state[b] == code).collect()
}

fn any_with_code(network: &Network, state: &State, code: u8) -> bool {
    !with_code(network, state, code).is_empty()
}

fn predecessors_held(network: &Network, state: &State, booking: usize) -> bool {
    network.predecessors(booking).iter().all(|&u| state[u] == HELD)
}

fn held_firm(network: &Network, state: &State) -> Vec<usize> {
    let firm = |b: &usize| network.plan.kind(*b).is_firm();
    with_code(network, state, HELD).into_iter().filter(firm).collect()
}

/// No booking of it is lost, and it has every held firm one.
fn is_live(network: &Network, state: &State, way: usize) -> bool {
    let bookings = network.plan.way(way);
    bookings.iter().all(|&b| state[b] != LOST)
        && held_firm(network, state).iter().all(|b| bookings.contains(b))
}

/// What a desk has open: its bookings that are requested or returning.
pub fn matters_of(network: &Network, state: &State, desk: usize) -> usize {
    let open = |&b: &usize| state[b] == REQUESTED || state[b] == RETURNING;
    network.plan.bookings().filter(open).filter(|&b| network.plan.desk(b) == desk).count()
}

/// Its desk takes nothing more on.
fn is_at_full_desk(network: &Network, state: &State, booking: usize) -> bool {
    matters_of(network, state, network.plan.desk(booking)) >= network.plan.limit
}

pub fn lost_in_current_way(network: &Network, state: &State) -> Vec<usize> {
    let lost = |b: &usize| state[*b] == LOST;
    network.plan.way(current_way(state)).iter().copied().filter(lost).collect()
}

// Soundness, one function for each sentence. That the state has 65 bytes is
// its type here.

fn codes_exist(network: &Network, state: &State) -> bool {
    network.plan.bookings().all(|b| state[b] <= RETURNING)
}

fn current_way_exists(network: &Network, state: &State) -> bool {
    current_way(state) <= network.plan.ways.len()
}

fn bytes_past_the_bookings_are_zero(network: &Network, state: &State) -> bool {
    state[network.plan.count() + 1..].iter().all(|&byte| byte == 0)
}

fn requested_held_returning_stand_on_held(network: &Network, state: &State) -> bool {
    let stands = |&b: &usize| [REQUESTED, HELD, RETURNING].contains(&state[b]);
    network.plan.bookings().filter(stands).all(|b| predecessors_held(network, state, b))
}

fn lost_are_exposed(network: &Network, state: &State) -> bool {
    with_code(network, state, LOST).iter().all(|&b| network.plan.kind(b).is_exposed())
}

fn requested_are_in_current_way(network: &Network, state: &State) -> bool {
    with_code(network, state, REQUESTED).iter().all(|&b| in_current_way(network, state, b))
}

fn returning_are_returnable(network: &Network, state: &State) -> bool {
    let returning = with_code(network, state, RETURNING);
    returning.iter().all(|&b| network.plan.kind(b).can_be_returned())
}

fn returning_are_outside_current_way(network: &Network, state: &State) -> bool {
    with_code(network, state, RETURNING).iter().all(|&b| !in_current_way(network, state, b))
}

fn nothing_requested_while_clearing(network: &Network, state: &State) -> bool {
    let held = with_code(network, state, HELD);
    let clearing =
        held.iter().any(|&b| !in_current_way(network, state, b)) || any_with_code(network, state, RETURNING);
    !clearing || !any_with_code(network, state, REQUESTED)
}

fn earlier_ways_are_not_live(network: &Network, state: &State) -> bool {
    let ways = network.plan.ways.len();
    let earlier = match current_way(state) {
        0 => 1..ways + 1,
        way => 1..way.min(ways + 1),
    };
    earlier.into_iter().all(|i| !is_live(network, state, i))
}

fn held_firm_are_in_current_way(network: &Network, state: &State) -> bool {
    held_firm(network, state).iter().all(|&b| in_current_way(network, state, b))
}

fn lost_in_current_way_stand_on_held(network: &Network, state: &State) -> bool {
    let lost = lost_in_current_way(network, state);
    lost.iter().all(|&b| predecessors_held(network, state, b))
}

fn lost_in_current_way_means_requested(network: &Network, state: &State) -> bool {
    lost_in_current_way(network, state).is_empty() || any_with_code(network, state, REQUESTED)
}

fn no_desk_is_above_the_limit(network: &Network, state: &State) -> bool {
    (1..=MOST_DESKS).all(|desk| matters_of(network, state, desk) <= network.plan.limit)
}

/// The sentence about desks.
pub const ABOVE_THE_LIMIT: &str = "no desk is above the limit";

pub type Sentence = fn(&Network, &State) -> bool;

pub const SENTENCES: [(&str, Sentence); 14] = [
    ("codes exist", codes_exist),
    ("current way exists", current_way_exists),
    ("bytes past the bookings are zero", bytes_past_the_bookings_are_zero),
    ("requested, held, returning stand on held", requested_held_returning_stand_on_held),
    ("lost are exposed", lost_are_exposed),
    ("requested are in the current way", requested_are_in_current_way),
    ("returning are returnable", returning_are_returnable),
    ("returning are outside the current way", returning_are_outside_current_way),
    ("nothing requested while clearing", nothing_requested_while_clearing),
    ("earlier ways are not live", earlier_ways_are_not_live),
    ("held firm are in the current way", held_firm_are_in_current_way),
    ("lost in the current way stand on held", lost_in_current_way_stand_on_held),
    ("lost in the current way means requested", lost_in_current_way_means_requested),
    (ABOVE_THE_LIMIT, no_desk_is_above_the_limit),
];

pub fn is_sound(network: &Network, state: &State) -> bool {
    SENTENCES.iter().all(|(_, holds)| holds(network, state))
}

/// The names of the sentences that a state breaks.
pub fn broken_sentences(network: &Network, state: &State) -> Vec<&'static str> {
    let broken = SENTENCES.iter().filter(|(_, holds)| !holds(network, state));
    broken.map(|(name, _)| *name).collect()
}

#[derive(Clone, Copy, Debug, PartialEq, Eq)]
pub enum Order {
    Request(usize),
    Return(usize),
    Wait,
    Flown(usize),
    CalledOff,
}

/// Rule 2, whatever the desks have open: nothing held or still returning stands
/// on it.
pub fn to_return(network: &Network, state: &State) -> Vec<usize> {
    let kept = |&v: &usize| state[v] == HELD || state[v] == RETURNING;
    let stood_on = |b: usize| network.plan.bookings().filter(kept).any(|v| network.precedes(b, v));
    let outside = |b: &usize| !in_current_way(network, state, *b) && !stood_on(*b);
    with_code(network, state, HELD).into_iter().filter(outside).collect()
}

/// Rule 4, whatever the desks have open: everything it stands on is held.
pub fn to_request(network: &Network, state: &State) -> Vec<usize> {
    let due = |b: &usize| in_current_way(network, state, *b) && predecessors_held(network, state, *b);
    with_code(network, state, FREE).into_iter().filter(due).collect()
}

/// The lowest of these that is not passed over.
fn first_at_open_desk(network: &Network, state: &State, due: Vec<usize>) -> Option<usize> {
    due.into_iter().find(|&b| !is_at_full_desk(network, state, b))
}

fn with_byte(mut state: State, booking: usize, code: u8) -> State {
    state[booking] = code;
    state
}

/// The next order and the state after it.
pub fn next_order(network: &Network, state: State) -> (Order, State) {
    if !lost_in_current_way(network, &state).is_empty() {
        return (Order::Wait, state);
    }
    if let Some(b) = first_at_open_desk(network, &state, to_return(network, &state)) {
        return (Order::Return(b), with_byte(state, b, RETURNING));
    }
    if any_with_code(network, &state, RETURNING) {
        return (Order::Wait, state);
    }
    if let Some(b) = first_at_open_desk(network, &state, to_request(network, &state)) {
        return (Order::Request(b), with_byte(state, b, REQUESTED));
    }
    if any_with_code(network, &state, REQUESTED) {
        return (Order::Wait, state);
    }
    match current_way(&state) {
        0 => (Order::CalledOff, state),
        way => (Order::Flown(way), state),
    }
}

/// The code that a reply gives to a booking, if it fits.
fn code_after(network: &Network, state: &State, letter: u8, booking: usize) -> Option<u8> {
    if !network.plan.bookings().contains(&booking) {
        return None;
    }
    match (letter, state[booking]) {
        (b'Y', REQUESTED) => Some(HELD),
        (b'N', REQUESTED) if network.plan.kind(booking).is_exposed() => Some(LOST),
        (b'N', REQUESTED) => Some(FREE),
        (b'G', RETURNING) => Some(FREE),
        (b'K', RETURNING) => Some(HELD),
        _ => None,
    }
}

/// With the last desk's answer in, a way with a loss is given up for the
/// first live one, or for calling off.
fn switch_if_lost(network: &Network, mut state: State) -> State {
    let lost = !lost_in_current_way(network, &state).is_empty();
    if lost && !any_with_code(network, &state, REQUESTED) {
        let live = network.plan.way_numbers().find(|&i| is_live(network, &state, i));
        state[0] = live.unwrap_or(0) as u8;
    }
    state
}

/// The state after a reply, or none if the reply does not fit.
pub fn reply(network: &Network, state: State, letter: u8, booking: usize) -> Option<State> {
    let code = code_after(network, &state, letter, booking)?;
    let answered = with_byte(state, booking, code);
    match letter {
        b'Y' | b'N' => Some(switch_if_lost(network, answered)),
        _ => Some(answered),
    }
}
