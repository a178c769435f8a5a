//! Wrong versions of reply and of next order for which it matters which reply comes first: the
//! comparison must find each by that alone, without the second version.

use second::as_second;
use second::calls::{self, pack, Judged, ACCEPTED, REFUSED, WAIT};
use second::check::Network;
use second::comparison::any_order::ORDER_MATTERS;
use second::comparison::{Campaign, Comparison, Second};
use second::run::{self, State, LOST, REQUESTED, RETURNING};

/// The second version itself, but for one fault.
#[derive(Clone, Copy, Debug, PartialEq)]
enum Fault {
    Faultless,
    // The way is changed at the first refusal, though another request is open.
    SwitchesAtOnce,
    // It is changed only if the last reply is a refusal.
    SwitchesAfterNoAlone,
    // After a refusal nothing is confirmed any more.
    ClosedByARefusal,
    // One return closes all.
    ReturnsTogether,
    // A reply is refused while a lower booking's is due.
    LowestFirst,
    // A next order that waits gives the highest request up.
    GivesUpAtAWait,
    // A next order that waits for other desks calls off, if a booking is lost.
    CallsOffAtAWait,
}

use Fault::*;

struct Faulty(Fault);

/// What the faulty version makes of a reply that fits, or nothing.
fn replied(fault: Fault, network: &Network, before: State, letter: u8, booking: usize) -> Option<State> {
    let mut state = run::reply(network, before, letter, booking)?;
    match fault {
        SwitchesAtOnce if letter == b'N' && state.contains(&REQUESTED) && state[booking] == LOST => {
            state[0] = 0
        }
        SwitchesAfterNoAlone if letter == b'Y' => state[0] = before[0],
        ClosedByARefusal if letter == b'Y' && before[1..].contains(&LOST) => return None,
        ReturnsTogether if letter == b'G' => {
            state[1..].iter_mut().filter(|code| **code == RETURNING).for_each(|code| *code = run::FREE);
        }
        LowestFirst if before[1..booking].contains(&before[booking]) => return None,
        _ => {}
    }
    Some(state)
}

impl Faulty {
    fn judged<T>(&self, sheet: &[u8], with: impl FnOnce(&Judged) -> T) -> T {
        with(&calls::judge(sheet))
    }
}

impl Campaign for Faulty {
    as_second!(check, partner_check, start, reply_block, restart, journal_line, settle, passed_ways, join);

    fn next_order(&self, sheet: &[u8], state: &mut [u8]) -> u32 {
        let right = calls::next_order(sheet, state);
        if calls::kind_of(right) == WAIT {
            match self.0 {
                GivesUpAtAWait => {
                    let highest = state.iter_mut().skip(1).rfind(|code| **code == REQUESTED);
                    highest.into_iter().for_each(|code| *code = run::FREE);
                }
                CallsOffAtAWait if state[1..].contains(&LOST) => state[0] = 0,
                _ => {}
            }
        }
        right
    }

    fn reply(&self, sheet: &[u8], state: &mut [u8], letter: u8, booking: u32) -> u32 {
        let right = calls::reply(sheet, &mut state.to_vec(), letter, booking);
        if calls::kind_of(right) != ACCEPTED {
            return right;
        }
        let network = calls::judge(sheet).expect("a sheet that passes");
        let before = State::try_from(&*state).expect("65 bytes");
        match replied(self.0, &network, before, letter, booking as usize) {
            Some(after) => state.copy_from_slice(&after),
            None => return pack(REFUSED, 9, booking),
        }
        right
    }
}

/// All pairs of replies to different bookings, alone and with a next order between, from all sound
/// states of small plans.
fn compared(fault: Fault) -> Result<(), String> {
    Comparison::new(&Faulty(fault), false).every_small_pair()
}

#[test]
fn the_second_version_takes_replies_in_any_order() {
    assert_eq!(compared(Faultless), Ok(()));
}

#[test]
fn versions_for_which_the_order_of_replies_matters_are_found() {
    for fault in [
        SwitchesAtOnce,
        SwitchesAfterNoAlone,
        ClosedByARefusal,
        ReturnsTogether,
        LowestFirst,
        GivesUpAtAWait,
        CallsOffAtAWait,
    ] {
        let told = compared(fault).expect_err(&format!("{fault:?} is not found"));
        assert!(told.contains(ORDER_MATTERS), "{fault:?} is found by something else:\n{told}");
    }
}

#[test]
fn a_few_pairs_are_too_few() {
    assert!(Comparison::new(&Second, false).enough_orders().is_err());
}
