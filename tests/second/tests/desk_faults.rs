//! Wrong versions of desks and of the limit of their matters: the comparison must find each.

use second::as_second;
use second::block::{self, Bad};
use second::calls::{self, pack, Judged};
use second::check::Network;
use second::comparison::as_second::Last;
use second::comparison::{Campaign, Comparison, Outcome};
use second::journal::{self, LINE_LENGTH};
use second::plan::{self, number_in_columns, Refusal};
use second::run::{self, Order, State, HELD, REQUESTED, RETURNING};

/// The second version itself, but for one fault.
#[derive(Clone, Copy, Debug, PartialEq)]
enum Fault {
    Faultless,
    // When a desk is full.
    FullOneBelow,
    FullOneAbove,
    NeverFull,
    OnlyRequestsCounted,
    OnlyReturnsCounted,
    HeldCounted,
    Desk8NeverFull,
    FullForRequestsOnly,
    FullForReturnsOnly,
    RestartNeverFull,
    // What a full desk comes to.
    EndWherePassedOver,
    StopsAtTheFirst,
    HighestFirst,
    RequestsWhileReturning,
    // Desks or the limit taken for others, in all calls.
    AllDesksTogether,
    DesksCutToTwoBits,
    LimitOneAbove,
    LimitOneBelow,
    LimitIgnored,
    // Which states are sound.
    AboveIsSound,
    AtTheLimitIsUnsound,
    OrderTakesAbove,
    ReplyTakesAbove,
    BlockTakesAbove,
    // Which numbers a sheet may have.
    Desk8Refused,
    Desk9Accepted,
    Desk0Accepted,
    DeskCutToByte,
    BlankDeskIs1,
    Limit64Refused,
    Limit65Accepted,
    Limit0Accepted,
    LimitCutToByte,
    BlankLimitIs64,
    OldHeadAccepted,
    OldLineAccepted,
    // How a wrong number is told.
    WrongLimitIs3,
    WrongLimitIs1,
    WrongDeskIs2,
    WrongDeskIs1,
    LimitBeforeForm,
    DeskBeforeForm,
}

use Fault::*;

const LIMIT_AT: usize = 13;

/// Where the desk on this line stands, if it is a booking's.
fn desk_at(sheet: &[u8], line: usize) -> Option<usize> {
    let bookings = number_in_columns(sheet.get(1..5)?)?;
    (2..=bookings + 1).contains(&line).then(|| 18 + 12 * (line - 2) + 7)
}

fn number_at(sheet: &[u8], at: usize) -> Option<usize> {
    number_in_columns(sheet.get(at..at + 4)?)
}

/// The sheet with another text in a field, where this one stands.
fn replaced(sheet: &mut [u8], at: usize, from: &[u8; 4], to: &[u8; 4]) {
    if let Some(field) = sheet.get_mut(at..at + 4).filter(|field| field == from) {
        field.copy_from_slice(to);
    }
}

fn with_desks(mut sheet: Vec<u8>, from: &[u8; 4], to: &[u8; 4]) -> Vec<u8> {
    for line in 2.. {
        let Some(at) = desk_at(&sheet, line).filter(|at| at + 4 <= sheet.len()) else { break };
        replaced(&mut sheet, at, from, to);
    }
    sheet
}

fn with_limit(mut sheet: Vec<u8>, from: &[u8; 4], to: &[u8; 4]) -> Vec<u8> {
    replaced(&mut sheet, LIMIT_AT, from, to);
    sheet
}

/// Lines of the old length, with what a version thinks is missing.
fn completed(sheet: &[u8], mark: u8, length: usize, field: &[u8; 4]) -> Vec<u8> {
    let line = |line: &[u8]| match line {
        [first, .., b'\n'] if *first == mark && line.len() == length => {
            [&line[..length - 1], field, b"\n"].concat()
        }
        _ => line.to_vec(),
    };
    sheet.split_inclusive(|&byte| byte == b'\n').flat_map(line).collect()
}

/// A sheet as a version with other numbers reads it.
fn as_read(fault: Fault, sheet: &[u8]) -> Vec<u8> {
    let sheet = sheet.to_vec();
    match fault {
        Desk9Accepted => with_desks(sheet, b"   9", b"   8"),
        Desk0Accepted => with_desks(sheet, b"   0", b"   1"),
        DeskCutToByte => with_desks(sheet, b" 257", b"   1"),
        BlankDeskIs1 => with_desks(sheet, b"    ", b"   1"),
        Limit65Accepted => with_limit(sheet, b"  65", b"  64"),
        Limit0Accepted => with_limit(sheet, b"   0", b"   1"),
        LimitCutToByte => with_limit(sheet, b" 320", b"  64"),
        BlankLimitIs64 => with_limit(sheet, b"    ", b"  64"),
        OldHeadAccepted => completed(&sheet, b'P', 14, b"  64"),
        OldLineAccepted => completed(&sheet, b'B', 8, b"   1"),
        _ => sheet,
    }
}

/// Whether a sheet that is refused on this line isn't any more with a right number there.
fn is_at_fault(sheet: &[u8], at: usize, line: u32) -> bool {
    let mut mended = sheet.to_vec();
    let Some(field) = mended.get_mut(at..at + 4) else { return false };
    field.copy_from_slice(b"   1");
    !plan::read(&mended).is_err_and(|refusal| refusal.place <= line)
}

/// The refusal as a version tells it.
fn as_told(fault: Fault, sheet: &[u8], refusal: Refusal) -> Refusal {
    let Refusal { number, place } = refusal;
    let desk = desk_at(sheet, place as usize);
    let outside = |at: usize, most: usize| number_at(sheet, at).is_some_and(|it| !(1..=most).contains(&it));
    let wrong_limit = (number, place) == (2, 1) && is_at_fault(sheet, LIMIT_AT, 1);
    let wrong_desk = number == 3 && desk.is_some_and(|at| is_at_fault(sheet, at, place));
    let number = match fault {
        WrongLimitIs3 if wrong_limit => 3,
        WrongLimitIs1 if wrong_limit => 1,
        WrongDeskIs2 if wrong_desk => 2,
        WrongDeskIs1 if wrong_desk => 1,
        LimitBeforeForm if (number, place) == (1, 1) && outside(LIMIT_AT, 64) => 2,
        DeskBeforeForm if number == 1 && desk.is_some_and(|at| outside(at, 8)) => 3,
        _ => number,
    };
    Refusal { number, place }
}

/// A plan that a version does not take.
fn refused_for_a_limit(fault: Fault, network: &Network) -> Option<Refusal> {
    match fault {
        Desk8Refused => {
            let booking = network.plan.desks.iter().position(|&desk| desk == 8)?;
            Some(Refusal { number: 3, place: booking as u32 + 2 })
        }
        Limit64Refused => (network.plan.limit == 64).then_some(Refusal { number: 2, place: 1 }),
        _ => None,
    }
}

/// A plan as a version takes it.
fn as_taken(fault: Fault, mut network: Network) -> Network {
    let plan = &mut network.plan;
    match fault {
        AllDesksTogether => plan.desks.fill(1),
        DesksCutToTwoBits => plan.desks.iter_mut().for_each(|desk| *desk = (*desk & 3) + 1),
        LimitOneAbove => plan.limit += 1,
        LimitOneBelow => plan.limit -= 1,
        LimitIgnored => plan.limit = 64,
        _ => {}
    }
    network
}

fn judge(fault: Fault, sheet: &[u8]) -> Judged {
    let network = calls::judge(&as_read(fault, sheet)).map_err(|refusal| as_told(fault, sheet, refusal))?;
    match refused_for_a_limit(fault, &network) {
        Some(refusal) => Err(refusal),
        None => Ok(as_taken(fault, network)),
    }
}

/// Rule 2 or rule 4.
#[derive(Clone, Copy, PartialEq)]
enum Rule {
    Return,
    Request,
}

fn is_full(fault: Fault, network: &Network, state: &State, booking: usize, rule: Rule) -> bool {
    let plan = &network.plan;
    let desk = plan.desk(booking);
    let codes: &[u8] = match fault {
        OnlyRequestsCounted => &[REQUESTED],
        OnlyReturnsCounted => &[RETURNING],
        HeldCounted => &[REQUESTED, RETURNING, HELD],
        _ => &[REQUESTED, RETURNING],
    };
    let matters = plan.bookings().filter(|&b| plan.desk(b) == desk && codes.contains(&state[b])).count();
    match fault {
        NeverFull => false,
        Desk8NeverFull if desk == 8 => false,
        FullForRequestsOnly if rule == Rule::Return => false,
        FullForReturnsOnly if rule == Rule::Request => false,
        FullOneBelow => matters + 1 >= plan.limit,
        FullOneAbove => matters > plan.limit,
        _ => matters >= plan.limit,
    }
}

/// Which of these is ordered.
fn chosen(fault: Fault, network: &Network, state: &State, due: &[usize], rule: Rule) -> Option<usize> {
    let is_open = |b: &usize| !is_full(fault, network, state, *b, rule);
    match fault {
        StopsAtTheFirst => due.first().copied().filter(is_open),
        HighestFirst => due.iter().copied().rev().find(is_open),
        _ => due.iter().copied().find(is_open),
    }
}

fn end(state: &State) -> Order {
    match state[0] {
        0 => Order::CalledOff,
        way => Order::Flown(way.into()),
    }
}

fn order(fault: Fault, network: &Network, state: &State) -> Order {
    let is_any = |code| !run::with_code(network, state, code).is_empty();
    let (returns, requests) = (run::to_return(network, state), run::to_request(network, state));
    if !run::lost_in_current_way(network, state).is_empty() {
        return Order::Wait;
    }
    if let Some(b) = chosen(fault, network, state, &returns, Rule::Return) {
        return Order::Return(b);
    }
    match fault {
        EndWherePassedOver if !returns.is_empty() => return end(state),
        RequestsWhileReturning if !returns.is_empty() => {}
        _ if is_any(RETURNING) => return Order::Wait,
        _ => {}
    }
    if let Some(b) = chosen(fault, network, state, &requests, Rule::Request) {
        return Order::Request(b);
    }
    match fault {
        EndWherePassedOver if !requests.is_empty() => end(state),
        _ if is_any(REQUESTED) => Order::Wait,
        _ => end(state),
    }
}

fn next_order(fault: Fault, network: &Network, state: State) -> (Order, State) {
    let order = order(fault, network, &state);
    let mut after = state;
    match order {
        Order::Return(b) => after[b] = RETURNING,
        Order::Request(b) => after[b] = REQUESTED,
        _ => {}
    }
    (order, after)
}

fn is_sound(fault: Fault, taking_above: Fault, network: &Network, state: &State) -> bool {
    let limit = network.plan.limit;
    let most = (1..=8).map(|desk| run::matters_of(network, state, desk)).max().unwrap_or(0);
    let as_due = match fault {
        AboveIsSound => true,
        AtTheLimitIsUnsound => most < limit,
        _ if fault == taking_above => true,
        _ => most <= limit,
    };
    let others = run::SENTENCES.iter().filter(|(name, _)| *name != run::ABOVE_THE_LIMIT);
    as_due && others.into_iter().all(|(_, holds)| holds(network, state))
}

/// The state after the lines of a journal, or its first wrong line.
fn replay(fault: Fault, network: &Network, lines: &[u8]) -> Result<State, u32> {
    let fault = if fault == RestartNeverFull { NeverFull } else { fault };
    let mut state = run::start();
    for (at, line) in lines.chunks_exact(LINE_LENGTH).enumerate() {
        let after = journal::read_line(line).and_then(|(letter, booking)| {
            let due = match letter {
                b'Q' => Order::Request(booking),
                b'U' => Order::Return(booking),
                _ => return run::reply(network, state, letter, booking),
            };
            let (order, after) = next_order(fault, network, state);
            (order == due).then_some(after)
        });
        state = after.ok_or((at + 1).min(65_535) as u32)?;
    }
    Ok(state)
}

fn order_answer(order: Order) -> u32 {
    match order {
        Order::Request(b) => pack(1, 0, b as u32),
        Order::Return(b) => pack(2, 0, b as u32),
        Order::Wait => pack(3, 0, 0),
        Order::Flown(way) => pack(4, 0, way as u32),
        Order::CalledOff => pack(5, 0, 0),
    }
}

/// A fault, and the last sheet with what it comes to.
struct Faulty {
    fault: Fault,
    last: Last,
}

impl Faulty {
    fn new(fault: Fault) -> Faulty {
        Faulty { fault, last: Last::default() }
    }

    fn judged<T>(&self, sheet: &[u8], with: impl FnOnce(&Judged) -> T) -> T {
        self.last.judged(sheet, |sheet| judge(self.fault, sheet), with)
    }

    /// A step from a state that is sound for this call.
    fn step(
        &self,
        sheet: &[u8],
        bytes: &mut [u8],
        taking_above: Fault,
        step: impl FnOnce(&Network, State) -> (u32, State),
    ) -> u32 {
        self.judged(sheet, |judged| {
            let Ok(network) = judged else { return calls::check_judged(judged) };
            let sound = |state: &State| is_sound(self.fault, taking_above, network, state);
            let state = State::try_from(&*bytes).ok().filter(sound);
            let Some(state) = state else { return pack(0, 11, 0) };
            let (answer, after) = step(network, state);
            bytes.copy_from_slice(&after);
            answer
        })
    }
}

impl Campaign for Faulty {
    as_second!(check, partner_check, start, journal_line, settle, passed_ways, join);

    fn next_order(&self, sheet: &[u8], state: &mut [u8]) -> u32 {
        self.step(sheet, state, OrderTakesAbove, |network, state| {
            let (order, after) = next_order(self.fault, network, state);
            (order_answer(order), after)
        })
    }

    fn reply(&self, sheet: &[u8], state: &mut [u8], letter: u8, booking: u32) -> u32 {
        let misfit = pack(0, 9, if booking <= 64 { booking } else { 0 });
        self.step(sheet, state, ReplyTakesAbove, |network, state| {
            match run::reply(network, state, letter, booking as usize) {
                Some(after) => (pack(6, 0, booking), after),
                None => (misfit, state),
            }
        })
    }

    fn reply_block(&self, sheet: &[u8], block: Option<&[u8]>, state: &mut [u8]) -> u32 {
        self.step(sheet, state, BlockTakesAbove, |network, state| {
            let taken = block::take(network, state, block.unwrap_or(b""));
            let kept = taken.kept as u32;
            let answer = match taken.bad {
                None => pack(6, 0, kept),
                Some(Bad::Form) => pack(0, 1, kept + 1),
                Some(Bad::Misfit) => pack(0, 9, kept + 1),
            };
            (answer, taken.state)
        })
    }

    fn restart(&self, sheet: &[u8], journal: &[u8], state: &mut [u8]) -> u32 {
        self.judged(sheet, |judged| {
            let Ok(network) = judged else { return calls::check_judged(judged) };
            if state.len() != 65 {
                return pack(0, 11, 0);
            }
            match replay(self.fault, network, journal) {
                Ok(after) => {
                    state.copy_from_slice(&after);
                    pack(6, 0, 0)
                }
                Err(line) => pack(0, 12, line),
            }
        })
    }
}

fn compared(comparison: &mut Comparison) -> Outcome {
    comparison.fixed_part(1)?;
    comparison.desks(1, 4_000)?;
    comparison.journals(1, 0)
}

/// What the comparison tells of a version.
fn told(fault: Fault) -> Option<String> {
    compared(&mut Comparison::new(&Faulty::new(fault), false)).err()
}

fn demand_found(faults: &[Fault]) {
    for &fault in faults {
        assert!(told(fault).is_some_and(|told| told.starts_with("DIFFERENCE in ")), "{fault:?}");
    }
}

#[test]
fn the_second_version_does_not_differ_from_itself() {
    let faulty = Faulty::new(Faultless);
    let mut comparison = Comparison::new(&faulty, false);
    assert!(comparison.enough_desks().is_err());
    assert_eq!(compared(&mut comparison), Ok(()));
    for round in (0..100).filter(|round| round % 16 != 15) {
        assert_eq!(comparison.round(1, round), Ok(()));
    }
}

#[test]
fn wrong_full_desks_are_found() {
    demand_found(&[
        FullOneBelow,
        FullOneAbove,
        NeverFull,
        OnlyRequestsCounted,
        OnlyReturnsCounted,
        HeldCounted,
        Desk8NeverFull,
        FullForRequestsOnly,
        FullForReturnsOnly,
        RestartNeverFull,
    ]);
}

#[test]
fn wrong_orders_at_full_desks_are_found() {
    demand_found(&[EndWherePassedOver, StopsAtTheFirst, HighestFirst, RequestsWhileReturning]);
}

#[test]
fn desks_and_limits_taken_for_others_are_found() {
    demand_found(&[AllDesksTogether, DesksCutToTwoBits, LimitOneAbove, LimitOneBelow, LimitIgnored]);
}

#[test]
fn wrong_soundness_of_desks_is_found() {
    demand_found(&[AboveIsSound, AtTheLimitIsUnsound, OrderTakesAbove, ReplyTakesAbove, BlockTakesAbove]);
}

#[test]
fn wrong_numbers_of_desks_and_limits_are_found() {
    demand_found(&[Desk8Refused, Desk9Accepted, Desk0Accepted, DeskCutToByte, BlankDeskIs1]);
    demand_found(&[Limit64Refused, Limit65Accepted, Limit0Accepted, LimitCutToByte, BlankLimitIs64]);
    demand_found(&[OldHeadAccepted, OldLineAccepted]);
}

#[test]
fn wrong_refusals_of_desks_and_limits_are_found() {
    demand_found(&[
        WrongLimitIs3,
        WrongLimitIs1,
        WrongDeskIs2,
        WrongDeskIs1,
        LimitBeforeForm,
        DeskBeforeForm,
    ]);
}
