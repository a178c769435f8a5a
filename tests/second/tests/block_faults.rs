//! Wrong versions of a block of replies: the comparison must find each.

use second::as_second;
use second::block;
use second::calls::{self, pack, Judged};
use second::check::Network;
use second::comparison::as_second::Last;
use second::comparison::{Campaign, Comparison};
use second::journal::{self, LINE_LENGTH};
use second::plan;
use second::run::{self, Order, State};
use std::hint::black_box;

/// The second version itself, but for one fault.
#[derive(Clone, Copy, Debug, PartialEq)]
enum Fault {
    Faultless,
    // What is kept.
    BeforeTheBadLineUndone,
    OnePastTheBadLineTaken,
    AllPastTheBadLineTaken,
    NothingStored,
    TailJudgedFirst,
    FormJudgedFirst,
    TailDropped,
    Stops63,
    // Which refusal.
    MisformedIs9,
    MisfitIs1,
    OrderLetterIs1,
    OddLetterIs1,
    UnknownBookingIs1,
    UnfinishedIs9,
    EmptyIsRefused,
    NullIsRefused,
    // Which place.
    LinesFrom0,
    PlaceIsBooking,
    PlaceIsAllLines,
    PlaceIsBytes,
    AcceptedPlaceIs0,
    // Sheet and state.
    StoredThoughSheetRefused,
    StoredThoughUnsound,
    UnsoundAfterLines,
    LengthBeforeSheet,
    EmptyLooksAtNoState,
    LongerStateIsCut,
    // Lines.
    OrderTaken,
    CopyPassedOver,
    SmallLettersRead,
    LineFeedNotLookedAt,
    LeadingZerosRead,
    BlankInANumberPassedOver,
    BlankIsZero,
    BlankIsTheLowestOpen,
    BookingCutToByte,
    // What a reply does.
    NeverSwitches,
    SwitchesAtOnce,
    RepeatableIsLost,
    KeptIsFree,
    // Memory that was not lent, or not for writing.
    ReadsBehindTheBlock,
    WritesBehindTheState,
    ChangesTheBlock,
}

use Fault::*;

/// A fault, and the last sheet with what it comes to.
struct Faulty {
    fault: Fault,
    last: Last,
}

impl Faulty {
    fn new(fault: Fault) -> Faulty {
        Faulty { fault, last: Last::default() }
    }

    fn judged<T>(&self, sheet: &[u8], with: impl FnOnce(&Judged) -> T) -> T {
        self.last.judged(sheet, calls::judge, with)
    }
}

/// Whether a line has a blank for its booking.
fn is_blank(line: &[u8]) -> bool {
    line.len() == LINE_LENGTH && &line[1..] == b"    \n"
}

/// A line as a faulty reader takes it.
fn as_read(fault: Fault, line: &[u8]) -> Option<(u8, usize)> {
    let mut line = line.to_vec();
    match fault {
        SmallLettersRead => line[0] = line[0].to_ascii_uppercase(),
        LineFeedNotLookedAt if line.len() == LINE_LENGTH => line[5] = b'\n',
        LeadingZerosRead if line.len() == LINE_LENGTH => {
            let leading = line[1..4].iter_mut().take_while(|byte| b" 0".contains(byte));
            leading.for_each(|byte| *byte = b' ');
        }
        BlankInANumberPassedOver if line.len() == LINE_LENGTH && line[2] != b' ' && line[3] == b' ' => {
            line[1..4].rotate_right(1);
        }
        BlankIsZero if is_blank(&line) => line[4] = b'0',
        _ => {}
    }
    let (letter, booking) = journal::read_line(&line)?;
    Some((letter, if fault == BookingCutToByte { booking % 256 } else { booking }))
}

/// The refusal of a line that does not fit.
fn refusal_of_misfit(fault: Fault, network: &Network, letter: u8, booking: usize) -> u32 {
    match fault {
        MisfitIs1 => 1,
        OrderLetterIs1 if b"QU".contains(&letter) => 1,
        OddLetterIs1 if !b"YNGKQU".contains(&letter) => 1,
        UnknownBookingIs1 if !network.plan.bookings().contains(&booking) => 1,
        _ => 9,
    }
}

/// The state after a line that does not fit, for a version that takes it.
fn after_misfit(fault: Fault, network: &Network, state: State, letter: u8, booking: usize) -> Option<State> {
    let order = match letter {
        b'Q' => Order::Request(booking),
        b'U' => Order::Return(booking),
        _ => {
            let copy = letter == b'Y' && state.get(booking) == Some(&run::HELD);
            return (fault == CopyPassedOver && copy).then_some(state);
        }
    };
    let (due, after) = run::next_order(network, state);
    (fault == OrderTaken && due == order).then_some(after)
}

/// What else a version makes of a reply that fits.
fn after_reply(fault: Fault, network: &Network, before: State, mut state: State, line: (u8, usize)) -> State {
    let (letter, booking) = line;
    match fault {
        NeverSwitches => state[0] = before[0],
        SwitchesAtOnce
            if letter == b'N' && state[booking] == run::LOST && state.contains(&run::REQUESTED) =>
        {
            state[0] = 0
        }
        RepeatableIsLost if letter == b'N' && network.plan.kind(booking).repeats() => {
            state[booking] = run::LOST
        }
        KeptIsFree if letter == b'K' => state[booking] = run::FREE,
        _ => {}
    }
    state
}

/// The state after a line, or its refusal.
fn after_line(fault: Fault, network: &Network, state: State, line: &[u8]) -> Result<State, u32> {
    let open = || (1..state.len()).find(|&b| [run::REQUESTED, run::RETURNING].contains(&state[b]));
    let read = match fault {
        BlankIsTheLowestOpen if is_blank(line) => open().map(|booking| (line[0], booking)),
        _ => as_read(fault, line),
    };
    let Some((letter, booking)) = read else {
        let unfinished = line.len() < LINE_LENGTH;
        let misfit = fault == MisformedIs9 && !unfinished || fault == UnfinishedIs9 && unfinished;
        return Err(if misfit { 9 } else { 1 });
    };
    match run::reply(network, state, letter, booking) {
        Some(after) => Ok(after_reply(fault, network, state, after, (letter, booking))),
        None => after_misfit(fault, network, state, letter, booking)
            .ok_or(refusal_of_misfit(fault, network, letter, booking)),
    }
}

/// A refusal that a version finds before it takes any line.
fn found_early(fault: Fault, block: &[u8]) -> Option<u32> {
    let lines: Vec<&[u8]> = block.chunks(LINE_LENGTH).collect();
    let bad = match fault {
        TailJudgedFirst => lines.iter().position(|line| line.len() < LINE_LENGTH)?,
        FormJudgedFirst => lines.iter().position(|line| journal::read_line(line).is_none())?,
        EmptyIsRefused if lines.is_empty() => 0,
        _ => return None,
    };
    Some(pack(0, 1, bad as u32 + 1))
}

/// The lines that a version takes for the block's.
fn lines_as_taken(fault: Fault, block: &[u8]) -> Vec<&[u8]> {
    let whole = block.len().next_multiple_of(LINE_LENGTH);
    match fault {
        TailDropped => block.chunks_exact(LINE_LENGTH).collect(),
        ReadsBehindTheBlock => {
            // Behind each block of the comparison further bytes stand, at least a line's.
            let longer = unsafe { std::slice::from_raw_parts(black_box(block.as_ptr()), whole) };
            longer.chunks(LINE_LENGTH).collect()
        }
        Stops63 => block.chunks(LINE_LENGTH).take(63).collect(),
        _ => block.chunks(LINE_LENGTH).collect(),
    }
}

/// The place of a bad line.
fn place_of_bad(fault: Fault, lines: &[&[u8]], line: usize) -> u32 {
    match fault {
        LinesFrom0 => line as u32 - 1,
        PlaceIsAllLines => lines.len() as u32,
        PlaceIsBytes => line as u32 * 6,
        PlaceIsBooking => journal::read_line(lines[line - 1]).map_or(0, |(_, booking)| booking as u32),
        _ => line as u32,
    }
}

fn place_of_taken(fault: Fault, lines: &[&[u8]]) -> u32 {
    match fault {
        PlaceIsBytes => lines.len() as u32 * 6,
        AcceptedPlaceIs0 => 0,
        PlaceIsBooking => lines.last().map_or(0, |line| journal::read_line(line).unwrap().1 as u32),
        _ => lines.len() as u32,
    }
}

/// Answer and state of a block, from a sound state.
fn take(fault: Fault, network: &Network, from: State, block: &[u8]) -> (u32, State) {
    if let Some(answer) = found_early(fault, block) {
        return (answer, from);
    }
    let lines = lines_as_taken(fault, block);
    let mut state = from;
    let mut bad: Option<(u32, usize)> = None;
    for (at, line) in lines.iter().enumerate() {
        match after_line(fault, network, state, line) {
            Ok(after) => state = after,
            Err(refusal) => bad = bad.or(Some((refusal, at + 1))),
        }
        let past = bad.is_some_and(|(_, line)| at + 1 > line);
        let stays = fault == AllPastTheBadLineTaken || fault == OnePastTheBadLineTaken && !past;
        if bad.is_some() && !stays {
            break;
        }
    }
    let state =
        if fault == NothingStored || bad.is_some() && fault == BeforeTheBadLineUndone { from } else { state };
    match bad {
        None => (pack(6, 0, place_of_taken(fault, &lines)), state),
        Some((refusal, line)) => (pack(0, refusal, place_of_bad(fault, &lines, line)), state),
    }
}

/// What a version does with a sheet that is refused.
fn on_refused_sheet(fault: Fault, judged: &Judged, sheet: &[u8], block: &[u8], bytes: &mut [u8]) -> u32 {
    if fault == LengthBeforeSheet && bytes.len() != 65 {
        return pack(0, 11, 0);
    }
    if let (StoredThoughSheetRefused, Ok(plan), Ok(state)) =
        (fault, plan::read(sheet), State::try_from(&*bytes))
    {
        bytes.copy_from_slice(&block::take(&Network::new(plan), state, block).state);
    }
    calls::check_judged(judged)
}

/// What a version does with a state that is not sound.
fn on_unsound(fault: Fault, network: &Network, block: &[u8], bytes: &mut [u8]) -> u32 {
    if fault == EmptyLooksAtNoState && block.is_empty() {
        return pack(6, 0, 0);
    }
    if let Ok(state) = State::try_from(&*bytes) {
        let (answer, after) = take(fault, network, state, block);
        match fault {
            StoredThoughUnsound => bytes.copy_from_slice(&after),
            UnsoundAfterLines if calls::kind_of(answer) == 0 => return answer,
            _ => {}
        }
    }
    pack(0, 11, 0)
}

/// Bytes that nobody may write.
fn scribble(fault: Fault, block: &[u8], bytes: &mut [u8]) {
    // Around each block and state of the comparison further bytes stand.
    match fault {
        WritesBehindTheState => unsafe { *black_box(bytes.as_mut_ptr()).add(65) = 0 },
        ChangesTheBlock if !block.is_empty() => unsafe { *black_box(block.as_ptr()).cast_mut() = b'Q' },
        _ => {}
    }
}

fn faulty_block(fault: Fault, judged: &Judged, sheet: &[u8], block: &[u8], bytes: &mut [u8]) -> u32 {
    let Ok(network) = judged else { return on_refused_sheet(fault, judged, sheet, block, bytes) };
    let looked_at = if fault == LongerStateIsCut && bytes.len() > 65 { &mut bytes[..65] } else { bytes };
    let sound = State::try_from(&*looked_at).ok().filter(|state| run::is_sound(network, state));
    let Some(state) = sound else { return on_unsound(fault, network, block, looked_at) };
    let (answer, after) = take(fault, network, state, block);
    looked_at.copy_from_slice(&after);
    scribble(fault, block, looked_at);
    answer
}

impl Campaign for Faulty {
    as_second!(check, partner_check, start, next_order, reply, restart, journal_line);
    as_second!(settle, passed_ways, join);

    fn reply_block(&self, sheet: &[u8], block: Option<&[u8]>, state: &mut [u8]) -> u32 {
        if self.fault == NullIsRefused && block.is_none() {
            return pack(0, 1, 1);
        }
        let block = block.unwrap_or(b"");
        self.judged(sheet, |judged| faulty_block(self.fault, judged, sheet, block, state))
    }
}

/// What the blocks tell of a version.
fn told(fault: Fault) -> Option<String> {
    Comparison::new(&Faulty::new(fault), false).blocks(1, 60_000).err()
}

fn demand_found(faults: &[Fault]) {
    for &fault in faults {
        assert!(told(fault).is_some_and(|told| told.starts_with("DIFFERENCE in ")), "{fault:?}");
    }
}

#[test]
fn the_second_version_does_not_differ_from_itself() {
    assert_eq!(told(Faultless), None);
}

#[test]
fn random_campaigns_with_blocks_do_not_differ_either() {
    let faulty = Faulty::new(Faultless);
    let mut comparison = Comparison::new(&faulty, false);
    assert!(comparison.enough_blocks().is_err());
    for round in (0..200).filter(|round| round % 16 != 15) {
        assert_eq!(comparison.round(1, round), Ok(()));
    }
}

#[test]
fn wrong_keeping_is_found() {
    demand_found(&[
        BeforeTheBadLineUndone,
        OnePastTheBadLineTaken,
        AllPastTheBadLineTaken,
        NothingStored,
        TailJudgedFirst,
        FormJudgedFirst,
        TailDropped,
        Stops63,
    ]);
}

#[test]
fn wrong_refusals_are_found() {
    demand_found(&[
        MisformedIs9,
        MisfitIs1,
        OrderLetterIs1,
        OddLetterIs1,
        UnknownBookingIs1,
        UnfinishedIs9,
        EmptyIsRefused,
        NullIsRefused,
    ]);
}

#[test]
fn wrong_places_are_found() {
    demand_found(&[LinesFrom0, PlaceIsBooking, PlaceIsAllLines, PlaceIsBytes, AcceptedPlaceIs0]);
}

#[test]
fn wrong_sheets_and_states_are_found() {
    demand_found(&[
        StoredThoughSheetRefused,
        StoredThoughUnsound,
        UnsoundAfterLines,
        LengthBeforeSheet,
        EmptyLooksAtNoState,
        LongerStateIsCut,
    ]);
}

#[test]
fn wrong_lines_and_replies_are_found() {
    demand_found(&[OrderTaken, CopyPassedOver, SmallLettersRead, LineFeedNotLookedAt, LeadingZerosRead]);
    demand_found(&[
        BlankInANumberPassedOver,
        BlankIsZero,
        BlankIsTheLowestOpen,
        BookingCutToByte,
        NeverSwitches,
        SwitchesAtOnce,
        RepeatableIsLost,
        KeptIsFree,
    ]);
}

#[test]
fn bytes_that_were_not_lent_are_found() {
    demand_found(&[ReadsBehindTheBlock, WritesBehindTheState, ChangesTheBlock]);
}
