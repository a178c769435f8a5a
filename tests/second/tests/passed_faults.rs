//! Wrong versions of the listing of the ways passed over: the comparison must find each by its
//! listings alone.

use second::as_second;
use second::calls::{self, pack, Judged};
use second::check::Network;
use second::comparison::as_second::Last;
use second::comparison::passed::NOT_TRUE;
use second::comparison::{Campaign, Comparison};
use second::plan::{self, Kind};
use second::run::{self, Order, State, HELD, LOST, REQUESTED, RETURNING};
use std::hint::black_box;

/// The wrong versions, by what is wrong: each is named once, and demanded by the test of its group.
macro_rules! wrong_versions {
    ($($(#[$say:meta])* $test:ident by $demand:ident { $($fault:ident,)+ })+) => {
        /// The second version itself, but for one fault.
        #[derive(Clone, Copy, Debug, PartialEq)]
        enum Fault {
            Faultless,
            // A sentence of soundness is not judged.
            Drops(usize),
            $($($fault,)+)+
        }

        $($(#[$say])*
        #[test]
        fn $test() {
            $demand(&[$($fault,)+]);
        })+
    };
}

wrong_versions! {
    /// Which booking a line has: found by the bytes of the state alone.
    wrong_bookings_are_found by demand_untrue {
        LackedBeforeLost,
        HighestLost,
        LostAnywhere,
        LostInTheCurrentWay,
        LostOfTheWayAfter,
        RequestedIsLost,
        ReturningIsLost,
        FreeIsLost,
        HighestLacked,
        HighestHeldOfTheWay,
        HeldOfTheWay,
        SoftIsLacked,
        DIsLacked,
        CIsLacked,
        RequestedIsLacked,
        FreeIsLacked,
        OnlyPivotsAreLacked,
        OnlyRepeatablesAreLacked,
        LackedByTheCurrentWay,
        LackedByWay1,
        Booking64NotLookedAt,
        BookingsTo32LookedAt,
        BookingsFrom0,
    }
    /// Which ways are listed: found by the bytes of the state alone.
    wrong_ways_are_found by demand_untrue {
        CurrentWayToo,
        NothingForCallingOff,
        OneTooFewForCallingOff,
        OneTooFew,
        FirstWayLeftOut,
        LaterWaysToo,
        Only15Ways,
        Only8Ways,
        OnlyWaysWithALoss,
        OnlyWaysThatLack,
        OnlyTheWayBefore,
        FromTheHighestDown,
        WaysFrom0,
        SameBookingOnce,
        LineForEachLost,
        NothingWhileOpen,
    }
    /// How a line is written: found by the bytes of the state alone.
    wrong_lines_are_found by demand_untrue {
        AlwaysN,
        AlwaysH,
        LettersSwapped,
        SmallLetters,
        WLetter,
        ZerosForBlanks,
        LeftJustified,
        ThreeColumns,
        SpacesBetween,
        NoLineFeed,
        NoLastLineFeed,
        CarriageReturns,
        WayAndBookingSwapped,
        LastDigitOnly,
    }
    /// The buffer, the answer's place and bytes around.
    wrong_buffers_are_found by demand_found {
        PlaceIsTheLines,
        PlaceIsTheRoom,
        PlaceIs0,
        PlaceIsTheWay,
        KindIsWait,
        ByteBehindWritten,
        RestBlanked,
        RestKeptOnlyTo176,
        AtTheBuffersEnd,
        WritesBehindTheBuffer,
        ShortBufferWritten,
        ShortBufferFirstLineWritten,
        ShortBufferCut,
        ShortIsTold11,
        ShortTellsTheLength,
        RoomFor176Wanted,
        RoomForAllWaysWanted,
        OneByteMoreWanted,
        LongBufferRefused,
        NoRoomIsAlwaysShort,
        NullIsRefused,
    }
    /// What is refused before, and that nothing else changes.
    wrong_refusals_are_found by demand_found {
        RoomBeforeState,
        RoomBeforeSheet,
        RoomBeforeStranding,
        StateBeforeSheet,
        StateNotJudged,
        LongerStateIsCut,
        ShorterStateIsFilled,
        LengthIsTold10,
        UnsoundTellsTheWay,
        UnsoundWrites,
        RefusedSheetWrites,
        StrandingIsListed,
        RepeatedWaysAreListed,
        SheetPlaceIs0,
        EndedIsRefused,
        StateChanged,
        StateMovesOn,
        SheetChanged,
    }
}

use Fault::*;

struct Faulty {
    fault: Fault,
    last: Last,
}

impl Faulty {
    fn new(fault: Fault) -> Faulty {
        Faulty { fault, last: Last::default() }
    }

    fn judged<T>(&self, sheet: &[u8], with: impl FnOnce(&Judged) -> T) -> T {
        self.last.judged(sheet, calls::judge, with)
    }
}

/// The ways that get a line.
fn ways(fault: Fault, network: &Network, state: &State) -> Vec<usize> {
    let (all, current) = (network.plan.ways.len(), usize::from(state[0]));
    let before = if current == 0 { all } else { current - 1 };
    let open = state[1..].iter().any(|code| [REQUESTED, RETURNING].contains(code));
    let last = match fault {
        NothingForCallingOff if current == 0 => 0,
        OneTooFewForCallingOff if current == 0 => all - 1,
        OneTooFew if current != 0 => before.saturating_sub(1),
        CurrentWayToo if current != 0 => current,
        LaterWaysToo => all,
        Only15Ways => before.min(15),
        Only8Ways => before.min(8),
        NothingWhileOpen if open => 0,
        _ => before,
    };
    let first = match fault {
        FirstWayLeftOut => 2,
        OnlyTheWayBefore => before.max(1),
        _ => 1,
    };
    let listed = (first..=last).filter(|&way| match fault {
        LaterWaysToo => way != current && !is_live(network, state, way),
        _ => true,
    });
    match fault {
        FromTheHighestDown => listed.rev().collect(),
        _ => listed.collect(),
    }
}

fn is_live(network: &Network, state: &State, way: usize) -> bool {
    lost_in(Faultless, network, state, way).is_empty() && lacked_by(Faultless, network, state, way).is_empty()
}

/// The bookings of a way that count as lost, rising.
fn lost_in(fault: Fault, network: &Network, state: &State, way: usize) -> Vec<usize> {
    let plan = &network.plan;
    let looked_at = match fault {
        LostInTheCurrentWay => usize::from(state[0]),
        LostOfTheWayAfter => way + 1,
        _ => way,
    };
    let lost = |b: &usize| match (fault, state[*b]) {
        (RequestedIsLost, REQUESTED) | (ReturningIsLost, RETURNING) | (FreeIsLost, run::FREE) => true,
        (_, code) => code == LOST,
    };
    let inside = |b: &usize| fault == LostAnywhere || plan.is_in_way(*b, looked_at);
    plan.bookings().filter(|b| lost(b) && inside(b) && is_looked_at(fault, *b)).collect()
}

fn is_looked_at(fault: Fault, booking: usize) -> bool {
    match fault {
        Booking64NotLookedAt => booking < 64,
        BookingsTo32LookedAt => booking <= 32,
        _ => true,
    }
}

fn counts_as_firm(fault: Fault, kind: Kind) -> bool {
    match fault {
        SoftIsLacked => true,
        DIsLacked => kind != Kind::Returnable,
        CIsLacked => kind != Kind::RepeatableReturnable,
        OnlyPivotsAreLacked => kind == Kind::Pivot,
        OnlyRepeatablesAreLacked => kind == Kind::Repeatable,
        _ => kind.is_firm(),
    }
}

/// The held firm bookings that a way lacks, rising.
fn lacked_by(fault: Fault, network: &Network, state: &State, way: usize) -> Vec<usize> {
    let plan = &network.plan;
    let held = |b: usize| match (fault, state[b]) {
        (RequestedIsLacked, REQUESTED) | (FreeIsLacked, run::FREE) => true,
        (_, code) => code == HELD,
    };
    let outside = |b: usize| match fault {
        HeldOfTheWay => true,
        HighestHeldOfTheWay => plan.is_in_way(b, way),
        LackedByTheCurrentWay => !plan.is_in_way(b, usize::from(state[0])),
        LackedByWay1 => !plan.is_in_way(b, 1),
        _ => !plan.is_in_way(b, way),
    };
    let stuck = |b: &usize| held(*b) && counts_as_firm(fault, plan.kind(*b)) && is_looked_at(fault, *b);
    plan.bookings().filter(|b| stuck(b) && outside(*b)).collect()
}

/// Letter and booking of the lines of a way; mostly it has one.
fn told(fault: Fault, network: &Network, state: &State, way: usize) -> Vec<(char, usize)> {
    let lost = lost_in(fault, network, state, way);
    let lacked = lacked_by(fault, network, state, way);
    let lost_counts = !lost.is_empty() && (fault != LackedBeforeLost || lacked.is_empty());
    let (letter, all) = if lost_counts { ('N', lost) } else { ('H', lacked) };
    let highest = match fault {
        HighestLost => letter == 'N',
        HighestLacked | HighestHeldOfTheWay => letter == 'H',
        _ => false,
    };
    match fault {
        OnlyWaysWithALoss if letter == 'H' => return Vec::new(),
        OnlyWaysThatLack if letter == 'N' => return Vec::new(),
        LineForEachLost if letter == 'N' => return all.iter().map(|&b| (letter, b)).collect(),
        _ => {}
    }
    let booking = if highest { all.last() } else { all.first() };
    booking.map(|&b| (letter, b)).into_iter().collect()
}

fn letter_as_written(fault: Fault, letter: char) -> char {
    match (fault, letter) {
        (AlwaysN, _) | (LettersSwapped, 'H') => 'N',
        (AlwaysH, _) | (LettersSwapped, 'N') => 'H',
        (SmallLetters, _) => letter.to_ascii_lowercase(),
        _ => letter,
    }
}

fn line(fault: Fault, way: usize, letter: char, booking: usize) -> String {
    let letter = letter_as_written(fault, letter);
    match fault {
        BookingsFrom0 => format!("V{way:4}{letter}{:4}\n", booking - 1),
        WaysFrom0 => format!("V{:4}{letter}{booking:4}\n", way - 1),
        WLetter => format!("W{way:4}{letter}{booking:4}\n"),
        ZerosForBlanks => format!("V{way:04}{letter}{booking:04}\n"),
        LeftJustified => format!("V{way:<4}{letter}{booking:<4}\n"),
        ThreeColumns => format!("V{way:3}{letter}{booking:3}\n"),
        SpacesBetween => format!("V {way:4} {letter} {booking:4}\n"),
        NoLineFeed => format!("V{way:4}{letter}{booking:4}"),
        CarriageReturns => format!("V{way:4}{letter}{booking:4}\r"),
        WayAndBookingSwapped => format!("V{booking:4}{letter}{way:4}\n"),
        LastDigitOnly => format!("V{:4}{letter}{:4}\n", way % 10, booking % 10),
        _ => format!("V{way:4}{letter}{booking:4}\n"),
    }
}

fn text(fault: Fault, network: &Network, state: &State) -> String {
    let mut text = String::new();
    let mut named = Vec::new();
    for way in ways(fault, network, state) {
        for (letter, booking) in told(fault, network, state, way) {
            if fault != SameBookingOnce || !named.contains(&booking) {
                text += &line(fault, way, letter, booking);
            }
            named.push(booking);
        }
    }
    if fault == NoLastLineFeed {
        text.pop();
    }
    text
}

/// The answer to a listing with too little room, and what is written all the same.
fn short(fault: Fault, text: &str, listing: &mut [u8]) -> u32 {
    let fits = match fault {
        ShortBufferWritten | ShortBufferCut => listing.len(),
        ShortBufferFirstLineWritten => listing.len() / 11 * 11,
        _ => 0,
    };
    listing[..fits].copy_from_slice(&text.as_bytes()[..fits]);
    match fault {
        ShortBufferCut => pack(6, 0, fits as u32),
        ShortIsTold11 => pack(0, 11, 0),
        ShortTellsTheLength => pack(0, 10, text.len() as u32),
        _ => pack(0, 10, 0),
    }
}

fn has_room(fault: Fault, network: &Network, needed: usize, room: usize) -> bool {
    match fault {
        RoomFor176Wanted => room >= 176,
        RoomForAllWaysWanted => room >= 11 * network.plan.ways.len(),
        OneByteMoreWanted => room > needed,
        LongBufferRefused => room >= needed && room <= 176,
        NoRoomIsAlwaysShort => room >= needed && room > 0,
        _ => room >= needed,
    }
}

/// The listing written, and its answer.
fn write(fault: Fault, network: &Network, state: &State, text: &str, listing: &mut [u8]) -> u32 {
    if !has_room(fault, network, text.len(), listing.len()) {
        return if listing.len() < text.len() { short(fault, text, listing) } else { pack(0, 10, 0) };
    }
    let room = listing.len();
    let begin = if fault == AtTheBuffersEnd { room - text.len() } else { 0 };
    listing[begin..begin + text.len()].copy_from_slice(text.as_bytes());
    match fault {
        ByteBehindWritten if room > text.len() => listing[text.len()] = 0,
        RestBlanked => listing[text.len()..].fill(b' '),
        RestKeptOnlyTo176 if room > 176 => listing[176] = 0,
        // Around each buffer of the comparison further bytes stand.
        WritesBehindTheBuffer => unsafe { *black_box(listing.as_mut_ptr()).add(room) = 0 },
        _ => {}
    }
    let place = match fault {
        PlaceIsTheLines => text.len() / 11,
        PlaceIsTheRoom => room,
        PlaceIs0 => 0,
        PlaceIsTheWay => usize::from(state[0]),
        _ => text.len(),
    };
    pack(if fault == KindIsWait { 3 } else { 6 }, 0, place as u32)
}

/// Bytes that nobody may write.
fn scribble(fault: Fault, network: &Network, sheet: &[u8], bytes: &[u8]) {
    let state = black_box(bytes.as_ptr()).cast_mut();
    match fault {
        StateMovesOn if usize::from(bytes[0]) < network.plan.ways.len() => unsafe { *state = bytes[0] + 1 },
        StateChanged => unsafe { *state.add(64) = 3 },
        SheetChanged => unsafe { *black_box(sheet.as_ptr()).cast_mut().add(sheet.len() - 1) = b' ' },
        _ => {}
    }
}

/// The state as the version takes it, or the refusal.
fn taken(fault: Fault, network: &Network, bytes: &[u8], room: usize) -> Result<State, u32> {
    let refused = |refusal, place| Err(pack(0, refusal, place));
    if fault == RoomBeforeState && room == 0 && bytes.first() != Some(&1) {
        return refused(10, 0);
    }
    let mut state = bytes.to_vec();
    match fault {
        LongerStateIsCut => state.truncate(65),
        ShorterStateIsFilled if bytes.len() < 65 && !bytes.is_empty() => state.resize(65, 0),
        _ => {}
    }
    let Ok(state) = State::try_from(state) else {
        return refused(if fault == LengthIsTold10 { 10 } else { 11 }, 0);
    };
    let sentences = run::SENTENCES.iter().enumerate().filter(|(at, _)| fault != Drops(*at));
    let sound = sentences.into_iter().all(|(_, (_, holds))| holds(network, &state));
    // What has no meaning at all can't be listed.
    let readable = run::SENTENCES[..2].iter().all(|(_, holds)| holds(network, &state));
    match fault {
        _ if sound => Ok(state),
        StateNotJudged if readable => Ok(state),
        UnsoundTellsTheWay => refused(11, state[0].into()),
        _ => refused(11, 0),
    }
}

/// The network of a sheet that should have been refused.
fn passed_all_the_same(fault: Fault, judged: &Judged, sheet: &[u8]) -> Option<Network> {
    let ignored = match fault {
        StrandingIsListed => 8,
        RepeatedWaysAreListed => 7,
        _ => return None,
    };
    let refusal = judged.as_ref().err().filter(|refusal| refusal.number == ignored);
    refusal.map(|_| Network::new(plan::read(sheet).expect("a sheet that can be read")))
}

fn on_refused_sheet(fault: Fault, refusal: plan::Refusal, bytes: &[u8], listing: &mut [u8]) -> u32 {
    match fault {
        RoomBeforeSheet if listing.is_empty() => return pack(0, 10, 0),
        RoomBeforeStranding if listing.is_empty() && refusal.number == 8 => return pack(0, 10, 0),
        StateBeforeSheet if bytes.len() != 65 => return pack(0, 11, 0),
        RefusedSheetWrites if !listing.is_empty() => listing[0] = b'V',
        SheetPlaceIs0 => return pack(0, refusal.number, 0),
        _ => {}
    }
    pack(0, refusal.number, refusal.place)
}

fn faulty_listing(fault: Fault, judged: &Judged, sheet: &[u8], bytes: &[u8], listing: &mut [u8]) -> u32 {
    let other = passed_all_the_same(fault, judged, sheet);
    let network = match (&other, judged) {
        (Some(network), _) | (None, Ok(network)) => network,
        (None, Err(refusal)) => return on_refused_sheet(fault, *refusal, bytes, listing),
    };
    let state = match taken(fault, network, bytes, listing.len()) {
        Ok(state) => state,
        Err(answer) => {
            if fault == UnsoundWrites && !listing.is_empty() {
                listing[0] = b'V';
            }
            return answer;
        }
    };
    let ended = || matches!(run::next_order(network, state).0, Order::Flown(_) | Order::CalledOff);
    if fault == EndedIsRefused && ended() {
        return pack(0, 11, 0);
    }
    let answer = write(fault, network, &state, &text(fault, network, &state), listing);
    scribble(fault, network, sheet, bytes);
    answer
}

impl Campaign for Faulty {
    as_second!(check, partner_check, start, next_order, reply, reply_block, restart);
    as_second!(journal_line, settle, join);

    fn passed_ways(&self, sheet: &[u8], state: Option<&[u8]>, listing: Option<&mut [u8]>) -> u32 {
        if self.fault == NullIsRefused && listing.is_none() {
            return pack(0, 10, 0);
        }
        let (state, listing) = (state.unwrap_or(b""), listing.unwrap_or(&mut []));
        self.judged(sheet, |judged| faulty_listing(self.fault, judged, sheet, state, listing))
    }
}

/// What the listings tell of a version.
fn difference(fault: Fault) -> Option<String> {
    Comparison::new(&Faulty::new(fault), false).passed_ways(1, 20_000).err()
}

fn demand_found(faults: &[Fault]) {
    for &fault in faults {
        assert!(difference(fault).is_some_and(|told| told.starts_with("DIFFERENCE in ")), "{fault:?}");
    }
}

/// Found by what the listing claims, without the second version.
fn demand_untrue(faults: &[Fault]) {
    for &fault in faults {
        let told = difference(fault).unwrap_or_else(|| panic!("{fault:?} is not found"));
        assert!(told.contains(NOT_TRUE), "{fault:?} is found by something else:\n{told}");
    }
}

#[test]
fn each_sentence_of_soundness_is_missed() {
    (0..run::SENTENCES.len()).for_each(|at| demand_found(&[Drops(at)]));
}

#[test]
fn the_second_version_does_not_differ_from_itself_and_enough_is_met() {
    let faultless = Faulty::new(Faultless);
    let mut comparison = Comparison::new(&faultless, false);
    assert!(comparison.enough_listings().is_err());
    assert_eq!(comparison.passed_ways(1, 20_000), Ok(()));
    assert_eq!(comparison.enough_listings(), Ok(()));
}
