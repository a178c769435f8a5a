//! Wrong versions of the calls but for the block: the comparison must find each.

use second::as_second;
use second::calls::{self, kind_of, pack, place_of, refusal_of, Judged};
use second::check::{self, Network};
use second::comparison::{Campaign, Comparison, Outcome};
use second::generate;
use second::journal::{self, LINE_LENGTH};
use second::plan::{self, Kind};
use second::run::{self, Order, State};

/// The second version itself, but for one fault.
#[derive(Clone, Copy, Debug)]
enum Fault {
    None,
    PassesAll,
    RejectsAll,
    RepeatablesLeftOutOfS,
    RefugeMayHaveLostPivot,
    OneLineFeedTooManyIsRead,
    BlankOnASheetIsZero,
    BlankLinksAreNone,
    BlankBookingIsDue,
    BlankDeskIsTheFirst,
    StrandingPlaceTurnedRound,
    DropsSentence(usize),
    LongerStateIsCut,
    MisfitBeforeUnsound,
    BookingCutToByte,
    PlaceOfBookingsAbove64,
    RefusedCallScribbles,
    StartKeepsBytesPastBookings,
    KeptBecomesFree,
    RepeatableIsLost,
    SwitchWhileRequested,
    ReturnInAnyOrder,
    OnlyNextWay,
    CallsOffWithNothingFirm,
    WaitsAtTheEnd,
    NeverChangesState,
    DIsNoKind,
    DIsFirm,
    DIsExposed,
    DIsLost,
    ReturningDIsUnsound,
    DIsNeverReturned,
    LinesCountedFrom0,
    TailIsALine,
    AnyOrderIsDue,
    AnyBookingIsDue,
    AnyLetterOfOrderIsDue,
    WrongLineBeforeUnsound,
    WrongLineChangesState,
    PlaceOfLineWraps,
    PlaceOfLineOverflows,
    MisfitLineIsPassedOver,
    OddLetterIsPassedOver,
    LineFeedIsNotLookedAt,
    LeadingZerosAreRead,
    SmallLettersAreRead,
    BlankInANumberIsPassedOver,
    BlankIsTheLineAbove,
    BlankLineIsPassedOver,
    LastLineIsDropped,
    ReplayEndsWithALostWay,
    ReplayReturnsInAnyOrder,
    ReplayHasNoThirdWay,
    RestartGoesOnFromTheState,
    RestartWantsASoundState,
    RestartKeepsBytesPastBookings,
    EmptyJournalIsWrong,
    LineIsPaddedWithZeros,
    LineIsLeftJustified,
    LineTakesBooking65,
    LineTakesAnyLetter,
    LineWritesOneByteMore,
    ShortLineBeforeMisfit,
    PlaceOfLinesAbove64,
}

struct Faulty(Fault);

const D: Kind = Kind::RepeatableReturnable;

/// A check with its own idea of where a loss strands.
fn other_check(sheet: &[u8], strands: fn(&Network, usize, usize) -> bool) -> u32 {
    let answer = calls::check(sheet);
    if kind_of(answer) == 0 && refusal_of(answer) != 8 {
        return answer;
    }
    let network = Network::new(plan::read(sheet).unwrap());
    for way in network.plan.way_numbers() {
        for &x in network.plan.way(way) {
            if network.plan.kind(x).is_exposed() && strands(&network, way, x) {
                return pack(0, 8, (way * 256 + x) as u32);
            }
        }
    }
    pack(6, 0, 0)
}

fn strands_without_repeatables(network: &Network, way: usize, x: usize) -> bool {
    let plan = &network.plan;
    let pivots = check::firm_beside(network, way, x).into_iter().filter(|&s| plan.kind(s) == Kind::Pivot);
    let pivots: Vec<usize> = pivots.collect();
    let settled =
        |y: usize| network.precedes(y, x) || pivots.iter().all(|&s| y == s || network.precedes(y, s));
    let refuge = |j: usize| {
        pivots.iter().all(|&s| plan.is_in_way(s, j))
            && plan.way(j).iter().all(|&y| !plan.kind(y).is_exposed() || settled(y))
    };
    !pivots.is_empty() && !(way + 1..=plan.ways.len()).any(refuge)
}

fn strands_without_any_holder(network: &Network, way: usize, x: usize) -> bool {
    let firm = check::firm_beside(network, way, x);
    let holds = |j: usize| firm.iter().all(|&s| network.plan.is_in_way(s, j));
    !firm.is_empty() && !(way + 1..=network.plan.ways.len()).any(holds)
}

/// The number that a version takes for a blank in this field of a line, if it takes one.
fn number_for_blank(fault: Fault, line: usize, letter: u8, field: usize) -> Option<usize> {
    match (fault, letter, field) {
        (Fault::BlankOnASheetIsZero, _, _) | (Fault::BlankLinksAreNone, b'P', 1) => Some(0),
        (Fault::BlankBookingIsDue, b'B', 0) => Some(line),
        (Fault::BlankDeskIsTheFirst, b'B', 1) => Some(1),
        _ => None,
    }
}

/// The sheet as a version reads it that takes a number for some blanks.
fn with_blanks_filled(fault: Fault, sheet: &[u8]) -> Vec<u8> {
    let mut text = sheet.to_vec();
    for (at, line) in text.split_inclusive_mut(|&byte| byte == b'\n').enumerate() {
        let fields = generate::fields_of(&line[..line.len() - 1]);
        for (field, begin) in fields.into_iter().enumerate() {
            let number = number_for_blank(fault, at, line[0], field);
            let columns = &mut line[begin..begin + 4];
            if let Some(number) = number.filter(|_| columns == b"    ") {
                columns.copy_from_slice(format!("{number:4}").as_bytes());
            }
        }
    }
    text
}

/// Check, with another kind in place of each D.
fn check_without_d(sheet: &[u8], instead: Kind) -> u32 {
    let Ok(mut plan) = plan::read(sheet) else { return calls::check(sheet) };
    plan.kinds.iter_mut().filter(|kind| **kind == D).for_each(|kind| *kind = instead);
    calls::check(plan::write(&plan).as_bytes())
}

/// The line of the first D on a sheet that can be read.
fn line_of_d(sheet: &[u8]) -> Option<u32> {
    let kinds = plan::read(sheet).ok()?.kinds;
    Some(kinds.iter().position(|&kind| kind == D)? as u32 + 2)
}

/// Whether a booking of kind D has this code.
fn has_d(sheet: &[u8], state: &[u8], code: u8) -> bool {
    let Ok(network) = calls::judge(sheet) else { return false };
    network.plan.bookings().any(|b| network.plan.kind(b) == D && state[b] == code)
}

/// The state, if it is sound but for one sentence that is not looked at.
fn sound_but(network: &Network, state: &[u8], dropped: usize) -> Option<State> {
    let state: State = state.try_into().ok()?;
    let mut sentences = run::SENTENCES.iter().enumerate();
    sentences.all(|(at, (_, holds))| at == dropped || holds(network, &state)).then_some(state)
}

fn firm_held(network: &Network, state: &[u8]) -> bool {
    network.plan.bookings().any(|b| state[b] == run::HELD && network.plan.kind(b).is_firm())
}

/// What a faulty reader makes of a line.
fn line_as_read(fault: Fault, line: &[u8]) -> Option<(u8, usize)> {
    let mut line = line.to_vec();
    match fault {
        Fault::LineFeedIsNotLookedAt => line[5] = b'\n',
        Fault::SmallLettersAreRead => line[0] = line[0].to_ascii_uppercase(),
        Fault::LeadingZerosAreRead => {
            let leading = line[1..4].iter_mut().take_while(|byte| b" 0".contains(byte));
            leading.for_each(|byte| *byte = b' ');
        }
        Fault::BlankInANumberIsPassedOver if line[2] != b' ' && line[3] == b' ' => {
            line[1..4].rotate_right(1);
        }
        _ => {}
    }
    journal::read_line(&line)
}

/// The state after a line for a version that takes some wrong orders.
fn after_faulty_order(fault: Fault, network: &Network, state: State, order: Order) -> Option<State> {
    let (due, after) = run::next_order(network, state);
    let taken = match (order, due) {
        (Order::Request(_), Order::Request(_)) | (Order::Return(_), Order::Return(_)) => {
            matches!(fault, Fault::AnyBookingIsDue)
        }
        (Order::Request(one), Order::Return(other)) | (Order::Return(one), Order::Request(other)) => {
            matches!(fault, Fault::AnyLetterOfOrderIsDue) && one == other
        }
        _ => false,
    };
    match (fault, order) {
        _ if order == due || taken => Some(after),
        (Fault::AnyOrderIsDue, _) => Some(state),
        (Fault::ReplayReturnsInAnyOrder, Order::Return(b)) if matches!(due, Order::Return(_)) => {
            (state.get(b) == Some(&run::HELD) && !network.plan.is_in_way(b, state[0].into())).then(|| {
                let mut after = state;
                after[b] = run::RETURNING;
                after
            })
        }
        _ => None,
    }
}

fn after_faulty_line(fault: Fault, network: &Network, state: State, line: &[u8]) -> Option<State> {
    let (letter, booking) = line_as_read(fault, line)?;
    match letter {
        b'Q' => after_faulty_order(fault, network, state, Order::Request(booking)),
        b'U' => after_faulty_order(fault, network, state, Order::Return(booking)),
        b'Y' | b'N' | b'G' | b'K' => match run::reply(network, state, letter, booking) {
            None if matches!(fault, Fault::MisfitLineIsPassedOver) => Some(state),
            after => after,
        },
        b'W' | b'E' | b'O' | b'X' if matches!(fault, Fault::OddLetterIsPassedOver) => Some(state),
        _ => None,
    }
}

/// What else a faulty replay does to the state after a line.
fn after_faulty_replay(fault: Fault, network: &Network, before: &State, mut state: State) -> State {
    let requested = network.plan.bookings().any(|b| state[b] == run::REQUESTED);
    let lost = network.plan.way(state[0].into()).iter().any(|&b| state[b] == run::LOST);
    match fault {
        Fault::ReplayEndsWithALostWay if lost && requested => state[0] = 0,
        Fault::ReplayHasNoThirdWay if before[0] == 2 && state[0] == 3 => state[0] = 0,
        _ => {}
    }
    state
}

/// A replay with a fault in it; of a wrong line also the state before it.
fn faulty_replay(
    fault: Fault,
    network: &Network,
    from: State,
    journal: &[u8],
) -> Result<State, (usize, State)> {
    let mut state = from;
    for (at, line) in journal.chunks_exact(LINE_LENGTH).enumerate() {
        let after = after_faulty_line(fault, network, state, line).ok_or((at + 1, state))?;
        state = after_faulty_replay(fault, network, &state, after);
    }
    Ok(state)
}

/// A journal without the lines that have a blank for their booking, or with that of the line above.
fn journal_without_blanks(journal: &[u8], above: bool) -> Vec<u8> {
    let mut text: Vec<u8> = Vec::new();
    for line in journal.chunks(LINE_LENGTH) {
        match line {
            [letter, b' ', b' ', b' ', b' ', b'\n'] if above && !text.is_empty() => {
                text.push(*letter);
                text.extend_from_within(text.len() - LINE_LENGTH..text.len() - 1);
            }
            [_, b' ', b' ', b' ', b' ', b'\n'] if !above => {}
            _ => text.extend(line),
        }
    }
    text
}

/// The lines that a version takes for the journal's.
fn journal_as_taken(fault: Fault, journal: &[u8]) -> Vec<u8> {
    let whole = journal.len() - journal.len() % LINE_LENGTH;
    match fault {
        Fault::LastLineIsDropped if whole > 0 => journal[..whole - LINE_LENGTH].to_vec(),
        Fault::TailIsALine if whole < journal.len() => [&journal[..whole], &b"??????"[..]].concat(),
        Fault::EmptyJournalIsWrong if journal.is_empty() => b"??????".to_vec(),
        Fault::BlankIsTheLineAbove => journal_without_blanks(journal, true),
        Fault::BlankLineIsPassedOver => journal_without_blanks(journal, false),
        _ => journal.to_vec(),
    }
}

fn place_of_line(fault: Fault, line: usize) -> u32 {
    match fault {
        Fault::LinesCountedFrom0 => (line - 1).min(65_535) as u32,
        Fault::PlaceOfLineWraps => line as u32 % 65_536,
        Fault::PlaceOfLineOverflows => line as u32,
        _ => line.min(65_535) as u32,
    }
}

/// The text of a line, as some would write it.
fn faulty_line(fault: Fault, letter: u8, booking: u32) -> Vec<u8> {
    let columns = match fault {
        Fault::LineIsPaddedWithZeros => format!("{booking:04}\n"),
        Fault::LineIsLeftJustified => format!("{booking:<4}\n"),
        _ => format!("{booking:4}\n"),
    };
    [&[letter], columns.as_bytes()].concat()
}

impl Faulty {
    fn next_order_dropping(&self, sheet: &[u8], bytes: &mut [u8], dropped: usize) -> u32 {
        let Ok(network) = calls::judge(sheet) else { return calls::check(sheet) };
        let Some(state) = sound_but(&network, bytes, dropped) else { return pack(0, 11, 0) };
        match run::next_order(&network, state) {
            (run::Order::Wait, _) => pack(3, 0, 0),
            _ => pack(5, 0, 0),
        }
    }

    /// What happens to the state after a reply was accepted.
    fn after_reply(&self, network: &Network, before: &[u8], state: &mut [u8], letter: u8, booking: usize) {
        let switched = before[0] != state[0];
        let requested = |state: &[u8]| network.plan.bookings().any(|b| state[b] == run::REQUESTED);
        match self.0 {
            Fault::KeptBecomesFree if letter == b'K' => state[booking] = run::FREE,
            Fault::RepeatableIsLost if letter == b'N' => state[booking] = run::LOST,
            Fault::DIsLost if letter == b'N' && network.plan.kind(booking) == D => state[booking] = run::LOST,
            Fault::OnlyNextWay if switched && state[0] > 0 => state[0] = before[0] + 1,
            Fault::CallsOffWithNothingFirm if switched && !firm_held(network, state) => state[0] = 0,
            Fault::SwitchWhileRequested if letter == b'N' && requested(state) => state[0] = 0,
            _ => {}
        }
    }
}

impl Faulty {
    fn judged<T>(&self, sheet: &[u8], with: impl FnOnce(&Judged) -> T) -> T {
        with(&calls::judge(sheet))
    }
}

impl Campaign for Faulty {
    as_second!(partner_check, reply_block, settle, passed_ways, join);

    fn check(&self, sheet: &[u8]) -> u32 {
        let answer = calls::check(sheet);
        match self.0 {
            Fault::PassesAll if refusal_of(answer) > 3 => pack(6, 0, 0),
            Fault::RejectsAll if kind_of(answer) == 6 => pack(0, 8, 257),
            Fault::RepeatablesLeftOutOfS => other_check(sheet, strands_without_repeatables),
            Fault::RefugeMayHaveLostPivot => other_check(sheet, strands_without_any_holder),
            Fault::DIsNoKind => line_of_d(sheet).map_or(answer, |line| pack(0, 1, line)),
            Fault::DIsFirm => check_without_d(sheet, Kind::Repeatable),
            Fault::DIsExposed => check_without_d(sheet, Kind::Returnable),
            Fault::BlankOnASheetIsZero
            | Fault::BlankLinksAreNone
            | Fault::BlankBookingIsDue
            | Fault::BlankDeskIsTheFirst => calls::check(&with_blanks_filled(self.0, sheet)),
            Fault::OneLineFeedTooManyIsRead if sheet.ends_with(b"\n\n") => {
                calls::check(&sheet[..sheet.len() - 1])
            }
            Fault::StrandingPlaceTurnedRound if refusal_of(answer) == 8 => {
                pack(0, 8, place_of(answer) % 256 * 256 + place_of(answer) / 256)
            }
            _ => answer,
        }
    }

    fn start(&self, sheet: &[u8], state: &mut [u8]) -> u32 {
        let before = state.to_vec();
        let answer = calls::start(sheet, state);
        match self.0 {
            Fault::RefusedCallScribbles if kind_of(answer) == 0 => state.fill(0),
            Fault::StartKeepsBytesPastBookings if kind_of(answer) == 6 => {
                state[60..].copy_from_slice(&before[60..])
            }
            _ => {}
        }
        answer
    }

    fn next_order(&self, sheet: &[u8], state: &mut [u8]) -> u32 {
        let before = state.to_vec();
        let answer = match self.0 {
            Fault::LongerStateIsCut if state.len() > 65 => return calls::next_order(sheet, &mut state[..65]),
            _ => calls::next_order(sheet, state),
        };
        match self.0 {
            Fault::DropsSentence(at) if refusal_of(answer) == 11 => {
                self.next_order_dropping(sheet, state, at)
            }
            Fault::NeverChangesState => {
                state.copy_from_slice(&before);
                answer
            }
            Fault::WaitsAtTheEnd if kind_of(answer) == 5 => pack(3, 0, 0),
            Fault::ReturningDIsUnsound if kind_of(answer) != 0 && has_d(sheet, &before, run::RETURNING) => {
                state.copy_from_slice(&before);
                pack(0, 11, 0)
            }
            Fault::DIsNeverReturned if kind_of(answer) == 2 && has_d(sheet, state, run::RETURNING) => {
                state.copy_from_slice(&before);
                pack(3, 0, 0)
            }
            Fault::ReturnInAnyOrder if kind_of(answer) == 2 => {
                state.copy_from_slice(&before);
                let held = |&b: &usize| state[b] == run::HELD;
                let network = calls::judge(sheet).unwrap();
                let outside = |b: &usize| !network.plan.is_in_way(*b, before[0].into());
                let booking = network.plan.bookings().filter(held).find(outside).unwrap();
                state[booking] = run::RETURNING;
                pack(2, 0, booking as u32)
            }
            _ => answer,
        }
    }

    fn reply(&self, sheet: &[u8], state: &mut [u8], letter: u8, booking: u32) -> u32 {
        let before = state.to_vec();
        let booking = if matches!(self.0, Fault::BookingCutToByte) { booking & 255 } else { booking };
        let answer = calls::reply(sheet, state, letter, booking);
        match self.0 {
            Fault::MisfitBeforeUnsound if refusal_of(answer) == 11 && !b"YNGK".contains(&letter) => {
                return pack(0, 9, if booking <= 64 { booking } else { 0 });
            }
            Fault::PlaceOfBookingsAbove64 if refusal_of(answer) == 9 => return pack(0, 9, booking & 65_535),
            _ => {}
        }
        if kind_of(answer) == 6 {
            let network = calls::judge(sheet).unwrap();
            self.after_reply(&network, &before, state, letter, booking as usize);
        }
        answer
    }

    fn restart(&self, sheet: &[u8], journal: &[u8], state: &mut [u8]) -> u32 {
        let Ok(network) = calls::judge(sheet) else { return calls::check(sheet) };
        let journal = journal_as_taken(self.0, journal);
        let (mut from, length) = (run::start(), state.len());
        if length == 65 {
            match self.0 {
                Fault::RestartGoesOnFromTheState if journal.len() < LINE_LENGTH => {
                    from.copy_from_slice(state)
                }
                Fault::RestartWantsASoundState if sound_but(&network, state, 99).is_none() => {
                    return pack(0, 11, 0)
                }
                Fault::RestartKeepsBytesPastBookings => from[60..].copy_from_slice(&state[60..]),
                _ => {}
            }
        } else if !matches!(self.0, Fault::WrongLineBeforeUnsound) {
            return pack(0, 11, 0);
        }
        match faulty_replay(self.0, &network, from, &journal) {
            Err((line, before)) => {
                if matches!(self.0, Fault::WrongLineChangesState) {
                    state.copy_from_slice(&before);
                }
                pack(0, 12, place_of_line(self.0, line))
            }
            Ok(_) if length != 65 => pack(0, 11, 0),
            Ok(after) => {
                state.copy_from_slice(&after);
                pack(6, 0, 0)
            }
        }
    }

    fn journal_line(&self, letter: u8, booking: u32, line: &mut [u8]) -> u32 {
        let mut right = [0; LINE_LENGTH];
        let answer = calls::journal_line(letter, booking, &mut right);
        let taken = match self.0 {
            Fault::LineTakesBooking65 => booking == 65 && b"QUYNGK".contains(&letter),
            Fault::LineTakesAnyLetter => (1..=64).contains(&booking),
            _ => false,
        };
        match self.0 {
            Fault::ShortLineBeforeMisfit if line.len() < LINE_LENGTH => return pack(0, 10, 0),
            Fault::PlaceOfLinesAbove64 if kind_of(answer) == 0 => return pack(0, 9, booking & 65_535),
            _ if kind_of(answer) == 0 && !taken => return answer,
            _ if line.len() < LINE_LENGTH => return pack(0, 10, 0),
            _ => {}
        }
        line[..LINE_LENGTH].copy_from_slice(&faulty_line(self.0, letter, booking));
        if matches!(self.0, Fault::LineWritesOneByteMore) && line.len() > LINE_LENGTH {
            line[LINE_LENGTH] = 0;
        }
        pack(6, 0, 6)
    }
}

/// Compares until something differs: a fixed part first, then a few hundred
/// rounds at most.
fn is_found_by(fault: Fault, fixed: fn(&mut Comparison) -> Outcome) -> bool {
    let faulty = Faulty(fault);
    let mut comparison = Comparison::new(&faulty, false);
    let mut compared = fixed(&mut comparison);
    for round in 0..300 {
        if compared.is_ok() && round % 16 != 15 {
            compared = comparison.round(1, round);
        }
    }
    compared.is_err()
}

fn is_found(fault: Fault) -> bool {
    is_found_by(fault, |comparison| comparison.fixed_part(1))
}

fn is_found_by_journals(fault: Fault) -> bool {
    is_found_by(fault, |comparison| comparison.journals(1, 0))
}

#[test]
fn the_second_version_does_not_differ_from_itself() {
    assert!(!is_found(Fault::None));
}

#[test]
fn its_journals_do_not_differ_either() {
    assert!(!is_found_by_journals(Fault::None));
}

#[test]
fn wrong_restarts_are_found() {
    use Fault::*;
    let places = [LinesCountedFrom0, PlaceOfLineWraps, PlaceOfLineOverflows];
    let lines = [
        TailIsALine,
        LastLineIsDropped,
        EmptyJournalIsWrong,
        AnyOrderIsDue,
        AnyBookingIsDue,
        AnyLetterOfOrderIsDue,
        MisfitLineIsPassedOver,
        OddLetterIsPassedOver,
        LineFeedIsNotLookedAt,
        LeadingZerosAreRead,
        SmallLettersAreRead,
        BlankInANumberIsPassedOver,
        BlankIsTheLineAbove,
        BlankLineIsPassedOver,
    ];
    let replays = [ReplayEndsWithALostWay, ReplayReturnsInAnyOrder, ReplayHasNoThirdWay];
    let states = [
        WrongLineBeforeUnsound,
        WrongLineChangesState,
        RestartGoesOnFromTheState,
        RestartWantsASoundState,
        RestartKeepsBytesPastBookings,
    ];
    for fault in places.into_iter().chain(lines).chain(replays).chain(states) {
        assert!(is_found_by_journals(fault), "{fault:?}");
    }
}

#[test]
fn wrong_lines_are_found() {
    use Fault::*;
    for fault in [
        LineIsPaddedWithZeros,
        LineIsLeftJustified,
        LineTakesBooking65,
        LineTakesAnyLetter,
        LineWritesOneByteMore,
        ShortLineBeforeMisfit,
        PlaceOfLinesAbove64,
    ] {
        assert!(is_found_by_journals(fault), "{fault:?}");
    }
}

#[test]
fn wrong_checks_are_found() {
    use Fault::*;
    for fault in [
        PassesAll,
        RejectsAll,
        RepeatablesLeftOutOfS,
        RefugeMayHaveLostPivot,
        OneLineFeedTooManyIsRead,
        BlankOnASheetIsZero,
        BlankLinksAreNone,
        BlankBookingIsDue,
        BlankDeskIsTheFirst,
        StrandingPlaceTurnedRound,
        DIsNoKind,
        DIsFirm,
        DIsExposed,
    ] {
        assert!(is_found(fault), "{fault:?}");
    }
}

#[test]
fn each_sentence_of_soundness_is_missed() {
    for at in 0..run::SENTENCES.len() {
        assert!(is_found(Fault::DropsSentence(at)), "{}", run::SENTENCES[at].0);
    }
}

#[test]
fn wrong_runs_are_found() {
    use Fault::*;
    let runs = [
        KeptBecomesFree,
        RepeatableIsLost,
        SwitchWhileRequested,
        ReturnInAnyOrder,
        OnlyNextWay,
        CallsOffWithNothingFirm,
        WaitsAtTheEnd,
        NeverChangesState,
        DIsLost,
        ReturningDIsUnsound,
        DIsNeverReturned,
    ];
    let bytes = [
        LongerStateIsCut,
        MisfitBeforeUnsound,
        BookingCutToByte,
        PlaceOfBookingsAbove64,
        RefusedCallScribbles,
        StartKeepsBytesPastBookings,
    ];
    for fault in runs.into_iter().chain(bytes) {
        assert!(is_found(fault), "{fault:?}");
    }
}
