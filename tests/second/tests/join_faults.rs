//! Wrong versions of joining: the comparison must find each without the second version, by the lines of
//! the two sheets and the version's own check, or by another grouping of three sheets. Only where that
//! check is wrong in the same manner the second version is needed.

use second::as_second;
use second::calls::{self, pack, refusal_of, Judged};
use second::check;
use second::comparison::as_second::Last;
use second::comparison::groupings::OTHER_GROUPING;
use second::comparison::joins::NOT_JOINED;
use second::comparison::{Campaign, Comparison};
use second::join;
use second::partner;
use second::plan::{self, Kind, Plan, Refusal};
use std::cell::RefCell;
use std::hint::black_box;

/// The wrong versions, by what is wrong: each is named once, and demanded by the test of its group.
macro_rules! wrong_versions {
    ($($(#[$say:meta])* $test:ident by $demand:ident { $($fault:ident,)+ })+) => {
        /// The second version itself, but for one fault.
        #[derive(Clone, Copy, Debug, PartialEq)]
        enum Fault {
            Faultless,
            // A fault of a sheet, 4 to 7, is not judged.
            FirstMayHave(u32),
            SecondMayHave(u32),
            // The version's own check does not judge it either.
            BothMayHave(u32),
            $($($fault,)+)+
        }

        $($(#[$say])*
        #[test]
        fn $test() {
            $demand(&[$($fault,)+]);
        })+
    };
}

wrong_versions! {
    /// Which ways there are, and in which order.
    wrong_ways_are_found by demand_not_joined {
        OtherNesting,
        WaysNotRenumbered,
        SecondInFrontInAWay,
        LastWayDropped,
        FirstWayDropped,
        Way16Dropped,
        WaysOfBothInTurn,
        WaysZipped,
        FirstsBestWayOnly,
        SecondsBestWayOnly,
        FirstsWaysTurned,
        SecondsWaysTurned,
        ShortestWaysFirst,
        WaysOfTheFirstAlone,
        WaysOfTheSecondAlone,
        Booking64NotInWays,
        BookingsTo32InWays,
        LastOfEachWayDropped,
        BookingsOfLinksInWays,
    }
    /// Which bookings and links there are, and how they are numbered.
    wrong_bookings_and_links_are_found by demand_not_joined {
        Exchanged,
        BookingsNotRenumbered,
        LinksNotRenumbered,
        LinkSourcesNotRenumbered,
        LinkTargetsNotRenumbered,
        OneTooHigh,
        BehindTheSecondsOwn,
        FirstRenumbered,
        KindsOfTheFirst,
        KindsOfTheSecond,
        KindsAllC,
        DsAreRs,
        DesksOfTheFirst,
        DesksOfTheSecond,
        DesksAll1,
        DesksOfTheSecondGoOn,
        LinksOfTheFirstAlone,
        LinksOfTheSecondAlone,
        SecondsLinksInFront,
        LinksTurned,
        LinksSortedByTarget,
        LinkBetweenThem,
        Link512Dropped,
        Booking64Dropped,
    }
    /// The head, and how lines are written.
    wrong_heads_and_lines_are_found by demand_not_joined {
        LargerLimit,
        FirstsLimit,
        SecondsLimit,
        SumOfLimits,
        Limit64,
        LimitIsTheBookings,
        HeadOfTheFirst,
        HeadHasTheFirstsBookings,
        HeadHasTheSecondsLinks,
        HeadHasTheSumOfWays,
        ZerosForBlanks,
        NoLastLineFeed,
        LineFeedTooMany,
        CarriageReturns,
        CountOfTheFirstsWay,
        TwoDigitsRunOver,
    }
    /// Which refusal comes first, and which sheets are refused.
    wrong_refusals_are_found by demand_not_joined {
        LargeBeforeSecond,
        LargeBeforeFirst,
        LargeBeforeRules,
        SecondBeforeFirst,
        FormsBeforeRules,
        SecondNotJudged,
        FirstNotJudged,
        RulesOnTheJoinedSheet,
        FirstRefusedWith8,
        SecondRefusedWith8,
        LargeBehindFirsts8,
        JoinedRefusedWith8,
        RefusedWithoutPlace,
        SecondsLineBehindTheFirsts,
        SecondsBookingRenumbered,
        SecondToldAs17,
        LineFeedBehindTheFirst,
        LineFeedBehindTheSecond,
        LongSheetsRefused,
        PartnersLimits,
        ItselfRefused,
    }
    /// What is too large.
    wrong_sizes_are_found by demand_not_joined {
        Takes65Bookings,
        Lacks64Bookings,
        Takes513Links,
        Lacks512Links,
        Takes18Ways,
        Lacks16Ways,
        BookingsNotLookedAt,
        LinksNotLookedAt,
        WaysNotLookedAt,
        AllThreeTogether,
        LargerOfBoth,
        WaysCutToAByte,
        LinksCutToAByte,
        Is16,
        Is2,
        Is10,
        At1,
        TellsWhich,
        LargeIsAccepted,
    }
    /// The buffer, the answer's place and bytes around.
    wrong_buffers_are_found by demand_not_joined {
        RoomBeforeLarge,
        RoomBeforeSecond,
        RoomBeforeFirst,
        RoomByTheFirst,
        RoomByTheSecond,
        RoomByBoth,
        RoomForTheLongestWanted,
        OneByteMoreWanted,
        LongBufferRefused,
        ShortIsTold17,
        ShortTellsTheLength,
        ShortIsCut,
        ShortWrites,
        PlaceOneMore,
        PlaceOneLess,
        PlaceIs0,
        PlaceIsTheRoom,
        PlaceIsTheBookings,
        PlaceIsTheLines,
        KindIsWait,
        ByteBehindCleared,
        RestBlanked,
        RestClearedTo10098,
        AtTheBuffersEnd,
        WritesBehindTheBuffer,
        WritesBeforeTheBuffer,
        LargeWrites,
        RefusedFirstWrites,
        RefusedSecondWrites,
        FirstChanged,
        SecondChanged,
        NullBufferIsRefused,
        NullSheetIsTaken,
    }
    /// The version's own check is wrong in the same manner.
    wrong_checks_and_joins_are_found by demand_found_by_second {
        NeitherHasPlaces,
        NeitherTakesDesk8,
    }
    /// Three sheets by two joins: found by the version against itself alone.
    other_groupings_are_found by demand_other_grouping {
        MeanLimit,
        LimitOneLess,
        EverySecondTurned,
        DiagonalPairs,
        SumOfWaysJudged,
        HalvesJudged,
        OnceJoinedIsEnough,
    }
}

use Fault::*;

/// A sheet as a version gets it.
struct Sheet<'a> {
    bytes: &'a [u8],
    judged: &'a Judged,
}

impl Sheet<'_> {
    fn refusal(&self) -> Option<Refusal> {
        self.judged.as_ref().err().copied()
    }

    /// The number in this field of the head; 0 where no number stands.
    fn number(&self, field: usize) -> usize {
        let columns = self.bytes.get(1 + 4 * field..5 + 4 * field);
        columns.and_then(plan::number_in_columns).unwrap_or(0)
    }
}

// What is refused.

/// The line of the first booking at desk 8, of a sheet that can be read.
fn desk_8(sheet: &[u8]) -> Option<u32> {
    let plan = plan::read(sheet).ok()?;
    plan.desks.iter().position(|&desk| desk == 8).map(|at| at as u32 + 2)
}

fn is_too_large(fault: Fault, first: &Sheet, second: &Sheet) -> bool {
    let [n, m] = [0, 1].map(|field| first.number(field) + second.number(field));
    let (a1, a2) = (first.number(2), second.number(2));
    let a = a1 * a2;
    let halves = |sheet: &Sheet| sheet.number(0) > 32 || sheet.number(1) > 256 || sheet.number(2) > 4;
    match fault {
        Takes65Bookings => n > 65 || m > 512 || a > 16,
        Lacks64Bookings => n >= 64 || m > 512 || a > 16,
        Takes513Links => n > 64 || m > 513 || a > 16,
        Lacks512Links => n > 64 || m >= 512 || a > 16,
        // No two numbers up to 16 make 17.
        Takes18Ways => n > 64 || m > 512 || a > 18,
        Lacks16Ways => n > 64 || m > 512 || a >= 16,
        BookingsNotLookedAt => m > 512 || a > 16,
        LinksNotLookedAt => n > 64 || a > 16,
        WaysNotLookedAt => n > 64 || m > 512,
        AllThreeTogether => n > 64 && m > 512 && a > 16,
        LargerOfBoth => n > 64 || m > 512 || a1.max(a2) > 16,
        WaysCutToAByte => n > 64 || m > 512 || a % 256 > 16,
        LinksCutToAByte => n > 64 || m > 512 && m % 256 > 0 || a > 16,
        SumOfWaysJudged => n > 64 || m > 512 || a1 + a2 > 16,
        HalvesJudged => halves(first) || halves(second),
        // A sheet with as many ways as a joined one often has is not joined again.
        OnceJoinedIsEnough => n > 64 || m > 512 || a > 16 || a1 > 3 && a2 > 1,
        PartnersLimits => n > partner::MOST_BOOKINGS || m > 512 || a > partner::MOST_WAYS,
        _ => n > 64 || m > 512 || a > 16,
    }
}

/// What a version says where 17 is due.
fn instead_of_17(fault: Fault, first: &Sheet, second: &Sheet) -> u32 {
    match fault {
        Is16 => pack(0, 16, 0),
        Is2 => pack(0, 2, 1),
        Is10 => pack(0, 10, 0),
        At1 => pack(0, 17, 1),
        TellsWhich if first.number(0) + second.number(0) > 64 => pack(0, 17, 1),
        TellsWhich if first.number(1) + second.number(1) > 512 => pack(0, 17, 2),
        TellsWhich => pack(0, 17, 3),
        LargeIsAccepted => pack(6, 17, 0),
        _ => pack(0, 17, 0),
    }
}

/// The refusal of the first sheet that counts for a version.
fn of_first(fault: Fault, first: &Sheet, second: &Sheet) -> Option<u32> {
    let Refusal { number, place } = first.refusal()?;
    let counts = match fault {
        FirstNotJudged => number < 4,
        RulesOnTheJoinedSheet => number < 4,
        FirstMayHave(may) | BothMayHave(may) => number != may && number < 8,
        FirstRefusedWith8 => true,
        LargeBehindFirsts8 => number < 8 || is_too_large(fault, first, second),
        LineFeedBehindTheFirst => number < 8 && !first.bytes.ends_with(b"\n\n"),
        _ => number < 8,
    };
    let no_place = [RefusedWithoutPlace, NeitherHasPlaces].contains(&fault);
    counts.then_some(pack(0, number, if no_place { 0 } else { place }))
}

fn of_second(fault: Fault, first: &Sheet, second: &Sheet) -> Option<u32> {
    let Refusal { number, place } = second.refusal()?;
    let counts = match fault {
        SecondNotJudged | RulesOnTheJoinedSheet => number < 4,
        SecondMayHave(may) | BothMayHave(may) => number != may && number < 8,
        SecondRefusedWith8 => true,
        LineFeedBehindTheSecond => number < 8 && !second.bytes.ends_with(b"\n\n"),
        _ => number < 8,
    };
    let lines = first.bytes.iter().filter(|&&byte| byte == b'\n').count() as u32;
    let (number, place) = match fault {
        RefusedWithoutPlace | NeitherHasPlaces => (number, 0),
        SecondsLineBehindTheFirsts if number < 4 => (number, place + lines),
        SecondsBookingRenumbered if number == 4 || number == 6 => (number, place + first.number(0) as u32),
        SecondToldAs17 => (17, 0),
        _ => (number, place),
    };
    counts.then_some(pack(0, number, place))
}

/// A refusal for the sheets or their size, by what a version judges first.
fn refusal(fault: Fault, first: &Sheet, second: &Sheet, room: usize) -> Option<u32> {
    let (mut one, mut two) = (of_first(fault, first, second), of_second(fault, first, second));
    if fault == NeitherTakesDesk8 {
        let [at_first, at_second] = [first, second].map(|sheet| desk_8(sheet.bytes));
        one = at_first.map(|line| pack(0, 3, line)).or(one);
        two = at_second.map(|line| pack(0, 3, line)).or(two);
    }
    let large = is_too_large(fault, first, second).then(|| instead_of_17(fault, first, second));
    let form = |answer: Option<u32>| answer.filter(|&answer| refusal_of(answer) < 4);
    let no_room = (room == 0).then_some(pack(0, 10, 0));
    let itself = (fault == ItselfRefused && first.bytes == second.bytes).then_some(pack(0, 17, 0));
    let long = [first, second].iter().any(|sheet| sheet.bytes.len() > 5_000);
    let long = (fault == LongSheetsRefused && long).then_some(pack(0, 1, 1));
    match fault {
        LargeBeforeSecond => one.or(large).or(two),
        LargeBeforeFirst => large.or(one).or(two),
        LargeBeforeRules => form(one).or(form(two)).or(large).or(one).or(two),
        SecondBeforeFirst => two.or(one).or(large),
        FormsBeforeRules => form(one).or(form(two)).or(one).or(two).or(large),
        RoomBeforeLarge => one.or(two).or(no_room).or(large),
        RoomBeforeSecond => one.or(no_room).or(two).or(large),
        RoomBeforeFirst => no_room.or(one).or(two).or(large),
        _ => one.or(two).or(long).or(itself).or(large),
    }
}

// What is joined.

fn renumbered(plan: &Plan, by: usize) -> Plan {
    let mut plan = plan.clone();
    plan.links.iter_mut().for_each(|(u, v)| (*u, *v) = (*u + by, *v + by));
    plan.ways.iter_mut().flatten().for_each(|booking| *booking += by);
    plan
}

/// Which way of the first goes with which of the second, in order.
fn pairs(fault: Fault, a1: usize, a2: usize) -> Vec<(usize, usize)> {
    let mut pairs: Vec<(usize, usize)> = (0..a1).flat_map(|i| (0..a2).map(move |j| (i, j))).collect();
    match fault {
        OtherNesting => pairs.sort_by_key(|&(i, j)| (j, i)),
        LastWayDropped => drop(pairs.pop()),
        FirstWayDropped => drop(pairs.remove(0)),
        Way16Dropped => pairs.truncate(15),
        WaysZipped => pairs.retain(|&(i, j)| i == j),
        FirstsBestWayOnly => pairs.retain(|&(i, _)| i == 0),
        SecondsBestWayOnly => pairs.retain(|&(_, j)| j == 0),
        FirstsWaysTurned => pairs.sort_by_key(|&(i, j)| (a1 - i, j)),
        SecondsWaysTurned => pairs.sort_by_key(|&(i, j)| (i, a2 - j)),
        EverySecondTurned => pairs.sort_by_key(|&(i, j)| (i, if i % 2 == 1 { a2 - j } else { j })),
        DiagonalPairs => pairs.sort_by_key(|&(i, j)| (i + j, i)),
        _ => {}
    }
    pairs
}

/// A way of each, the second's being renumbered.
fn pair(fault: Fault, one: &[usize], two: &[usize]) -> Vec<usize> {
    let mut way = match fault {
        SecondInFrontInAWay => [two, one].concat(),
        WaysOfTheFirstAlone => one.to_vec(),
        WaysOfTheSecondAlone => two.to_vec(),
        LastOfEachWayDropped => [one, &two[..two.len() - 1]].concat(),
        _ => [one, two].concat(),
    };
    way.retain(|&b| match fault {
        Booking64NotInWays => b < 64,
        BookingsTo32InWays => b <= 32,
        _ => true,
    });
    way
}

fn ways(fault: Fault, one: &Plan, two: &Plan) -> Vec<Vec<usize>> {
    if fault == WaysOfBothInTurn {
        return [&one.ways[..], &two.ways].concat();
    }
    let pairs = pairs(fault, one.ways.len(), two.ways.len());
    let mut ways: Vec<Vec<usize>> =
        pairs.into_iter().map(|(i, j)| pair(fault, &one.ways[i], &two.ways[j])).collect();
    match fault {
        ShortestWaysFirst => ways.sort_by_key(Vec::len),
        BookingsOfLinksInWays => {
            let linked = two.links.first().copied();
            for way in &mut ways {
                way.extend(linked.map(|(u, _)| u));
                way.sort();
                way.dedup();
            }
        }
        _ => {}
    }
    ways
}

fn limit(fault: Fault, one: &Plan, two: &Plan) -> usize {
    match fault {
        LargerLimit => one.limit.max(two.limit),
        FirstsLimit => one.limit,
        SecondsLimit => two.limit,
        SumOfLimits => (one.limit + two.limit).min(64),
        Limit64 => 64,
        LimitIsTheBookings => one.count() + two.count(),
        MeanLimit => (one.limit + two.limit) / 2,
        LimitOneLess => (one.limit.min(two.limit) - 1).max(1),
        _ => one.limit.min(two.limit),
    }
}

fn kinds(fault: Fault, one: &Plan, two: &Plan) -> Vec<Kind> {
    let at = |plan: &Plan, at: usize| plan.kinds.get(at).copied().unwrap_or(Kind::Returnable);
    let of_second = |b: usize| match fault {
        KindsOfTheFirst => at(one, b),
        DsAreRs if at(two, b) == Kind::RepeatableReturnable => Kind::Repeatable,
        _ => at(two, b),
    };
    let of_first = |b: usize| if fault == KindsOfTheSecond { at(two, b) } else { at(one, b) };
    let kinds = (0..one.count()).map(of_first).chain((0..two.count()).map(of_second));
    kinds.map(|kind| if fault == KindsAllC { Kind::Returnable } else { kind }).collect()
}

fn desks(fault: Fault, one: &Plan, two: &Plan) -> Vec<usize> {
    let at = |plan: &Plan, at: usize| plan.desks.get(at).copied().unwrap_or(1);
    let highest = one.desks.iter().max().copied().unwrap_or(0);
    let of_second = |b: usize| match fault {
        DesksOfTheFirst => at(one, b),
        DesksOfTheSecondGoOn => (highest + at(two, b) - 1) % 8 + 1,
        _ => at(two, b),
    };
    let of_first = |b: usize| if fault == DesksOfTheSecond { at(two, b) } else { at(one, b) };
    let desks = (0..one.count()).map(of_first).chain((0..two.count()).map(of_second));
    desks.map(|desk| if fault == DesksAll1 { 1 } else { desk }).collect()
}

/// The links of both, the second's being renumbered by this much.
fn links(fault: Fault, one: &Plan, two: &Plan, by: usize) -> Vec<(usize, usize)> {
    let of_second = two.links.iter().map(|&(u, v)| match fault {
        LinksNotRenumbered => (u - by, v - by),
        LinkSourcesNotRenumbered => (u - by, v),
        LinkTargetsNotRenumbered => (u, v - by),
        LinksTurned => (v, u),
        _ => (u, v),
    });
    let of_second: Vec<(usize, usize)> = of_second.collect();
    let mut links = match fault {
        LinksOfTheFirstAlone => one.links.clone(),
        LinksOfTheSecondAlone => of_second,
        SecondsLinksInFront => [&of_second[..], &one.links].concat(),
        _ => [&one.links[..], &of_second].concat(),
    };
    match fault {
        LinksSortedByTarget => links.sort_by_key(|&(u, v)| (v, u)),
        LinkBetweenThem => {
            links.push((one.count(), one.count() + 1));
            links.sort();
        }
        Link512Dropped => links.truncate(511),
        _ => {}
    }
    links
}

fn joined_plan(fault: Fault, one: &Plan, two: &Plan) -> Plan {
    let (one, two) = if fault == Exchanged { (two, one) } else { (one, two) };
    let by = match fault {
        OneTooHigh => one.count() + 1,
        BehindTheSecondsOwn => two.count(),
        FirstRenumbered => 0,
        _ => one.count(),
    };
    let one = if fault == FirstRenumbered { renumbered(one, two.count()) } else { one.clone() };
    let (raised, low) = (renumbered(two, by), renumbered(two, 0));
    let of_second = if fault == WaysNotRenumbered { &low } else { &raised };
    let mut plan = Plan {
        kinds: kinds(fault, &one, two),
        desks: desks(fault, &one, two),
        links: links(fault, &one, &raised, by),
        ways: ways(fault, &one, of_second),
        limit: limit(fault, &one, two),
    };
    if fault == Booking64Dropped {
        plan.kinds.truncate(63);
        plan.desks.truncate(63);
    }
    plan
}

/// The text of a joined plan, with what a version makes of its head and its lines.
fn text(fault: Fault, one: &Plan, two: &Plan) -> String {
    let plan = joined_plan(fault, one, two);
    let text = plan::write(&plan);
    let (head, lines) = text.split_at(18);
    let head_with = |n: usize, m: usize, a: usize| format!("P{n:4}{m:4}{a:4}{:4}\n{lines}", plan.limit);
    let [n, m, a] = [plan.count(), plan.links.len(), plan.ways.len()];
    match fault {
        HeadOfTheFirst => plan::write(one)[..18].to_string() + lines,
        HeadHasTheFirstsBookings => head_with(one.count(), m, a),
        HeadHasTheSecondsLinks => head_with(n, two.links.len(), a),
        HeadHasTheSumOfWays => head_with(n, m, one.ways.len() + two.ways.len()),
        ZerosForBlanks => text.replace("  ", " 0"),
        NoLastLineFeed => text[..text.len() - 1].to_string(),
        LineFeedTooMany => text + "\n",
        CarriageReturns => text.replace('\n', "\r\n"),
        TwoDigitsRunOver => text.replace("  10", "  1:"),
        CountOfTheFirstsWay => {
            let old: Vec<String> = plan.ways.iter().map(|way| format!("A{:4}", way.len())).collect();
            let mut text = text.clone();
            for (at, old) in old.iter().enumerate() {
                let count = one.ways[at / two.ways.len()].len();
                text = text.replacen(old, &format!("a{count:4}"), 1);
            }
            text.replace('a', "A")
        }
        BookingsNotRenumbered => {
            let mut lines: Vec<String> = lines.split_inclusive('\n').map(String::from).collect();
            for b in 1..=two.count() {
                let line = &mut lines[one.count() + b - 1];
                *line = format!("B{b:4}{}", &line[5..]);
            }
            head.to_string() + &lines.concat()
        }
        _ => text,
    }
}

// How it is written.

fn has_room(fault: Fault, first: &Sheet, second: &Sheet, needed: usize, room: usize) -> bool {
    match fault {
        RoomByTheFirst => room >= first.bytes.len(),
        RoomByTheSecond => room >= second.bytes.len(),
        RoomByBoth => room >= first.bytes.len() + second.bytes.len(),
        RoomForTheLongestWanted => room >= plan::LONGEST_SHEET,
        OneByteMoreWanted => room > needed,
        LongBufferRefused => room >= needed && room <= plan::LONGEST_SHEET,
        _ => room >= needed,
    }
}

/// The answer where there is too little room, and what is written all the same.
fn short(fault: Fault, text: &str, has_room: bool, joined: &mut [u8]) -> u32 {
    let fits = joined.len().min(text.len());
    let cut = match fault {
        ShortIsCut => true,
        // By these there was room.
        RoomByTheFirst | RoomByTheSecond => has_room,
        _ => false,
    };
    if cut || fault == ShortWrites {
        joined[..fits].copy_from_slice(&text.as_bytes()[..fits]);
    }
    match fault {
        _ if cut => pack(6, 0, fits as u32),
        ShortIsTold17 => pack(0, 17, 0),
        ShortTellsTheLength => pack(0, 10, text.len() as u32),
        _ => pack(0, 10, 0),
    }
}

fn write(fault: Fault, plan: &Plan, text: &str, joined: &mut [u8]) -> u32 {
    let (room, needed) = (joined.len(), text.len());
    let begin = if fault == AtTheBuffersEnd { room - needed } else { 0 };
    joined[begin..begin + needed].copy_from_slice(text.as_bytes());
    match fault {
        ByteBehindCleared if room > needed => joined[needed] = 0,
        RestBlanked => joined[needed..].fill(b' '),
        RestClearedTo10098 if room >= plan::LONGEST_SHEET => joined[needed..plan::LONGEST_SHEET].fill(0),
        // Around each buffer of the comparison further bytes stand.
        WritesBehindTheBuffer => unsafe { *black_box(joined.as_mut_ptr()).add(room) = 0 },
        WritesBeforeTheBuffer => unsafe { *black_box(joined.as_mut_ptr()).sub(1) = 0 },
        _ => {}
    }
    let place = match fault {
        PlaceOneMore => needed + 1,
        PlaceOneLess => needed - 1,
        PlaceIs0 => 0,
        PlaceIsTheRoom => room,
        PlaceIsTheBookings => plan.count(),
        PlaceIsTheLines => 1 + plan.count() + plan.links.len() + plan.ways.len(),
        _ => needed,
    };
    pack(if fault == KindIsWait { 3 } else { 6 }, 0, place as u32)
}

/// Bytes that nobody may write.
fn scribble(fault: Fault, first: &Sheet, second: &Sheet) {
    let spoil = |bytes: &[u8]| unsafe { *black_box(bytes.as_ptr()).cast_mut().add(bytes.len() - 1) = b' ' };
    match fault {
        FirstChanged => spoil(first.bytes),
        SecondChanged => spoil(second.bytes),
        _ => {}
    }
}

fn scribble_refused(fault: Fault, first: &Sheet, answer: u32, joined: &mut [u8]) {
    let large = refusal_of(answer) == 17;
    let at_first = first.refusal().is_some_and(|refusal| refusal.number < 8);
    let writes = match fault {
        LargeWrites => large,
        RefusedFirstWrites => !large && at_first,
        RefusedSecondWrites => !large && !at_first,
        _ => false,
    };
    if writes && !joined.is_empty() {
        joined[0] = b'P';
    }
}

/// The plan of a sheet that is not refused, or that should have been.
fn plan_of(sheet: &Sheet) -> Plan {
    let bytes = sheet.bytes.strip_suffix(b"\n").filter(|rest| rest.ends_with(b"\n")).unwrap_or(sheet.bytes);
    match sheet.judged {
        Ok(network) => network.plan.clone(),
        Err(_) => plan::read(bytes).expect("a sheet that can be read"),
    }
}

fn faulty_join(fault: Fault, first: &Sheet, second: &Sheet, joined: &mut [u8]) -> u32 {
    if let Some(answer) = refusal(fault, first, second, joined.len()) {
        scribble_refused(fault, first, answer, joined);
        return answer;
    }
    let (one, two) = (plan_of(first), plan_of(second));
    let text = text(fault, &one, &two);
    let judged_at_last = match fault {
        JoinedRefusedWith8 | RulesOnTheJoinedSheet => check::check(joined_plan(fault, &one, &two)).err(),
        _ => None,
    };
    if let Some(refusal) =
        judged_at_last.filter(|refusal| (refusal.number == 8) == (fault == JoinedRefusedWith8))
    {
        return pack(0, refusal.number, refusal.place);
    }
    let has_room = has_room(fault, first, second, text.len(), joined.len());
    if !has_room || joined.len() < text.len() {
        return short(fault, &text, has_room, joined);
    }
    let answer = write(fault, &joined_plan(fault, &one, &two), &text, joined);
    scribble(fault, first, second);
    answer
}

struct Faulty {
    fault: Fault,
    last: Last,
    /// The sheets that were joined last.
    joined: RefCell<Vec<(Vec<u8>, Judged)>>,
}

impl Faulty {
    fn new(fault: Fault) -> Faulty {
        Faulty { fault, last: Last::default(), joined: RefCell::default() }
    }

    fn judged<T>(&self, sheet: &[u8], with: impl FnOnce(&Judged) -> T) -> T {
        self.last.judged(sheet, calls::judge, with)
    }

    fn judged_to_join(&self, sheet: &[u8]) -> Judged {
        let mut joined = self.joined.borrow_mut();
        if let Some((_, judged)) = joined.iter().find(|(of, _)| of == sheet) {
            return judged.clone();
        }
        let judged = calls::judge(sheet);
        joined.insert(0, (sheet.to_vec(), judged.clone()));
        joined.truncate(8);
        judged
    }
}

impl Campaign for Faulty {
    as_second!(partner_check, start, next_order, reply, reply_block, restart);
    as_second!(journal_line, settle, passed_ways);

    fn check(&self, sheet: &[u8]) -> u32 {
        let answer = self.judged(sheet, calls::check_judged);
        match self.fault {
            BothMayHave(may) if refusal_of(answer) == may => pack(6, 0, 0),
            NeitherHasPlaces if (1..=7).contains(&refusal_of(answer)) => pack(0, refusal_of(answer), 0),
            NeitherTakesDesk8 => desk_8(sheet).map_or(answer, |line| pack(0, 3, line)),
            _ => answer,
        }
    }

    fn join(&self, first: Option<&[u8]>, second: Option<&[u8]>, joined: Option<&mut [u8]>) -> u32 {
        match self.fault {
            NullBufferIsRefused if joined.is_none() => return pack(0, 1, 0),
            NullSheetIsTaken if first.is_none() || second.is_none() => return pack(6, 0, 0),
            _ => {}
        }
        let (first, second) = (first.unwrap_or(b""), second.unwrap_or(b""));
        let (one, two) = (self.judged_to_join(first), self.judged_to_join(second));
        let joined = joined.unwrap_or(&mut []);
        if self.fault == Faultless {
            let (one, two) = (join::joinable(&one, first), join::joinable(&two, second));
            return calls::join_judged(&one, &two, joined);
        }
        let (first, second) = (Sheet { bytes: first, judged: &one }, Sheet { bytes: second, judged: &two });
        faulty_join(self.fault, &first, &second, joined)
    }
}

fn demand_found_by(fault: Fault, told: Option<String>, by: &str) {
    let told = told.unwrap_or_else(|| panic!("{fault:?} is not found"));
    assert!(told.contains(by), "{fault:?} is found by something else:\n{told}");
}

/// Found by the lines of the two sheets and the version's own check.
fn demand_not_joined(faults: &[Fault]) {
    for &fault in faults {
        let told = Comparison::new(&Faulty::new(fault), false).joins(1, 500).err();
        demand_found_by(fault, told, NOT_JOINED);
    }
}

/// Found by joining three sheets in both groupings, with no joining looked at alone; and by the two sheets too.
fn demand_other_grouping(faults: &[Fault]) {
    for &fault in faults {
        let told = Comparison::new(&Faulty::new(fault), false).groupings(1, 500).err();
        demand_found_by(fault, told, OTHER_GROUPING);
    }
    demand_not_joined(faults);
}

/// Found by the second version alone.
fn demand_found_by_second(faults: &[Fault]) {
    for &fault in faults {
        let told = Comparison::new(&Faulty::new(fault), false).joins(1, 500).err();
        demand_found_by(fault, told, "the joined sheets differ");
    }
}

#[test]
fn sheets_with_a_fault_that_is_not_judged_are_found() {
    (4..=7).for_each(|refusal| demand_not_joined(&[FirstMayHave(refusal), SecondMayHave(refusal)]));
    (4..=7).for_each(|refusal| demand_found_by_second(&[BothMayHave(refusal)]));
}

#[test]
fn the_second_version_does_not_differ_from_itself_and_enough_is_met() {
    let faultless = Faulty::new(Faultless);
    let mut comparison = Comparison::new(&faultless, false);
    assert!(comparison.enough_joins().is_err());
    assert_eq!(comparison.joins(1, 2_000), Ok(()));
    assert_eq!(comparison.enough_joins(), Ok(()));
    for round in (0..100).filter(|round| round % 16 != 15) {
        assert_eq!(comparison.round(1, round), Ok(()));
    }
}
