//! The sheets that are measured.

use std::fmt::Write;

pub struct Sheet {
    pub name: String,
    pub bytes: Vec<u8>,
}

/// A sheet with journals of any length: bookings whose desks refuse each time, a repeatable
/// among them.
pub struct Endless {
    pub sheet: Sheet,
    pub refused: Vec<usize>,
}

/// All bookings at one desk, which is never full.
pub fn write_sheet(kinds: &str, links: &[(usize, usize)], ways: &[Vec<usize>]) -> Vec<u8> {
    write_with_desks(kinds, links, ways, 1, 64)
}

/// The bookings go to the desks in turn.
pub fn write_with_desks(
    kinds: &str,
    links: &[(usize, usize)],
    ways: &[Vec<usize>],
    desks: usize,
    limit: usize,
) -> Vec<u8> {
    let mut text = format!("P{:4}{:4}{:4}{limit:4}\n", kinds.len(), links.len(), ways.len());
    for (i, kind) in kinds.chars().enumerate() {
        writeln!(text, "B{:4} {kind}{:4}", i + 1, i % desks + 1).unwrap();
    }
    for (u, v) in links {
        writeln!(text, "L{u:4}{v:4}").unwrap();
    }
    for way in ways {
        write!(text, "A{:4}", way.len()).unwrap();
        for booking in way {
            write!(text, "{booking:4}").unwrap();
        }
        text.push('\n');
    }
    text.into_bytes()
}

/// The m shortest links forward among n bookings: first each to the next, and so on.
fn forward_links(n: usize, m: usize) -> Vec<(usize, usize)> {
    let mut links: Vec<_> = (1..n).flat_map(|gap| (1..=n - gap).map(move |u| (u, u + gap))).take(m).collect();
    links.sort();
    links
}

/// Bookings in a row; each way ends one booking before the way above it. Where the row is
/// linked throughout, what the last way has is repeatable, and behind it all kinds follow:
/// then the sets that may be stuck are as large as they can be, and the sheet passes.
fn row(n: usize, m: usize, a: usize) -> Vec<u8> {
    let shortest = n + 1 - a;
    let linked = m + 1 >= n;
    let kind = |b: usize| match (linked, b <= shortest) {
        (false, _) => 'C',
        (true, true) => 'R',
        (true, false) => ['P', 'C', 'R'][b % 3],
    };
    let kinds: String = (1..=n).map(kind).collect();
    let ways: Vec<Vec<usize>> = (0..a).map(|i| (1..=n - i).collect()).collect();
    write_sheet(&kinds, &forward_links(n, m), &ways)
}

pub fn grown(n: usize, m: usize, a: usize) -> Sheet {
    let sheet = row(n, m, a);
    Sheet { name: format!("{n}, {m}, {a}"), bytes: sheet }
}

pub fn example(folder: &str, name: &str, title: &str) -> Sheet {
    let path = format!("{folder}/{name}/plan.txt");
    let bytes = std::fs::read(&path).unwrap_or_else(|fault| panic!("{path}: {fault}"));
    Sheet { name: title.to_string(), bytes }
}

/// 64 bookings without links in two ways, half of which may be lost, eight at each of eight desks
/// that take on two matters each.
fn desks() -> Sheet {
    let kinds = "C".repeat(32) + &"D".repeat(32);
    let bytes = write_with_desks(&kinds, &[], &[(1..=64).collect(), (33..=64).collect()], 8, 2);
    Sheet { name: "8 desks, limit 2 (64, 0, 2)".to_string(), bytes }
}

/// Smallest, Tanker, full size; a full-size row, which is hard on the check; and desks that are
/// often full.
pub fn main_sheets(examples: &str) -> Vec<Sheet> {
    vec![
        Sheet { name: "smallest (1, 0, 1)".to_string(), bytes: write_sheet("C", &[], &[vec![1]]) },
        example(examples, "tanker", "Tanker (4, 3, 2)"),
        example(examples, "full-size", "full size (64, 512, 16)"),
        Sheet { name: "full-size row (64, 512, 16)".to_string(), bytes: row(64, 512, 16) },
        desks(),
    ]
}

/// The smallest, of kind R; the Tanker without its chase aircraft; full size with all that can be
/// held but for a repeatable, and what stands on it; and two desks with three bookings each that
/// are never confirmed, so that one of the desks is full at every order.
pub fn endless(examples: &str) -> Vec<Endless> {
    let smallest =
        Sheet { name: "smallest, R (1, 0, 1)".to_string(), bytes: write_sheet("R", &[], &[vec![1]]) };
    vec![
        Endless { sheet: smallest, refused: vec![1] },
        Endless { sheet: example(examples, "tanker", "Tanker (4, 3, 2)"), refused: vec![3, 4] },
        Endless { sheet: example(examples, "full-size", "full size (64, 512, 16)"), refused: vec![62] },
        Endless { sheet: desks(), refused: vec![47, 48, 55, 56, 63, 64] },
    ]
}

/// As many bookings, links and ways as there can be, and 54 bookings that nothing comes before:
/// the links go from them to the other ten. All ways have them, and all or most of the ten.
fn wide() -> Vec<u8> {
    let links: Vec<_> = (1..=54).flat_map(|u| (55..=64).map(move |v| (u, v))).take(512).collect();
    let without = |left_out: &[usize]| (1..=64).filter(|b| !left_out.contains(b)).collect();
    let mut ways: Vec<Vec<usize>> = vec![without(&[])];
    ways.extend((55..=64).map(|b| without(&[b])));
    ways.extend((55..=59).map(|b| without(&[b, b + 5])));
    write_sheet(&"C".repeat(64), &links, &ways)
}

/// Small ones; 64 bookings without links, which may all be requested at once, in one way and in
/// 16, or two at each desk; and full size, with few and with many requests at once.
pub fn for_blocks(examples: &str) -> Vec<Sheet> {
    vec![
        example(examples, "tanker", "Tanker (4, 3, 2)"),
        example(examples, "chase", "chase (4, 1, 2)"),
        Sheet { name: "unlinked (64, 0, 1)".to_string(), bytes: row(64, 0, 1) },
        Sheet { name: "unlinked (64, 0, 16)".to_string(), bytes: row(64, 0, 16) },
        desks(),
        example(examples, "full-size", "full size (64, 512, 16)"),
        Sheet { name: "full size, wide (64, 512, 16)".to_string(), bytes: wide() },
    ]
}

/// As many bookings, links and ways as there can be: 51 come before ten repeatables, and three more may
/// be lost. The first way has them all, the last the 51 and the ten, and each between them lacks one of
/// the ten, or two. So if one of the three is lost late, the ways between are passed over for what they lack.
fn ten_firm() -> Vec<u8> {
    let mut links: Vec<_> = (1..=51).flat_map(|u| (55..=64).map(move |v| (u, v))).collect();
    links.extend([(1, 2), (1, 3)]);
    links.sort();
    let lacks = |way: usize, b: usize| match way {
        0 => false,
        1..=10 => b == 54 + way || (52..=54).contains(&b),
        11..=14 => b == 44 + way || b == 49 + way || (52..=54).contains(&b),
        _ => (52..=54).contains(&b),
    };
    let ways: Vec<Vec<usize>> = (0..16).map(|way| (1..=64).filter(|&b| !lacks(way, b)).collect()).collect();
    write_sheet(&("C".repeat(54) + &"R".repeat(10)), &links, &ways)
}

/// The smallest, the Tanker and full size; and full size with a booking after whose refusal most ways
/// lack something.
pub fn for_listings(examples: &str) -> Vec<(Sheet, Option<usize>)> {
    let firm = Sheet { name: "full size, ten firm (64, 512, 16)".to_string(), bytes: ten_firm() };
    let others = main_sheets(examples).into_iter().take(4).map(|sheet| (sheet, None));
    others.chain([(firm, Some(52))]).collect()
}

/// Small sheets: one with the kind that few of the main ones have, D, and one with two desks
/// that take on a single matter.
pub fn compared_only(examples: &str) -> Vec<Sheet> {
    let bytes = write_with_desks("CDCDCD", &[(1, 4)], &[(1..=6).collect(), vec![2, 6]], 2, 1);
    vec![
        example(examples, "chase", "chase (4, 1, 2)"),
        Sheet { name: "2 desks, limit 1 (6, 1, 2)".to_string(), bytes },
    ]
}

/// Within the partner's limits, up to a row at them with a link from each booking to each later one; and
/// full size, which is over them.
pub fn for_partners(examples: &str) -> Vec<Sheet> {
    let mut sheets = main_sheets(examples);
    sheets.truncate(3);
    let named = [("row (16, 120, 4)", row(16, 120, 4)), ("unlinked (16, 0, 4)", row(16, 0, 4))];
    let theirs = named.map(|(name, bytes)| Sheet { name: name.to_string(), bytes });
    sheets.splice(2..2, theirs);
    sheets
}

/// The longest text: every way has every booking, so it reads but is refused with 7.
pub fn longest_text() -> Sheet {
    let ways: Vec<Vec<usize>> = vec![(1..=64).collect(); 16];
    let bytes = write_sheet(&"C".repeat(64), &forward_links(64, 512), &ways);
    Sheet { name: "longest text (refused with 7)".to_string(), bytes }
}
