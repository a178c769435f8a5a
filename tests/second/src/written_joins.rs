//! Sheets with what they are joined to, all written by hand.

/// Two sheets, the joined sheet, and what check says of that: refusal and place,
/// or (0, 0) if it passes.
pub struct Written {
    pub name: &'static str,
    pub first: &'static str,
    pub second: &'static str,
    pub joined: &'static str,
    pub verdict: (u32, u32),
}

/// 1 range slot, 2 radar van after it; or 3 simulator hours.
pub const RADAR: &str = "\
P   3   1   2  64
B   1 C   1
B   2 D   1
B   3 D   1
L   1   2
A   2   1   2
A   1   3
";

/// The same with another range slot for the simulator: either way may be lost to a refusal.
pub const RADAR_AT_RISK: &str = "\
P   3   1   2  64
B   1 C   1
B   2 D   1
B   3 C   1
L   1   2
A   2   1   2
A   1   3
";

/// The fuel trial, whose sheet is the Tanker's.
pub const TANKER: &str = "\
P   4   3   2  64
B   1 C   1
B   2 P   1
B   3 C   1
B   4 R   1
L   1   2
L   2   3
L   2   4
A   3   1   2   3
A   3   1   2   4
";

/// Kinds, desks and limits are all different in these two. The links of the second fall.
pub const THREE_WAYS: &str = "\
P   3   1   3   9
B   1 D   2
B   2 C   5
B   3 R   7
L   1   2
A   2   1   2
A   1   3
A   2   1   3
";
pub const FALLING_LINKS: &str = "\
P   4   2   2   5
B   1 P   8
B   2 C   1
B   3 D   4
B   4 R   3
L   2   1
L   4   3
A   2   1   2
A   2   3   4
";

/// One booking each.
pub const SMALLEST: &str = "\
P   1   0   1   2
B   1 C   1
A   1   1
";
pub const SMALLEST_FIRM: &str = "\
P   1   0   1  64
B   1 R   8
A   1   1
";

/// Nine bookings, so that others get two digits behind them.
pub const NINE: &str = "\
P   9   0   2   1
B   1 C   1
B   2 C   2
B   3 C   3
B   4 C   4
B   5 C   5
B   6 C   6
B   7 C   7
B   8 C   8
B   9 C   1
A   9   1   2   3   4   5   6   7   8   9
A   1   9
";

/// Two pivots beside each other: refused with 8, and joined all the same.
pub const TWO_PIVOTS: &str = "\
P   2   0   1   3
B   1 P   6
B   2 P   4
A   2   1   2
";

/// Sixteen ways, each with another two of eight.
pub const SIXTEEN_WAYS: &str = "\
P   8   0  16   7
B   1 D   1
B   2 D   1
B   3 D   1
B   4 D   1
B   5 D   2
B   6 D   2
B   7 D   2
B   8 D   2
A   2   1   5
A   2   1   6
A   2   1   7
A   2   1   8
A   2   2   5
A   2   2   6
A   2   2   7
A   2   2   8
A   2   3   5
A   2   3   6
A   2   3   7
A   2   3   8
A   2   4   5
A   2   4   6
A   2   4   7
A   2   4   8
";

/// Four ways of a booking each.
pub const FOUR_WAYS: &str = "\
P   4   0   4  64
B   1 D   1
B   2 D   1
B   3 D   1
B   4 D   1
A   1   1
A   1   2
A   1   3
A   1   4
";
pub const FOUR_MORE: &str = "\
P   4   0   4   7
B   1 D   2
B   2 D   2
B   3 D   2
B   4 D   2
A   1   1
A   1   2
A   1   3
A   1   4
";

fn with_the_tanker() -> Vec<Written> {
    let radar = "\
P   7   4   4  64
B   1 C   1
B   2 D   1
B   3 D   1
B   4 C   1
B   5 P   1
B   6 C   1
B   7 R   1
L   1   2
L   4   5
L   5   6
L   5   7
A   5   1   2   4   5   6
A   5   1   2   4   5   7
A   4   3   4   5   6
A   4   3   4   5   7
";
    let at_risk = "\
P   7   4   4  64
B   1 C   1
B   2 D   1
B   3 C   1
B   4 C   1
B   5 P   1
B   6 C   1
B   7 R   1
L   1   2
L   4   5
L   5   6
L   5   7
A   5   1   2   4   5   6
A   5   1   2   4   5   7
A   4   3   4   5   6
A   4   3   4   5   7
";
    // The tanker is the first plan here, so its first way comes with each of the radar's before its second.
    let other_way_round = "\
P   7   4   4  64
B   1 C   1
B   2 P   1
B   3 C   1
B   4 R   1
B   5 C   1
B   6 D   1
B   7 D   1
L   1   2
L   2   3
L   2   4
L   5   6
A   5   1   2   3   5   6
A   4   1   2   3   7
A   5   1   2   4   5   6
A   4   1   2   4   7
";
    let itself = "\
P   8   6   4  64
B   1 C   1
B   2 P   1
B   3 C   1
B   4 R   1
B   5 C   1
B   6 P   1
B   7 C   1
B   8 R   1
L   1   2
L   2   3
L   2   4
L   5   6
L   6   7
L   6   8
A   6   1   2   3   5   6   7
A   6   1   2   3   5   6   8
A   6   1   2   4   5   6   7
A   6   1   2   4   5   6   8
";
    vec![
        Written { name: "radar and fuel", first: RADAR, second: TANKER, joined: radar, verdict: (0, 0) },
        // Once the tanker is held, the slot 1 may be lost, and then the slot 3.
        Written {
            name: "radar at risk and fuel",
            first: RADAR_AT_RISK,
            second: TANKER,
            joined: at_risk,
            verdict: (8, 257),
        },
        Written {
            name: "fuel and radar",
            first: TANKER,
            second: RADAR,
            joined: other_way_round,
            verdict: (0, 0),
        },
        // Every way has slot 1 and the other tanker, 6, which 1 does not precede.
        Written { name: "fuel twice", first: TANKER, second: TANKER, joined: itself, verdict: (8, 257) },
    ]
}

/// A mistake of one field for another, or of one sheet for the other, shows here.
fn with_all_different() -> Vec<Written> {
    let three_first = "\
P   7   3   6   5
B   1 D   2
B   2 C   5
B   3 R   7
B   4 P   8
B   5 C   1
B   6 D   4
B   7 R   3
L   1   2
L   5   4
L   7   6
A   4   1   2   4   5
A   4   1   2   6   7
A   3   3   4   5
A   3   3   6   7
A   4   1   3   4   5
A   4   1   3   6   7
";
    let falling_first = "\
P   7   3   6   5
B   1 P   8
B   2 C   1
B   3 D   4
B   4 R   3
B   5 D   2
B   6 C   5
B   7 R   7
L   2   1
L   4   3
L   5   6
A   4   1   2   5   6
A   3   1   2   7
A   4   1   2   5   7
A   4   3   4   5   6
A   3   3   4   7
A   4   3   4   5   7
";
    vec![
        Written {
            name: "all different",
            first: THREE_WAYS,
            second: FALLING_LINKS,
            joined: three_first,
            verdict: (0, 0),
        },
        Written {
            name: "all different, the other way round",
            first: FALLING_LINKS,
            second: THREE_WAYS,
            joined: falling_first,
            verdict: (0, 0),
        },
    ]
}

fn small_ones() -> Vec<Written> {
    let alike = "\
P   2   0   1   2
B   1 C   1
B   2 C   1
A   2   1   2
";
    let firm_behind = "\
P   2   0   1   2
B   1 C   1
B   2 R   8
A   2   1   2
";
    let firm_before = "\
P   2   0   1   2
B   1 R   8
B   2 C   1
A   2   1   2
";
    vec![
        Written { name: "smallest twice", first: SMALLEST, second: SMALLEST, joined: alike, verdict: (0, 0) },
        // 1 may be lost with 2 held, and there is no later way.
        Written {
            name: "smallest and a firm one",
            first: SMALLEST,
            second: SMALLEST_FIRM,
            joined: firm_behind,
            verdict: (8, 257),
        },
        Written {
            name: "a firm one and smallest",
            first: SMALLEST_FIRM,
            second: SMALLEST,
            joined: firm_before,
            verdict: (8, 258),
        },
    ]
}

/// A sheet that is refused with 8, and numbers of two digits.
fn two_pivots() -> Vec<Written> {
    let behind_nine = "\
P  11   0   2   1
B   1 C   1
B   2 C   2
B   3 C   3
B   4 C   4
B   5 C   5
B   6 C   6
B   7 C   7
B   8 C   8
B   9 C   1
B  10 P   6
B  11 P   4
A  11   1   2   3   4   5   6   7   8   9  10  11
A   3   9  10  11
";
    let before_nine = "\
P  11   0   2   1
B   1 P   6
B   2 P   4
B   3 C   1
B   4 C   2
B   5 C   3
B   6 C   4
B   7 C   5
B   8 C   6
B   9 C   7
B  10 C   8
B  11 C   1
A  11   1   2   3   4   5   6   7   8   9  10  11
A   3   1   2  11
";
    vec![
        // With 1 lost and the pivots held, way 2 still has 9, which may be lost too.
        Written {
            name: "nine and two pivots",
            first: NINE,
            second: TWO_PIVOTS,
            joined: behind_nine,
            verdict: (8, 257),
        },
        Written {
            name: "two pivots and nine",
            first: TWO_PIVOTS,
            second: NINE,
            joined: before_nine,
            verdict: (8, 257),
        },
    ]
}

/// As many ways as there can be: 4 times 4, 16 times 1 and 1 times 16.
fn sixteen_ways() -> Vec<Written> {
    let with_one_more = "\
P   9   0  16   2
B   1 D   1
B   2 D   1
B   3 D   1
B   4 D   1
B   5 D   2
B   6 D   2
B   7 D   2
B   8 D   2
B   9 C   1
A   3   1   5   9
A   3   1   6   9
A   3   1   7   9
A   3   1   8   9
A   3   2   5   9
A   3   2   6   9
A   3   2   7   9
A   3   2   8   9
A   3   3   5   9
A   3   3   6   9
A   3   3   7   9
A   3   3   8   9
A   3   4   5   9
A   3   4   6   9
A   3   4   7   9
A   3   4   8   9
";
    let behind_one = "\
P   9   0  16   2
B   1 C   1
B   2 D   1
B   3 D   1
B   4 D   1
B   5 D   1
B   6 D   2
B   7 D   2
B   8 D   2
B   9 D   2
A   3   1   2   6
A   3   1   2   7
A   3   1   2   8
A   3   1   2   9
A   3   1   3   6
A   3   1   3   7
A   3   1   3   8
A   3   1   3   9
A   3   1   4   6
A   3   1   4   7
A   3   1   4   8
A   3   1   4   9
A   3   1   5   6
A   3   1   5   7
A   3   1   5   8
A   3   1   5   9
";
    vec![
        Written {
            name: "four ways and four",
            first: FOUR_WAYS,
            second: FOUR_MORE,
            joined: SIXTEEN_WAYS,
            verdict: (0, 0),
        },
        Written {
            name: "sixteen ways and one",
            first: SIXTEEN_WAYS,
            second: SMALLEST,
            joined: with_one_more,
            verdict: (0, 0),
        },
        Written {
            name: "one way and sixteen",
            first: SMALLEST,
            second: SIXTEEN_WAYS,
            joined: behind_one,
            verdict: (0, 0),
        },
    ]
}

pub fn written() -> Vec<Written> {
    [with_the_tanker(), with_all_different(), small_ones(), two_pivots(), sixteen_ways()]
        .into_iter()
        .flatten()
        .collect()
}

/// Three sheets, and the sheet that either grouping of them gives.
pub const THREES: [([&str; 3], &str); 3] = [
    (
        [SMALLEST, RADAR, TANKER],
        "\
P   8   4   4   2
B   1 C   1
B   2 C   1
B   3 D   1
B   4 D   1
B   5 C   1
B   6 P   1
B   7 C   1
B   8 R   1
L   2   3
L   5   6
L   6   7
L   6   8
A   6   1   2   3   5   6   7
A   6   1   2   3   5   6   8
A   5   1   4   5   6   7
A   5   1   4   5   6   8
",
    ),
    (
        [RADAR, THREE_WAYS, FALLING_LINKS],
        "\
P  10   4  12   5
B   1 C   1
B   2 D   1
B   3 D   1
B   4 D   2
B   5 C   5
B   6 R   7
B   7 P   8
B   8 C   1
B   9 D   4
B  10 R   3
L   1   2
L   4   5
L   8   7
L  10   9
A   6   1   2   4   5   7   8
A   6   1   2   4   5   9  10
A   5   1   2   6   7   8
A   5   1   2   6   9  10
A   6   1   2   4   6   7   8
A   6   1   2   4   6   9  10
A   5   3   4   5   7   8
A   5   3   4   5   9  10
A   4   3   6   7   8
A   4   3   6   9  10
A   5   3   4   6   7   8
A   5   3   4   6   9  10
",
    ),
    (
        [SMALLEST_FIRM, SMALLEST, TWO_PIVOTS],
        "\
P   4   0   1   2
B   1 R   8
B   2 C   1
B   3 P   6
B   4 P   4
A   4   1   2   3   4
",
    ),
];

#[cfg(test)]
mod tests {
    use super::*;
    use crate::calls::{check, join, pack, ACCEPTED, REFUSED};

    /// Answer and buffer, which had room for so many bytes.
    fn joined(first: &str, second: &str, room: usize) -> (u32, Vec<u8>) {
        let mut buffer = vec![b'?'; room];
        (join(first.as_bytes(), second.as_bytes(), &mut buffer), buffer)
    }

    #[test]
    fn joined_sheets_are_those_written_down() {
        for Written { name, first, second, joined: text, verdict } in written() {
            let accepted = pack(ACCEPTED, 0, text.len() as u32);
            assert_eq!(joined(first, second, text.len()), (accepted, text.as_bytes().to_vec()), "{name}");
            let (answer, buffer) = joined(first, second, text.len() + 3);
            assert_eq!((answer, buffer), (accepted, format!("{text}???").into_bytes()), "{name}");
            for short in [0, 1, 18, first.len(), text.len() - 1] {
                assert_eq!(joined(first, second, short), (pack(REFUSED, 10, 0), vec![b'?'; short]), "{name}");
            }
            let kind = if verdict == (0, 0) { ACCEPTED } else { REFUSED };
            assert_eq!(check(text.as_bytes()), pack(kind, verdict.0, verdict.1), "{name}");
        }
    }

    #[test]
    fn three_sheets_in_both_groupings() {
        for ([one, two, three], text) in THREES {
            let put = |first: &[u8], second: &[u8]| {
                let mut buffer = vec![b'?'; 2_000];
                let answer = join(first, second, &mut buffer);
                assert_eq!(answer / 65_536, 0x0600);
                buffer.truncate(answer as usize % 65_536);
                buffer
            };
            let [one, two, three] = [one, two, three].map(str::as_bytes);
            assert_eq!(put(&put(one, two), three), text.as_bytes());
            assert_eq!(put(one, &put(two, three)), text.as_bytes());
        }
    }
}
