//! The check at the partner range, whose gateway takes fewer bookings and fewer
//! ways than ours, and as many links.

use crate::calls::Judged;
use crate::check;
use crate::plan::{Plan, Reader, Refusal};

pub const MOST_BOOKINGS: usize = 16;
pub const MOST_WAYS: usize = 4;
/// The lines of a head within these limits have no more bytes than this.
pub const LONGEST_SHEET: usize = 5_610;

/// The plan on a sheet, or the first refusal among 1, 2, 3 and 16. A head is of
/// its form, then within our limits, then within theirs; only then other lines count.
fn read(bytes: &[u8]) -> Result<Plan, Refusal> {
    let mut reader = Reader::new(bytes);
    let head = reader.head()?;
    reader.demand(head.n <= MOST_BOOKINGS && head.a <= MOST_WAYS, 16)?;
    reader.after_head(head)
}

pub fn judge(sheet: &[u8]) -> Judged {
    check::check(read(sheet)?)
}

#[cfg(test)]
mod tests {
    use super::*;
    use crate::calls::{check, partner_check};

    const ACCEPTED: u32 = 0x0600_0000;

    /// Our answer and theirs, each as kind, refusal and place in sixteens.
    fn answers(text: &str) -> (u32, u32) {
        (check(text.as_bytes()), partner_check(text.as_bytes()))
    }

    /// So many bookings C.
    fn bookings(n: usize) -> String {
        (1..=n).map(|b| format!("B{b:4} C   1\n")).collect()
    }

    /// A way of each of the first bookings alone, so many in all, the last of them with all others too.
    fn ways(n: usize, a: usize) -> String {
        let alone: String = (1..a).map(|b| format!("A   1{b:4}\n")).collect();
        let all: String = (1..=n).map(|b| format!("{b:4}")).collect();
        format!("{alone}A{n:4}{all}\n")
    }

    /// A sheet that passes by our limits.
    fn sheet(n: usize, a: usize) -> String {
        format!("P{n:4}   0{a:4}  64\n{}{}", bookings(n), ways(n, a))
    }

    #[test]
    fn at_their_limits_and_below() {
        for (n, a) in [(1, 1), (15, 3), (15, 4), (16, 1), (16, 3), (16, 4), (4, 4)] {
            assert_eq!(answers(&sheet(n, a)), (ACCEPTED, ACCEPTED), "{n} bookings, {a} ways");
        }
    }

    #[test]
    fn above_theirs_and_within_ours() {
        for (n, a) in [(17, 1), (17, 4), (16, 5), (17, 5), (5, 5), (64, 1), (16, 16), (64, 16)] {
            assert_eq!(answers(&sheet(n, a)), (ACCEPTED, 0x0010_0001), "{n} bookings, {a} ways");
        }
    }

    #[test]
    fn above_ours_is_2() {
        for (n, a) in [(65, 1), (65, 5), (16, 17), (17, 17), (65, 17), (9999, 9999), (0, 5), (17, 0)] {
            let head = format!("P{n:4}   0{a:4}  64\n");
            assert_eq!(answers(&head), (0x0002_0001, 0x0002_0001), "{n} bookings, {a} ways");
        }
    }

    #[test]
    fn another_number_of_the_head_is_2_before_16() {
        for numbers in ["  17 513   4  64", "  17   0   4  65", "  16   0   5   0", "  64 513  16  65"] {
            assert_eq!(answers(&format!("P{numbers}\n")), (0x0002_0001, 0x0002_0001), "{numbers}");
        }
    }

    #[test]
    fn links_and_matters_have_our_limits() {
        // The head is right, and the sheet ends before its second line.
        for head in ["P  16 512   4  64\n", "P  16  17   4   1\n", "P   1 512   1  17\n"] {
            assert_eq!(answers(head), (0x0001_0002, 0x0001_0002), "{head}");
        }
    }

    #[test]
    fn a_head_that_is_not_of_its_form_is_1_however_large() {
        for head in [
            "P  17   0   1  64",
            "P  17   0   1  64 ",
            "p  17   0   1  64\n",
            "P 017   0   1  64\n",
            "P  17       1  64\n",
            "P  17   0   5 064\n",
            "P  65   0  17",
            "P9999   0   5  64\r\n",
        ] {
            assert_eq!(answers(head), (0x0001_0001, 0x0001_0001), "{head:?}");
        }
    }

    #[test]
    fn a_large_head_is_16_whatever_follows() {
        for head in ["P  17   0   4  64\n", "P  16   0   5  64\n"] {
            for rest in ["", "\n", "B   2 C   1\n", "B   1 X   1\n", "garbage"] {
                assert_eq!(answers(&format!("{head}{rest}")).1, 0x0010_0001, "{head}{rest}");
            }
        }
        assert_eq!(answers("P  17   0   4  64\nB   1 C   9\n"), (0x0003_0002, 0x0010_0001));
        assert_eq!(answers(&(sheet(17, 4) + "\n")), (0x0001_0017, 0x0010_0001));
    }

    #[test]
    fn what_our_check_finds_comes_behind_16() {
        // All but the first booking are in no way; the one way stands there twice.
        let unused = format!("P  17   0   1  64\n{}A   1   1\n", bookings(17));
        assert_eq!(answers(&unused), (0x0006_0002, 0x0010_0001));
        let twice = format!("P  16   0   5  64\n{}{}", bookings(16), ways(16, 1).repeat(5));
        assert_eq!(answers(&twice), (0x0007_0002, 0x0010_0001));
    }

    #[test]
    fn within_their_limits_every_line_is_judged_as_ours() {
        let bookings = bookings(16);
        let (all, head) = (ways(16, 1), "P  16   0   4  64\n");
        for (lines, answer) in [
            (String::new(), 0x0001_0002),
            (format!("{bookings}A  17   1\n"), 0x0002_0012),
            (format!("{bookings}A   1  17\n"), 0x0003_0012),
            (format!("{bookings}{all}A   1  16\nA   1   1\n"), 0x0001_0015),
            (format!("{bookings}{}", all.repeat(4)), 0x0007_0002),
            (format!("{bookings}A   1   1\nA   1   2\nA   1   3\nA   1   4\n"), 0x0006_0005),
            (format!("{bookings}{}A   1   1\n", ways(16, 4)), 0x0001_0016),
        ] {
            let text = format!("{head}{lines}");
            assert_eq!(answers(&text), (answer, answer), "{text}");
        }
    }

    #[test]
    fn the_rules_of_ways_at_their_limits() {
        // Two pivots beside each other, 15 and 16, in way 2: losing one strands the other, unless a later
        // way has that one alone.
        let pivots = bookings(16).replace("B  15 C", "B  15 P").replace("B  16 C", "B  16 P");
        let first: String = (1..=14).map(|b| format!("{b:4}")).collect();
        let both = "A   2  15  16\n";
        let (stranded, saved) = ("A   1   1\nA   1   2\n", "A   1  16\nA   1  15\n");
        let sheet = |ways: &str| format!("P  16   0   4   1\n{pivots}{ways}");
        let text = sheet(&format!("A  14{first}\n{both}{stranded}"));
        assert_eq!(answers(&text), (0x0008_020F, 0x0008_020F));
        let text = sheet(&format!("A  14{first}\n{both}{saved}"));
        assert_eq!(answers(&text), (ACCEPTED, ACCEPTED));
        // Links 1 to 2 and 2 to 16, and way 2 without the 2.
        let links = format!("P  16   2   2   1\n{}L   1   2\nL   2  16\n", bookings(16));
        let text = format!("{links}{}A   2   1  16\n", ways(16, 1));
        assert_eq!(answers(&text), (0x0005_0002, 0x0005_0002));
        let circle = format!("P  16   2   1   1\n{}L   3  16\nL  16   3\n{}", bookings(16), ways(16, 1));
        assert_eq!(answers(&circle), (0x0004_0003, 0x0004_0003));
    }

    #[test]
    fn the_longest_lines_of_their_heads() {
        let way: String = (1..=16).map(|b| format!("{b:4}")).collect();
        let (links, ways) = ("L   1   2\n".repeat(512), format!("A  16{way}\n").repeat(4));
        let text = format!("P  16 512   4  64\n{}{links}{ways}", bookings(16));
        assert_eq!(text.len(), LONGEST_SHEET);
        // The second link does not rise.
        assert_eq!(answers(&text), (0x0003_0013, 0x0003_0013));
    }
}
