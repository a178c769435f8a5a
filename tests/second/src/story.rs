//! The story of the current way as a program prints it: the listing of the ways
//! passed over, or the refusal as the drill prints one.

use crate::calls;
use crate::drill::refused_line;
use crate::passed;
use crate::plan::Refusal;

fn told(sheet: &[u8], journal: &[u8]) -> Result<String, Refusal> {
    let network = calls::judge(sheet)?;
    let state = calls::replay_not_too_long(&network, journal)?;
    Ok(passed::listing(&network, &state))
}

pub fn story(sheet: &[u8], journal: &[u8]) -> String {
    told(sheet, journal).unwrap_or_else(|refusal| refused_line(calls::refused(refusal)))
}

#[cfg(test)]
mod tests {
    use super::*;
    use crate::flights::{lines, plan_of, tanker};
    use crate::plan;

    fn told_of(plan: &plan::Plan, journal: &[u8]) -> String {
        story(plan::write(plan).as_bytes(), journal)
    }

    #[test]
    fn the_story_of_the_tanker() {
        assert_eq!(told_of(&tanker(), b""), "");
        assert_eq!(told_of(&tanker(), &lines("Q1 Y1 Q2 Y2 Q3")), "");
        assert_eq!(told_of(&tanker(), &lines("Q1 Y1 Q2 Y2 Q3 N3")), "V   1N   3\n");
        assert_eq!(told_of(&tanker(), &lines("Q1 Y1 Q2 N2")), "V   1N   2\nV   2N   2\n");
    }

    #[test]
    fn the_sheet_comes_first_then_the_length_then_the_lines() {
        let again =
            |lines: usize| b"Q   1\nN   1\n".iter().copied().cycle().take(lines * 6).collect::<Vec<_>>();
        let repeatable = plan_of("R", &[], &[&[1]]);
        assert_eq!(story(b"", b""), "X   1     1\n");
        assert_eq!(story(b"", &again(10_001)), "X   1     1\n");
        assert_eq!(told_of(&plan_of("PP", &[], &[&[1, 2]]), b"?     "), "X   8   257\n");
        assert_eq!(told_of(&repeatable, &again(10_000)), "");
        assert_eq!(told_of(&repeatable, &[again(10_000), b"?????".to_vec()].concat()), "");
        assert_eq!(told_of(&repeatable, &again(10_001)), "X  14     0\n");
        assert_eq!(told_of(&tanker(), &again(10_001)), "X  14     0\n");
        assert_eq!(told_of(&tanker(), &lines("Q1 Y1 Q3")), "X  12     3\n");
    }
}
