//! The calls of the second version, one by one, for a version of which only
//! some are its own.

use crate::calls::Judged;
use std::cell::RefCell;

/// The sheet of the last call, judged, for most calls come with the same sheet.
#[derive(Default)]
pub struct Last(RefCell<Option<(Vec<u8>, Judged)>>);

impl Last {
    pub fn judged<T>(
        &self,
        sheet: &[u8],
        judge: impl FnOnce(&[u8]) -> Judged,
        with: impl FnOnce(&Judged) -> T,
    ) -> T {
        let mut last = self.0.borrow_mut();
        let same = last.take().filter(|(of, _)| of == sheet);
        let (_, judged) = last.insert(same.unwrap_or_else(|| (sheet.to_vec(), judge(sheet))));
        with(judged)
    }
}

/// Within `impl Campaign`: these calls are the second version's, on a sheet as
/// `self.judged` takes it. A call that is neither named nor written out is an
/// error of the compiler, so none is forgotten.
#[macro_export]
macro_rules! as_second {
    (check) => {
        fn check(&self, sheet: &[u8]) -> u32 {
            self.judged(sheet, $crate::calls::check_judged)
        }
    };
    (partner_check) => {
        // Not by `self.judged`, which goes by our limits.
        fn partner_check(&self, sheet: Option<&[u8]>) -> u32 {
            $crate::calls::partner_check(sheet.unwrap_or(b""))
        }
    };
    (start) => {
        fn start(&self, sheet: &[u8], state: &mut [u8]) -> u32 {
            self.judged(sheet, |judged| $crate::calls::start_judged(judged, state))
        }
    };
    (next_order) => {
        fn next_order(&self, sheet: &[u8], state: &mut [u8]) -> u32 {
            self.judged(sheet, |judged| $crate::calls::next_order_judged(judged, state))
        }
    };
    (reply) => {
        fn reply(&self, sheet: &[u8], state: &mut [u8], letter: u8, booking: u32) -> u32 {
            self.judged(sheet, |judged| $crate::calls::reply_judged(judged, state, letter, booking))
        }
    };
    (reply_block) => {
        fn reply_block(&self, sheet: &[u8], block: Option<&[u8]>, state: &mut [u8]) -> u32 {
            let block = block.unwrap_or(b"");
            self.judged(sheet, |judged| $crate::calls::reply_block_judged(judged, block, state))
        }
    };
    (restart) => {
        fn restart(&self, sheet: &[u8], journal: &[u8], state: &mut [u8]) -> u32 {
            self.judged(sheet, |judged| $crate::calls::restart_judged(judged, journal, state))
        }
    };
    (journal_line) => {
        fn journal_line(&self, letter: u8, booking: u32, line: &mut [u8]) -> u32 {
            $crate::calls::journal_line(letter, booking, line)
        }
    };
    (settle) => {
        fn settle(
            &self,
            sheet: &[u8],
            fees: Option<&[u8]>,
            journal: Option<&[u8]>,
            report: Option<&mut [u8]>,
        ) -> u32 {
            let (fees, journal) = (fees.unwrap_or(b""), journal.unwrap_or(b""));
            let report = report.unwrap_or(&mut []);
            self.judged(sheet, |judged| $crate::calls::settle_judged(judged, fees, journal, report))
        }
    };
    (passed_ways) => {
        fn passed_ways(&self, sheet: &[u8], state: Option<&[u8]>, listing: Option<&mut [u8]>) -> u32 {
            let (state, listing) = (state.unwrap_or(b""), listing.unwrap_or(&mut []));
            self.judged(sheet, |judged| $crate::calls::passed_ways_judged(judged, state, listing))
        }
    };
    (join) => {
        fn join(&self, first: Option<&[u8]>, second: Option<&[u8]>, joined: Option<&mut [u8]>) -> u32 {
            let joinable = |sheet: &[u8]| self.judged(sheet, |judged| $crate::join::joinable(judged, sheet));
            let (first, second) = (joinable(first.unwrap_or(b"")), joinable(second.unwrap_or(b"")));
            $crate::calls::join_judged(&first, &second, joined.unwrap_or(&mut []))
        }
    };
    ($($call:ident),+) => {
        $($crate::as_second!($call);)+
    };
}
