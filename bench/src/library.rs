//! The static libraries' calls that are measured, behind safe functions.

extern "C" {
    fn partner_check(sheet: *const u8, sheet_len: usize) -> u32;
    fn campaign_check(sheet: *const u8, sheet_len: usize) -> u32;
    fn campaign_start(sheet: *const u8, sheet_len: usize, state: *mut u8, state_len: usize) -> u32;
    fn campaign_next_order(sheet: *const u8, sheet_len: usize, state: *mut u8, state_len: usize) -> u32;
    fn campaign_reply(
        sheet: *const u8,
        sheet_len: usize,
        state: *mut u8,
        state_len: usize,
        letter: u8,
        booking: u32,
    ) -> u32;
    fn campaign_reply_block(
        sheet: *const u8,
        sheet_len: usize,
        block: *const u8,
        block_len: usize,
        state: *mut u8,
        state_len: usize,
    ) -> u32;
    fn campaign_restart(
        sheet: *const u8,
        sheet_len: usize,
        journal: *const u8,
        journal_len: usize,
        state: *mut u8,
        state_len: usize,
    ) -> u32;
    fn campaign_settle(
        sheet: *const u8,
        sheet_len: usize,
        fees: *const u8,
        fees_len: usize,
        journal: *const u8,
        journal_len: usize,
        report: *mut u8,
        report_len: usize,
    ) -> u32;
    fn campaign_passed_ways(
        sheet: *const u8,
        sheet_len: usize,
        state: *const u8,
        state_len: usize,
        listing: *mut u8,
        listing_len: usize,
    ) -> u32;
    fn campaign_join(
        first: *const u8,
        first_len: usize,
        second: *const u8,
        second_len: usize,
        joined: *mut u8,
        joined_len: usize,
    ) -> u32;
}

// Safe: pointer and length come from one slice, and any bytes are allowed.

pub fn check(sheet: &[u8]) -> u32 {
    unsafe { campaign_check(sheet.as_ptr(), sheet.len()) }
}

pub fn partner(sheet: &[u8]) -> u32 {
    unsafe { partner_check(sheet.as_ptr(), sheet.len()) }
}

pub fn start(sheet: &[u8], state: &mut [u8]) -> u32 {
    unsafe { campaign_start(sheet.as_ptr(), sheet.len(), state.as_mut_ptr(), state.len()) }
}

pub fn next_order(sheet: &[u8], state: &mut [u8]) -> u32 {
    unsafe { campaign_next_order(sheet.as_ptr(), sheet.len(), state.as_mut_ptr(), state.len()) }
}

pub fn reply(sheet: &[u8], state: &mut [u8], letter: u8, booking: u32) -> u32 {
    unsafe { campaign_reply(sheet.as_ptr(), sheet.len(), state.as_mut_ptr(), state.len(), letter, booking) }
}

pub fn reply_block(sheet: &[u8], block: &[u8], state: &mut [u8]) -> u32 {
    let (lines, length) = (block.as_ptr(), block.len());
    unsafe {
        campaign_reply_block(sheet.as_ptr(), sheet.len(), lines, length, state.as_mut_ptr(), state.len())
    }
}

pub fn restart(sheet: &[u8], journal: &[u8], state: &mut [u8]) -> u32 {
    let (lines, length) = (journal.as_ptr(), journal.len());
    unsafe { campaign_restart(sheet.as_ptr(), sheet.len(), lines, length, state.as_mut_ptr(), state.len()) }
}

pub fn settle(sheet: &[u8], fees: &[u8], journal: &[u8], report: &mut [u8]) -> u32 {
    let ((plan, plan_length), (lines, length)) =
        ((sheet.as_ptr(), sheet.len()), (journal.as_ptr(), journal.len()));
    let (fees, fees_length, text, text_length) =
        (fees.as_ptr(), fees.len(), report.as_mut_ptr(), report.len());
    unsafe { campaign_settle(plan, plan_length, fees, fees_length, lines, length, text, text_length) }
}

pub fn passed_ways(sheet: &[u8], state: &[u8], listing: &mut [u8]) -> u32 {
    let (text, length) = (listing.as_mut_ptr(), listing.len());
    unsafe { campaign_passed_ways(sheet.as_ptr(), sheet.len(), state.as_ptr(), state.len(), text, length) }
}

pub fn join(first: &[u8], second: &[u8], joined: &mut [u8]) -> u32 {
    let (text, length) = (joined.as_mut_ptr(), joined.len());
    unsafe { campaign_join(first.as_ptr(), first.len(), second.as_ptr(), second.len(), text, length) }
}
