//! A whole campaign, recorded: the state that each call met, and its journal.

use crate::calls;
use crate::journal::LINE_LENGTH;
use crate::run::STATE_LENGTH;

pub type State = [u8; STATE_LENGTH];

pub struct Campaign {
    pub orders: Vec<State>,
    pub replies: Vec<(State, u8, u32)>,
    pub journal: Vec<u8>,
}

pub fn line(letter: u8, booking: u32) -> Vec<u8> {
    format!("{}{booking:4}\n", letter as char).into_bytes()
}

/// Small repeatable chance (splitmix64).
pub struct Dice(pub u64);

impl Dice {
    pub fn below(&mut self, bound: usize) -> usize {
        self.0 = self.0.wrapping_add(0x9E37_79B9_7F4A_7C15);
        let mut mixed = self.0;
        mixed = (mixed ^ (mixed >> 30)).wrapping_mul(0xBF58_476D_1CE4_E5B9);
        mixed = (mixed ^ (mixed >> 27)).wrapping_mul(0x94D0_49BB_1331_11EB);
        ((mixed ^ (mixed >> 31)) % bound as u64) as usize
    }
}

/// The desks answer in any order and refuse so many in a hundred.
pub fn record(sheet: &[u8], seed: u64, refusing: usize) -> Campaign {
    let mut dice = Dice(seed);
    let mut campaign = Campaign { orders: Vec::new(), replies: Vec::new(), journal: Vec::new() };
    let mut state = [0; STATE_LENGTH];
    calls::start(sheet, &mut state);
    loop {
        campaign.orders.push(state);
        let answer = calls::next_order(sheet, &mut state);
        match answer >> 24 {
            1 => campaign.journal.extend(line(b'Q', answer & 0xFFFF)),
            2 => campaign.journal.extend(line(b'U', answer & 0xFFFF)),
            3 => {
                let due: Vec<usize> = (1..STATE_LENGTH).filter(|&b| state[b] == 1 || state[b] == 4).collect();
                let booking = due[dice.below(due.len())];
                let no = dice.below(100) < refusing;
                let letter = match (state[booking], no) {
                    (1, false) => b'Y',
                    (1, true) => b'N',
                    (_, false) => b'G',
                    (_, true) => b'K',
                };
                campaign.replies.push((state, letter, booking as u32));
                calls::reply(sheet, &mut state, letter, booking as u32);
                campaign.journal.extend(line(letter, booking as u32));
            }
            4 | 5 => return campaign,
            _ => panic!("the campaign was refused"),
        }
    }
}

/// The first lines of a campaign in which the desks of these bookings refuse each time, the
/// others confirm and answer first. With a repeatable among them it never ends.
fn first_lines(sheet: &[u8], refused: &[usize], lines: usize) -> Vec<u8> {
    let mut journal = Vec::new();
    let mut state = [0; STATE_LENGTH];
    calls::start(sheet, &mut state);
    while journal.len() < lines * LINE_LENGTH {
        let answer = calls::next_order(sheet, &mut state);
        match answer >> 24 {
            1 => journal.extend(line(b'Q', answer & 0xFFFF)),
            3 => {
                let due = (1..STATE_LENGTH).filter(|&b| state[b] == 1);
                let booking = due.min_by_key(|b| (refused.contains(b), *b)).unwrap();
                let letter = if refused.contains(&booking) { b'N' } else { b'Y' };
                calls::reply(sheet, &mut state, letter, booking as u32);
                journal.extend(line(letter, booking as u32));
            }
            _ => panic!("the campaign ends after {} lines", journal.len() / LINE_LENGTH),
        }
    }
    journal
}

/// So many lines of such a campaign. By line 1,000 nothing comes any more but a request and its
/// refusal, which are repeated.
pub fn endless(sheet: &[u8], refused: &[usize], lines: usize) -> Vec<u8> {
    let mut journal = first_lines(sheet, refused, lines.min(1_000));
    let last_two = journal[journal.len().saturating_sub(2 * LINE_LENGTH)..].to_vec();
    let further = lines * LINE_LENGTH - journal.len();
    journal.extend(last_two.iter().cycle().take(further));
    journal
}
