//! The run on sets: which bookings are requested, held, lost, returning.

use crate::check::{members, Network};

pub const STATE_LENGTH: usize = 65;

const FREE: u8 = 0;
const REQUESTED: u8 = 1;
const HELD: u8 = 2;
const LOST: u8 = 3;
const RETURNING: u8 = 4;

pub struct Run {
    way: usize,
    requested: u64,
    held: u64,
    lost: u64,
    returning: u64,
}

pub enum Order {
    Request(usize),
    Return(usize),
    Wait,
    Flown(usize),
    CalledOff,
}

/// What a step changes: one booking's code, and the current way.
pub struct Change {
    pub booking: usize,
    pub code: u8,
    pub way: usize,
}

impl Run {
    pub fn start() -> Run {
        Run { way: 1, requested: 0, held: 0, lost: 0, returning: 0 }
    }

    /// The run of these bytes, if they are a sound state.
    pub fn of_bytes(network: &Network, bytes: &[u8; STATE_LENGTH]) -> Option<Run> {
        let mut sets = [0u64; 5];
        for (booking, &code) in bytes[1..].iter().enumerate() {
            *sets.get_mut(usize::from(code))? |= 1 << booking;
        }
        let [free, requested, held, lost, returning] = sets;
        let run = Run { way: usize::from(bytes[0]), requested, held, lost, returning };
        let past_end = if network.bookings == 64 { 0 } else { !0 << network.bookings };
        (free & past_end == past_end && run.way <= network.ways && run.is_sound(network)).then_some(run)
    }

    pub fn bytes(&self) -> [u8; STATE_LENGTH] {
        let mut bytes = [FREE; STATE_LENGTH];
        bytes[0] = self.way as u8;
        let sets =
            [(self.requested, REQUESTED), (self.held, HELD), (self.lost, LOST), (self.returning, RETURNING)];
        for (set, code) in sets {
            members(set).for_each(|booking| bytes[booking + 1] = code);
        }
        bytes
    }

    fn current(&self, network: &Network) -> u64 {
        if self.way == 0 {
            0
        } else {
            network.way[self.way - 1]
        }
    }

    /// The ways before the current one, all of them when it is called off.
    pub fn earlier<'a>(&self, network: &'a Network) -> &'a [u64] {
        if self.way == 0 {
            network.way_sets()
        } else {
            &network.way[..self.way - 1]
        }
    }

    /// Why an earlier way is not live: its lowest lost booking, or else the lowest held firm one that it lacks.
    pub fn why_passed(&self, network: &Network, way: u64) -> (u8, u32) {
        let (lost, lacked) = (way & self.lost, self.held & network.firm & !way);
        if lost != 0 {
            (b'N', lost.trailing_zeros())
        } else {
            (b'H', lacked.trailing_zeros())
        }
    }

    /// What the desks have open.
    fn matters(&self) -> u64 {
        self.requested | self.returning
    }

    /// The bookings of all desks with so many matters. Mostly fewer are open at all.
    fn at_desks_with(&self, network: &Network, count: u32) -> u64 {
        let matters = self.matters();
        if matters.count_ones() < count {
            return 0;
        }
        let full = network.desks.iter().filter(|&desk| (matters & desk).count_ones() >= count);
        full.fold(0, |all, desk| all | desk)
    }

    fn is_live(&self, network: &Network, way: u64) -> bool {
        way & self.lost == 0 && self.held & network.firm & !way == 0
    }

    fn stands(&self, network: &Network, set: u64) -> bool {
        members(set).all(|booking| network.before[booking] & !self.held == 0)
    }

    fn is_sound(&self, network: &Network) -> bool {
        let way = self.current(network);
        let outside = self.held & !way | self.returning;
        let lost_here = self.lost & way;
        self.stands(network, self.requested | self.held | self.returning)
            && self.lost & !network.exposed == 0
            && self.requested & !way == 0
            && self.returning & (network.firm | way) == 0
            && (outside == 0 || self.requested == 0)
            && self.earlier(network).iter().all(|&way| !self.is_live(network, way))
            && self.held & network.firm & !way == 0
            && (lost_here == 0 || self.requested != 0)
            && self.stands(network, lost_here)
            && self.at_desks_with(network, network.limit + 1) == 0
    }

    pub fn next_order(&self, network: &Network) -> Order {
        let way = self.current(network);
        if way & self.lost != 0 {
            return Order::Wait;
        }
        let standing = self.held | self.returning;
        let full = self.at_desks_with(network, network.limit);
        if let Some(b) = members(self.held & !way & !full).find(|&b| network.after[b] & standing == 0) {
            return Order::Return(b);
        }
        if self.returning != 0 {
            return Order::Wait;
        }
        let free = way & !(self.requested | self.held | self.lost);
        if let Some(b) = members(free & !full).find(|&b| network.before[b] & !self.held == 0) {
            return Order::Request(b);
        }
        if self.requested != 0 {
            return Order::Wait;
        }
        if self.way == 0 {
            Order::CalledOff
        } else {
            Order::Flown(self.way)
        }
    }

    pub fn change_of_order(&self, order: &Order) -> Option<Change> {
        match *order {
            Order::Request(booking) => Some(Change { booking, code: REQUESTED, way: self.way }),
            Order::Return(booking) => Some(Change { booking, code: RETURNING, way: self.way }),
            _ => None,
        }
    }

    /// Marks an order as given.
    pub fn give(&mut self, order: &Order) {
        match *order {
            Order::Request(booking) => self.requested |= 1 << booking,
            Order::Return(booking) => {
                self.held &= !(1 << booking);
                self.returning |= 1 << booking;
            }
            _ => {}
        }
    }

    fn way_after(&self, network: &Network) -> usize {
        if self.requested != 0 || self.current(network) & self.lost == 0 {
            return self.way;
        }
        network.way_sets().iter().position(|&way| self.is_live(network, way)).map_or(0, |i| i + 1)
    }

    /// Takes in a reply to booking (counted from 1), if it fits; what it changes.
    pub fn reply(&mut self, network: &Network, letter: u8, booking: u32) -> Option<Change> {
        if booking == 0 || booking > 64 {
            return None;
        }
        let bit = 1 << (booking - 1);
        let (due, code) = match letter {
            b'Y' => (&mut self.requested, HELD),
            b'N' => (&mut self.requested, if network.exposed & bit != 0 { LOST } else { FREE }),
            b'G' => (&mut self.returning, FREE),
            b'K' => (&mut self.returning, HELD),
            _ => return None,
        };
        if *due & bit == 0 {
            return None;
        }
        *due &= !bit;
        match code {
            HELD => self.held |= bit,
            LOST => self.lost |= bit,
            _ => {}
        }
        if letter == b'Y' || letter == b'N' {
            self.way = self.way_after(network);
        }
        Some(Change { booking: booking as usize - 1, code, way: self.way })
    }
}
