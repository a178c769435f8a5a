//! A second, independent and deliberately plain version of the campaign
//! booking coordinator, and the comparison of any first version with it.
//!
//! Bookings and ways are numbered from 1 everywhere, as on the sheet.

pub mod bill;
pub mod block;
pub mod calls;
pub mod check;
pub mod comparison;
pub mod dice;
pub mod drill;
pub mod files;
pub mod flights;
pub mod generate;
pub mod join;
pub mod journal;
pub mod old;
pub mod partner;
pub mod passed;
pub mod plan;
pub mod run;
pub mod settle;
pub mod story;
pub mod written_blocks;
pub mod written_desks;
pub mod written_joins;
pub mod written_settlements;
