//! A refusal, as the reader, the check and the calls give it.

#[derive(Clone, Copy)]
pub struct Refusal {
    pub number: u32,
    pub place: u32,
}
