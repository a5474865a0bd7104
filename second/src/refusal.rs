//! Why an input is turned down: which of the numbered reasons, and at which byte.

#[derive(Debug, Clone, Copy, PartialEq, Eq)]
pub struct Refusal {
    pub number: u8,
    pub place: u64,
}

pub fn refusal(number: u8, place: usize) -> Refusal {
    Refusal { number, place: place as u64 }
}

impl std::fmt::Display for Refusal {
    fn fmt(&self, out: &mut std::fmt::Formatter) -> std::fmt::Result {
        write!(out, "refused {} at {}", self.number, self.place)
    }
}
