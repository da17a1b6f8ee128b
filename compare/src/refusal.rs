//! The refusals of the draft, the two systems and tracing, by the numbers of `docs/REFUSALS.md`.
//! Those of exploring (10, 11, 12) are answers: see `explore::Answer`.

#[derive(Clone, Copy, Debug, PartialEq, Eq)]
#[repr(u8)]
pub enum Refusal {
    NinthTask = 1,
    WrongTask = 2,
    Late = 3,
    NoSuchEvent = 4,
    Dropped = 5,
    AlreadyReady = 6,
    TooSoon = 7,
    NonePicked = 8,
    TaskDue = 9,
    NoSuchVisit = 13,
    BrokenChain = 14,
    ListTooShort = 15,
    NotDoomed = 16,
    DoesNotFit = 17,
}

impl Refusal {
    pub fn number(self) -> u8 {
        self as u8
    }
}
