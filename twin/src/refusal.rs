//! The numbered refusals of docs/REFUSALS.md.

use std::fmt;

use crate::frame::Fault;

#[derive(Clone, Copy, Debug, PartialEq, Eq)]
pub enum Refusal {
    TermOutOfRange,
    TooFewNumbers,
    LifetimeTooLong,
    CarrierNotEmpty,
    SenderStoreLength,
    ReceiverStoreLength,
    SenderStoreFull,
    AlreadySealed,
    PathFull,
    NothingToSend,
    WindowClosed,
    TooSoon,
    NotOutstanding,
    CarrierFull,
    NoSuchPlace,
    FrameInTheAir,
    NothingToDeliver,
    BookFull,
    Malformed(Fault),
    NoCapacity,
}

impl Refusal {
    /// The highest number that a refusal has.
    pub const LAST: u32 = 20;

    pub fn number(self) -> u32 {
        match self {
            Refusal::TermOutOfRange => 1,
            Refusal::TooFewNumbers => 2,
            Refusal::LifetimeTooLong => 3,
            Refusal::CarrierNotEmpty => 4,
            Refusal::SenderStoreLength => 5,
            Refusal::ReceiverStoreLength => 6,
            Refusal::SenderStoreFull => 7,
            Refusal::AlreadySealed => 8,
            Refusal::PathFull => 9,
            Refusal::NothingToSend => 10,
            Refusal::WindowClosed => 11,
            Refusal::TooSoon => 12,
            Refusal::NotOutstanding => 13,
            Refusal::CarrierFull => 14,
            Refusal::NoSuchPlace => 15,
            Refusal::FrameInTheAir => 16,
            Refusal::NothingToDeliver => 17,
            Refusal::BookFull => 18,
            Refusal::Malformed(_) => 19,
            Refusal::NoCapacity => 20,
        }
    }
}

impl From<Fault> for Refusal {
    fn from(fault: Fault) -> Self {
        Refusal::Malformed(fault)
    }
}

impl fmt::Display for Refusal {
    fn fmt(&self, f: &mut fmt::Formatter<'_>) -> fmt::Result {
        write!(f, "refusal {}", self.number())
    }
}

impl std::error::Error for Refusal {}
