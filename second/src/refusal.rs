//! The numbers of refusal, and the form in which a call hands back what was asked for.

/// The reasons for a refusal, each with its number.
#[derive(Clone, Copy, Debug, PartialEq, Eq)]
pub enum Refusal {
    StateNotSound = 1,
    NoSuchGuest = 2,
    DoneWhileIdle = 3,
    JobsFull = 4,
    NoRoomForSpare = 5,
    DeadlineTooFar = 6,
    PastEndOfTime = 7,
    ImageLength = 8,
    Edition = 9,
    GuestCount = 10,
    Offset = 11,
    Frame = 12,
    Guest = 13,
    Shares = 14,
    BufferTooShort = 15,
    MalformedInput = 16,
}

impl Refusal {
    pub fn number(self) -> u32 {
        self as u32
    }
}

/// What a call on lent things says: 0 where it was carried out, or the refusal number.
pub(crate) fn number_of(outcome: Result<(), Refusal>) -> u32 {
    outcome.map_or_else(Refusal::number, |()| 0)
}

/// An answer with its refusal number, 0 where it was given. A refused answer carries the value
/// whose numbers are all 0.
#[derive(Clone, Copy, Debug, Default, PartialEq, Eq)]
pub struct Answer<Value> {
    pub refusal: u32,
    pub value: Value,
}

impl<Value: Default> From<Result<Value, Refusal>> for Answer<Value> {
    fn from(outcome: Result<Value, Refusal>) -> Self {
        match outcome {
            Ok(value) => Answer { refusal: 0, value },
            Err(refusal) => Answer {
                refusal: refusal.number(),
                value: Value::default(),
            },
        }
    }
}
