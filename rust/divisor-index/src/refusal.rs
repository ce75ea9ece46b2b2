use std::{error, fmt};

/// Why the port refuses, with document 01's numbers.
#[derive(Debug, Clone, Copy, PartialEq, Eq, Hash)]
#[repr(u32)]
pub enum Refusal {
    /// Index kind, variables, capacity or maxima are not as at opening.
    Parameters = 1,
    /// The buffer to open in is too short.
    Buffer = 2,
    /// The image is not sound.
    Unsound = 3,
    /// The list is not a whole number of words that starts with a call number.
    List = 4,
    /// The answer does not fit.
    Room = 5,
    /// This index does not serve the call.
    NotServed = 6,
    /// The words are not canonical.
    NotCanonical = 7,
    /// The capacity is reached.
    Full = 8,
    /// A product's power is above 32,767.
    PowerTooLarge = 9,
    /// No label is free between the neighbours.
    NoLabel = 10,
}

impl Refusal {
    /// All of them, by number.
    pub const ALL: [Refusal; 10] = [
        Refusal::Parameters,
        Refusal::Buffer,
        Refusal::Unsound,
        Refusal::List,
        Refusal::Room,
        Refusal::NotServed,
        Refusal::NotCanonical,
        Refusal::Full,
        Refusal::PowerTooLarge,
        Refusal::NoLabel,
    ];

    /// What a door's returned number says: 0 is served.
    ///
    /// # Panics
    ///
    /// On a number that no door returns.
    pub fn check(number: u32) -> Result<(), Refusal> {
        match number {
            0 => Ok(()),
            _ => Err(Refusal::try_from(number).expect("a number that a door returns")),
        }
    }

    /// The same for a door that returns its answer: a refusal stands in the
    /// upper 32 bits.
    ///
    /// # Panics
    ///
    /// On a number that no door returns.
    pub fn or_answer(number: u64) -> Result<u32, Refusal> {
        Self::check((number >> 32) as u32)?;
        Ok(number as u32)
    }

    /// The same for a door that returns a length, which is above 16.
    pub(crate) fn or_length(number: u32) -> Result<usize, Refusal> {
        if number <= 16 {
            Self::check(number)?;
        }
        Ok(number as usize)
    }

    /// Its number in document 01.
    pub fn number(self) -> u32 {
        self as u32
    }
}

impl fmt::Display for Refusal {
    fn fmt(&self, f: &mut fmt::Formatter<'_>) -> fmt::Result {
        f.write_str(match self {
            Refusal::Parameters => "index kind, variables, capacity or maxima out of range",
            Refusal::Buffer => "buffer too short",
            Refusal::Unsound => "image not sound",
            Refusal::List => "not a list of calls",
            Refusal::Room => "answer does not fit",
            Refusal::NotServed => "call not served by this index",
            Refusal::NotCanonical => "words not canonical",
            Refusal::Full => "capacity reached",
            Refusal::PowerTooLarge => "power above 32,767",
            Refusal::NoLabel => "no label free",
        })
    }
}

impl error::Error for Refusal {}

impl TryFrom<u32> for Refusal {
    type Error = UnknownNumber;

    fn try_from(number: u32) -> Result<Self, UnknownNumber> {
        let known = Self::ALL
            .into_iter()
            .find(|refusal| refusal.number() == number);
        known.ok_or(UnknownNumber(number))
    }
}

/// A number that is no refusal's.
#[derive(Debug, Clone, Copy, PartialEq, Eq)]
pub struct UnknownNumber(
    /// The number.
    pub u32,
);

impl fmt::Display for UnknownNumber {
    fn fmt(&self, f: &mut fmt::Formatter<'_>) -> fmt::Result {
        write!(f, "{} is no refusal", self.0)
    }
}

impl error::Error for UnknownNumber {}
