//! Why a call was refused.

use std::error::Error;
use std::fmt;

/// Why a call was refused. Each has the number that the documents give it.
#[derive(Clone, Copy, Debug, PartialEq, Eq, Hash)]
#[repr(u32)]
pub enum Refusal {
    Shape = 1,
    Capacity = 2,
    Tables = 3,
    NoSuchZone = 4,
    NoSuchCar = 5,
    ZoneStands = 6,
    ZoneStandsNot = 7,
    CarOffMap = 8,
    Rectangle = 9,
    PositionOffMap = 10,
    BufferTooShort = 11,
    NoRoom = 12,
    NoSuchSquare = 13,
    WrongTeam = 15,
}

impl Refusal {
    /// All refusals, by rising number.
    pub const ALL: [Refusal; 14] = [
        Refusal::Shape,
        Refusal::Capacity,
        Refusal::Tables,
        Refusal::NoSuchZone,
        Refusal::NoSuchCar,
        Refusal::ZoneStands,
        Refusal::ZoneStandsNot,
        Refusal::CarOffMap,
        Refusal::Rectangle,
        Refusal::PositionOffMap,
        Refusal::BufferTooShort,
        Refusal::NoRoom,
        Refusal::NoSuchSquare,
        Refusal::WrongTeam,
    ];

    /// The number in the documents: 1 to 13, or 15. The 14 between them is a log's answer to what is no line.
    ///
    /// ```
    /// use unwadegiro::Refusal;
    /// assert_eq!(Refusal::NoRoom.number(), 12);
    /// assert_eq!(Refusal::NoRoom.to_string(), "the zone's squares do not fit into the entries that are free");
    /// ```
    pub fn number(self) -> u32 {
        self as u32
    }

    /// The refusal with a number; none for 0, 14 and above 15.
    pub fn from_number(number: u32) -> Option<Refusal> {
        Refusal::ALL.into_iter().find(|refusal| refusal.number() == number)
    }

    /// What a C function returned, as a result.
    #[inline]
    pub(crate) fn check(returned: u32) -> Result<(), Refusal> {
        match returned {
            0 => Ok(()),
            number => Err(Refusal::given(number)),
        }
    }

    #[cold]
    fn given(number: u32) -> Refusal {
        Refusal::from_number(number).expect("a call returns 0 to 13 or 15")
    }
}

impl fmt::Display for Refusal {
    fn fmt(&self, f: &mut fmt::Formatter<'_>) -> fmt::Result {
        f.write_str(match self {
            Refusal::Shape => "the shape is beyond the bounds",
            Refusal::Capacity => "a capacity is beyond the bounds",
            Refusal::Tables => "the tables have not the lengths that the shape and the capacities call for",
            Refusal::NoSuchZone => "the zone number is at or above the capacity",
            Refusal::NoSuchCar => "the car number is at or above the capacity",
            Refusal::ZoneStands => "the zone stands already",
            Refusal::ZoneStandsNot => "the zone does not stand",
            Refusal::CarOffMap => "the car is not on the map",
            Refusal::Rectangle => "the rectangle has no cell, or passes the town's edge",
            Refusal::PositionOffMap => "the position is not on the map",
            Refusal::BufferTooShort => "the buffer is too short",
            Refusal::NoRoom => "the zone's squares do not fit into the entries that are free",
            Refusal::NoSuchSquare => "there is no such square",
            Refusal::WrongTeam => "the team is above 7, or not the one that the car on the map has",
        })
    }
}

impl Error for Refusal {}
