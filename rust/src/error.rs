//! The refusals.

use core::fmt;

/// Why a call was refused: the refusal sheet, by its words. A refused call has
/// changed nothing.
#[non_exhaustive]
#[derive(Clone, Copy, Debug, PartialEq, Eq, Hash)]
pub enum Error {
    /// 1: the map has over 8 entries.
    LongMap,
    /// 2: a usable entry ends past 2^40.
    FarAddress,
    /// 3: two kept regions share a byte.
    Overlap,
    /// 4: over 1,048,576 pages are kept.
    TooManyPages,
    /// 5: at the boot, something lent is too short.
    ShortLoan,
    /// 6: what was lent is no whole state, or too short for it.
    Torn,
    /// 7: the alignment is no power of two, or the size rounded up to it is over
    /// 2^63 - 1. No [`Layout`](core::alloc::Layout) is like that.
    BadLayout,
    /// 8: the size or the alignment is over 1 GiB.
    NoLevel,
    /// 9: nothing is listed at the level or above.
    NoFrame,
    /// 10: as 9, and [`WAIT_OK`](crate::FrameAllocFlags::WAIT_OK) was set.
    MustWait,
    /// 11: the address is not managed.
    Outside,
    /// 12: the address is no page's edge, or no frame starts there.
    NoFrameStart,
    /// 13: nobody holds the frame.
    NotHeld,
    /// 14: the range leaves its frame or, for a physical source, its region.
    PastTheEnd,
    /// 15: more is given back than the pager has out.
    PagerLow,
    /// 16: no place is left in the queue.
    QueueFull,
    /// 17: there is no such op, or a map's numbers do not come in threes.
    BadLine,
    /// A number that this version does not know.
    Unknown(u32),
}

/// In the order of their numbers, from 1 on.
const SHEET: [(Error, &str); 17] = [
    (Error::LongMap, "long map"),
    (Error::FarAddress, "far address"),
    (Error::Overlap, "overlap"),
    (Error::TooManyPages, "too many pages"),
    (Error::ShortLoan, "short loan"),
    (Error::Torn, "torn"),
    (Error::BadLayout, "bad layout"),
    (Error::NoLevel, "no level"),
    (Error::NoFrame, "no frame"),
    (Error::MustWait, "must wait"),
    (Error::Outside, "outside"),
    (Error::NoFrameStart, "no frame start"),
    (Error::NotHeld, "not held"),
    (Error::PastTheEnd, "past the end"),
    (Error::PagerLow, "pager low"),
    (Error::QueueFull, "queue full"),
    (Error::BadLine, "bad line"),
];

impl Error {
    /// The refusal's number.
    pub fn number(self) -> u32 {
        match self {
            Error::Unknown(number) => number,
            known => {
                SHEET.iter().zip(1..).find(|((error, _), _)| *error == known).map_or(0, |it| it.1)
            }
        }
    }

    /// The refusal's word.
    pub fn word(self) -> &'static str {
        SHEET.iter().find(|(error, _)| *error == self).map_or("unknown refusal", |it| it.1)
    }
}

impl From<u32> for Error {
    /// The refusal of a number. 0 is none, and so unknown.
    fn from(number: u32) -> Error {
        let place = (number as usize).checked_sub(1);
        place.and_then(|place| SHEET.get(place)).map_or(Error::Unknown(number), |it| it.0)
    }
}

impl fmt::Display for Error {
    fn fmt(&self, f: &mut fmt::Formatter<'_>) -> fmt::Result {
        match self {
            Error::Unknown(number) => write!(f, "unknown refusal {number}"),
            known => f.write_str(known.word()),
        }
    }
}

impl core::error::Error for Error {}

/// What an exported function returned.
pub(crate) fn accepted(number: u32) -> Result<(), Error> {
    match number {
        0 => Ok(()),
        number => Err(Error::from(number)),
    }
}
