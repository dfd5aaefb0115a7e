//! The refusal sheet. 6 is not met here, as nobody else writes the loans while a
//! script runs; nor is 17, which is the program's.

pub const LONG_MAP: u8 = 1;
pub const FAR_ADDRESS: u8 = 2;
pub const OVERLAP: u8 = 3;
pub const TOO_MANY_PAGES: u8 = 4;
pub const SHORT_LOAN: u8 = 5;
pub const BAD_LAYOUT: u8 = 7;
pub const NO_LEVEL: u8 = 8;
pub const NO_FRAME: u8 = 9;
pub const MUST_WAIT: u8 = 10;
pub const OUTSIDE: u8 = 11;
pub const NO_FRAME_START: u8 = 12;
pub const NOT_HELD: u8 = 13;
pub const PAST_THE_END: u8 = 14;
pub const PAGER_LOW: u8 = 15;
pub const QUEUE_FULL: u8 = 16;

/// The number, where its condition applies.
pub fn refuse(applies: bool, number: u8) -> Result<(), u8> {
    if applies {
        Err(number)
    } else {
        Ok(())
    }
}
