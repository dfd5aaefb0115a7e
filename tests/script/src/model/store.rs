//! The whole store, and the tests that calls share.

use super::{
    line::Range,
    refusal::{refuse, NOT_HELD, NO_FRAME_START, OUTSIDE, PAST_THE_END},
    region::{Frame, Region, PAGE},
};

/// The pass of reclaim rounds under way, zeros between passes.
#[derive(Clone, Copy, Default, PartialEq, Debug)]
pub struct Pass {
    pub rounds: u64,
    pub freed: u64,
}

/// Four of the nine counters follow from the frames (tracker.rs), and `waiting`
/// is always 0.
pub struct Store {
    pub regions: Vec<Region>,
    pub allocated: u64,
    pub freed: u64,
    pub reclaimed: u64,
    pub outstanding: u64,
    /// How many places of the lent queue are in use.
    pub queued: usize,
    pub pass: Pass,
}

impl Store {
    /// "Boot leaves the other counters and both pass counts at 0 and the queue
    /// empty."
    pub fn new(regions: Vec<Region>) -> Store {
        Store {
            regions,
            allocated: 0,
            freed: 0,
            reclaimed: 0,
            outstanding: 0,
            queued: 0,
            pass: Pass::default(),
        }
    }

    /// The region that manages an address.
    pub fn region(&self, address: u64) -> Option<&Region> {
        self.regions.iter().find(|region| region.manages(address))
    }

    pub fn region_mut(&mut self, address: u64) -> &mut Region {
        let managing = |region: &&mut Region| region.manages(address);
        self.regions.iter_mut().find(managing).expect("a managed address")
    }

    /// The frame that starts at an address.
    pub fn frame(&self, address: u64) -> Option<&Frame> {
        self.region(address)?.frames.get(&address)
    }

    /// The frame at the address of one.
    pub fn at(&mut self, address: u64) -> &mut Frame {
        self.region_mut(address).frames.get_mut(&address).expect("a frame's start")
    }

    /// 11: "address not managed".
    pub fn test_managed(&self, named: &[u64]) -> Result<(), u8> {
        refuse(named.iter().any(|&address| self.region(address).is_none()), OUTSIDE)
    }

    /// 12: "not on a page edge, or not ADMITTED"; only the heads of frames are.
    pub fn test_starts(&self, named: &[u64]) -> Result<(), u8> {
        let is_none = |&address: &u64| address % PAGE != 0 || self.frame(address).is_none();
        refuse(named.iter().any(is_none), NO_FRAME_START)
    }

    /// 13: "ALLOCATED clear".
    pub fn test_held(&self, named: &[u64]) -> Result<(), u8> {
        let is_held = |&address: &u64| self.frame(address).is_some_and(|frame| frame.held);
        refuse(!named.iter().all(is_held), NOT_HELD)
    }

    /// 14: "range leaves its frame".
    pub fn test_ranges(&self, ranges: &[Range]) -> Result<(), u8> {
        let leaves = |range: &Range| {
            let size = self.frame(range.address).map_or(0, Frame::size);
            u128::from(range.offset) + u128::from(range.length) > size.into()
        };
        refuse(ranges.iter().any(leaves), PAST_THE_END)
    }

    /// 11 to 13, each over all frames that a call names before the next.
    pub fn test_frames(&self, named: &[u64]) -> Result<(), u8> {
        self.test_managed(named)?;
        self.test_starts(named)?;
        self.test_held(named)
    }

    /// A held frame joins the back of its list: "a free clears ALLOCATED only".
    pub fn release(&mut self, address: u64) {
        let frame = *self.at(address);
        self.freed = self.freed.wrapping_add(frame.size() / PAGE);
        self.region_mut(address).list(address, frame);
    }
}
