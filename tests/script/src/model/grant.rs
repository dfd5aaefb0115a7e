//! Grants.

use super::{
    line::Asked,
    refusal::{refuse, BAD_LAYOUT, MUST_WAIT, NO_FRAME, NO_LEVEL},
    region::{PAGE, SIZES},
    store::Store,
};

impl Store {
    /// The address of the frame that is now held.
    pub fn grant(&mut self, asked: Asked, memory: &mut [u8]) -> Result<u64, u8> {
        refuse(is_bad_layout(asked), BAD_LAYOUT)?;
        let suffices = |size: &u64| asked.size <= *size && asked.align <= *size;
        let level = SIZES.iter().position(suffices).ok_or(NO_LEVEL)?;
        let want = if asked.wait_ok { MUST_WAIT } else { NO_FRAME };
        refuse(!self.lists_any(level), want)?;
        let address = self.pick(level, asked.zeroed).expect("what is listed is found");
        if asked.zeroed && !self.at(address).zeroed {
            self.bytes(address, memory).fill(0);
        }
        let frame = self.at(address);
        (frame.held, frame.zeroed, frame.kernel) = (true, false, asked.kernel);
        self.allocated = self.allocated.wrapping_add(SIZES[level] / PAGE);
        Ok(address)
    }

    /// Whether anything is "listed at the level or above".
    fn lists_any(&self, level: usize) -> bool {
        self.regions.iter().any(|it| it.lists[2 * level..].iter().any(|list| !list.is_empty()))
    }

    /// "First pass over regions in order: zeroed only if ZEROED was asked, else
    /// dirty only, larger levels being split before the next region. Second pass:
    /// either kind", dirty first.
    fn pick(&mut self, level: usize, zeroed: bool) -> Option<u64> {
        let mut pass =
            |kinds: &[bool]| self.regions.iter_mut().find_map(|region| region.search(level, kinds));
        pass(&[zeroed]).or_else(|| pass(&[false, true]))
    }
}

/// "alignment no power of two, or size rounded up to it over 2^63 − 1".
fn is_bad_layout(asked: Asked) -> bool {
    let most = i64::MAX as u128;
    !asked.align.is_power_of_two()
        || u128::from(asked.size).next_multiple_of(asked.align.into()) > most
}
