//! The bytes of held frames. "managed bytes of the regions follow one another in
//! one lent memory."

use super::{
    call::{Answer, Told},
    line::Range,
    refusal::{refuse, PAST_THE_END},
    region::PAGE,
    store::Store,
};

impl Store {
    /// Where a managed address lies in the memory.
    fn place(&self, address: u64) -> usize {
        let region = self.region(address).expect("a managed address");
        (PAGE * region.page(address) + address % PAGE) as usize
    }

    /// The bytes of the frame at an address.
    pub fn bytes<'a>(&mut self, address: u64, memory: &'a mut [u8]) -> &'a mut [u8] {
        let (place, size) = (self.place(address), self.at(address).size());
        &mut memory[place..][..size as usize]
    }

    /// The bytes of a range that doesn't leave its frame.
    fn part<'a>(&mut self, range: Range, memory: &'a mut [u8]) -> &'a mut [u8] {
        let frame = self.bytes(range.address, memory);
        &mut frame[range.offset as usize..][..range.length as usize]
    }

    pub fn zero(&mut self, address: u64, memory: &mut [u8]) -> Answer {
        self.test_frames(&[address])?;
        self.bytes(address, memory).fill(0);
        self.at(address).zeroed = true;
        Ok(self.named(address))
    }

    pub fn dirty(&mut self, address: u64) -> Answer {
        self.test_frames(&[address])?;
        self.at(address).zeroed = false;
        Ok(self.named(address))
    }

    pub fn fill(&mut self, range: Range, byte: u8, memory: &mut [u8]) -> Answer {
        self.test_frames(&[range.address])?;
        self.test_ranges(&[range])?;
        self.part(range, memory).fill(byte);
        self.at(range.address).zeroed = false;
        Ok(Told::Numbers(range.address, range.length))
    }

    /// "Copying between two zeroed frames does nothing; from a zeroed to an
    /// unmarked one zeroes the range, and sets the mark if that is the whole
    /// frame; otherwise bytes are copied and the mark cleared, at length 0 too."
    pub fn copy(&mut self, target: Range, source: Range, memory: &mut [u8]) -> Answer {
        self.test_frames(&[target.address, source.address])?;
        self.test_ranges(&[target, source])?;
        match (self.at(source.address).zeroed, self.at(target.address).zeroed) {
            (true, true) => {}
            (true, false) => {
                self.part(target, memory).fill(0);
                let frame = self.at(target.address);
                frame.zeroed = target.offset == 0 && target.length == frame.size();
            }
            (false, _) => {
                let bytes = self.part(source, memory).to_vec();
                self.part(target, memory).copy_from_slice(&bytes);
                self.at(target.address).zeroed = false;
            }
        }
        Ok(Told::Numbers(target.address, target.length))
    }

    /// "A physical source meets 11 and 14 only, also at length 0."
    pub fn pcopy(&mut self, target: Range, source: u64, memory: &mut [u8]) -> Answer {
        self.test_managed(&[target.address, source])?;
        self.test_starts(&[target.address])?;
        self.test_held(&[target.address])?;
        self.test_ranges(&[target])?;
        let end = self.region(source).expect("a managed source").end();
        let past = u128::from(source) + u128::from(target.length) > end.into();
        refuse(past, PAST_THE_END)?;
        let bytes = memory[self.place(source)..][..target.length as usize].to_vec();
        self.part(target, memory).copy_from_slice(&bytes);
        self.at(target.address).zeroed = false;
        Ok(Told::Numbers(target.address, target.length))
    }
}
