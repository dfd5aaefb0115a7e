//! The calls: their refusals in the sheet's order, and their answers.

use super::{
    line::Call,
    refusal::{refuse, OUTSIDE, PAGER_LOW, QUEUE_FULL},
    region::PAGE,
    store::Store,
    Loans,
};

/// What an accepted call prints.
pub enum Told {
    /// The last two columns.
    Numbers(u64, u64),
    Text(String),
}

pub type Answer = Result<Told, u8>;

/// The answer as printed; the op is the line's first field.
pub fn printed(line: &[u8], answer: Answer) -> String {
    let op: String = line.iter().take_while(|&&byte| byte != b',').map(|&b| b as char).collect();
    match answer {
        Ok(Told::Numbers(address, bytes)) => format!("{op},0,{address},{bytes}\n"),
        Ok(Told::Text(text)) => text,
        Err(number) => format!("{op},{number},0,0\n"),
    }
}

impl Store {
    pub fn call(&mut self, call: &Call, loans: &mut Loans) -> Answer {
        match *call {
            Call::Alloc(asked) => {
                let address = self.grant(asked, loans.memory)?;
                Ok(self.named(address))
            }
            Call::Take(asked) => {
                let address = self.grant(asked, loans.memory)?;
                let size = self.region_mut(address).split_held(address);
                Ok(Told::Numbers(address, size))
            }
            Call::Split(address) => {
                self.test_frames(&[address])?;
                let size = self.region_mut(address).split_held(address);
                Ok(Told::Numbers(address, size))
            }
            Call::Free(address) => {
                self.test_frames(&[address])?;
                self.release(address);
                Ok(self.named(address))
            }
            Call::Zero(address) => self.zero(address, loans.memory),
            Call::Dirty(address) => self.dirty(address),
            Call::Find(address) => self.find(address),
            Call::Queue(address) => self.queue(address, loans.queue),
            Call::Fill(range, byte) => self.fill(range, byte, loans.memory),
            Call::Copy { target, source } => self.copy(target, source, loans.memory),
            Call::Pcopy { target, source } => self.pcopy(target, source, loans.memory),
            Call::Round => Ok(self.round(loans.queue)),
            Call::Lend(pages) => {
                self.outstanding = self.outstanding.wrapping_add(pages);
                Ok(Told::Numbers(0, self.outstanding))
            }
            Call::Back(pages) => {
                refuse(pages > self.outstanding, PAGER_LOW)?;
                self.outstanding -= pages;
                Ok(Told::Numbers(0, self.outstanding))
            }
            Call::Low => Ok(Told::Numbers(0, self.low().into())),
            Call::Stats => Ok(Told::Text(self.stats())),
        }
    }

    /// "the frame named or granted ... and its size".
    pub fn named(&self, address: u64) -> Told {
        Told::Numbers(address, self.frame(address).expect("a frame's start").size())
    }

    /// "`find` gives the page's address, and its frame's size if ADMITTED, else
    /// 0."
    fn find(&self, address: u64) -> Answer {
        refuse(self.region(address).is_none(), OUTSIDE)?;
        let page = address / PAGE * PAGE;
        Ok(Told::Numbers(page, self.frame(page).map_or(0, |frame| frame.size())))
    }

    fn queue(&mut self, address: u64, queue: &mut [u64]) -> Answer {
        self.test_frames(&[address])?;
        refuse(self.queued == queue.len(), QUEUE_FULL)?;
        queue[self.queued] = address;
        self.queued += 1;
        Ok(self.named(address))
    }
}
