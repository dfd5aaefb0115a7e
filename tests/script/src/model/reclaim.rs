//! Reclaim rounds.

use super::{
    call::Told,
    store::{Pass, Store},
};

const FREES_OF_A_ROUND: u64 = 100;
const ROUND_LIMIT: u64 = 1_000;

impl Store {
    /// "Each round reports worked rounds and frames freed so far; the call that
    /// ends a pass reports its last counts and leaves both at 0."
    pub fn round(&mut self, queue: &[u64]) -> Told {
        let before = self.pass.rounds;
        let low = self.low();
        if low {
            self.work(queue);
        }
        let Pass { rounds, freed } = self.pass;
        if !low || before > ROUND_LIMIT {
            self.reclaimed = self.reclaimed.wrapping_add(freed);
            self.pass = Pass::default();
        }
        Told::Numbers(rounds, freed)
    }

    /// "the round pops up to 100 addresses from the queue's end and frees each,
    /// even if the store stops being low midway"; "An address that can't be freed
    /// is dropped, counted in the 100, not in the freed."
    fn work(&mut self, queue: &[u64]) {
        self.pass.rounds += 1;
        for _ in 0..FREES_OF_A_ROUND {
            if self.queued == 0 {
                break;
            }
            self.queued -= 1;
            let address = queue[self.queued];
            if self.test_frames(&[address]).is_ok() {
                self.release(address);
                self.pass.freed += 1;
            }
        }
    }
}
