//! Many calls of one sort in a row, for states that single calls take long to
//! reach.

use super::maker::Maker;

impl Maker<'_> {
    /// Small grants until few frames are left.
    pub fn grant_many(&mut self) {
        let listed = self.view().map_or(0, |view| view.listed.len() as u64);
        let count = self.random.within(listed / 2..=listed);
        let options = self.random.weighted(&[(0, 70), (1, 10), (2, 20)]);
        for _ in 0..count {
            self.say(format!("alloc,4096,4096,{options}"));
        }
    }

    /// Queues most held frames, rising or falling by address. On common ground a
    /// frame is queued once, and there is room for it; elsewhere some are repeated.
    pub fn queue_many(&mut self, on_ground: bool) {
        let Some(view) = self.view() else {
            return;
        };
        let mut frames: Vec<_> = view.held.iter().filter(|it| !on_ground || !it.queued).collect();
        if self.random.percent(50) {
            frames.reverse();
        }
        let share = self.random.within(60..=100);
        frames.retain(|_| self.random.percent(share));
        frames.truncate(if on_ground { view.room } else { usize::MAX });
        for frame in frames {
            let repeats = if on_ground || self.random.percent(80) { 1 } else { 4 };
            for _ in 0..repeats {
                self.say(format!("queue,{}", frame.address));
            }
        }
    }

    pub fn round_often(&mut self) {
        for _ in 0..self.random.within(1..=4) {
            self.say("round");
        }
    }
}
