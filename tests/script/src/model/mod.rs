//! The script program once more, from 01's words and their readings in
//! docs/DECISIONS.md (1 to 6 and 10 to 15), and from nothing else of this
//! repository: maps and vectors, with no thought of speed. Frames go by address
//! here; the records are written from them at the end of a run.

mod boot;
mod call;
mod contents;
mod grant;
mod line;
mod reclaim;
mod records;
mod refusal;
mod region;
mod store;
mod tracker;

pub use boot::{kept, managed};
pub use call::{printed, Answer, Told};
pub use line::{read, split, Asked, Call, Entry, Line, Range};
pub use region::{Region, PAGE, SIZES};
pub use store::{Pass, Store};

/// What a run is lent, but for the answer slice.
pub struct Loans<'a> {
    pub records: &'a mut [u8],
    pub memory: &'a mut [u8],
    pub queue: &'a mut [u64],
}

pub const HEADER: &str = "op,refusal,address,bytes\n";
pub const BAD: &str = "bad,17,0,0\n";

/// Bytes of the answer slice for each line, and beside them.
const ROOM: usize = 512;

/// A whole run: what is printed, or nothing where the answer slice "is under 512
/// bytes for each line plus 512".
pub fn run(script: &[u8], loans: Loans, answer: usize) -> Option<String> {
    let lines = split(script);
    if answer < ROOM * lines.len() + ROOM {
        return None;
    }
    let mut program = Program::new(loans);
    let answers: String = lines.iter().map(|line| program.line(line)).collect();
    program.finish();
    Some(HEADER.to_string() + &answers)
}

/// A run under way.
pub struct Program<'a> {
    loans: Loans<'a>,
    map: Vec<Entry>,
    store: Option<Store>,
}

impl<'a> Program<'a> {
    pub fn new(loans: Loans<'a>) -> Program<'a> {
        Program { loans, map: Vec::new(), store: None }
    }

    /// The store, once a boot was accepted.
    pub fn store(&self) -> Option<&Store> {
        self.store.as_ref()
    }

    pub fn into_store(self) -> Option<Store> {
        self.store
    }

    /// The places of the queue.
    pub fn queue(&self) -> &[u64] {
        self.loans.queue
    }

    /// Runs a line, given without its line feed, and gives what it prints. "a
    /// `region` after an accepted boot, a second one, or a call before it prints
    /// `bad,17,0,0`".
    pub fn line(&mut self, line: &[u8]) -> String {
        match (line::read(line), &mut self.store) {
            (Some(line::Line::Region(entry)), None) => {
                self.map.push(entry);
                String::new()
            }
            (Some(line::Line::Boot), None) => self.boot(),
            (Some(line::Line::Call(call)), Some(store)) => {
                let answer = store.call(&call, &mut self.loans);
                call::printed(line, answer)
            }
            _ => BAD.into(),
        }
    }

    fn boot(&mut self) -> String {
        match boot::boot(&self.map, self.loans.records.len(), self.loans.memory.len()) {
            Ok(store) => {
                let bytes = PAGE * managed(&store.regions);
                self.store = Some(store);
                format!("boot,0,0,{bytes}\n")
            }
            Err(number) => format!("boot,{number},0,0\n"),
        }
    }

    /// Leaves the records as the last line left the store. Without an accepted
    /// boot they stay as they were lent.
    pub fn finish(self) {
        if let Some(store) = self.store {
            records::write(&store.regions, self.loans.records);
        }
    }
}
