//! The theorems: for a recorded run, that the definitions leave the same to be
//! seen. `seen` and the names beside it are those of templates/observe.txt.

use oracle::{Answer, Call, Dump, Entry, Page, Region};

use crate::{map::PAGE, record::Recorded, short, view};

/// Regions with more pages are looked at frame by frame.
const MOST_PAGES: usize = 4096;

/// The parts of what is seen, in the order of the record `Seen`.
pub const PARTS: [&str; 8] =
    ["answers", "rows", "marks", "lists", "counters", "queue", "pass", "bytes"];

// The templates fill the memory with this number.
const _: () = assert!(oracle::FILLER == 165);

const KINDS: [&str; 3] = ["UsableRam", "Reserved", "BootloaderReserved"];

pub struct Theorem {
    pub name: String,
    pub text: String,
    /// About how long the check takes, against that of other theorems.
    pub cost: u64,
}

/// All that is seen of a run, as one theorem.
pub fn whole(name: &str, run: &Recorded) -> Theorem {
    let parts =
        PARTS.iter().zip(expected(run)).map(|(part, text)| format!("    {part} = {text};\n"));
    theorem(name, run, None, &format!("record {{\n{}  }}", parts.collect::<String>()))
}

/// A theorem for each part.
pub fn parts(name: &str, run: &Recorded) -> Vec<Theorem> {
    let each = PARTS.iter().zip(expected(run));
    each.map(|(part, text)| theorem(&format!("{name}-{part}"), run, Some(part), &text)).collect()
}

fn theorem(name: &str, run: &Recorded, part: Option<&str>, expected: &str) -> Theorem {
    let walk = if by_frame(&run.dump) { "every_frame" } else { "every_page" };
    let entries = short::list(run.map.iter().map(entry));
    let calls = short::list(run.calls.iter().map(call));
    let places = short::numbers(run.bytes.iter().map(|(place, _)| *place));
    let all = format!("seen {walk}\n  {entries}\n  {calls}\n  {places}");
    let looked_at = part.map_or(all.clone(), |part| format!("({all}).{part}"));
    let text = format!(
        "pub {name} :\n  {looked_at}\n  ≡ {expected}\n\
         unfolding everything looking\n{name} = refl\n"
    );
    Theorem { name: name.into(), text, cost: cost(run) }
}

/// What was seen, part by part.
fn expected(run: &Recorded) -> [String; 8] {
    let dump = &run.dump;
    [
        short::list(run.answers.iter().map(answer)),
        of_regions(dump, |region| {
            short::numbers([region.start / PAGE, region.pages, region.first / PAGE])
        }),
        of_regions(dump, |region| short::numbers(marks(region, by_frame(dump)))),
        of_regions(dump, |region| {
            short::list(
                region.lists.iter().map(|list| short::numbers(list.iter().map(|at| at / PAGE))),
            )
        }),
        short::numbers(dump.counters),
        short::numbers(dump.queue.iter().copied()),
        short::numbers([dump.pass.0, dump.pass.1]),
        short::numbers(run.bytes.iter().map(|(_, byte)| u64::from(*byte))),
    ]
}

fn of_regions(dump: &Dump, text: impl Fn(&Region) -> String) -> String {
    short::list(dump.regions.iter().map(text))
}

fn by_frame(dump: &Dump) -> bool {
    dump.regions.iter().any(|region| region.managed.len() > MOST_PAGES)
}

/// The marks of every page, or of each that stepping by frames meets.
fn marks(region: &Region, by_frame: bool) -> Vec<u64> {
    let mut marks = Vec::new();
    let mut page = 0;
    while let Some(&found) = region.managed.get(page) {
        let Page { marks: bits, level } = found;
        marks.push(u64::from(bits) + 16 * u64::from(level));
        let frame = by_frame && bits & view::ADMITTED != 0;
        page += if frame { (view::size(found) / PAGE) as usize } else { 1 };
    }
    marks
}

/// A lookup in the definitions goes through the changes made to any frame, of
/// which each call makes a few, and each page is looked up at the end.
pub fn cost(run: &Recorded) -> u64 {
    let frames = view::frames(&run.dump).count() as u64;
    let pages =
        run.dump.regions.iter().map(|region| marks(region, by_frame(&run.dump)).len() as u64);
    (pages.sum::<u64>() + 20) * (frames + 4 * run.calls.len() as u64)
}

fn entry(entry: &Entry) -> String {
    format!("entry {} {} {}", entry.start, entry.length, KINDS[usize::from(entry.kind)])
}

fn call(call: &Call) -> String {
    let asks = |size, align, options: u8| {
        format!("(asks {size} {align} {} {})", options & 1 != 0, options & 2 != 0)
    };
    match *call {
        Call::Alloc { size, align, options } => format!("Alloc {}", asks(size, align, options)),
        Call::Take { size, align, options } => format!("Take {}", asks(size, align, options)),
        Call::Split(address) => format!("Split {address}"),
        Call::Free(address) => format!("Free {address}"),
        Call::Zero(address) => format!("Zero {address}"),
        Call::Dirty(address) => format!("Dirty {address}"),
        Call::Find(address) => format!("Find {address}"),
        Call::Queue(address) => format!("Queue {address}"),
        Call::Fill { address, offset, length, byte } => {
            format!("Fill {address} {offset} {length} {byte}")
        }
        Call::Write { address, offset, ref bytes } => {
            format!("Write {address} {offset} {}", byte_list(bytes))
        }
        Call::Read { address, offset, length } => format!("Read {address} {offset} {length}"),
        Call::Copy { target, target_offset, source, source_offset, length } => {
            format!("Copy {target} {target_offset} {source} {source_offset} {length}")
        }
        Call::Pcopy { target, target_offset, source, length } => {
            format!("Pcopy {target} {target_offset} {source} {length}")
        }
        Call::Round => "Round".into(),
        Call::Lend(pages) => format!("Lend {pages}"),
        Call::Back(pages) => format!("Back {pages}"),
        Call::Low => "Low".into(),
        Call::Stats => "Stats".into(),
    }
}

fn answer(answer: &Answer) -> String {
    match answer {
        Answer::Done { address, bytes } => format!("Done {address} {bytes}"),
        Answer::Refused(9) => "Refused NoFrame".into(),
        Answer::Refused(11) => "Refused Outside".into(),
        Answer::Refused(number) => unreachable!("no refusal {number} is on common ground"),
        Answer::Text(text) => format!("Text (bytes_of {text:?})"),
        Answer::Bytes(bytes) => format!("Bytes {}", byte_list(bytes)),
        Answer::Off(reason) => unreachable!("no recorded call is off common ground: {reason}"),
    }
}

fn byte_list(bytes: &[u8]) -> String {
    short::numbers(bytes.iter().map(|byte| u64::from(*byte)))
}
