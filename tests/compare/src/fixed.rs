//! Lists that are always compared, since chance would rarely make them: those of
//! the specification's table, the limits of a round and of a pass, the second
//! pass over regions, and frames of 1 GiB.

use oracle::{Call, Entry};

use crate::{
    map::PAGE,
    record::{record, Recorded},
};

/// The specification's script has this map: pages 256 to 271, the first a table.
const SCRIPT: &str = "region,1048576,65536,0";

/// Its T10: 504 small frames and one of 2 MiB.
const FOUR: &str = "region,2097152,4194304,0";

/// Five pages of tables, two small frames, one of 2 MiB at 4 MiB, one small.
const MEDIUM: &str = "region,4165632,2129920,0";

/// 2,065 pages of tables, three small frames and one of 1 GiB.
const LARGE: &str = "region,1065271296,1082212352,0";

/// Three times three managed pages, not in the order of their addresses.
const THREE: &str = "region,2097152,16384,0 region,3145728,16384,0 region,1048576,16384,0";

/// The lists with their names.
pub fn lists() -> Vec<(&'static str, Recorded)> {
    [
        ("no-region", "", no_region()),
        ("t7", SCRIPT, calls("16*alloc,4096,4096,0 low stats")),
        ("t8", SCRIPT, calls("4*alloc,4096,4096,0 low alloc,4096,4096,0 low")),
        ("t9", SCRIPT, calls("5*alloc,4096,4096,2 low alloc,4096,4096,2 low")),
        ("t10", FOUR, calls("find,4194304 find,4198400 find,2129920 find,2097152")),
        ("t11", MEDIUM, calls("6*alloc,4096,4096,0")),
        ("pass-limit", SCRIPT, pass_limit()),
        ("round-limit", MEDIUM, round_limit()),
        ("second-pass", THREE, second_pass()),
        ("zeroed-split", MEDIUM, zeroed_split()),
        ("queued-split", MEDIUM, queued_split()),
        ("held-1gib", LARGE, held_1gib()),
        ("split-1gib", LARGE, split_1gib()),
    ]
    .map(|(name, map, calls)| {
        let map: Vec<Entry> = map.split_whitespace().map(|line| line.parse().unwrap()).collect();
        (name, record(&map, &calls).unwrap_or_else(|reason| panic!("{name}: {reason}")))
    })
    .into()
}

/// Lines of a script, parted by spaces; `3*low` stands for three times `low`.
fn calls(text: &str) -> Vec<Call> {
    let many = |word: &str| {
        let (count, line) = word.split_once('*').unwrap_or(("1", word));
        vec![line.parse::<Call>().unwrap(); count.parse().unwrap()]
    };
    text.split_whitespace().flat_map(many).collect()
}

fn no_region() -> Vec<Call> {
    calls(
        "low alloc,4096,4096,0 alloc,2097152,4096,3 take,4096,4096,1 find,0 find,1099511627775 \
         3*round lend,18446744073709551615 lend,3 back,2 low",
    )
}

/// A pass ends at its 1,002nd round though memory is still low, and what it
/// freed is counted then.
fn pass_limit() -> Vec<Call> {
    calls("15*alloc,4096,4096,0 1000*round queue,1110016 round stats 3*round stats")
}

/// A round takes 100 of the queue at most.
fn round_limit() -> Vec<Call> {
    let pieces = (0..210).map(|piece| Call::Queue(4194304 + piece * PAGE));
    let rounds = calls("low 2*round stats 2*round low");
    calls("take,2097152,2097152,0").into_iter().chain(pieces).chain(rounds).collect()
}

/// The kind that was not asked for is taken from the first region that has it,
/// once no region has the kind that was.
fn second_pass() -> Vec<Call> {
    calls(
        "9*alloc,4096,4096,0 zero,1060864 zero,1056768 zero,3158016 \
         free,1060864 free,1056768 free,3158016 free,2105344 \
         alloc,4096,4096,1 2*alloc,4096,4096,0 free,3149824 2*alloc,4096,4096,1 \
         alloc,4096,4096,0 low stats",
    )
}

/// A large zeroed frame is split before dirty small ones are zeroed, but not for
/// a plain grant.
fn zeroed_split() -> Vec<Call> {
    calls(
        "alloc,2097152,2097152,0 zero,4194304 free,4194304 2*alloc,4096,4096,0 \
         alloc,4096,4096,1 2*alloc,4096,4096,0 alloc,2097152,2097152,1 read,6287360,0,4",
    )
}

/// An address is taken for what it is when the round meets it.
fn queued_split() -> Vec<Call> {
    calls(
        "alloc,2097152,2097152,1 queue,4194304 zero,4194304 split,4194304 round round \
         free,4198400 alloc,4096,4096,1 low stats",
    )
}

/// A frame of 1 GiB becomes 512 of 2 MiB, one of which a small grant splits.
fn held_1gib() -> Vec<Call> {
    calls(
        "alloc,1073741824,1073741824,2 find,1073741824 find,1075838976 low \
         free,1073741824 take,1073741824,4096,0 free,1075838976 free,1077936128 \
         3*alloc,4096,4096,0 zero,1073741824 copy,1082130432,0,1073741824,0,2097152 \
         alloc,2097152,2097152,0 alloc,4096,4096,1 find,1075843072 stats",
    )
}

/// A small grant splits a frame of 1 GiB, and a frame of 2 MiB out of it.
fn split_1gib() -> Vec<Call> {
    calls("3*alloc,4096,4096,1 alloc,4096,4096,0 2*alloc,2097152,4096,2")
}
