//! Lines that can't be read, each made from one that can, and odd forms of lines
//! that can.

use crate::random::Random;

/// The sorts of bad lines. The last ones are lines that could be read elsewhere.
pub const SORTS: [&str; 19] = [
    "another op",
    "another letter case",
    "a field too few",
    "a field too many",
    "a trailing comma",
    "an empty line",
    "an empty field",
    "over 512 bytes",
    "a very long line",
    "a number over 2^64 - 1",
    "KIND over 2",
    "OPT over 7",
    "BYTE over 255",
    "a carriage return",
    "another character",
    "a byte order mark",
    "a region after boot",
    "a second boot",
    "a call before boot",
];

/// Those that can be made from any line.
const MADE: usize = 16;

/// A bad line and its sort.
pub fn line(random: &mut Random, good: &str) -> (&'static str, Vec<u8>) {
    let sort = *random.pick(&SORTS[..MADE]).expect("a sort");
    (sort, spoilt(random, sort, good))
}

fn spoilt(random: &mut Random, sort: &str, good: &str) -> Vec<u8> {
    match sort {
        "another op" => other_op(random, good).into(),
        "another letter case" => other_case(random, good),
        "a field too few" => fewer(good).into(),
        "a field too many" => format!("{good},{}", random.within(0..=4096)).into(),
        "a trailing comma" => format!("{good},").into(),
        "an empty line" => Vec::new(),
        "an empty field" => with_field(random, good, |_, _| String::new()).into(),
        "over 512 bytes" => padded(random, good, 513).into(),
        "a very long line" => very_long(random),
        "a number over 2^64 - 1" => with_field(random, good, |random, _| over(random)).into(),
        "KIND over 2" => format!("region,1048576,65536,{}", above(random, 3)).into(),
        "OPT over 7" => format!("alloc,4096,4096,{}", above(random, 8)).into(),
        "BYTE over 255" => format!("fill,1110016,0,1,{}", above(random, 256)).into(),
        "a carriage return" => format!("{good}\r").into(),
        "another character" => other_character(random, good),
        _ => ["\u{feff}", good].concat().into(),
    }
}

fn other_op(random: &mut Random, good: &str) -> String {
    let ops = ["abort", "join", "attach", "wait", "op", "bad", "lo", "loww", "p", "regions", ""];
    let op = *random.pick(&ops).expect("an op");
    match good.split_once(',') {
        Some((_, numbers)) => format!("{op},{numbers}"),
        None => op.into(),
    }
}

/// One letter is made a capital.
fn other_case(random: &mut Random, good: &str) -> Vec<u8> {
    let mut line: Vec<u8> = good.into();
    let letters = line.iter().filter(|byte| byte.is_ascii_lowercase()).count() as u64;
    let at = random.within(0..=letters - 1) as usize;
    line[at].make_ascii_uppercase();
    line
}

/// Without its last field; a line of one field loses its last letter.
fn fewer(good: &str) -> String {
    match good.rsplit_once(',') {
        Some((fields, _)) => fields.into(),
        None => good[..good.len() - 1].into(),
    }
}

/// The line with one number replaced; without numbers, one is put behind it.
fn with_field(
    random: &mut Random,
    good: &str,
    new: impl Fn(&mut Random, &str) -> String,
) -> String {
    let mut fields: Vec<String> = good.split(',').map(String::from).collect();
    if fields.len() == 1 {
        fields.push(String::new());
    }
    let at = random.within(1..=fields.len() as u64 - 1) as usize;
    fields[at] = new(random, &fields[at]);
    fields.join(",")
}

/// 2^64 or more.
fn over(random: &mut Random) -> String {
    match random.within(0..=5) {
        0 => "18446744073709551616".into(),
        1 => "18446744073709551620".into(),
        2 => "000018446744073709551616".into(),
        3 => (u128::from(u64::MAX) + 1 + u128::from(random.next())).to_string(),
        4 => "340282366920938463463374607431768211456".into(),
        _ => format!("1{}", "0".repeat(random.within(20..=80) as usize)),
    }
}

fn above(random: &mut Random, least: u64) -> u64 {
    match random.within(0..=3) {
        0 => least,
        1 => least + (1 << random.within(8..=63)) - (least % 256),
        2 => u64::MAX,
        _ => random.within(least..=2 * least + 1),
    }
}

/// The line with zeros before a number, so that it has so many bytes.
pub fn padded(random: &mut Random, good: &str, bytes: usize) -> String {
    let missing = bytes.saturating_sub(good.len());
    with_field(random, good, |_, field| format!("{}{field}", "0".repeat(missing)))
}

/// A line with more zeros before some number than needed.
pub fn with_zeros(random: &mut Random, good: &str) -> String {
    let count = random.within(1..=25) as usize;
    padded(random, good, good.len() + count)
}

fn very_long(random: &mut Random) -> Vec<u8> {
    let length = random.within(513..=3000) as usize;
    let fill = *random.pick(b"0,a\0\xff").expect("a byte");
    let mut line = b"free,".to_vec();
    line.resize(length, fill);
    line
}

/// The line with a byte put somewhere or changed to one that is neither a letter
/// of an op, a comma nor a digit.
fn other_character(random: &mut Random, good: &str) -> Vec<u8> {
    let others = b"\0\t\x0b\r \"'+-./:;_x\x7f\x80\xa0\xb2\xff";
    let other = *random.pick(others).expect("a byte");
    let mut line: Vec<u8> = good.into();
    let at = random.within(0..=line.len() as u64) as usize;
    if at < line.len() && random.percent(50) {
        line[at] = other;
    } else {
        line.insert(at, other);
    }
    line
}
