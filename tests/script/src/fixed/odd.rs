//! Fixed scripts with odd bytes, lengths and answer slices.

use super::Fixed;
use crate::case::{Lent, PROGRAM};

pub fn scripts() -> Vec<Fixed> {
    let short = [empty(0), empty(1), short_answer(1), short_answer(600)];
    let lines = [last_feed(), other_bytes(), lengths()];
    short.into_iter().chain(lines).collect()
}

/// No line needs room for the header all the same.
fn empty(missing: isize) -> Fixed {
    let mut script = Fixed::new("no line at all", Lent { spare: -missing, ..PROGRAM });
    if missing > 0 {
        script.printed.clear();
    }
    script
}

fn last_feed() -> Fixed {
    let mut script = Fixed::new("a last line without its line feed", PROGRAM);
    script.boot(1048576, 65536, 15);
    script.line("", "bad");
    script.line("low", "0 0");
    script.case.ended = false;
    script
}

/// Carriage returns, a byte order mark, and others than ASCII.
fn other_bytes() -> Fixed {
    let mut script = Fixed::new("other bytes", PROGRAM);
    script.line(&b"\xef\xbb\xbfregion,1048576,65536,0"[..], "bad");
    script.line(&b"region,1048576,65536,0\r"[..], "bad");
    script.boot(1048576, 65536, 15);
    let lines: [&[u8]; 9] = [
        b"low\r",
        b"\r",
        b"low\0",
        b"\0",
        b"l\xf6w",
        b"free,\xd9\xa1",
        b"free,1110016\xff",
        b"free,1110016\x80",
        b"free\xef\xbc\x8c1110016",
    ];
    lines.iter().for_each(|line| script.line(*line, "bad"));
    script.line("low", "0 0");
    script
}

/// Lines of 512 bytes and of 513, and very long ones.
fn lengths() -> Fixed {
    let mut script = Fixed::new("lengths of lines", PROGRAM);
    script.boot(1048576, 65536, 15);
    script.line(format!("lend,{:0>507}", 3), "0 3");
    script.line(format!("lend,{:0>508}", 3), "bad");
    script.line(format!("alloc,4096,{:0>499},0", 4096), "1110016 4096");
    script.line(format!("alloc,4096,{:0>500},0", 4096), "bad");
    for length in [512, 513, 514, 1023, 1024, 1025, 70_000] {
        script.line(vec![b'0'; length], "bad");
        script.line(vec![b','; length], "bad");
    }
    script.line("back,3", "0 0");
    script
}

/// Too little room for the answer: nothing is printed, nothing is done.
fn short_answer(missing: isize) -> Fixed {
    let mut script = Fixed::new("a short answer slice", PROGRAM);
    script.boot(1048576, 65536, 15);
    script.line("alloc,4096,4096,1", "1110016 4096");
    script.case.lent.spare = -missing;
    script.printed.clear();
    script
}
