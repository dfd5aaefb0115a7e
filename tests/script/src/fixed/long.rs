//! Fixed scripts that are long, or over large frames.

use super::Fixed;
use crate::case::{Contents, Lent, PROGRAM};

pub fn scripts() -> Vec<Fixed> {
    let large = [t11(), t12(), one_large_frame()];
    let rounds = [round_of_100(), round_with_repeats(), round_limit()];
    large.into_iter().chain(rounds).collect()
}

/// The 504 small frames, then child 0 of the large one, then child 511.
fn t11() -> Fixed {
    let mut script = Fixed::new("T11", PROGRAM);
    script.boot(0x200000, 0x400000, 1016);
    for page in (0x208..0x400).rev() {
        script.line("alloc,4096,4096,0", &format!("{} 4096", page << 12));
    }
    for page in [0x400, 0x5FF, 0x5FE] {
        script.line("alloc,4096,4096,0", &format!("{} 4096", page << 12));
    }
    script
}

/// Large memory holds zeros at first, so that nobody has to write it.
const VAST: Lent = Lent { contents: Contents::Memory(0), ..PROGRAM };

fn t12() -> Fixed {
    let mut script = Fixed::new("T12", VAST);
    script.boot(0, 1 << 31, 520_192);
    let lines = [
        ("find,16777215", "11"),
        ("find,16777216", "16777216 2097152"),
        ("find,1071644672", "1071644672 2097152"),
        ("find,1073741824", "1073741824 1073741824"),
        ("find,1073745920", "1073745920 0"),
        ("find,2147483647", "2147479552 0"),
        ("alloc,1073741824,1073741824,2", "1073741824 1073741824"),
        ("alloc,1073741824,1073741824,0", "9"),
        ("alloc,2097153,1,4", "10"),
        ("alloc,2097152,2097152,0", "1071644672 2097152"),
        ("alloc,4096,4096,0", "1069547520 4096"),
        ("alloc,4096,4096,0", "1071640576 4096"),
        ("low", "0 1"),
        ("stats", "524288 262658 0 0 261630 49 262144 50 514 0 0"),
        ("free,1073741824", "1073741824 1073741824"),
        ("low", "0 0"),
    ];
    lines.iter().for_each(|(line, answer)| script.line(*line, answer));
    script
}

/// One frame of 1 GiB, split at both levels, held and listed.
fn one_large_frame() -> Fixed {
    let mut script = Fixed::new("one frame of 1 GiB", VAST);
    script.boot((1 << 30) - 2065 * 4096, (1 << 30) + 2065 * 4096, 262_144);
    let lines = [
        ("take,1073741824,1,2", "1073741824 1073741824"),
        ("find,1075838976", "1075838976 2097152"),
        ("split,1075838976", "1075838976 2097152"),
        ("find,1075843072", "1075843072 4096"),
        ("split,1075843072", "1075843072 4096"),
        ("free,1075843072", "1075843072 4096"),
        ("free,1077936128", "1077936128 2097152"),
        ("alloc,4096,4096,0", "1075843072 4096"),
        ("alloc,4096,4096,1", "1077936128 4096"),
        ("alloc,4096,4096,0", "1080029184 4096"),
        ("alloc,2097152,2097152,0", "9"),
        ("stats", "264209 262147 513 0 2575 0 261631 99 3 0 0"),
    ];
    lines.iter().for_each(|(line, answer)| script.line(*line, answer));
    script
}

/// A round frees its 100 though the store stops being low midway.
fn round_of_100() -> Fixed {
    let mut script = Fixed::new("a round of 100", Lent { queue: 120, ..PROGRAM });
    script.boot(4096, 129 * 4096, 127);
    let frames: Vec<u64> = (10..130).rev().map(|page| page * 4096).collect();
    for frame in &frames {
        script.line("alloc,4096,4096,0", &format!("{frame} 4096"));
    }
    for frame in &frames {
        script.line(format!("queue,{frame}"), &format!("{frame} 4096"));
    }
    script.line(format!("queue,{}", frames[0]), "16");
    script.line("low", "0 1");
    script.line("round", "1 100");
    script.line("stats", "129 120 100 0 109 84 0 0 20 15 0");
    script.line("round", "1 100");
    script.line("round", "0 0");
    script.line("stats", "129 120 100 100 109 84 0 0 20 15 0");
    script
}

/// What a round drops counts in its 100: 79 repeats of one frame do here.
fn round_with_repeats() -> Fixed {
    let mut script = Fixed::new("a round that drops repeats", Lent { queue: 120, ..PROGRAM });
    script.boot(4096, 129 * 4096, 127);
    let frames: Vec<u64> = (10..130).rev().map(|page| page * 4096).collect();
    for frame in &frames {
        script.line("alloc,4096,4096,0", &format!("{frame} 4096"));
    }
    for frame in frames[..40].iter().chain([&frames[40]; 80]) {
        script.line(format!("queue,{frame}"), &format!("{frame} 4096"));
    }
    script.line("round", "1 21");
    script.line("round", "2 41");
    script.line("round", "3 41");
    script.line("stats", "129 120 41 0 50 38 0 0 79 61 0");
    script
}

/// The 1,002nd worked round ends the pass, and the next call starts another.
fn round_limit() -> Fixed {
    let mut script = Fixed::new("the round limit", PROGRAM);
    script.boot(1048576, 65536, 15);
    for page in (0x10A..=0x10F).rev() {
        script.line("alloc,4096,4096,0", &format!("{} 4096", page << 12));
    }
    script.line("queue,1110016", "1110016 4096");
    script.line("round", "1 1");
    for round in 2..=1001 {
        script.line("round", &format!("{round} 1"));
    }
    script.line("queue,1105920", "1105920 4096");
    script.line("alloc,4096,4096,0", "1110016 4096");
    script.line("round", "1002 2");
    script.line("stats", "16 7 2 2 11 68 0 0 5 31 0");
    script.line("round", "1 0");
    script
}
