//! The entries of a boot map and the calls of a run. Each is read from and
//! written as a line of the script program: fields parted by commas, numbers in
//! decimal digits. `write` (bytes in hexadecimal) and `read` are our own.

use std::{fmt, str::FromStr};

/// A line that can't be read.
#[derive(Clone, Copy, Debug, PartialEq, Eq)]
pub struct BadLine;

/// An entry of the boot map. Kinds: 0 UsableRam, 1 Reserved, 2 BootloaderReserved.
#[derive(Clone, Copy, Debug, PartialEq, Eq)]
pub struct Entry {
    pub start: u64,
    pub length: u64,
    pub kind: u8,
}

/// Bits of the options of `alloc` and `take`.
pub const ZEROED: u8 = 1;
pub const KERNEL: u8 = 2;
pub const WAIT_OK: u8 = 4;

/// A call. A bare number is a frame's address, or pages for `Lend` and `Back`.
#[derive(Clone, Debug, PartialEq, Eq)]
pub enum Call {
    Alloc { size: u64, align: u64, options: u8 },
    Take { size: u64, align: u64, options: u8 },
    Split(u64),
    Free(u64),
    Zero(u64),
    Dirty(u64),
    Find(u64),
    Queue(u64),
    Fill { address: u64, offset: u64, length: u64, byte: u8 },
    Write { address: u64, offset: u64, bytes: Vec<u8> },
    Read { address: u64, offset: u64, length: u64 },
    Copy { target: u64, target_offset: u64, source: u64, source_offset: u64, length: u64 },
    Pcopy { target: u64, target_offset: u64, source: u64, length: u64 },
    Round,
    Lend(u64),
    Back(u64),
    Low,
    Stats,
}

impl FromStr for Entry {
    type Err = BadLine;

    fn from_str(line: &str) -> Result<Entry, BadLine> {
        match line.split(',').collect::<Vec<_>>()[..] {
            ["region", start, length, kind] => Ok(Entry {
                start: number(start)?,
                length: number(length)?,
                kind: at_most(2, kind)?,
            }),
            _ => Err(BadLine),
        }
    }
}

impl fmt::Display for Entry {
    fn fmt(&self, f: &mut fmt::Formatter) -> fmt::Result {
        write!(f, "region,{},{},{}", self.start, self.length, self.kind)
    }
}

impl FromStr for Call {
    type Err = BadLine;

    fn from_str(line: &str) -> Result<Call, BadLine> {
        Ok(match line.split(',').collect::<Vec<_>>()[..] {
            ["alloc", size, align, options] => Call::Alloc {
                size: number(size)?,
                align: number(align)?,
                options: at_most(7, options)?,
            },
            ["take", size, align, options] => Call::Take {
                size: number(size)?,
                align: number(align)?,
                options: at_most(7, options)?,
            },
            ["split", a] => Call::Split(number(a)?),
            ["free", a] => Call::Free(number(a)?),
            ["zero", a] => Call::Zero(number(a)?),
            ["dirty", a] => Call::Dirty(number(a)?),
            ["find", a] => Call::Find(number(a)?),
            ["queue", a] => Call::Queue(number(a)?),
            ["fill", a, offset, length, byte] => Call::Fill {
                address: number(a)?,
                offset: number(offset)?,
                length: number(length)?,
                byte: at_most(255, byte)?,
            },
            ["write", a, offset, hex] => {
                Call::Write { address: number(a)?, offset: number(offset)?, bytes: from_hex(hex)? }
            }
            ["read", a, offset, length] => {
                Call::Read { address: number(a)?, offset: number(offset)?, length: number(length)? }
            }
            ["copy", target, target_offset, source, source_offset, length] => Call::Copy {
                target: number(target)?,
                target_offset: number(target_offset)?,
                source: number(source)?,
                source_offset: number(source_offset)?,
                length: number(length)?,
            },
            ["pcopy", target, target_offset, source, length] => Call::Pcopy {
                target: number(target)?,
                target_offset: number(target_offset)?,
                source: number(source)?,
                length: number(length)?,
            },
            ["round"] => Call::Round,
            ["lend", n] => Call::Lend(number(n)?),
            ["back", n] => Call::Back(number(n)?),
            ["low"] => Call::Low,
            ["stats"] => Call::Stats,
            _ => return Err(BadLine),
        })
    }
}

impl fmt::Display for Call {
    fn fmt(&self, f: &mut fmt::Formatter) -> fmt::Result {
        f.write_str(self.op())?;
        match self {
            Call::Alloc { size, align, options } | Call::Take { size, align, options } => {
                write!(f, ",{size},{align},{options}")
            }
            Call::Split(n) | Call::Free(n) | Call::Zero(n) | Call::Dirty(n) => write!(f, ",{n}"),
            Call::Find(n) | Call::Queue(n) | Call::Lend(n) | Call::Back(n) => write!(f, ",{n}"),
            Call::Fill { address, offset, length, byte } => {
                write!(f, ",{address},{offset},{length},{byte}")
            }
            Call::Write { address, offset, bytes } => {
                write!(f, ",{address},{offset},{}", to_hex(bytes))
            }
            Call::Read { address, offset, length } => write!(f, ",{address},{offset},{length}"),
            Call::Copy { target, target_offset, source, source_offset, length } => {
                write!(f, ",{target},{target_offset},{source},{source_offset},{length}")
            }
            Call::Pcopy { target, target_offset, source, length } => {
                write!(f, ",{target},{target_offset},{source},{length}")
            }
            Call::Round | Call::Low | Call::Stats => Ok(()),
        }
    }
}

impl Call {
    /// The line's first field.
    pub fn op(&self) -> &'static str {
        match self {
            Call::Alloc { .. } => "alloc",
            Call::Take { .. } => "take",
            Call::Split(_) => "split",
            Call::Free(_) => "free",
            Call::Zero(_) => "zero",
            Call::Dirty(_) => "dirty",
            Call::Find(_) => "find",
            Call::Queue(_) => "queue",
            Call::Fill { .. } => "fill",
            Call::Write { .. } => "write",
            Call::Read { .. } => "read",
            Call::Copy { .. } => "copy",
            Call::Pcopy { .. } => "pcopy",
            Call::Round => "round",
            Call::Lend(_) => "lend",
            Call::Back(_) => "back",
            Call::Low => "low",
            Call::Stats => "stats",
        }
    }
}

/// One or more decimal digits; Rust's own reading would take a sign as well.
pub fn number(field: &str) -> Result<u64, BadLine> {
    if !field.bytes().all(|byte| byte.is_ascii_digit()) {
        return Err(BadLine);
    }
    field.parse().map_err(|_| BadLine)
}

fn at_most(limit: u8, field: &str) -> Result<u8, BadLine> {
    u8::try_from(number(field)?).ok().filter(|&n| n <= limit).ok_or(BadLine)
}

pub fn to_hex(bytes: &[u8]) -> String {
    bytes.iter().map(|byte| format!("{byte:02x}")).collect()
}

fn from_hex(field: &str) -> Result<Vec<u8>, BadLine> {
    let digit = |byte: u8| (byte as char).to_digit(16).ok_or(BadLine);
    if !field.len().is_multiple_of(2) {
        return Err(BadLine);
    }
    field
        .as_bytes()
        .chunks(2)
        .map(|pair| Ok((digit(pair[0])? * 16 + digit(pair[1])?) as u8))
        .collect()
}
