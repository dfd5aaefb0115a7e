//! Lines, and how they are read: "fields in fixed order parted by commas, no
//! quoting".

/// `region,START,LENGTH,KIND`.
#[derive(Clone, Copy, Debug, PartialEq)]
pub struct Entry {
    pub start: u64,
    pub length: u64,
    pub kind: u64,
}

/// `,SIZE,ALIGN,OPT`.
#[derive(Clone, Copy)]
pub struct Asked {
    pub size: u64,
    pub align: u64,
    pub zeroed: bool,
    pub kernel: bool,
    pub wait_ok: bool,
}

/// Bytes of a frame.
#[derive(Clone, Copy)]
pub struct Range {
    pub address: u64,
    pub offset: u64,
    pub length: u64,
}

pub enum Line {
    Region(Entry),
    Boot,
    Call(Call),
}

/// A bare number is an address, or a count of pages for `Lend` and `Back`.
pub enum Call {
    Alloc(Asked),
    Take(Asked),
    Split(u64),
    Free(u64),
    Zero(u64),
    Dirty(u64),
    Find(u64),
    Queue(u64),
    Fill(Range, u8),
    Copy { target: Range, source: Range },
    Pcopy { target: Range, source: u64 },
    Round,
    Lend(u64),
    Back(u64),
    Low,
    Stats,
}

/// More bytes than these, the line feed left out, can't be read.
const LONGEST: usize = 512;

const ZEROED: u64 = 1;
const KERNEL: u64 = 2;
const WAIT_OK: u64 = 4;

/// The lines of a script: "a line ends at a line feed, which the last may lack".
pub fn split(script: &[u8]) -> Vec<&[u8]> {
    let mut lines: Vec<&[u8]> = script.split(|&byte| byte == b'\n').collect();
    if lines.last().is_some_and(|rest| rest.is_empty()) {
        lines.pop();
    }
    lines
}

/// None where the line can't be read.
pub fn read(line: &[u8]) -> Option<Line> {
    if line.len() > LONGEST {
        return None;
    }
    let mut fields = line.split(|&byte| byte == b',');
    let op = fields.next()?;
    let numbers: Vec<u64> = fields.map(number).collect::<Option<_>>()?;
    let call = match (op, &numbers[..]) {
        (b"region", &[start, length, kind]) if kind <= 2 => {
            return Some(Line::Region(Entry { start, length, kind }))
        }
        (b"boot", &[]) => return Some(Line::Boot),
        (b"alloc", &[size, align, opt]) => Call::Alloc(asked(size, align, opt)?),
        (b"take", &[size, align, opt]) => Call::Take(asked(size, align, opt)?),
        (b"split", &[address]) => Call::Split(address),
        (b"free", &[address]) => Call::Free(address),
        (b"zero", &[address]) => Call::Zero(address),
        (b"dirty", &[address]) => Call::Dirty(address),
        (b"find", &[address]) => Call::Find(address),
        (b"queue", &[address]) => Call::Queue(address),
        (b"fill", &[address, offset, length, byte]) => {
            Call::Fill(Range { address, offset, length }, u8::try_from(byte).ok()?)
        }
        (b"copy", &[target, to, source, from, length]) => Call::Copy {
            target: Range { address: target, offset: to, length },
            source: Range { address: source, offset: from, length },
        },
        (b"pcopy", &[target, to, source, length]) => {
            Call::Pcopy { target: Range { address: target, offset: to, length }, source }
        }
        (b"round", &[]) => Call::Round,
        (b"lend", &[pages]) => Call::Lend(pages),
        (b"back", &[pages]) => Call::Back(pages),
        (b"low", &[]) => Call::Low,
        (b"stats", &[]) => Call::Stats,
        _ => return None,
    };
    Some(Line::Call(call))
}

/// "a number is one or more decimal digits", and none is over 2^64 - 1.
fn number(field: &[u8]) -> Option<u64> {
    if field.is_empty() {
        return None;
    }
    let mut value: u64 = 0;
    for byte in field {
        if !(b'0'..=b'9').contains(byte) {
            return None;
        }
        value = value.checked_mul(10)?.checked_add((byte - b'0').into())?;
    }
    Some(value)
}

/// "OPT (1 ZEROED + 2 KERNEL + 4 WAIT_OK)".
fn asked(size: u64, align: u64, opt: u64) -> Option<Asked> {
    if opt > ZEROED + KERNEL + WAIT_OK {
        return None;
    }
    Some(Asked {
        size,
        align,
        zeroed: opt & ZEROED != 0,
        kernel: opt & KERNEL != 0,
        wait_ok: opt & WAIT_OK != 0,
    })
}
