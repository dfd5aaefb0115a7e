//! What a call answers, how the script program prints it, and how it travels
//! from the process that holds the kernel's state: a letter for the case, then
//! its numbers in 8 little-endian bytes each, or its text or bytes.

use crate::call::to_hex;

#[derive(Clone, Debug, PartialEq, Eq)]
pub enum Answer {
    /// The last two columns of the printed line: for most calls the address of
    /// the frame and a count of bytes.
    Done { address: u64, bytes: u64 },
    /// A refusal's number.
    Refused(u8),
    /// The lines of `stats`.
    Text(String),
    /// The bytes that were read.
    Bytes(Vec<u8>),
    /// The call is off common ground, for the reason given.
    Off(String),
}

impl Answer {
    /// The answer as printed, with its line feed.
    pub fn line(&self, op: &str) -> String {
        match self {
            Answer::Done { address, bytes } => format!("{op},0,{address},{bytes}\n"),
            Answer::Refused(number) => format!("{op},{number},0,0\n"),
            Answer::Text(text) => text.clone(),
            Answer::Bytes(bytes) => format!("{op},0,{}\n", to_hex(bytes)),
            Answer::Off(reason) => format!("off,{reason}\n"),
        }
    }

    pub(crate) fn encode(self) -> Vec<u8> {
        match self {
            Answer::Done { address, bytes } => {
                [&b"D"[..], &address.to_le_bytes(), &bytes.to_le_bytes()].concat()
            }
            Answer::Refused(number) => vec![b'R', number],
            Answer::Text(text) => [b"T", text.as_bytes()].concat(),
            Answer::Bytes(bytes) => [b"B", &bytes[..]].concat(),
            Answer::Off(reason) => [b"O", reason.as_bytes()].concat(),
        }
    }

    pub(crate) fn decode(message: &[u8]) -> Answer {
        let (&case, rest) = message.split_first().expect("a case");
        let number = |at: usize| u64::from_le_bytes(rest[at..at + 8].try_into().unwrap());
        let text = || String::from_utf8(rest.to_vec()).expect("text");
        match case {
            b'D' => Answer::Done { address: number(0), bytes: number(8) },
            b'R' => Answer::Refused(rest[0]),
            b'T' => Answer::Text(text()),
            b'B' => Answer::Bytes(rest.to_vec()),
            b'O' => Answer::Off(text()),
            _ => panic!("no answer starts with {case}"),
        }
    }
}
