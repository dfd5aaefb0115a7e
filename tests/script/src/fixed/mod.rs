//! Fixed scripts, each line with what it prints: those of cases.txt, and some that
//! are long, or whose lines hold other bytes than a text file should.
//!
//! In cases.txt a script follows its name, on a line that starts with `#`. A line
//! is followed by ` = ` and what it prints: a refusal's number, the two numbers of
//! an accepted call, the eleven of `stats`, or `bad`; without that, nothing. `M`
//! stands for the map of the paper's example and its boot, `B` for T10's. `lent`
//! gives lengths of records, memory and queue; without it they are the program's.

mod long;
mod odd;

use crate::case::{Case, Lent, PROGRAM};

pub struct Fixed {
    pub name: String,
    pub case: Case,
    pub printed: Vec<u8>,
}

pub fn scripts() -> Vec<Fixed> {
    let mut scripts = from_text(include_str!("../../cases.txt"));
    scripts.extend(long::scripts());
    scripts.extend(odd::scripts());
    scripts
}

impl Fixed {
    fn new(name: &str, lent: Lent) -> Fixed {
        let case = Case { lines: Vec::new(), ended: true, lent };
        let printed = b"op,refusal,address,bytes\n".to_vec();
        Fixed { name: name.into(), case, printed }
    }

    /// A line and what it prints, as cases.txt has it.
    fn line(&mut self, line: impl Into<Vec<u8>>, answer: &str) {
        let line = line.into();
        let op = String::from_utf8_lossy(&line).split(',').next().unwrap_or("").to_string();
        self.printed.extend(expanded(&op, answer).into_bytes());
        self.case.lines.push(line);
    }

    /// A region with so many managed pages, and the boot.
    fn boot(&mut self, start: u64, length: u64, managed: usize) {
        let Lent { records, memory, .. } = &mut self.case.lent;
        (*records, *memory) = ((*records).max(16 * managed), (*memory).max(4096 * managed));
        self.line(format!("region,{start},{length},0"), "");
        self.line("boot", &format!("0 {}", 4096 * managed));
    }
}

/// An answer in full.
fn expanded(op: &str, answer: &str) -> String {
    let fields: Vec<&str> = answer.split_whitespace().collect();
    match fields[..] {
        [] => String::new(),
        ["bad"] => "bad,17,0,0\n".into(),
        [number] => format!("{op},{number},0,0\n"),
        [address, bytes] => format!("{op},0,{address},{bytes}\n"),
        [total, a, f, r, idle, i, kernel, k, page, p, loaned] => format!(
            "memory status (in frames):\n\
             \x20      total: {total} -- a: {a} f: {f} r: {r}, 0 waiters\n\
             \x20       idle: {idle} {i}%\n\
             \x20     kernel: {kernel} {k}%\n\
             \x20       page: {page} {p}% ({loaned} loaned)\n"
        ),
        _ => panic!("an answer of another form: {answer}"),
    }
}

fn from_text(text: &str) -> Vec<Fixed> {
    let mut scripts: Vec<Fixed> = Vec::new();
    for line in text.lines().filter(|line| !line.is_empty()) {
        if let Some(name) = line.strip_prefix("# ") {
            scripts.push(Fixed::new(name, PROGRAM));
            continue;
        }
        let script = scripts.last_mut().expect("a name before the first script");
        match line.split_whitespace().collect::<Vec<_>>()[..] {
            ["M"] => script.boot(1048576, 65536, 15),
            ["B"] => script.boot(2097152, 4194304, 1016),
            ["lent", records, memory, queue] => {
                let [records, memory, queue] = [records, memory, queue].map(number);
                script.case.lent = Lent { records, memory, queue, ..PROGRAM };
            }
            _ => {
                let (line, answer) = line.split_once(" = ").unwrap_or((line, ""));
                script.line(line, answer);
            }
        }
    }
    scripts
}

fn number(field: &str) -> usize {
    field.parse().expect("a number")
}
