//! A run, in a child process of its own, because the kernel's state is in
//! statics that are set once. The parent sends a line (a call, `dump`, or
//! `bytes,ADDRESS,LENGTH`); the child answers with a count of bytes and them.

use std::{
    ffi::c_int,
    io::{self, BufRead, BufReader, Read, Write},
    os::unix::net::UnixStream,
    ptr::null_mut,
};

use crate::{call::number, store::Store, Answer, BadLine, Call, Dump, Entry};

extern "C" {
    fn fork() -> c_int;
    fn kill(process: c_int, signal: c_int) -> c_int;
    fn waitpid(process: c_int, status: *mut c_int, options: c_int) -> c_int;
    fn _exit(status: c_int) -> !;
}

const SIGKILL: c_int = 9;

/// A run of calls from one boot. Its process ends when it is dropped.
pub struct Run {
    child: c_int,
    stream: BufReader<UnixStream>,
    booted: Answer,
}

impl Run {
    /// Boots a map. Call it while no other thread does anything: the child has
    /// a copy of the calling thread only, and a lock that another holds just
    /// then would stay locked in it.
    pub fn start(map: &[Entry]) -> Run {
        let (ours, theirs) = UnixStream::pair().expect("a pair of sockets");
        // Safety: the child never returns from `serve`.
        let child = unsafe { fork() };
        assert!(child >= 0, "fork: {}", io::Error::last_os_error());
        if child == 0 {
            drop(ours);
            serve(map, theirs);
        }
        drop(theirs);
        let booted = Answer::Off(String::new());
        let mut run = Run { child, stream: BufReader::new(ours), booted };
        run.booted = Answer::decode(&run.receive("boot"));
        run
    }

    /// What boot answered: `Done` with the managed bytes, or `Off`.
    pub fn booted(&self) -> &Answer {
        &self.booted
    }

    pub fn call(&mut self, call: &Call) -> Answer {
        Answer::decode(&self.ask(&call.to_string()))
    }

    /// The whole state; off common ground, that after the last call on it.
    pub fn dump(&mut self) -> Dump {
        let text = String::from_utf8(self.ask("dump")).expect("text");
        text.parse().expect("a dump")
    }

    /// Bytes of physical memory, which must be managed and of one region.
    pub fn bytes(&mut self, address: u64, length: u64) -> Vec<u8> {
        self.try_bytes(address, length).expect("a managed range of one region")
    }

    /// As `bytes`, or nothing where the range isn't managed or of one region.
    pub fn try_bytes(&mut self, address: u64, length: u64) -> Option<Vec<u8>> {
        match Answer::decode(&self.ask(&format!("bytes,{address},{length}"))) {
            Answer::Bytes(bytes) => Some(bytes),
            _ => None,
        }
    }

    fn ask(&mut self, line: &str) -> Vec<u8> {
        // If the child has gone, receiving says so.
        let _ = self.stream.get_mut().write_all(format!("{line}\n").as_bytes());
        self.receive(line)
    }

    fn receive(&mut self, line: &str) -> Vec<u8> {
        let mut length = [0; 8];
        let mut message = Vec::new();
        self.stream
            .read_exact(&mut length)
            .and_then(|()| {
                message.resize(u64::from_le_bytes(length) as usize, 0);
                self.stream.read_exact(&mut message)
            })
            .unwrap_or_else(|_| panic!("the oracle ended at `{line}`; standard error says why"));
        message
    }
}

impl Drop for Run {
    fn drop(&mut self) {
        // Safety: the child is ours and nobody else waits for it, so the number
        // can't have passed to another process.
        unsafe {
            kill(self.child, SIGKILL);
            while waitpid(self.child, null_mut(), 0) < 0
                && io::Error::last_os_error().kind() == io::ErrorKind::Interrupted
            {}
        }
    }
}

/// The child's whole life. It ends without the parent's exit handlers, also
/// where the kernel's text panics, on whichever thread.
fn serve(map: &[Entry], stream: UnixStream) -> ! {
    std::panic::set_hook(Box::new(|panic| {
        let _ = writeln!(io::stderr(), "oracle: {panic}");
        // Safety: ends the process.
        unsafe { _exit(1) }
    }));
    // An error means that the parent has gone.
    let _ = answer_lines(map, stream);
    // Safety: ends the process.
    unsafe { _exit(0) }
}

fn answer_lines(map: &[Entry], mut stream: UnixStream) -> io::Result<()> {
    let lines = BufReader::new(stream.try_clone()?).lines();
    let mut send = |message: Vec<u8>| {
        stream.write_all(&[&(message.len() as u64).to_le_bytes(), &message[..]].concat())
    };
    let (mut store, booted) = Store::boot(map);
    send(booted.encode())?;
    for line in lines {
        send(answer_line(&mut store, &line?).expect("the parent's own lines"))?;
    }
    Ok(())
}

fn answer_line(store: &mut Store, line: &str) -> Result<Vec<u8>, BadLine> {
    match line.split(',').collect::<Vec<_>>()[..] {
        ["dump"] => Ok(store.dump().to_string().into()),
        ["bytes", address, length] => Ok(store.bytes(number(address)?, number(length)?).encode()),
        _ => Ok(store.call(&line.parse()?).encode()),
    }
}
