//! The calls in another process: a program that reads calls from its standard input and writes what each left to its
//! standard output. So the proved library is compared where this machine cannot link it but can run it.
//!
//! A call is a byte that says which, 0 for `replay_trace`, 1 for `other_edition`, 2 for `trace_heard`, 3 for
//! `trace_counts`, 4 for a trace that is stepped (see `steps`) and 5 for one that is stepped with a table (see `beside`), a byte that is the address asked for in `trace_heard` and 0 in the others, the lengths of the bytes that are lent and of the buffer, 8 bytes each, most
//! significant first, then these bytes and the buffer. What it left is the number, 8 bytes, a byte that is 1 if nothing but the
//! buffer was changed, and the buffer.

use super::beside::oracle_heard_trace;
use crate::counts::trace_counts;
use crate::editions::other_edition;
use crate::heard::trace_heard;
use crate::trace::replay_trace;
use std::cell::RefCell;
use std::io::{Error, ErrorKind, Read, Result, Write};
use std::panic::resume_unwind;
use std::process::{Child, Command, Stdio};

/// Which call is made.
const REPLAY_TRACE: u8 = 0;
const OTHER_EDITION: u8 = 1;
const TRACE_HEARD: u8 = 2;
const TRACE_COUNTS: u8 = 3;
const STEP_TRACE: u8 = 4;
const STEP_HEARD_TRACE: u8 = 5;

/// A program with its arguments, and the process that runs it. After a failure it is started anew, so that a trace that
/// ends it can be made short.
pub struct Program {
    words: Vec<String>,
    running: RefCell<Option<Child>>,
}

impl Program {
    /// Starts the program.
    pub fn start(words: &[String]) -> Result<Program> {
        let running = RefCell::new(Some(start(words)?));
        Ok(Program { words: words.to_vec(), running })
    }

    /// Has the program replay a trace.
    pub fn replay_trace(&self, trace: &[u8], answers: &mut [u8]) -> u64 {
        self.make([REPLAY_TRACE, 0], trace, answers)
    }

    /// Has the program move a header.
    pub fn other_edition(&self, header: &[u8], out: &mut [u8]) -> u64 {
        self.make([OTHER_EDITION, 0], header, out)
    }

    /// Asks the program who was heard.
    pub fn trace_heard(&self, trace: &[u8], address: u8, entry: &mut [u8]) -> u64 {
        self.make([TRACE_HEARD, address], trace, entry)
    }

    /// Asks the program for the counts.
    pub fn trace_counts(&self, trace: &[u8], counts: &mut [u8]) -> u64 {
        self.make([TRACE_COUNTS, 0], trace, counts)
    }

    /// Has the program step a trace one entry at a time.
    pub fn step_trace(&self, trace: &[u8], answers: &mut [u8]) -> u64 {
        self.make([STEP_TRACE, 0], trace, answers)
    }

    /// Has the program step a trace with a table, and say the counts and who was heard.
    pub fn step_heard_trace(&self, trace: &[u8], left: &mut [u8]) -> u64 {
        self.make([STEP_HEARD_TRACE, 0], trace, left)
    }

    /// Has the program make the call. That it does not answer is a panic, which the comparison counts as a difference.
    fn make(&self, which: [u8; 2], lent: &[u8], buffer: &mut [u8]) -> u64 {
        let mut running = self.running.borrow_mut();
        let mut child = running.take().unwrap_or_else(|| start(&self.words).expect("it started before"));
        match call(&mut child, which, lent, buffer) {
            Ok(number) => {
                *running = Some(child);
                number
            }
            Err(error) => {
                end(child);
                // without a line for each: the comparison reports it
                resume_unwind(Box::new(error))
            }
        }
    }
}

impl Drop for Program {
    fn drop(&mut self) {
        if let Some(child) = self.running.take() {
            end(child);
        }
    }
}

/// A process that runs a program with its arguments.
pub(crate) fn start(words: &[String]) -> Result<Child> {
    let (program, arguments) = words.split_first().ok_or_else(|| Error::new(ErrorKind::Other, "none is named"))?;
    Command::new(program).args(arguments).stdin(Stdio::piped()).stdout(Stdio::piped()).spawn()
}

/// At the end of its input the program ends.
pub(crate) fn end(mut child: Child) {
    drop((child.stdin.take(), child.stdout.take()));
    let _ = child.wait();
}

fn call(child: &mut Child, which: [u8; 2], lent: &[u8], buffer: &mut [u8]) -> Result<u64> {
    let lengths = [lent.len(), buffer.len()].map(|length| (length as u64).to_be_bytes());
    let said = [&which, &lengths.concat()[..], lent, buffer].concat();
    child.stdin.as_mut().expect("its input").write_all(&said)?;
    let output = child.stdout.as_mut().expect("its output");
    let (mut number, mut kept) = ([0; 8], [0]);
    output.read_exact(&mut number)?;
    output.read_exact(&mut kept)?;
    output.read_exact(buffer)?;
    if kept != [1] {
        return Err(Error::new(ErrorKind::Other, "bytes outside of the buffer were changed"));
    }
    Ok(u64::from_be_bytes(number))
}

/// Answers calls from standard input by the oracle until it ends: what such a program does.
pub fn serve() -> Result<()> {
    let (mut input, mut output) = (std::io::stdin().lock(), std::io::stdout().lock());
    let mut head = [0; 18];
    while input.read_exact(&mut head).is_ok() {
        let (which, address, lengths) = (head[0], head[1], &head[2..]);
        let length = |half: &[u8]| u64::from_be_bytes(half.try_into().expect("8 bytes")) as usize;
        let (mut lent, mut buffer) = (vec![0; length(&lengths[..8])], vec![0; length(&lengths[8..])]);
        input.read_exact(&mut lent)?;
        input.read_exact(&mut buffer)?;
        let number = match which {
            REPLAY_TRACE | STEP_TRACE => replay_trace(&lent, &mut buffer),
            OTHER_EDITION => other_edition(&lent, &mut buffer),
            TRACE_HEARD => trace_heard(&lent, address, &mut buffer),
            TRACE_COUNTS => trace_counts(&lent, &mut buffer),
            STEP_HEARD_TRACE => oracle_heard_trace(&lent, &mut buffer),
            _ => return Err(Error::new(ErrorKind::Other, "there is no such call")),
        };
        output.write_all(&[&number.to_be_bytes()[..], &[1], &buffer].concat())?;
        output.flush()?;
    }
    Ok(())
}
