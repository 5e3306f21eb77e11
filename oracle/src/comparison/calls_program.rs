//! Calls that know no station in another process: a program that reads calls from its standard input and writes what each
//! left to its standard output, many at a time. So the proved library is compared where this machine cannot link it but can
//! run it.
//!
//! Calls come together: how many there are and how many bytes they take, 4 bytes each, most significant first, then the
//! calls. A call is a byte that says which (0 reads a frame, 1 writes one, 2 imports a capture, 3 exports one, 4 simulates a
//! setup, 5 gives the trace of a station of it), a number, the length of what is lent and that of the buffer, 4 bytes each, then what is lent and the buffer. When all have been made,
//! each says what it left: what it returned and the two numbers that it was lent, 8 bytes each, a byte that is 1 if nothing
//! but these and the buffer was changed, and the buffer.

use super::calls::{main as compare, oracle, Asked, Calls, Left, Made, Try};
use super::program::{end, start};
use std::cell::RefCell;
use std::io::{Read, Result, Write};
use std::process::Child;

/// The bytes of a call before what is lent, and those of what it left before the buffer.
const ASKED: usize = 13;
const SAID: usize = 25;

/// A program with its arguments, and the process that runs it. After a failure it is started anew.
pub struct Program {
    words: Vec<String>,
    running: RefCell<Option<Child>>,
}

impl Program {
    /// Starts the program.
    pub fn start(words: &[String]) -> Result<Program> {
        let running = RefCell::new(Some(start(words)?));
        Ok(Program { words: words.to_vec(), running })
    }

    /// Has the program make the calls. If it ends, it makes them one by one up to the call that ends it, which so is known; those
    /// after it are not made.
    pub fn calls<T: Try>(&self, tries: &[T]) -> Vec<Left> {
        if let Ok(left) = self.together(tries) {
            return left;
        }
        let mut left = Vec::new();
        for one in tries.chunks(1) {
            let made = self.together(one).ok().and_then(|mut made| made.pop().flatten());
            let ended = made.is_none();
            left.push(made);
            if ended {
                break;
            }
        }
        left
    }

    fn together<T: Try>(&self, tries: &[T]) -> Result<Vec<Left>> {
        let running = self.running.take();
        let mut child = running.map_or_else(|| start(&self.words), Ok)?;
        let left = ask(&mut child, tries);
        match left {
            Ok(_) => *self.running.borrow_mut() = Some(child),
            Err(_) => end(child),
        }
        left
    }
}

impl Drop for Program {
    fn drop(&mut self) {
        if let Some(child) = self.running.take() {
            end(child);
        }
    }
}

fn ask<T: Try>(child: &mut Child, tries: &[T]) -> Result<Vec<Left>> {
    let (mut calls, mut room) = (Vec::new(), 0);
    for one in tries {
        let Asked { which, word, lent, buffer } = one.asked();
        calls.push(which);
        for number in [word, lent.len() as u32, buffer.len() as u32] {
            calls.extend(number.to_be_bytes());
        }
        calls.extend(lent);
        calls.extend(buffer);
        room += SAID + buffer.len();
    }
    let head = [tries.len(), calls.len()].map(|count| (count as u32).to_be_bytes());
    child.stdin.as_mut().expect("its input").write_all(&[&head.concat()[..], &calls].concat())?;
    let mut said = vec![0; room];
    child.stdout.as_mut().expect("its output").read_exact(&mut said)?;
    let mut rest = &said[..];
    let left = tries.iter().map(|one| {
        let (mine, others) = rest.split_at(SAID + one.asked().buffer.len());
        rest = others;
        let number = |at: usize| u64::from_be_bytes(mine[at..at + 8].try_into().expect("8 bytes"));
        let made = Made { returned: number(0), lent: [number(8), number(16)], buffer: mine[SAID..].to_vec() };
        (mine[24] == 1).then_some(made)
    });
    Ok(left.collect())
}

/// Answers calls of one sort from standard input by the oracle until it ends: what such a program does.
pub fn serve<T: Try>() -> Result<()> {
    let (mut input, mut output) = (std::io::stdin().lock(), std::io::stdout().lock());
    let mut head = [0; 8];
    while input.read_exact(&mut head).is_ok() {
        let number = |bytes: &[u8]| bytes.iter().fold(0, |number, byte| 256 * number + usize::from(*byte));
        let mut calls = vec![0; number(&head[4..])];
        input.read_exact(&mut calls)?;
        let (mut rest, mut tries) = (&calls[..], Vec::new());
        for _ in 0..number(&head[..4]) {
            let (head, after) = rest.split_at(ASKED);
            let (lent, after) = after.split_at(number(&head[5..9]));
            let (buffer, after) = after.split_at(number(&head[9..]));
            tries.push(T::of_asked(Asked { which: head[0], word: number(&head[1..5]) as u32, lent, buffer }));
            rest = after;
        }
        for made in oracle(&tries).into_iter().flatten() {
            let numbers = [made.returned, made.lent[0], made.lent[1]].map(u64::to_be_bytes).concat();
            output.write_all(&[&numbers[..], &[1], &made.buffer].concat())?;
        }
        output.flush()?;
    }
    Ok(())
}

/// The whole of a program `NAME SEED COUNT [-- PROGRAM [ARGUMENT..]]` or `NAME --serve`: the comparison of a program, or,
/// without one, of the oracle with itself, which shows what is tried. Gives its exit status.
pub fn main<T: Try>(name: &str, comparison: fn(Calls<T>, u64, u64) -> (String, bool), words: &[String]) -> i32 {
    let usage = format!(
        "{}: usage: {} SEED COUNT [-- PROGRAM [ARGUMENT..]], two whole numbers, COUNT above 0; or --serve",
        name, name
    );
    match words {
        [word] if word == "--serve" => i32::from(serve::<T>().is_err()),
        [seed, count, dashes, program @ ..] if dashes == "--" => match Program::start(program) {
            Ok(program) => {
                let calls = |tries: &[T]| program.calls(tries);
                compare(&usage, |seed, count| comparison(&calls, seed, count), &[seed.clone(), count.clone()])
            }
            Err(error) => {
                eprintln!("{}: the program cannot be started: {}", name, error);
                2
            }
        },
        _ => compare(&usage, |seed, count| comparison(&oracle, seed, count), words),
    }
}
