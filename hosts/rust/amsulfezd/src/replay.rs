//! The proved calls, safe. Only where the static library is linked (see `build.rs`).

use crate::answer::{Answer, ANSWER_LENGTH};
use crate::counts::{Counts, COUNTS_LENGTH};
use crate::heard::{Heard, HEARD_LENGTH};
use crate::refusal::Refusal;
use crate::run::{from_buffer, Run};
use crate::trace::{entries, Edition};

extern "C" {
    /// The proved call as `hosts/c/amsulfezd.h` documents it.
    fn amsulfezd_replay_trace(
        trace: *const u8,
        trace_len: usize,
        answers: *mut u8,
        answers_len: usize,
    ) -> u64;

    /// The proved call as `hosts/c/amsulfezd.h` documents it.
    fn amsulfezd_other_edition(
        header: *const u8,
        header_len: usize,
        out: *mut u8,
        out_len: usize,
    ) -> u64;

    /// The proved call as `hosts/c/amsulfezd.h` documents it.
    fn amsulfezd_trace_heard(
        trace: *const u8,
        trace_len: usize,
        address: u8,
        entry: *mut u8,
        entry_len: usize,
    ) -> u64;

    /// The proved call as `hosts/c/amsulfezd.h` documents it.
    fn amsulfezd_trace_counts(
        trace: *const u8,
        trace_len: usize,
        counts: *mut u8,
        counts_len: usize,
    ) -> u64;
}

/// Runs a trace. The answer to each entry goes into the next 8 bytes of `answers`; the bytes after the last answer keep
/// their value. A refused header writes nothing. It keeps no state between calls and may be called by several threads.
///
/// ```
/// use amsulfezd::answer::{NextStation, State};
/// use amsulfezd::replay::replay;
/// use amsulfezd::run::from_buffer;
/// use amsulfezd::trace::{Header, TraceBuilder};
///
/// let mut trace = TraceBuilder::new(Header::new(5, 6, 1));
/// trace.online();
/// let mut buffer = [0; 64];
/// let run = replay(&trace.into_bytes(), &mut buffer);
/// assert_eq!((run.entries, run.ending), (1, None));
/// for answer in from_buffer(&buffer, &run)? {
///     assert_eq!(answer.state, State::Offline);
///     assert_eq!(answer.next_station, NextStation::Nobody);
/// }
/// # Ok::<(), amsulfezd::answer::NotAnAnswer>(())
/// ```
pub fn replay(trace: &[u8], answers: &mut [u8]) -> Run {
    // SAFETY: both pointers come from slices and are valid for the lengths given, `trace` for reading and `answers` for
    // reading and writing; as `answers` is borrowed mutably the two do not overlap. The library keeps neither pointer,
    // and it is proved to stay inside both slices and to return.
    let returned = unsafe {
        amsulfezd_replay_trace(
            trace.as_ptr(),
            trace.len(),
            answers.as_mut_ptr(),
            answers.len(),
        )
    };
    Run::try_from(returned).expect("the call is proved to return one of its ending numbers")
}

/// Runs a trace with room for the answer to every entry, and gives the run and its answers.
///
/// ```
/// use amsulfezd::answer::{Sent, State};
/// use amsulfezd::record::Poll;
/// use amsulfezd::replay::replay_whole;
/// use amsulfezd::trace::{Header, TraceBuilder};
///
/// // Station 5 is alone on its bus: after the lost-token time, 6,400 us, it claims the token.
/// let mut trace = TraceBuilder::new(Header::new(5, 6, 1));
/// trace.online();
/// trace.poll(&Poll::at(1_000))?;
/// trace.poll(&Poll::at(7_400))?;
/// let (run, answers) = replay_whole(&trace.into_bytes());
/// assert_eq!(run.ending, None);
/// assert_eq!(answers[2].state, State::ClaimToken);
/// assert_eq!(answers[2].sent, Sent::Token { to: 5 });
/// # Ok::<(), amsulfezd::record::Unfit>(())
/// ```
pub fn replay_whole(trace: &[u8]) -> (Run, Vec<Answer>) {
    let mut buffer = vec![0; ANSWER_LENGTH * entries(trace).count()];
    let run = replay(trace, &mut buffer);
    let answers = from_buffer(&buffer, &run).expect("the call is proved to write answers");
    (run, answers)
}

/// Runs a trace and writes when an address was heard to the first 17 bytes of `entry`, zeros if never; the bytes after them keep
/// their value. It needs no room for answers. The run ends with [`Refusal::Cut`] where the trace ends inside an entry, and the
/// entry then has what the whole ones make. Refused, in this order, with nothing written: [`Refusal::AskedAddress`] for an
/// address above 125, the header's number, [`Refusal::NoRoom`]. A trace that ends inside its header is a run of no entries that
/// ends with [`Refusal::Cut`], and writes nothing either.
pub fn trace_heard(trace: &[u8], address: u8, entry: &mut [u8]) -> Result<Run, Refusal> {
    // SAFETY: as for `replay`.
    let returned = unsafe {
        amsulfezd_trace_heard(
            trace.as_ptr(),
            trace.len(),
            address,
            entry.as_mut_ptr(),
            entry.len(),
        )
    };
    run_or_refusal(returned)
}

/// What a call returned that asks something of a trace's run.
fn run_or_refusal(returned: u64) -> Result<Run, Refusal> {
    match returned % 256 {
        0 | 17 => Ok(Run::try_from(returned).expect("0 and 17 are ending numbers")),
        number => Err(Refusal::try_from(number as u8)
            .expect("the call is proved to return one of its refusal numbers")),
    }
}

/// Runs a trace and says when an address was heard; none if never.
///
/// ```
/// use amsulfezd::record::{Poll, Telegram};
/// use amsulfezd::refusal::Refusal;
/// use amsulfezd::replay::heard;
/// use amsulfezd::trace::{Header, TraceBuilder};
///
/// let mut trace = TraceBuilder::new(Header::new(5, 6, 1));
/// trace.online();
/// trace.poll(&Poll::at(1_000).telegram(Telegram::token(9, 12)))?;
/// trace.poll(&Poll::at(1_500).telegram(Telegram::token(9, 12)))?;
/// let trace = trace.into_bytes();
/// let (run, nine) = heard(&trace, 9).expect("an accepted header");
/// let nine = nine.expect("9 was heard");
/// assert_eq!((run.entries, nine.times, nine.first, nine.last), (3, 2, 1_000, 1_500));
/// assert_eq!(heard(&trace, 12).map(|(_, twelve)| twelve), Ok(None));
/// assert_eq!(heard(&trace, 126), Err(Refusal::AskedAddress));
/// # Ok::<(), amsulfezd::record::Unfit>(())
/// ```
pub fn heard(trace: &[u8], address: u8) -> Result<(Run, Option<Heard>), Refusal> {
    let mut entry = [0; HEARD_LENGTH];
    let run = trace_heard(trace, address, &mut entry)?;
    let heard = Heard::from_bytes(&entry).expect("the call is proved to write an entry");
    Ok((run, heard))
}

/// Runs a trace and writes the counts of its station's life to the first 12 bytes of `counts`; the bytes after them keep their
/// value. It needs no room for answers. The run ends with [`Refusal::Cut`] where the trace ends inside an entry, and the counts
/// are then those of the whole ones. Refused, in this order, with nothing written: the header's number, [`Refusal::NoRoom`]. A
/// trace that ends inside its header is a run of no entries that ends with [`Refusal::Cut`], and writes nothing either.
pub fn trace_counts(trace: &[u8], counts: &mut [u8]) -> Result<Run, Refusal> {
    // SAFETY: as for `replay`.
    let returned = unsafe {
        amsulfezd_trace_counts(
            trace.as_ptr(),
            trace.len(),
            counts.as_mut_ptr(),
            counts.len(),
        )
    };
    run_or_refusal(returned)
}

/// The longest trace that is run.
const LONGEST: u64 = 1 << 32;

/// Runs a trace and says how often its station claimed the token, removed a neighbour and met its own address.
///
/// ```
/// use amsulfezd::counts::Counts;
/// use amsulfezd::record::{Poll, Telegram};
/// use amsulfezd::refusal::Refusal;
/// use amsulfezd::replay::counts;
/// use amsulfezd::trace::{Header, TraceBuilder};
///
/// // A token from our own address, and after the lost-token time, 6,400 us, a claim; offline keeps both.
/// let mut trace = TraceBuilder::new(Header::new(5, 6, 1));
/// trace.online();
/// trace.poll(&Poll::at(1_000).telegram(Telegram::token(5, 9)))?;
/// trace.poll(&Poll::at(7_400))?;
/// trace.offline();
/// let trace = trace.into_bytes();
/// let (run, life) = counts(&trace).expect("an accepted header");
/// assert_eq!((run.entries, life), (4, Counts { claims: 1, removals: 0, meetings: 1 }));
/// assert_eq!(counts(&trace[..15]), Err(Refusal::Cut));
/// # Ok::<(), amsulfezd::record::Unfit>(())
/// ```
pub fn counts(trace: &[u8]) -> Result<(Run, Counts), Refusal> {
    let mut bytes = [0; COUNTS_LENGTH];
    let run = trace_counts(trace, &mut bytes)?;
    if trace.len() < Edition::of(trace).header_length() || trace.len() as u64 > LONGEST {
        return Err(Refusal::Cut);
    }
    Ok((run, Counts::from_bytes(&bytes)))
}

/// Moves the header at the start of `header`, which may be a whole trace, to the other edition: 14 bytes for 16, 16 for 14.
/// They go to the start of `out`, and their number is given; all other bytes of `out` keep their value, and so do all where the
/// header is refused. Refused: [`Refusal::Cut`] where the slice is shorter than a header of its edition, then the header's own
/// number, then [`Refusal::NoRoom`].
///
/// ```
/// use amsulfezd::replay::other_edition;
/// use amsulfezd::trace::{Edition, Header};
///
/// let header = Header::new(5, 6, 1);
/// let (mut second, mut first) = ([0; 14], [0; 16]);
/// assert_eq!(other_edition(&header.to_bytes(), &mut second), Ok(14));
/// assert_eq!(second[..], header.to_edition(Edition::Second)?);
/// assert_eq!(other_edition(&second, &mut first), Ok(16));
/// assert_eq!(first, header.to_bytes());
/// # Ok::<(), amsulfezd::record::Unfit>(())
/// ```
pub fn other_edition(header: &[u8], out: &mut [u8]) -> Result<usize, Refusal> {
    // SAFETY: as for `replay`.
    let returned = unsafe {
        amsulfezd_other_edition(header.as_ptr(), header.len(), out.as_mut_ptr(), out.len())
    };
    match returned % 256 {
        0 => Ok((returned / 256) as usize),
        number => Err(Refusal::try_from(number as u8)
            .expect("the call is proved to return one of its refusal numbers")),
    }
}
