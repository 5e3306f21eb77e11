//! The proved calls as a Rust host makes them. This is the one place with unsafe code.

use oracle::comparison::beside::Beside;
use oracle::comparison::steps::STATION;
use oracle::editions::Edition;
use oracle::trace::ANSWER;

mod proved {
    extern "C" {
        /// The call of the static library; its contract is document 01's "Trace".
        pub fn amsulfezd_replay_trace(trace: *const u8, trace_len: usize, answers: *mut u8, answers_len: usize) -> u64;
        /// The call that moves a header to the other edition: document 02's P9.
        pub fn amsulfezd_other_edition(header: *const u8, header_len: usize, out: *mut u8, out_len: usize) -> u64;
        /// The call that says when an address was heard: document 02's P7.
        pub fn amsulfezd_trace_heard(
            trace: *const u8,
            trace_len: usize,
            address: u8,
            entry: *mut u8,
            entry_len: usize,
        ) -> u64;
        /// The call that gives the counts of a finished trace: document 02's P6.
        pub fn amsulfezd_trace_counts(trace: *const u8, trace_len: usize, counts: *mut u8, counts_len: usize) -> u64;
        /// The call that makes a station: the live door.
        pub fn amsulfezd_open_station(
            header: *const u8,
            header_len: usize,
            station: *mut u8,
            station_len: usize,
        ) -> u64;
        /// The call that takes a station one entry further: the live door.
        pub fn amsulfezd_step_station(
            station: *mut u8,
            station_len: usize,
            entry: *const u8,
            entry_len: usize,
            answer: *mut u8,
            answer_len: usize,
        ) -> u64;
        /// The call that does so with a table of who was heard: the live door, document 02's P7.
        pub fn amsulfezd_step_heard(
            station: *mut u8,
            station_len: usize,
            entry: *const u8,
            entry_len: usize,
            answer: *mut u8,
            answer_len: usize,
            table: *mut u8,
            table_len: usize,
        ) -> u64;
        /// The call that says what such a table has of an address.
        pub fn amsulfezd_table_heard(
            table: *const u8,
            table_len: usize,
            address: u8,
            entry: *mut u8,
            entry_len: usize,
        ) -> u64;
        /// The call that gives the counts of a station: the live door, document 02's P6.
        pub fn amsulfezd_station_counts(
            station: *const u8,
            station_len: usize,
            counts: *mut u8,
            counts_len: usize,
        ) -> u64;
        /// The call that reads a frame: document 02's P1.
        pub fn amsulfezd_read_frame(frame: *const u8, frame_len: usize) -> u64;
        /// The call that writes a frame: document 02's P1.
        pub fn amsulfezd_write_frame(word: u32, frame: *mut u8, frame_len: usize) -> u64;
        /// The call that imports a capture: document 02's P13.
        pub fn amsulfezd_import_capture(
            text: *const u8,
            text_len: usize,
            entries: *mut u8,
            entries_len: usize,
            line: *mut u64,
            written: *mut u64,
        ) -> u64;
        /// The call that exports a capture: document 02's P13.
        pub fn amsulfezd_export_capture(
            entries: *const u8,
            entries_len: usize,
            text: *mut u8,
            text_len: usize,
            entry: *mut u64,
            written: *mut u64,
        ) -> u64;
        /// The call that simulates several stations on one bus: document 02's P12.
        pub fn amsulfezd_simulate(setup: *const u8, setup_len: usize, report: *mut u8, report_len: usize) -> u64;
        /// The call that gives the trace of one of them: document 02's P12.
        pub fn amsulfezd_simulated_trace(
            setup: *const u8,
            setup_len: usize,
            station: u8,
            trace: *mut u8,
            trace_len: usize,
        ) -> u64;
    }
}

/// Replays a trace by the proved call.
pub fn replay_trace(trace: &[u8], answers: &mut [u8]) -> u64 {
    // Safety: both are whole slices, and the call keeps to the two lengths that it is given.
    unsafe { proved::amsulfezd_replay_trace(trace.as_ptr(), trace.len(), answers.as_mut_ptr(), answers.len()) }
}

/// Moves a header to the other edition by the proved call.
pub fn other_edition(header: &[u8], out: &mut [u8]) -> u64 {
    // Safety: as above.
    unsafe { proved::amsulfezd_other_edition(header.as_ptr(), header.len(), out.as_mut_ptr(), out.len()) }
}

/// Asks the proved call when an address was heard.
pub fn trace_heard(trace: &[u8], address: u8, entry: &mut [u8]) -> u64 {
    // Safety: as above.
    unsafe { proved::amsulfezd_trace_heard(trace.as_ptr(), trace.len(), address, entry.as_mut_ptr(), entry.len()) }
}

/// Asks the proved call for the counts.
pub fn trace_counts(trace: &[u8], counts: &mut [u8]) -> u64 {
    // Safety: as above.
    unsafe { proved::amsulfezd_trace_counts(trace.as_ptr(), trace.len(), counts.as_mut_ptr(), counts.len()) }
}

/// Makes a station by the proved call.
pub fn open_station(header: &[u8], station: &mut [u8]) -> u64 {
    // Safety: as above.
    unsafe { proved::amsulfezd_open_station(header.as_ptr(), header.len(), station.as_mut_ptr(), station.len()) }
}

/// Takes a station one entry further by the proved call.
pub fn step_station(station: &mut [u8], entry: &[u8], answer: &mut [u8]) -> u64 {
    let (to, room) = (answer.as_mut_ptr(), answer.len());
    // Safety: as above.
    unsafe {
        proved::amsulfezd_step_station(station.as_mut_ptr(), station.len(), entry.as_ptr(), entry.len(), to, room)
    }
}

/// Steps a trace one entry at a time by the proved calls.
pub fn step_trace(trace: &[u8], answers: &mut [u8]) -> u64 {
    oracle::comparison::steps::step_trace(&open_station, &step_station, trace, answers)
}

/// Takes a station one entry further with a table of who was heard by the proved call.
pub fn step_heard(station: &mut [u8], entry: &[u8], answer: &mut [u8], table: &mut [u8]) -> u64 {
    let (to, room) = (answer.as_mut_ptr(), answer.len());
    let (heard, length) = (table.as_mut_ptr(), table.len());
    // Safety: as above.
    unsafe {
        proved::amsulfezd_step_heard(
            station.as_mut_ptr(),
            station.len(),
            entry.as_ptr(),
            entry.len(),
            to,
            room,
            heard,
            length,
        )
    }
}

/// Asks a table for an address by the proved call.
pub fn table_heard(table: &[u8], address: u8, entry: &mut [u8]) -> u64 {
    // Safety: as above.
    unsafe { proved::amsulfezd_table_heard(table.as_ptr(), table.len(), address, entry.as_mut_ptr(), entry.len()) }
}

/// Asks a station for its counts by the proved call.
pub fn station_counts(station: &[u8], counts: &mut [u8]) -> u64 {
    // Safety: as above.
    unsafe { proved::amsulfezd_station_counts(station.as_ptr(), station.len(), counts.as_mut_ptr(), counts.len()) }
}

/// Steps a trace with a table by the proved calls, and says the counts and who was heard.
pub fn step_heard_trace(trace: &[u8], left: &mut [u8]) -> u64 {
    let calls = Beside { open: &open_station, step: &step_heard, counts: &station_counts, heard: &table_heard };
    oracle::comparison::beside::step_heard_trace(calls, trace, left)
}

/// Steps a trace one entry at a time by the proved calls, and does nothing else: to measure. The trace has whole entries, and there is
/// room for their answers.
pub fn only_step_trace(trace: &[u8], answers: &mut [u8]) -> u64 {
    let mut station = [0; STATION];
    let opened = open_station(trace, &mut station);
    assert_eq!(opened % 256, 0, "a refused header");
    let mut rest = &trace[Edition::of(trace).length()..];
    let mut entries = 0;
    for answer in answers.chunks_exact_mut(ANSWER) {
        let stepped = step_station(&mut station, rest, answer);
        assert_eq!(stepped % 256, 0, "a refused step");
        rest = &rest[(stepped / 256) as usize..];
        entries += 1;
    }
    256 * entries
}

/// Reads a frame by the proved call.
pub fn read_frame(frame: &[u8]) -> u64 {
    // Safety: as above.
    unsafe { proved::amsulfezd_read_frame(frame.as_ptr(), frame.len()) }
}

/// Writes a frame by the proved call.
pub fn write_frame(word: u32, frame: &mut [u8]) -> u64 {
    // Safety: as above.
    unsafe { proved::amsulfezd_write_frame(word, frame.as_mut_ptr(), frame.len()) }
}

/// Imports a capture by the proved call.
pub fn import_capture(text: &[u8], entries: &mut [u8], line: &mut u64, written: &mut u64) -> u64 {
    let (to, room) = (entries.as_mut_ptr(), entries.len());
    // Safety: as above, and each number is lent to the call alone.
    unsafe { proved::amsulfezd_import_capture(text.as_ptr(), text.len(), to, room, line, written) }
}

/// Exports a capture by the proved call.
pub fn export_capture(entries: &[u8], text: &mut [u8], entry: &mut u64, written: &mut u64) -> u64 {
    let (to, room) = (text.as_mut_ptr(), text.len());
    // Safety: as above.
    unsafe { proved::amsulfezd_export_capture(entries.as_ptr(), entries.len(), to, room, entry, written) }
}

/// Simulates a setup by the proved call.
pub fn simulate(setup: &[u8], report: &mut [u8]) -> u64 {
    // Safety: as above.
    unsafe { proved::amsulfezd_simulate(setup.as_ptr(), setup.len(), report.as_mut_ptr(), report.len()) }
}

/// The trace of one station of a setup by the proved call.
pub fn simulated_trace(setup: &[u8], station: u8, trace: &mut [u8]) -> u64 {
    let (to, room) = (trace.as_mut_ptr(), trace.len());
    // Safety: as above.
    unsafe { proved::amsulfezd_simulated_trace(setup.as_ptr(), setup.len(), station, to, room) }
}

/// A trace of zero bytes but for its first ones, whose pages the machine has to hand out only when they
/// are touched; `None` if it does not give so many. It is never given back.
pub fn long_trace(first: &[u8], length: usize) -> Option<&'static [u8]> {
    let layout = std::alloc::Layout::array::<u8>(length).ok()?;
    // Safety: the layout is not empty, the memory is zeroed and stays for the rest of the run.
    let trace = unsafe {
        let start = std::alloc::alloc_zeroed(layout);
        if start.is_null() {
            return None;
        }
        std::slice::from_raw_parts_mut(start, length)
    };
    trace[..first.len()].copy_from_slice(first);
    Some(trace)
}
