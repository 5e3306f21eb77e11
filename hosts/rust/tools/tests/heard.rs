//! The table of who was heard, from entries stated by hand, and entries that are not the trace's.

use amsulfezd::heard::{from_text, to_text};
use amsulfezd::record::{Poll, Telegram};
use amsulfezd::trace::{Header, TraceBuilder};
use amsulfezd_tools::heard::{heard, sentences};

/// Station 5 is online and hears 9 and, by our own address, 5.
fn trace() -> Vec<u8> {
    let mut trace = TraceBuilder::new(Header::new(5, 6, 1));
    trace.online();
    let poll = Poll::at(8000).telegram(Telegram::token(9, 12));
    trace
        .poll(&poll.telegram(Telegram::token(5, 9)))
        .expect("it fits");
    trace.into_bytes()
}

/// 9 is stated with more than the trace has, so that it is seen that nothing is counted here.
const ENTRIES: &str = "5 00000001000000001f40000000001f4000
9 000004d2000000001f400000000003e804
2 0
";

#[test]
fn the_table() {
    let (entries, run) = from_text(ENTRIES).expect("entries");
    let text = heard(&trace(), &entries, &run).expect("this trace");
    let table = "
address  times  first heard  last heard  last response
  own 5      1     8,000 us    8,000 us  none seen
      9  1,234     8,000 us    1,000 us  in ring

The trace was read to its end; entries answered: 2. Ending number 0.
";
    assert!(
        text.starts_with("Station 5, ") && text.ends_with(table),
        "{}",
        text
    );
    assert_eq!(
        sentences(&entries)[1],
        "9 was heard 1234 times: first at 8,000 us, last at 1,000 us; last response: in ring"
    );
}

#[test]
fn nobody() {
    let header = Header::new(5, 6, 1).to_bytes();
    let (entries, run) = from_text("0 0\n").expect("no entries");
    let text = heard(&header, &entries, &run).expect("this trace");
    assert!(text.contains("\nNobody was heard.\n"), "{}", text);
    assert_eq!(sentences(&entries), ["Nobody was heard."]);
}

#[test]
fn entries_of_another_trace_are_found() {
    let (entries, run) = from_text(&ENTRIES.replace("2 0\n", "3 0\n")).expect("entries");
    let error = heard(&trace(), &entries, &run).expect_err("three entries");
    assert!(error.to_string().contains("not this trace's"), "{}", error);
}

#[test]
fn the_text_reads_back() {
    let (read, run) = from_text(ENTRIES).expect("entries");
    assert_eq!(to_text(&read, &run), ENTRIES);
    for bad in [
        "",
        "9 00\n2 0\n",
        "126 000004d2000000001f400000000003e804\n2 0\n",
        "9 000004d2000000001f400000000003e805\n2 0\n",
        "9 00000000000000000000000000000000 00\n2 0\n",
        "9 0000000000000000000000000000000000\n2 0\n",
        "9 000004d2000000001f400000000003e804\n9 000004d2000000001f400000000003e804\n2 0\n",
        "9 000004d2000000001f400000000003e804\n",
        "0 26\n",
    ] {
        assert!(from_text(bad).is_err(), "{}", bad);
    }
}
