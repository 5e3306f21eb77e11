//! The counts in words, stated by hand, and counts that are not the trace's.

use amsulfezd::counts::{from_text, to_text, Counts};
use amsulfezd::trace::Header;
use amsulfezd_tools::counts::{sentence, table};

/// More than any trace has, so that it is seen that nothing is counted here.
const LIFE: &str = "1 1234567 0\n1 0\n";

/// The bytes of a trace of traces/.
fn trace(name: &str) -> Vec<u8> {
    let folder = std::path::Path::new(env!("CARGO_MANIFEST_DIR")).join("../../../traces");
    std::fs::read(folder.join(name)).expect("the trace")
}

/// A header and online.
fn online() -> Vec<u8> {
    [&Header::new(5, 6, 1).to_bytes()[..], &[0]].concat()
}

#[test]
fn the_table() {
    let (counts, run) = from_text(LIFE).expect("counts");
    let text = table(&online(), counts, &run).expect("this trace");
    let lines = "
            1  lost tokens claimed
    1,234,567  neighbours removed after a third token
            0  meetings of its own address

The trace was read to its end; entries answered: 1. Ending number 0.
";
    assert!(
        text.starts_with("Station 5, ") && text.ends_with(lines),
        "{}",
        text
    );
    assert_eq!(to_text(counts, &run), LIFE);
    let counts = counts.expect("an accepted header");
    assert_eq!(
        sentence(&counts),
        "In this trace the station claimed the token once, removed a neighbour 1,234,567 times and met its own address 0 times."
    );
    let largest = Counts {
        claims: u32::MAX,
        ..counts
    };
    assert!(sentence(&largest).contains("claimed the token 4,294,967,295 times,"));
}

/// A refused header has no counts.
#[test]
fn a_refused_header() {
    let refused = trace("headers/03-hsa.trace");
    let (counts, run) = from_text("0 3\n").expect("no counts");
    let text = table(&refused, counts, &run).expect("this trace");
    assert!(!text.contains("claimed"), "{}", text);
    assert!(text.contains("3 (HSA)"), "{}", text);
}

#[test]
fn counts_of_another_trace_are_found() {
    let example = trace("example12.trace");
    let (counts, run) = from_text("1 0 0\n7 0\n").expect("counts");
    let error = table(&example, counts, &run).expect_err("seven entries");
    assert!(error.to_string().contains("not this trace's"), "{}", error);
    for (text, words) in [
        ("1 0\n6 0\n", "not three counts"),
        ("", "the last line is not"),
    ] {
        let error = from_text(text).expect_err(words).to_string();
        assert!(error.contains(words), "{}", error);
    }
}
