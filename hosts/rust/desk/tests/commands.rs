//! The program, run: each command on files and standard input, its statuses, its refusals with number, words and place, and the
//! files that it writes and does not write.

use std::io::Write;
use std::path::{Path, PathBuf};
use std::process::{Command, Output, Stdio};

/// The folder of the whole project, in which the program is run, so that the examples of the help are as a reader has them.
fn root() -> PathBuf {
    PathBuf::from(env!("CARGO_MANIFEST_DIR")).join("../../..")
}

/// A folder of this name for a test's files, empty.
fn folder(name: &str) -> PathBuf {
    let folder =
        std::env::temp_dir().join(format!("amsulfezd-desk-{}-{}", name, std::process::id()));
    let _ = std::fs::remove_dir_all(&folder);
    std::fs::create_dir_all(&folder).expect("a folder");
    folder
}

/// The program, still without words.
fn program() -> Command {
    Command::new(env!("CARGO_BIN_EXE_amsulfezd"))
}

/// What came of the program with these words, and with these bytes on standard input.
fn fed(words: &[&str], input: &[u8]) -> Output {
    let mut program = program()
        .args(words)
        .current_dir(root())
        .stdin(Stdio::piped())
        .stdout(Stdio::piped())
        .stderr(Stdio::piped())
        .spawn()
        .expect("the program starts");
    let mut pipe = program.stdin.take().expect("its input");
    let bytes = input.to_vec();
    // Words that are refused end the program before it reads.
    let writer = std::thread::spawn(move || drop(pipe.write_all(&bytes)));
    let output = program.wait_with_output().expect("the program ends");
    writer.join().expect("the writer ends");
    output
}

fn ran(words: &[&str]) -> Output {
    fed(words, b"")
}

/// What is printed where nothing is wrong.
fn printed(words: &[&str]) -> String {
    let output = ran(words);
    let said = String::from_utf8_lossy(&output.stderr).to_string();
    assert_eq!(
        (output.status.code(), said.as_str()),
        (Some(0), ""),
        "{:?}",
        words
    );
    String::from_utf8(output.stdout).expect("text")
}

/// The program ends with this status after this one line.
fn fails(words: &[&str], status: i32, line: &str) {
    let output = ran(words);
    let said = String::from_utf8_lossy(&output.stderr).to_string();
    assert_eq!(said, format!("{}\n", line), "{:?}", words);
    assert_eq!(output.status.code(), Some(status), "{:?}", words);
}

fn stored(name: &str) -> String {
    std::fs::read_to_string(root().join(name)).expect(name)
}

fn bytes(name: &Path) -> Vec<u8> {
    std::fs::read(name).expect("a file")
}

fn word(path: &Path) -> &str {
    path.to_str().expect("a plain name")
}

#[test]
fn answers_and_words() {
    for name in [
        "example12",
        "night",
        "refused-entries",
        "edition-2/example12",
    ] {
        let trace = format!("traces/{}.trace", name);
        let answers = stored(&format!("traces/{}.answers", name));
        assert_eq!(printed(&["replay", &trace]), answers, "{}", name);
        let input = bytes(&root().join(&trace));
        assert_eq!(
            String::from_utf8_lossy(&fed(&["replay"], &input).stdout),
            answers,
            "{}",
            name
        );
        assert_eq!(
            String::from_utf8_lossy(&fed(&["replay", "-"], &input).stdout),
            answers,
            "{}",
            name
        );
    }
    let explained = "hosts/rust/tools/tests/explained/night.txt";
    assert_eq!(
        printed(&["explain", "traces/night.trace"]),
        stored(explained)
    );
    let picture = "hosts/rust/tools/tests/pictures/night.svg";
    assert_eq!(printed(&["picture", "traces/night.trace"]), stored(picture));
    let part = [
        "picture",
        "traces/night.trace",
        "--from",
        "18",
        "--to",
        "30",
    ];
    assert_eq!(printed(&part), stored("docs/night.svg"));
    assert!(printed(&["picture", "traces/night.trace", "--heard"]).contains("9 was heard"));
}

/// A refused header and a cut entry: what stands is printed, one line says the place, and the status is 1.
#[test]
fn what_is_refused() {
    let hsa = "amsulfezd replay: traces/headers/03-hsa.trace, header: refused with 3 (HSA): must be above the address and at most 126";
    fails(&["replay", "traces/headers/03-hsa.trace"], 1, hsa);
    assert_eq!(
        ran(&["replay", "traces/headers/03-hsa.trace"]).stdout,
        b"0 3\n"
    );
    let cut = "traces/cut-entry.trace, entry 6: refused with 17 (trace ends inside header or entry, or is above 2^32 bytes \
               (checked with the header))";
    let output = ran(&["explain", "traces/cut-entry.trace"]);
    assert_eq!(
        String::from_utf8_lossy(&output.stdout),
        stored("hosts/rust/tools/tests/explained/cut-entry.txt")
    );
    for command in ["replay", "explain", "picture", "heard", "view"] {
        let line = format!("amsulfezd {}: {}", command, cut);
        fails(&[command, "traces/cut-entry.trace"], 1, &line);
    }
    fails(
        &["explain", "traces/captures/site.capture"],
        1,
        "amsulfezd explain: traces/captures/site.capture: this is a text, and no trace; amsulfezd import makes one of a capture",
    );
    fails(
        &["replay"],
        1,
        "amsulfezd replay: standard input: this is empty, and no trace",
    );
}

#[test]
fn bad_usage() {
    fails(
        &["replay", "nosuch.trace"],
        2,
        "amsulfezd replay: nosuch.trace: No such file or directory (os error 2)",
    );
    fails(
        &[
            "explain",
            "traces/night.trace",
            "--from",
            "30",
            "--to",
            "18",
        ],
        2,
        "amsulfezd explain: --from 30 is after --to 18",
    );
    fails(
        &["picture", "traces/night.trace", "-o", "traces/night.trace"],
        2,
        "amsulfezd picture: traces/night.trace is the file that it is made from",
    );
    fails(
        &["export", "traces/night.trace", "--private"],
        2,
        "amsulfezd export: --private is for a pcap file: --as pcap, or a name that ends in .pcap",
    );
    fails(
        &["compare", "-", "-"],
        1,
        "amsulfezd compare: standard input: this is empty, and no trace",
    );
    for words in [
        &["nosuch"][..],
        &["replay", "--nosuch"],
        &["frame", "--write", "-o"],
        &["watchdog"],
        &[],
        &["import", "--slot", "1e3"],
    ] {
        let output = ran(words);
        assert_eq!(output.status.code(), Some(2), "{:?}", words);
        assert!(
            output.stdout.is_empty() && !output.stderr.is_empty(),
            "{:?}",
            words
        );
    }
    assert_eq!(ran(&["--help"]).status.code(), Some(0));
    assert_eq!(
        ran(&["--version"]).stdout,
        format!("amsulfezd {}\n", env!("CARGO_PKG_VERSION")).as_bytes()
    );
}

/// Where standard error cannot be written the status is the same, and a reader that is gone has enough.
#[test]
fn nobody_reads() {
    for (words, status) in [
        (&["replay", "nosuch.trace"][..], 2),
        (&["replay", "traces/headers/03-hsa.trace"], 1),
        (&["nosuch"], 2),
    ] {
        let full = std::fs::File::options()
            .write(true)
            .open("/dev/full")
            .expect("the device that is full");
        let ended = program()
            .args(words)
            .current_dir(root())
            .stdout(Stdio::null())
            .stderr(full)
            .status();
        assert_eq!(ended.expect("it runs").code(), Some(status), "{:?}", words);
    }
    let mut program = program()
        .args(["view", "traces/captures/site.trace"])
        .current_dir(root())
        .stdout(Stdio::piped())
        .stderr(Stdio::piped())
        .spawn()
        .expect("the program starts");
    drop(program.stdout.take());
    let output = program.wait_with_output().expect("the program ends");
    assert_eq!(
        (output.status.code(), &output.stderr[..]),
        (Some(0), &b""[..])
    );
}

/// Notes are read where they are shown: what is wrong with them does not keep a trace from being replayed.
#[test]
fn notes_beside() {
    let folder = folder("notes");
    let file = folder.join("a.trace");
    std::fs::copy(root().join("traces/night.trace"), &file).expect("the trace is copied");
    std::fs::write(folder.join("a.notes"), "soon\n").expect("the notes are written");
    assert_eq!(
        printed(&["replay", word(&file)]),
        stored("traces/night.answers")
    );
    printed(&["compare", word(&file), "traces/night.answers"]);
    for command in ["explain", "picture", "view"] {
        let line = format!(
            "amsulfezd {}: {}, line 1: \"soon\" is not a clock from 0 to 281,474,976,710,655",
            command,
            folder.join("a.notes").display()
        );
        fails(&[command, word(&file)], 1, &line);
    }
    std::fs::remove_dir_all(&folder).expect("the folder goes");
}

#[test]
fn who_was_heard() {
    let text = printed(&["heard", "traces/night.trace"]);
    assert!(text.contains("address  times"), "{}", text);
    fails(
        &["heard", "traces/headers/03-hsa.trace"],
        1,
        "amsulfezd heard: traces/headers/03-hsa.trace, header: refused with 3 (HSA): must be above the address and at most 126",
    );
}

/// The night: nothing was claimed, one neighbour was removed. The words and the page end with it.
#[test]
fn counts() {
    let text = printed(&["counts", "traces/night.trace"]);
    assert!(
        text.contains("\n            1  neighbours removed after a third token\n"),
        "{}",
        text
    );
    let sentence = "In this trace the station claimed the token 0 times, removed a neighbour once and met its own address 0 times.";
    let text = printed(&["explain", "traces/night.trace", "--to", "3"]);
    assert_eq!(text.lines().last(), Some(sentence));
    assert!(printed(&["view", "traces/night.trace"]).contains(sentence));
    fails(
        &["counts", "traces/headers/03-hsa.trace"],
        1,
        "amsulfezd counts: traces/headers/03-hsa.trace, header: refused with 3 (HSA): must be above the address and at most 126",
    );
}

/// A passive station (P10): its state in words, in the table and on the page, and nothing of it refused.
#[test]
fn a_passive_station() {
    let trace = "traces/passive/spare-logger.trace";
    let explained = "hosts/rust/tools/tests/explained/passive-spare-logger.txt";
    assert_eq!(printed(&["explain", trace]), stored(explained));
    let table = printed(&["export", trace, "--as", "csv"]);
    assert!(
        table.contains("\n2,1000,nothing came,Offline,PassiveIdle,Bus,,"),
        "{}",
        table
    );
    let page = printed(&["view", trace]);
    assert!(page.contains("\"PassiveIdle\"") && page.contains("--s9:"));
}

/// The site's capture as text and as pcap makes its trace; the trace its text again; and text becomes pcap and text again, with
/// every frame as it was.
#[test]
fn captures_there_and_back() {
    let folder = folder("captures");
    let file = |name: &str| folder.join(name);
    let (trace, again, pcap) = (file("site.trace"), file("again.capture"), file("site.pcap"));
    let site = "traces/captures/site.capture";
    printed(&["import", site, "-o", word(&trace)]);
    assert_eq!(
        bytes(&trace),
        bytes(&root().join("traces/captures/site.trace"))
    );
    printed(&["export", word(&trace), "-o", word(&again)]);
    assert_eq!(
        bytes(&again),
        bytes(&root().join("traces/captures/site-again.capture"))
    );
    printed(&["export", site, "-o", word(&pcap)]);
    assert_eq!(
        printed(&["export", word(&pcap)]),
        stored(site).to_lowercase()
    );
    printed(&["export", site, "-o", word(&file("SITE.PCAP"))]);
    assert_eq!(bytes(&file("SITE.PCAP")), bytes(&pcap));
    printed(&["import", word(&pcap), "-o", word(&file("by-pcap.trace"))]);
    assert_eq!(bytes(&file("by-pcap.trace")), bytes(&trace));
    // A trace is taken as it is.
    printed(&["import", word(&trace), "-o", word(&file("same.trace"))]);
    assert_eq!(bytes(&file("same.trace")), bytes(&trace));
    assert_eq!(
        ran(&["import", word(&trace), "--baud", "6"]).status.code(),
        Some(2)
    );
    // Times since 1970 do not fit a clock, and count from the first one where that is asked for.
    let late = fed(&["export", "--as", "pcap"], b"100 e5\n350 dc0509\n").stdout;
    let mut epoch = late;
    epoch[24..28].copy_from_slice(&1_700_000_000u32.to_le_bytes());
    epoch[24 + 17..24 + 21].copy_from_slice(&1_700_000_000u32.to_le_bytes());
    std::fs::write(file("epoch.pcap"), &epoch).expect("it is written");
    let output = ran(&["import", word(&file("epoch.pcap"))]);
    assert_eq!(output.status.code(), Some(1));
    assert!(
        String::from_utf8_lossy(&output.stderr).contains("epoch.pcap, packet 1: refused with 31")
    );
    let output = ran(&["import", word(&file("epoch.pcap")), "--from-first"]);
    assert_eq!(output.status.code(), Some(0));
    let back = fed(&["export"], &output.stdout).stdout;
    assert_eq!(String::from_utf8_lossy(&back), "0 e5\n250 dc0509\n");
    std::fs::remove_dir_all(&folder).expect("the folder goes");
}

/// A capture's text, pcap files by machines of both byte orders, in microseconds and nanoseconds, and a trace are told apart by
/// their content alone: from standard input, which has no name, each makes the site's trace.
#[test]
fn kinds_of_file() {
    let trace = bytes(&root().join("traces/captures/site.trace"));
    let text = bytes(&root().join("traces/captures/site.capture"));
    let pcap = fed(&["export", "--as", "pcap"], &text).stdout;
    let private = fed(&["export", "--as", "pcap", "--private"], &text).stdout;
    let (nanos, other) = (
        by_another(&pcap, true, false),
        by_another(&pcap, false, true),
    );
    let both = by_another(&pcap, true, true);
    assert_eq!(by_another(&pcap, false, false), pcap);
    for (name, file) in [
        ("text", &text),
        ("pcap", &pcap),
        ("link type 147", &private),
        ("nanoseconds", &nanos),
        ("other byte order", &other),
        ("both", &both),
        ("trace", &trace),
    ] {
        let output = fed(&["import"], file);
        let said = String::from_utf8_lossy(&output.stderr).to_string();
        assert_eq!(
            (output.status.code(), said.as_str()),
            (Some(0), ""),
            "{}",
            name
        );
        assert_eq!(output.stdout, trace, "{}", name);
    }
    let mut next = pcap.clone();
    next[..4].copy_from_slice(&[0x0a, 0x0d, 0x0d, 0x0a]);
    let mut ethernet = pcap;
    ethernet[20..22].copy_from_slice(&[1, 0]);
    let packed = b"\x1f\x8b\x08\x00".to_vec();
    for (file, words) in [
        (&next, "this is pcapng, which is not read: save it as pcap"),
        (&packed, "this is packed by gzip: unpack it first"),
        (
            &ethernet,
            "its link type is 1, and that of PROFIBUS is 257, or 147 for private use",
        ),
    ] {
        let output = fed(&["import"], file);
        let line = format!("amsulfezd import: standard input: {}\n", words);
        assert_eq!(String::from_utf8_lossy(&output.stderr), line);
        assert_eq!(
            (output.status.code(), &output.stdout[..]),
            (Some(1), &b""[..])
        );
    }
}

/// A pcap file as a machine of the other byte order writes it, or one that counts nanoseconds.
fn by_another(file: &[u8], nanoseconds: bool, swapped: bool) -> Vec<u8> {
    let word = |at: usize| u32::from_le_bytes(file[at..at + 4].try_into().expect("four bytes"));
    let put = |made: &mut Vec<u8>, word: u32| {
        made.extend(if swapped {
            word.to_be_bytes()
        } else {
            word.to_le_bytes()
        })
    };
    let mut made = Vec::new();
    put(&mut made, if nanoseconds { 0xa1b2_3c4d } else { word(0) });
    for half in [2_u16, 4] {
        made.extend(if swapped {
            half.to_be_bytes()
        } else {
            half.to_le_bytes()
        });
    }
    for at in [8, 12, 16, 20] {
        put(&mut made, word(at));
    }
    let mut at = 24;
    while at < file.len() {
        let length = word(at + 8) as usize;
        put(&mut made, word(at));
        put(&mut made, word(at + 4) * if nanoseconds { 1000 } else { 1 });
        put(&mut made, word(at + 8));
        put(&mut made, word(at + 12));
        made.extend(&file[at + 16..at + 16 + length]);
        at += 16 + length;
    }
    made
}

/// Both editions, every setting, and refusals of settings, lines and entries. Where something is refused no file is left.
#[test]
fn imports() {
    let folder = folder("imports");
    let out = folder.join("a.trace");
    let words = [
        "import",
        "traces/captures/empty.capture",
        "--address",
        "7",
        "--baud",
        "10",
        "--rotation",
        "40000",
        "--gap",
        "9",
    ];
    let more = ["--hsa", "100", "--retry", "2", "--tsdr", "12"];
    let output = ran(&[&words[..], &more].concat());
    assert_eq!(
        output.stdout,
        b"\x07\x0a\x03\xe8\x00\x00\x9c\x40\x09\x64\x02\x0c\x01\x00\x00\x00\x00"
    );
    let second = ran(&["import", "traces/captures/site.capture", "--edition", "2"]).stdout;
    assert_eq!(
        second[..14],
        bytes(&root().join("traces/edition-2/example12.trace"))[..14]
    );
    assert_eq!(
        second[14..],
        bytes(&root().join("traces/captures/site.trace"))[16..]
    );
    let line = "(a line that is not a time, one space, a frame in pairs of hex digits and a line feed, or has bytes after its \
                frame): the time must have no leading zero and be below 2^48";
    for (name, words) in [
        ("31-tab", format!("line 2: refused with 31 {}", line)),
        (
            "33-ninth",
            "line 9: refused with 33 (more than 8 of one time)".to_string(),
        ),
        (
            "22-check-byte",
            "line 2: refused with 22 (check byte)".to_string(),
        ),
        (
            "32-time-falls",
            "line 2: refused with 32 (a time below the one before)".to_string(),
        ),
    ] {
        let file = format!("traces/captures/{}.capture", name);
        fails(
            &["import", &file, "-o", word(&out)],
            1,
            &format!("amsulfezd import: {}, {}", file, words),
        );
    }
    fails(
        &["import", "traces/captures/site.capture", "--baud", "11"],
        1,
        "amsulfezd import: the settings: refused with 10 (baud code above 10)",
    );
    let file = "traces/applications.trace";
    let many = format!(
        "amsulfezd export: {}: it has 3 applications, and a capture is of a trace with one",
        file
    );
    fails(&["export", file, "-o", word(&out)], 1, &many);
    let file = "traces/cut-short-entry.trace";
    let cut = "refused with 17 (trace ends inside header or entry, or is above 2^32 bytes (checked with the header))";
    fails(
        &["export", file, "-o", word(&out)],
        1,
        &format!("amsulfezd export: {}, entry 2: {}", file, cut),
    );
    assert_eq!(
        std::fs::read_dir(&folder).expect("the folder").count(),
        0,
        "no file is left"
    );
    std::fs::remove_dir_all(&folder).expect("the folder goes");
}

/// The table has a line for each entry, and its cells are quoted as a spreadsheet reads them.
#[test]
fn a_table_of_answers() {
    let text = printed(&["export", "traces/night.trace", "--as", "csv"]);
    let lines: Vec<&str> = text.lines().collect();
    assert_eq!(lines.len(), 37);
    assert!(
        lines[0].starts_with("entry,clock_us,came,state_before,state,outcome,refusal,sent,to,"),
        "{}",
        lines[0]
    );
    assert_eq!(
        lines[27],
        "27,7800001298,nothing came,CheckTokenPass,UseToken,Transmission,,token,5,,,,3,0,,,,,\"no sign of life from 9 after \
         three tokens, it is out of the ring: sent the token to itself (3 bytes) and holds it; is alone now\""
    );
    let output = ran(&["export", "traces/captures/site.capture", "--as", "csv"]);
    assert_eq!(output.status.code(), Some(2));
}

#[test]
fn frames() {
    assert_eq!(
        printed(&["frame", "10 05 09 49 57 16 e5"]),
        "10 05 09 49 57 16  status request 9→5\ne5  short confirmation\n"
    );
    assert_eq!(printed(&["frame", "dc0509"]), "dc 05 09  token 9→5\n");
    assert_eq!(
        printed(&["frame", "--write", "response 20->5 (slave, status 8)"]),
        "10 05 14 08 21 16\n"
    );
    assert_eq!(
        printed(&["frame", "-w", "status", "request", "9->5"]),
        "10 05 09 49 57 16\n"
    );
    let output = fed(&["frame"], b"dc0509\n100509495716\n");
    assert_eq!(
        String::from_utf8_lossy(&output.stdout),
        "dc 05 09  token 9→5\n10 05 09 49 57 16  status request 9→5\n"
    );
    fails(
        &["frame", "e5100509495816"],
        1,
        "amsulfezd frame: line 1, byte 2: refused with 22 (check byte)",
    );
    fails(
        &["frame", "1"],
        1,
        "amsulfezd frame: line 1: not pairs of hexadecimal digits",
    );
    fails(
        &["frame", "-w", "token 9->200"],
        1,
        "amsulfezd frame: line 1: an address is 0 to 127 and a status 0 to 15: 'token 9->200'",
    );
    let output = fed(&["frame"], b"dc0509\n\xff\n");
    assert_eq!(
        (
            output.status.code(),
            String::from_utf8_lossy(&output.stderr).as_ref()
        ),
        (
            Some(1),
            "amsulfezd frame: standard input, line 2: not pairs of hexadecimal digits\n"
        )
    );
    fails(
        &["frame", "-w", "request 9->5"],
        1,
        "amsulfezd frame: line 1: refused with 34 (top bit of the function code set; to be written, any other request)",
    );
}

#[test]
fn headers_and_settings() {
    let text = printed(&["header", "traces/example12.trace"]);
    let words = "edition 1, 16 bytes: 050600c800007eb40a7e010b01000000\nedition 2, 14 bytes: 820ac0190007eb415f842c000000\n";
    assert!(
        text.ends_with(&format!("{}It is accepted.\n", words)),
        "{}",
        text
    );
    let moved = ran(&["header", "traces/example12.trace", "--move"]).stdout;
    assert_eq!(
        moved,
        bytes(&root().join("traces/edition-2/example12.trace"))
    );
    assert_eq!(
        fed(&["header", "--move"], &moved).stdout,
        bytes(&root().join("traces/example12.trace"))
    );
    let output = ran(&["header", "traces/headers/03-hsa.trace"]);
    assert_eq!(output.status.code(), Some(1));
    assert!(!String::from_utf8_lossy(&output.stdout).contains("accepted"));
    let text = printed(&["settings"]);
    assert!(text.contains("slot bits      200 (400 us)"), "{}", text);
    assert!(text.ends_with("They are accepted. A header of edition 1 with one application: 050600c800007eb40a7e010b01000000\n"));
    let output = ran(&["settings", "--slot", "40000"]);
    assert_eq!(output.status.code(), Some(1));
    let said = "amsulfezd settings: the settings: refused with 25 (rotation with no room for a gap poll): must be at least slot \
                bits + 100\n";
    assert_eq!(String::from_utf8_lossy(&output.stderr), said);
}

/// What is printed of each time is what the proved program run_watchdog prints; that a setting refuses it goes to standard error.
#[test]
fn watchdog_as_the_proved_program() {
    let mut shown = String::new();
    let mut times = 0;
    for time in stored("crates/run_watchdog/args").lines() {
        let output = ran(&["watchdog", time]);
        if output.status.code() == Some(2) {
            shown.push_str("a time is 1 to 19 decimal digits, in ms\n");
            continue;
        }
        times += 1;
        shown.push_str(&String::from_utf8_lossy(&output.stdout));
        let said = String::from_utf8_lossy(&output.stderr).to_string();
        shown.push_str(said.strip_prefix("amsulfezd watchdog: ").unwrap_or(""));
    }
    assert_eq!(shown, stored("crates/run_watchdog/stdout"));
    assert!(times >= 5, "{} times", times);
}

#[test]
fn comparisons() {
    assert_eq!(
        printed(&["compare", "traces/night.trace"]),
        "36 entries answered, ending number 0: the same\n"
    );
    assert_eq!(
        printed(&[
            "compare",
            "traces/example12.trace",
            "traces/edition-2/example12.trace"
        ]),
        "6 entries answered, ending number 0: the same\n"
    );
    let output = fed(
        &["compare", "traces/night.trace", "-"],
        stored("traces/night.answers").as_bytes(),
    );
    assert_eq!(
        output.stdout,
        b"36 entries answered, ending number 0: the same\n"
    );
    let output = fed(
        &["compare", "-", "-"],
        &bytes(&root().join("traces/night.trace")),
    );
    assert_eq!(output.status.code(), Some(2));
    fails(
        &["compare", "traces/example12.trace", "traces/night.answers"],
        1,
        "amsulfezd compare: entry 3 (7,399 us nothing came): traces/example12.trace has 03100000000001fc (Bus, ListenToken), \
         traces/night.answers has 0310000001000024 (Bus, ListenToken)",
    );
}

/// The page is one file, with no address of anything outside it, and has the words of every entry.
#[test]
fn a_page() {
    let page = printed(&["view", "traces/night.trace"]);
    for outside in ["http:", "https:", "src=", "href=", "url(", "@import"] {
        assert!(!page.contains(outside), "{}", outside);
    }
    assert_eq!(page.matches("<script").count(), 2);
    assert!(page.contains("no sign of life from 9 after three tokens, it is out of the ring"));
    assert!(page.contains("the panel's plug is pulled"));
    // A name and notes cannot leave the place that they stand in.
    let folder = folder("page");
    let file = folder.join("a<b>.trace");
    std::fs::copy(root().join("traces/night.trace"), &file).expect("the trace is copied");
    std::fs::write(folder.join("a<b>.notes"), "7800000000 </script><b>\n")
        .expect("the notes are written");
    let page = printed(&["view", word(&file)]);
    assert!(page.contains("<title>a&lt;b&gt;.trace"));
    assert!(!page.contains("</script><b>"));
    std::fs::remove_dir_all(&folder).expect("the folder goes");
}

/// Every command has an example in its help, and each example runs.
#[test]
fn examples_run() {
    let folder = folder("examples");
    std::os::unix::fs::symlink(root().join("traces"), folder.join("traces")).expect("a link");
    let help = printed(&["--help"]);
    let commands: Vec<&str> = help
        .lines()
        .skip_while(|line| *line != "Commands:")
        .skip(1)
        .take_while(|line| !line.is_empty())
        .filter_map(|line| line.split_whitespace().next())
        .collect();
    assert!(commands.len() >= 14, "{:?}", commands);
    for command in commands {
        let help = printed(&[command, "--help"]);
        let examples = help
            .lines()
            .filter(|line| line.starts_with("  amsulfezd "))
            .collect::<Vec<_>>();
        assert!(!examples.is_empty(), "{} has no example", command);
        for example in examples {
            let line = example
                .trim()
                .replacen("amsulfezd", env!("CARGO_BIN_EXE_amsulfezd"), 1);
            let status = Command::new("sh")
                .args(["-c", &line])
                .current_dir(&folder)
                .stdout(Stdio::null())
                .status();
            assert!(status.expect("a shell").success(), "{}", example);
        }
    }
    std::fs::remove_dir_all(&folder).expect("the folder goes");
}

/// What bash offers, with the script that it reads: commands, options, values; and nothing where it completes files by itself.
#[test]
fn bash_completes() {
    let folder = folder("completion");
    let script = folder.join("amsulfezd");
    printed(&["completion", "bash", "-o", word(&script)]);
    let asks = "source \"$0\"; COMP_WORDS=(amsulfezd \"$@\"); COMP_CWORD=$#; _amsulfezd amsulfezd; echo \"${COMPREPLY[*]}\"";
    for (words, offered) in [
        (&["ex"][..], "explain export"),
        (&["wa"], "watchdog"),
        (&["replay", ""], ""),
        (&["replay", "-"], "-o -h --output --help"),
        (&["compare", ""], ""),
        (&["compare", "traces/night.trace", ""], ""),
        (&["explain", "traces/night.trace", "--f"], "--from"),
        (&["export", "--as", ""], "text pcap csv"),
        (&["completion", "z"], "zsh"),
        (&["settings", "--ed"], "--edition"),
        (&["frame", ""], "-w -o -h --write --output --help"),
    ] {
        let output = Command::new("bash")
            .args(["-c", asks, word(&script)])
            .args(words)
            .output()
            .expect("bash runs");
        let said = String::from_utf8_lossy(&output.stdout).to_string();
        assert_eq!(said.trim_end_matches('\n'), offered, "{:?}", words);
        assert!(output.stderr.is_empty(), "{:?}: {:?}", words, output);
    }
    std::fs::remove_dir_all(&folder).expect("the folder goes");
}

/// The rule of the watchdog factors stands in the help, and with it in the manual page.
#[test]
fn the_rule_in_words() {
    let rule = "The first factor is the units / 255, rounded up, and at least 1; the second is the units / the first factor, rounded up.";
    assert!(printed(&["watchdog", "--help"]).contains(rule));
    assert!(printed(&["manual"]).contains(rule));
}

/// Completion and manual page have every command.
#[test]
fn made_from_the_same_text() {
    let page = printed(&["manual"]);
    let completion = printed(&["completion", "bash"]);
    for command in [
        "replay", "explain", "picture", "view", "heard", "counts", "import", "export", "simulate",
        "frame", "header", "settings", "watchdog", "compare",
    ] {
        assert!(
            page.contains(&format!(".SS amsulfezd {}", command)),
            "{}",
            command
        );
        assert!(completion.contains(command), "{}", command);
    }
}

/// The three setups with stories: what is printed is what they state; each station's trace is a trace, with the answers of the
/// report, which the picture of the bus shows too.
#[test]
fn simulations() {
    let folder = folder("simulations");
    for (name, stations) in [
        ("two-loggers", &[2, 3][..]),
        ("bad-slot-time", &[0, 2, 3]),
        ("eight-at-12-mbaud", &[0, 1, 2, 3, 4, 5, 6, 7]),
    ] {
        let setup = format!("traces/simulations/{}.setup", name);
        let said = stored(&format!("traces/simulations/{}.said", name));
        assert_eq!(printed(&["simulate", &setup]), said, "{}", name);
        let text = bytes(&root().join(&setup));
        let output = fed(&["simulate", "-"], &text);
        assert_eq!(String::from_utf8_lossy(&output.stdout), said, "{}", name);
        let out = folder.join(name);
        let mut written = String::new();
        for station in stations {
            written += &format!("{}/station-{}.trace\n", word(&out), station);
        }
        written += &format!("{}/bus.svg\n", word(&out));
        let whole = printed(&["simulate", &setup, "-o", word(&out)]);
        assert_eq!(whole, format!("{}\n{}", said, written), "{}", name);
        let bus = stored(&format!("traces/simulations/{}.bus", name));
        for station in stations {
            let trace = out.join(format!("station-{}.trace", station));
            let explained = printed(&["explain", word(&trace)]);
            // every telegram of the station, by the words of its trace
            let sent = bus.lines().skip(1).map(|line| line.split(' '));
            let sent = sent.filter(|words| words.clone().nth(1) == Some(&station.to_string()));
            assert_eq!(
                explained.matches(" bytes)").count(),
                sent.count(),
                "{}",
                explained
            );
            assert!(printed(&["picture", word(&trace)]).contains("</svg>"));
        }
        let picture = std::fs::read_to_string(out.join("bus.svg")).expect("the picture");
        assert_eq!(
            picture,
            stored(&format!("hosts/rust/tools/tests/buses/{}.svg", name)),
            "{}",
            name
        );
    }
    let part = folder.join("part");
    let setup = "traces/simulations/two-loggers.setup";
    printed(&[
        "simulate",
        setup,
        "-o",
        word(&part),
        "--from",
        "5000",
        "--to",
        "5500",
    ]);
    let picture = std::fs::read_to_string(part.join("bus.svg")).expect("the picture");
    assert!(
        picture.contains(">5,000<") && !picture.contains(">4,750<") && !picture.contains(">5,600<")
    );
}

/// A setup that is refused: the number, the words and the line, status 1, and nothing is written.
#[test]
fn refused_setups() {
    let folder = folder("setups");
    let out = folder.join("out");
    let refuses = |text: &str, said: &str| {
        let output = fed(&["simulate", "-o", word(&out)], text.as_bytes());
        let line = format!("amsulfezd simulate: standard input, {}\n", said);
        assert_eq!(String::from_utf8_lossy(&output.stderr), line, "{}", text);
        assert_eq!(
            (output.status.code(), output.stdout.len()),
            (Some(1), 0),
            "{}",
            text
        );
        assert!(!out.exists());
    };
    let two = "station 2\nstation 5\n";
    refuses("tick 5\nticks 5\nstation 2\n", "1 stations: refused with 29 (number of stations, or no station with that place): must be 2..8");
    refuses(
        &format!("tick 0\nticks 5\n{}", two),
        "line 1: refused with 28 (tick): must be 1..1,000,000 us",
    );
    refuses(
        &format!("tick 5\nticks 1000001\n{}", two),
        "line 2: refused with 35 (more than 1,000,000 ticks)",
    );
    refuses(
        "tick 5\nticks 5\nstation 2\nstation 5 baud 7\n",
        "line 4: refused with 30 (baud codes differ)",
    );
    refuses(
        "tick 5\nticks 5\nstation 2\nstation 5\nstation 2\n",
        "line 5: refused with 27 (two stations with equal addresses)",
    );
    refuses(
        "tick 5\nticks 5\nstation 2\n\nstation 5 hsa 5\n",
        "line 5: refused with 3 (HSA): must be above the address and at most 126",
    );
    refuses(
        "tick 5\nticks 5\nstation 130\nstation 5\n",
        "line 3: refused with 1 (address above 125)",
    );
    refuses("tick 5\nticks 5\nstation 2 slot 60000\nstation 5\n", "line 3: refused with 25 (rotation with no room for a gap poll): must be at least slot bits + 100");
    refuses(
        "tick 5\nticks 5\nstation 2 gap x\n",
        "line 3: gap is a whole number of at most 255, not 'x'",
    );
    refuses("tick 5\n", "line 2: the text ends, and no line says ticks");
    let output = fed(&["simulate"], b"tick 5\xff");
    assert_eq!(output.status.code(), Some(1));
    fails(
        &[
            "simulate",
            "traces/simulations/two-loggers.setup",
            "--from",
            "3",
        ],
        2,
        "amsulfezd simulate: --from and --to are of the picture, which -o writes",
    );
    fails(
        &[
            "simulate",
            "traces/simulations/two-loggers.setup",
            "-o",
            "x",
            "--from",
            "3",
            "--to",
            "2",
        ],
        2,
        "amsulfezd simulate: --from 3 is after --to 2",
    );
    fails(
        &["simulate", "nosuch.setup"],
        2,
        "amsulfezd simulate: nosuch.setup: No such file or directory (os error 2)",
    );
}
