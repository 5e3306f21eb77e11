//! Captures as pcap files, which Wireshark and its kin open: link type 257, PROFIBUS, each packet a frame as it stands on the
//! bus, from start to end delimiter, with its time in microseconds.
//!
//! By hand: Debian 12 has no crate that reads and writes such files (`pcap-sys` binds a C library), and the format is a head of 24
//! bytes and 16 bytes before each packet.

/// The link type of PROFIBUS in the registry of link types.
pub const PROFIBUS: u32 = 257;
/// The first link type for private use: Debian 12's Wireshark does not open 257, and opens this.
pub const USER: u32 = 147;
const MICROSECONDS: u32 = 0xa1b2_c3d4;
const NANOSECONDS: u32 = 0xa1b2_3c4d;
/// The first bytes of the successor format, which is not read.
const NEXT_GENERATION: u32 = 0x0a0d_0d0a;
/// The first bytes of a form with more before each packet, which old programs wrote and which is not read.
const MODIFIED: u32 = 0xa1b2_cd34;
const HEAD: usize = 24;
const PACKET_HEAD: usize = 16;
/// What a packet may have at most; the longest frame has 255 bytes.
const SNAP: u32 = 65_535;

/// A frame and when it was heard, in microseconds.
#[derive(Debug, Clone, PartialEq, Eq)]
pub struct Packet {
    pub time: u64,
    pub frame: Vec<u8>,
}

/// Whether these bytes begin as a pcap file does, or as one of its successor.
pub fn begins(bytes: &[u8]) -> bool {
    let known = |word: u32| [MICROSECONDS, NANOSECONDS, MODIFIED, NEXT_GENERATION].contains(&word);
    match bytes.get(..4) {
        Some(first) => {
            let first = first.try_into().expect("four bytes");
            known(u32::from_be_bytes(first)) || known(u32::from_le_bytes(first))
        }
        None => false,
    }
}

/// A file of these packets, with this link type.
pub fn write(packets: &[Packet], link: u32) -> Vec<u8> {
    let mut file = Vec::new();
    let mut put = |words: &[u32]| {
        for word in words {
            file.extend(word.to_le_bytes());
        }
    };
    // Version 2.4, which is 2 and 4 in 16 bits each; no time zone; times as exact as they are.
    put(&[MICROSECONDS, 4 << 16 | 2, 0, 0, SNAP, link]);
    for packet in packets {
        let (seconds, micros) = (packet.time / 1_000_000, packet.time % 1_000_000);
        let length = packet.frame.len() as u32;
        for word in [seconds as u32, micros as u32, length, length] {
            file.extend(word.to_le_bytes());
        }
        file.extend(&packet.frame);
    }
    file
}

/// The packets of a file; else why it is none, with the packet counted from 1.
pub fn read(file: &[u8]) -> Result<Vec<Packet>, String> {
    let head = file
        .get(..HEAD)
        .ok_or("the file ends inside its head of 24 bytes")?;
    let little = |bytes: &[u8]| u32::from_le_bytes(bytes.try_into().expect("four bytes"));
    let big = |bytes: &[u8]| u32::from_be_bytes(bytes.try_into().expect("four bytes"));
    let word: &dyn Fn(&[u8]) -> u32 = match little(&head[..4]) {
        MICROSECONDS | NANOSECONDS | MODIFIED => &little,
        NEXT_GENERATION => {
            return Err("this is pcapng, which is not read: save it as pcap".to_string())
        }
        _ => &big,
    };
    let part = match word(&head[..4]) {
        MICROSECONDS => 1,
        NANOSECONDS => 1000,
        MODIFIED => {
            return Err(
                "this is pcap of a modified form, which is not read: save it as pcap".to_string(),
            )
        }
        other => return Err(format!("{:08x} begins no pcap file", other)),
    };
    // The upper bits of the last word are no part of the link type.
    let link = word(&head[20..]) & 0xffff;
    if ![PROFIBUS, USER].contains(&link) {
        return Err(format!(
            "its link type is {}, and that of PROFIBUS is 257, or 147 for private use",
            link
        ));
    }
    let mut packets = Vec::new();
    let mut rest = &file[HEAD..];
    while !rest.is_empty() {
        let number = packets.len() + 1;
        let head = rest
            .get(..PACKET_HEAD)
            .ok_or_else(|| format!("packet {}: the file ends inside its head", number))?;
        let [seconds, fraction, kept, length] = [0, 4, 8, 12].map(|at| word(&head[at..at + 4]));
        if fraction / part >= 1_000_000 {
            return Err(format!(
                "packet {}: {} is no part of a second",
                number, fraction
            ));
        }
        if kept != length {
            return Err(format!(
                "packet {}: only {} of its {} bytes were kept",
                number, kept, length
            ));
        }
        let frame = rest
            .get(PACKET_HEAD..)
            .and_then(|rest| rest.get(..kept as usize));
        let frame = frame.ok_or_else(|| format!("packet {}: the file ends inside it", number))?;
        packets.push(Packet {
            time: u64::from(seconds) * 1_000_000 + u64::from(fraction / part),
            frame: frame.to_vec(),
        });
        rest = &rest[PACKET_HEAD + frame.len()..];
    }
    Ok(packets)
}

/// The capture's text of packets: a line for each.
pub fn to_text(packets: &[Packet]) -> String {
    let mut text = String::new();
    for packet in packets {
        let digits: String = packet
            .frame
            .iter()
            .map(|byte| format!("{:02x}", byte))
            .collect();
        text.push_str(&format!("{} {}\n", packet.time, digits));
    }
    text
}

/// The packets of a capture's text that the proved import took.
pub fn of_text(text: &str) -> Option<Vec<Packet>> {
    let packet = |line: &str| {
        let (time, digits) = line.split_once(' ')?;
        let byte = |at: usize| u8::from_str_radix(digits.get(at..at + 2)?, 16).ok();
        let frame: Option<Vec<u8>> = (0..digits.len()).step_by(2).map(byte).collect();
        Some(Packet {
            time: time.parse().ok()?,
            frame: frame?,
        })
    };
    text.lines().map(packet).collect()
}

#[cfg(test)]
mod tests {
    use super::*;

    fn packets() -> Vec<Packet> {
        vec![
            Packet {
                time: 0,
                frame: vec![0xe5],
            },
            Packet {
                time: 7_800_000_366,
                frame: vec![0xdc, 5, 9],
            },
            Packet {
                time: (1 << 48) - 1,
                frame: vec![0x10, 5, 9, 0x49, 0x57, 0x16],
            },
        ]
    }

    /// The bytes of a file with one packet, stated by hand: version 2.4, snap length 65,535, link type 257; 7,800 s and 366 us.
    #[test]
    fn by_hand() {
        let stated = [
            0xd4, 0xc3, 0xb2, 0xa1, 2, 0, 4, 0, 0, 0, 0, 0, 0, 0, 0, 0, 0xff, 0xff, 0, 0, 1, 1, 0,
            0, //
            0x78, 0x1e, 0, 0, 0x6e, 1, 0, 0, 3, 0, 0, 0, 3, 0, 0, 0, 0xdc, 5, 9,
        ];
        assert_eq!(write(&packets()[1..2], PROFIBUS), stated);
    }

    #[test]
    fn there_and_back() {
        let file = write(&packets(), PROFIBUS);
        assert_eq!(read(&file), Ok(packets()));
        assert_eq!(of_text(&to_text(&packets())), Some(packets()));
        assert_eq!(read(&write(&[], USER)), Ok(Vec::new()));
    }

    /// The same packet by a machine of either byte order, in microseconds and in nanoseconds, of which the part below a
    /// microsecond is dropped.
    #[test]
    fn other_forms() {
        let packet = Packet {
            time: 7_800_000_366,
            frame: vec![0xe5],
        };
        for bytes_of in [u32::to_be_bytes, u32::to_le_bytes] {
            for (magic, fraction) in [(MICROSECONDS, 366), (NANOSECONDS, 366_999)] {
                // The version, 2 and 4 in 16 bits each, is not looked at.
                let words = [magic, 0, 0, 0, SNAP, PROFIBUS, 7_800, fraction, 1, 1];
                let mut file: Vec<u8> = words.into_iter().flat_map(bytes_of).collect();
                file.push(0xe5);
                assert!(begins(&file), "{:08x}", magic);
                assert_eq!(read(&file), Ok(vec![packet.clone()]), "{:08x}", magic);
            }
        }
    }

    #[test]
    fn refused() {
        let file = write(&packets(), PROFIBUS);
        let said = |bytes: &[u8]| read(bytes).expect_err("no such file");
        assert_eq!(
            said(&file[..23]),
            "the file ends inside its head of 24 bytes"
        );
        assert_eq!(
            said(&file[..24 + 15]),
            "packet 1: the file ends inside its head"
        );
        assert_eq!(
            said(&file[..24 + 17 + 18]),
            "packet 2: the file ends inside it"
        );
        let mut ethernet = file.clone();
        ethernet[20..24].copy_from_slice(&[1, 0, 0, 0]);
        assert_eq!(
            said(&ethernet),
            "its link type is 1, and that of PROFIBUS is 257, or 147 for private use"
        );
        let mut cut = file.clone();
        cut[24 + 12] = 2;
        assert_eq!(said(&cut), "packet 1: only 1 of its 2 bytes were kept");
        let mut late = file.clone();
        late[24 + 4..24 + 8].copy_from_slice(&1_000_000_u32.to_le_bytes());
        assert_eq!(said(&late), "packet 1: 1000000 is no part of a second");
        for magic in [MODIFIED.to_le_bytes(), MODIFIED.to_be_bytes()] {
            let mut modified = file.clone();
            modified[..4].copy_from_slice(&magic);
            assert!(begins(&modified));
            assert_eq!(
                said(&modified),
                "this is pcap of a modified form, which is not read: save it as pcap"
            );
        }
        let mut next = file;
        next[..4].copy_from_slice(&[0x0a, 0x0d, 0x0d, 0x0a]);
        assert_eq!(
            said(&next),
            "this is pcapng, which is not read: save it as pcap"
        );
    }
}
