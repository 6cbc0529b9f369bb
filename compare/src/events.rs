// Document 01's events over the Rust's SoftTnc, the lines that the event program has to print, and where demand 2's domain ends.
use crate::modem::ModulatorFrame;
use crate::protocol::PacketFrameCounter;
use crate::tnc::{Now, SoftTnc};
use crate::told::told;
use std::panic::{catch_unwind, AssertUnwindSafe};

pub const LIMIT: u64 = 1 << 62;

// The body's length for each kind.
pub fn body_len(kind: u8) -> Option<usize> {
    [1, 1, 8, 4, 30, 26, 25, 0, 1].get((kind as usize).wrapping_sub(1)).copied()
}

// Why the domain ends.
#[derive(Clone, Copy, PartialEq, Eq, Debug)]
pub enum Row {
    DueCheck,
    FullQueue,
    Basic823,
    LichIndex,
    FinalLength,
    StreamIndex,
    StreamNumber,
    StrayFinal,
    Clock,
}

pub const ROWS: [(Row, &str); 9] = [
    (Row::DueCheck, "a read at a due check, now mod 4 = 3"),
    (Row::FullQueue, "a read in a packet transmission, the packet queue full"),
    (Row::Basic823, "823 or more decoded bytes on port 0 (the Rust panics)"),
    (Row::LichIndex, "LICH index over 5 while acquiring (the Rust panics; answer 6)"),
    (
        Row::FinalLength,
        "final length over 25 in a packet's reception (the Rust panics; answer 6)",
    ),
    (Row::StreamIndex, "LICH index over 5 in a stream's reception (answer 6)"),
    (Row::StreamNumber, "frame number over 32,767 (answer 6)"),
    (Row::StrayFinal, "final length over 25 elsewhere (answer 6)"),
    (Row::Clock, "clock over 2^62 (answer 6)"),
];

impl Row {
    pub fn index(self) -> usize {
        ROWS.iter().position(|r| r.0 == self).unwrap()
    }

    fn panics(self) -> bool {
        matches!(self, Row::Basic823 | Row::LichIndex | Row::FinalLength)
    }
}

fn number16(b: &[u8]) -> u16 {
    u16::from_be_bytes(b.try_into().unwrap())
}

// The row that the event meets in this state, decided from the state and the event alone.
pub fn leaves(tnc: &SoftTnc, event: &[u8]) -> Option<Row> {
    let body = &event[1..];
    let state = tnc.state_now();
    match event[0] {
        1 if body[0] == 0xC0 && !tnc.packets_full() && basic_count(tnc.reader().held()) >= 823 => Some(Row::Basic823),
        3 if u64::from_be_bytes(body.try_into().unwrap()) > LIMIT => Some(Row::Clock),
        6 if !tnc.ptt() && body[25] > 128 + 25 => Some(match state {
            Now::Packet { .. } => Row::FinalLength,
            _ => Row::StrayFinal,
        }),
        7 if !tnc.ptt() && (body[0] > 5 || number16(&body[6..8]) > 32767) => {
            let number = number16(&body[6..8]);
            let in_stream = matches!(state, Now::Stream { expected } if expected <= number);
            Some(match (body[0] > 5, in_stream) {
                (true, false) => Row::LichIndex,
                (true, true) => Row::StreamIndex,
                (false, _) => Row::StreamNumber,
            })
        }
        8 => match state {
            Now::SendsPackets if tnc.packets_full() => Some(Row::FullQueue),
            Now::Idle | Now::Acquiring | Now::Stream { .. } | Now::Packet { .. } => {
                let wants = tnc.lsf_pending() || tnc.packets_held() > 0;
                let due = tnc.check().is_some_and(|t| t <= tnc.clock());
                (wants && due && !tnc.duplex() && tnc.clock() % 4 == 3).then_some(Row::DueCheck)
            }
            _ => None,
        },
        _ => None,
    }
}

// How many bytes the frame that a FEND would now close decodes to, where it is data for port 0.
fn basic_count(held: &[u8]) -> usize {
    if held.len() < 2 || held.len() == 1713 || held[0] != 0xC0 || held[1] != 0 {
        return 0;
    }
    let content = &held[2..];
    let mut count = 0;
    let mut i = 0;
    while i < content.len() {
        if content[i] == 0xDB {
            i += 1;
            if i == content.len() {
                break;
            }
        }
        i += 1;
        count += 1;
    }
    count
}

// What document 01 has our program print where the domain ends.
fn documented(tnc: &SoftTnc, event: &[u8], row: Row) -> Vec<String> {
    let ptt = tnc.ptt() as u8;
    match row {
        Row::DueCheck if tnc.carrier() => vec!["08 0 0".to_string()],
        Row::DueCheck => vec![format!("08 1 1 {:02X}", tnc.delay())],
        Row::FullQueue => vec!["08 2 1 ".to_string(), "08 4 1 ".to_string()],
        Row::Basic823 => vec![format!("01 0 {ptt}")],
        _ => vec![format!("{:02X} 6 {ptt}", event[0])],
    }
}

pub struct Ended {
    pub row: Row,
    // The line of the event that ends the domain is one of these, or begins so where they end in a blank.
    pub allowed: Vec<String>,
}

impl Ended {
    pub fn allows(&self, line: &str) -> bool {
        self.allowed
            .iter()
            .any(|a| if a.ends_with(' ') { line.starts_with(a) } else { line == a })
    }
}

pub enum Outcome {
    Line(String),
    End(Ended),
    // A panic that no row foresees, or none where one does: a fault of this program or a find.
    Unforeseen(String),
}

// A whole event. After an end or a panic the TNC is not used again.
pub fn step(tnc: &mut SoftTnc, event: &[u8]) -> Outcome {
    let row = leaves(tnc, event);
    if let Some(row) = row {
        let allowed = documented(tnc, event, row);
        if row.panics() && catch_unwind(AssertUnwindSafe(|| apply(tnc, event))).is_ok() {
            return Outcome::Unforeseen(format!("{row:?}, and the Rust does not panic"));
        }
        return Outcome::End(Ended { row, allowed });
    }
    match catch_unwind(AssertUnwindSafe(|| apply(tnc, event))) {
        Ok((number, bytes)) => Outcome::Line(line(event[0], number, tnc.ptt(), &bytes)),
        Err(_) => Outcome::Unforeseen("the Rust panics".to_string()),
    }
}

pub fn line(kind: u8, number: u8, ptt: bool, bytes: &[u8]) -> String {
    let mut out = format!("{kind:02X} {number} {}", ptt as u8);
    if !bytes.is_empty() {
        out.push(' ');
        const DIGITS: &[u8; 16] = b"0123456789ABCDEF";
        for b in bytes {
            out.push(DIGITS[(b >> 4) as usize] as char);
            out.push(DIGITS[(b & 15) as usize] as char);
        }
    }
    out
}

fn apply(tnc: &mut SoftTnc, event: &[u8]) -> (u8, Vec<u8>) {
    let body = &event[1..];
    match event[0] {
        8 => {
            return match tnc.read_tx_frame() {
                None => (0, vec![]),
                Some(ModulatorFrame::Preamble { tx_delay }) => (1, vec![tx_delay]),
                Some(ModulatorFrame::Lsf(lsf)) => (2, lsf.0.to_vec()),
                Some(ModulatorFrame::Stream(f)) => (3, crate::functions::stream_body(&f)),
                Some(ModulatorFrame::Packet(p)) => {
                    let mut bytes = p.payload.to_vec();
                    bytes.push(match p.counter {
                        PacketFrameCounter::Frame { index } => index as u8,
                        PacketFrameCounter::FinalFrame { payload_len } => payload_len as u8 + 128,
                    });
                    (4, bytes)
                }
                Some(ModulatorFrame::EndOfTransmission) => (5, vec![]),
            }
        }
        9 => {
            let mut room = [0; 255];
            let n = tnc.read_kiss(&mut room[..body[0] as usize]);
            return (0, room[..n].to_vec());
        }
        kind => told(tnc, kind, body),
    }
    (0, vec![])
}

// The events that stand in a stream of bytes; the last may be cut or of an unknown kind, and then ends the stream.
pub fn split(stream: &[u8]) -> Vec<&[u8]> {
    let mut out = vec![];
    let mut at = 0;
    while at < stream.len() {
        let end = match body_len(stream[at]) {
            Some(n) => (at + 1 + n).min(stream.len()),
            None => stream.len(),
        };
        out.push(&stream[at..end]);
        at = end;
    }
    out
}

pub fn is_whole(event: &[u8]) -> bool {
    body_len(event[0]) == Some(event.len() - 1)
}

// What the Rust makes of a stream: its lines up to the end of the domain.
pub struct Run {
    pub lines: Vec<String>,
    pub end: Option<Ended>,
    pub unforeseen: Option<String>,
}

pub fn run(events: &[&[u8]]) -> Run {
    let mut tnc = SoftTnc::new();
    let mut out = Run {
        lines: vec![],
        end: None,
        unforeseen: None,
    };
    for event in events {
        if !is_whole(event) {
            out.lines.push(line(event[0], 9, tnc.ptt(), &[]));
            break;
        }
        match step(&mut tnc, event) {
            Outcome::Line(l) => out.lines.push(l),
            Outcome::End(e) => {
                out.end = Some(e);
                break;
            }
            Outcome::Unforeseen(u) => {
                out.unforeseen = Some(u);
                break;
            }
        }
    }
    out
}

// What the Rust makes of a stream, also past the end of the domain, until it panics.
pub fn run_past(events: &[&[u8]]) -> Vec<String> {
    let mut tnc = SoftTnc::new();
    let mut out = vec![];
    for event in events.iter().filter(|e| is_whole(e)) {
        match catch_unwind(AssertUnwindSafe(|| apply(&mut tnc, event))) {
            Ok((number, bytes)) => out.push(line(event[0], number, tnc.ptt(), &bytes)),
            Err(_) => {
                out.push(format!("{:02X} panics", event[0]));
                break;
            }
        }
    }
    out
}
