// Function against function: requests for the Rattle programs `probe` and `probe_lsf`, each with the answer that it has to give. Inside the domain that answer is the Rust's. Where
// one of document 01's rows or an answer 5 to 8 is met, it is what document 01 says, and the call is counted apart.
use crate::address::{Address, Callsign};
use crate::kiss::{inside_escape, inside_unescape, KissBuffer, KissError, KissFrame};
use crate::protocol::{DataType, EncryptionType, LichCollection, LsfFrame, Mode, StreamFrame};
use crate::rng::Rng;
use std::io::{Read, Write};
use std::process::{Child, Command, Stdio};

pub const NAMES: [(u8, &str); 32] = [
    (1, "new_basic_packet"),
    (2, "new_full_packet"),
    (3, "new_stream_setup"),
    (4, "new_stream_data"),
    (5, "new_set_tx_delay"),
    (6, "new_set_p"),
    (7, "set_full_duplex"),
    (8, "m17_crc"),
    (9, "port"),
    (10, "command"),
    (11, "decode_payload"),
    (12, "escape"),
    (13, "unescape"),
    (14, "escaped_len (escape's count)"),
    (16, "LsfFrame::check_crc"),
    (17, "LsfFrame::mode"),
    (18, "LsfFrame::data_type"),
    (19, "LsfFrame::encryption_type"),
    (20, "LsfFrame::channel_access_number"),
    (21, "LsfFrame::meta"),
    (22, "LsfFrame::set_mode"),
    (23, "LsfFrame::set_data_type"),
    (24, "LsfFrame::set_encryption_type"),
    (25, "LsfFrame::set_channel_access_number"),
    (26, "LsfFrame::packet_basic (new_packet)"),
    (32, "KissBuffer::new"),
    (33, "KissBuffer::write (buf_remaining, did_write)"),
    (34, "KissBuffer::next_frame"),
    (48, "LichCollection::new"),
    (49, "LichCollection::set_segment"),
    (50, "LichCollection::valid_segments"),
    (51, "LichCollection::try_assemble"),
];

// Not a function: the reader's record and store, looked at between its calls.
const READER_STATE: u8 = 35;

pub struct Case {
    pub kind: u8,
    pub request: Vec<u8>,
    pub answer: Vec<u8>,
    // How many bytes of the answer are compared: of a reader's store those that count.
    pub care: usize,
    pub inside: bool,
}

pub fn counted_up(from: u8, n: usize) -> Vec<u8> {
    (0..n).map(|i| from.wrapping_add(i as u8)).collect()
}

struct Asked {
    kind: u8,
    from: u8,
    a: Vec<u8>,
    b: Vec<u8>,
}

impl Asked {
    fn answered(self, number: u8, value: usize, room: Vec<u8>, inside: bool) -> Case {
        let mut request = vec![self.kind];
        let two = |n: usize| (n as u16).to_be_bytes();
        request.extend(two(room.len()));
        request.push(self.from);
        request.extend(two(self.a.len()));
        request.extend(two(self.b.len()));
        request.extend(&self.a);
        request.extend(&self.b);
        let mut answer = vec![number];
        answer.extend(two(value));
        answer.extend(room);
        let care = answer.len();
        Case {
            kind: self.kind,
            request,
            answer,
            care,
            inside,
        }
    }
}

// Of a function that takes and gives an LSF or a LICH part by value. Lengths and rooms say nothing of it: `probe_lsf` has thirty bytes each way.
fn by_value(kind: u8, v: u8, bytes: &[u8], number: u8, value: usize, told: &[u8], inside: bool) -> Case {
    let thirty = |b: &[u8]| (0..30).map(|i| b.get(i).copied().unwrap_or(0)).collect::<Vec<u8>>();
    let mut answer = vec![number];
    answer.extend((value as u16).to_be_bytes());
    answer.extend(thirty(told));
    Case {
        kind,
        request: [vec![kind, v], thirty(bytes)].concat(),
        care: answer.len(),
        answer,
        inside,
    }
}

// The programs that are asked, by their crates' names.
pub const PROGRAMS: [&str; 2] = ["probe", "probe_lsf"];

impl Case {
    // Which of `PROGRAMS` is asked.
    pub fn program(&self) -> usize {
        matches!(self.kind, 16..=31 | 48..) as usize
    }
}

// Where cases go: compared in batches, or kept for a record.
pub struct Sink<'a> {
    pub probes: Option<&'a mut [Probe; 2]>,
    pub kept: Vec<Case>,
    pub bytes: usize,
    pub calls: [u64; 256],
    pub outside: [u64; 256],
    pub differences: u64,
}

impl<'a> Sink<'a> {
    pub fn new(probes: Option<&'a mut [Probe; 2]>) -> Self {
        Sink {
            probes,
            kept: vec![],
            bytes: 0,
            calls: [0; 256],
            outside: [0; 256],
            differences: 0,
        }
    }

    fn put(&mut self, case: Case) {
        self.bytes += case.request.len() + case.answer.len();
        if case.inside {
            self.calls[case.kind as usize] += 1;
        } else {
            self.outside[case.kind as usize] += 1;
        }
        self.kept.push(case);
        if self.probes.is_some() && self.bytes > 4_000_000 {
            self.flush();
        }
    }

    pub fn flush(&mut self) {
        if self.probes.is_none() {
            return;
        }
        self.bytes = 0;
        let (first, second) = std::mem::take(&mut self.kept).into_iter().partition(|c| c.program() == 0);
        self.compare(0, first);
        self.compare(1, second);
    }

    fn compare(&mut self, program: usize, cases: Vec<Case>) {
        let Some(probes) = self.probes.as_mut() else { return };
        let all: Vec<u8> = cases.iter().flat_map(|c| c.request.iter().copied()).collect();
        let want: usize = cases.iter().map(|c| c.answer.len()).sum();
        let got = probes[program].ask(&all, want);
        let mut at = 0;
        for case in &cases {
            let end = (at + case.answer.len()).min(got.len());
            let ours = &got[at.min(got.len())..end];
            if ours.len() < case.care || ours[..case.care] != case.answer[..case.care] {
                self.differences += 1;
                if self.differences <= 5 {
                    println!(
                        "DIFFERENCE in {} ({} the domain)\n  request {}\n  expected {}\n  ours     {}",
                        name(case.kind),
                        if case.inside { "inside" } else { "outside" },
                        hex(&case.request),
                        hex(&case.answer[..case.care]),
                        hex(ours)
                    );
                }
            }
            at += case.answer.len();
        }
    }
}

pub fn name(kind: u8) -> &'static str {
    NAMES.iter().find(|n| n.0 == kind).map_or("the reader's state", |n| n.1)
}

pub fn hex(bytes: &[u8]) -> String {
    bytes.iter().map(|b| format!("{b:02X}")).collect()
}

// A Rattle program is made for x86-64; RUNNER has the words that start one on another machine (compare/run sets it).
pub fn command(path: &str) -> Command {
    let runner = std::env::var("RUNNER").unwrap_or_default();
    let mut words: Vec<&str> = runner.split_whitespace().collect();
    words.push(path);
    let mut command = Command::new(words[0]);
    command.args(&words[1..]);
    command
}

pub struct Probe(Child);

impl Probe {
    pub fn start(path: &str) -> Self {
        let child = command(path).stdin(Stdio::piped()).stdout(Stdio::piped()).spawn();
        Probe(child.unwrap_or_else(|e| panic!("{path}: {e}")))
    }

    fn ask(&mut self, requests: &[u8], want: usize) -> Vec<u8> {
        let mut stdin = self.0.stdin.as_ref().unwrap();
        let stdout = self.0.stdout.as_mut().unwrap();
        std::thread::scope(|s| {
            s.spawn(move || stdin.write_all(requests).and_then(|_| stdin.flush()).ok());
            let mut got = vec![0; want];
            let mut n = 0;
            while n < want {
                match stdout.read(&mut got[n..]) {
                    Ok(0) | Err(_) => break,
                    Ok(k) => n += k,
                }
            }
            got.truncate(n);
            got
        })
    }

    pub fn end(mut self) {
        drop(self.0.stdin.take());
        self.0.wait().ok();
    }
}

pub fn all(rng: &mut Rng, sink: &mut Sink) {
    crcs(rng, sink);
    builders(rng, sink);
    frames(rng, sink);
    escapes(rng, sink);
    readers(rng, sink);
    lsfs(rng, sink);
    liches(rng, sink);
    sink.flush();
}

// --- CRC

fn crc(sink: &mut Sink, a: Vec<u8>) {
    let value = crate::crc::m17_crc(&a) as usize;
    sink.put(
        Asked {
            kind: 8,
            from: 0,
            a,
            b: vec![],
        }
        .answered(0, value, vec![], true),
    );
}

fn crcs(rng: &mut Rng, sink: &mut Sink) {
    crc(sink, vec![]);
    for b in 0..=255u8 {
        crc(sink, vec![b]);
        for c in 0..=255u8 {
            crc(sink, vec![b, c]);
        }
    }
    for n in 0..=900 {
        for _ in 0..20 {
            let a = rng.bytes(n, 0);
            crc(sink, a);
        }
    }
    for _ in 0..4000 {
        let n = rng.below(899);
        let mut a = rng.bytes(n, 8);
        let c = crate::crc::m17_crc(&a);
        a.extend(c.to_be_bytes());
        crc(sink, a);
    }
}

// --- Builders

// The built frame into a room of `room` bytes: it fits, or document 01 says 7.
fn built(sink: &mut Sink, asked: Asked, room: usize, rust: Result<KissFrame, KissError>, inside: bool) {
    let frame = rust.map(|f| f.as_bytes().to_vec());
    built_bytes(sink, asked, room, frame, inside)
}

fn built_bytes(sink: &mut Sink, asked: Asked, room: usize, rust: Result<Vec<u8>, KissError>, inside: bool) {
    let mut bytes = counted_up(asked.from, room);
    let case = match rust {
        Err(KissError::PayloadTooBig) => asked.answered(1, 0, bytes, inside),
        Err(KissError::LsfWrongSize) => asked.answered(2, 0, bytes, inside),
        Err(e) => panic!("a builder that answers {e:?}"),
        Ok(f) if room < f.len() => asked.answered(7, 0, bytes, false),
        Ok(f) => {
            bytes[..f.len()].copy_from_slice(&f);
            asked.answered(0, f.len(), bytes, inside)
        }
    };
    sink.put(case);
}

// Rooms around the frame's length, and now and then the whole store's.
fn room_around(rng: &mut Rng, len: usize) -> usize {
    match rng.below(8) {
        0 => len,
        1 => len + 1,
        2 => len.saturating_sub(1),
        3 => rng.below(len + 4),
        4 => 1713,
        5 => rng.below(4),
        _ => len + rng.below(20),
    }
}

fn length_of(f: &Result<KissFrame, KissError>) -> usize {
    f.as_ref().map_or(8, |f| f.len)
}

fn basic(rng: &mut Rng, sink: &mut Sink, a: Vec<u8>) {
    let rust = KissFrame::new_basic_packet(&a);
    let room = room_around(rng, length_of(&rust));
    built(
        sink,
        Asked {
            kind: 1,
            from: rng.byte(),
            a,
            b: vec![],
        },
        room,
        rust,
        true,
    );
}

fn full(rng: &mut Rng, sink: &mut Sink, a: Vec<u8>, b: Vec<u8>) {
    let rust = KissFrame::new_full_packet(&a, &b);
    let room = room_around(rng, length_of(&rust));
    built(
        sink,
        Asked {
            kind: 2,
            from: rng.byte(),
            a,
            b,
        },
        room,
        rust,
        true,
    );
}

fn setup(rng: &mut Rng, sink: &mut Sink, a: Vec<u8>) {
    let rust = KissFrame::new_stream_setup(&a);
    let room = room_around(rng, length_of(&rust));
    built(
        sink,
        Asked {
            kind: 3,
            from: rng.byte(),
            a,
            b: vec![],
        },
        room,
        rust,
        true,
    );
}

// The frame's bytes laid out as the body of event 07.
pub fn stream_body(f: &StreamFrame) -> Vec<u8> {
    let mut a = vec![f.lich_idx];
    a.extend(f.lich_part);
    a.extend(f.frame_number.to_be_bytes());
    a.push(f.end_of_stream as u8);
    a.extend(f.stream_data);
    a
}

fn data(rng: &mut Rng, sink: &mut Sink, f: StreamFrame) {
    let a = stream_body(&f);
    let rust = KissFrame::new_stream_data(&f);
    let room = room_around(rng, length_of(&rust));
    let asked = Asked {
        kind: 4,
        from: rng.byte(),
        a,
        b: vec![],
    };
    if f.lich_idx > 5 || f.frame_number > 32767 {
        let bytes = counted_up(asked.from, room);
        return sink.put(asked.answered(6, 0, bytes, false));
    }
    built(sink, asked, room, rust, true);
}

fn setting(rng: &mut Rng, sink: &mut Sink, kind: u8, port: u8, value: u8) {
    let (command, rust) = match kind {
        5 => (1, KissFrame::new_set_tx_delay(port, value)),
        6 => (2, KissFrame::new_set_p(port, value)),
        _ => (5, KissFrame::set_full_duplex(port, value != 0)),
    };
    let room = room_around(rng, 5);
    let asked = Asked {
        kind,
        from: rng.byte(),
        a: vec![port, value],
        b: vec![],
    };
    if port > 15 {
        let bytes = counted_up(asked.from, room);
        return sink.put(asked.answered(6, 0, bytes, false));
    }
    if kind != 7 && (value == 0xC0 || value == 0xDB) {
        let second = if value == 0xC0 { 0xDC } else { 0xDD };
        let escaped = vec![0xC0, port * 16 + command, 0xDB, second, 0xC0];
        return built_bytes(sink, asked, room, Ok(escaped), false);
    }
    built(sink, asked, room, Ok(rust), true);
}

pub fn stream_frame(rng: &mut Rng, special: usize) -> StreamFrame {
    let part = rng.bytes(5, special).try_into().unwrap();
    let content = rng.bytes(16, special).try_into().unwrap();
    StreamFrame {
        lich_idx: rng.below(6) as u8,
        lich_part: part,
        frame_number: rng.below(32768) as u16,
        end_of_stream: rng.one_in(4),
        stream_data: content,
    }
}

fn builders(rng: &mut Rng, sink: &mut Sink) {
    basic(rng, sink, vec![]);
    for b in 0..=255u8 {
        basic(rng, sink, vec![b]);
        for c in 0..=255u8 {
            basic(rng, sink, vec![b, c]);
        }
    }
    for i in 0..12000 {
        let n = if i % 4 == 0 { rng.within(818, 826) } else { rng.below(830) };
        let special = rng.pick(&[0, 1, 2, 8, 100]);
        let a = rng.bytes(n, special);
        basic(rng, sink, a);
        let n = rng.pick(&[30, 30, 30, 30, 30, 29, 31, 0, 1]);
        let m = if i % 4 == 0 { rng.within(821, 829) } else { rng.below(830) };
        let (a, b) = (rng.bytes(n, special), rng.bytes(m, special));
        full(rng, sink, a, b);
    }
    // Every byte of an LSF is FEND or FESC, and so is every byte of the longest packet: the longest frame.
    full(rng, sink, vec![0xC0; 30], vec![0xDB; 825]);
    for n in 0..=64 {
        for _ in 0..60 {
            let special = rng.pick(&[0, 1, 3]);
            let a = rng.bytes(n, special);
            setup(rng, sink, a);
        }
    }
    for _ in 0..40000 {
        let special = rng.pick(&[0, 1, 3]);
        let a = rng.bytes(30, special);
        setup(rng, sink, a);
    }
    for number in 0..=65535u16 {
        let mut f = stream_frame(rng, 6);
        f.frame_number = number;
        data(rng, sink, f);
    }
    for index in 0..=255u8 {
        for _ in 0..20 {
            let mut f = stream_frame(rng, 2);
            f.lich_idx = index;
            data(rng, sink, f);
        }
    }
    for kind in 5..=7 {
        for port in 0..=255u8 {
            for value in 0..=255u8 {
                // Once for a port that is refused, several times, for as many rooms, for one that is not.
                for _ in 0..if port < 16 { 6 } else { 1 } {
                    setting(rng, sink, kind, port, value);
                }
            }
        }
    }
}

// --- Port, command, payload

fn one_frame(rng: &mut Rng, sink: &mut Sink, a: &[u8]) {
    let mut frame = KissFrame::new_empty();
    frame.data[..a.len()].copy_from_slice(a);
    frame.len = a.len();
    let header = a.iter().position(|b| *b != 0xC0);
    let asked = |kind, from| Asked {
        kind,
        from,
        a: a.to_vec(),
        b: vec![],
    };

    let (port, command) = match header {
        None => ((3, 0, false), (3, 0, false)),
        Some(_) => (
            (0, frame.port().unwrap() as usize, true),
            match frame.command() {
                Ok(c) => (0, c.number() as usize, true),
                Err(KissError::UnsupportedKissCommand) => (4, 0, true),
                Err(e) => panic!("a command that answers {e:?}"),
            },
        ),
    };
    sink.put(asked(9, 0).answered(port.0, port.1, vec![], port.2));
    sink.put(asked(10, 0).answered(command.0, command.1, vec![], command.2));

    let decoded = header.map_or(0, |h| a.len() - h);
    for _ in 0..2 {
        let n = match rng.below(8) {
            0 => rng.pick(&[0, 1, 30, 824, 855]),
            1 => rng.below(4),
            2 => decoded,
            _ => (decoded + 2).saturating_sub(rng.below(6)),
        };
        let from = rng.byte();
        let mut room = counted_up(from, n);
        let case = match header {
            None => asked(11, from).answered(3, 0, room, false),
            Some(_) => match frame.decode_payload(&mut room) {
                Ok(count) => asked(11, from).answered(0, count, room, true),
                Err(_) => asked(11, from).answered(3, 0, room, true),
            },
        };
        sink.put(case);
    }
}

fn any_frame(rng: &mut Rng) -> Vec<u8> {
    let special = rng.pick(&[0, 2, 8, 50]);
    let long = rng.one_in(6);
    let built = match rng.below(5) {
        0 => {
            let n = if long { rng.within(800, 822) } else { rng.below(60) };
            KissFrame::new_basic_packet(&rng.bytes(n, special)).unwrap()
        }
        1 => {
            let n = if long { rng.within(800, 825) } else { rng.below(60) };
            KissFrame::new_full_packet(&rng.bytes(30, special), &rng.bytes(n, special)).unwrap()
        }
        2 => KissFrame::new_stream_setup(&rng.bytes(30, special)).unwrap(),
        3 => KissFrame::new_stream_data(&stream_frame(rng, special)).unwrap(),
        _ => KissFrame::new_set_tx_delay(rng.below(16) as u8, rng.byte()),
    };
    built.as_bytes().to_vec()
}

fn damaged(rng: &mut Rng, mut a: Vec<u8>) -> Vec<u8> {
    for _ in 0..rng.within(1, 4) {
        let n = a.len();
        match rng.below(6) {
            0 if n > 0 => a.truncate(rng.below(n)),
            1 if n > 0 => {
                let i = rng.below(n);
                a[i] = rng.byte();
            }
            2 if n > 0 => {
                a.remove(rng.below(n));
            }
            3 if n < 1700 => {
                let i = rng.below(n + 1);
                a.insert(i, rng.pick(&[0xC0, 0xDB, 0xDC, 0xDD, 0x41]));
            }
            4 if n < 1700 => {
                for _ in 0..rng.below(4) {
                    a.insert(0, 0xC0);
                }
            }
            _ => {
                a.pop();
            }
        }
    }
    a
}

fn frames(rng: &mut Rng, sink: &mut Sink) {
    one_frame(rng, sink, &[]);
    for b in 0..=255u8 {
        one_frame(rng, sink, &[b]);
        one_frame(rng, sink, &[0xC0, b, 0xC0]);
        for c in 0..=255u8 {
            if b >= 0xB0 || c >= 0xB0 || b < 8 {
                one_frame(rng, sink, &[b, c]);
                one_frame(rng, sink, &[0xC0, 0x00, b, c, 0xC0]);
            }
        }
    }
    let few = [0xC0, 0xDB, 0xDC, 0xDD, 0x10];
    for a in few {
        for b in few {
            for c in few {
                for d in few {
                    for e in few {
                        one_frame(rng, sink, &[a, b, c, d, e]);
                        one_frame(rng, sink, &[0xC0, 0x01, a, b, c, d, e, 0xC0]);
                    }
                }
            }
        }
    }
    for _ in 0..30000 {
        let a = any_frame(rng);
        one_frame(rng, sink, &a);
        let a = damaged(rng, a);
        one_frame(rng, sink, &a);
        let (n, special) = (rng.below(40), rng.pick(&[1, 2, 4]));
        let a = rng.bytes(n, special);
        one_frame(rng, sink, &a);
    }
    for n in 1700..=1713 {
        for _ in 0..40 {
            let mut a = rng.bytes(n, 20);
            a[0] = 0xC0;
            if rng.one_in(2) {
                a[n - 1] = 0xC0;
            }
            one_frame(rng, sink, &a);
        }
        one_frame(rng, sink, &vec![0xC0; n]);
        one_frame(rng, sink, &vec![0x07; n]);
    }
}

// --- Escaping, private in the Rust

fn escape_one(rng: &mut Rng, sink: &mut Sink, a: &[u8]) {
    let len = a.len() + a.iter().filter(|b| **b == 0xC0 || **b == 0xDB).count();
    let n = room_around(rng, len);
    let asked = Asked {
        kind: 12,
        from: rng.byte(),
        a: a.to_vec(),
        b: vec![],
    };
    let mut room = counted_up(asked.from, n);
    let whole = inside_escape(a, &mut vec![0; 2 * a.len()]);
    sink.put(
        Asked {
            kind: 14,
            from: 0,
            a: a.to_vec(),
            b: vec![],
        }
        .answered(0, whole, vec![], true),
    );
    if n < len {
        return sink.put(asked.answered(7, 0, room, false));
    }
    let count = inside_escape(a, &mut room);
    sink.put(asked.answered(0, count, room, true));
}

fn unescape_one(rng: &mut Rng, sink: &mut Sink, a: &[u8]) {
    let n = (a.len() + 2).saturating_sub(rng.below(6));
    let asked = Asked {
        kind: 13,
        from: rng.byte(),
        a: a.to_vec(),
        b: vec![],
    };
    let mut room = counted_up(asked.from, n);
    let count = inside_unescape(a, &mut room);
    sink.put(asked.answered(0, count, room, true));
}

fn escapes(rng: &mut Rng, sink: &mut Sink) {
    let few = [0xC0, 0xDB, 0xDC, 0xDD, 0x41];
    for n in 0..=5u32 {
        for k in 0..5usize.pow(n) {
            let a: Vec<u8> = (0..n).map(|i| few[k / 5usize.pow(i) % 5]).collect();
            escape_one(rng, sink, &a);
            unescape_one(rng, sink, &a);
            unescape_one(rng, sink, &a);
        }
    }
    for b in 0..=255u8 {
        for c in 0..=255u8 {
            escape_one(rng, sink, &[b, c]);
            unescape_one(rng, sink, &[b, c]);
        }
    }
    for _ in 0..15000 {
        let (n, special) = (rng.below(880), rng.pick(&[0, 1, 2, 8, 60]));
        let a = rng.bytes(n, special);
        escape_one(rng, sink, &a);
        unescape_one(rng, sink, &a);
    }
}

// --- The reader

struct Reader {
    rust: KissBuffer,
}

impl Reader {
    fn new(sink: &mut Sink) -> Self {
        sink.put(
            Asked {
                kind: 32,
                from: 0,
                a: vec![],
                b: vec![],
            }
            .answered(0, 0, vec![], true),
        );
        Reader { rust: KissBuffer::new() }
    }

    // A whole frame anywhere in a full store, none taken: the Rust drops all, ours answers 5.
    fn refuses(&self) -> bool {
        let held = self.rust.held();
        let mut stretch = 0;
        let mut open = false;
        let mut whole = false;
        for b in held {
            if *b == 0xC0 {
                whole |= open && stretch > 0;
                open = true;
                stretch = 0;
            } else {
                stretch += 1;
            }
        }
        !self.rust.taken() && held.len() == 1713 && whole
    }

    // How many bytes were taken; none where the domain ends.
    fn write(&mut self, sink: &mut Sink, a: &[u8]) -> Option<usize> {
        let asked = Asked {
            kind: 33,
            from: 0,
            a: a.to_vec(),
            b: vec![],
        };
        if self.refuses() {
            sink.put(asked.answered(5, 0, vec![], false));
            return None;
        }
        let room = self.rust.buf_remaining();
        let n = a.len().min(room.len());
        room[..n].copy_from_slice(&a[..n]);
        self.rust.did_write(n);
        sink.put(asked.answered(0, n, vec![], true));
        Some(n)
    }

    fn next(&mut self, rng: &mut Rng, sink: &mut Sink) -> bool {
        let asked = Asked {
            kind: 34,
            from: rng.byte(),
            a: vec![],
            b: vec![],
        };
        let frame = self.rust.next_frame().map(|f| f.as_bytes().to_vec());
        let more = rng.below(3);
        let case = match &frame {
            None => asked.answered(0, 0, vec![], true),
            Some(f) => {
                let mut room = counted_up(asked.from, f.len() + more);
                room[..f.len()].copy_from_slice(f);
                asked.answered(0, f.len(), room, true)
            }
        };
        sink.put(case);
        frame.is_some()
    }

    fn state(&self, sink: &mut Sink) {
        let held = self.rust.held();
        let value = held.len() * 2 + self.rust.taken() as usize;
        let mut room = vec![0; 1713];
        room[..held.len()].copy_from_slice(held);
        let mut case = Asked {
            kind: READER_STATE,
            from: 0,
            a: vec![],
            b: vec![],
        }
        .answered(0, value, room, true);
        case.care = 3 + held.len();
        sink.put(case);
    }
}

fn reader_input(rng: &mut Rng) -> Vec<u8> {
    let mut out = vec![];
    for _ in 0..rng.within(1, 6) {
        match rng.below(8) {
            0 => {
                let n = rng.below(30);
                out.extend(rng.bytes(n, 0));
            }
            1 => {
                let n = rng.within(1708, 1715);
                out.push(0xC0);
                out.extend(vec![rng.byte() | 1; n]);
                out.push(0xC0);
            }
            2 => {
                let a = any_frame(rng);
                out.extend(damaged(rng, a));
            }
            3 => out.extend(vec![0xC0; rng.below(5)]),
            4 => {
                // Glued: one FEND closes a frame and opens the next.
                let a = any_frame(rng);
                let b = any_frame(rng);
                out.extend(&a);
                out.extend(&b[1..]);
            }
            _ => out.extend(any_frame(rng)),
        }
    }
    out
}

fn readers(rng: &mut Rng, sink: &mut Sink) {
    // A stretch of n bytes, cut at each of a few places: kept up to 1,711.
    for n in 1709..=1714 {
        for cut in [1, 2, 855, n - 1, n, n + 1] {
            let mut r = Reader::new(sink);
            let mut input = vec![0xC0];
            input.extend(vec![0x07; n]);
            input.extend([0xC0, 0x01, 0x05, 0xC0]);
            for mut a in [&input[..cut], &input[cut..]] {
                while !a.is_empty() {
                    let Some(n) = r.write(sink, a) else { break };
                    a = &a[n..];
                    while r.next(rng, sink) {}
                    r.state(sink);
                }
            }
        }
    }
    for _ in 0..2500 {
        let mut r = Reader::new(sink);
        let fresh = rng.one_in(2);
        'one: for _ in 0..rng.within(2, 12) {
            let input = reader_input(rng);
            let mut at = 0;
            while at < input.len() {
                let n = match rng.below(5) {
                    0 => 0,
                    1 => 1,
                    2 => rng.within(1, 20),
                    3 => rng.within(1, 400),
                    _ => rng.within(1700, 1800),
                };
                let end = (at + n).min(input.len());
                let Some(n) = r.write(sink, &input[at..end]) else { break 'one };
                at += n;
                if rng.one_in(3) {
                    r.state(sink);
                }
                let most = if fresh { 1000 } else { rng.below(4) };
                for _ in 0..most {
                    if !r.next(rng, sink) {
                        break;
                    }
                }
                if rng.one_in(3) {
                    r.state(sink);
                }
            }
        }
    }
}

// --- LSF

fn lsf_case(kind: u8, lsf: &LsfFrame, v: u8, sink: &mut Sink) {
    let mut inside = true;
    let mut told = vec![];
    let mut f = lsf.clone();
    let value = match kind {
        16 => f.check_crc() as usize,
        17 => (f.mode() == Mode::Stream) as usize,
        18 => {
            // The Rust takes type bits 9-10; document 01 says 1-2.
            let bits = (f.0[13] >> 1 & 3) as usize;
            if bits == (f.0[12] >> 1 & 3) as usize {
                data_type_number(f.data_type())
            } else {
                inside = false;
                bits
            }
        }
        19 => encryption_number(f.encryption_type()),
        20 => f.channel_access_number() as usize,
        21 => {
            told = f.meta().to_vec();
            0
        }
        _ => {
            match kind {
                22 => f.set_mode(if v == 0 { Mode::Packet } else { Mode::Stream }),
                23 => f.set_data_type(match v {
                    0 => DataType::Reserved,
                    1 => DataType::Data,
                    2 => DataType::Voice,
                    _ => DataType::VoiceAndData,
                }),
                24 => f.set_encryption_type(match v {
                    0 => EncryptionType::None,
                    1 => EncryptionType::Scrambler,
                    2 => EncryptionType::Aes,
                    _ => EncryptionType::Other,
                }),
                25 => f.set_channel_access_number(v),
                _ => f = LsfFrame::new_packet(&Address::Callsign(Callsign(*b"M17RT-PKT")), &Address::Broadcast),
            }
            told = f.0.to_vec();
            0
        }
    };
    sink.put(by_value(kind, v, &lsf.0, 0, value, &told, inside));
}

fn data_type_number(d: DataType) -> usize {
    match d {
        DataType::Reserved => 0,
        DataType::Data => 1,
        DataType::Voice => 2,
        DataType::VoiceAndData => 3,
    }
}

fn encryption_number(e: EncryptionType) -> usize {
    match e {
        EncryptionType::None => 0,
        EncryptionType::Scrambler => 1,
        EncryptionType::Aes => 2,
        EncryptionType::Other => 3,
    }
}

pub fn any_lsf(rng: &mut Rng) -> LsfFrame {
    LsfFrame(rng.bytes(30, 10).try_into().unwrap())
}

fn lsfs(rng: &mut Rng, sink: &mut Sink) {
    let basic = LsfFrame([0; 30]);
    lsf_case(26, &basic, 0, sink);
    for t in 0..=65535u16 {
        let mut f = any_lsf(rng);
        f.0[12..14].copy_from_slice(&t.to_be_bytes());
        for kind in 16..=21 {
            lsf_case(kind, &f, 0, sink);
        }
        lsf_case(22, &f, (t % 2) as u8, sink);
        lsf_case(22, &f, 1 - (t % 2) as u8, sink);
        for v in 0..4 {
            lsf_case(23, &f, v, sink);
            lsf_case(24, &f, v, sink);
        }
        lsf_case(25, &f, rng.byte(), sink);
        f.set_mode(Mode::Packet);
        lsf_case(16, &f, 0, sink);
    }
    for v in 0..=255u8 {
        for _ in 0..40 {
            let f = any_lsf(rng);
            lsf_case(25, &f, v, sink);
        }
    }
}

// --- LICH

struct Lich {
    rust: LichCollection,
}

impl Lich {
    fn new(sink: &mut Sink) -> Self {
        sink.put(by_value(48, 0, &[], 0, 0, &[], true));
        Lich {
            rust: LichCollection::new(),
        }
    }

    fn set(&mut self, sink: &mut Sink, index: u8, part: [u8; 5]) {
        let inside = index <= 5;
        if inside {
            self.rust.set_segment(index, part);
        }
        sink.put(by_value(49, index, &part, if inside { 0 } else { 6 }, 0, &[], inside));
        sink.put(by_value(50, 0, &[], 0, self.rust.valid_segments() as usize, &[], true));
        sink.put(match self.rust.try_assemble() {
            None => by_value(51, 0, &[], 0, 0, &[], true),
            Some(all) => by_value(51, 0, &[], 0, 30, &all, true),
        });
    }
}

// The order of the six segments with that number, 0 to 719.
pub fn order(mut k: usize) -> [u8; 6] {
    let mut left: Vec<u8> = (0..6).collect();
    let mut out = [0; 6];
    for i in 0..6 {
        let f: usize = (1..=5 - i).product();
        out[i] = left.remove(k / f);
        k %= f;
    }
    out
}

fn liches(rng: &mut Rng, sink: &mut Sink) {
    for repeats in 0..6 {
        for k in 0..720 {
            let lsf = any_lsf(rng);
            let mut l = Lich::new(sink);
            for i in order(k) {
                let at = 5 * i as usize;
                for _ in 0..repeats {
                    if rng.one_in(3) {
                        let part = rng.bytes(5, 0).try_into().unwrap();
                        let j = rng.pick(&[i, i, 0, 1, 2, 3, 4, 5, 6, 7, 255]);
                        l.set(sink, j, part);
                    }
                }
                l.set(sink, i, lsf.0[at..at + 5].try_into().unwrap());
            }
        }
    }
}

// --- The stored tests of `probe` and `probe_lsf`: a few calls of each kind, chosen by hand and by chance.

pub fn sample(rng: &mut Rng, sink: &mut Sink) {
    for text in [&b""[..], b"A", b"123456789"] {
        crc(sink, text.to_vec());
    }
    crc(sink, (0..=255).collect());
    for a in [&[][..], &[0xC0], &[0x00, 0xC0, 0xDB, 0xFF]] {
        let mut room = counted_up(0xEE, 8);
        let count = inside_escape(a, &mut room);
        sink.put(
            Asked {
                kind: 12,
                from: 0xEE,
                a: a.to_vec(),
                b: vec![],
            }
            .answered(0, count, room, true),
        );
    }
    for a in [&[0xDB, 0xDC][..], &[0x41, 0xDB], &[0xDB, 0x41]] {
        let mut room = counted_up(0xEE, 2);
        let count = inside_unescape(a, &mut room);
        sink.put(
            Asked {
                kind: 13,
                from: 0xEE,
                a: a.to_vec(),
                b: vec![],
            }
            .answered(0, count, room, true),
        );
    }
    for input in [&[0x55, 0xC0][..], &[0xC0, 0xC0, 1, 5, 0xC0, 0xC0], &[0xC0, 1, 5, 0xC0, 2, 6, 0xC0]] {
        let mut r = Reader::new(sink);
        r.write(sink, input);
        while r.next(rng, sink) {}
    }
    for value in [10, 0xC0, 0xDB] {
        setting(rng, sink, 5, 0, value);
        setting(rng, sink, 6, 15, value);
        setting(rng, sink, 7, 1, value);
    }
    setting(rng, sink, 5, 16, 1);
    for n in [0, 3, 822, 823] {
        let a = rng.bytes(n, 8);
        basic(rng, sink, a);
    }
    for (n, m) in [(30, 0), (29, 4), (30, 825), (30, 826)] {
        let (a, b) = (rng.bytes(n, 8), rng.bytes(m, 8));
        full(rng, sink, a, b);
    }
    for n in [29, 30, 31] {
        let a = rng.bytes(n, 4);
        setup(rng, sink, a);
    }
    for (index, number) in [(0, 0), (5, 32767), (6, 0), (0, 32768)] {
        let mut f = stream_frame(rng, 3);
        (f.lich_idx, f.frame_number) = (index, number);
        data(rng, sink, f);
    }
    for a in [
        &[][..],
        &[0xC0],
        &[0xC0, 0x00, 0x41],
        &[0xC0, 0x03, 0x0A, 0xC0],
        &[0xC0, 0xC0, 0x25, 0xDB, 0x41, 0x07, 0xC0],
    ] {
        one_frame(rng, sink, a);
    }
    let f = any_lsf(rng);
    for kind in 16..=26 {
        lsf_case(kind, &f, 1, sink);
    }
    lsf_case(25, &f, 31, sink);
    let mut l = Lich::new(sink);
    for i in [3, 0, 6, 5, 5, 1, 4, 2] {
        let part = rng.bytes(5, 0).try_into().unwrap();
        l.set(sink, i, part);
    }
    let mut r = Reader::new(sink);
    let mut full = vec![0xC0, 1, 5, 0xC0];
    full.extend([7; 1709]);
    r.write(sink, &full);
    r.write(sink, &[9]);
}
