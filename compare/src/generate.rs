// Event streams. The generator runs the Rust as it goes and looks at its state, so that it can steer: most streams are kept away from every row at which the domain
// ends, the others are let into one or two of them.
use crate::address::{Address, Callsign};
use crate::crc::m17_crc;
use crate::events::{leaves, line, step, Ended, Outcome, Row, LIMIT, ROWS};
use crate::functions::{any_lsf, order, stream_body, stream_frame};
use crate::kiss::KissFrame;
use crate::protocol::{LsfFrame, Mode};
use crate::rng::Rng;
use crate::tnc::{Now, SoftTnc};
use std::collections::VecDeque;

pub struct Stream {
    pub bytes: Vec<u8>,
    // Of each event, where it begins.
    pub starts: Vec<usize>,
    pub lines: Vec<String>,
    pub end: Option<Ended>,
    pub unforeseen: Option<String>,
    pub after: usize,
}

// What was reached, over all streams.
#[derive(Default)]
pub struct Reached {
    pub most_packets: usize,
    pub most_streams: usize,
    pub full_packet_events: u64,
    pub full_stream_events: u64,
    pub preambles: u64,
    pub packets_in_one: usize,
    pub streams_sent: u64,
    pub acquired: u64,
    pub orders: Vec<bool>,
    pub assembled: u64,
    pub packets_told: u64,
    pub checks_set: u64,
    pub dropped_stretches: u64,
    pub ptt_dropped_by_clock: u64,
}

pub struct Maker<'a> {
    rng: &'a mut Rng,
    reached: &'a mut Reached,
    tnc: SoftTnc,
    open: [bool; ROWS.len()],
    out: Stream,
    host: VecDeque<u8>,
    air: VecDeque<Vec<u8>>,
    lsfs_in_transmission: usize,
}

impl<'a> Maker<'a> {
    fn new(rng: &'a mut Rng, reached: &'a mut Reached, open: [bool; ROWS.len()]) -> Self {
        let out = Stream {
            bytes: vec![],
            starts: vec![],
            lines: vec![],
            end: None,
            unforeseen: None,
            after: 0,
        };
        let host = VecDeque::new();
        Maker {
            rng,
            reached,
            tnc: SoftTnc::new(),
            open,
            out,
            host,
            air: VecDeque::new(),
            lsfs_in_transmission: 0,
        }
    }

    fn over(&self) -> bool {
        self.out.end.is_some() || self.out.unforeseen.is_some()
    }

    fn put(&mut self, event: &[u8]) {
        if self.over() {
            self.out.after += 1;
        } else if let Some(row) = leaves(&self.tnc, event) {
            if !self.open[row.index()] {
                // Not in this stream. A read at a due check comes a sample later; anything else is left out.
                if row == Row::DueCheck && self.tnc.clock() < LIMIT {
                    self.clock(self.tnc.clock() + 1);
                    self.put(event);
                }
                return;
            }
        }
        self.out.starts.push(self.out.bytes.len());
        self.out.bytes.extend(event);
        if self.over() {
            return;
        }
        let ptt = self.tnc.ptt();
        let check = self.tnc.check();
        let held = self.tnc.reader().held().len();
        let acquiring = matches!(self.tnc.state_now(), Now::Acquiring);
        match step(&mut self.tnc, event) {
            Outcome::Line(l) => {
                self.saw(event, &l, ptt, check, held, acquiring);
                self.out.lines.push(l);
            }
            Outcome::End(e) => self.out.end = Some(e),
            Outcome::Unforeseen(u) => self.out.unforeseen = Some(u),
        }
    }

    fn saw(&mut self, event: &[u8], line: &str, ptt: bool, check: Option<u64>, held: usize, acquiring: bool) {
        let r = &mut *self.reached;
        let tnc = &self.tnc;
        r.most_packets = r.most_packets.max(tnc.packets_held());
        r.most_streams = r.most_streams.max(tnc.streams_held());
        r.full_packet_events += tnc.packets_full() as u64;
        r.full_stream_events += (tnc.streams_held() == 8) as u64;
        r.checks_set += (check != tnc.check()) as u64;
        match event[0] {
            1 => r.dropped_stretches += (held == 1713) as u64,
            3 => r.ptt_dropped_by_clock += (ptt && !tnc.ptt()) as u64,
            6 => r.packets_told += (event[26] >= 128 && !ptt && line.starts_with("06 0")) as u64,
            7 => r.assembled += (acquiring && matches!(tnc.state_now(), Now::Stream { .. })) as u64,
            8 => match line.as_bytes()[3] {
                b'1' => {
                    r.preambles += 1;
                    self.lsfs_in_transmission = 0;
                }
                b'2' if matches!(tnc.state_now(), Now::SendsPackets) => {
                    self.lsfs_in_transmission += 1;
                    r.packets_in_one = r.packets_in_one.max(self.lsfs_in_transmission);
                }
                b'2' => r.streams_sent += 1,
                _ => (),
            },
            _ => (),
        }
    }

    // An event that the Rust is not told, with the line that it has to have.
    fn past(&mut self, event: &[u8], number: u8, ptt: bool, bytes: &[u8]) {
        self.out.starts.push(self.out.bytes.len());
        self.out.bytes.extend(event);
        self.out.lines.push(line(event[0], number, ptt, bytes));
    }

    fn byte(&mut self, b: u8) {
        self.put(&[1, b]);
    }

    fn read(&mut self) {
        self.put(&[8]);
    }

    fn clock(&mut self, t: u64) {
        let mut event = vec![3];
        event.extend(t.to_be_bytes());
        self.put(&event);
    }

    fn end_time(&mut self, n: u32) {
        let mut event = vec![4];
        event.extend(n.to_be_bytes());
        self.put(&event);
    }

    fn host_now(&mut self, bytes: &[u8]) {
        for b in bytes {
            self.byte(*b);
        }
    }

    // --- What the host sends

    fn frame(&mut self, header: u8, content: &[u8]) -> Vec<u8> {
        let mut out = vec![0xC0, header];
        out.extend(escaped(content));
        out.push(0xC0);
        out
    }

    fn good_lsf(&mut self) -> LsfFrame {
        let mut lsf = any_lsf(self.rng);
        lsf.set_mode(if self.rng.one_in(2) { Mode::Packet } else { Mode::Stream });
        lsf
    }

    fn basic(&mut self) -> Vec<u8> {
        let n = match self.rng.below(12) {
            0 if self.rng.one_in(3) => self.rng.within(815, 822),
            1 => self.rng.pick(&[0, 1, 21, 22, 23, 46, 47, 48]),
            2 if self.open[Row::Basic823.index()] => self.rng.pick(&[822, 823, 824, 825, 830, 900]),
            3 if self.rng.one_in(3) => self.rng.below(823),
            _ => self.rng.below(60),
        };
        let special = self.rng.pick(&[0, 3, 20]);
        let content = self.rng.bytes(n, special);
        self.frame(0x00, &content)
    }

    fn full(&mut self) -> Vec<u8> {
        let n = match self.rng.below(12) {
            0 if self.rng.one_in(3) => self.rng.within(850, 860),
            1 => self.rng.within(28, 36),
            2 => self.rng.pick(&[54, 55, 56, 80]),
            3 if self.rng.one_in(3) => self.rng.within(33, 900),
            _ => self.rng.within(33, 100),
        };
        let special = self.rng.pick(&[0, 3, 20]);
        let mut content = self.good_lsf().0.to_vec();
        if self.rng.one_in(12) {
            let i = self.rng.below(30);
            content[i] ^= 1 << self.rng.below(8);
        }
        let rest = self.rng.bytes(n.saturating_sub(30), special);
        content.truncate(n);
        content.extend(rest);
        self.frame(0x10, &content)
    }

    fn stream_lsf(&mut self) -> Vec<u8> {
        let mut content = self.good_lsf().0.to_vec();
        match self.rng.below(12) {
            0 => content[self.rng.clone().below(30)] ^= 0x10,
            1 => content.extend([7, 7]),
            2 => content.push(0xC0),
            3 => {
                content.pop();
            }
            _ => (),
        }
        self.frame(0x20, &content)
    }

    fn stream_data(&mut self) -> Vec<u8> {
        let mut f = stream_frame(self.rng, 4);
        f.lich_idx = self.rng.below(6) as u8;
        f.end_of_stream = self.rng.one_in(6);
        let built = KissFrame::new_stream_data(&f).unwrap();
        match self.rng.below(10) {
            0 => {
                // Any index and any CRC pass, and so does any length from 26 to 29.
                let n = self.rng.within(24, 33);
                let content = self.rng.bytes(n, 6);
                self.frame(0x20, &content)
            }
            1 => {
                let n = self.rng.pick(&[0, 1, 24, 25, 26, 27, 28, 29, 30, 31, 40]);
                let content = self.rng.bytes(n, 6);
                self.frame(0x20, &content)
            }
            _ => built.as_bytes().to_vec(),
        }
    }

    fn setting(&mut self) -> Vec<u8> {
        let port = self.rng.pick(&[0, 0, 1, 2, 3, 15, 11]);
        match self.rng.below(8) {
            0 => {
                let (n, command) = (self.rng.below(4), self.rng.below(16) as u8);
                let content = self.rng.bytes(n, 2);
                self.frame(port << 4 | command, &content)
            }
            1 => self.frame(port << 4 | self.rng.clone().pick(&[1, 5]), &[]),
            2 => self.frame(0x05, &[0]),
            3 => self.frame(0x05, &[self.rng.clone().byte() | 1]),
            // The Rust's own builder, which does not escape: FEND, header, FEND, FEND for 192.
            4 => KissFrame::new_set_tx_delay(port & 3, self.rng.pick(&[0xC0, 0xDB, 5]))
                .as_bytes()
                .to_vec(),
            _ => {
                let v = self.rng.byte();
                self.frame((port & 3) << 4 | 1, &[v, 9][..self.rng.clone().within(1, 2)])
            }
        }
    }

    fn junk(&mut self) -> Vec<u8> {
        match self.rng.below(6) {
            0 if self.rng.one_in(4) => {
                let n = self.rng.within(1709, 1716);
                let mut out = vec![0xC0, self.rng.pick(&[0x01, 0x05, 0x10, 0x20, 0x30])];
                out.extend(vec![0x55; n - 1]);
                out.push(0xC0);
                out
            }
            1 => vec![0xC0; self.rng.within(1, 6)],
            2 => {
                // Escapes that mean nothing, and a FESC as the last byte.
                let mut out = vec![0xC0, self.rng.pick(&[0x00, 0x01, 0x05, 0x10, 0x20])];
                for _ in 0..self.rng.within(0, 40) {
                    out.push(self.rng.pick(&[0xDB, 0xDB, 0xDC, 0xDD, 0x41]));
                }
                out.push(0xC0);
                out
            }
            _ => {
                let n = self.rng.within(1, 40);
                self.rng.bytes(n, 6)
            }
        }
    }

    // How many packets may still be sent without filling the queue, where that is to be avoided.
    fn packet_room(&self) -> usize {
        if self.open[Row::FullQueue.index()] {
            8
        } else {
            3usize.saturating_sub(self.tnc.packets_held())
        }
    }

    fn compose(&mut self) {
        let mut packets = self.packet_room();
        let many = self.rng.within(1, 4);
        for _ in 0..many {
            let mut frame = match self.rng.below(20) {
                0..=4 if packets > 0 => {
                    packets -= 1;
                    self.basic()
                }
                5..=8 if packets > 0 => {
                    packets -= 1;
                    self.full()
                }
                11..=15 if self.tnc.streams_held() < 8 => self.stream_data(),
                9..=15 => self.stream_lsf(),
                16..=17 => self.setting(),
                18 => self.junk(),
                _ => {
                    let n = self.rng.below(20);
                    let (header, content) = (self.rng.byte() & 0xBF, self.rng.bytes(n, 8));
                    // A frame for the ports in use counts as a packet: it may be one.
                    if header < 0x20 && packets == 0 {
                        self.frame(0x30, &content)
                    } else {
                        packets = packets.saturating_sub(1);
                        self.frame(header, &content)
                    }
                }
            };
            match self.rng.below(12) {
                0 if self.host.back() == Some(&0xC0) => {
                    // Glued: the closing FEND of the last frame opens this one.
                    frame.remove(0);
                }
                1 => {
                    for _ in 0..self.rng.within(1, 3) {
                        frame.push(0xC0);
                    }
                }
                2 => {
                    let n = self.rng.below(frame.len());
                    frame.truncate(n);
                }
                _ => (),
            }
            self.host.extend(frame);
        }
    }

    // --- What is heard on the air

    fn lsf_event(&mut self, lsf: &LsfFrame) -> Vec<u8> {
        let mut out = vec![5];
        out.extend(lsf.0);
        out
    }

    fn packet_event(&mut self, counter: u8) -> Vec<u8> {
        let mut out = vec![6];
        out.extend(self.rng.bytes(25, 10));
        out.push(counter);
        out
    }

    fn stream_event(&mut self, index: u8, part: &[u8], number: u16, end: bool) -> Vec<u8> {
        let mut f = stream_frame(self.rng, 10);
        f.lich_idx = index;
        f.lich_part = part.try_into().unwrap();
        f.frame_number = number;
        f.end_of_stream = end;
        let mut out = vec![7];
        out.extend(stream_body(&f));
        if end {
            out[9] = self.rng.pick(&[1, 2, 0x80, 0xFF]);
        }
        out
    }

    fn scenario(&mut self) {
        match self.rng.below(8) {
            0..=2 => self.packet_scenario(),
            3..=4 => self.stream_scenario(),
            5..=6 => {
                let k = self.rng.below(720);
                self.acquire_scenario(k)
            }
            _ => {
                let event = match self.rng.below(4) {
                    0 => {
                        let lsf = any_lsf(self.rng);
                        self.lsf_event(&lsf)
                    }
                    1 => {
                        let counter = self.rng.byte();
                        self.packet_event(counter)
                    }
                    _ => {
                        let (index, number) = (self.rng.below(8) as u8, self.rng.next() as u16);
                        let (part, end) = (self.rng.bytes(5, 0), self.rng.one_in(3));
                        self.stream_event(index, &part, number, end)
                    }
                };
                self.air.push_back(event);
            }
        }
    }

    fn packet_scenario(&mut self) {
        let mut lsf = any_lsf(self.rng);
        lsf.set_mode(Mode::Packet);
        if self.rng.one_in(8) {
            // Its CRC is not looked at.
            lsf.0[29] ^= 1;
        }
        let event = self.lsf_event(&lsf);
        self.air.push_back(event);
        let n = match self.rng.below(6) {
            0 => self.rng.pick(&[30, 31, 32, 33]),
            1 => self.rng.below(33),
            _ => self.rng.below(6),
        } as u8;
        let slip = if self.rng.one_in(4) {
            self.rng.below(n as usize + 1) as u8
        } else {
            255
        };
        for i in 0..n {
            let index = if i == slip {
                self.rng.pick(&[0, i.wrapping_sub(1) & 127, i + 1, 31, 32, 33, 127])
            } else {
                i
            };
            let event = self.packet_event(index);
            self.air.push_back(event);
        }
        if !self.rng.one_in(8) {
            let len = if self.rng.one_in(12) {
                self.rng.pick(&[26, 27, 127])
            } else {
                self.rng.below(26) as u8
            };
            let event = self.packet_event(128 + len);
            self.air.push_back(event);
        }
    }

    fn stream_scenario(&mut self) {
        let mut lsf = any_lsf(self.rng);
        lsf.set_mode(Mode::Stream);
        let event = self.lsf_event(&lsf);
        self.air.push_back(event);
        let mut number = if self.rng.one_in(6) {
            self.rng.pick(&[32760, 32766, 32767])
        } else {
            self.rng.below(3) as u16
        };
        for i in 0..self.rng.within(1, 12) {
            let index = (i % 6) as u8;
            let at = 5 * index as usize;
            let end = self.rng.one_in(12);
            let index = if self.rng.one_in(40) { self.rng.pick(&[6, 7, 255]) } else { index };
            let event = self.stream_event(index, &lsf.0[at..at + 5], number, end);
            self.air.push_back(event);
            number = match self.rng.below(12) {
                0 => number.saturating_sub(self.rng.below(5) as u16),
                1 => number,
                2 => (number + self.rng.below(9) as u16).min(32767),
                3 if self.rng.one_in(10) => 32768 + self.rng.below(32768) as u16,
                _ if number < 32767 => number + 1,
                _ => 0,
            };
        }
    }

    // The six segments in the order with that number, some heard twice, some wrong at first.
    fn acquire_scenario(&mut self, k: usize) {
        let mut lsf = any_lsf(self.rng);
        lsf.set_mode(if self.rng.one_in(4) { Mode::Packet } else { Mode::Stream });
        let mut number = self.rng.below(200) as u16;
        let torn = self.rng.one_in(5);
        if self.reached.orders.is_empty() {
            self.reached.orders = vec![false; 720];
        }
        self.reached.orders[k] = true;
        self.reached.acquired += 1;
        // An index that is no packet's next puts any reception to Idle, so that acquiring begins here.
        let event = self.packet_event(77);
        self.air.push_back(event);
        for i in order(k) {
            let at = 5 * i as usize;
            if self.rng.one_in(5) {
                let j = self.rng.below(6) as u8;
                let part = lsf.0[5 * j as usize..5 * j as usize + 5].to_vec();
                let event = self.stream_event(j, &part, number, false);
                self.air.push_back(event);
            }
            let mut part = lsf.0[at..at + 5].to_vec();
            if torn && i == 3 {
                part[2] ^= 4;
            }
            let end = self.rng.one_in(10);
            let event = self.stream_event(i, &part, number, end);
            self.air.push_back(event);
            number += 1;
        }
        if torn {
            let event = self.stream_event(3, &lsf.0[15..20], number, false);
            self.air.push_back(event);
        }
        for i in 0..self.rng.below(4) as u16 {
            let event = self.stream_event(i as u8, &lsf.0[..5], number + i, self.rng.clone().one_in(3));
            self.air.push_back(event);
        }
    }

    // --- Steps

    fn time_step(&mut self) {
        let now = self.tnc.clock();
        let marks = match self.tnc.state_now() {
            Now::EndsAt(t) => Some(t),
            _ => self.tnc.check(),
        };
        let t = match (self.rng.below(12), marks) {
            (0..=5, Some(t)) => (t + self.rng.below(4) as u64).saturating_sub(1),
            (6, _) => now.saturating_sub(self.rng.below(5000) as u64),
            (7, _) if self.open[Row::Clock.index()] && self.rng.one_in(4) => self.rng.pick(&[LIMIT - 1, LIMIT, LIMIT + 1, u64::MAX]),
            (8, _) if self.rng.one_in(40) => LIMIT - self.rng.below(3) as u64,
            (9, _) => now / 2,
            _ => now + self.rng.pick(&[0, 1, 2, 3, 4, 480, 1919, 1920, 1921, 7681]),
        };
        let t = if self.open[Row::Clock.index()] { t } else { t.min(LIMIT) };
        self.clock(t);
    }

    fn drain(&mut self) {
        // Reads to the end of a transmission, then lets it end.
        if self.rng.one_in(3) {
            self.unblock();
        }
        for _ in 0..self.rng.within(1, 150) {
            if self.over() {
                return;
            }
            match self.tnc.state_now() {
                Now::Ending => {
                    let n = self.rng.pick(&[0, 1, 960, 1920]);
                    self.end_time(n);
                    if self.rng.one_in(3) {
                        self.read();
                    }
                }
                Now::EndsAt(t) => {
                    if self.rng.one_in(3) && t > 0 {
                        self.clock(t - 1);
                    }
                    let t = t + self.rng.below(2) as u64;
                    if t <= LIMIT || self.open[Row::Clock.index()] {
                        self.clock(t);
                    } else {
                        return;
                    }
                }
                _ => {
                    let before = self.out.lines.len();
                    self.read();
                    if self.out.lines.len() > before && self.out.lines[self.out.lines.len() - 1].starts_with("08 0") {
                        return;
                    }
                }
            }
        }
    }

    fn unblock(&mut self) {
        // A pending check lets nothing out inside the domain but for full duplex.
        if self.tnc.check().is_some() && !self.tnc.duplex() && self.host.is_empty() && !self.open[Row::DueCheck.index()] {
            let frame = self.frame(0x05, &[1]);
            self.host_now(&frame);
        }
    }

    // Something waits and the carrier is on: the check is set, met early, met when due, and set again.
    fn busy(&mut self) {
        if self.tnc.ptt() || self.tnc.packets_held() == 0 && !self.tnc.lsf_pending() {
            return;
        }
        if self.tnc.duplex() && self.host.is_empty() {
            let frame = self.frame(0x05, &[0]);
            self.host_now(&frame);
        }
        self.put(&[2, 1]);
        for _ in 0..self.rng.within(1, 5) {
            self.read();
            if let Some(t) = self.tnc.check() {
                let t = (t + self.rng.below(5) as u64).saturating_sub(2);
                self.clock(t.min(LIMIT));
            }
            if self.rng.one_in(3) {
                self.put(&[2, self.rng.clone().below(2) as u8]);
            }
            self.read();
        }
        let on = self.rng.one_in(3) as u8;
        self.put(&[2, on]);
    }

    fn one_step(&mut self) {
        if !self.host.is_empty() && self.rng.one_in(2) {
            for _ in 0..self.rng.within(1, 30) {
                if let Some(b) = self.host.pop_front() {
                    self.byte(b);
                }
            }
            return;
        }
        match self.rng.below(24) {
            0..=5 => {
                if self.host.is_empty() {
                    if self.packet_room() == 0 {
                        self.unblock();
                        self.drain();
                    }
                    self.compose();
                }
            }
            6..=11 => {
                if self.air.is_empty() {
                    self.scenario();
                }
                for _ in 0..self.rng.within(1, 8) {
                    if let Some(e) = self.air.pop_front() {
                        self.put(&e);
                        if self.rng.one_in(3) {
                            let n = self.rng.pick(&[0, 1, 2, 7, 29, 255]);
                            self.put(&[9, n]);
                        }
                    }
                }
            }
            12..=13 => {
                for _ in 0..self.rng.within(1, 6) {
                    let n = self.rng.pick(&[0, 1, 2, 10, 100, 255, 255, 255]);
                    self.put(&[9, n]);
                }
            }
            14..=16 => {
                for _ in 0..self.rng.within(1, 6) {
                    self.read();
                }
            }
            17..=18 => self.drain(),
            19..=20 => self.time_step(),
            21 => {
                let on = if self.rng.one_in(2) { 0 } else { self.rng.byte() };
                self.put(&[2, on]);
            }
            22 => {
                let n = self.rng.pick(&[0, 1, 1920, 48000, u32::MAX]);
                self.end_time(n);
            }
            _ => match self.rng.below(3) {
                0 => self.busy(),
                1 => self.unblock(),
                _ => (),
            },
        }
    }

    fn finish(mut self) -> Stream {
        // Now and then the stream ends in a cut body or in a kind that is not known.
        let cut: Option<Vec<u8>> = match self.rng.below(8) {
            0 => Some(vec![self.rng.pick(&[0, 10, 11, 127, 255]), 1, 1, 1, 8, 8]),
            1 => Some(vec![self.rng.pick(&[1, 2, 3, 4, 5, 6, 7, 9])]),
            2 => Some([&[6][..], &[7; 25]].concat()),
            _ => None,
        };
        if let Some(event) = cut {
            self.out.starts.push(self.out.bytes.len());
            self.out.bytes.extend(&event);
            if self.over() {
                self.out.after += 1;
            } else {
                self.out.lines.push(line(event[0], 9, self.tnc.ptt(), &[]));
            }
        }
        self.out
    }
}

fn escaped(content: &[u8]) -> Vec<u8> {
    let mut out = vec![];
    for b in content {
        match b {
            0xC0 => out.extend([0xDB, 0xDC]),
            0xDB => out.extend([0xDB, 0xDD]),
            _ => out.push(*b),
        }
    }
    out
}

pub fn random(rng: &mut Rng, reached: &mut Reached, events: usize) -> Stream {
    let mut open = [false; ROWS.len()];
    if rng.one_in(3) {
        for _ in 0..rng.within(1, 3) {
            open[rng.below(ROWS.len())] = true;
        }
    }
    let mut m = Maker::new(rng, reached, open);
    let mut after = 0;
    let mut stuck = 0;
    // A queue that stays full is not worth many events.
    while m.out.starts.len() < events && stuck < 60 {
        m.one_step();
        stuck += (m.tnc.packets_full() && !m.over()) as usize;
        if m.over() {
            after += 1;
            if after > 5 {
                break;
            }
        }
    }
    m.finish()
}

// Streams that reach a limit each, whatever the seed.
pub fn fixed(rng: &mut Rng, reached: &mut Reached) -> Vec<Stream> {
    let all = [true; ROWS.len()];
    let mut out = vec![];
    // Document 01's example.
    let mut m = Maker::new(rng, reached, all);
    m.host_now(&[0xC0, 0x01, 0x0A, 0xC0, 0x00, 0xC0]);
    m.read();
    out.push(m.out);
    // Lengths around each limit of each port, the second time with every byte escaped where it fits.
    for (header, lengths) in [
        (0x00u8, (0..=60).chain(818..=826).collect::<Vec<_>>()),
        (0x10, (28..=60).chain(850..=860).collect()),
        (0x20, (20..=36).collect()),
    ] {
        for n in lengths {
            for dense in [false, true] {
                let mut m = Maker::new(rng, reached, all);
                let lsf = m.frame(0x20, &LsfFrame::new_voice(&Address::Broadcast, &Address::Invalid).0);
                m.host_now(&lsf);
                let mut content = m.rng.bytes(n, if dense { 1 } else { 0 });
                if header != 0 && n >= 30 {
                    let lsf = m.good_lsf();
                    content[..30].copy_from_slice(&lsf.0);
                }
                let frame = m.frame(header, &content);
                m.host_now(&frame);
                let last = m.frame(0x20, &[0x80; 26]);
                m.host_now(&last);
                for _ in 0..3 {
                    for _ in 0..42 {
                        m.read();
                    }
                    m.end_time(10);
                    let t = m.tnc.clock() + 10;
                    m.clock(t);
                }
                out.push(m.out);
            }
        }
    }
    // A stretch of 1,709 to 1,714 bytes, a setting that shows in the preamble; its FEND opens a setting, or a packet.
    for n in 1709..=1714 {
        for behind in [
            &[0x02, 0x33, 0xC0, 0x00, 0x41, 0xC0][..],
            &[0x00, 0x41, 0xC0],
            &[0x01, 0x33, 0xC0, 0x00, 0x41, 0xC0],
        ] {
            let mut m = Maker::new(rng, reached, all);
            m.host_now(&[0xC0, 0x01]);
            m.host_now(&vec![0x41; n - 1]);
            m.byte(0xC0);
            m.host_now(behind);
            for _ in 0..5 {
                m.read();
            }
            out.push(m.out);
        }
    }
    // Every order of the six LICH segments, ten to a stream.
    for k in 0..72 {
        let mut m = Maker::new(rng, reached, [false; ROWS.len()]);
        for j in 0..10 {
            m.acquire_scenario(10 * k + j);
            while let Some(e) = m.air.pop_front() {
                m.put(&e);
                m.put(&[9, 255]);
            }
        }
        out.push(m.out);
    }
    // Eight, nine and ten stream frames; three, four and five packets: queued, then read.
    for n in 1..=10 {
        let mut m = Maker::new(rng, reached, all);
        let lsf = m.good_lsf();
        let frame = m.frame(0x20, &lsf.0);
        m.host_now(&frame);
        for i in 0..n {
            let mut content = m.rng.bytes(26, 0);
            content[6] = if i + 1 == n { 0x80 } else { 0 };
            let frame = m.frame(0x20, &content);
            m.host_now(&frame);
        }
        m.host_now(&frame);
        for _ in 0..14 {
            m.read();
        }
        out.push(m.out);
    }
    for n in 1..=5 {
        for busy in [false, true] {
            let mut m = Maker::new(rng, reached, all);
            if busy {
                m.put(&[2, 1]);
            }
            for i in 0..n {
                let content = m.rng.bytes(25 * i + 3, 8);
                let frame = m.frame(0, &content);
                m.host_now(&frame);
                m.read();
                m.read();
            }
            for _ in 0..20 {
                m.read();
            }
            out.push(m.out);
        }
    }
    // Channel access: document 01's example, and each clock around a due check.
    for carrier in [0, 1] {
        for t in 2918..=2924 {
            let mut m = Maker::new(rng, reached, all);
            m.host_now(&[0xC0, 0x00, 0x41, 0xC0]);
            m.clock(1000);
            m.put(&[2, 1]);
            m.read();
            m.put(&[2, carrier]);
            m.clock(t);
            m.read();
            m.read();
            m.clock(t + 1920);
            m.read();
            out.push(m.out);
        }
    }
    // Each row that an answer 6 stands for, in each state, and the same events while PTT is on, when they are ignored.
    let mut stream = LsfFrame([7; 30]);
    stream.set_mode(Mode::Stream);
    let mut packet = stream.clone();
    packet.set_mode(Mode::Packet);
    for bad in 0..6 {
        for state in 0..6 {
            let mut m = Maker::new(rng, reached, all);
            let (to_stream, to_packet) = (m.lsf_event(&stream), m.lsf_event(&packet));
            let acquiring = m.stream_event(2, &[1; 5], 9, false);
            match state {
                0 => (),
                1 => m.put(&acquiring),
                2 => m.put(&to_stream),
                3 => {
                    m.put(&to_stream);
                    m.put(&acquiring);
                }
                4 => m.put(&to_packet),
                _ => {
                    m.host_now(&[0xC0, 0x00, 0x41, 0xC0]);
                    m.read();
                }
            }
            let event = match bad {
                0 => m.packet_event(128 + 26),
                1 => m.packet_event(255),
                2 => m.stream_event(6, &[1; 5], 5, false),
                3 => m.stream_event(255, &[1; 5], 32768, true),
                4 => m.stream_event(5, &[1; 5], 32768, false),
                _ => m.stream_event(0, &[1; 5], 65535, false),
            };
            m.put(&event);
            m.put(&[9, 255]);
            m.read();
            out.push(m.out);
        }
    }
    for t in [LIMIT - 1, LIMIT, LIMIT + 1, u64::MAX] {
        let mut m = Maker::new(rng, reached, all);
        m.host_now(&[0xC0, 0x00, 0x41, 0xC0]);
        m.clock(t);
        for _ in 0..5 {
            m.read();
        }
        m.end_time(u32::MAX);
        m.clock(t);
        m.clock(5);
        out.push(m.out);
    }
    out
}

// One stream that meets each rule of the TNC inside the domain, and what is refused behind it, for the record.
pub fn tour(rng: &mut Rng, reached: &mut Reached) -> Stream {
    let mut m = Maker::new(rng, reached, [true; ROWS.len()]);
    let mut lsf = LsfFrame([0x5A; 30]);
    lsf.set_mode(Mode::Stream);
    let mut packet_lsf = LsfFrame([0xC0; 30]);
    packet_lsf.set_mode(Mode::Packet);
    let ends = |m: &mut Maker| {
        // The end is read, PTT stays until the clock reaches its time.
        m.read();
        m.read();
        m.end_time(960);
        let t = m.tnc.clock() + 960;
        m.clock(t - 1);
        m.clock(t);
        m.read();
    };

    // Document 01's example, and the packet of no bytes to its end.
    m.host_now(&[0xC0, 0x01, 0x0A, 0xC0, 0x00, 0xC0]);
    m.read();
    m.read();
    m.read();
    ends(&mut m);

    // Two packets in one transmission, glued, with escapes, one of them with an escape that means nothing; a third while they are sent.
    m.host_now(&[0xC0, 0x00, 0x41, 0xDB, 0xDC, 0xDB, 0xDD, 0xDB, 0x41, 0x42, 0xC0]);
    let mut content = packet_lsf.0.to_vec();
    content.extend((0..26).map(|i| i * 9));
    let full = m.frame(0x10, &content);
    m.host_now(&full[1..]);
    for _ in 0..4 {
        m.read();
    }
    m.host_now(&[0xC0, 0x00, 0x43, 0xC0]);
    for _ in 0..4 {
        m.read();
    }
    ends(&mut m);

    // What is ignored: wrong lengths, a wrong CRC, other ports and commands, empty settings; junk, folded FENDs, a cut frame.
    for (header, n) in [
        (0x10, 32),
        (0x20, 25),
        (0x20, 0),
        (0x30, 40),
        (0x03, 1),
        (0x02, 1),
        (0x01, 0),
        (0x05, 0),
    ] {
        let content = vec![0x11; n];
        let frame = m.frame(header, &content);
        m.host_now(&frame);
    }
    let mut wrong = lsf.clone();
    wrong.0[3] ^= 1;
    let frame = m.frame(0x20, &wrong.0);
    m.host_now(&frame);
    let mut long = wrong.0.to_vec();
    long.extend([1, 2, 3]);
    let frame = m.frame(0x10, &long);
    m.host_now(&frame);
    m.host_now(&[0x55, 0x66, 0xC0, 0xC0, 0xC0, 0x00]);
    m.read();

    // The cut frame is closed: a packet of one byte. Then an overlong stretch, whose FEND opens a setting.
    m.host_now(&[0x44, 0xC0]);
    m.host_now(&[0x07; 1712]);
    m.host_now(&[0xC0, 0x21, 0xDB, 0xDC, 0x09, 0xC0]);
    for _ in 0..3 {
        m.read();
    }
    ends(&mut m);

    // A stream: data before its LSF waits; nine frames, of which one finds the queue full; the LSF passes all the same. A packet waits behind it.
    for i in 0..9 {
        let mut content = vec![i; 26];
        content[5] = 0xE0 - 32 * i.min(7);
        content[6] = if i == 7 { 0x80 } else { 0 };
        let n = 26 + i as usize % 4;
        content.resize(n, 0xEE);
        let frame = m.frame(0x20, &content);
        m.host_now(&frame);
    }
    m.read();
    m.host_now(&[0xC0, 0x00, 0x45, 0xC0]);
    let frame = m.frame(0x20, &[&lsf.0[..], &[9]].concat());
    m.host_now(&frame);
    for _ in 0..10 {
        m.read();
    }
    // While PTT is on nothing is heard, and nothing refused.
    let heard = m.lsf_event(&lsf);
    m.put(&heard);
    let heard = m.packet_event(200);
    m.put(&heard);
    let heard = m.stream_event(9, &[1; 5], 40000, true);
    m.put(&heard);
    m.put(&[9, 255]);
    ends(&mut m);
    for _ in 0..3 {
        m.read();
    }
    ends(&mut m);

    // A packet from the air, read in pieces; its wrong order; a new message over one not read.
    let event = m.lsf_event(&packet_lsf);
    m.put(&event);
    for counter in [0, 1, 128 + 7] {
        let event = m.packet_event(counter);
        m.put(&event);
    }
    for n in [0, 1, 40, 255, 255] {
        m.put(&[9, n]);
    }
    for counters in [&[0, 2, 133][..], &[33], &[128]] {
        let event = m.lsf_event(&packet_lsf);
        m.put(&event);
        for counter in counters {
            let event = m.packet_event(*counter);
            m.put(&event);
        }
        m.put(&[9, 20]);
    }
    for i in 0..32 {
        if i == 0 {
            let event = m.lsf_event(&packet_lsf);
            m.put(&event);
        }
        let event = m.packet_event(i);
        m.put(&event);
    }
    let event = m.packet_event(128 + 25);
    m.put(&event);
    for _ in 0..5 {
        m.put(&[9, 255]);
    }

    // A stream from the air: numbers that skip and go back, its end; the LSF from its segments, one of them torn at first.
    let event = m.lsf_event(&lsf);
    m.put(&event);
    m.put(&[9, 255]);
    for (number, end) in [(0, false), (1, false), (5, false), (4, false)] {
        let event = m.stream_event(1, &lsf.0[5..10], number, end);
        m.put(&event);
        m.put(&[9, 255]);
    }
    for i in [3, 0, 5, 2, 4] {
        let mut part = lsf.0[5 * i..5 * i + 5].to_vec();
        part[0] ^= (i == 5) as u8;
        let event = m.stream_event(i as u8, &part, 6, false);
        m.put(&event);
        m.put(&[9, 255]);
    }
    for (i, number) in [(5, 32766), (0, 32767), (1, 0)] {
        let event = m.stream_event(i, &lsf.0[5 * i as usize..5 * i as usize + 5], number, i == 1);
        m.put(&event);
        m.put(&[9, 255]);
    }
    let event = m.lsf_event(&lsf);
    m.put(&event);
    let event = m.stream_event(0, &lsf.0[..5], 7, true);
    m.put(&event);
    let event = m.packet_event(0);
    m.put(&event);
    m.put(&[9, 255]);
    m.put(&[9, 255]);

    // Channel access: busy sets a check, which is met early, met when due and set again; full duplex sends past it.
    m.host_now(&[0xC0, 0x00, 0x46, 0xC0]);
    m.put(&[2, 1]);
    m.clock(20000);
    m.read();
    m.clock(21919);
    m.put(&[2, 0]);
    m.read();
    m.clock(21920);
    m.read();
    m.clock(23842);
    m.read();
    m.clock(100);
    m.read();
    m.host_now(&[0xC0, 0x25, 0x07, 0xC0]);
    for _ in 0..3 {
        m.read();
    }
    ends(&mut m);
    // Back to half duplex: the old check is still pending. Five packets, of which the last finds the queue full; a stream goes before them.
    m.host_now(&[0xC0, 0x05, 0x00, 0xC0]);
    for b in 0x50..0x55 {
        m.host_now(&[0xC0, 0x00, b, 0xC0]);
    }
    m.read();
    let frame = m.frame(0x20, &lsf.0);
    m.host_now(&frame);
    m.host_now(&[0xC0, 0x05, 0x01, 0xC0]);
    let frame = m.frame(0x20, &[0x81; 26]);
    m.host_now(&frame);
    for _ in 0..4 {
        m.read();
    }
    m.end_time(0);
    let t = m.tnc.clock();
    m.clock(t);
    m.read();
    past_the_domain(&mut m);
    m.out
}

// What follows in the record: the Rust is not told, and each line is document 01's.
fn past_the_domain(m: &mut Maker) {
    // The packet queue is full, which the Rust never sends. What is heard meanwhile is ignored.
    let now = m.tnc.clock();
    let lsf = LsfFrame::new_packet(&Address::Callsign(Callsign(*b"M17RT-PKT")), &Address::Broadcast);
    m.past(&[&[5][..], &[0; 30]].concat(), 0, true, &[]);
    for b in 0x50..0x54 {
        let mut frame = [0; 26];
        frame[1] = b;
        frame[2..4].copy_from_slice(&m17_crc(&[0, b]).to_be_bytes());
        frame[25] = 128 + 4;
        m.past(&[8], 2, true, &lsf.0);
        m.past(&[8], 4, true, &frame);
    }
    m.past(&[8], 5, true, &[]);
    m.past(&[8], 0, true, &[]);
    m.past(&[4, 0, 0, 0, 0], 0, true, &[]);
    m.past(&[8], 0, true, &[]);

    // PTT is off. What is answered 6, beside the nearest that is taken.
    let clock = |t: u64| [&[3][..], &t.to_be_bytes()].concat();
    let stream = |index: u8, number: [u8; 2], end: u8| [&[7, index, 0, 0, 0, 0, 0][..], &number, &[end], &[0; 16]].concat();
    let packet = |counter: u8| [&[6][..], &[0; 25], &[counter]].concat();
    for (event, number) in [
        (clock(now + 8), 0),
        (vec![8], 0),
        (vec![9, 5], 0),
        (vec![2, 1], 0),
        (vec![2, 0], 0),
        (clock(1), 0),
        (clock(LIMIT + 1), 6),
        (clock(LIMIT), 0),
        (clock(0), 0),
        (vec![4, 0xFF, 0xFF, 0xFF, 0xFF], 0),
        (vec![8], 0),
        (vec![9, 0xFF], 0),
        (stream(6, [0, 0], 0), 6),
        (stream(0, [0x80, 0], 0), 6),
        (stream(0, [0x7F, 0xFF], 2), 0),
        (packet(128 + 26), 6),
        (packet(128 + 25), 0),
        (packet(127), 0),
        ([&[5][..], &[0; 30]].concat(), 0),
        // A body that is cut ends the stream.
        (vec![3, 0, 0, 0, 0, 0, 0, 0], 9),
    ] {
        m.past(&event, number, false, &[]);
    }
}
