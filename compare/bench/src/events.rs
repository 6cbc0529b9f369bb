// The event stream: `bench stream N` writes the events of N rounds, `bench events` runs the Rust's TNC over the events on standard input and prints their lines, in document 01's
// format, as our event program does.
use crate::modem::ModulatorFrame;
use crate::protocol::PacketFrameCounter;
use crate::tnc::SoftTnc;
use crate::told::told;
use std::io::{Read, Write};

// A packet from the host, sent whole; its end and the clock; a packet from the air, read by the host.
pub fn stream(rounds: u64) {
    let mut out = Vec::new();
    let host = |out: &mut Vec<u8>, bytes: &[u8]| bytes.iter().for_each(|b| out.extend([1, *b]));
    host(&mut out, crate::kiss::KissFrame::set_full_duplex(0, true).as_bytes());
    for n in 1..=rounds {
        host(&mut out, crate::kiss::KissFrame::new_basic_packet(&[n as u8; 60]).unwrap().as_bytes());
        out.extend([8; 6]);
        out.extend([4, 0, 0, 0, 0, 3]);
        out.extend((n * 1000).to_be_bytes());
        out.push(5);
        out.extend([0; 30]);
        for counter in [0, 1, 128 + 10] {
            out.push(6);
            out.extend([n as u8; 25]);
            out.push(counter);
        }
        out.extend([9, 255]);
    }
    std::io::stdout().write_all(&out).unwrap();
}

fn body_len(kind: u8) -> usize {
    [1, 1, 8, 4, 30, 26, 25, 0, 1][kind as usize - 1]
}

fn line(out: &mut Vec<u8>, kind: u8, number: u8, ptt: bool, bytes: &[u8]) {
    const DIGITS: &[u8; 16] = b"0123456789ABCDEF";
    out.extend([DIGITS[(kind >> 4) as usize], DIGITS[(kind & 15) as usize], b' ', b'0' + number, b' ', b'0' + ptt as u8]);
    if !bytes.is_empty() {
        out.push(b' ');
        for b in bytes {
            out.extend([DIGITS[(b >> 4) as usize], DIGITS[(b & 15) as usize]]);
        }
    }
    out.push(b'\n');
}

fn tx(tnc: &mut SoftTnc, room: &mut [u8; 255]) -> (u8, usize) {
    match tnc.read_tx_frame() {
        None => (0, 0),
        Some(ModulatorFrame::Preamble { tx_delay }) => {
            room[0] = tx_delay;
            (1, 1)
        }
        Some(ModulatorFrame::Lsf(lsf)) => {
            room[..30].copy_from_slice(&lsf.0);
            (2, 30)
        }
        Some(ModulatorFrame::Stream(f)) => {
            room[0] = f.lich_idx;
            room[1..6].copy_from_slice(&f.lich_part);
            room[6..8].copy_from_slice(&f.frame_number.to_be_bytes());
            room[8] = f.end_of_stream as u8;
            room[9..25].copy_from_slice(&f.stream_data);
            (3, 25)
        }
        Some(ModulatorFrame::Packet(p)) => {
            room[..25].copy_from_slice(&p.payload);
            room[25] = match p.counter {
                PacketFrameCounter::Frame { index } => index as u8,
                PacketFrameCounter::FinalFrame { payload_len } => payload_len as u8 + 128,
            };
            (4, 26)
        }
        Some(ModulatorFrame::EndOfTransmission) => (5, 0),
    }
}

pub fn events() {
    let mut input = Vec::new();
    std::io::stdin().read_to_end(&mut input).unwrap();
    let mut out = Vec::with_capacity(65536);
    let mut tnc = SoftTnc::new();
    let mut room = [0u8; 255];
    let mut at = 0;
    while at < input.len() {
        let kind = input[at];
        let body = &input[at + 1..at + 1 + body_len(kind)];
        at += 1 + body.len();
        let mut printed = (0, 0);
        match kind {
            8 => printed = tx(&mut tnc, &mut room),
            9 => printed = (0, tnc.read_kiss(&mut room[..body[0] as usize])),
            _ => told(&mut tnc, kind, body),
        }
        line(&mut out, kind, printed.0, tnc.ptt(), &room[..printed.1]);
        if out.len() > 60000 {
            std::io::stdout().write_all(&out).unwrap();
            out.clear();
        }
    }
    std::io::stdout().write_all(&out).unwrap();
}
