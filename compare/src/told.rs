// What the events that print no bytes tell the Rust's TNC: kinds 01 to 07 of document 01. compare/ and compare/bench share it.
use crate::protocol::{Frame, LsfFrame, PacketFrame, PacketFrameCounter, StreamFrame};
use crate::tnc::SoftTnc;

pub fn told(tnc: &mut SoftTnc, kind: u8, body: &[u8]) {
    match kind {
        1 => assert_eq!(tnc.write_kiss(body), 1, "a byte that is not taken"),
        2 => tnc.set_data_carrier_detect(body[0] != 0),
        3 => tnc.set_now(u64::from_be_bytes(body.try_into().unwrap())),
        4 => tnc.set_tx_end_time(u32::from_be_bytes(body.try_into().unwrap()) as usize),
        5 => tnc.handle_frame(Frame::Lsf(LsfFrame(body.try_into().unwrap()))),
        6 => {
            let counter = match body[25] {
                b @ 128.. => PacketFrameCounter::FinalFrame {
                    payload_len: b as usize - 128,
                },
                b => PacketFrameCounter::Frame { index: b as usize },
            };
            tnc.handle_frame(Frame::Packet(PacketFrame {
                payload: body[..25].try_into().unwrap(),
                counter,
            }))
        }
        7 => tnc.handle_frame(Frame::Stream(StreamFrame {
            lich_idx: body[0],
            lich_part: body[1..6].try_into().unwrap(),
            frame_number: u16::from_be_bytes(body[6..8].try_into().unwrap()),
            end_of_stream: body[8] != 0,
            stream_data: body[9..25].try_into().unwrap(),
        })),
        k => panic!("an event of kind {k}"),
    }
}
