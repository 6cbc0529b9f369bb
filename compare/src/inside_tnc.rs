// Included behind tnc.rs, in its module: the TNC's state, by which the end of the domain is decided and the generator steers.

pub enum Now {
    Idle,
    Acquiring,
    Stream { expected: u16 },
    Packet { count: usize },
    SendsStream,
    SendsPackets,
    Ending,
    EndsAt(u64),
}

impl SoftTnc {
    pub fn state_now(&self) -> Now {
        match &self.state {
            State::Idle => Now::Idle,
            State::RxAcquiringStream(_) => Now::Acquiring,
            State::RxStream(rx) => Now::Stream { expected: rx.index },
            State::RxPacket(rx) => Now::Packet { count: rx.count },
            State::TxStream | State::TxStreamSentEndOfStream => Now::SendsStream,
            State::TxPacket => Now::SendsPackets,
            State::TxEnding => Now::Ending,
            State::TxEndingAtTime(t) => Now::EndsAt(*t),
        }
    }

    pub fn clock(&self) -> u64 {
        self.now
    }

    pub fn carrier(&self) -> bool {
        self.dcd
    }

    pub fn duplex(&self) -> bool {
        self.full_duplex
    }

    pub fn delay(&self) -> u8 {
        self.tx_delay
    }

    pub fn check(&self) -> Option<u64> {
        self.next_csma_check
    }

    pub fn packets_full(&self) -> bool {
        self.packet_full
    }

    pub fn packets_held(&self) -> usize {
        if self.packet_full {
            4
        } else {
            (self.packet_next + 4 - self.packet_curr) % 4
        }
    }

    pub fn streams_held(&self) -> usize {
        if self.stream_full {
            8
        } else {
            (self.stream_next + 8 - self.stream_curr) % 8
        }
    }

    pub fn lsf_pending(&self) -> bool {
        self.stream_pending_lsf.is_some()
    }

    pub fn reader(&self) -> &KissBuffer {
        &self.kiss_buffer
    }
}
