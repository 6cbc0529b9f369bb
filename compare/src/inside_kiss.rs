// Included behind kiss.rs, in its module: what is private there.

pub fn inside_escape(src: &[u8], dst: &mut [u8]) -> usize {
    escape(src, dst)
}

pub fn inside_unescape(src: &[u8], dst: &mut [u8]) -> usize {
    unescape(src, dst)
}

impl KissBuffer {
    pub fn held(&self) -> &[u8] {
        &self.frame.data[..self.written]
    }

    pub fn taken(&self) -> bool {
        self.first_frame_returned
    }
}

impl KissCommand {
    pub fn number(&self) -> u8 {
        self.proto_value()
    }
}
