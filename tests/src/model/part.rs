//! What has come of the next line of a text that comes in pieces. Document 01: "Lines of at most 120 bytes". The sentence
//! marked (contract) is that of the definitions `Calls` of `plan_program`, `converter_text` and `plan_report`.

/// "of which 121 are kept: no longer line is readable" (contract)
pub const KEPT: usize = 121;

#[derive(Clone)]
pub struct Part {
    /// How many bytes have come. No call makes it more than 121.
    pub length: u64,
    pub text: [u8; KEPT],
}

impl Part {
    pub fn new() -> Part {
        Part { length: 0, text: [0; KEPT] }
    }

    /// These bytes, and zeros after them.
    pub fn of(bytes: &[u8]) -> Part {
        let mut part = Part::new();
        part.keep(bytes);
        part
    }

    /// How many bytes are kept: all 121 where a part comes with a larger length.
    fn kept(&self) -> usize {
        self.length.min(KEPT as u64) as usize
    }

    pub fn bytes(&self) -> &[u8] {
        &self.text[..self.kept()]
    }

    /// Bytes take the places that are free, as far as these go. Where none is free nothing changes, and so a length above
    /// 121 stays.
    pub fn keep(&mut self, bytes: &[u8]) {
        let free = KEPT - self.kept();
        let taken = &bytes[..bytes.len().min(free)];
        for (place, &byte) in self.text[KEPT - free..].iter_mut().zip(taken) {
            *place = byte;
        }
        self.length += taken.len() as u64;
    }

    /// The line ends: its bytes, which are left where they stand.
    pub fn end(&mut self) -> Vec<u8> {
        let line = self.bytes().to_vec();
        self.length = 0;
        line
    }
}
