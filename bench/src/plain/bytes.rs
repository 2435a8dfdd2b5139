//! Numbers read from bytes and written to them, one behind the other, the highest byte first.

pub struct Reader<'a> {
    rest: &'a [u8],
}

/// Each gives none where too few bytes are left.
impl<'a> Reader<'a> {
    pub fn new(bytes: &'a [u8]) -> Reader<'a> {
        Reader { rest: bytes }
    }

    pub fn array<const N: usize>(&mut self) -> Option<&'a [u8; N]> {
        let (front, rest) = self.rest.split_first_chunk()?;
        self.rest = rest;
        Some(front)
    }

    pub fn u8(&mut self) -> Option<u8> {
        self.array().copied().map(u8::from_be_bytes)
    }

    pub fn u32(&mut self) -> Option<u32> {
        self.array().copied().map(u32::from_be_bytes)
    }

    pub fn u64(&mut self) -> Option<u64> {
        self.array().copied().map(u64::from_be_bytes)
    }

    pub fn is_at_end(&self) -> bool {
        self.rest.is_empty()
    }
}

/// There must be room for all that is put.
pub struct Writer<'a> {
    bytes: &'a mut [u8],
    pub written: usize,
}

impl<'a> Writer<'a> {
    pub fn new(bytes: &'a mut [u8]) -> Writer<'a> {
        Writer { bytes, written: 0 }
    }

    pub fn put(&mut self, bytes: &[u8]) {
        self.bytes[self.written..][..bytes.len()].copy_from_slice(bytes);
        self.written += bytes.len();
    }

    pub fn u8(&mut self, number: u8) {
        self.put(&[number]);
    }

    pub fn u32(&mut self, number: u32) {
        self.put(&number.to_be_bytes());
    }

    pub fn u64(&mut self, number: u64) {
        self.put(&number.to_be_bytes());
    }
}
