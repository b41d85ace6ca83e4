// Bits of bytes, highest first: a reader that takes fields by words of eight bytes, and a writer of at most 32 bytes.

#[derive(Clone, Copy)]
pub struct Reader<'a> {
    bytes: &'a [u8],
    used: usize,
    end: usize,
}

impl<'a> Reader<'a> {
    pub fn new(bytes: &'a [u8]) -> Self {
        Reader { bytes, used: 0, end: 8 * bytes.len() }
    }

    pub fn left(&self) -> usize {
        self.end - self.used
    }

    /// The next field of n bits, at most 32.
    #[inline(always)]
    pub fn take(&mut self, n: usize) -> Option<u32> {
        if self.left() < n || n == 0 {
            return None;
        }
        let word = self.eight(self.used / 8) << (self.used % 8);
        let field = word >> (64 - n);
        self.used += n;
        Some(field as u32)
    }

    /// Eight bytes from this one on; zeros follow the last byte.
    #[inline(always)]
    fn eight(&self, first: usize) -> u64 {
        let last = self.bytes.len();
        match (self.bytes.get(first..first + 8), self.bytes.last_chunk::<8>()) {
            (Some(eight), _) => u64::from_be_bytes(eight.try_into().unwrap()),
            (None, Some(eight)) => u64::from_be_bytes(*eight) << (8 * (first + 8 - last)),
            (None, None) => self.bytes[first..].iter().fold(0, |word, byte| word << 8 | u64::from(*byte)) << (8 * (first + 8 - last)),
        }
    }

    /// The bits that are left, at most 120 of them, at the front of a word.
    #[inline(always)]
    pub fn word(&self) -> Option<u128> {
        let last = self.end.div_ceil(8);
        let n = self.left();
        if n == 0 || n > 120 || last < 16 {
            return None;
        }
        let sixteen: &[u8; 16] = self.bytes.get(last - 16..last)?.try_into().ok()?;
        Some(u128::from_be_bytes(*sixteen) << (128 - n - (8 * last - self.end)))
    }

    /// A reader of the next n bits, which are taken.
    pub fn part(&mut self, n: usize) -> Option<Reader<'a>> {
        if self.left() < n {
            return None;
        }
        let part = Reader { bytes: self.bytes, used: self.used, end: self.used + n };
        self.used += n;
        Some(part)
    }
}

pub struct Writer {
    words: [u64; 4],
    held: u64,
    count: usize,
    length: usize,
}

impl Writer {
    #[inline(always)]
    pub fn new() -> Self {
        Writer { words: [0; 4], held: 0, count: 0, length: 0 }
    }

    /// A field of n bits, at most 32.
    #[inline(always)]
    pub fn put(&mut self, value: u32, n: usize) {
        let count = self.count + n;
        if count < 64 {
            self.held = self.held << n | u64::from(value);
            self.count = count;
        } else {
            let after = count - 64;
            self.words[self.length] = (self.held << (n - after)) | u64::from(value) >> after;
            self.length += 1;
            self.held = u64::from(value) & ((1 << after) - 1);
            self.count = after;
        }
    }

    #[inline(always)]
    pub fn put_all(&mut self, fields: &[(u32, usize)]) {
        for (value, n) in fields {
            self.put(*value, *n);
        }
    }

    /// The message: the last byte is filled with zeros, and L_MESSAGE is its length.
    #[inline(always)]
    pub fn message(mut self) -> Vec<u8> {
        let length = 8 * self.length + self.count.div_ceil(8);
        if self.count > 0 {
            self.words[self.length] = self.held << (64 - self.count);
        }
        self.words[0] |= (length as u64) << 46;
        let mut bytes = [0u8; 32];
        for k in 0..4 {
            bytes[8 * k..8 * k + 8].copy_from_slice(&self.words[k].to_be_bytes());
        }
        bytes[..length].to_vec()
    }
}
