// The lines that the data files of tests/replay are made of: a fixed number of letters, with numbers in upper-case hexadecimal at fixed places.
pub struct Fixed<const N: usize>(pub [u8; N]);

// The bits of a float; every NaN has one pattern. Not inlined: where it is, rustc 1.95 -O was seen to give FFF8000000000000 for the root of -1.
#[inline(never)]
pub fn bits(x: f64) -> u64 {
    if x.is_nan() {
        0x7ff8 << 48
    } else {
        x.to_bits()
    }
}

impl<const N: usize> Fixed<N> {
    // Blank but for what it is.
    pub fn new(what: u64) -> Self {
        let mut line = Fixed([b' '; N]);
        line.0[N - 1] = b'\n';
        line.put(0, 2, what);
        line
    }

    // One that is passed over.
    pub fn remark(words: &str) -> Self {
        let mut line = Self::new(0);
        line.0[..2].copy_from_slice(b"# ");
        line.0[2..2 + words.len()].copy_from_slice(words.as_bytes());
        line
    }

    pub fn put(&mut self, at: usize, width: usize, n: u64) {
        let text = format!("{n:0width$X}");
        assert_eq!(text.len(), width);
        self.0[at..at + width].copy_from_slice(text.as_bytes());
    }
}
