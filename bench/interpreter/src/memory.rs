//! RAM as plain arrays, one place for each granule of eight bytes.

use crate::words::Cap;

pub struct Memory {
    pub base: u32,
    pub size: u32,
    words: Vec<u64>,
    tags: Vec<u8>,
    /// Roots and sources of what is tagged.
    shadows: Vec<(u32, u32)>,
    marks: Vec<u8>,
}

impl Memory {
    pub fn new(base: u32, size: u32) -> Memory {
        let count = size as usize / 8;
        Memory {
            base,
            size,
            words: vec![0; count],
            tags: vec![0; count],
            shadows: vec![(0, 0); count],
            marks: vec![0; count],
        }
    }

    /// Whether an access that is a multiple of its width lies in RAM, whose ends are multiples of 16.
    #[inline(always)]
    pub fn has(&self, at: u32) -> bool {
        at.wrapping_sub(self.base) < self.size
    }

    #[inline(always)]
    fn granule(&self, at: u32) -> usize {
        (at.wrapping_sub(self.base) / 8) as usize
    }

    /// The bytes at an address, of a width that it is a multiple of; None outside RAM.
    #[inline(always)]
    pub fn load(&self, at: u32, width: u32) -> Option<u32> {
        let kept = self.words.get(self.granule(at))? >> (8 * (at & 7));
        Some((kept & ((1 << (8 * width)) - 1)) as u32)
    }

    /// Whether it lies in RAM; else nothing is stored.
    #[inline(always)]
    pub fn store(&mut self, at: u32, width: u32, value: u32) -> bool {
        let (n, by) = (self.granule(at), 8 * (at & 7));
        let Some(word) = self.words.get_mut(n) else { return false };
        let mask = ((1 << (8 * width)) - 1) << by;
        *word = *word & !mask | (u64::from(value) << by) & mask;
        self.tags[n] = 0;
        true
    }

    #[inline(always)]
    pub fn load_cap(&self, at: u32) -> Option<Cap> {
        let n = self.granule(at);
        let word = *self.words.get(n)?;
        if self.tags[n] == 0 {
            return Some(Cap::new(word, false, 0, 0));
        }
        let (root, source) = self.shadows[n];
        Some(Cap::new(word, true, root, source))
    }

    #[inline(always)]
    pub fn store_cap(&mut self, at: u32, cap: &Cap) -> bool {
        let n = self.granule(at);
        let Some(word) = self.words.get_mut(n) else { return false };
        *word = cap.word();
        self.tags[n] = u8::from(cap.tag);
        self.shadows[n] = (cap.root, cap.source);
        true
    }

    pub fn store_bytes(&mut self, at: u32, bytes: &[u8]) {
        for (n, byte) in bytes.iter().enumerate() {
            self.store(at + n as u32, 1, u32::from(*byte));
        }
    }

    /// Whole granules from an address up to another become zero.
    pub fn clear(&mut self, from: u32, to: u32) {
        let granules = self.granule(from)..self.granule(to);
        self.words[granules.clone()].fill(0);
        self.tags[granules].fill(0);
    }

    pub fn mark(&mut self, from: u32, to: u32, marked: bool) {
        let granules = self.granule(from)..self.granule(to);
        self.marks[granules].fill(u8::from(marked));
    }

    /// The load filter: a capability whose base lies in a marked granule loses its tag.
    #[inline(always)]
    pub fn filtered(&self, cap: &Cap) -> Cap {
        if cap.tag && self.has(cap.base) && self.marks[self.granule(cap.base)] != 0 {
            cap.untagged()
        } else {
            *cap
        }
    }

    /// The filter over the granules from one offset up to another.
    pub fn sweep(&mut self, low: u32, high: u32) {
        let (low, high) = (low as usize / 8, high as usize / 8);
        for from in (low..high).step_by(64) {
            let to = high.min(from + 64);
            if self.tags[from..to].contains(&1) {
                self.sweep_granules(from, to);
            }
        }
    }

    fn sweep_granules(&mut self, from: usize, to: usize) {
        for n in from..to {
            if self.tags[n] != 0 {
                let cap = self.load_cap(self.base + 8 * n as u32).unwrap_or_default();
                self.tags[n] = u8::from(self.filtered(&cap).tag);
            }
        }
    }
}
