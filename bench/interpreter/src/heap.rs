//! The quota heap by docs/use/machine.md: objects by their bases, free chunks by their begins. A chunk is an object
//! with the eight bytes before it.

use crate::words::rounded;
use std::collections::BTreeMap;

pub struct Object {
    pub number: u32,
    pub quota: u32,
    pub length: u32,
    pub live: bool,
    /// Of a key 0, of a token its key's number.
    pub key: Option<u32>,
}

pub struct Heap {
    length: u32,
    /// Begin and end of each.
    free: Vec<(u32, u32)>,
    objects: BTreeMap<u32, Object>,
    /// The bases of those that were freed since the running sweep began, and of those that it will let go.
    freed: Vec<u32>,
    painted: Vec<u32>,
    /// By the number of a quota's entry.
    pub charges: Vec<u32>,
    pub next: u32,
}

impl Heap {
    pub fn new(base: u32, end: u32, entries: usize) -> Heap {
        Heap {
            length: end - base,
            free: if base < end { vec![(base, end)] } else { Vec::new() },
            objects: BTreeMap::new(),
            freed: Vec::new(),
            painted: Vec::new(),
            charges: vec![0; entries],
            next: 1,
        }
    }

    pub fn has_quarantined(&self) -> bool {
        !self.freed.is_empty() || !self.painted.is_empty()
    }

    /// Base and number of a new object and its length, or the code of the refusal.
    pub fn allocate(
        &mut self,
        quota: u32,
        size: u32,
        limit: u32,
        key: Option<u32>,
    ) -> Result<(u32, u32, u32), u32> {
        if size == 0 || size > self.length {
            return Err(4);
        }
        let (length, alignment) = rounded((u64::from(size) + 7) / 8 * 8);
        let charge = length + 8;
        if u64::from(self.charges[quota as usize]) + charge > u64::from(limit) {
            return Err(2);
        }
        let Some(base) = self.place(length, alignment.max(8)) else {
            return Err(if self.has_quarantined() { 5 } else { 3 });
        };
        let (length, number) = (length as u32, self.next);
        self.objects.insert(base, Object { number, quota, length, live: true, key });
        self.charges[quota as usize] += length + 8;
        self.next += 1;
        Ok((base, number, length))
    }

    /// The least base that the chunk may have; it leaves the free chunks.
    fn place(&mut self, length: u64, alignment: u64) -> Option<u32> {
        let base_in = |begin: u32| (u64::from(begin) + 8).next_multiple_of(alignment);
        let n = self.free.iter().position(|(begin, end)| base_in(*begin) + length <= u64::from(*end))?;
        let (begin, end) = self.free[n];
        let base = base_in(begin) as u32;
        let rest = [(begin, base - 8), (base + length as u32, end)];
        self.free.splice(n..=n, rest.into_iter().filter(|(begin, end)| begin < end));
        Some(base)
    }

    /// The live object with exactly this base and top.
    pub fn whole(&self, base: u32, top: u64) -> Option<&Object> {
        let found = self.objects.get(&base)?;
        (found.live && u64::from(base) + u64::from(found.length) == top).then_some(found)
    }

    /// The live object of a quota with exactly this base and top is quarantined: its number and length.
    pub fn free(&mut self, quota: u32, base: u32, top: u64) -> Option<(u32, u32)> {
        let found = self.objects.get_mut(&base)?;
        if !found.live || found.quota != quota || u64::from(base) + u64::from(found.length) != top {
            return None;
        }
        found.live = false;
        self.charges[quota as usize] -= found.length + 8;
        self.freed.push(base);
        Some((found.number, found.length))
    }

    pub fn begin_sweep(&mut self) {
        self.painted = std::mem::take(&mut self.freed);
    }

    /// The painted leave: base and length of each.
    pub fn end_sweep(&mut self) -> Vec<(u32, u32)> {
        let bases = std::mem::take(&mut self.painted);
        bases.into_iter().map(|base| (base, self.let_go(base))).collect()
    }

    fn let_go(&mut self, base: u32) -> u32 {
        let length = self.objects.remove(&base).map_or(0, |object| object.length);
        let (mut begin, mut end) = (base - 8, base + length);
        let n = self.free.partition_point(|(other, _)| *other < begin);
        let mut meets = n..n;
        if n > 0 && self.free[n - 1].1 == begin {
            (begin, meets.start) = (self.free[n - 1].0, n - 1);
        }
        if n < self.free.len() && self.free[n].0 == end {
            (end, meets.end) = (self.free[n].1, n + 1);
        }
        self.free.splice(meets, [(begin, end)]);
        length
    }
}
