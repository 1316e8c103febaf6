//! The bytes of an image by docs/use/image.md. One that `capfw image` wrote is taken at its word: nothing is judged.

pub struct Owner {
    pub own: bool,
    pub base: u32,
    pub length: u32,
    pub table: u32,
    pub globals: u32,
    pub size: u32,
    /// Rows of 16 bytes.
    pub slots: Vec<Vec<u8>>,
    pub exports: Vec<Vec<u8>>,
    pub text: Vec<u8>,
    pub initial: Vec<u8>,
}

pub struct Device {
    pub kind: u32,
    pub base: u32,
}

pub struct Region {
    pub base: u32,
    pub length: u32,
}

pub struct Sealed {
    pub region: Region,
    pub kind: u32,
    pub bytes: Vec<u8>,
}

pub struct ThreadRow {
    pub stack: Region,
    pub compartment: u32,
    pub export: u32,
    pub priority: u32,
    pub frames: u32,
}

pub struct Image {
    pub quantum: u32,
    pub ram: u32,
    pub size: u32,
    pub trusted: u32,
    pub heap: u32,
    pub sweep: u32,
    pub devices: Vec<Device>,
    pub shared: Vec<Region>,
    pub sealed: Vec<Sealed>,
    /// Compartments, then libraries.
    pub owners: Vec<Owner>,
    pub compartments: usize,
    pub threads: Vec<ThreadRow>,
}

struct Reader<'a> {
    data: &'a [u8],
}

impl Reader<'_> {
    fn take(&mut self, count: usize) -> Vec<u8> {
        let (taken, rest) = self.data.split_at(count);
        self.data = rest;
        taken.to_vec()
    }

    fn number(&mut self) -> u32 {
        word_in(&self.take(4), 0)
    }

    fn name(&mut self) {
        self.take(32);
    }

    /// Bytes that are followed by zeros to a multiple of 4.
    fn padded(&mut self, count: u32) -> Vec<u8> {
        let taken = self.take(count as usize);
        self.take((count.wrapping_neg() & 3) as usize);
        taken
    }

    fn rows(&mut self, count: u32) -> Vec<Vec<u8>> {
        let row = |_| {
            let row = self.take(16);
            self.name();
            row
        };
        (0..count).map(row).collect()
    }

    fn region(&mut self) -> Region {
        Region { base: self.number(), length: self.number() }
    }

    fn device(&mut self) -> Device {
        self.name();
        Device { kind: self.number(), base: self.number() }
    }

    fn shared(&mut self) -> Region {
        self.name();
        self.region()
    }

    fn sealed(&mut self) -> Sealed {
        let (region, kind, count) = (self.shared(), self.number(), self.number());
        Sealed { region, kind, bytes: self.padded(count) }
    }

    fn owner(&mut self, own: bool) -> Owner {
        self.name();
        let (base, length, text) = (self.number(), self.number(), self.number());
        let mut of_compartments = || if own { self.number() } else { 0 };
        let (table, globals, size) = (of_compartments(), of_compartments(), of_compartments());
        let initial = of_compartments();
        let (slots, exports) = (self.number(), self.number());
        Owner {
            own,
            base,
            length,
            table,
            globals,
            size,
            slots: self.rows(slots),
            exports: self.rows(exports),
            text: self.take(text as usize),
            initial: self.padded(initial),
        }
    }

    fn thread(&mut self) -> ThreadRow {
        self.name();
        ThreadRow {
            stack: self.region(),
            compartment: self.number(),
            export: self.number(),
            priority: self.number(),
            frames: self.number(),
        }
    }
}

/// A number of 32 bits at an offset, the low byte first.
pub fn word_in(bytes: &[u8], at: usize) -> u32 {
    u32::from_le_bytes([bytes[at], bytes[at + 1], bytes[at + 2], bytes[at + 3]])
}

pub fn read(data: &[u8]) -> Image {
    let mut r = Reader { data };
    r.take(4);
    let version = r.number();
    let counts: Vec<u32> = (0..6).map(|_| r.number()).collect();
    let (quantum, ram, size) = (r.number(), r.number(), r.number());
    let (trusted, heap) = (r.number(), r.number());
    let sweep = if version > 1 { r.number() } else { 64 };
    r.name();
    let devices = (0..counts[0]).map(|_| r.device()).collect();
    let shared = (0..counts[1]).map(|_| r.shared()).collect();
    let sealed = (0..counts[2]).map(|_| r.sealed()).collect();
    let owners = (0..counts[3] + counts[4]).map(|n| r.owner(n < counts[3])).collect();
    let threads = (0..counts[5]).map(|_| r.thread()).collect();
    let compartments = counts[3] as usize;
    Image { quantum, ram, size, trusted, heap, sweep, devices, shared, sealed, owners, compartments, threads }
}
