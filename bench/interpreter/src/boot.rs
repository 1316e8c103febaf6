//! What an image boots: docs/use/machine.md, "Boot".

use crate::heap::Heap;
use crate::image::{word_in, Image, Owner, ThreadRow};
use crate::instructions::{decode, UNKNOWN};
use crate::machine::{Context, Counts, Entry, Frame, Machine, Status, Thread};
use crate::memory::Memory;
use crate::words::{
    rights_of, Cap, CODE_RIGHTS, EXECUTABLE_ROOT, GLOBAL, GLOBALS_RIGHTS, LOAD_DATA, MEMORY_ROOT, SEALING,
    SEALING_ROOT, SENTRY_RIGHTS, STACK_RIGHTS, STORE_DATA, UNSEALING,
};

pub const NATIVE_BASE: u32 = 0x0001_0000;
const RETURN_ENTRY: u32 = NATIVE_BASE + 16;

/// The numbers of an owner's entries.
struct Numbers {
    code: u32,
    globals: u32,
    /// Of the first slot and of the first export; the others follow.
    slots: u32,
    exports: u32,
}

struct Boot<'a> {
    image: &'a Image,
    memory: Memory,
    entries: Vec<Entry>,
    numbers: Vec<Numbers>,
}

fn numbered(image: &Image) -> (Vec<Entry>, Vec<Numbers>) {
    let (mut entries, mut numbers) = (vec![Entry::default()], Vec::new());
    for (n, owner) in image.owners.iter().enumerate() {
        let code = entries.len() as u32;
        let globals = if owner.own { code + 1 } else { 0 };
        let slots = code + if owner.own { 2 } else { 1 };
        let exports = slots + owner.slots.len() as u32;
        entries.resize(exports as usize, Entry::default());
        entries.extend(owner.exports.iter().enumerate().map(|(k, row)| export_entry(owner, n, k, row)));
        numbers.push(Numbers { code, globals, slots, exports });
    }
    entries.resize(entries.len() + image.threads.len(), Entry::default());
    (entries, numbers)
}

fn export_entry(owner: &Owner, n: usize, k: usize, row: &[u8]) -> Entry {
    Entry {
        owner: n as u32,
        code: owner.base + 8 * owner.slots.len() as u32 + word_in(row, 0),
        stack: word_in(row, 4),
        arguments: row[8],
        posture: row[9],
        passes: row[10] == 1,
        at: if owner.own { owner.table + 16 + 16 * k as u32 } else { 0 },
        ..Entry::default()
    }
}

impl Boot<'_> {
    /// The capability of a slot, and what its entry names.
    fn slot(&mut self, owner: &Owner, numbers: &Numbers, n: usize) -> Cap {
        let row = &owner.slots[n];
        let (rights, first, second) = (rights_of(row[1]), word_in(row, 4), word_in(row, 8));
        let number = numbers.slots + n as u32;
        let memory = |base: u32, length: u32, rights: u16, kind: u32| {
            Cap::derived(MEMORY_ROOT, (base, length), rights, base, kind, (number, 0))
        };
        match row[0] {
            1 => {
                let at = NATIVE_BASE + 16 * first;
                Cap::derived(EXECUTABLE_ROOT, (at, 8), SENTRY_RIGHTS, at, 1, (number, 0))
            }
            2 => memory(self.image.devices[first as usize].base, 16, rights, 0),
            3 => {
                let shared = &self.image.shared[first as usize];
                memory(shared.base, shared.length, rights, 0)
            }
            4 => {
                let sealed = &self.image.sealed[first as usize];
                memory(sealed.region.base, sealed.region.length, GLOBAL | STORE_DATA | LOAD_DATA, sealed.kind)
            }
            5 => {
                let export = self.numbers[first as usize].exports + second;
                self.entries[number as usize].of = export;
                memory(self.entries[export as usize].at, 16, GLOBAL | LOAD_DATA, 9)
            }
            6 => self.library_slot(first as usize, second, number),
            7 => {
                self.entries[number as usize].limit = first;
                memory(owner.base + 8 * n as u32, 8, GLOBAL | LOAD_DATA, 10)
            }
            _ => Cap::derived(SEALING_ROOT, (first, 1), GLOBAL | UNSEALING | SEALING, first, 0, (number, 0)),
        }
    }

    fn library_slot(&mut self, first: usize, second: u32, number: u32) -> Cap {
        let n = self.image.compartments + first;
        let (library, export) = (&self.image.owners[n], self.numbers[n].exports + second);
        self.entries[number as usize].of = export;
        let to = self.entries[export as usize];
        let kind = u32::from(to.posture);
        Cap::derived(EXECUTABLE_ROOT, (library.base, library.length), CODE_RIGHTS, to.code, kind, (number, 0))
    }

    fn put_owner(&mut self, n: usize) -> (Cap, Cap) {
        let (owner, numbers) = (&self.image.owners[n], &self.numbers[n]);
        let code =
            Cap::derived(EXECUTABLE_ROOT, (owner.base, owner.length), CODE_RIGHTS, owner.base, 0, (numbers.code, 0));
        self.memory.store_bytes(owner.base + 8 * owner.slots.len() as u32, &owner.text);
        if !owner.own {
            return (code, Cap::default());
        }
        let (base, number) = (owner.globals, numbers.globals);
        let globals = Cap::derived(MEMORY_ROOT, (base, owner.size), GLOBALS_RIGHTS, base, 0, (number, 0));
        self.memory.store_cap(owner.table, &code);
        self.memory.store_cap(owner.table + 8, &globals);
        for (k, row) in owner.exports.iter().enumerate() {
            self.memory.store_bytes(owner.table + 16 + 16 * k as u32, row);
        }
        self.memory.store_bytes(owner.globals, &owner.initial);
        (code, globals)
    }

    fn put_slots(&mut self, n: usize) {
        let image = self.image;
        let owner = &image.owners[n];
        let numbers = Numbers { ..self.numbers[n] };
        for slot in 0..owner.slots.len() {
            let cap = self.slot(owner, &numbers, slot);
            self.memory.store_cap(owner.base + 8 * slot as u32, &cap);
        }
    }

    fn thread(&self, row: &ThreadRow, n: usize, area: u32, back: Cap, made: &[(Cap, Cap)]) -> Thread {
        let (stack, top) = (row.stack.base, row.stack.base + row.stack.length);
        let export = self.numbers[row.compartment as usize].exports + row.export;
        let number = (self.entries.len() - self.image.threads.len() + n) as u32;
        let (code, globals) = made[row.compartment as usize];
        let entry = self.entries[export as usize];
        let mut registers = [Cap::default(); 16];
        registers[1] = back;
        registers[2] = Cap::derived(MEMORY_ROOT, (stack, row.stack.length), STACK_RIGHTS, top, 0, (number, 0));
        registers[3] = globals;
        Thread {
            stack,
            area,
            most: row.frames as usize,
            priority: row.priority,
            status: Status::Ready,
            context: Context { pcc: code.at(entry.code), registers, off: (entry.posture == 2).then_some(export) },
            frames: vec![Frame { actor: row.compartment, export, top, saved: [Cap::default(); 5] }],
        }
    }
}

/// The machine of an image, before its first step.
pub fn boot(image: Image) -> Machine {
    let (entries, numbers) = numbered(&image);
    let memory = Memory::new(image.ram, image.size);
    let mut boot = Boot { image: &image, memory, entries, numbers };
    let back = Cap::derived(EXECUTABLE_ROOT, (RETURN_ENTRY, 8), SENTRY_RIGHTS, RETURN_ENTRY, 5, (0, 0));
    boot.memory.store_cap(image.trusted, &back);
    let made: Vec<(Cap, Cap)> = (0..image.owners.len()).map(|n| boot.put_owner(n)).collect();
    for sealed in &image.sealed {
        boot.memory.store_bytes(sealed.region.base, &sealed.bytes);
    }
    (0..image.owners.len()).for_each(|n| boot.put_slots(n));
    let (mut threads, mut area) = (Vec::new(), image.trusted + 16 - image.ram);
    for (n, row) in image.threads.iter().enumerate() {
        threads.push(boot.thread(row, n, area, back, &made));
        area += 160 + 64 * row.frames;
    }
    let ends = image.owners.iter().map(|owner| owner.base + owner.length - image.ram);
    let mut code = vec![UNKNOWN; ends.max().unwrap_or(0) as usize / 4];
    for owner in &image.owners {
        for at in (owner.base..owner.base + owner.length).step_by(4) {
            code[((at - image.ram) / 4) as usize] = decode(boot.memory.load(at, 4).unwrap_or(0));
        }
    }
    Machine {
        code,
        compartments: made,
        back,
        heap: Heap::new(image.heap, image.ram + image.size, boot.entries.len()),
        memory: boot.memory,
        entries: boot.entries,
        front: None,
        rate: image.sweep,
        order: (0..threads.len()).collect(),
        threads,
        running: None,
        now: Context::default(),
        pending: false,
        outputs: vec![0; image.devices.len()],
        devices: image.devices,
        time: 0,
        quantum: image.quantum,
        counts: Counts::default(),
        told: Vec::new(),
    }
}
