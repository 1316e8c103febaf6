//! Frames and native routines: docs/use/machine.md, "Native routines" and "Calls between compartments".

use crate::heap::Object;
use crate::machine::{Entry, Frame, Machine, Status, Trap};
use crate::words::{Cap, LOAD_DATA, MEMORY_ROOT, STACK_RIGHTS, STORE_LOCAL};

/// A trap of cause 28: code and register.
pub fn refused(code: u8, register: u8) -> Trap {
    Trap(28, code, register)
}

fn require(holds: bool, trap: Trap) -> Result<(), Trap> {
    if holds {
        Ok(())
    } else {
        Err(trap)
    }
}

/// A negative answer as a word.
fn negative(code: u32) -> Cap {
    Cap::integer(code.wrapping_neg())
}

/// The type of keys and tokens.
const TOKEN: u32 = 11;

/// A new object's capability has these rights.
const HEAP_RIGHTS: u16 = crate::words::GLOBALS_RIGHTS;

impl Machine {
    // ---- frames

    /// The innermost frame ends with two results.
    pub fn leave(&mut self, first: Cap, second: Cap) {
        let Some(running) = self.running else { return };
        let thread = &mut self.threads[running];
        let Some(frame) = thread.frames.pop() else { return };
        self.memory.clear(thread.stack, frame.top);
        if thread.frames.is_empty() {
            thread.status = Status::Ended;
            self.running = None;
            return;
        }
        let [c1, c2, c3, c8, c9] = frame.saved;
        let mut registers = [Cap::default(); 16];
        registers[2] = self.memory.filtered(&c2);
        registers[3] = self.memory.filtered(&c3);
        registers[8] = self.memory.filtered(&c8);
        registers[9] = self.memory.filtered(&c9);
        registers[10] = first;
        registers[11] = second;
        self.now.registers = registers;
        self.now.pcc = self.memory.filtered(&c1).opened();
        self.posture_through(&c1, 0);
    }

    /// Interrupts after a jump through a capability; `named` is the export that its root names.
    pub fn posture_through(&mut self, c: &Cap, named: u32) {
        match c.seal() {
            2 => self.now.off = Some(named),
            3 | 5 => self.now.off = None,
            4 => self.now.off = Some(c.source),
            _ => {}
        }
    }

    fn give_back(&mut self) {
        let Some(frame) = self.running.and_then(|thread| self.threads[thread].frames.last()) else { return };
        let passes = self.entries[frame.export as usize].passes;
        let passed = |c: Cap| if passes { c } else { c.untagged() };
        self.leave(passed(self.now.registers[10]), passed(self.now.registers[11]));
    }

    // ---- routines

    /// A routine goes on where c1 leads, with its answer in c10.
    fn answer(&mut self, value: Cap) {
        let link = self.now.registers[1];
        self.now.pcc = link.opened();
        self.posture_through(&link, 0);
        self.now.registers[10] = value;
        self.now.registers[11] = Cap::default();
    }

    #[inline(never)]
    pub fn native(&mut self, number: u32) -> Result<(), Trap> {
        if number == 1 {
            self.give_back();
            return Ok(());
        }
        require(number <= 12, Trap(2, 0, 0))?;
        let link = &self.now.registers[1];
        require(link.tag, refused(2, 1))?;
        require(matches!(link.seal(), 4 | 5), refused(3, 1))?;
        match number {
            0 => return self.switch(),
            2 => self.rest(Status::Ready),
            3 => match self.now.registers[10].address {
                0 => self.rest(Status::Ready),
                ticks => self.rest(Status::Sleeps(ticks)),
            },
            4 => self.wait()?,
            5 => self.wake()?,
            11 => self.token_open(),
            _ => self.by_quota(number),
        }
        Ok(())
    }

    /// The running thread answers 0 and stops.
    fn rest(&mut self, status: Status) {
        self.answer(Cap::integer(0));
        if let Some(running) = self.running {
            self.threads[running].status = status;
        }
        self.stop();
    }

    /// The address in c10, as of a load of four bytes of RAM.
    fn word(&self) -> Result<u32, Trap> {
        let c = &self.now.registers[10];
        let at = c.address;
        require(c.tag, refused(2, 10))?;
        require(c.field() == 0, refused(3, 10))?;
        require(c.has(LOAD_DATA), refused(18, 10))?;
        let last = at.wrapping_add(3);
        require(c.holds(at, 4) && self.memory.has(at) && self.memory.has(last), refused(1, 10))?;
        require(at % 4 == 0, Trap(4, 0, 0))?;
        Ok(at)
    }

    fn wait(&mut self) -> Result<(), Trap> {
        let at = self.word()?;
        if self.memory.load(at, 4) == Some(self.now.registers[11].address) {
            self.rest(Status::Waits(at));
        } else {
            self.answer(negative(21));
        }
        Ok(())
    }

    fn wake(&mut self) -> Result<(), Trap> {
        let at = self.word()?;
        let most = self.now.registers[11].address as usize;
        let waiting = self.threads.iter_mut().filter(|thread| thread.status == Status::Waits(at));
        let woken = waiting.take(most).map(|thread| thread.status = Status::Ready).count();
        self.answer(Cap::integer(woken as u32));
        Ok(())
    }

    // ---- the switch

    /// What the switch asks of c6 and c2; the base of the stack and the top that the callee gets.
    fn switch_checks(&self, thread: usize) -> Result<(u32, u32), Trap> {
        let (gate, c2) = (&self.now.registers[6], &self.now.registers[2]);
        require(gate.tag, refused(2, 6))?;
        require(gate.seal() == 9, refused(3, 6))?;
        require(c2.tag, refused(2, 2))?;
        require(c2.field() == 0, refused(3, 2))?;
        require(c2.has(STORE_LOCAL), refused(19, 2))?;
        let base = self.threads[thread].stack;
        let top = self.threads[thread].frames.last().map_or(base, |frame| frame.top);
        require(c2.base == base && base <= c2.address && c2.address <= top, refused(1, 2))?;
        let length = c2.address - base;
        let exponent = (4..14).find(|e| length >> e <= 511).unwrap_or(14);
        Ok((base, base + (length >> exponent << exponent)))
    }

    fn switch(&mut self) -> Result<(), Trap> {
        let Some(running) = self.running else { return Ok(()) };
        let (base, top) = self.switch_checks(running)?;
        let by = self.now.registers[6].root;
        let export = self.entries[by as usize].of;
        let entry = self.entries[export as usize];
        if self.threads[running].frames.len() == self.threads[running].most {
            self.answer(negative(12));
        } else if top - base < entry.stack {
            self.answer(negative(11));
        } else {
            self.counts.calls += 1;
            self.tell("call", Some(by), format_args!("e{export}"));
            self.enter(running, export, entry, base, top);
        }
        Ok(())
    }

    fn enter(&mut self, running: usize, export: u32, entry: Entry, base: u32, top: u32) {
        let old = self.now.registers;
        let saved = [old[1], old[2], old[3], old[8], old[9]];
        self.threads[running].frames.push(Frame { actor: entry.owner, export, top, saved });
        self.memory.clear(base, top);
        let (code, globals) = self.compartments[entry.owner as usize];
        let mut registers = [Cap::default(); 16];
        registers[1] = self.back;
        registers[2] =
            Cap::derived(MEMORY_ROOT, (base, top - base), STACK_RIGHTS, top, 0, (old[2].root, old[2].source));
        registers[3] = globals;
        for n in 10..10 + usize::from(entry.arguments) {
            registers[n] = if entry.passes { old[n] } else { old[n].untagged() };
        }
        self.now.registers = registers;
        self.now.pcc = code.at(entry.code);
        self.now.off = (entry.posture == 2).then_some(export);
    }

    // ---- the heap

    fn by_quota(&mut self, number: u32) {
        let quota = &self.now.registers[10];
        if !quota.tag || quota.seal() != 10 {
            return self.answer(negative(1));
        }
        let (root, limit) = (quota.root, self.entries[quota.root as usize].limit);
        match number {
            6 => self.allocate(root, limit, self.now.registers[11].address, None),
            7 => self.free(root),
            9 => self.allocate(root, limit, 8, Some(0)),
            10 => match self.key(&self.now.registers[12]) {
                Some(key) => self.allocate(root, limit, self.now.registers[11].address, Some(key)),
                None => self.answer(negative(7)),
            },
            12 => self.token_free(root),
            _ => self.answer(Cap::integer(limit - self.heap.charges[root as usize])),
        }
    }

    /// An object, sealed where it is a key or a token.
    fn allocate(&mut self, quota: u32, limit: u32, size: u32, key: Option<u32>) {
        match self.heap.allocate(quota, size, limit, key) {
            Err(code) => self.answer(negative(code)),
            Ok((base, number, length)) => {
                let live = self.heap.charges[quota as usize];
                self.tell("allocate", Some(quota), format_args!("n{number} {base:08x} {length} {live}"));
                let kind = if key.is_some() { TOKEN } else { 0 };
                self.answer(Cap::derived(MEMORY_ROOT, (base, length), HEAP_RIGHTS, base, kind, (quota, number)));
            }
        }
    }

    fn free(&mut self, quota: u32) {
        let whole = self.now.registers[11];
        if whole.tag && whole.field() == 0 {
            self.let_go(quota, whole);
        } else {
            self.answer(negative(6));
        }
    }

    /// The live object of a quota that a capability is the whole of is freed.
    fn let_go(&mut self, quota: u32, whole: Cap) {
        let Some((number, length)) = self.heap.free(quota, whole.base, whole.top) else {
            return self.answer(negative(6));
        };
        let (base, top) = (whole.base, whole.base + length);
        self.memory.clear(base, top);
        self.memory.mark(base - 8, top, true);
        self.filter_registers();
        self.counts.frees += 1;
        let live = self.heap.charges[quota as usize];
        self.tell("free", Some(quota), format_args!("n{number} {base:08x} {length} {live}"));
        self.answer(Cap::integer(0));
    }

    // ---- keys and tokens

    /// The live object that a capability is the whole of, where it is sealed as a key or a token.
    fn sealed(&self, c: &Cap) -> Option<&Object> {
        if c.tag && c.seal() == TOKEN {
            self.heap.whole(c.base, c.top)
        } else {
            None
        }
    }

    fn key(&self, c: &Cap) -> Option<u32> {
        self.sealed(c).filter(|object| object.key == Some(0)).map(|object| object.number)
    }

    fn is_token(&self, key: u32, c: &Cap) -> bool {
        self.sealed(c).is_some_and(|object| object.key == Some(key))
    }

    fn token_open(&mut self) {
        let token = self.now.registers[11];
        match self.key(&self.now.registers[10]) {
            None => self.answer(negative(7)),
            Some(key) if self.is_token(key, &token) => self.answer(token.with_field(0)),
            Some(_) => self.answer(negative(8)),
        }
    }

    fn token_free(&mut self, quota: u32) {
        let token = self.now.registers[12];
        match self.key(&self.now.registers[11]) {
            None => self.answer(negative(7)),
            Some(key) if self.is_token(key, &token) => self.let_go(quota, token),
            Some(_) => self.answer(negative(8)),
        }
    }
}
