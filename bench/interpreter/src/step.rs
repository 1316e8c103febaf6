//! One instruction of the running thread: docs/use/machine.md, "Checks and traps" and "Effects".

use crate::boot::NATIVE_BASE;
use crate::instructions::{decode, Instruction, Operation::*};
use crate::machine::{Machine, Trap};
use crate::native::refused;
use crate::words::{rounded, Cap, EXECUTE, LOAD_DATA, MEMORY_CAPABILITY, STORE_DATA};

const ILLEGAL: Trap = Trap(2, 0, 0);
/// The register of pcc in a trap.
const PCC: u8 = 16;

fn divided(x: u32, y: u32) -> u32 {
    if y == 0 {
        u32::MAX
    } else {
        (x as i32).wrapping_div(y as i32) as u32
    }
}

fn remainder(x: u32, y: u32) -> u32 {
    if y == 0 {
        x
    } else {
        (x as i32).wrapping_rem(y as i32) as u32
    }
}

/// The upper half of a product.
fn upper(product: i64) -> u32 {
    (product >> 32) as u32
}

fn length_of(cap: &Cap) -> u32 {
    let (base, top) = cap.bounds();
    top.saturating_sub(u64::from(base)).min(u64::from(u32::MAX)) as u32
}

/// Why the next instruction can't follow at once.
enum Stop {
    /// It may, with a pcc that has to be checked.
    Checked,
    /// A turn has to look at lines, another posture or another thread.
    Looked,
    Trapped(Trap),
}

impl From<Trap> for Stop {
    fn from(trap: Trap) -> Stop {
        Stop::Trapped(trap)
    }
}

/// Where the next instruction follows pcc is tagged, unsealed and executes, as before.
type Gone = Result<(), Stop>;

fn traps(trap: Trap) -> Gone {
    Err(Stop::Trapped(trap))
}

impl Machine {
    /// Steps of the running thread until so many were made; it ends earlier after one that may have told something,
    /// stopped the thread or changed its posture, or that traps.
    #[inline(never)]
    pub fn execute_until(&mut self, until: u32) -> Result<(), Trap> {
        self.counts.steps += 1;
        self.check_pcc()?;
        loop {
            let checked = match self.execute() {
                Ok(()) => true,
                Err(Stop::Checked) => false,
                Err(Stop::Looked) => return Ok(()),
                Err(Stop::Trapped(trap)) => return Err(trap),
            };
            if self.counts.steps == until {
                return Ok(());
            }
            self.counts.steps += 1;
            if !checked {
                self.check_pcc()?;
            }
        }
    }

    fn check_pcc(&self) -> Result<(), Trap> {
        let pcc = &self.now.pcc;
        if !pcc.tag {
            return Err(refused(2, PCC));
        }
        if pcc.field() != 0 {
            return Err(refused(3, PCC));
        }
        if !pcc.has(EXECUTE) {
            return Err(refused(17, PCC));
        }
        Ok(())
    }

    #[inline(always)]
    fn execute(&mut self) -> Gone {
        let at = self.now.pcc.address;
        if !self.now.pcc.holds(at, 4) {
            return traps(refused(1, PCC));
        }
        // Of an address that isn't a multiple of 4 the index is past every word.
        let index = at.wrapping_sub(self.memory.base).rotate_right(2) as usize;
        match self.code.get(index) {
            Some(found) if found.operation != Unknown => self.carry_out(*found),
            _ => self.execute_elsewhere(at),
        }
    }

    /// A native entry, or a word that wasn't decoded at boot.
    #[inline(never)]
    fn execute_elsewhere(&mut self, at: u32) -> Gone {
        let from_first = at.wrapping_sub(NATIVE_BASE);
        if from_first < 16 * 13 && from_first % 16 == 0 {
            self.native(from_first / 16)?;
            return Err(Stop::Looked);
        }
        match self.memory.load(at, 4) {
            Some(word) if at % 4 == 0 => self.carry_out_slowly(decode(word)),
            _ => traps(ILLEGAL),
        }
    }

    #[cold]
    #[inline(never)]
    fn carry_out_slowly(&mut self, i: Instruction) -> Gone {
        self.carry_out(i)
    }

    // ---- what every instruction ends with

    #[inline(always)]
    fn go_on(&mut self) -> Gone {
        let next = self.now.pcc.address.wrapping_add(4);
        self.go_near(next)
    }

    /// pcc, which is tagged and unsealed, gets another address.
    #[inline(always)]
    fn go_near(&mut self, address: u32) -> Gone {
        let pcc = &mut self.now.pcc;
        if pcc.base <= address && u64::from(address) < pcc.top {
            pcc.address = address;
            return Ok(());
        }
        pcc.move_slowly(address);
        Err(Stop::Checked)
    }

    #[inline(always)]
    fn put(&mut self, to: u8, value: Cap) {
        if to != 0 {
            self.now.registers[usize::from(to & 15)] = value;
        }
    }

    #[inline(always)]
    fn gives(&mut self, to: u8, value: Cap) -> Gone {
        self.put(to, value);
        self.go_on()
    }

    #[inline(always)]
    fn counts(&mut self, to: u8, value: u32) -> Gone {
        self.gives(to, Cap::integer(value))
    }

    // ---- which it is

    #[inline(always)]
    fn register(&self, number: u8) -> &Cap {
        &self.now.registers[usize::from(number & 15)]
    }

    #[inline(always)]
    fn carry_out(&mut self, i: Instruction) -> Gone {
        let (x, y) = (self.register(i.first).address, self.register(i.second).address);
        let (n, to) = (i.number, i.to);
        match i.operation {
            Addi => self.counts(to, x.wrapping_add(n)),
            Slti => self.counts(to, u32::from((x as i32) < n as i32)),
            Sltiu => self.counts(to, u32::from(x < n)),
            Xori => self.counts(to, x ^ n),
            Ori => self.counts(to, x | n),
            Andi => self.counts(to, x & n),
            Slli => self.counts(to, x << (n & 31)),
            Srli => self.counts(to, x >> (n & 31)),
            Srai => self.counts(to, (x as i32 >> (n & 31)) as u32),
            Lui => self.counts(to, n),
            Add => self.counts(to, x.wrapping_add(y)),
            Sub => self.counts(to, x.wrapping_sub(y)),
            Sll => self.counts(to, x << (y & 31)),
            Slt => self.counts(to, u32::from((x as i32) < y as i32)),
            Sltu => self.counts(to, u32::from(x < y)),
            Xor => self.counts(to, x ^ y),
            Srl => self.counts(to, x >> (y & 31)),
            Sra => self.counts(to, (x as i32 >> (y & 31)) as u32),
            Or => self.counts(to, x | y),
            And => self.counts(to, x & y),
            Mul => self.counts(to, x.wrapping_mul(y)),
            Mulh => self.counts(to, upper(i64::from(x as i32) * i64::from(y as i32))),
            Mulhsu => self.counts(to, upper(i64::from(x as i32) * i64::from(y))),
            Mulhu => self.counts(to, (u64::from(x) * u64::from(y) >> 32) as u32),
            Div => self.counts(to, divided(x, y)),
            Divu => self.counts(to, x.checked_div(y).unwrap_or(u32::MAX)),
            Rem => self.counts(to, remainder(x, y)),
            Remu => self.counts(to, x.checked_rem(y).unwrap_or(x)),
            Beq => self.branch(x == y, n),
            Bne => self.branch(x != y, n),
            Blt => self.branch((x as i32) < y as i32, n),
            Bge => self.branch(x as i32 >= y as i32, n),
            Bltu => self.branch(x < y, n),
            Bgeu => self.branch(x >= y, n),
            Jal => self.jump(to, n),
            CJalr => self.jump_to(i),
            Lb => self.load(i, 1, 24),
            Lh => self.load(i, 2, 16),
            Lw => self.load(i, 4, 0),
            Lbu => self.load(i, 1, 0),
            Lhu => self.load(i, 2, 0),
            Clc => self.load_cap(i),
            Sb => self.store(i, y, 1),
            Sh => self.store(i, y, 2),
            Sw => self.store(i, y, 4),
            Csc => self.store_cap(i),
            CMove => self.gives(to, *self.register(i.first)),
            CIncAddrImm => self.moves(to, *self.register(i.first), x.wrapping_add(n)),
            CIncAddr => self.moves(to, *self.register(i.first), x.wrapping_add(y)),
            CSetAddr => self.moves(to, *self.register(i.first), y),
            AuiPcc => self.moves(to, self.now.pcc, self.now.pcc.address.wrapping_add(n)),
            Fence => self.go_on(),
            Ecall => traps(Trap(11, 0, 0)),
            Ebreak => traps(Trap(3, 0, 0)),
            System => traps(refused(24, PCC)),
            Unknown | Illegal => traps(ILLEGAL),
            _ => {
                let value = self.made(i);
                self.gives(to, value)
            }
        }
    }

    /// A register gets a capability at another address.
    #[inline(always)]
    fn moves(&mut self, to: u8, cap: Cap, address: u32) -> Gone {
        self.gives(to, cap.at(address))
    }

    /// The result of another instruction that works on capabilities.
    #[inline(never)]
    fn made(&self, i: Instruction) -> Cap {
        let (first, second) = (self.register(i.first), self.register(i.second));
        let (x, y, n) = (first.address, second.address, i.number);
        match i.operation {
            AuiCgp => first.at(x.wrapping_add(n)),
            CSetBoundsImm => first.bounded(n, false),
            CSetBounds => first.bounded(y, false),
            CSetBoundsExact => first.bounded(y, true),
            CSeal => first.sealed_by(second),
            CUnseal => first.unsealed_by(second),
            CAndPerm => first.masked((y & 0xFFF) as u16),
            CClearTag => first.untagged(),
            CSetHigh => Cap::new(u64::from(y) << 32 | u64::from(x), false, 0, 0),
            CSub => Cap::integer(x.wrapping_sub(y)),
            CTestSubset => Cap::integer(u32::from(second.is_subset(first))),
            CSetEqualExact => Cap::integer(u32::from(first.is_same(second))),
            CGetPerm => Cap::integer(u32::from(first.permissions())),
            CGetType => Cap::integer(first.seal()),
            CGetBase => Cap::integer(first.bounds().0),
            CGetLen => Cap::integer(length_of(first)),
            CGetTag => Cap::integer(u32::from(first.tag)),
            CGetTop => Cap::integer(first.bounds().1.min(u64::from(u32::MAX)) as u32),
            CGetHigh => Cap::integer(first.high),
            Crrl => Cap::integer(rounded(u64::from(x)).0 as u32),
            Cram => Cap::integer((rounded(u64::from(x)).1 as u32).wrapping_neg()),
            _ => Cap::integer(x),
        }
    }

    // ---- jumps

    #[inline(always)]
    fn branch(&mut self, taken: bool, offset: u32) -> Gone {
        if !taken {
            return self.go_on();
        }
        self.go_to(self.now.pcc.address.wrapping_add(offset))
    }

    #[inline(always)]
    fn go_to(&mut self, target: u32) -> Gone {
        if target % 4 != 0 {
            return traps(Trap(0, 0, 0));
        }
        self.go_near(target)
    }

    /// The link of a jump: a return sentry for the address after it.
    fn link(&self) -> Cap {
        let next = self.now.pcc.at(self.now.pcc.address.wrapping_add(4));
        let source = self.now.off.unwrap_or(0);
        let sealed = next.with_field(if self.now.off.is_some() { 4 } else { 5 });
        if next.tag {
            Cap { source, ..sealed }
        } else {
            sealed
        }
    }

    #[inline(always)]
    fn jump(&mut self, to: u8, offset: u32) -> Gone {
        let target = self.now.pcc.address.wrapping_add(offset);
        if to == 0 {
            return self.go_to(target);
        }
        if target % 4 == 0 {
            self.put(to, self.link());
        }
        self.go_to(target)
    }

    #[inline(never)]
    fn jump_to(&mut self, i: Instruction) -> Gone {
        let x = *self.register(i.first);
        if !x.tag {
            return traps(refused(2, i.first));
        }
        let kind = x.seal();
        let taken = match (i.to, i.first) {
            (0, 1) => matches!(kind, 0 | 4 | 5),
            (1, _) => kind <= 3,
            _ => kind <= 1,
        };
        if !taken || kind != 0 && i.number != 0 {
            return traps(refused(3, i.first));
        }
        if !x.has(EXECUTE) {
            return traps(refused(17, i.first));
        }
        let target = x.address.wrapping_add(i.number) & !1;
        if target % 4 != 0 {
            return traps(Trap(0, 0, 0));
        }
        let (link, off) = (self.link(), self.now.off);
        self.posture_through(&x, self.entries[x.root as usize].of);
        self.now.pcc = x.opened().at(target);
        self.put(i.to, link);
        Err(if self.now.off == off { Stop::Checked } else { Stop::Looked })
    }

    // ---- loads and stores

    /// The address of an access, past the checks of a load or a store.
    #[inline(always)]
    fn authorised(&self, i: Instruction, width: u32, right: u16, carries: bool) -> Result<u32, Trap> {
        let by = self.register(i.first);
        let at = by.address.wrapping_add(i.number);
        let loads = right == LOAD_DATA;
        if !by.tag {
            return Err(refused(2, i.first));
        }
        if by.field() != 0 {
            return Err(refused(3, i.first));
        }
        if !by.has(right) {
            return Err(refused(if loads { 18 } else { 19 }, i.first));
        }
        if carries && !by.has(MEMORY_CAPABILITY) {
            return Err(refused(21, i.first));
        }
        if !by.holds(at, width) {
            return Err(refused(1, i.first));
        }
        if at % width != 0 {
            return Err(Trap(if loads { 4 } else { 6 }, 0, 0));
        }
        Ok(at)
    }

    /// `sign` is how far the value's sign stands from the word's, or 0 where it isn't extended.
    #[inline(always)]
    fn load(&mut self, i: Instruction, width: u32, sign: u32) -> Gone {
        let at = self.authorised(i, width, LOAD_DATA, false)?;
        let extended = |value: u32| ((value << sign) as i32 >> sign) as u32;
        match self.memory.load(at, width) {
            Some(value) => self.counts(i.to, extended(value)),
            None => {
                let value = self.load_device(i.first, at, width) as u32;
                self.looked(i.to, Cap::integer(extended(value)))
            }
        }
    }

    #[inline(always)]
    fn load_cap(&mut self, i: Instruction) -> Gone {
        let at = self.authorised(i, 8, LOAD_DATA, false)?;
        let by = self.register(i.first);
        match self.memory.load_cap(at) {
            Some(value) => self.gives(i.to, self.memory.filtered(&value.loaded_through(by))),
            None => {
                let by = *by;
                let value = Cap::new(self.load_device(i.first, at, 8), false, 0, 0);
                self.looked(i.to, value.loaded_through(&by))
            }
        }
    }

    /// After an access of a device, which was told.
    fn looked(&mut self, to: u8, value: Cap) -> Gone {
        let _ = self.gives(to, value);
        Err(Stop::Looked)
    }

    #[inline(always)]
    fn store(&mut self, i: Instruction, value: u32, width: u32) -> Gone {
        let at = self.authorised(i, width, STORE_DATA, false)?;
        if self.memory.store(at, width, value) {
            return self.go_on();
        }
        let mask = ((1u64 << (8 * width)) - 1) as u32;
        self.store_device(i.first, at, width, u64::from(value & mask));
        self.looked(0, Cap::default())
    }

    #[inline(always)]
    fn store_cap(&mut self, i: Instruction) -> Gone {
        let value = *self.register(i.second);
        let at = self.authorised(i, 8, STORE_DATA, value.tag)?;
        let kept = value.stored_through(self.register(i.first));
        if self.memory.store_cap(at, &kept) {
            return self.go_on();
        }
        self.store_device(i.first, at, 8, value.word());
        self.looked(0, Cap::default())
    }

    // ---- devices

    fn device(&self, at: u32) -> Option<usize> {
        self.devices.iter().position(|device| at.wrapping_sub(device.base) < 16)
    }

    /// Register 0 to 3 of a device. No byte comes to one: a serial port and the pins read 0.
    fn device_register(&self, n: usize, register: u32) -> u32 {
        match (self.devices[n].kind, register) {
            (2, 0) => self.time as u32,
            (2, 1) => (self.time >> 32) as u32,
            (3, 0) => self.outputs[n],
            _ => 0,
        }
    }

    /// An access through the capability in a register.
    #[cold]
    #[inline(never)]
    fn load_device(&mut self, by: u8, at: u32, width: u32) -> u64 {
        let Some(n) = self.device(at) else { return 0 };
        let offset = at - self.devices[n].base;
        let low = u64::from(self.device_register(n, offset / 4)) >> (8 * (offset % 4));
        let value = match width {
            8 => low | u64::from(self.device_register(n, offset / 4 + 1)) << 32,
            _ => low & ((1 << (8 * width)) - 1),
        };
        self.tell_access("load", by, at, width, value);
        value
    }

    #[cold]
    #[inline(never)]
    fn store_device(&mut self, by: u8, at: u32, width: u32, value: u64) {
        let Some(n) = self.device(at) else { return };
        if self.devices[n].kind == 3 && at == self.devices[n].base {
            self.outputs[n] = value as u32;
        }
        self.tell_access("store", by, at, width, value);
    }

    fn tell_access(&mut self, deed: &str, by: u8, at: u32, width: u32, value: u64) {
        self.counts.devices += 1;
        let digits = 2 * width as usize;
        self.tell(deed, Some(self.register(by).root), format_args!("{at:08x} {width} {value:0digits$x}"));
    }
}
