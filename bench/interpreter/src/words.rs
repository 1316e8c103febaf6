//! Capability words by docs/use/capabilities.md: bounds, permissions, seals and the operations on them.
//!
//! A value that is tagged has its bounds decoded beside its word; those of an untagged one are decoded where they are
//! asked for.

pub const GLOBAL: u16 = 1;
pub const LOAD_GLOBAL: u16 = 1 << 1;
pub const STORE_DATA: u16 = 1 << 2;
pub const LOAD_MUTABLE: u16 = 1 << 3;
pub const STORE_LOCAL: u16 = 1 << 4;
pub const LOAD_DATA: u16 = 1 << 5;
pub const MEMORY_CAPABILITY: u16 = 1 << 6;
pub const SYSTEM_REGISTERS: u16 = 1 << 7;
pub const EXECUTE: u16 = 1 << 8;
pub const UNSEALING: u16 = 1 << 9;
pub const SEALING: u16 = 1 << 10;
pub const USER: u16 = 1 << 11;

pub const CODE_RIGHTS: u16 = GLOBAL | LOAD_GLOBAL | LOAD_MUTABLE | LOAD_DATA | MEMORY_CAPABILITY | EXECUTE;
pub const GLOBALS_RIGHTS: u16 = GLOBAL | LOAD_GLOBAL | STORE_DATA | LOAD_MUTABLE | LOAD_DATA | MEMORY_CAPABILITY;
pub const STACK_RIGHTS: u16 = LOAD_GLOBAL | STORE_DATA | LOAD_MUTABLE | STORE_LOCAL | LOAD_DATA | MEMORY_CAPABILITY;
pub const SENTRY_RIGHTS: u16 = GLOBAL | LOAD_DATA | MEMORY_CAPABILITY | EXECUTE;

/// The high words of the three roots.
pub const MEMORY_ROOT: u32 = 0x7E3C_0100;
pub const EXECUTABLE_ROOT: u32 = 0x5E3C_0100;
pub const SEALING_ROOT: u32 = 0x4E3C_0100;

const fn flag(bits: u32, mask: u32, right: u16) -> u16 {
    if bits & mask == 0 {
        0
    } else {
        right
    }
}

const fn unpacked(bits: u32) -> u16 {
    let global = flag(bits, 32, GLOBAL);
    let five = bits & 31;
    let loads = flag(five, 2, LOAD_MUTABLE) | flag(five, 1, LOAD_GLOBAL);
    if five >> 3 == 1 {
        return global | EXECUTE | LOAD_DATA | MEMORY_CAPABILITY | flag(five, 4, SYSTEM_REGISTERS) | loads;
    }
    if five >> 3 == 3 {
        return global | LOAD_DATA | MEMORY_CAPABILITY | STORE_DATA | flag(five, 4, STORE_LOCAL) | loads;
    }
    if five >> 2 == 5 {
        return global | LOAD_DATA | MEMORY_CAPABILITY | loads;
    }
    if five == 16 {
        return global | STORE_DATA | MEMORY_CAPABILITY;
    }
    if five >> 2 == 4 {
        return global | flag(five, 2, LOAD_DATA) | flag(five, 1, STORE_DATA);
    }
    global | flag(five, 4, USER) | flag(five, 2, SEALING) | flag(five, 1, UNSEALING)
}

const fn all_unpacked() -> [u16; 64] {
    let mut table = [0; 64];
    let mut bits = 0;
    while bits < 64 {
        table[bits] = unpacked(bits as u32);
        bits += 1;
    }
    table
}

/// The set that six bits spell.
static UNPACKED: [u16; 64] = all_unpacked();

/// The six bits of a set, less what its form can't hold.
fn packed(set: u16) -> u32 {
    let bit = |right: u16, place: u32| u32::from(set & right != 0) << place;
    let all = |rights: u16| set & rights == rights;
    let loads = bit(LOAD_MUTABLE, 1) | bit(LOAD_GLOBAL, 0);
    let five = if all(EXECUTE | LOAD_DATA | MEMORY_CAPABILITY) {
        0b01000 | bit(SYSTEM_REGISTERS, 2) | loads
    } else if all(LOAD_DATA | MEMORY_CAPABILITY | STORE_DATA) {
        0b11000 | bit(STORE_LOCAL, 2) | loads
    } else if all(LOAD_DATA | MEMORY_CAPABILITY) {
        0b10100 | loads
    } else if all(STORE_DATA | MEMORY_CAPABILITY) {
        0b10000
    } else if set & (LOAD_DATA | STORE_DATA) != 0 {
        0b10000 | bit(LOAD_DATA, 1) | bit(STORE_DATA, 0)
    } else {
        bit(USER, 2) | bit(SEALING, 1) | bit(UNSEALING, 0)
    };
    bit(GLOBAL, 5) | five
}

/// Base and top of a high word at an address.
fn decoded(high: u32, address: u32) -> (u32, u64) {
    let field = high >> 18 & 15;
    let exponent = if field == 15 { 24 } else { field };
    let (base, top) = (u64::from(high >> 9 & 511), u64::from(high & 511));
    let below = u64::from((u64::from(address) >> exponent) & 511 < base);
    let block = (u64::from(address) >> (exponent + 9)).wrapping_sub(below);
    let above = block.wrapping_add(u64::from(top < base));
    let corner = |block: u64, units: u64| (block << (exponent + 9)).wrapping_add(units << exponent);
    (corner(block, base) as u32, corner(above, top) & ((1 << 33) - 1))
}

/// Exponent, base and top of the least bounds around a range.
fn least(base: u64, top: u64) -> (u32, u64, u64) {
    let floor = |exponent: u32| base >> exponent;
    let ceiling = |exponent: u32| (top + (1 << exponent) - 1) >> exponent;
    let exponent = (0..15).find(|e| ceiling(*e) - floor(*e) <= 511).unwrap_or(24);
    (exponent, floor(exponent) << exponent, ceiling(exponent) << exponent)
}

/// The least length from `length` on that a word spells, and what its base must be a multiple of.
pub fn rounded(length: u64) -> (u64, u64) {
    let (exponent, _, top) = least(0, length);
    (top, 1 << exponent)
}

/// A tag, a word of 64 bits, and a shadow: the number of the entry that it comes from, and a source. An untagged one
/// has the shadow 0, and its `base` and `top` mean nothing.
#[derive(Clone, Copy, Default)]
pub struct Cap {
    pub address: u32,
    pub high: u32,
    pub base: u32,
    pub tag: bool,
    pub top: u64,
    pub root: u32,
    pub source: u32,
}

impl Cap {
    pub fn integer(number: u32) -> Cap {
        Cap { address: number, ..Cap::default() }
    }

    /// As it stands in memory.
    pub fn new(word: u64, tag: bool, root: u32, source: u32) -> Cap {
        let (address, high) = (word as u32, (word >> 32) as u32);
        if !tag {
            return Cap { address, high, ..Cap::default() };
        }
        let (base, top) = decoded(high, address);
        Cap { address, high, base, tag, top, root, source }
    }

    pub fn word(&self) -> u64 {
        u64::from(self.high) << 32 | u64::from(self.address)
    }

    pub fn permissions(&self) -> u16 {
        UNPACKED[(self.high >> 25 & 63) as usize]
    }

    pub fn has(&self, right: u16) -> bool {
        self.permissions() & right != 0
    }

    /// The three bits of the seal: 0 where it is unsealed.
    pub fn field(&self) -> u32 {
        self.high >> 22 & 7
    }

    /// The type that it is sealed as, or 0.
    pub fn seal(&self) -> u32 {
        match self.field() {
            0 => 0,
            field if self.has(EXECUTE) => field,
            field => 8 + field,
        }
    }

    pub fn bounds(&self) -> (u32, u64) {
        if self.tag {
            (self.base, self.top)
        } else {
            decoded(self.high, self.address)
        }
    }

    /// Whether so many bytes from an address on lie in the bounds; of a tagged one.
    #[inline(always)]
    pub fn holds(&self, at: u32, width: u32) -> bool {
        self.base <= at && u64::from(at) + u64::from(width) <= self.top
    }

    pub fn untagged(&self) -> Cap {
        Cap { address: self.address, high: self.high, ..Cap::default() }
    }

    fn keeping(&self, keeps: bool) -> Cap {
        if keeps {
            *self
        } else {
            self.untagged()
        }
    }

    /// The address rule: the tag stays where it is unsealed and the bounds are the same. Inside the bounds of a tagged
    /// one they are.
    #[inline(always)]
    pub fn move_to(&mut self, address: u32) {
        let inside = self.base <= address && u64::from(address) < self.top;
        if self.tag && self.field() == 0 && inside {
            self.address = address;
        } else {
            self.move_slowly(address);
        }
    }

    #[inline(never)]
    pub fn move_slowly(&mut self, address: u32) {
        let keeps = self.tag && self.field() == 0 && decoded(self.high, address) == (self.base, self.top);
        self.address = address;
        if !keeps {
            *self = self.untagged();
        }
    }

    #[inline(always)]
    pub fn at(mut self, address: u32) -> Cap {
        self.move_to(address);
        self
    }

    pub fn bounded(&self, length: u32, exact: bool) -> Cap {
        let (from, wanted) = (u64::from(self.address), u64::from(self.address) + u64::from(length));
        let (exponent, base, top) = least(from, wanted.min(1 << 32));
        let coded = if exponent == 24 { 15 } else { exponent };
        let fields = coded << 18 | ((base >> exponent) as u32 & 511) << 9 | (top >> exponent) as u32 & 511;
        let keeps = self.tag
            && self.field() == 0
            && self.base <= self.address
            && wanted <= self.top
            && (!exact || base == from && top == wanted);
        let high = self.high & !0x003F_FFFF | fields;
        Cap { high, base: base as u32, top, ..*self }.keeping(keeps)
    }

    fn with_set(&self, set: u16, keeps: bool) -> Cap {
        Cap { high: self.high & !(63 << 25) | packed(set) << 25, ..*self }.keeping(self.tag && keeps)
    }

    pub fn masked(&self, mask: u16) -> Cap {
        self.with_set(self.permissions() & mask, self.field() == 0)
    }

    pub fn with_field(&self, field: u32) -> Cap {
        Cap { high: self.high & !(7 << 22) | field << 22, ..*self }
    }

    pub fn sealed_by(&self, key: &Cap) -> Cap {
        let kind = key.address;
        let known = if self.has(EXECUTE) { (1..=5).contains(&kind) } else { (9..=15).contains(&kind) };
        let keeps = known
            && self.tag
            && key.tag
            && self.field() == 0
            && key.field() == 0
            && key.has(SEALING)
            && key.holds(kind, 1);
        if known { self.with_field(kind & 7) } else { *self }.keeping(keeps)
    }

    pub fn unsealed_by(&self, key: &Cap) -> Cap {
        let keeps = self.tag
            && key.tag
            && self.field() != 0
            && key.field() == 0
            && key.has(UNSEALING)
            && key.address == self.seal()
            && key.holds(key.address, 1);
        let opened = self.with_field(0);
        if key.has(GLOBAL) {
            opened.keeping(keeps)
        } else {
            opened.with_set(opened.permissions() & !GLOBAL, keeps)
        }
    }

    /// Unsealed, without a source: the target of a jump.
    pub fn opened(&self) -> Cap {
        Cap { source: 0, ..self.with_field(0) }
    }

    /// What a load through `by` makes of it: permissions are attenuated, the tag needs `memory_capability`.
    pub fn loaded_through(&self, by: &Cap) -> Cap {
        let through = by.permissions();
        let local = if through & LOAD_GLOBAL == 0 { GLOBAL } else { 0 };
        let lost = if self.field() != 0 {
            local
        } else {
            let fixed = if through & LOAD_MUTABLE == 0 { STORE_DATA | LOAD_MUTABLE } else { 0 };
            fixed | local | local << 1
        };
        let keeps = through & MEMORY_CAPABILITY != 0;
        if self.permissions() & lost == 0 {
            self.keeping(self.tag && keeps)
        } else {
            self.with_set(self.permissions() & !lost, keeps)
        }
    }

    /// What a store through `by` keeps of its tag.
    pub fn stored_through(&self, by: &Cap) -> Cap {
        self.keeping(self.has(GLOBAL) || by.has(STORE_LOCAL))
    }

    /// Whether tag and word are those of another.
    pub fn is_same(&self, other: &Cap) -> bool {
        self.tag == other.tag && self.word() == other.word()
    }

    /// Whether bounds and permissions lie in those of another, and the tags are equal.
    pub fn is_subset(&self, other: &Cap) -> bool {
        let (inner, outer) = (self.bounds(), other.bounds());
        self.tag == other.tag
            && outer.0 <= inner.0
            && inner.1 <= outer.1
            && self.permissions() & !other.permissions() == 0
    }

    /// Made from a root word: bounds, rights, an address, a type to be sealed as or 0, and its shadow.
    pub fn derived(
        high: u32,
        (base, length): (u32, u32),
        rights: u16,
        address: u32,
        kind: u32,
        (root, source): (u32, u32),
    ) -> Cap {
        let whole = Cap::new(u64::from(high) << 32, true, root, source).at(base);
        let made = whole.bounded(length, true).masked(rights).at(address);
        assert!(made.tag, "a capability of {length} bytes at {base:08x}");
        if kind == 0 {
            made
        } else {
            made.with_field(kind & 7)
        }
    }
}

/// The set that six bits of a slot's row spell.
pub fn rights_of(bits: u8) -> u16 {
    UNPACKED[usize::from(bits & 63)]
}
