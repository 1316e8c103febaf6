//! Instructions as the interpreter keeps them: a word of code is decoded once, when the machine boots.

#[derive(Clone, Copy, PartialEq)]
pub enum Operation {
    /// No word of code that was decoded at boot.
    Unknown,
    Illegal,
    Lui,
    AuiPcc,
    AuiCgp,
    Jal,
    CJalr,
    Beq,
    Bne,
    Blt,
    Bge,
    Bltu,
    Bgeu,
    Lb,
    Lh,
    Lw,
    Clc,
    Lbu,
    Lhu,
    Sb,
    Sh,
    Sw,
    Csc,
    Addi,
    Slti,
    Sltiu,
    Xori,
    Ori,
    Andi,
    Slli,
    Srli,
    Srai,
    Add,
    Sub,
    Sll,
    Slt,
    Sltu,
    Xor,
    Srl,
    Sra,
    Or,
    And,
    Mul,
    Mulh,
    Mulhsu,
    Mulhu,
    Div,
    Divu,
    Rem,
    Remu,
    Fence,
    Ecall,
    Ebreak,
    System,
    CIncAddrImm,
    CSetBoundsImm,
    CSetBounds,
    CSetBoundsExact,
    CSeal,
    CUnseal,
    CAndPerm,
    CSetAddr,
    CIncAddr,
    CSub,
    CSetHigh,
    CTestSubset,
    CSetEqualExact,
    CGetPerm,
    CGetType,
    CGetBase,
    CGetLen,
    CGetTag,
    Crrl,
    Cram,
    CMove,
    CClearTag,
    CGetAddr,
    CGetHigh,
    CGetTop,
}

use Operation::*;

/// An operation, its three registers, and its number: an immediate, an offset, or the upper bits in their place.
#[derive(Clone, Copy)]
pub struct Instruction {
    pub operation: Operation,
    pub to: u8,
    pub first: u8,
    pub second: u8,
    pub number: u32,
}

pub const UNKNOWN: Instruction = Instruction { operation: Unknown, to: 0, first: 0, second: 0, number: 0 };
const ILLEGAL: Instruction = Instruction { operation: Illegal, ..UNKNOWN };

/// The fields of a word; `low`, `stored`, `branch` and `jump` are the numbers of formats I, S, B and J.
struct Fields {
    opcode: u32,
    to: u8,
    function: usize,
    first: u8,
    second: u8,
    upper: u32,
    low: u32,
    stored: u32,
    branch: u32,
    jump: u32,
}

fn cut(word: u32) -> Fields {
    let piece = |from: u32, width: u32| word >> from & ((1 << width) - 1);
    let sign = (word as i32 >> 31) as u32;
    let low = (word as i32 >> 20) as u32;
    Fields {
        opcode: piece(0, 7),
        to: piece(7, 5) as u8,
        function: piece(12, 3) as usize,
        first: piece(15, 5) as u8,
        second: piece(20, 5) as u8,
        upper: piece(25, 7),
        low,
        stored: low & !31 | piece(7, 5),
        branch: sign << 12 | piece(7, 1) << 11 | piece(25, 6) << 5 | piece(8, 4) << 1,
        jump: sign << 20 | piece(12, 8) << 12 | piece(20, 1) << 11 | piece(21, 10) << 1,
    }
}

const BRANCHES: [Operation; 8] = [Beq, Bne, Illegal, Illegal, Blt, Bge, Bltu, Bgeu];
const LOADS: [Operation; 8] = [Lb, Lh, Lw, Clc, Lbu, Lhu, Illegal, Illegal];
const STORES: [Operation; 8] = [Sb, Sh, Sw, Csc, Illegal, Illegal, Illegal, Illegal];
const IMMEDIATES: [Operation; 8] = [Addi, Illegal, Slti, Sltiu, Xori, Illegal, Ori, Andi];
const PLAIN: [Operation; 8] = [Add, Sll, Slt, Sltu, Xor, Srl, Or, And];
const MULTIPLIED: [Operation; 8] = [Mul, Mulh, Mulhsu, Mulhu, Div, Divu, Rem, Remu];

/// What a word stands for.
pub fn decode(word: u32) -> Instruction {
    let f = cut(word);
    let kept = match f.opcode {
        0x37 => with(Lui, f.to, 0, 0, word & 0xFFFF_F000),
        0x17 => with(AuiPcc, f.to, 0, 0, ((word & 0xFFFF_F000) as i32 >> 1) as u32),
        0x7B => with(AuiCgp, f.to, 3, 0, ((word & 0xFFFF_F000) as i32 >> 1) as u32),
        0x6F => with(Jal, f.to, 0, 0, f.jump),
        0x67 if f.function == 0 => with(CJalr, f.to, f.first, 0, f.low),
        0x63 => with(BRANCHES[f.function], 0, f.first, f.second, f.branch),
        0x03 => with(LOADS[f.function], f.to, f.first, 0, f.low),
        0x23 => with(STORES[f.function], 0, f.first, f.second, f.stored),
        0x13 if f.function == 1 || f.function == 5 => shift(&f),
        0x13 => with(IMMEDIATES[f.function], f.to, f.first, 0, f.low),
        0x33 => with(integer(&f), f.to, f.first, f.second, 0),
        0x0F if f.function == 0 && f.to == 0 && f.first == 0 => with(Fence, 0, 0, 0, 0),
        0x73 => system(word, &f),
        0x5B => capability(&f),
        _ => ILLEGAL,
    };
    if kept.to > 15 || kept.first > 15 || kept.second > 15 {
        return ILLEGAL;
    }
    kept
}

fn with(operation: Operation, to: u8, first: u8, second: u8, number: u32) -> Instruction {
    Instruction { operation, to, first, second, number }
}

fn shift(f: &Fields) -> Instruction {
    let operation = match (f.function, f.upper) {
        (1, 0) => Slli,
        (5, 0) => Srli,
        (5, 0x20) => Srai,
        _ => Illegal,
    };
    with(operation, f.to, f.first, 0, u32::from(f.second))
}

fn integer(f: &Fields) -> Operation {
    match (f.upper, f.function) {
        (0, function) => PLAIN[function],
        (1, function) => MULTIPLIED[function],
        (0x20, 0) => Sub,
        (0x20, 5) => Sra,
        _ => Illegal,
    }
}

fn system(word: u32, f: &Fields) -> Instruction {
    match f.function {
        _ if word == 0x0000_0073 => with(Ecall, 0, 0, 0, 0),
        _ if word == 0x0010_0073 => with(Ebreak, 0, 0, 0, 0),
        1..=3 => with(System, f.to, f.first, 0, 0),
        5..=7 => with(System, f.to, 0, 0, 0),
        _ => ILLEGAL,
    }
}

fn capability(f: &Fields) -> Instruction {
    match (f.function, f.upper) {
        (1, _) => with(CIncAddrImm, f.to, f.first, 0, f.low),
        (2, _) => with(CSetBoundsImm, f.to, f.first, 0, f.low & 0xFFF),
        (0, 0x01) => with(System, f.to, f.first, 0, 0),
        (0, 0x7F) => with(one_source(f.second), f.to, f.first, 0, 0),
        (0, upper) => with(two_sources(upper), f.to, f.first, f.second, 0),
        _ => ILLEGAL,
    }
}

fn one_source(number: u8) -> Operation {
    match number {
        0 => CGetPerm,
        1 => CGetType,
        2 => CGetBase,
        3 => CGetLen,
        4 => CGetTag,
        8 => Crrl,
        9 => Cram,
        10 => CMove,
        11 => CClearTag,
        15 => CGetAddr,
        23 => CGetHigh,
        24 => CGetTop,
        _ => Illegal,
    }
}

fn two_sources(upper: u32) -> Operation {
    match upper {
        0x08 => CSetBounds,
        0x09 => CSetBoundsExact,
        0x0B => CSeal,
        0x0C => CUnseal,
        0x0D => CAndPerm,
        0x10 => CSetAddr,
        0x11 => CIncAddr,
        0x14 => CSub,
        0x16 => CSetHigh,
        0x20 => CTestSubset,
        0x21 => CSetEqualExact,
        _ => Illegal,
    }
}
