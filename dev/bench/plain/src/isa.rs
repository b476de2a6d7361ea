//! Instructions: their words and their texts (docs/FORMATS.md, "Instructions").

use crate::output::Output;

#[derive(Clone, Copy, PartialEq)]
pub enum Operand {
    A,
    B,
    C,
    Unsigned,
    Signed,
}

use Operand::{Signed, Unsigned, A, B, C};

/// A form: what its operands are, and the bits of a word that it doesn't use.
#[derive(Clone, Copy)]
pub struct Form {
    pub operands: &'static [Operand],
    unused: u32,
}

const R1: Form = Form { operands: &[A], unused: 0x000f_ffff };
const R2: Form = Form { operands: &[A, B], unused: 0x0000_ffff };
const R3: Form = Form { operands: &[A, B, C], unused: 0x0000_0fff };
const RI: Form = Form { operands: &[A, B, Unsigned], unused: 0 };
const RS: Form = Form { operands: &[A, B, Signed], unused: 0 };
const LI: Form = Form { operands: &[A, Unsigned], unused: 0x000f_0000 };
const JS: Form = Form { operands: &[A, Signed], unused: 0x000f_0000 };
const N: Form = Form { operands: &[Unsigned], unused: 0x00ff_0000 };

#[derive(Clone, Copy)]
pub struct Kind {
    pub name: &'static str,
    pub form: Form,
    /// The bounds of an unsigned immediate.
    pub least: u32,
    pub most: u32,
}

const fn kind(name: &'static str, form: Form) -> Kind {
    Kind { name, form, least: 0, most: 0xffff }
}

/// The instructions by their opcodes, which begin with 1.
pub const KINDS: [Kind; 34] = [
    kind("mov", R2),
    kind("li", LI),
    kind("lih", LI),
    kind("add", R3),
    kind("sub", R3),
    kind("mul", R3),
    kind("div", R3),
    kind("rem", R3),
    kind("and", R3),
    kind("or", R3),
    kind("xor", R3),
    kind("shl", R3),
    kind("shr", R3),
    kind("sar", R3),
    kind("slt", R3),
    kind("sltu", R3),
    kind("addi", RS),
    kind("andi", RI),
    kind("ori", RI),
    Kind { name: "shli", form: RI, least: 0, most: 31 },
    Kind { name: "shri", form: RI, least: 0, most: 31 },
    kind("ldw", RS),
    kind("stw", RS),
    kind("ldb", RS),
    kind("stb", RS),
    kind("beq", RS),
    kind("bne", RS),
    kind("blt", RS),
    kind("bltu", RS),
    kind("jal", JS),
    kind("jr", R1),
    kind("sys", N),
    Kind { name: "int", form: N, least: 64, most: 255 },
    kind("out", R1),
];

/// The bits that have to be 0 in a word, by its opcode.
pub static UNUSED: [u32; 256] = {
    let (mut unused, mut opcode) = ([u32::MAX; 256], 1);
    while opcode <= KINDS.len() {
        unused[opcode] = KINDS[opcode - 1].form.unused;
        opcode += 1;
    }
    unused
};

/// The opcode of a mnemonic.
#[inline]
pub fn opcode(name: &[u8]) -> Option<u32> {
    Some(match name {
        b"mov" => 0x01,
        b"li" => 0x02,
        b"lih" => 0x03,
        b"add" => 0x04,
        b"sub" => 0x05,
        b"mul" => 0x06,
        b"div" => 0x07,
        b"rem" => 0x08,
        b"and" => 0x09,
        b"or" => 0x0a,
        b"xor" => 0x0b,
        b"shl" => 0x0c,
        b"shr" => 0x0d,
        b"sar" => 0x0e,
        b"slt" => 0x0f,
        b"sltu" => 0x10,
        b"addi" => 0x11,
        b"andi" => 0x12,
        b"ori" => 0x13,
        b"shli" => 0x14,
        b"shri" => 0x15,
        b"ldw" => 0x16,
        b"stw" => 0x17,
        b"ldb" => 0x18,
        b"stb" => 0x19,
        b"beq" => 0x1a,
        b"bne" => 0x1b,
        b"blt" => 0x1c,
        b"bltu" => 0x1d,
        b"jal" => 0x1e,
        b"jr" => 0x1f,
        b"sys" => 0x20,
        b"int" => 0x21,
        b"out" => 0x22,
        _ => return None,
    })
}

/// The instruction that a word is.
#[inline]
pub fn decode(word: u32) -> Option<&'static Kind> {
    let kind = KINDS.get((word >> 24).wrapping_sub(1) as usize)?;
    let immediate = word & 0xffff;
    let is_bounded = kind.most == 0xffff || (kind.least..=kind.most).contains(&immediate);
    (word & kind.form.unused == 0 && is_bounded).then_some(kind)
}

const REGISTERS: [&str; 16] = [
    " r0", " r1", " r2", " r3", " r4", " r5", " r6", " r7", " r8", " r9", " r10", " r11", " r12", " r13", " r14",
    " r15",
];

/// The assembly text of a word: its instruction, else `.word`.
pub fn put_word(output: &mut Output, word: u32) {
    let Some(kind) = decode(word) else {
        output.text(".word ").word(word);
        return;
    };
    output.text(kind.name);
    for operand in kind.form.operands {
        match operand {
            A => output.text(REGISTERS[(word >> 20 & 15) as usize]),
            B => output.text(REGISTERS[(word >> 16 & 15) as usize]),
            C => output.text(REGISTERS[(word >> 12 & 15) as usize]),
            Signed if word & 0x8000 != 0 => output.text(" -").number(0x10000 - (word & 0xffff)),
            Signed | Unsigned => output.text(" ").number(word & 0xffff),
        };
    }
}
