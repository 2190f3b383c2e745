//! The same loop as `hp_speed` has, by an emulator as one would write it without proofs: registers and a stack in one struct, a
//! word decoded to an enum, one function for a step. It decodes every word of the table, but does a dozen instructions alone.
//! Its stack has the same three numbers: how many words count as standing in registers, fills and spills.

use std::io::Read;

#[derive(Clone, Copy, Debug, PartialEq, Eq)]
enum Trap {
    IntegerOverflow,
    Bounds,
    StackOverflow,
    StackUnderflow,
    Illegal,
    CodeBounds,
}

#[derive(Clone, Copy)]
enum Mode {
    DbPlus(u8),
    QPlus(u8),
    QMinus(u8),
    SMinus(u8),
}

#[derive(Clone, Copy)]
#[allow(dead_code)]
enum Instr {
    Pair { left: u8, right: u8 },
    Shifted { kind: u8, count: u8 },
    Short { test: u8, back: bool, d: u8 },
    Immediate { which: u8, n: u8 },
    Control { which: u8, n: u8 },
    Memory { major: u8, second: bool, x: bool, i: bool, mode: Mode },
    LoadCode { back: bool, d: u8 },
    Branch { i: bool, back: bool, d: u8 },
    OnCode { mask: u8, back: bool, d: u8 },
    Loop { modify: bool, back: bool, d: u8 },
    Illegal,
}

/// Bit k is one where code k is a stack operation.
const OPERATIONS: u64 = 0x71FF_407F_FEFF_E7FF;

fn bit(w: u16, n: u32) -> bool {
    w >> (15 - n) & 1 == 1
}

fn decode(w: u16) -> Instr {
    let (which, n) = ((w >> 8 & 15) as u8, w as u8);
    match w >> 12 {
        0 => {
            let (left, right) = ((w >> 6) as u8, (w & 63) as u8);
            if OPERATIONS >> left & OPERATIONS >> right & 1 == 1 {
                Instr::Pair { left, right }
            } else {
                Instr::Illegal
            }
        }
        1 => match (w >> 6 & 31) as u8 {
            _ if bit(w, 4) => Instr::Illegal,
            kind @ 0..=5 => Instr::Shifted { kind, count: (w & 63) as u8 },
            test @ 8..=18 => Instr::Short { test, back: w & 32 != 0, d: (w & 31) as u8 },
            _ => Instr::Illegal,
        },
        2 => {
            let length = if n % 16 == 0 { 16 } else { n % 16 };
            match which {
                0 if n != 1 && n != 2 => Instr::Illegal,
                11 | 12 if n / 16 + length > 16 => Instr::Illegal,
                _ => Instr::Immediate { which, n },
            }
        }
        3 => match which {
            9 | 10 | 14 if n > 1 => Instr::Illegal,
            11 if !matches!(n, 1..=3 | 6 | 7) => Instr::Illegal,
            12 | 13 if n > 0 => Instr::Illegal,
            15 => Instr::Illegal,
            _ => Instr::Control { which, n },
        },
        major => reference(w, major as u8),
    }
}

fn reference(w: u16, major: u8) -> Instr {
    let (second, back, d) = (bit(w, 6), bit(w, 7), w as u8);
    match (major, second) {
        (4, false) if !bit(w, 4) && !bit(w, 5) => Instr::LoadCode { back, d },
        (5, false) if !bit(w, 4) => Instr::Loop { modify: bit(w, 5), back, d },
        (12, false) if !bit(w, 4) => Instr::Branch { i: bit(w, 5), back, d },
        (12, true) if !bit(w, 4) => Instr::OnCode { mask: (w >> 6 & 7) as u8, back: w & 32 != 0, d: (w & 31) as u8 },
        (4..=9 | 11 | 15, true) | (10 | 13 | 14, _) => {
            let mode = if !bit(w, 7) {
                Mode::DbPlus(d)
            } else if !bit(w, 8) {
                Mode::QPlus(d & 127)
            } else if !bit(w, 9) {
                Mode::QMinus(d & 63)
            } else {
                Mode::SMinus(d & 63)
            };
            Instr::Memory { major, second, x: bit(w, 4), i: bit(w, 5), mode }
        }
        _ => Instr::Illegal,
    }
}

enum Stepped {
    Went,
    Trapped(Trap),
}

struct Machine {
    x: u16,
    q: u16,
    p: u16,
    right: bool,
    overflow: bool,
    carry: bool,
    code: i8,
    stack: Vec<u16>,
    words: u16,
    registers: u8,
    fills: u64,
    spills: u64,
}

impl Machine {
    fn need(&mut self, n: u8) -> Result<(), Trap> {
        if self.words < n as u16 {
            return Err(Trap::StackUnderflow);
        }
        if self.registers < n {
            self.fills = self.fills.wrapping_add((n - self.registers) as u64);
            self.registers = n;
        }
        Ok(())
    }

    fn push(&mut self, w: u16) -> Result<(), Trap> {
        if self.words as usize == self.stack.len() {
            return Err(Trap::StackOverflow);
        }
        if self.registers == 4 {
            self.spills = self.spills.wrapping_add(1);
        } else {
            self.registers += 1;
        }
        self.stack[self.words as usize] = w;
        self.words += 1;
        Ok(())
    }

    fn word(&self, depth: u16) -> u16 {
        self.stack[(self.words - 1 - depth) as usize]
    }

    fn pop(&mut self) -> u16 {
        self.words -= 1;
        self.registers -= 1;
        self.stack[self.words as usize]
    }

    fn read(&self, address: u16) -> Result<u16, Trap> {
        if address < self.words {
            Ok(self.stack[address as usize])
        } else {
            Err(Trap::Bounds)
        }
    }

    fn write(&mut self, address: u16, w: u16) -> Result<(), Trap> {
        if address < self.words {
            self.stack[address as usize] = w;
            Ok(())
        } else {
            Err(Trap::Bounds)
        }
    }

    fn set_code(&mut self, w: u16) {
        self.code = (w as i16).signum() as i8;
    }

    fn operation(&mut self, code: u8) -> Result<(), Trap> {
        match code {
            0o00 => {}
            0o20 => {
                self.need(2)?;
                let (b, a) = (self.word(1), self.word(0));
                let (sum, over) = (b as i16).overflowing_add(a as i16);
                if over {
                    return Err(Trap::IntegerOverflow);
                }
                self.pop();
                self.pop();
                self.push(sum as u16)?;
                self.overflow = false;
                self.carry = b as u32 + a as u32 > 65535;
                self.set_code(sum as u16);
            }
            0o33 => {
                self.need(1)?;
                let a = self.pop();
                self.push(a.wrapping_add(1))?;
                self.carry = a == 65535;
                self.set_code(a.wrapping_add(1));
            }
            0o40 => {
                self.need(1)?;
                self.pop();
            }
            0o45 => {
                self.need(1)?;
                let a = self.word(0);
                self.push(a)?;
            }
            0o61 => {
                self.need(2)?;
                let (a, b) = (self.pop(), self.pop());
                let (sum, carry) = b.overflowing_add(a);
                self.push(sum)?;
                self.carry = carry;
                self.set_code(sum);
            }
            _ => return Err(Trap::Illegal),
        }
        Ok(())
    }

    fn pair(&mut self, left: u8, right: u8) -> Result<(), Trap> {
        if self.right {
            self.operation(right)?;
            self.right = false;
            self.p = self.p.wrapping_add(1);
        } else {
            self.operation(left)?;
            if right == 0 {
                self.p = self.p.wrapping_add(1);
            } else {
                self.right = true;
            }
        }
        Ok(())
    }

    fn address(&self, x: bool, i: bool, mode: Mode) -> Result<u16, Trap> {
        let base = match mode {
            Mode::DbPlus(d) => d as u16,
            Mode::QPlus(d) => self.q.wrapping_add(d as u16),
            Mode::QMinus(d) => self.q.wrapping_sub(d as u16),
            Mode::SMinus(d) => self.words.wrapping_sub(1).wrapping_sub(d as u16),
        };
        let at = if i { self.read(base)? } else { base };
        Ok(if x { at.wrapping_add(self.x) } else { at })
    }

    fn memory(&mut self, major: u8, x: bool, i: bool, mode: Mode) -> Result<(), Trap> {
        match major {
            4 => {
                let at = self.address(x, i, mode)?;
                let w = self.read(at)?;
                self.push(w)
            }
            5 => {
                self.need(1)?;
                let at = self.address(x, i, mode)?;
                let a = self.word(0);
                self.write(at, a)?;
                self.pop();
                Ok(())
            }
            _ => Err(Trap::Illegal),
        }
    }

    fn immediate(&mut self, which: u8, n: u8) -> Result<(), Trap> {
        match which {
            1 => self.push(n as u16),
            2 => {
                self.x = n as u16;
                Ok(())
            }
            _ => Err(Trap::Illegal),
        }
    }

    fn whole_word(&mut self, instruction: Instr) -> Result<(), Trap> {
        match instruction {
            Instr::Immediate { which, n } => self.immediate(which, n)?,
            Instr::Memory { major, x, i, mode, .. } => self.memory(major, x, i, mode)?,
            Instr::Branch { i: false, back, d } => {
                let d = d as u16;
                self.p = if back { self.p.wrapping_sub(d) } else { self.p.wrapping_add(d) };
                return Ok(());
            }
            _ => return Err(Trap::Illegal),
        }
        self.p = self.p.wrapping_add(1);
        Ok(())
    }

    fn act(&mut self, word: u16) -> Result<(), Trap> {
        match decode(word) {
            Instr::Pair { left, right } => self.pair(left, right),
            instruction => {
                let right = self.right;
                self.right = false;
                let answer = self.whole_word(instruction);
                if answer.is_err() {
                    self.right = right;
                }
                answer
            }
        }
    }

    fn step(&mut self, segment: &[u16]) -> Stepped {
        match segment.get(self.p as usize) {
            None => Stepped::Trapped(Trap::CodeBounds),
            Some(&word) => match self.act(word) {
                Ok(()) => Stepped::Went,
                Err(trap) => Stepped::Trapped(trap),
            },
        }
    }
}

fn main() {
    let mut text = String::new();
    std::io::stdin().read_to_string(&mut text).unwrap();
    let steps: u64 = text.trim().parse().unwrap();
    let segment: Vec<u16> = std::hint::black_box(vec![0o041000, 0o020401, 0o6100, 0o051000, 0o140404, 0, 0, 1]);
    let mut machine = Machine {
        x: 0,
        q: 4,
        p: 0,
        right: false,
        overflow: false,
        carry: false,
        code: 0,
        stack: vec![0; 1024],
        words: 5,
        registers: 0,
        fills: 0,
        spills: 0,
    };
    let mut made = 0;
    while made < steps {
        if let Stepped::Trapped(trap) = machine.step(&segment) {
            println!("{trap:?}");
            break;
        }
        made += 1;
    }
    println!(
        "{made} steps, P {}, {} words, the first is {}",
        machine.p, machine.words, machine.stack[0]
    );
}
