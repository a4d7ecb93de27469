//! The processor of one job: a step is one match on the op code.
use crate::memory::View;

pub const A: usize = 0;
pub const B: usize = 1;
pub const C: usize = 2;
pub const D: usize = 3;
pub const E: usize = 4;
pub const H: usize = 5;
pub const L: usize = 6;
pub const X: usize = 7;

/// A pair of registers, high byte first.
type Pair = (usize, usize);
const BC: Pair = (B, C);
const DE: Pair = (D, E);
const HL: Pair = (H, L);
const XA: Pair = (X, A);

/// Flags lie in one byte, each at the bit of its digit.
const CARRY: u8 = 1;
const ZERO: u8 = 2;
const SIGN: u8 = 4;
const PARITY: u8 = 8;

/// Zero, Sign and Parity of each result.
const FLAGS: [u8; 256] = flags_of_results();

const fn flags_of_results() -> [u8; 256] {
    let mut flags = [0; 256];
    let mut result = 0;
    while result < 256 {
        let zero = if result == 0 { ZERO } else { 0 };
        let sign = if result & 0x80 != 0 { SIGN } else { 0 };
        let parity = if (result as u8).count_ones() % 2 == 1 { PARITY } else { 0 };
        flags[result] = zero | sign | parity;
        result += 1;
    }
    flags
}

/// Operations, by their digit.
const AD: u8 = 0;
const AC: u8 = 1;
const SU: u8 = 2;
const SB: u8 = 3;
const ND: u8 = 4;
const XR: u8 = 5;
const OR: u8 = 6;
const CP: u8 = 7;

const IMMEDIATE_TIME: [u32; 8] = [2200, 2200, 2000, 2200, 2200, 2000, 2000, 1800];
const REGISTER_TIME: [u32; 8] = [1400, 1400, 1400, 1400, 1400, 1400, 1400, 1200];
const MEMORY_TIME: [u32; 8] = [2600, 2600, 2600, 2600, 2600, 2600, 2600, 2400];
const SELECTING_TIME: u32 = 1000;
const SHIFT_TIME: u32 = 1400;

#[derive(Clone, Copy, PartialEq, Eq)]
pub enum Stop {
    Limit = 1,
    Halt = 2,
    SystemCall = 3,
    Breakpoint = 4,
    Privileged = 5,
    NoAccess = 6,
    NoWriting = 7,
    NotCarried = 8,
}

impl Stop {
    /// The steps and the time that the stopping step itself counts.
    fn counts(self) -> (u16, u64) {
        match self {
            Stop::Halt => (1, 0),
            Stop::SystemCall => (1, 1800),
            Stop::Breakpoint => (1, 2200),
            _ => (0, 0),
        }
    }
}

pub struct Run {
    pub steps: u16,
    pub time: u64,
    pub stop: Stop,
}

/// How often each op code was met: by selecting byte (0 for none, else the register's digit) and code.
pub struct Counts(pub [[u64; 256]; 8]);

impl Counts {
    pub fn new() -> Counts {
        Counts([[0; 256]; 8])
    }
}

#[derive(Clone, Copy, Default)]
pub struct Bank {
    pub registers: [u8; 8],
    pub flags: u8,
}

#[derive(Clone, Copy, Default)]
pub struct Processor {
    /// The bank in use, and the other one.
    pub bank: Bank,
    pub other: Bank,
    pub beta: bool,
    pub p: u16,
    pub interrupts: bool,
    pub stack: [u16; 16],
    pub top: u8,
}

impl Processor {
    /// Runs at most so many steps.
    pub fn run(&mut self, view: &mut View, limit: u16) -> Run {
        self.run_with(limit, |processor| processor.step(view))
    }

    /// The same, counting op codes.
    pub fn run_counting(&mut self, view: &mut View, limit: u16, counts: &mut Counts) -> Run {
        self.run_with(limit, |processor| {
            count(counts, view, processor.p);
            processor.step(view)
        })
    }

    #[inline(always)]
    fn run_with(
        &mut self,
        limit: u16,
        mut step: impl FnMut(&mut Processor) -> Result<u32, Stop>,
    ) -> Run {
        let mut time = 0;
        for steps in 0..limit {
            match step(self) {
                Ok(nanos) => time += u64::from(nanos),
                Err(stop) => {
                    let (step, nanos) = stop.counts();
                    return Run { steps: steps + step, time: time + nanos, stop };
                }
            }
        }
        Run { steps: limit, time, stop: Stop::Limit }
    }

    /// One instruction: its time, or the stop. P moves only if the step counts.
    #[inline(always)]
    fn step(&mut self, view: &mut View) -> Result<u32, Stop> {
        let op = view.read(self.p)?;
        match op {
            // Loads.
            0o300..=0o376 => {
                let (d, s) = digits(op);
                if s == 7 {
                    self.bank.registers[d] = view.read(self.pair(HL))?;
                    Ok(self.past(1, 2600))
                } else if d == 7 {
                    view.write(self.pair(HL), self.bank.registers[s])?;
                    Ok(self.past(1, 2600))
                } else {
                    self.bank.registers[d] = self.bank.registers[s];
                    Ok(self.past(1, 1200))
                }
            }
            0o006 | 0o016 | 0o026 | 0o036 | 0o046 | 0o056 | 0o066 | 0o076 => {
                self.bank.registers[digits(op).0] = self.operand(view, 1)?;
                Ok(self.past(2, 1800))
            }

            // Operations.
            0o200..=0o207 => self.sourced::<AD>(view, op),
            0o210..=0o217 => self.sourced::<AC>(view, op),
            0o220..=0o227 => self.sourced::<SU>(view, op),
            0o230..=0o237 => self.sourced::<SB>(view, op),
            0o240..=0o247 => self.sourced::<ND>(view, op),
            0o250..=0o257 => self.sourced::<XR>(view, op),
            0o260..=0o267 => self.sourced::<OR>(view, op),
            0o270..=0o277 => self.sourced::<CP>(view, op),
            0o004 => self.immediate::<AD>(view),
            0o014 => self.immediate::<AC>(view),
            0o024 => self.immediate::<SU>(view),
            0o034 => self.immediate::<SB>(view),
            0o044 => self.immediate::<ND>(view),
            0o054 => self.immediate::<XR>(view),
            0o064 => self.immediate::<OR>(view),
            0o074 => self.immediate::<CP>(view),

            // Shifts.
            0o002 | 0o012 | 0o032 => {
                self.shift(A, op);
                Ok(self.past(1, SHIFT_TIME))
            }

            // Jumps, calls and returns.
            0o100 | 0o110 | 0o120 | 0o130 | 0o140 | 0o150 | 0o160 | 0o170 => {
                let to = view.read_address(self.p.wrapping_add(1))?;
                if !self.condition(op) {
                    return Ok(self.past(3, 1400));
                }
                self.p = to;
                Ok(2800)
            }
            0o102 | 0o112 | 0o122 | 0o132 | 0o142 | 0o152 | 0o162 | 0o172 => {
                let to = view.read_address(self.p.wrapping_add(1))?;
                if !self.condition(op) {
                    return Ok(self.past(3, 1600));
                }
                self.push(self.p.wrapping_add(3));
                self.p = to;
                Ok(3200)
            }
            0o003 | 0o013 | 0o023 | 0o033 | 0o043 | 0o053 | 0o063 | 0o073 => {
                if !self.condition(op) {
                    return Ok(self.past(1, 1000));
                }
                self.p = self.pop();
                Ok(2000)
            }
            0o104 => {
                self.p = view.read_address(self.p.wrapping_add(1))?;
                Ok(2800)
            }
            0o106 => {
                let to = view.read_address(self.p.wrapping_add(1))?;
                self.push(self.p.wrapping_add(3));
                self.p = to;
                Ok(2800)
            }
            0o007 => {
                self.p = self.pop();
                Ok(1800)
            }

            // Push and pop.
            0o070 => {
                self.push(self.pair(HL));
                Ok(self.past(1, 1800))
            }
            0o060 => {
                let popped = self.pop();
                self.set_pair(HL, popped);
                Ok(self.past(1, 2200))
            }
            0o051 => {
                let pushed = view.read_address(self.p.wrapping_add(1))?;
                self.push(pushed);
                Ok(self.past(3, 2600))
            }

            // Block and field instructions.
            0o021 => self.block_transfer(view, 1, 1, 4800, 3200),
            0o011 => self.field::<AC>(view),
            0o031 => self.field::<SB>(view),

            // Control.
            0o020 => Ok(self.set_mode(true)),
            0o030 => Ok(self.set_mode(false)),
            0o040 | 0o050 => {
                self.interrupts = op == 0o050;
                Ok(self.past(1, 1400))
            }
            0o000 | 0o001 | 0o377 => self.trap(Stop::Halt),
            0o067 => self.trap(Stop::SystemCall),
            0o052 => self.trap(Stop::Breakpoint),

            // Selecting bytes.
            0o111 => self.selected(view, B, None),
            0o062 => self.selected(view, C, Some(BC)),
            0o113 => self.selected(view, D, None),
            0o174 => self.selected(view, E, Some(DE)),
            0o115 => self.selected(view, H, None),
            0o176 => self.selected(view, L, None),
            0o022 => self.selected(view, X, Some(XA)),

            0o077 => Err(Stop::Privileged),
            _ if privileged(op) => Err(Stop::Privileged),
            _ => Err(Stop::NotCarried),
        }
    }

    /// An instruction after a selecting byte: with r in the place of A, and the pair in that of HL.
    #[inline(never)]
    fn selected(&mut self, view: &mut View, r: usize, pair: Option<Pair>) -> Result<u32, Stop> {
        let op = view.read(self.p.wrapping_add(1))?;
        let (high, low) = digits(op);
        match (op, pair) {
            (0o004 | 0o014 | 0o024 | 0o034 | 0o044 | 0o054 | 0o064 | 0o074, _) => {
                let operand = self.operand(view, 2)?;
                self.operate_on(r, high as u8, operand);
                Ok(self.past(3, IMMEDIATE_TIME[high] + SELECTING_TIME))
            }
            (0o200..=0o277, _) if low == 7 => {
                let operand = view.read(self.pair(HL))?;
                self.operate_on(r, high as u8, operand);
                Ok(self.past(2, MEMORY_TIME[high] + SELECTING_TIME))
            }
            (0o200..=0o277, _) => {
                self.operate_on(r, high as u8, self.bank.registers[low]);
                Ok(self.past(2, REGISTER_TIME[high] + SELECTING_TIME))
            }
            (0o002 | 0o012 | 0o032, _) => {
                self.shift(r, op);
                Ok(self.past(2, SHIFT_TIME + SELECTING_TIME))
            }
            (0o307 | 0o317 | 0o327 | 0o337 | 0o347 | 0o357 | 0o367, Some(pair)) => {
                self.bank.registers[high] = view.read(self.pair(pair))?;
                Ok(self.past(2, 3400))
            }
            (0o370..=0o376, Some(pair)) => {
                view.write(self.pair(pair), self.bank.registers[low])?;
                Ok(self.past(2, 3400))
            }
            (0o060, Some(pair)) => {
                let popped = self.pop();
                self.set_pair(pair, popped);
                Ok(self.past(2, 3000))
            }
            (0o070, Some(pair)) => {
                self.push(self.pair(pair));
                Ok(self.past(2, 2600))
            }
            (0o021, _) if r == B => self.block_transfer(view, u16::MAX, 2, 5800, 3600),
            (0o021, _) if r == C => self.block_convert(view),
            _ if privileged(op) => Err(Stop::Privileged),
            _ => Err(Stop::NotCarried),
        }
    }

    #[inline(always)]
    fn pair(&self, (high, low): Pair) -> u16 {
        u16::from_be_bytes([self.bank.registers[high], self.bank.registers[low]])
    }

    #[inline(always)]
    fn set_pair(&mut self, (high, low): Pair, value: u16) {
        let [upper, lower] = value.to_be_bytes();
        self.bank.registers[high] = upper;
        self.bank.registers[low] = lower;
    }

    /// Moves P past the instruction, and answers its time.
    #[inline(always)]
    fn past(&mut self, length: u16, time: u32) -> u32 {
        self.p = self.p.wrapping_add(length);
        time
    }

    /// The byte so far after the first one.
    #[inline(always)]
    fn operand(&self, view: &View, distance: u16) -> Result<u8, Stop> {
        view.read(self.p.wrapping_add(distance))
    }

    #[inline(always)]
    fn push(&mut self, value: u16) {
        self.stack[usize::from(self.top & 15)] = value;
        self.top = (self.top + 1) & 15;
    }

    #[inline(always)]
    fn pop(&mut self) -> u16 {
        self.top = self.top.wrapping_sub(1) & 15;
        self.stack[usize::from(self.top)]
    }

    /// Whether the flag of a conditional op code is as the code wants it.
    #[inline(always)]
    fn condition(&self, op: u8) -> bool {
        let set = self.bank.flags >> (op >> 3 & 3) & 1 != 0;
        set == (op & 0o040 != 0)
    }

    /// Operates on A with a register or the byte at HL.
    #[inline(always)]
    fn sourced<const P: u8>(&mut self, view: &View, op: u8) -> Result<u32, Stop> {
        let source = digits(op).1;
        if source == 7 {
            let operand = view.read(self.pair(HL))?;
            self.operate::<P>(A, operand);
            return Ok(self.past(1, MEMORY_TIME[P as usize]));
        }
        self.operate::<P>(A, self.bank.registers[source]);
        Ok(self.past(1, REGISTER_TIME[P as usize]))
    }

    /// Operates on A with the byte after the op code.
    #[inline(always)]
    fn immediate<const P: u8>(&mut self, view: &View) -> Result<u32, Stop> {
        let operand = self.operand(view, 1)?;
        self.operate::<P>(A, operand);
        Ok(self.past(2, IMMEDIATE_TIME[P as usize]))
    }

    #[inline(always)]
    fn operate<const P: u8>(&mut self, r: usize, operand: u8) {
        let (result, flags) = compute::<P>(self.bank.registers[r], operand, self.bank.flags);
        self.bank.flags = flags;
        if P != CP {
            self.bank.registers[r] = result;
        }
    }

    fn operate_on(&mut self, r: usize, operation: u8, operand: u8) {
        match operation {
            AD => self.operate::<AD>(r, operand),
            AC => self.operate::<AC>(r, operand),
            SU => self.operate::<SU>(r, operand),
            SB => self.operate::<SB>(r, operand),
            ND => self.operate::<ND>(r, operand),
            XR => self.operate::<XR>(r, operand),
            OR => self.operate::<OR>(r, operand),
            _ => self.operate::<CP>(r, operand),
        }
    }

    #[inline(always)]
    fn shift(&mut self, r: usize, op: u8) {
        let old = self.bank.registers[r];
        let carry = self.bank.flags & CARRY;
        let (new, out) = match op {
            0o002 => (old.rotate_left(1), old >> 7),
            0o012 => (old.rotate_right(1), old & 1),
            _ => (old >> 1 | carry << 7, old & 1),
        };
        self.bank.registers[r] = new;
        self.bank.flags = self.bank.flags & !CARRY | out;
    }

    fn set_mode(&mut self, beta: bool) -> u32 {
        if self.beta != beta {
            std::mem::swap(&mut self.bank, &mut self.other);
            self.beta = beta;
        }
        self.past(1, 1400)
    }

    fn trap(&mut self, stop: Stop) -> Result<u32, Stop> {
        self.past(1, 0);
        Err(stop)
    }

    /// BT and BTR: `by` is what the pointers move by.
    #[inline(never)]
    fn block_transfer(
        &mut self,
        view: &mut View,
        by: u16,
        length: u16,
        base: u32,
        each: u32,
    ) -> Result<u32, Stop> {
        let [a, b, mut c, ..] = self.bank.registers;
        let (mut hl, mut de) = (self.pair(HL), self.pair(DE));
        let mut done = 0;
        let ended = loop {
            let stored = match view.read(hl) {
                Ok(byte) => byte.wrapping_add(a),
                Err(stop) => break Err(stop),
            };
            if let Err(stop) = view.write(de, stored) {
                break Err(stop);
            }
            hl = hl.wrapping_add(by);
            de = de.wrapping_add(by);
            done += 1;
            if let Some(end) = last_element(stored, b, &mut c) {
                break Ok(end);
            }
        };
        self.set_pair(HL, hl);
        self.set_pair(DE, de);
        self.bank.registers[C] = c;
        let extra = if b != 0 { 200 } else { 0 };
        self.end_block(ended?, length, base + done * (each + extra))
    }

    #[inline(never)]
    fn block_convert(&mut self, view: &mut View) -> Result<u32, Stop> {
        let [mut a, b, mut c, _, _, h, l, _] = self.bank.registers;
        let mut de = self.pair(DE);
        let mut done = 0;
        let ended = loop {
            let (at, stored) = match converted(view, de, h, l) {
                Ok(found) => found,
                Err(stop) => break Err(stop),
            };
            a = at;
            de = de.wrapping_add(1);
            done += 1;
            if let Some(end) = last_element(stored, b, &mut c) {
                break Ok(end);
            }
        };
        self.set_pair(DE, de);
        self.bank.registers[A] = a;
        self.bank.registers[C] = c;
        let extra = if b == 0 { 200 } else { 0 };
        self.end_block(ended?, 2, 5800 + done * (4800 + extra))
    }

    fn end_block(&mut self, end: BlockEnd, length: u16, time: u32) -> Result<u32, Stop> {
        self.bank.flags = end.flags;
        let less = if end.matched { 800 } else { 0 };
        Ok(self.past(length, time - less))
    }

    /// BFAC and BFSB.
    #[inline(never)]
    fn field<const P: u8>(&mut self, view: &mut View) -> Result<u32, Stop> {
        let width = match self.bank.registers[C] & 15 {
            0 => 16,
            width => u32::from(width),
        };
        let mut flags = self.bank.flags;
        for _ in 0..width {
            let (hl, de) = (self.pair(HL), self.pair(DE));
            let operand = view.read(hl)?;
            let (result, after) = compute::<P>(view.read(de)?, operand, flags);
            view.write(de, result)?;
            flags = after;
            self.set_pair(HL, hl.wrapping_sub(1));
            self.set_pair(DE, de.wrapping_sub(1));
        }
        self.bank.flags = flags;
        Ok(self.past(1, 5000 + 2800 * width))
    }
}

/// How a block instruction ended.
struct BlockEnd {
    flags: u8,
    matched: bool,
}

/// Adds B to a stored byte; if it was not the last, counts C down.
#[inline(always)]
fn last_element(stored: u8, b: u8, c: &mut u8) -> Option<BlockEnd> {
    let sum = u16::from(stored) + u16::from(b);
    let matched = sum == 256;
    if !matched {
        *c = c.wrapping_sub(1);
        if *c != 0 {
            return None;
        }
    }
    let flags = FLAGS[usize::from(sum as u8)] | (sum >> 8) as u8;
    Some(BlockEnd { flags, matched })
}

/// An element of BCV: the place in the table and the byte stored.
#[inline(always)]
fn converted(view: &mut View, de: u16, h: u8, l: u8) -> Result<(u8, u8), Stop> {
    let at = view.read(de)?.wrapping_add(l);
    let stored = view.read(u16::from_be_bytes([h, at]))?;
    view.write(de, stored)?;
    Ok((at, stored))
}

/// The result of an operation and all four flags.
#[inline(always)]
fn compute<const P: u8>(left: u8, operand: u8, flags: u8) -> (u8, u8) {
    let (x, y, carry) = (u16::from(left), u16::from(operand), u16::from(flags & CARRY));
    let wide = match P {
        AD => x + y,
        AC => x + y + carry,
        SU | CP => x.wrapping_sub(y),
        SB => x.wrapping_sub(y).wrapping_sub(carry),
        ND => x & y,
        XR => x ^ y,
        _ => x | y,
    };
    let result = wide as u8;
    (result, FLAGS[usize::from(result)] | (wide >> 8) as u8 & CARRY)
}

/// The middle and the last octal digit.
#[inline(always)]
fn digits(op: u8) -> (usize, usize) {
    (usize::from(op >> 3 & 7), usize::from(op & 7))
}

/// The codes that are privileged plain and after a selecting byte.
fn privileged(op: u8) -> bool {
    let external = (0o121..=0o153).contains(&op) && op % 2 == 1;
    external || matches!(op, 0o101 | 0o103 | 0o072)
}

/// The register of a selecting byte.
fn selects(byte: u8) -> Option<usize> {
    match byte {
        0o111 => Some(B),
        0o062 => Some(C),
        0o113 => Some(D),
        0o174 => Some(E),
        0o115 => Some(H),
        0o176 => Some(L),
        0o022 => Some(X),
        _ => None,
    }
}

/// Counts the op code at P, if it can be fetched.
fn count(counts: &mut Counts, view: &View, p: u16) {
    let Ok(first) = view.read(p) else { return };
    match selects(first) {
        None => counts.0[0][usize::from(first)] += 1,
        Some(register) => {
            if let Ok(op) = view.read(p.wrapping_add(1)) {
                counts.0[register][usize::from(op)] += 1;
            }
        }
    }
}
