//! The measurements of bench5500, by the plain interpreter.
use crate::jobs::{Jobs, Refusal};
use crate::memory::{Memory, Table};
use std::time::Instant;

/// A loop of loads, stores, arithmetic, a call with jumps in it, and a block move.
const PROGRAM: [u8; 77] = [
    0o056, 0o004, // LH 004      HL is a counter, at 002000
    0o066, 0o000, // LL 000
    0o307, //        LAM
    0o004, 0o007, // AD 007
    0o370, //        LMA
    0o310, //        LBA
    0o062, 0o004, 0o001, // ADC 001
    0o106, 0o100, 0o000, // CALL 000100
    0o036, 0o006, // LD 006      DE is 003000
    0o046, 0o000, // LE 000
    0o056, 0o005, // LH 005      HL is 002400
    0o066, 0o000, // LL 000
    0o006, 0o001, // LA 001      each byte one more,
    0o016, 0o000, // LB 000      none ends it,
    0o026, 0o020, // LC 020      sixteen bytes
    0o021, //        BT
    0o056, 0o006, // LH 006      and back, one more again
    0o036, 0o005, // LD 005
    0o066, 0o000, // LL 000
    0o046, 0o000, // LE 000
    0o026, 0o020, // LC 020
    0o021, //        BT
    0o104, 0o000, 0o000, // JMP 000000
    0, 0, 0, 0, 0, 0, 0, 0, 0, 0, // up to 000100
    0, 0, 0, 0, 0, 0, 0, 0, 0, 0,
    0o203, //        ADD
    0o251, //        XRB
    0o340, //        LEA
    0o002, //        SLC
    0o150, 0o112, 0o000, // JTZ 000112
    0o324, //        LCE
    0o222, //        SUC
    0o242, //        NDC
    0o300, //        LAA, at 000112
    0o012, //        SRC
    0o007, //        RET
];

/// Sector 0 of job j is page j.
fn table_of(job: u8) -> Table {
    let mut table = [0; 15];
    table[0] = job * 16 + 12;
    table
}

fn start(jobs: &mut Jobs, memory: &mut Memory, count: u8) -> Result<(), Refusal> {
    for job in 0..count {
        jobs.open(memory, job, table_of(job), 0)?;
        jobs.load(memory, job, 0, &PROGRAM)?;
    }
    Ok(())
}

fn rounds(jobs: &mut Jobs, memory: &mut Memory, count: u8, turns: u32) -> Result<u64, Refusal> {
    let mut steps = 0;
    for _ in 0..turns {
        for job in 0..count {
            steps += u64::from(jobs.run(memory, job, 65535)?.steps);
        }
    }
    Ok(steps)
}

fn measure(memory: &mut Memory, name: &str, count: u8, turns: u32) -> Result<(), Refusal> {
    let mut jobs = Jobs::new();
    start(&mut jobs, memory, count)?;
    let begun = Instant::now();
    let steps = rounds(&mut jobs, memory, count, turns)?;
    let nanos = begun.elapsed().as_nanos();
    println!("{name} steps {steps} hash {}", memory.hash());
    eprintln!("{name}: {:.2} ns", nanos as f64 / steps as f64);
    Ok(())
}

pub fn bench() -> Result<(), Refusal> {
    let mut memory = Memory::new();
    measure(&mut memory, "single", 1, 400)?;
    measure(&mut memory, "eight", 8, 50)?;
    memory.page(15).fill(7);
    memory.takes_writes[15] = false;
    measure(&mut memory, "pile", 1, 400)
}
