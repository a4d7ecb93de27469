//! Scripts of calls: one line of answer for each line.
use crate::jobs::{Job, Jobs, Refusal, Status};
use crate::memory::{Memory, Table};
use crate::processor::{Bank, Counts, Stop};
use std::io::{self, BufRead, BufWriter, Write};

/// The line is no call, or the call was refused.
enum No {
    Error(&'static str),
    Refused(Refusal),
}

impl From<Refusal> for No {
    fn from(refusal: Refusal) -> No {
        No::Refused(refusal)
    }
}

const OUT_OF_RANGE: No = No::Error("number out of its range");
const MOST: usize = 1_048_576;

type Answer = Result<String, No>;

struct Words<'a>(std::str::SplitWhitespace<'a>);

impl Words<'_> {
    fn number(&mut self, most: u64) -> Result<u64, No> {
        let word = self.0.next().ok_or(No::Error("missing number"))?;
        number_of(word, most)
    }

    fn byte(&mut self) -> Result<u8, No> {
        Ok(self.number(255)? as u8)
    }

    fn word(&mut self) -> Result<u16, No> {
        Ok(self.number(65535)? as u16)
    }

    fn bytes_of<const N: usize>(&mut self) -> Result<[u8; N], No> {
        let mut bytes = [0; N];
        for byte in &mut bytes {
            *byte = self.byte()?;
        }
        Ok(bytes)
    }

    /// BYTES to the end of the line.
    fn list(&mut self) -> Result<Vec<u8>, No> {
        let mut bytes = Vec::new();
        for word in self.0.by_ref() {
            let (times, value) = word.split_once('*').unwrap_or(("1", word));
            let times = number_of(times, MOST as u64)? as usize;
            let value = number_of(value, 255)? as u8;
            if times > MOST - bytes.len() {
                return Err(No::Error("too many bytes"));
            }
            bytes.resize(bytes.len() + times, value);
        }
        Ok(bytes)
    }

    fn end(&mut self) -> Result<(), No> {
        match self.0.next() {
            None => Ok(()),
            Some(_) => Err(No::Error("extra number")),
        }
    }
}

fn number_of(word: &str, most: u64) -> Result<u64, No> {
    if word.is_empty() || !word.bytes().all(|digit| digit.is_ascii_digit()) {
        return Err(OUT_OF_RANGE);
    }
    match word.parse() {
        Ok(number) if number <= most => Ok(number),
        _ => Err(OUT_OF_RANGE),
    }
}

struct Console {
    memory: Memory,
    jobs: Jobs,
}

impl Console {
    fn answer(&mut self, call: &str, words: &mut Words) -> Answer {
        match call {
            "open" => self.open(words),
            "load" => self.load(words),
            "run" => self.run(words),
            "reply" => self.reply(words),
            "abandon" => self.abandon(words),
            "look" => self.look(words),
            "state" => self.state(words),
            "close" => self.close(words),
            "read" => self.read(words),
            "hash" => self.hash(words),
            _ => Err(No::Error("unknown word")),
        }
    }

    fn open(&mut self, words: &mut Words) -> Answer {
        let (job, start) = (words.byte()?, words.word()?);
        let table: Table = words.bytes_of()?;
        words.end()?;
        self.jobs.open(&mut self.memory, job, table, start)?;
        Ok(String::new())
    }

    fn load(&mut self, words: &mut Words) -> Answer {
        let (job, at, bytes) = (words.byte()?, words.word()?, words.list()?);
        self.jobs.load(&mut self.memory, job, at, &bytes)?;
        Ok(String::new())
    }

    fn run(&mut self, words: &mut Words) -> Answer {
        let (job, limit) = (words.byte()?, words.word()?);
        words.end()?;
        let run = self.jobs.run(&mut self.memory, job, limit)?;
        let mut answer = format!(" stop {} steps {} time {}", run.stop as u8, run.steps, run.time);
        if run.stop == Stop::SystemCall {
            answer += &format!(" receipt {job} {}", self.jobs.state(job)?.calls);
        }
        Ok(answer)
    }

    fn reply(&mut self, words: &mut Words) -> Answer {
        let (job, number) = (words.byte()?, words.number(u64::from(u32::MAX))?);
        let registers = words.bytes_of()?;
        words.end()?;
        held(self.jobs.reply(job, number as u32, registers))
    }

    fn abandon(&mut self, words: &mut Words) -> Answer {
        let (job, number) = (words.byte()?, words.number(u64::from(u32::MAX))?);
        words.end()?;
        held(self.jobs.abandon(job, number as u32))
    }

    fn look(&mut self, words: &mut Words) -> Answer {
        let (job, at, length) = (words.byte()?, words.word()?, words.number(MOST as u64)?);
        words.end()?;
        let bytes = self.jobs.look(&self.memory, job, at, length as usize)?;
        Ok(bytes.iter().map(|byte| format!(" {byte}")).collect())
    }

    fn state(&mut self, words: &mut Words) -> Answer {
        let job = words.byte()?;
        words.end()?;
        Ok(state_line(self.jobs.state(job)?))
    }

    fn close(&mut self, words: &mut Words) -> Answer {
        let job = words.byte()?;
        words.end()?;
        self.jobs.close(job)?;
        Ok(String::new())
    }

    fn read(&mut self, words: &mut Words) -> Answer {
        let at = words.word()?;
        words.end()?;
        Ok(format!(" {}", self.memory.bytes[usize::from(at)]))
    }

    fn hash(&mut self, words: &mut Words) -> Answer {
        words.end()?;
        Ok(format!(" {}", self.memory.hash()))
    }
}

fn held(accepted: bool) -> Answer {
    if accepted {
        Ok(String::new())
    } else {
        Err(No::Error("no such receipt"))
    }
}

fn state_line(job: &Job) -> String {
    let processor = &job.processor;
    let status = match job.status {
        Status::Closed => "closed",
        Status::Ready => "ready",
        Status::Waiting => "waiting",
        Status::Ended => "ended",
    };
    let (mode, alpha, beta) = if processor.beta {
        ("beta", &processor.other, &processor.bank)
    } else {
        ("alpha", &processor.bank, &processor.other)
    };
    let stack: String = processor.stack.iter().map(|entry| format!(" {entry}")).collect();
    format!(
        " {status} {mode} p {} int {} alpha{} beta{} top {} stack{stack} steps {} time {} calls {}",
        processor.p,
        processor.interrupts as u8,
        bank_line(alpha),
        bank_line(beta),
        processor.top,
        job.steps,
        job.time,
        job.calls
    )
}

fn bank_line(bank: &Bank) -> String {
    let flags = (0..4).map(|digit| bank.flags >> digit & 1);
    bank.registers.iter().copied().chain(flags).map(|number| format!(" {number}")).collect()
}

fn print_counts(counts: &Counts) {
    for (register, codes) in counts.0.iter().enumerate() {
        for (op, count) in codes.iter().enumerate().filter(|(_, &count)| count > 0) {
            eprintln!("count {register} {op} {count}");
        }
    }
}

/// Answers standard input. With `counting`, tells on standard error how often each op code was met:
/// `count REGISTER CODE TIMES`, where the register is that of the selecting byte, 0 if there was none.
pub fn console(counting: bool) -> io::Result<()> {
    let mut console = Console { memory: Memory::new(), jobs: Jobs::new() };
    if counting {
        console.jobs.counts = Some(Box::new(Counts::new()));
    }
    let mut out = BufWriter::new(io::stdout().lock());
    for line in io::stdin().lock().lines() {
        let line = line?;
        let call = line.split('#').next().unwrap_or("");
        let mut words = Words(call.split_whitespace());
        let Some(first) = words.0.next() else { continue };
        match console.answer(first, &mut words) {
            Ok(answer) => writeln!(out, "ok{answer}")?,
            Err(No::Error(text)) => writeln!(out, "error {text}")?,
            Err(No::Refused(Refusal(ground, at))) => writeln!(out, "refused {ground} at {at}")?,
        }
        out.flush()?;
    }
    if let Some(counts) = &console.jobs.counts {
        print_counts(counts);
    }
    Ok(())
}
