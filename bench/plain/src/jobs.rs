//! Eight jobs and the calls on them.
use crate::memory::{place, Memory, Table, ACCESS, WRITING};
use crate::processor::{Counts, Processor, Run, Stop};

#[derive(Clone, Copy, PartialEq, Eq)]
pub enum Status {
    Closed,
    Ready,
    Waiting,
    Ended,
}

/// Ground and place.
pub struct Refusal(pub u8, pub u32);

#[derive(Clone, Copy)]
pub struct Job {
    pub status: Status,
    pub table: Table,
    pub processor: Processor,
    pub steps: u32,
    pub time: u64,
    pub calls: u32,
}

impl Job {
    fn closed() -> Job {
        Job {
            status: Status::Closed,
            table: [0; 15],
            processor: Processor::default(),
            steps: 0,
            time: 0,
            calls: 0,
        }
    }

    fn entry(&self, at: u16) -> u8 {
        self.table.get(usize::from(at >> 12)).copied().unwrap_or(0)
    }

    fn holds(&self, page: u8) -> bool {
        self.status != Status::Closed && self.table.iter().any(|&entry| gives(entry, page))
    }

    /// Takes the sums and the stop of a run.
    fn account(&mut self, run: &Run) {
        self.steps += u32::from(run.steps);
        self.time += run.time;
        self.status = match run.stop {
            Stop::Limit | Stop::Breakpoint => Status::Ready,
            Stop::SystemCall => Status::Waiting,
            _ => Status::Ended,
        };
        if run.stop == Stop::SystemCall {
            self.calls += 1;
        }
    }
}

/// Whether an entry gives access to a page.
fn gives(entry: u8, page: u8) -> bool {
    entry & ACCESS != 0 && entry >> 4 == page
}

/// Refuses with a ground at the first sector that has the fault.
fn judge(table: &Table, ground: u8, fault: impl Fn(usize, u8) -> bool) -> Result<(), Refusal> {
    match table.iter().enumerate().position(|(sector, &entry)| fault(sector, entry)) {
        Some(sector) => Err(Refusal(ground, sector as u32)),
        None => Ok(()),
    }
}

pub struct Jobs {
    jobs: [Job; 8],
    pub counts: Option<Box<Counts>>,
}

impl Jobs {
    pub fn new() -> Jobs {
        Jobs { jobs: [Job::closed(); 8], counts: None }
    }

    fn existing(&self, job: u8) -> Result<usize, Refusal> {
        if job > 7 {
            return Err(Refusal(4, 0));
        }
        Ok(usize::from(job))
    }

    fn opened(&self, job: u8) -> Result<usize, Refusal> {
        let job = self.existing(job)?;
        if self.jobs[job].status == Status::Closed {
            return Err(Refusal(6, 0));
        }
        Ok(job)
    }

    /// An open job that does not wait.
    fn free(&self, job: u8) -> Result<usize, Refusal> {
        let job = self.opened(job)?;
        if self.jobs[job].status == Status::Waiting {
            return Err(Refusal(11, 0));
        }
        Ok(job)
    }

    pub fn open(&mut self, memory: &mut Memory, job: u8, table: Table, start: u16) -> Result<(), Refusal> {
        let job = self.existing(job)?;
        if self.jobs[job].status != Status::Closed {
            return Err(Refusal(5, 0));
        }
        self.judge_table(memory, &table)?;
        let opened = &mut self.jobs[job];
        *opened = Job { status: Status::Ready, table, ..Job::closed() };
        opened.processor.p = start;
        for entry in table {
            let page = usize::from(entry >> 4);
            if entry & ACCESS != 0 && memory.takes_writes[page] {
                memory.page(page).fill(0);
            }
        }
        Ok(())
    }

    fn judge_table(&self, memory: &Memory, table: &Table) -> Result<(), Refusal> {
        let takes = |entry: u8| memory.takes_writes[usize::from(entry >> 4)];
        let held = |entry: u8| self.jobs.iter().any(|job| job.holds(entry >> 4));
        judge(table, 7, |_, entry| entry & 3 != 0)?;
        judge(table, 8, |sector, entry| {
            entry & ACCESS != 0 && table[..sector].iter().any(|&lower| gives(lower, entry >> 4))
        })?;
        judge(table, 9, |_, entry| {
            entry & (ACCESS | WRITING) == ACCESS | WRITING && !takes(entry)
        })?;
        judge(table, 10, |_, entry| entry & ACCESS != 0 && takes(entry) && held(entry))
    }

    /// Judges so many of a job's addresses: grounds 15 and 16.
    fn judge_range(&self, job: usize, at: u16, length: usize) -> Result<(), Refusal> {
        if usize::from(at) + length > 65536 {
            return Err(Refusal(15, u32::from(at)));
        }
        let addresses = usize::from(at)..usize::from(at) + length;
        for address in addresses {
            if self.jobs[job].entry(address as u16) & ACCESS == 0 {
                return Err(Refusal(16, address as u32));
            }
        }
        Ok(())
    }

    pub fn load(&self, memory: &mut Memory, job: u8, at: u16, bytes: &[u8]) -> Result<(), Refusal> {
        let job = self.opened(job)?;
        self.judge_range(job, at, bytes.len())?;
        let entry = |distance: usize| self.jobs[job].entry(at + distance as u16);
        for distance in 0..bytes.len() {
            if !memory.takes_writes[usize::from(entry(distance) >> 4)] {
                return Err(Refusal(17, u32::from(at) + distance as u32));
            }
        }
        for (distance, &byte) in bytes.iter().enumerate() {
            memory.bytes[place(entry(distance), at + distance as u16)] = byte;
        }
        Ok(())
    }

    pub fn look(&self, memory: &Memory, job: u8, at: u16, length: usize) -> Result<Vec<u8>, Refusal> {
        let job = self.opened(job)?;
        self.judge_range(job, at, length)?;
        let byte = |distance: usize| {
            let address = at + distance as u16;
            memory.bytes[place(self.jobs[job].entry(address), address)]
        };
        Ok((0..length).map(byte).collect())
    }

    pub fn run(&mut self, memory: &mut Memory, job: u8, limit: u16) -> Result<Run, Refusal> {
        let job = self.free(job)?;
        let job = &mut self.jobs[job];
        if job.status == Status::Ended {
            return Err(Refusal(12, 0));
        }
        if job.steps.checked_add(u32::from(limit)).is_none() {
            return Err(Refusal(13, 0));
        }
        let mut view = memory.view(&job.table);
        let run = match &mut self.counts {
            None => job.processor.run(&mut view, limit),
            Some(counts) => job.processor.run_counting(&mut view, limit, counts),
        };
        job.account(&run);
        Ok(run)
    }

    pub fn state(&self, job: u8) -> Result<&Job, Refusal> {
        Ok(&self.jobs[self.opened(job)?])
    }

    /// The job that waits for this receipt.
    fn waiting(&mut self, job: u8, number: u32) -> Option<&mut Job> {
        self.jobs
            .get_mut(usize::from(job))
            .filter(|job| job.status == Status::Waiting && job.calls == number)
    }

    /// Whether the receipt was held; if so the job has the registers and is ready.
    pub fn reply(&mut self, job: u8, number: u32, registers: [u8; 8]) -> bool {
        let Some(job) = self.waiting(job, number) else { return false };
        job.processor.bank.registers = registers;
        job.status = Status::Ready;
        true
    }

    /// Whether the receipt was held; if so the job is closed.
    pub fn abandon(&mut self, job: u8, number: u32) -> bool {
        let Some(job) = self.waiting(job, number) else { return false };
        *job = Job::closed();
        true
    }

    pub fn close(&mut self, job: u8) -> Result<(), Refusal> {
        let job = self.free(job)?;
        self.jobs[job] = Job::closed();
        Ok(())
    }
}
