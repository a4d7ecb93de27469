//! A memory of 65,536 bytes in sixteen pages, and one job's view of it through its sector table.
use crate::processor::Stop;

pub const SIZE: usize = 65536;
pub const PAGE: usize = 4096;

/// Bits of a table's entry.
pub const ACCESS: u8 = 4;
pub const WRITING: u8 = 8;

pub type Table = [u8; 15];

pub struct Memory {
    pub bytes: Box<[u8; SIZE]>,
    pub takes_writes: [bool; 16],
}

impl Memory {
    /// Zeros, and every page takes writes.
    pub fn new() -> Memory {
        Memory {
            bytes: vec![0; SIZE].into_boxed_slice().try_into().unwrap(),
            takes_writes: [true; 16],
        }
    }

    pub fn page(&mut self, page: usize) -> &mut [u8] {
        &mut self.bytes[page * PAGE..(page + 1) * PAGE]
    }

    /// FNV-1a of 64 bits over all bytes.
    pub fn hash(&self) -> u64 {
        self.bytes.iter().fold(0xcbf2_9ce4_8422_2325, |hash, &byte| {
            (hash ^ u64::from(byte)).wrapping_mul(0x0000_0100_0000_01b3)
        })
    }

    pub fn view(&mut self, table: &Table) -> View<'_> {
        let mut entries = [0; 16];
        for (entry, &given) in entries.iter_mut().zip(table) {
            *entry = given;
            if !self.takes_writes[usize::from(given >> 4)] {
                *entry &= !WRITING;
            }
        }
        View { bytes: &mut self.bytes, entries }
    }
}

/// The place in memory of an address of which the sector has this entry.
#[inline(always)]
pub fn place(entry: u8, at: u16) -> usize {
    usize::from(entry >> 4) << 12 | usize::from(at & 0xfff)
}

/// What a running job sees. Sector 15 has an entry without access,
/// and an entry has the bit for writing only if its page takes writes.
pub struct View<'a> {
    bytes: &'a mut [u8; SIZE],
    entries: [u8; 16],
}

impl View<'_> {
    #[inline(always)]
    pub fn read(&self, at: u16) -> Result<u8, Stop> {
        let entry = self.entries[usize::from(at >> 12)];
        if entry & ACCESS == 0 {
            return Err(Stop::NoAccess);
        }
        Ok(self.bytes[place(entry, at)])
    }

    #[inline(always)]
    pub fn write(&mut self, at: u16, byte: u8) -> Result<(), Stop> {
        let entry = self.entries[usize::from(at >> 12)];
        if entry & ACCESS == 0 {
            return Err(Stop::NoAccess);
        }
        if entry & WRITING == 0 {
            return Err(Stop::NoWriting);
        }
        self.bytes[place(entry, at)] = byte;
        Ok(())
    }

    /// Two bytes, low byte first.
    #[inline(always)]
    pub fn read_address(&self, at: u16) -> Result<u16, Stop> {
        let low = self.read(at)?;
        let high = self.read(at.wrapping_add(1))?;
        Ok(u16::from_le_bytes([low, high]))
    }
}
