//! What the driver says itself, by document 01's words, since the Rust has no word on it.
use crate::host::{Entry, Table};
use crate::pieces;
use rust16vm::memory::Addressable;

/// A device covers start <= a < end.
pub fn device_covers(devices: &[Entry], a: u16) -> bool {
    devices.iter().any(|(start, end)| *start <= a && a < *end)
}

/// The bytes of the device buffer that devices have together.
pub fn total(devices: &[Entry]) -> usize {
    devices.iter().map(|device| size(*device)).sum()
}

/// None where a device starts past its end.
fn size((start, end): Entry) -> usize {
    end.saturating_sub(start) as usize
}

/// Tables are valid if they hold at most 8, unused entries are zero, ends are in range, no device starts past its
/// end, no pair overlaps and device sizes fit the device buffer.
///
/// "No pair overlaps" is the Rust's word: it is handed the used entries in their order and must take each. All else
/// is the driver's own, since the Rust's tables have no counts, no unused entries and no buffer, and it takes a
/// first region unchecked. (What 01 asks of `next` and `held` is in `journal`.)
pub fn valid(regions: &Table, devices: &Table, room: usize) -> bool {
    sized(regions)
        && sized(devices)
        && regions.used().iter().all(|region| in_range(*region))
        && devices.used().iter().all(|(start, end)| start <= end)
        && total(devices.used()) <= room
        && rust_takes_regions(regions.used())
        && rust_takes_devices(devices.used())
}

fn sized(table: &Table) -> bool {
    table.count <= 8 && table.spare().iter().all(|entry| *entry == (0, 0))
}

/// start+len <= 65,535. (A device's end has sixteen bits, so it is in range.)
pub fn in_range((start, len): Entry) -> bool {
    start as u32 + len as u32 <= 65_535
}

fn rust_takes_regions(regions: &[Entry]) -> bool {
    (0..regions.len()).all(|i| pieces::takes_region(&regions[..i], regions[i]))
}

fn rust_takes_devices(devices: &[Entry]) -> bool {
    (0..devices.len()).all(|i| {
        let (start, end) = devices[i];
        pieces::takes_device(&devices[..i], start, end - start).is_ok()
    })
}

/// The memory part on tables that are not valid, which the Rust cannot be given. Bytes and words do not test the
/// state (READINGS 6), so 01's rules are read on the entries as they are: at most eight of them, the first device
/// that covers an address has it, and a device's byte past the end of the buffer is nobody's. Words are the Rust's
/// own two functions over these bytes.
pub struct Damaged<'a> {
    pub memory: &'a mut [u8],
    pub buffer: &'a mut [u8],
    pub regions: &'a [Entry],
    pub devices: &'a [Entry],
}

impl Damaged<'_> {
    /// The place in the device buffer of an address that a device covers, or would be if the buffer had it.
    fn in_bank(&self, a: u16) -> Option<usize> {
        let mut base = 0;
        for (start, end) in self.devices {
            if *start <= a && a < *end {
                return Some(base + (a - start) as usize);
            }
            base += size((*start, *end));
        }
        None
    }

    fn protected(&self, a: u16) -> bool {
        self.regions.iter().any(|(start, len)| *start <= a && (a - start) < *len)
    }

    /// The byte that a store to the address would change.
    fn target(&mut self, a: u16) -> Option<&mut u8> {
        match self.in_bank(a) {
            Some(index) => self.buffer.get_mut(index),
            None if self.protected(a) => None,
            None => self.memory.get_mut(a as usize),
        }
    }
}

impl Addressable for Damaged<'_> {
    fn read(&self, a: u16) -> Option<u8> {
        match self.in_bank(a) {
            Some(index) => self.buffer.get(index).copied(),
            None => self.memory.get(a as usize).copied(),
        }
    }

    fn write(&mut self, a: u16, value: u8) -> bool {
        match self.target(a) {
            Some(byte) => {
                *byte = value;
                true
            }
            None => false,
        }
    }
}
