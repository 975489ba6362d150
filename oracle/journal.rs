//! The journal, by the words of 01 and of READINGS 21: the bytes of its records, and where it stands. The Rust has none.

/// A record: one kind byte, eight registers, and twice an address and a byte.
const LENGTH: usize = 23;

/// An address, and the byte that was there before a store.
pub type Old = (u16, u8);

/// Where the journal stands: the slot that is filled next, and how many records are held.
#[derive(Clone, Copy, Default)]
pub struct Cursor {
    pub next: u16,
    pub held: u16,
}

impl Cursor {
    /// held <= D, and next < D (or next = 0 = D).
    pub fn valid(self, room: u16) -> bool {
        let is_slot = self.next < room || (self.next == 0 && room == 0);
        self.held <= room && is_slot
    }
}

/// D, the lesser of 4,096 and journal length / 23.
pub fn room(journal: &[u8]) -> u16 {
    (journal.len() / LENGTH).min(4_096) as u16
}

/// Fills slot `next`, moves it on modulo D, and raises held to at most D. With D = 0 nothing is recorded.
pub fn record(journal: &mut [u8], at: Cursor, registers: [u16; 8], stored: &[Old]) -> Cursor {
    let room = room(journal);
    if room == 0 {
        return at;
    }
    slot(journal, at.next).copy_from_slice(&bytes_of(registers, stored));
    Cursor { next: (at.next + 1) % room, held: (at.held + 1).min(room) }
}

/// Where a step-back moves to. At least one record is held.
pub fn back(journal: &[u8], at: Cursor) -> Cursor {
    let room = room(journal);
    Cursor { next: (at.next + room - 1) % room, held: at.held - 1 }
}

/// Its numbers low byte first, the low address first, what is not used zero.
fn bytes_of(registers: [u16; 8], stored: &[Old]) -> Vec<u8> {
    let mut bytes = vec![stored.len() as u8];
    bytes.extend(registers.iter().flat_map(|register| register.to_le_bytes()));
    for (address, byte) in stored {
        bytes.extend(address.to_le_bytes());
        bytes.push(*byte);
    }
    bytes.resize(LENGTH, 0);
    bytes
}

/// The registers of the record in a slot, and as many old bytes as its kind says; `None` where the kind is over 2.
pub fn read(journal: &mut [u8], number: u16) -> Option<([u16; 8], Vec<Old>)> {
    let bytes = slot(journal, number);
    let word = |at: usize| u16::from_le_bytes([bytes[at], bytes[at + 1]]);
    let registers = std::array::from_fn(|r| word(1 + 2 * r));
    let old = [(word(17), bytes[19]), (word(20), bytes[22])];
    Some((registers, old.get(..bytes[0] as usize)?.to_vec()))
}

fn slot(journal: &mut [u8], number: u16) -> &mut [u8] {
    &mut journal[LENGTH * number as usize..][..LENGTH]
}
