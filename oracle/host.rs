//! What the host keeps: the lent bytes, both tables, and the Rust's memory that is built over them when it is asked.
use crate::answers::Answer;
use crate::journal::{self, Cursor, Old};
use crate::own::{self, Damaged};
use crate::panics::caught;
use crate::past::{Past, Whole};
use crate::pieces::{self, Shared};
use rust16vm::memory::Addressable;
use std::cell::RefCell;
use std::rc::Rc;

/// The device buffer: the banks inside the Rust hold it too.
pub type Buffer = Rc<RefCell<Vec<u8>>>;

/// A region is (start, len), a device is (start, end), as 01 has them.
pub type Entry = (u16, u16);

/// A table as it stands in the state: the count may be anything.
#[derive(Default)]
pub struct Table {
    pub count: u16,
    pub entries: [Entry; 8],
}

impl Table {
    pub fn used(&self) -> &[Entry] {
        &self.entries[..self.in_use()]
    }

    pub fn spare(&self) -> &[Entry] {
        &self.entries[self.in_use()..]
    }

    pub fn full(&self) -> bool {
        8 <= self.count
    }

    fn in_use(&self) -> usize {
        (self.count as usize).min(8)
    }

    fn add(&mut self, entry: Entry) {
        self.entries[self.count as usize] = entry;
        self.count += 1;
    }
}

pub struct Host {
    /// The linear bytes as last known: see `carry_back`.
    memory: Vec<u8>,
    pub buffer: Buffer,
    pub journal: Vec<u8>,
    pub debug: u64,
    pub registers: [u16; 8],
    pub cursor: Cursor,
    pub past: Past,
    pub regions: Table,
    pub devices: Table,
    has_valid_tables: bool,
    /// The Rust's memory; `None` where bytes or tables have changed since it was built.
    built: Option<Shared>,
}

impl Host {
    /// A zero state, and buffers filled by the language's rule.
    pub fn new(memory: u64, device: u64, journal: u64, debug: u64, seed: u64) -> Host {
        Host {
            memory: filled(memory, seed),
            buffer: Rc::new(RefCell::new(filled(device, seed))),
            journal: filled(journal, seed),
            debug,
            registers: [0; 8],
            cursor: Cursor::default(),
            past: Past::none(),
            regions: Table::default(),
            devices: Table::default(),
            has_valid_tables: true,
            built: None,
        }
    }

    /// Whether the state is valid (01). Where it is not, the Rust has nothing to say.
    pub fn valid(&self) -> bool {
        self.has_valid_tables && self.cursor.valid(journal::room(&self.journal))
    }

    /// An answer of the memory part, which is below the journal: the Rust's word only where the tables are valid.
    pub fn answer(&self, text: impl Into<String>) -> Answer {
        if self.has_valid_tables { Answer::rust(text) } else { Answer::own(text) }
    }

    /// Asks the Rust's memory, or on tables that it cannot be given the driver's own reading of them. The error is
    /// the answer that a panic stands for.
    pub fn asked<T>(&mut self, question: impl FnOnce(&mut dyn Addressable) -> T) -> Result<T, String> {
        if self.has_valid_tables {
            let mut rust = self.rust();
            return caught(|| question(&mut rust));
        }
        let mut damaged = Damaged {
            memory: &mut self.memory,
            buffer: &mut self.buffer.borrow_mut(),
            regions: self.regions.used(),
            devices: self.devices.used(),
        };
        caught(|| question(&mut damaged))
    }

    /// The Rust's memory over the bytes and tables as they are. The tables must be valid.
    pub fn rust(&mut self) -> Shared {
        if self.built.is_none() {
            let (regions, devices) = (self.regions.used(), self.devices.used());
            self.built = Some(pieces::with_devices(&self.memory, regions, devices, &self.buffer));
        }
        self.built.clone().unwrap()
    }

    /// The linear bytes as they are now.
    pub fn memory(&mut self) -> &mut Vec<u8> {
        self.carry_back();
        &mut self.memory
    }

    /// The same, to be changed by the host: the Rust's memory is built anew afterwards.
    pub fn memory_to_change(&mut self) -> &mut Vec<u8> {
        self.carry_back();
        self.built = None;
        &mut self.memory
    }

    /// Reads the linear bytes back out of the Rust. The byte under a device cannot be seen through the Rust, nor one
    /// past 65,535: those keep their last known value, which is what 01 says of them.
    fn carry_back(&mut self) {
        let Some(rust) = &self.built else { return };
        let rust = rust.0.borrow();
        for (addr, byte) in (0..=65_535).zip(self.memory.iter_mut()) {
            if !own::device_covers(self.devices.used(), addr) {
                *byte = rust.read(addr).expect("the Rust has lost a byte");
            }
        }
    }

    pub fn set_tables(&mut self, regions: Table, devices: Table) {
        self.carry_back();
        self.built = None;
        self.regions = regions;
        self.devices = devices;
        self.meddled();
        self.has_valid_tables = own::valid(&self.regions, &self.devices, self.buffer.borrow().len());
    }

    pub fn add_region(&mut self, region: Entry) {
        self.carry_back();
        self.built = None;
        self.regions.add(region);
    }

    pub fn add_device(&mut self, device: Entry) {
        self.carry_back();
        self.built = None;
        self.devices.add(device);
    }

    /// An accepted step: these were the registers, these stores were taken, this was the state before.
    pub fn record(&mut self, registers: [u16; 8], stored: &[Old], before: Option<Whole>) {
        self.cursor = journal::record(&mut self.journal, self.cursor, registers, stored);
        if let Some(state) = before {
            self.past.keep(state, journal::room(&self.journal));
        }
        self.past.check(self.cursor.held);
    }

    /// The state before a step, where there is room for its record.
    pub fn whole_to_keep(&mut self) -> Option<Whole> {
        (journal::room(&self.journal) > 0).then(|| self.whole())
    }

    pub fn whole(&mut self) -> Whole {
        let device = self.buffer.borrow().clone();
        Whole { registers: self.registers, memory: self.memory().clone(), device }
    }

    /// Accepted set-register, protect, device and forget, and every load past 16 and 14, empty the journal. Its bytes stay.
    pub fn empty_journal(&mut self) {
        self.cursor = Cursor::default();
        self.past = Past::none();
    }

    /// The host has changed bytes or raw fields by itself.
    pub fn meddled(&mut self) {
        self.past = Past::broken(self.cursor.held);
    }
}

fn filled(length: u64, seed: u64) -> Vec<u8> {
    (0..length).map(|i| (seed * (i + 1) * 40_503 / 128 % 256) as u8).collect()
}
