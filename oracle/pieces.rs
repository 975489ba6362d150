//! The Rust by pieces. It cannot protect, load or take a device once a machine with devices is made (READINGS 4), so
//! each question is put to a piece of it that is built for the question.
use crate::host::{Buffer, Entry};
use rust16vm::devices::Device;
use rust16vm::memory::{Addressable, LinearMemory};
use rust16vm::mmio::{DeviceBus, MemoryWithDevices};
use std::cell::RefCell;
use std::rc::Rc;

/// The port's device: a bank of lent bytes, from `base` on in the shared device buffer.
struct Bank {
    buffer: Buffer,
    base: usize,
}

impl Device for Bank {
    fn read(&self, offset: usize) -> u8 {
        self.buffer.borrow()[self.base + offset]
    }

    fn write(&mut self, offset: usize, value: u8) {
        self.buffer.borrow_mut()[self.base + offset] = value;
    }
}

/// The Rust's memory with its devices, shared so that a `Machine` made for one question can hold it too.
#[derive(Clone)]
pub struct Shared(pub Rc<RefCell<MemoryWithDevices>>);

impl Addressable for Shared {
    fn read(&self, addr: u16) -> Option<u8> {
        self.0.borrow().read(addr)
    }

    fn write(&mut self, addr: u16, value: u8) -> bool {
        self.0.borrow_mut().write(addr, value)
    }
}

/// The Rust's linear memory: the bytes first, since a region would keep them out, then the regions.
pub fn linear(bytes: &[u8], regions: &[Entry]) -> LinearMemory {
    let mut memory = LinearMemory::new(bytes.len());
    for (addr, value) in (0..=65_535).zip(bytes) {
        assert!(memory.write(addr, *value), "the Rust refused a byte of a fresh memory");
    }
    for (start, len) in regions {
        assert!(memory.as_read_only(*start, *len), "the Rust refused a region that it had taken");
    }
    memory
}

/// The linear memory under its devices. Each device has the next bytes of the device buffer.
pub fn with_devices(bytes: &[u8], regions: &[Entry], devices: &[Entry], buffer: &Buffer) -> Shared {
    let mut memory = MemoryWithDevices::new(linear(bytes, regions));
    let mut base = 0;
    for (start, end) in devices {
        let bank = Bank { buffer: buffer.clone(), base };
        let size = end - start;
        assert!(memory.register_device(bank, *start, size).is_ok(), "the Rust refused a device that it had taken");
        base += size as usize;
    }
    Shared(Rc::new(RefCell::new(memory)))
}

/// Whether the Rust takes a region beside these. It is asked of a memory of no bytes: the answer does not look at them.
pub fn takes_region(regions: &[Entry], (start, len): Entry) -> bool {
    linear(&[], regions).as_read_only(start, len)
}

/// Whether the Rust takes a device beside these; the number of its error if not. It is asked of a bus without memory.
pub fn takes_device(devices: &[Entry], start: u16, size: u16) -> Result<(), String> {
    let mut bus = DeviceBus::new();
    for (start, end) in devices {
        let taken = bus.register_device(nothing(), *start, end - start);
        assert!(taken.is_ok(), "the Rust refused a device that it had taken");
    }
    bus.register_device(nothing(), start, size).map_err(|error| match error.as_str() {
        "Memory region overflow" => crate::answers::no(12),
        "Memory region overlaps with existing device" => crate::answers::no(13),
        other => format!("error {other}"),
    })
}

/// A bank that nobody reads.
fn nothing() -> Bank {
    Bank { buffer: Buffer::default(), base: 0 }
}
