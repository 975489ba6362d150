//! What a step has stored, so that it can be recorded, or put back: a refusal changes nothing, but the Rust may have stored
//! when it panics (READINGS 10).
use crate::journal::Old;
use crate::pieces::Shared;
use rust16vm::memory::Addressable;
use std::cell::RefCell;
use std::rc::Rc;

/// The Rust's memory, with the old byte of every store that it took.
#[derive(Clone)]
pub struct Undoable {
    memory: Shared,
    old: Rc<RefCell<Vec<Old>>>,
}

impl Undoable {
    pub fn over(memory: Shared) -> Undoable {
        Undoable { memory, old: Rc::default() }
    }

    /// The stores that were taken, in their order: each address, and the byte that was there. One of an equal byte counts.
    pub fn replaced(&self) -> Vec<Old> {
        self.old.borrow().clone()
    }

    /// Puts every old byte back, the last first. An address that took a store takes it again.
    pub fn undo(mut self) {
        for (addr, value) in self.old.take().into_iter().rev() {
            assert!(self.memory.write(addr, value), "the Rust refused a byte where it had taken one");
        }
    }
}

impl Addressable for Undoable {
    fn read(&self, addr: u16) -> Option<u8> {
        self.memory.read(addr)
    }

    fn write(&mut self, addr: u16, value: u8) -> bool {
        let before = self.memory.read(addr);
        let taken = self.memory.write(addr, value);
        if let (true, Some(byte)) = (taken, before) {
            self.old.borrow_mut().push((addr, byte));
        }
        taken
    }
}
