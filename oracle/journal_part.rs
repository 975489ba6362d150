//! Run and journal: added by 01, so the Rust has only the step. The records are read and written by `journal`, and every
//! store and every test of an address is asked of the Rust's memory.
use crate::answers::{Answer, no};
use crate::fields::{Fields, SIZE};
use crate::host::Host;
use crate::journal::{self, Cursor};
use crate::machine_part::{advance, step_text};
use rust16vm::machine::State;
use rust16vm::memory::Addressable;

/// `cursor NEXT HELD`
pub fn cursor(host: &mut Host, mut fields: Fields) -> Option<Answer> {
    let cursor = Cursor { next: fields.word()?, held: fields.word()? };
    fields.end()?;
    host.cursor = cursor;
    host.meddled();
    Some(Answer::ok())
}

/// `run N`: 1, then steps until N are accepted, or one is Debug, or one is not accepted.
pub fn run(host: &mut Host, mut fields: Fields) -> Option<Answer> {
    let most = fields.number(SIZE)?;
    fields.end()?;
    if !host.valid() {
        return Some(Answer::own(format!("{} 0", no(1))));
    }
    let (mut count, mut last) = (0, Ok(State::Continue));
    while count < most && last == Ok(State::Continue) {
        last = advance(host);
        count += matches!(last, Ok(State::Continue | State::Debug)) as u64;
    }
    Some(Answer::rust(format!("{} {count}", step_text(last))))
}

/// `forget`: 1.
pub fn forget(host: &mut Host, fields: Fields) -> Option<Answer> {
    fields.end()?;
    if !host.valid() {
        return Some(Answer::own(no(1)));
    }
    host.empty_journal();
    Some(Answer::own("ok"))
}

/// `back`: 1, 10, 11. It is the Rust's word where it came to a state that the Rust had been in.
pub fn back(host: &mut Host, fields: Fields) -> Option<Answer> {
    fields.end()?;
    if !host.valid() {
        return Some(Answer::own(no(1)));
    }
    if host.cursor.held == 0 {
        host.past.check(0);
        return Some(Answer::own(no(10)));
    }
    let expected = host.past.last();
    let restored = restore_newest(host);
    host.past.check(host.cursor.held);
    let Some(expected) = expected else {
        return Some(Answer::own(if restored { "ok".to_string() } else { no(11) }));
    };
    assert!(restored, "a record that a step wrote was refused");
    assert!(host.whole() == expected, "a step-back came to another state than the one before the step");
    Some(Answer::ok())
}

/// Restores second byte, first byte, registers, and moves back; nothing of it where the record is damaged.
fn restore_newest(host: &mut Host) -> bool {
    let before = journal::back(&host.journal, host.cursor);
    let Some((registers, old)) = journal::read(&mut host.journal, before.next) else { return false };
    let mut memory = host.rust();
    if !old.iter().all(|(address, _)| takes_store(&mut memory, *address)) {
        return false;
    }
    for (address, byte) in old.iter().rev() {
        assert!(memory.write(*address, *byte), "the Rust refused a byte where it takes one");
    }
    host.registers = registers;
    host.cursor = before;
    true
}

/// Whether the Rust takes a store there: it is asked to store the byte that is there.
fn takes_store(memory: &mut impl Addressable, address: u16) -> bool {
    memory.read(address).is_some_and(|byte| memory.write(address, byte))
}
