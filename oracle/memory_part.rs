//! The memory part: memory.rs and mmio.rs, and the reading out of machine.rs.
use crate::answers::{Answer, hex, no};
use crate::fields::{Fields, ROOM, SIZE, WORD, WORDS};
use crate::host::Host;
use crate::own;
use crate::panics::caught;
use crate::pieces;
use rust16vm::machine::Machine;
use rust16vm::memory::Addressable;

/// `byte A`
pub fn byte(host: &mut Host, mut fields: Fields) -> Option<Answer> {
    let a = fields.word()?;
    fields.end()?;
    let found = host.asked(|memory| memory.read(a));
    Some(host.answer(read_text(found)))
}

/// `word A`
pub fn word(host: &mut Host, mut fields: Fields) -> Option<Answer> {
    let a = fields.word()?;
    fields.end()?;
    let found = host.asked(|memory| memory.read2(a));
    Some(host.answer(read_text(found)))
}

fn read_text<N: ToString>(found: Result<Option<N>, String>) -> String {
    match found {
        Ok(Some(number)) => number.to_string(),
        Ok(None) => "none".to_string(),
        Err(panic) => panic,
    }
}

/// `put A V`
pub fn put(host: &mut Host, mut fields: Fields) -> Option<Answer> {
    let a = fields.word()?;
    let v = fields.byte()?;
    fields.end()?;
    let stored = host.asked(|memory| memory.write(a, v));
    host.meddled();
    Some(host.answer(store_text(stored)))
}

/// `putw A W`: where the Rust panics it has stored the low byte, and the port leaves none behind (READINGS 1, 10). Only
/// the number is compared there, and the byte is put back.
pub fn putw(host: &mut Host, mut fields: Fields) -> Option<Answer> {
    let a = fields.word()?;
    let w = fields.word()?;
    fields.end()?;
    let before = host.asked(|memory| memory.read(a)).ok().flatten();
    let stored = host.asked(|memory| memory.write2(a, w));
    host.meddled();
    if let (Err(_), Some(low)) = (&stored, before) {
        host.asked(|memory| memory.write(a, low)).ok()?;
    }
    Some(host.answer(store_text(stored)))
}

fn store_text(stored: Result<bool, String>) -> String {
    match stored {
        Ok(true) => "ok".to_string(),
        Ok(false) => "failed".to_string(),
        Err(panic) => panic,
    }
}

/// `protect S L`: 1, 12, 13, 14. The Rust's are 13 and acceptance; 12 on protect is outside the domain.
pub fn protect(host: &mut Host, mut fields: Fields) -> Option<Answer> {
    let region = (fields.word()?, fields.word()?);
    fields.end()?;
    if !host.valid() {
        return Some(Answer::own(no(1)));
    }
    if !own::in_range(region) {
        return Some(Answer::own(no(12)));
    }
    Some(match caught(|| pieces::takes_region(host.regions.used(), region)) {
        Err(panic) => Answer::rust(panic),
        Ok(false) => Answer::rust(no(13)),
        Ok(true) if host.regions.full() => Answer::own(no(14)),
        Ok(true) => {
            host.add_region(region);
            host.empty_journal();
            Answer::ok()
        }
    })
}

/// `device S N`: 1, 12, 13, 14, 17. The Rust's are 12, 13 and acceptance.
pub fn device(host: &mut Host, mut fields: Fields) -> Option<Answer> {
    let start = fields.word()?;
    let size = fields.word()?;
    fields.end()?;
    if !host.valid() {
        return Some(Answer::own(no(1)));
    }
    match caught(|| pieces::takes_device(host.devices.used(), start, size)) {
        Err(panic) => return Some(Answer::rust(panic)),
        Ok(Err(refused)) => return Some(Answer::rust(refused)),
        Ok(Ok(())) => {}
    }
    if host.devices.full() {
        return Some(Answer::own(no(14)));
    }
    if host.buffer.borrow().len() < own::total(host.devices.used()) + size as usize {
        return Some(Answer::own(no(17)));
    }
    host.add_device((start, start + size));
    host.empty_journal();
    Some(Answer::ok())
}

/// `load W ..`
pub fn load(host: &mut Host, mut fields: Fields) -> Option<Answer> {
    let mut program = vec![];
    while fields.more() {
        program.push(fields.word()?);
    }
    if program.len() as u64 > WORDS {
        return None;
    }
    Some(write_program(host, &program))
}

/// `loadn COUNT W`
pub fn loadn(host: &mut Host, mut fields: Fields) -> Option<Answer> {
    let count = fields.number(WORDS)?;
    let w = fields.word()?;
    fields.end()?;
    Some(write_program(host, &vec![w; count as usize]))
}

/// 1, 16, 14, 15, 13. The Rust's are 15, 13 and acceptance.
fn write_program(host: &mut Host, program: &[u16]) -> Answer {
    if !host.valid() {
        return Answer::own(no(1));
    }
    if program.len() > 32_768 {
        return Answer::own(no(16));
    }
    if host.regions.full() {
        return Answer::own(no(14));
    }
    host.empty_journal();
    let whole = write_program_whole(host, program);
    let text = write_program_by_pieces(host, program);
    check_whole(host, whole, &text);
    Answer::rust(text)
}

/// `write_program` by the pieces that the Rust has beside devices: its `write2` over them, word by word up to the
/// first that fails, then its `as_read_only`.
fn write_program_by_pieces(host: &mut Host, program: &[u16]) -> String {
    let stored = host.asked(|memory| program.iter().enumerate().all(|(i, w)| memory.write2((2 * i) as u16, *w)));
    match stored {
        Err(panic) => return panic,
        Ok(false) => return no(15),
        Ok(true) => {}
    }
    let region = (0, program.len() as u16);
    match caught(|| pieces::takes_region(host.regions.used(), region)) {
        Err(panic) => panic,
        Ok(false) => no(13),
        Ok(true) => {
            host.add_region(region);
            "ok".to_string()
        }
    }
}

/// Without devices the Rust's own `write_program` can be run too: what it answers, and its bytes afterwards. (It does
/// not tell 15 from 13.)
fn write_program_whole(host: &mut Host, program: &[u16]) -> Option<(bool, Vec<u8>)> {
    if host.devices.count != 0 {
        return None;
    }
    let regions = host.regions.used().to_vec();
    let mut linear = pieces::linear(host.memory(), &regions);
    let accepted = linear.write_program(program);
    Some((accepted, (0..=65_535).map_while(|a| linear.read(a)).collect()))
}

/// The pieces must come to the same. If not, the driver ends: the comparison would not be with the Rust.
fn check_whole(host: &mut Host, whole: Option<(bool, Vec<u8>)>, text: &str) {
    let Some((accepted, bytes)) = whole else { return };
    assert_eq!(accepted, text == "ok", "write_program and its pieces answer differently");
    let reached = bytes.len();
    assert!(bytes == host.memory()[..reached], "write_program and its pieces leave other bytes");
}

/// `read START SIZE ROOM`: 1, 12, 19, then the count and the bytes. The Rust's are 12 and the bytes, by its
/// `read_from_memory`, whose size has sixteen bits: 12 on a wider size is the driver's own.
pub fn read(host: &mut Host, mut fields: Fields) -> Option<Answer> {
    let start = fields.word()?;
    let size = fields.number(SIZE)?;
    let room = fields.number(ROOM)? as usize;
    fields.end()?;
    let mut buffer = vec![0xEE; room];
    if !host.valid() {
        return Some(Answer::own(shown(no(1), &buffer)));
    }
    if size > WORD {
        return Some(Answer::own(shown(no(12), &buffer)));
    }
    let mut machine = Machine::new(host.rust());
    let bytes = match caught(|| machine.read_from_memory(start, size as u16)) {
        Err(panic) => return Some(Answer::rust(shown(panic, &buffer))),
        Ok(bytes) => bytes,
    };
    if (room as u64) < size {
        return Some(Answer::own(shown(no(19), &buffer)));
    }
    buffer[..bytes.len()].copy_from_slice(&bytes);
    Some(Answer::rust(shown(bytes.len().to_string(), &buffer)))
}

/// The answer, then the whole buffer.
fn shown(answer: String, buffer: &[u8]) -> String {
    format!("{answer} {}", hex(buffer))
}
