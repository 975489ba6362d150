//! The language's own commands: what the host does to lent bytes and raw fields, and showing the whole state.
use crate::answers::Answer;
use crate::fields::{Fields, JOURNAL, MEMORY, WORD};
use crate::host::{Host, Table};
use crate::journal::Cursor;

/// `new MEM DEV JOURNAL DEBUG SEED`
pub fn new(host: &mut Host, mut fields: Fields) -> Option<Answer> {
    let memory = fields.number(MEMORY)?;
    let device = fields.number(MEMORY)?;
    let journal = fields.number(JOURNAL)?;
    let debug = fields.number(1)?;
    let seed = fields.number(WORD)?;
    fields.end()?;
    *host = Host::new(memory, device, journal, debug, seed);
    Some(Answer::ok())
}

/// `poke memory/device/journal AT HEX`: within the buffer, else it is a bad line.
pub fn poke(host: &mut Host, mut fields: Fields) -> Option<Answer> {
    let whose = fields.field()?;
    let at = fields.number(JOURNAL)? as usize;
    let bytes = fields.text()?;
    fields.end()?;
    match whose {
        b"memory" => overwrite(host.memory_to_change(), at, &bytes)?,
        // the Rust's banks hold this buffer, so they see the change
        b"device" => overwrite(&mut host.buffer.borrow_mut(), at, &bytes)?,
        b"journal" => overwrite(&mut host.journal, at, &bytes)?,
        _ => return None,
    }
    host.meddled();
    Some(Answer::ok())
}

fn overwrite(buffer: &mut [u8], at: usize, bytes: &[u8]) -> Option<()> {
    buffer.get_mut(at..at + bytes.len())?.copy_from_slice(bytes);
    Some(())
}

/// `tables PC (start len)x8 DC (start end)x8`
pub fn tables(host: &mut Host, mut fields: Fields) -> Option<Answer> {
    let regions = table(&mut fields)?;
    let devices = table(&mut fields)?;
    fields.end()?;
    host.set_tables(regions, devices);
    Some(Answer::ok())
}

fn table(fields: &mut Fields) -> Option<Table> {
    let mut table = Table { count: fields.word()?, ..Table::default() };
    for entry in &mut table.entries {
        *entry = (fields.word()?, fields.word()?);
    }
    Some(table)
}

/// `state`
pub fn state(host: &mut Host, fields: Fields) -> Option<Answer> {
    fields.end()?;
    let registers = host.registers.map(|r| r.to_string()).join(",");
    let regions = shown(&host.regions);
    let devices = shown(&host.devices);
    let memory = adler(host.memory());
    let device = adler(&host.buffer.borrow());
    let journal = adler(&host.journal);
    let Host { debug, cursor: Cursor { next, held }, .. } = host;
    let line = format!("{registers} {debug} {regions} {devices} {next} {held} {memory} {device} {journal}");
    Some(host.answer(line))
}

/// The count, and all eight entries.
fn shown(table: &Table) -> String {
    let entries = table.entries.map(|(start, other)| format!("{start},{other}"));
    format!("{} {}", table.count, entries.join(";"))
}

/// Adler-32 in eight hex digits.
fn adler(bytes: &[u8]) -> String {
    let (mut a, mut b) = (1u32, 0u32);
    // so many bytes cannot overflow 32 bits before the remainders are taken
    for part in bytes.chunks(5_552) {
        for byte in part {
            a += *byte as u32;
            b += a;
        }
        a %= 65_521;
        b %= 65_521;
    }
    format!("{b:04x}{a:04x}")
}
