//! The oracle's driver: reads the replay language on standard input and answers it by calling the unchanged Rust.
//!
//! One line in, one line out, the same line that `replay` writes. Where the Rust has no word on a line, since the
//! line lies outside document 01's domain, the driver answers by 01's words itself and puts `~` in front.
mod answers;
mod assembler_part;
mod assembling;
mod fields;
mod host;
mod instructions;
mod journal;
mod journal_part;
mod language;
mod machine_part;
mod memory_part;
mod own;
mod panics;
mod past;
mod pieces;
mod quiet;
mod source_part;
mod sourcing;
mod undo;
mod walk;

use answers::Answer;
use fields::Fields;
use host::Host;
use std::fs::File;
use std::io::{self, BufRead, BufWriter, Write};
use std::os::fd::{AsFd, AsRawFd};

/// A command takes its fields and answers; `None` where they are no fields of that command, and then it has changed
/// nothing.
type Command = fn(&mut Host, Fields) -> Option<Answer>;

/// Every command that the driver answers. A later part adds its rows, and a file of its own beside `memory_part`.
const COMMANDS: &[(&[u8], Command)] = &[
    // the language's own: what the host does to lent bytes and raw fields, and showing them
    (b"new", language::new),
    (b"poke", language::poke),
    (b"tables", language::tables),
    (b"regs", machine_part::regs),
    (b"state", language::state),
    // memory.rs and mmio.rs
    (b"byte", memory_part::byte),
    (b"word", memory_part::word),
    (b"put", memory_part::put),
    (b"putw", memory_part::putw),
    (b"protect", memory_part::protect),
    (b"device", memory_part::device),
    (b"load", memory_part::load),
    (b"loadn", memory_part::loadn),
    (b"read", memory_part::read),
    // machine.rs
    (b"set", machine_part::set),
    (b"step", machine_part::step),
    // run and journal, over the step of machine.rs
    (b"cursor", journal_part::cursor),
    (b"run", journal_part::run),
    (b"back", journal_part::back),
    (b"forget", journal_part::forget),
    // the decoder of machine.rs, encoder and printer of asm/mod.rs
    (b"decode", instructions::decode),
    (b"print", instructions::print),
    (b"encode", instructions::encode),
    // the assembler of asm/mod.rs
    (b"asm", assembler_part::asm),
    (b"asmn", assembler_part::asmn),
    (b"line", assembler_part::line),
    (b"listing", assembler_part::listing),
    // text from words, of 02's request 3, over decoder, encoder, printer and assembler
    (b"text", source_part::text),
    (b"textn", source_part::textn),
];

fn main() -> io::Result<()> {
    panics::listen();
    let mut host = Host::new(0, 0, 0, 0, 0);
    let mut out = BufWriter::new(answers_apart()?);
    for line in io::stdin().lock().split(b'\n') {
        let answer = answer(&mut host, &line?).unwrap_or_else(Answer::bad_line);
        writeln!(out, "{answer}")?;
    }
    out.flush()
}

/// In debug mode the Rust prints each step. So the answers go to a copy of standard output, and what is printed to
/// standard output itself goes nowhere.
fn answers_apart() -> io::Result<File> {
    let answers = io::stdout().as_fd().try_clone_to_owned()?;
    let nowhere = File::options().write(true).open("/dev/null")?;
    // SAFETY: both are open, and nothing was written to standard output yet
    if unsafe { dup2(nowhere.as_raw_fd(), io::stdout().as_raw_fd()) } < 0 {
        return Err(io::Error::last_os_error());
    }
    Ok(File::from(answers))
}

unsafe extern "C" {
    fn dup2(from: i32, to: i32) -> i32;
}

fn answer(host: &mut Host, line: &[u8]) -> Option<Answer> {
    let mut fields = Fields::of(line);
    let name = fields.field()?;
    let (_, command) = COMMANDS.iter().find(|(known, _)| *known == name)?;
    command(host, fields)
}
