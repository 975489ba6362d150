//! A panic of the Rust stands as a number of document 01: which one, by its place in the source.
use std::cell::{Cell, RefCell};
use std::panic::{self, AssertUnwindSafe};

/// File, line, number. The one table of them; a panic at any other line is answered `panic FILE:LINE`, which no
/// `replay` answers, so that it shows as a difference.
const PANICS: &[(&str, u32, u8)] = &[
    // `addr + 1` in `read2`: a word at 65,535 whose low byte is mapped
    ("memory.rs", 37, 3),
    // `addr + 1` in `write2`: a word at 65,535 whose low byte took the store
    ("memory.rs", 46, 3),
    // `addr+size` in `read_from_memory`: reading out past 65,535
    ("machine.rs", 335, 12),
    // `unreachable!` of the decoder: ArithRegReg with operator 7
    ("machine.rs", 202, 6),
    // `unwrap` of the fetched word
    ("machine.rs", 351, 2),
    // PC raised by Noop, and by all others
    ("machine.rs", 362, 9),
    ("machine.rs", 501, 9),
    // `curr + 2` of Call
    ("machine.rs", 492, 9),
    // `base + shift` of a word's and of a byte's load or store
    ("machine.rs", 411, 3),
    ("machine.rs", 427, 3),
    // Arith: sum, difference, product; remainder and quotient
    ("machine.rs", 522, 7),
    ("machine.rs", 523, 7),
    ("machine.rs", 524, 7),
    ("machine.rs", 529, 8),
    ("machine.rs", 531, 8),
    // ArithRegReg: remainder; sum, difference, product; quotient
    ("machine.rs", 549, 8),
    ("machine.rs", 550, 7),
    ("machine.rs", 551, 7),
    ("machine.rs", 552, 7),
    ("machine.rs", 553, 8),
    // its power, whose product overflows inside the standard library, at a line that each release has elsewhere. The
    // Rust calls nothing else there that panics
    ("num/mod.rs", ANY_LINE, 7),
    // a missing operand: the first, second and third of LDR to STB, the first and second of ADD to DIV
    ("asm/mod.rs", 521, 21),
    ("asm/mod.rs", 522, 21),
    ("asm/mod.rs", 532, 21),
    ("asm/mod.rs", 558, 21),
    ("asm/mod.rs", 559, 21),
    // the address after the 32,768th instruction
    ("asm/mod.rs", 381, 29),
];

const ANY_LINE: u32 = 0;

thread_local! {
    /// Whether the Rust is being called. Any other panic is the driver's own and ends it.
    static WATCHED: Cell<bool> = const { Cell::new(false) };
    /// Where the last watched panic was.
    static PLACE: RefCell<(String, u32)> = const { RefCell::new((String::new(), 0)) };
}

/// From now on a watched panic is noted and not printed.
pub fn listen() {
    let usual = panic::take_hook();
    panic::set_hook(Box::new(move |info| {
        if !WATCHED.get() {
            return usual(info);
        }
        if let Some(place) = info.location() {
            PLACE.set((short(place.file()), place.line()));
        }
    }));
}

/// The path below the Rust's `src/`, whatever folder it was built in.
fn short(file: &str) -> String {
    file.rsplit("src/").next().unwrap_or(file).to_string()
}

/// Calls the Rust. The error is the answer that its panic stands for.
pub fn caught<T>(call: impl FnOnce() -> T) -> Result<T, String> {
    WATCHED.set(true);
    let result = panic::catch_unwind(AssertUnwindSafe(call));
    WATCHED.set(false);
    result.map_err(|_| PLACE.with_borrow(|(file, line)| meaning(file, *line)))
}

fn meaning(file: &str, line: u32) -> String {
    match PANICS.iter().find(|row| row.0 == file && (row.1 == line || row.1 == ANY_LINE)) {
        Some((_, _, number)) => crate::answers::no(*number),
        None => format!("panic {file}:{line}"),
    }
}
