// Assembles a text again and again by the Rust. The language is that of main.rattle: standard input is how often, as two
// bytes, low byte first, and then the text; standard output is a number made of the words.
//
// It has C's main, not Rust's: Rust's start looks at the process's memory map, which some emulators cannot show.
#![no_main]
use rust16vm::asm::{encode_instructions, resolve_and_parse_assembly};
use std::hint::black_box;
use std::io::{Read, Write};

// As many words as ours are lent; those that the text does not fill are 0.
const ROOM: usize = 32767;

#[unsafe(no_mangle)]
pub extern "C" fn main(_count: i32, _arguments: *const *const u8) -> i32 {
    let mut input = Vec::new();
    std::io::stdin().read_to_end(&mut input).expect("standard input");
    let times = u16::from_le_bytes([input[0], input[1]]);
    let text = std::str::from_utf8(&input[2..]).expect("a text");

    let mut words = Vec::new();
    for _ in 0..times {
        let instructions = resolve_and_parse_assembly(black_box(text)).expect("a text that assembles");
        words = black_box(encode_instructions(&instructions));
    }
    words.resize(ROOM, 0);
    let number = words.iter().fold(0u64, |sum, word| sum % 4294967291 * 31 + *word as u64);
    writeln!(std::io::stdout(), "{number}").expect("standard output");
    0
}
