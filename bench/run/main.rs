// Runs a program for a number of steps by the Rust's `step`. The language is that of main.rattle: standard input is the number of
// steps, as four bytes, low byte first; a byte that is not 0 where there is a device; a byte that is not looked at; and then the
// program. Standard output is a line for each number: what the run answered, the accepted steps, the registers, and a number made of
// the memory.
//
// It has C's main, not Rust's: Rust's start looks at the process's memory map, which some emulators cannot show.
#![no_main]
use rust16vm::devices::Device;
use rust16vm::machine::{Machine, State, registers};
use rust16vm::memory::{Addressable, LinearMemory};
use rust16vm::mmio::MemoryWithDevices;
use std::io::{Read, Write};

const BANK: u16 = 16;

/// A bank of bytes.
struct Bank([u8; BANK as usize]);

impl Device for Bank {
    fn read(&self, offset: usize) -> u8 {
        self.0[offset]
    }

    fn write(&mut self, offset: usize, value: u8) {
        self.0[offset] = value;
    }
}

fn sum_of(bytes: &[u8]) -> u64 {
    bytes.iter().fold(0, |sum, byte| sum % 4294967291 * 31 + *byte as u64)
}

/// What the last of at most n steps answered, and how many were accepted.
fn run<M: Addressable>(machine: &mut Machine<M>, n: u32) -> (u32, u32) {
    let mut count = 0;
    while count < n {
        match machine.step().expect("a step that is accepted") {
            State::Continue => count += 1,
            State::Debug => return (100, count + 1),
            State::Stop => return (101, count),
        }
    }
    (0, count)
}

#[unsafe(no_mangle)]
pub extern "C" fn main(_count: i32, _arguments: *const *const u8) -> i32 {
    let mut input = Vec::new();
    std::io::stdin().read_to_end(&mut input).expect("standard input");
    let steps = u32::from_le_bytes([input[0], input[1], input[2], input[3]]);
    let program: Vec<u16> = input[6..].chunks_exact(2).map(|pair| u16::from_le_bytes([pair[0], pair[1]])).collect();

    let mut linear = LinearMemory::new(65536);
    assert!(linear.write_program(&program));
    let mut memory = MemoryWithDevices::new(linear);
    if input[4] != 0 {
        memory.register_device(Bank([0; BANK as usize]), 60000, BANK).expect("a device");
    }
    let mut machine = Machine::new(memory);
    let (answer, count) = run(&mut machine, steps);

    let mut out = std::io::stdout();
    writeln!(out, "{answer}\n{count}").expect("standard output");
    for value in registers(&machine) {
        writeln!(out, "{value}").expect("standard output");
    }
    // The last byte cannot be read out with the others, nor a linear byte under a device: the program leaves these at 0.
    let mut bytes = machine.read_from_memory(0, 65535);
    bytes.push(0);
    writeln!(out, "{}", sum_of(&bytes)).expect("standard output");
    0
}
