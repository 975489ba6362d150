// Stand-in for the Rust's crate root, which is not in the text: it only names the modules.
pub mod asm;
pub mod devices;
pub mod memory;
pub mod mmio;

/// machine.rs as it stands, and beside it a look at the registers, which it shows to nobody outside its module.
pub mod machine {
    include!("machine.rs");

    pub fn registers<M: Addressable>(machine: &Machine<M>) -> [u16; 8] {
        machine.registers
    }
}
