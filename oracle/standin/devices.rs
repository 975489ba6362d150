// Stand-in for the Rust's `devices.rs`, which is not in the text: the two methods that `mmio.rs` calls.
pub trait Device {
    fn read(&self, offset: usize) -> u8;
    fn write(&mut self, offset: usize, value: u8);
}
