//! The Rust's assembler tells standard error what it meets in a text. While it is called, that goes nowhere.
use std::fs::File;
use std::io;
use std::os::fd::{AsFd, AsRawFd, OwnedFd};
use std::sync::LazyLock;

struct Places {
    nowhere: File,
    usual: OwnedFd,
}

static PLACES: LazyLock<Places> = LazyLock::new(|| Places {
    nowhere: File::options().write(true).open("/dev/null").expect("there is no /dev/null"),
    usual: io::stderr().as_fd().try_clone_to_owned().expect("standard error could not be copied"),
});

/// Makes a call that does not unwind.
pub fn quietly<T>(call: impl FnOnce() -> T) -> T {
    point_to(PLACES.nowhere.as_raw_fd());
    let result = call();
    point_to(PLACES.usual.as_raw_fd());
    result
}

fn point_to(place: i32) {
    // SAFETY: both are open, and standard error holds nothing back that would go to the other place
    let done = unsafe { dup2(place, io::stderr().as_raw_fd()) };
    assert!(0 <= done, "standard error could not be pointed elsewhere");
}

unsafe extern "C" {
    fn dup2(from: i32, to: i32) -> i32;
}
