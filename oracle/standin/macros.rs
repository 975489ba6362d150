// Stand-in for the Rust's `asm/macros`, which is not in the text: `asm/mod.rs` names it and uses nothing of it.
