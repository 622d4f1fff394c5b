//! Writes the stored input and the expected output of the program `test_replay`.
//! From the repository's root:
//!
//!     cargo run --manifest-path harness/Cargo.toml --example replay -- crates/test_replay

fn main() {
    oracle::replay::stored().write();
}
