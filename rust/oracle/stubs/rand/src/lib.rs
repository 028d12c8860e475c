//! STUB. `globals.rs` uses `rand::random` in the builtin `random`, which is handed to the host and not compared.

pub fn random<T>() -> T {
    panic!("stub: rand")
}
