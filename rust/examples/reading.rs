//! One reading, feed 7 at 12 A, in a store that is collected; then it is looked at. README.md shows
//! it.
//!
//! Run it with `cargo run --release --example reading`.

use std::error::Error;

use zelmotar::{Call, Store};

const AMPS: u32 = 1;

fn main() -> Result<(), Box<dyn Error>> {
    let mut store = Store::new(40)?;
    store.run_all(&[
        Call::Symbol { d: 0, code: 7 },
        Call::Symbol { d: 1, code: AMPS },
        Call::Join { d: 0, a: 0, b: 1 },
        Call::Symbol { d: 1, code: 12 },
        Call::Join { d: 0, a: 0, b: 1 },
        Call::Wrap { d: 0, a: 0 },
    ])?;
    let live = store.collect()?;
    println!("register 0: {}; {live} cells are live", store.look(0));
    Ok(())
}
