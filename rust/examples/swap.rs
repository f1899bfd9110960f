//! A controller is swapped: yesterday's readings are saved to a file, the words go with the old
//! controller, and the new one takes the store up again. Files that were damaged on the way are
//! refused.
//!
//! Run it with `cargo run --release --example swap [FILE]`. FILE is written, read and removed
//! again; it is `swap.store` if none is named.

use std::error::Error;
use std::{env, fs};

use zelmotar::{Refusal, Store, Trailer};

/// The old controller. A reading is a bracket of feed, unit and value; 1 is for A and 2 for mA.
/// What register 0 held before is dead, and does not go into the file.
fn yesterday() -> Result<Vec<u8>, Refusal> {
    let mut store = Store::new(48)?;
    store.type_str(0, "(7 2 118)")?;
    store.type_str(0, "(7 2 120) (7 2 125) (8 1 12)")?;
    println!("yesterday: {}, top {}", store.look(0), store.top());
    let file = store.to_file()?;
    println!("saved: {} bytes, top {}", file.len(), store.top());
    Ok(file)
}

/// Says why a file is refused.
fn print_refusal(what: &str, file: &[u8]) {
    match Store::from_file(file) {
        Ok(_) => println!("{what}: it is taken"),
        Err(refusal) => println!("{what}: {refusal}"),
    }
}

fn main() -> Result<(), Box<dyn Error>> {
    let name = env::args_os().nth(1).unwrap_or("swap.store".into());
    fs::write(&name, yesterday()?)?;
    println!("the controller is swapped");

    let mut file = fs::read(&name)?;
    fs::remove_file(&name)?;
    println!("the file asks for {} words", Trailer::of(&file).map_or(0, Trailer::words));
    let store = Store::from_file(&file)?;
    println!("today: {}, top {}", store.look(0), store.top());

    print_refusal("cut off after 100 bytes", &file[..100]);
    print_refusal("without its first 100 bytes", &file[100..]);
    // The lowest byte of the right end of cell 25, the first bracket behind nine symbols.
    file[8 * 9 + 4] ^= 16;
    print_refusal("with a bit changed", &file);
    Ok(())
}
