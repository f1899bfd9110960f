//! The numbers, names and texts of the package as lines. `tests/c/table.c` prints those of the C header,
//! and `tools/rust-test` holds one against the other.

use std::mem::{offset_of, size_of};

use zelmotar::raw::{Counted, Pieces, Reply, Saved, Span, Text, Typed};
use zelmotar::{file_bytes, status_text, Call, Rule, Trailer};
use zelmotar::{EDITION, MAX_CALLS, MAX_CELLS, MAX_CODE, MAX_DEPTH, MAX_TERMS, MIN_CODE};
use zelmotar::{REGISTERS, STATUSES};

/// A call of each operation, in order.
fn operations() -> impl Iterator<Item = Call> {
    (0..).map_while(|operation| Call::try_from([operation, 0, 0, 0]).ok())
}

fn print_layout() {
    print!("answer of {} bytes:", size_of::<Reply>());
    print!(" status at {}", offset_of!(Reply, status));
    print!(" rule at {}", offset_of!(Reply, rule));
    print!(" value at {}", offset_of!(Reply, value));
    println!(" top at {}", offset_of!(Reply, top));
    print!("span of {} bytes:", size_of::<Span>());
    println!(" from at {} to at {}", offset_of!(Span, from), offset_of!(Span, to));
    print!("text of {} bytes:", size_of::<Text>());
    print!(" status at {}", offset_of!(Text, status));
    print!(" rule at {}", offset_of!(Text, rule));
    print!(" value at {}", offset_of!(Text, value));
    println!(" length at {}", offset_of!(Text, length));
    print!("typed of {} bytes:", size_of::<Typed>());
    print!(" status at {}", offset_of!(Typed, status));
    print!(" rule at {}", offset_of!(Typed, rule));
    print!(" value at {}", offset_of!(Typed, value));
    println!(" top at {}", offset_of!(Typed, top));
    print!("saved of {} bytes:", size_of::<Saved>());
    print!(" status at {}", offset_of!(Saved, status));
    print!(" rule at {}", offset_of!(Saved, rule));
    print!(" value at {}", offset_of!(Saved, value));
    print!(" top at {}", offset_of!(Saved, top));
    println!(" length at {}", offset_of!(Saved, length));
    print!("pieces of {} bytes:", size_of::<Pieces>());
    print!(" stand at {}", offset_of!(Pieces, stand));
    print!(" code at {}", offset_of!(Pieces, code));
    print!(" offset at {}", offset_of!(Pieces, offset));
    print!(" depth at {}", offset_of!(Pieces, depth));
    print!(" terms at {}", offset_of!(Pieces, terms));
    print!(" own at {}", offset_of!(Pieces, own));
    print!(" most at {}", offset_of!(Pieces, most));
    println!(" counts at {}", offset_of!(Pieces, counts));
    print!("counted of {} bytes:", size_of::<Counted>());
    print!(" status at {}", offset_of!(Counted, status));
    print!(" value at {}", offset_of!(Counted, value));
    print!(" terms at {}", offset_of!(Counted, terms));
    println!(" most at {}", offset_of!(Counted, most));
}

/// How long files are, and for how many words their trailers ask.
fn print_files() {
    println!("edition {EDITION}, a trailer of {} bytes", Trailer::BYTES);
    for top in [REGISTERS, REGISTERS + 1, MAX_CELLS] {
        println!("a file of {} bytes with top {top}", file_bytes(top));
    }
    for capacity in [0, 15, 16, 258, 4096, 4097, 0x0001_0010, 0x0100_0010, u32::MAX] {
        let file = [144, 0, capacity, EDITION].map(u32::to_le_bytes).concat();
        let words = Trailer::of(&file).map_or(0, Trailer::words);
        println!("{words} words for a capacity of {capacity}");
    }
}

fn main() {
    println!("version {}", env!("CARGO_PKG_VERSION"));
    println!("registers {REGISTERS}");
    println!("most cells {MAX_CELLS}");
    println!("most calls {MAX_CALLS}");
    println!("least code {MIN_CODE}");
    println!("most code {MAX_CODE}");
    println!("most depth {MAX_DEPTH}");
    println!("most terms {MAX_TERMS}");
    for status in STATUSES {
        println!("status {} {}: {}", status.number, status.name, status.text);
    }
    for rule in Rule::ALL {
        println!("rule {} {}: {rule}", rule.number(), rule.name());
    }
    for call in operations() {
        println!("operation {} {}", call.words()[0], call.name());
    }
    for number in (0..100).chain([u32::MAX]) {
        println!("{number} says {}", status_text(number));
    }
    print_files();
    print_layout();
}
