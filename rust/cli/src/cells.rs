//! What the two words of a cell say, which cells are reached, and what is wrong with a damaged one.
//!
//! The library judges stores, and says which rule a damaged cell breaks. What is here explains its verdict in
//! words.

use std::collections::BTreeMap;

use zelmotar::{Refusal, Rule, Store, FIRST_HEAP_CELL, MAX_CODE, MIN_CODE, REGISTERS};

/// The bit that says bracket; with a right end added, the second word of a bracket.
const BRACKET: u32 = 1 << 31;

/// The bits that are zero between calls: used, left chain and right chain.
const FLAGS: u32 = 7 << 28;

/// What the words of a cell say, whatever cell it is.
#[derive(Clone, Copy, Debug, PartialEq, Eq)]
pub enum Kind {
    /// A symbol and its code.
    Symbol(u32),
    /// An empty bracket.
    Empty,
    /// A bracket around the cells `l` to `r`.
    Run {
        /// The left end.
        l: usize,
        /// The right end, inclusive.
        r: usize,
    },
    /// None of these.
    Other,
}

/// What two words say.
pub fn kind(first: u32, second: u32) -> Kind {
    match (first, second) {
        (code @ 1.., 0) => Kind::Symbol(code),
        (0, BRACKET) => Kind::Empty,
        (l, second) if second > BRACKET && second & FLAGS == 0 => {
            Kind::Run { l: l as usize, r: (second - BRACKET) as usize }
        }
        _ => Kind::Other,
    }
}

/// What the words of cell `c` say.
pub fn kind_at(store: &Store, c: usize) -> Kind {
    kind(store.words()[2 * c], store.words()[2 * c + 1])
}

/// Which cells of a sound store are reached; registers are not asked after and count as reached.
///
/// References in the heap point down, so one sweep down meets every holder before what it holds: at
/// a cell, `low` is the lowest left end of the reached runs whose right end is not below it.
pub fn reached(store: &Store) -> Vec<bool> {
    let top = store.top();
    let mut lowest = vec![usize::MAX; top];
    let hold = |lowest: &mut Vec<usize>, c: usize| {
        if let Kind::Run { l, r } = kind_at(store, c) {
            lowest[r] = lowest[r].min(l);
        }
    };
    (0..REGISTERS).for_each(|c| hold(&mut lowest, c));
    let mut is_reached = vec![true; top];
    let mut low = usize::MAX;
    for c in (FIRST_HEAP_CELL..top).rev() {
        low = low.min(lowest[c]);
        is_reached[c] = low <= c;
        if is_reached[c] {
            hold(&mut lowest, c);
        }
    }
    is_reached
}

/// Every damaged cell of a store with the rule that it breaks, as the library judges it; none where the store is
/// refused for its length or its `top`.
///
/// The library names the first. So that one is made sound in a copy, and the copy checked again: whether a cell
/// is damaged does not depend on the others.
pub fn damaged(store: &Store) -> BTreeMap<usize, Rule> {
    let (mut words, top) = store.clone().into_parts();
    let mut found = BTreeMap::new();
    for _ in 0..store.capacity() {
        let checked = Store::from_parts(&mut words[..], top).check();
        let Err(Refusal::Damaged { cell, rule, .. }) = checked else { break };
        let c = cell as usize;
        found.insert(c, rule);
        words[2 * c..2 * c + 2].copy_from_slice(match c {
            ..REGISTERS => &[0, BRACKET],
            _ if c < top => &[MIN_CODE, 0],
            _ => &[0, 0],
        });
    }
    found
}

/// What is wrong with the words of cell `c` in a store with this `top`, where the library says that they break a
/// rule.
pub fn fault(rule: Rule, c: usize, first: u32, second: u32, top: usize) -> String {
    match rule {
        Rule::StrayBit => "bits 30 to 28 of a second word are zero between calls".to_string(),
        Rule::NotBracket => "a register is a bracket".to_string(),
        Rule::BadEmpty => "the first word of an empty bracket is 0".to_string(),
        Rule::BadSymbol => symbol_fault(first, second),
        Rule::BadEnds => ends_fault(c, first, second & !BRACKET, top),
        Rule::BeyondTop => format!("a cell from top, {top}, on is two zero words"),
    }
}

/// What is wrong with the words of a heap cell that is neither a bracket nor a symbol.
fn symbol_fault(first: u32, second: u32) -> String {
    if second != 0 {
        "a second word is 0, or has bit 31".to_string()
    } else if first < MIN_CODE {
        format!("only a cell from top on is two zero words: a symbol's code is {MIN_CODE} at least")
    } else {
        format!("a symbol's code is at most {MAX_CODE}")
    }
}

/// What is wrong with the ends of the bracket in cell `c`.
fn ends_fault(c: usize, l: u32, r: u32, top: usize) -> String {
    if l < FIRST_HEAP_CELL as u32 {
        format!("its left end, {l}, is below the first heap cell, {FIRST_HEAP_CELL}")
    } else if l > r {
        format!("its left end, {l}, is above its right end, {r}")
    } else if c < REGISTERS {
        format!("its right end, {r}, is not below top, {top}")
    } else {
        format!("its right end, {r}, is not below the cell itself")
    }
}

#[cfg(test)]
mod tests {
    use super::*;
    use zelmotar_model::make::rules::{break_cell, Place};
    use zelmotar_model::{make, random::Random};

    #[test]
    fn as_many_cells_are_reached_as_the_library_counts() {
        let mut random = Random::of("reached");
        for _ in 0..2000 {
            let capacity = make::capacity(&mut random);
            let (words, top) = make::sound(&mut random, capacity, make::Runs::Any);
            let store = Store::from_parts(words, top);
            let is_reached = reached(&store);
            let live = is_reached[FIRST_HEAP_CELL..].iter().filter(|&&it| it).count();
            assert_eq!(live as u32, store.clone().collect().unwrap());
            assert_eq!(
                is_reached[16..],
                zelmotar_model::plain::reached(store.words(), top)[16..top]
            );
        }
    }

    /// Words near every rule's edge, for a store of 24 cells with `top` 20.
    const EDGES: [u32; 18] = [
        0,
        1,
        15,
        16,
        17,
        18,
        19,
        20,
        23,
        24,
        MAX_CODE,
        MAX_CODE + 1,
        1 << 28,
        1 << 29,
        1 << 30,
        (1 << 31) - 1,
        u32::MAX,
        2,
    ];

    /// A store of 24 cells with `top` 20 and one of its cells as it is given.
    fn with(c: usize, first: u32, second: u32) -> Store {
        let (mut words, _) = Store::new(24).unwrap().into_parts();
        words[32..40].chunks_mut(2).for_each(|cell| cell[0] = MIN_CODE);
        (words[2 * c], words[2 * c + 1]) = (first, second);
        Store::from_parts(words, 20)
    }

    /// Whether what is said of a cell is so, figure by figure.
    fn is_so(said: &str, c: usize, first: u32, second: u32) -> bool {
        let (l, r) = (first, second & MAX_CODE);
        let is_bracket = second & FLAGS == 0 && second & BRACKET != 0;
        let limit = if c < REGISTERS { 20 } else { c as u32 };
        match said {
            "bits 30 to 28 of a second word are zero between calls" => second & FLAGS != 0,
            "a register is a bracket" => c < REGISTERS && second & BRACKET == 0,
            "the first word of an empty bracket is 0" => second == BRACKET && first != 0,
            "a second word is 0, or has bit 31" => second != 0 && second & BRACKET == 0,
            "a symbol's code is at most 268435455" => first > MAX_CODE && second == 0,
            "a cell from top, 20, on is two zero words" => c >= 20 && (first, second) != (0, 0),
            "only a cell from top on is two zero words: a symbol's code is 1 at least" => {
                c < 20 && (first, second) == (0, 0)
            }
            _ if said == format!("its left end, {l}, is below the first heap cell, 16") => {
                is_bracket && l < 16
            }
            _ if said == format!("its left end, {l}, is above its right end, {r}") => {
                is_bracket && l > r
            }
            _ if said == format!("its right end, {r}, is not below top, 20") => {
                is_bracket && c < REGISTERS && r >= limit
            }
            _ if said == format!("its right end, {r}, is not below the cell itself") => {
                is_bracket && c >= REGISTERS && r >= limit
            }
            _ => false,
        }
    }

    #[test]
    fn what_is_said_of_a_damaged_cell_is_so() {
        let seconds = EDGES.iter().flat_map(|&edge| [edge, edge | BRACKET]);
        let mut said_of = BTreeMap::new();
        for c in 0..24 {
            for (&first, second) in
                EDGES.iter().flat_map(|first| seconds.clone().map(move |s| (first, s)))
            {
                let found = damaged(&with(c, first, second));
                assert!(found.len() < 2 && found.keys().all(|&cell| cell == c), "{found:?}");
                if let Some(&rule) = found.get(&c) {
                    let said = fault(rule, c, first, second, 20);
                    assert!(is_so(&said, c, first, second), "{c} {first} {second:#x}: {said}");
                    *said_of.entry(rule.number()).or_insert(0) += 1;
                }
            }
        }
        assert!(said_of.keys().eq(&[1, 2, 3, 4, 5, 6]), "{said_of:?}");
        assert!(said_of.values().all(|&count| count > 100), "{said_of:?}");
    }

    #[test]
    fn every_damaged_cell_is_found_with_its_rule() {
        let mut random = Random::of("damaged cells");
        let mut found_in = [0; 3];
        for _ in 0..2000 {
            let capacity = make::capacity(&mut random);
            let (mut words, top) = make::sound(&mut random, capacity, make::Runs::Any);
            let mut broken = BTreeMap::new();
            for _ in 0..random.below(4) {
                let place = random.pick(&Place::ALL);
                let rule = random.pick(place.rules());
                if let Some(c) = break_cell(&mut random, &mut words, top, place, rule) {
                    broken.insert(c, Rule::from_number(rule).unwrap());
                }
            }
            found_in[broken.len().min(2)] += 1;
            let store = Store::from_parts(words, top);
            assert_eq!(damaged(&store), broken);
            // Nothing is said of cells where the store is refused for something else.
            let (words, _) = store.into_parts();
            assert_eq!(damaged(&Store::from_parts(words.clone(), 15)), BTreeMap::new());
            assert_eq!(damaged(&Store::from_parts(words[..31].to_vec(), 16)), BTreeMap::new());
        }
        assert!(found_in.iter().all(|&count| count > 200), "{found_in:?}");
    }
}
