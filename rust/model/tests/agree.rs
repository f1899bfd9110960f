//! The three parts of the model, held against each other and against the rules said word for word.

use zelmotar_model::ordinary::{self, Better, Checks, Counter, Marks, Ordinary, Usual, WithBits};
use zelmotar_model::plain::{self, Cell, Typed, FIRST_HEAP_CELL};
use zelmotar_model::random::Random;
use zelmotar_model::trees::{Live, Name, Pool, Term, Trees};
use zelmotar_model::{make, make::pieces::Cut, make::Runs};

/// Cells reached by the words of the definition: registers first, then whatever lies between the
/// ends of something reached, until nothing is new.
fn reached_by_definition(words: &[u32], top: usize) -> Vec<bool> {
    let mut reached = vec![false; top];
    let holds = |holder: usize, c: usize| {
        let (l, second) = (words[2 * holder] as usize, words[2 * holder + 1]);
        second > 1 << 31 && l <= c && c <= (second - (1 << 31)) as usize
    };
    loop {
        let new: Vec<usize> = (FIRST_HEAP_CELL..top)
            .filter(|&c| !reached[c])
            .filter(|&c| {
                (0..top)
                    .any(|holder| (holder < FIRST_HEAP_CELL || reached[holder]) && holds(holder, c))
            })
            .collect();
        if new.is_empty() {
            return reached;
        }
        new.into_iter().for_each(|c| reached[c] = true);
    }
}

/// The words after a collection, by the words of the definition.
fn collected_by_definition(words: &[u32], top: usize) -> Vec<u32> {
    let reached = reached_by_definition(words, top);
    let place =
        |c: usize| FIRST_HEAP_CELL + (FIRST_HEAP_CELL..c).filter(|&below| reached[below]).count();
    let mut after = vec![0; words.len()];
    for c in (0..top).filter(|&c| c < FIRST_HEAP_CELL || reached[c]) {
        let (first, second) = (words[2 * c], words[2 * c + 1]);
        let to = if c < FIRST_HEAP_CELL { c } else { place(c) };
        let has_contents = second > 1 << 31;
        after[2 * to] = if has_contents { place(first as usize) as u32 } else { first };
        after[2 * to + 1] = if has_contents {
            (1 << 31) + place((second - (1 << 31)) as usize) as u32
        } else {
            second
        };
    }
    after
}

/// Words and `top` of a store.
type Lent = (Vec<u32>, usize);

/// The number of reached cells, by the words of the definition.
fn live_by_definition(words: &[u32], top: usize) -> usize {
    reached_by_definition(words, top).iter().filter(|&&reached| reached).count()
}

/// The store in which so many new cells for register `d` are laid, by the words of the definition.
///
/// # Errors
///
/// The store that is left where there is no room for them.
fn with_room_by_definition(
    words: &[u32],
    top: usize,
    need: usize,
    d: usize,
    operands: &[usize],
) -> Result<Lent, Lent> {
    let capacity = words.len() / 2;
    if top + need <= capacity {
        return Ok((words.to_vec(), top));
    }
    let collected =
        |words: &[u32]| (collected_by_definition(words, top), 16 + live_by_definition(words, top));
    let mut sought = words.to_vec();
    if !operands.contains(&d) {
        sought[2 * d..2 * d + 2].copy_from_slice(&[0, 1 << 31]);
    }
    match 16 + live_by_definition(&sought, top) + need <= capacity {
        true => Ok(collected(&sought)),
        false => Err(collected(words)),
    }
}

/// The cells of a register, in order.
fn held(words: &[u32], register: usize) -> Vec<[u32; 2]> {
    let (l, second) = (words[2 * register] as usize, words[2 * register + 1]);
    let run = if second == 1 << 31 { 0..0 } else { l..(second - (1 << 31)) as usize + 1 };
    run.map(|c| [words[2 * c], words[2 * c + 1]]).collect()
}

/// SYMBOL, WRAP or JOIN by the words of the definition, in a sound store: its status.
fn built_by_definition(lent: &mut Lent, call: [u32; 4]) -> u32 {
    let [operation, d, a, b] = call.map(|word| word as usize);
    let (operands, need) = match operation {
        2 => (vec![], 1),
        3 => (vec![a], 1),
        _ => (vec![a, b], held(&lent.0, a).len() + held(&lent.0, b).len()),
    };
    for (empty, shared) in [(a, b), (b, a)] {
        if operation == 4 && held(&lent.0, empty).is_empty() {
            lent.0.copy_within(2 * shared..2 * shared + 2, 2 * d);
            return 0;
        }
    }
    let (mut words, top) = match with_room_by_definition(&lent.0, lent.1, need, d, &operands) {
        Err(left) => {
            *lent = left;
            return 16;
        }
        Ok(found) => found,
    };
    let new = match operation {
        2 => vec![[call[2], 0]],
        3 => vec![[words[2 * a], words[2 * a + 1]]],
        _ => [held(&words, a), held(&words, b)].concat(),
    };
    words[2 * top..2 * (top + need)].copy_from_slice(new.as_flattened());
    words[2 * d..2 * d + 2].copy_from_slice(&around(top, top + need));
    *lent = (words, top + need);
    0
}

/// What is reached before register `d` is set.
fn live(words: &[u32], top: usize, d: usize) -> Live {
    Live { all: plain::live(words, top), others: plain::live_without(words, top, d) }
}

#[test]
fn random_sound_stores_are_sound() {
    let mut random = Random::of("sound stores");
    for _ in 0..5_000 {
        let capacity = make::capacity(&mut random);
        let runs = random.pick(&[Runs::Short, Runs::Recent, Runs::Any]);
        let (words, top) = make::sound(&mut random, capacity, runs);
        assert_eq!(plain::check(&words, top).status, 0, "{words:?} {top}");
    }
}

#[test]
fn plain_collects_as_the_definition_says() {
    let mut random = Random::of("collects");
    for _ in 0..5_000 {
        let capacity = random.within(16..=48);
        let runs = random.pick(&[Runs::Short, Runs::Any]);
        let (mut words, top) = make::sound(&mut random, capacity, runs);
        let (expected, live) =
            (collected_by_definition(&words, top), live_by_definition(&words, top));
        let reply = plain::collect(&mut words, top);
        assert_eq!(
            (reply.status, reply.value as usize, reply.top),
            (0, live, FIRST_HEAP_CELL + live)
        );
        assert_eq!(words, expected);
        assert_eq!(plain::check(&words, reply.top).status, 0);
    }
}

#[test]
fn collecting_keeps_what_registers_denote() {
    let mut random = Random::of("denotes");
    for _ in 0..3_000 {
        let capacity = make::capacity(&mut random);
        let (mut words, top) = make::sound(&mut random, capacity, Runs::Short);
        let mut trees = Trees::denoted_by(&words, top);
        let reply = plain::collect(&mut words, top);
        assert_eq!(trees.pool.denoted(&words, reply.top), trees.registers);
    }
}

#[test]
fn plain_calls_mean_what_trees_say() {
    let mut random = Random::of("calls");
    for _ in 0..10_000 {
        let capacity = make::capacity(&mut random);
        let (mut words, mut top) = make::sound(&mut random, capacity, Runs::Short);
        let mut trees = Trees::denoted_by(&words, top);
        let count = random.below(25);
        for call in make::calls(&mut random, count).chunks(4) {
            let live = live(&words, top, call[1] as usize);
            let expected = trees.step(call.try_into().unwrap(), live, capacity);
            let got = plain::step(&mut words, &mut top, call);
            assert_eq!(got, expected, "{call:?} with {live:?} of {capacity}");
            assert_eq!(trees.pool.denoted(&words, top), trees.registers, "{call:?}");
            assert_eq!(plain::check(&words, top).status, 0, "{call:?}");
        }
    }
}

/// A store for printing and a register of it: one like any other, deep or shared a great deal.
fn printable(random: &mut Random) -> (Vec<u32>, usize, usize) {
    let register = random.below(FIRST_HEAP_CELL);
    let (mut words, top) = match random.below(4) {
        0 => {
            let (brackets, most) = (random.within(62..=67), random.pick(&[0, 1, 3]));
            make::nest(random, brackets, most, register)
        }
        1 => {
            let levels = random.within(1..=70);
            make::doubled(random, levels, register)
        }
        _ => {
            let capacity = make::capacity(random);
            let runs = random.pick(&[Runs::Short, Runs::Recent, Runs::Any]);
            make::sound(random, capacity, runs)
        }
    };
    make::recode(random, &mut words, top);
    (words, top, register)
}

#[test]
fn plain_prints_what_trees_say() {
    let mut random = Random::of("prints");
    let mut met = [0; 23];
    for _ in 0..10_000 {
        let (words, top, register) = printable(&mut random);
        assert_eq!(plain::check(&words, top).status, 0, "{words:?} {top}");
        let trees = Trees::denoted_by(&words, top);
        let end = make::text_end(&words, top, register, 2_000);
        for register in [register, random.below(19)] {
            let mut space = make::text_space(&mut random, end);
            let got = plain::print(&words, top, register, &mut space);
            let (status, mut expected) = match trees.printed(register, space.len()) {
                Ok(text) => (0, text.into_bytes()),
                Err(status) => (status, Vec::new()),
            };
            let length = expected.len();
            expected.resize(space.len(), 0);
            assert_eq!(
                got,
                plain::Text { status, rule: 0, value: 0, length },
                "{register} {words:?}"
            );
            assert_eq!(space, expected, "{register} {words:?}");
            met[status as usize] += 1;
        }
    }
    for status in [0, 20, 21, 22] {
        assert!(met[status] > 100, "{status}: {met:?}");
    }
}

#[test]
fn the_quick_print_is_the_plain_one() {
    let mut random = Random::of("quick prints");
    let (usual, better) = (Usual::default(), Better::default());
    for _ in 0..10_000 {
        let (mut words, mut top, register) = printable(&mut random);
        if random.one_in(4) {
            make::damage(&mut random, &mut words, &mut top);
        }
        let end = make::text_end(&words, top, register, 2_000);
        for register in [register, random.below(19)] {
            let mut space = make::text_space(&mut random, end);
            let (mut ours, mut theirs) = (space.clone(), space.clone());
            let expected = plain::print(&words, top, register, &mut space);
            assert_eq!(usual.print(&words, top, register, &mut ours), expected);
            assert_eq!(better.print(&words, top, register, &mut theirs), expected);
            assert_eq!((&ours, &theirs), (&space, &space));
        }
    }
}

#[test]
fn a_text_is_that_of_the_rules() {
    // 66 67, then 65 (66 67) () in register 1; register 2 holds the last two of these.
    let mut words = vec![0; 42];
    plain::fresh(&mut words);
    let cells = [Cell::Symbol(66), Cell::Symbol(67), Cell::Symbol(65), Cell::Bracket(16, 17)];
    (16..).zip(cells).for_each(|(c, cell)| plain::put(&mut words, c, cell));
    plain::put(&mut words, 20, Cell::Empty);
    plain::put(&mut words, 1, Cell::Bracket(18, 20));
    plain::put(&mut words, 2, Cell::Bracket(19, 20));
    let text = |register: usize| -> (String, Vec<usize>) {
        plain::text(&words, register).map(|(byte, open)| (char::from(byte), open)).unzip()
    };
    assert_eq!(text(0), (String::new(), vec![]));
    let opens = vec![0, 0, 0, 1, 1, 1, 1, 1, 1, 1, 0, 1, 1];
    assert_eq!(text(1), ("65 (66 67) ()".into(), opens));
    assert_eq!(text(2).0, "(66 67) ()");
    assert_eq!(Trees::denoted_by(&words, 21).printed(1, 13), Ok("65 (66 67) ()".into()));
    assert_eq!(Trees::denoted_by(&words, 21).printed(1, 12), Err(22));
    words[2 * 18] = 1 << 28;
    let refused = plain::print(&words, 21, 16, &mut [7; 3]);
    assert_eq!(refused, plain::Text { status: 3, rule: 4, value: 18, length: 0 });
}

/// The two words of a bracket on the cells from `l` up to but not including `end`.
fn around(l: usize, end: usize) -> [u32; 2] {
    match l == end {
        true => [0, 1 << 31],
        false => [l as u32, (1 << 31) + end as u32 - 1],
    }
}

/// Lays an expression by the words of the definition: first what its brackets hold, from left to right and
/// each by the same rule, then its own terms side by side, each bracket on its own cells. The bracket around
/// it comes back.
fn laid_by_definition(
    pool: &Pool,
    expression: &[Name],
    words: &mut [u32],
    top: &mut usize,
) -> [u32; 2] {
    let mut own = Vec::new();
    for &name in expression {
        own.push(match pool.term(name) {
            Term::Symbol(code) => [*code, 0],
            Term::Parens(inside) => laid_by_definition(pool, inside, words, top),
        });
    }
    let l = *top;
    for cell in own {
        words[2 * *top..2 * *top + 2].copy_from_slice(&cell);
        *top += 1;
    }
    around(l, *top)
}

/// Typing by the words of the definition, in a sound store.
fn typed_by_definition(words: &mut Vec<u32>, top: usize, register: usize, text: &[u8]) -> Typed {
    let mut pool = Pool::default();
    if register > 15 {
        return Typed { status: 20, rule: 0, value: 0, top };
    }
    let expression = match pool.read(text) {
        Err((status, value)) => return Typed { status, rule: 0, value, top },
        Ok(expression) => expression,
    };
    let need = pool.all_terms(&expression);
    match with_room_by_definition(words, top, need, register, &[]) {
        Err((left, top)) => {
            *words = left;
            Typed { status: 16, rule: 0, value: 0, top }
        }
        Ok((found, mut top)) => {
            *words = found;
            let cell = laid_by_definition(&pool, &expression, words, &mut top);
            words[2 * register..2 * register + 2].copy_from_slice(&cell);
            Typed { status: 0, rule: 0, value: 0, top }
        }
    }
}

/// A store, a register and a text for it: one of an expression, spoilt or cut.
fn typeable(random: &mut Random) -> (Vec<u32>, usize, usize, Vec<u8>) {
    let mut text = make::text(random);
    match random.below(3) {
        0 => {}
        1 => make::spoil_text(random, &mut text),
        _ => make::cut_text(random, &mut text),
    }
    let capacity = random.within(16..=48);
    let runs = random.pick(&[Runs::Short, Runs::Any]);
    let (mut words, top) = make::sound(random, capacity, runs);
    let need = plain::read(&text).map_or(3, |(cells, _)| cells.len());
    make::crowd(random, &mut words, top, need);
    (words, top, random.below(17), text)
}

#[test]
fn plain_types_as_the_definition_says() {
    let mut random = Random::of("types");
    let mut met = [0; 24];
    for _ in 0..40_000 {
        let (mut words, top, register, text) = typeable(&mut random);
        let mut expected = words.clone();
        let told = typed_by_definition(&mut expected, top, register, &text);
        let shown = String::from_utf8_lossy(&text);
        assert_eq!(plain::type_in(&mut words, top, register, &text), told, "{shown}");
        assert_eq!(words, expected, "{shown}");
        assert_eq!(plain::check(&words, told.top).status, 0, "{shown}");
        met[told.status as usize] += 1;
    }
    for status in [0, 13, 16, 20, 21, 23] {
        assert!(met[status] > 300, "{status}: {met:?}");
    }
}

#[test]
fn plain_types_what_trees_say() {
    let mut random = Random::of("typed trees");
    let mut met = [0; 24];
    for _ in 0..20_000 {
        let (mut words, top, register, text) = typeable(&mut random);
        let mut trees = Trees::denoted_by(&words, top);
        let (live, capacity) = (live(&words, top, register), words.len() / 2);
        let expected = trees.type_in(register, &text, live, capacity);
        let got = plain::type_in(&mut words, top, register, &text);
        let shown = String::from_utf8_lossy(&text);
        assert_eq!((got.status, got.value), expected, "{shown}");
        assert_eq!(trees.pool.denoted(&words, got.top), trees.registers, "{shown}");
        // What is laid has the text that was typed.
        if got.status == 0 {
            assert_eq!(trees.printed(register, text.len()).map(String::into_bytes), Ok(text));
        }
        met[got.status as usize] += 1;
    }
    for status in [0, 13, 16, 20, 21, 23] {
        assert!(met[status] > 150, "{status}: {met:?}");
    }
}

#[test]
fn the_quick_typing_is_the_plain_one() {
    let mut random = Random::of("quick types");
    let (mut usual, mut bits) = (Usual::default(), WithBits::default());
    let mut better = Better::default();
    let mut met = [0; 24];
    for _ in 0..40_000 {
        let (mut words, mut top, register, text) = typeable(&mut random);
        if random.one_in(4) {
            make::damage(&mut random, &mut words, &mut top);
        }
        let mut ours = [words.clone(), words.clone(), words.clone()];
        let expected = plain::type_in(&mut words, top, register, &text);
        assert_eq!(usual.type_in(&mut ours[0], top, register, &text), expected);
        assert_eq!(bits.type_in(&mut ours[1], top, register, &text), expected);
        assert_eq!(better.type_in(&mut ours[2], top, register, &text), expected);
        assert!(ours.iter().all(|ours| *ours == words), "{}", String::from_utf8_lossy(&text));
        met[expected.status as usize] += 1;
    }
    for status in [0, 1, 2, 3, 13, 16, 20, 21, 23] {
        assert!(met[status] > 100, "{status}: {met:?}");
    }
}

/// What the quick counter says of a text that comes in pieces.
fn quick_count(pieces: &[&[u8]]) -> Result<(usize, usize), (u32, usize)> {
    let mut counter = Counter::default();
    pieces.iter().for_each(|piece| counter.feed(piece));
    counter.end()
}

#[test]
fn the_quick_count_is_that_of_trees() {
    let mut random = Random::of("quick counts");
    let mut met = [0; 2];
    for _ in 0..20_000 {
        let (.., text) = typeable(&mut random);
        let pieces = random.pick(&Cut::ALL).pieces(&mut random, &text);
        let counted = Pool::default().counted(&text);
        assert_eq!(quick_count(&pieces), counted, "{}", String::from_utf8_lossy(&text));
        met[usize::from(counted.is_ok())] += 1;
    }
    assert!(met.iter().all(|&count| count > 2_000), "{met:?}");
}

#[test]
fn a_text_is_read_as_the_rules_say() {
    let nest = |brackets| "(".repeat(brackets);
    for (text, status, offset) in [
        (" ".into(), 23, 0),
        (")".into(), 23, 0),
        ("x".into(), 23, 0),
        ("0".into(), 13, 0),
        ("01".into(), 13, 0),
        ("10 0".into(), 13, 3),
        ("(0)".into(), 13, 1),
        ("1)".into(), 23, 1),
        ("1(".into(), 23, 1),
        ("1  2".into(), 23, 2),
        ("( )".into(), 23, 1),
        ("(1 )".into(), 23, 3),
        ("()1".into(), 23, 2),
        ("())".into(), 23, 2),
        ("1 ".into(), 23, 2),
        ("(".into(), 23, 1),
        ("(1".into(), 23, 2),
        ("() ".into(), 23, 3),
        ("268435456".into(), 13, 8),
        ("99999999999".into(), 13, 8),
        ("(268435456".into(), 13, 9),
        (nest(70), 21, 64),
        (nest(64) + "1(", 23, 65),
        (nest(64) + ") ((", 21, 67),
        (nest(64) + &")".repeat(64) + "x", 23, 128),
    ] {
        assert_eq!(plain::read(text.as_bytes()), Err((status, offset)), "{text}");
        assert_eq!(Pool::default().read(text.as_bytes()), Err((status, offset)), "{text}");
    }
    let (cells, register) = plain::read(b"1 (2 (3) 4) 5 ()").expect("it is a text");
    let symbol = Cell::Symbol;
    assert_eq!(cells[..4], [symbol(3), symbol(2), Cell::Bracket(0, 0), symbol(4)]);
    assert_eq!(cells[4..], [symbol(1), Cell::Bracket(1, 3), symbol(5), Cell::Empty]);
    assert_eq!(register, Cell::Bracket(4, 7));
    assert_eq!(plain::read(b""), Ok((vec![], Cell::Empty)));
}

/// A text of so many symbols side by side.
fn symbols(count: usize) -> String {
    vec!["1"; count].join(" ")
}

#[test]
fn as_many_terms_as_may_be_and_one_more() {
    const MOST: usize = 65_536;
    let (open, shut) = ("(".repeat(64), ")".repeat(64));
    let brackets = vec!["()"; MOST].join(" ");
    let deep = format!("{open}{}", symbols(MOST - 64));
    for (text, terms, most) in [
        (symbols(MOST), MOST, MOST),
        (brackets.clone(), MOST, MOST),
        (format!("({})", symbols(MOST - 1)), MOST, MOST - 1),
        (format!("{deep}{shut}"), MOST, MOST - 64),
        (format!("1 {open}{shut} {}", symbols(1_000)), 1_065, 1_002),
        (format!("1 {open}{}{shut} 2", symbols(10)), 76, 10),
    ] {
        assert_eq!(plain::read(text.as_bytes()).map(|(cells, _)| cells.len()), Ok(terms));
        assert_eq!(Pool::default().counted(text.as_bytes()), Ok((terms, most)));
        assert_eq!(quick_count(&[text.as_bytes()]), Ok((terms, most)));
    }
    let long = symbols(MOST) + " ";
    for (text, status, offset) in [
        (long.clone(), 23, long.len()),
        (format!("{long}1"), 24, long.len()),
        (format!("{long}0"), 24, long.len()),
        (format!("{long}("), 24, long.len()),
        (format!("{long}x"), 23, long.len()),
        (format!("{long} "), 23, long.len()),
        (format!("{long}1 2 x"), 24, long.len()),
        (format!("{}268435456", &long[..long.len() - 2]), 13, long.len() + 6),
        (format!("{brackets} ("), 24, brackets.len() + 1),
        (format!("{brackets}("), 23, brackets.len()),
        (format!("{deep} 1"), 24, deep.len() + 1),
        (format!("{deep} 0"), 24, deep.len() + 1),
        (format!("{deep} ("), 21, deep.len() + 1),
        (format!("{deep}) ("), 24, deep.len() + 2),
    ] {
        let (text, refused) = (text.as_bytes(), (status, offset));
        assert_eq!(plain::read(text), Err(refused), "{refused:?}");
        assert_eq!(Pool::default().counted(text), Err(refused), "{refused:?}");
        assert_eq!(quick_count(&[text]), Err(refused), "{refused:?}");
        // Nothing changes, whatever the room is.
        let mut words = vec![0; 32];
        let top = plain::fresh(&mut words).top;
        let (told, before) = (Typed { status, rule: 0, value: offset, top }, words.clone());
        assert_eq!(plain::type_in(&mut words, top, 0, text), told);
        assert_eq!(Usual::default().type_in(&mut words, top, 0, text), told);
        assert_eq!(Better::default().type_in(&mut words, top, 0, text), told);
        assert_eq!(words, before, "{refused:?}");
    }
}

#[test]
fn long_texts_are_read_alike() {
    let mut random = Random::of("long texts");
    let (mut usual, mut met) = (Usual::default(), [0; 25]);
    let mut words = vec![0; 32];
    let top = plain::fresh(&mut words).top;
    for _ in 0..200 {
        let text = make::pieces::long(&mut random);
        let read = plain::read(&text).map(|(cells, _)| cells.len());
        assert_eq!(Pool::default().counted(&text).map(|(terms, _)| terms), read);
        assert_eq!(quick_count(&[&text]), Pool::default().counted(&text));
        let (status, value) = read.err().unwrap_or((16, 0));
        let told = Typed { status, rule: 0, value, top };
        assert_eq!(usual.type_in(&mut words, top, 0, &text), told);
        met[status as usize] += 1;
    }
    assert!([13, 16, 21, 23, 24].iter().all(|&status| met[status] > 0), "{met:?}");
}

/// Holds the quick store against the plain one: one batch, collecting alone, check and looks.
fn same_as_plain<C: Checks, M: Marks>(
    quick: &mut Ordinary<C, M>,
    words: &[u32],
    top: usize,
    calls: &[u32],
    answers: &[u32],
) {
    let mut ours = (words.to_vec(), answers.to_vec());
    let mut theirs = ours.clone();
    let expected = plain::run(&mut theirs.0, top, calls, &mut theirs.1);
    assert_eq!(quick.run(&mut ours.0, top, calls, &mut ours.1), expected);
    assert_eq!(ours, theirs);
    let (mut ours, mut theirs) = (words.to_vec(), words.to_vec());
    assert_eq!(quick.collect(&mut ours, top), plain::collect(&mut theirs, top));
    assert_eq!(ours, theirs);
    assert_eq!(quick.check(words, top), plain::check(words, top));
    for register in 0..=FIRST_HEAP_CELL {
        assert_eq!(quick.look(words, top, register), plain::look(words, top, register));
    }
}

#[test]
fn the_quick_store_is_the_plain_store() {
    let mut random = Random::of("quick");
    let (mut usual, mut bits) = (Usual::default(), WithBits::default());
    let mut better = Better::default();
    for _ in 0..20_000 {
        let capacity = make::capacity(&mut random);
        let runs = random.pick(&[Runs::Short, Runs::Recent, Runs::Any]);
        let (mut words, mut top) = make::sound(&mut random, capacity, runs);
        if random.one_in(3) {
            make::damage(&mut random, &mut words, &mut top);
        }
        let count = random.below(12);
        let calls = make::calls(&mut random, count);
        let answers = make::answers(&mut random, calls.len());
        same_as_plain(&mut usual, &words, top, &calls, &answers);
        same_as_plain(&mut bits, &words, top, &calls, &answers);
        same_as_plain(&mut better, &words, top, &calls, &answers);
    }
}

/// What came of a call or a text for which the store is collected. 0: there is room beside what register d
/// holds; 1: in place of it; 2: there is none as d is read; 3: there is none.
fn came(status: u32, reads_d: bool, live: Live, need: usize, capacity: usize) -> usize {
    let fits = |live: usize| 16 + live + need <= capacity;
    match (status, reads_d, fits(live.all), fits(live.others)) {
        (0, _, true, _) => 0,
        (0, false, false, true) => 1,
        (16, true, false, true) => 2,
        (16, _, false, false) => 3,
        _ => panic!("answered {status} with {live:?} and {need} to come of {capacity}"),
    }
}

#[test]
fn calls_find_room_as_the_definition_says() {
    let mut random = Random::of("room for calls");
    let mut met = [0; 4];
    for _ in 0..40_000 {
        let (capacity, operation) = (random.within(16..=40), random.pick(&[2, 3, 4, 4]));
        let (words, top, call) = make::tight_call(&mut random, capacity, operation);
        let [_, d, a, b] = call.map(|word| word as usize);
        let need = plain::need(&words, &call);
        let (live, capacity) = (live(&words, top, d), words.len() / 2);

        let mut trees = Trees::denoted_by(&words, top);
        let mut expected = (words.clone(), top);
        let status = built_by_definition(&mut expected, call);
        let mut left = (words.clone(), top);
        assert_eq!(plain::step(&mut left.0, &mut left.1, &call), (status, 0), "{call:?} {words:?}");
        assert_eq!(left, expected, "{call:?} {words:?}");
        assert_eq!(trees.step(call, live, capacity), (status, 0), "{call:?} {words:?}");
        assert_eq!(trees.pool.denoted(&left.0, left.1), trees.registers, "{call:?} {words:?}");
        same_as_plain(&mut Usual::default(), &words, top, &call, &[7; 2]);
        same_as_plain(&mut Better::default(), &words, top, &call, &[7; 2]);
        if top + need > capacity {
            let reads_d = operation == 3 && d == a || operation == 4 && (d == a || d == b);
            met[came(status, reads_d, live, need, capacity)] += 1;
        }
    }
    assert!(met.iter().all(|&count| count > 2_000), "{met:?}");
}

#[test]
fn texts_find_room_as_the_definition_says() {
    let mut random = Random::of("room for texts");
    let (mut usual, mut better) = (Usual::default(), Better::default());
    let mut met = [0; 4];
    for _ in 0..20_000 {
        let (capacity, most) = (random.within(16..=40), random.pick(&[1, 3, 10]));
        let (words, top, d, text) = make::tight_text(&mut random, capacity, most);
        let need = plain::read(&text).expect("nothing in it is refused").0.len();
        let (live, capacity) = (live(&words, top, d), words.len() / 2);

        let mut trees = Trees::denoted_by(&words, top);
        let mut ours = [(); 3].map(|()| words.clone());
        let mut expected = words.clone();
        let told = typed_by_definition(&mut expected, top, d, &text);
        assert_eq!(plain::type_in(&mut ours[0], top, d, &text), told);
        assert_eq!(usual.type_in(&mut ours[1], top, d, &text), told);
        assert_eq!(better.type_in(&mut ours[2], top, d, &text), told);
        assert!(ours.iter().all(|ours| *ours == expected), "{words:?}");
        assert_eq!(trees.type_in(d, &text, live, capacity), (told.status, 0));
        assert_eq!(trees.pool.denoted(&expected, told.top), trees.registers);
        if top + need > capacity {
            // A text reads no register.
            met[came(told.status, false, live, need, capacity)] += 1;
        }
    }
    assert!([0, 1, 3].iter().all(|&i| met[i] > 1_000), "{met:?}");
}

#[test]
fn the_quick_fresh_store_is_the_plain_one() {
    let mut random = Random::of("fresh");
    for n in 0..=8200 {
        let mut ours: Vec<u32> = (0..n).map(|_| random.word()).collect();
        let mut theirs = ours.clone();
        assert_eq!(ordinary::fresh(&mut ours), plain::fresh(&mut theirs));
        assert_eq!(ours, theirs);
    }
}
